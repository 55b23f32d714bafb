/* Random and damaged sheets, plans, notes, lengths and allowances, put to check, pieces, search and finish: fuzz SECONDS SEED
 *
 * Every call is made twice on copies of the same bytes: on heap blocks of exactly their length, so that memcheck sees each access
 * outside, and on blocks with guard bytes around them. Both must return and leave the same, and what documents 01 and 02 allow. */
#include "hallplan.h"

#include <stdio.h>
#include <stdlib.h>
#include <string.h>
#include <time.h>

#define ROOM 512
#define GUARD_BYTES 32
#define GUARD 0xA5
#define MOST_ALLOWANCE 200
#define NUMBERS 14
#define LONGEST_SHEET 352
#define NO_LAG (HALLPLAN_REFUSED + 11)
#define TOO_LARGE (HALLPLAN_REFUSED + 12)
#define BAD_MARK (HALLPLAN_REFUSED + 13)
#define CHOICE 273
#define GREATEST_MEASURE 4095

struct bytes {
    size_t len;
    uint8_t at[ROOM];
};

/* A heap block with a copy of some bytes. */
struct block {
    uint8_t *base, *at;
    size_t len, guards;
};

static uint64_t state;
static unsigned long long cases, checks[2 + NUMBERS], piece_calls[1 + NUMBERS], searches[3 + NUMBERS], finishes[3 + NUMBERS];

static uint64_t next_random(void)
{
    state += 0x9E3779B97F4A7C15u;
    uint64_t z = (state ^ (state >> 30)) * 0xBF58476D1CE4E5B9u;
    z = (z ^ (z >> 27)) * 0x94D049BB133111EBu;
    return z ^ (z >> 31);
}

static unsigned below(unsigned bound)
{
    return (unsigned)(next_random() % bound);
}

static void must(int holds, const char *what)
{
    if (!holds) {
        printf("fuzz: case %llu: %s\n", cases, what);
        exit(1);
    }
}

static void put(struct bytes *b, unsigned byte)
{
    must(b->len < ROOM, "the generator's room");
    b->at[b->len++] = (uint8_t)byte;
}

/* A measure from 2 on, mostly below 2 + bound; now and then any, about the greatest, or above it. */
static unsigned some_measure(unsigned bound)
{
    switch (below(160)) {
    case 0:
    case 1:
    case 2: return 2 + below(GREATEST_MEASURE - 1);
    case 3: return GREATEST_MEASURE - 1 + below(4);
    case 4: return below(4) ? 2 + below(bound) : GREATEST_MEASURE + 1 + below(65535 - GREATEST_MEASURE);
    default: return 2 + below(bound);
    }
}

/* The fields whose bit stands: whether a measure is above the greatest. */
static int put_size(struct bytes *b, unsigned map, unsigned bound)
{
    int above = 0;
    for (unsigned axis = 0; axis < 3; axis++) {
        if (map >> axis & 1) {
            unsigned measure = some_measure(bound);
            above |= measure > GREATEST_MEASURE;
            put(b, measure % 256);
            put(b, measure / 256);
        }
    }
    return above;
}

/* Orders of so many pieces, each with one chance in `one_in`: how many. */
static unsigned put_orders(struct bytes *b, unsigned pieces, unsigned one_in)
{
    size_t count = b->len;
    put(b, 0);
    for (unsigned u = 0; u < pieces; u++) {
        for (unsigned v = 0; v < pieces; v++) {
            if (u != v && below(one_in) == 0) {
                put(b, u);
                put(b, v);
                b->at[count]++;
            }
        }
    }
    return b->at[count];
}

/* Lags: mostly small, now and then all of them 0. */
static void put_lags(struct bytes *b, unsigned orders)
{
    unsigned bound = below(12) == 0 ? 1 : below(3) ? 4 : 256;
    for (unsigned i = 0; i < orders; i++) {
        put(b, below(bound));
    }
}

/* A walkway: mostly small, now and then any, or 0. */
static void put_walkway(struct bytes *b)
{
    put(b, below(12) == 0 ? 0 : below(3) ? 1 + below(3) : 1 + below(255));
}

/* A sheet that mostly reads, now and then one of the longest: the number of its pieces, whether a measure is above the greatest, and where the map of
 * each piece stands. */
static unsigned make_sheet(struct bytes *sheet, int *above, size_t *maps_at)
{
    static const unsigned maps[] = {0x0F, 0x1F, 0x2F, 0x3F, 0x5F, 0x7F, 0x8F, 0x9F, 0xDF};
    int full = below(64) == 0;
    unsigned map = full ? 0xFF : below(8) ? maps[below(9)] : below(256), pieces = map >> 3 & 1 ? full ? 10 : 1 + below(10) : 0;
    unsigned bound = 1 + below(6), orders = 0, turning = below(3);
    sheet->len = 0;
    put(sheet, map);
    *above = put_size(sheet, map, 3 * bound);
    if (pieces) {
        put(sheet, pieces);
    }
    for (unsigned u = 0; u < pieces; u++) {
        unsigned bits = full ? 7 : below(8);
        bits |= turning && below(turning) == 0 ? 8 : 0;
        maps_at[u] = sheet->len;
        put(sheet, bits);
        *above |= put_size(sheet, bits, bound);
    }
    if (map >> 4 & 1 && pieces > 0) {
        orders = put_orders(sheet, pieces, full ? 1 : 1 + below(3 * pieces));
    }
    if (map >> 5 & 1) {
        put(sheet, 1 + below(255));
        put(sheet, below(256));
    }
    if (map >> 6 & 1) {
        put_lags(sheet, orders);
    }
    if (map >> 7 & 1) {
        put_walkway(sheet);
    }
    must(!full || sheet->len == LONGEST_SHEET, "the longest sheet");
    return pieces;
}

static void make_random(struct bytes *b, size_t most)
{
    unsigned bound = 1 + below(256);
    b->len = below((unsigned)most + 1);
    for (size_t i = 0; i < b->len; i++) {
        b->at[i] = (uint8_t)below(bound);
    }
}

static void damage(struct bytes *b)
{
    for (unsigned times = 1 + below(3); times > 0 && b->len > 0; times--) {
        size_t i = below((unsigned)b->len);
        switch (below(6)) {
        case 0: b->at[i] = (uint8_t)below(256); break;
        case 1: b->at[i] ^= (uint8_t)(1u << below(8)); break;
        case 2: b->at[i]++; break;
        case 3: b->at[i] = 0; break;
        case 4: b->len = i; break;
        default: put(b, below(256)); break;
        }
    }
}

/* A note by chance: the opening one, a row of turns, any bytes; often with a choice. */
static void make_note(struct bytes *note)
{
    memset(note->at, 0, ROOM);
    note->len = HALLPLAN_NOTE_BYTES;
    unsigned length = below(below(2) ? 12 : 271);
    switch (below(8)) {
    case 0: make_random(note, 300); break;
    case 1:
    case 2:
    case 3:
    case 4: break;
    default:
        note->at[0] = (uint8_t)below(3);
        note->at[1] = (uint8_t)(length % 256);
        note->at[2] = (uint8_t)(length / 256);
        for (unsigned i = 0; i < length; i++) {
            note->at[3 + i] = (uint8_t)below(2);
        }
    }
    if (note->len == HALLPLAN_NOTE_BYTES && below(2)) {
        unsigned choice = below(1u << below(12));
        note->at[CHOICE] = (uint8_t)(choice % 256);
        note->at[CHOICE + 1] = (uint8_t)(choice / 256);
    }
}

/* A plan with starts below a bound, mostly of the length that the sheet asks for, and mostly with marks of 0 and 1. */
static void make_plan(struct bytes *plan, unsigned pieces)
{
    make_random(plan, 80);
    if (below(8)) {
        unsigned bound = 1 + below(10), marks = below(3);
        plan->len = HALLPLAN_PIECE_BYTES * pieces;
        for (size_t i = 0; i < plan->len; i++) {
            size_t place = i % HALLPLAN_PIECE_BYTES;
            unsigned start = place % 2 && below(30) ? 0 : below(bound), mark = below(30) ? below(2) : below(256);
            plan->at[i] = (uint8_t)(place < 6 ? start : marks ? mark * (below(marks) == 0) : 0);
        }
    }
}

static struct block lend(const struct bytes *b, size_t guards)
{
    struct block block = {malloc(b->len + 2 * guards), NULL, b->len, guards};
    must(block.base != NULL, "no memory");
    memset(block.base, GUARD, b->len + 2 * guards);
    block.at = block.base + guards;
    memcpy(block.at, b->at, b->len);
    return block;
}

/* The bytes as they are now; the block is given back. */
static struct bytes take_back(struct block block)
{
    struct bytes b = {block.len, {0}};
    memcpy(b.at, block.at, b.len);
    for (size_t i = 0; i < block.guards; i++) {
        must(block.base[i] == GUARD && block.at[block.len + i] == GUARD, "a guard byte was written");
    }
    free(block.base);
    return b;
}

static int same(const struct bytes *a, const struct bytes *b)
{
    return a->len == b->len && memcmp(a->at, b->at, a->len) == 0;
}

/* A refusal of the sheet that document 02 adds. */
static int is_new(uint32_t answer)
{
    return answer == NO_LAG || answer == TOO_LARGE;
}

static uint32_t check_on(const struct bytes *sheet, const struct bytes *plan, size_t guards)
{
    struct block s = lend(sheet, guards), p = lend(plan, guards);
    uint32_t answer = hallplan_check(s.at, s.len, p.at, p.len);
    struct bytes s_left = take_back(s), p_left = take_back(p);
    must(same(&s_left, sheet) && same(&p_left, plan), "check wrote");
    return answer;
}

static uint32_t check(const struct bytes *sheet, const struct bytes *plan)
{
    uint32_t answer = check_on(sheet, plan, 0);
    must(answer == check_on(sheet, plan, GUARD_BYTES), "check answers twice");
    int numbered = (answer > HALLPLAN_REFUSED && answer <= HALLPLAN_REFUSED + 8) || is_new(answer) || answer == BAD_MARK;
    must(answer <= HALLPLAN_YES || numbered, "an answer of check");
    checks[answer < 2 ? answer : 2 + answer - HALLPLAN_REFUSED]++;
    return answer;
}

static uint32_t pieces_on(const struct bytes *sheet, size_t guards)
{
    struct block s = lend(sheet, guards);
    uint32_t answer = hallplan_pieces(s.at, s.len);
    struct bytes left = take_back(s);
    must(same(&left, sheet), "pieces wrote");
    return answer;
}

/* The number of pieces, or the sheet's refusal; what check answered on the sheet and a plan goes with it. */
static void count_pieces(const struct bytes *sheet, const struct bytes *plan, uint32_t checked)
{
    uint32_t answer = pieces_on(sheet, 0);
    must(answer == pieces_on(sheet, GUARD_BYTES), "pieces answers twice");
    if (answer > HALLPLAN_REFUSED) {
        must((answer <= HALLPLAN_REFUSED + 7 || is_new(answer)) && checked == answer, "a refusal of pieces");
    } else {
        must(answer <= 10, "an answer of pieces");
        must((checked == HALLPLAN_REFUSED + 8) == (plan->len != HALLPLAN_PIECE_BYTES * (size_t)answer), "the number of pieces");
    }
    piece_calls[answer <= 10 ? 0 : 1 + answer - HALLPLAN_REFUSED]++;
}

/* The three buffers that a search writes. */
struct lent {
    struct bytes note, steps, plan;
};

static uint32_t search_on(const struct bytes *sheet, struct lent *lent, uint32_t allowance, size_t guards)
{
    struct block s = lend(sheet, guards), n = lend(&lent->note, guards), t = lend(&lent->steps, guards), p = lend(&lent->plan, guards);
    uint32_t answer = hallplan_search(s.at, s.len, n.at, n.len, allowance, t.at, t.len, p.at, p.len);
    struct bytes left = take_back(s);
    must(same(&left, sheet), "search wrote the sheet");
    lent->note = take_back(n);
    lent->steps = take_back(t);
    lent->plan = take_back(p);
    return answer;
}

static uint32_t steps_in(const struct bytes *steps)
{
    const uint8_t *t = steps->at;
    return t[0] + 256u * t[1] + 65536u * t[2] + 16777216u * t[3];
}

/* What document 01 says of a call that is not refused, as far as it can be seen from outside. */
static void answered(const struct bytes *sheet, const struct lent *before, const struct lent *after, uint32_t allowance, uint32_t answer)
{
    static const uint8_t state_of[] = {0, 2, 1};
    uint32_t steps = steps_in(&after->steps);
    must(answer <= HALLPLAN_NONE, "an answer of search");
    must(after->note.at[0] == state_of[answer], "the note's state");
    must(answer == HALLPLAN_SPENT ? steps == allowance : steps <= allowance, "the steps");
    if (answer == HALLPLAN_PLACED) {
        must(check(sheet, &after->plan) == HALLPLAN_YES, "a placed plan does not fit");
    } else {
        must(same(&before->plan, &after->plan), "the plan was written");
    }
}

static uint32_t search(const struct bytes *sheet, struct lent *lent, uint32_t allowance)
{
    struct lent before = *lent, again = *lent;
    uint32_t answer = search_on(sheet, lent, allowance, 0);
    must(answer == search_on(sheet, &again, allowance, GUARD_BYTES), "search answers twice");
    must(same(&lent->note, &again.note) && same(&lent->steps, &again.steps) && same(&lent->plan, &again.plan), "search leaves twice");
    if (answer > HALLPLAN_REFUSED) {
        int numbered = answer <= HALLPLAN_REFUSED + 8 || answer == HALLPLAN_REFUSED + 10 || is_new(answer);
        must(numbered, "a refusal of search");
        must(same(&lent->note, &before.note) && same(&lent->steps, &before.steps) && same(&lent->plan, &before.plan), "a refusal wrote");
    } else {
        answered(sheet, &before, lent, allowance, answer);
    }
    searches[answer < 3 ? answer : 3 + answer - HALLPLAN_REFUSED]++;
    return answer;
}

/* The three buffers that finish writes. */
struct finish_lent {
    struct bytes length, steps, plan;
};

static uint32_t finish_on(const struct bytes *sheet, struct finish_lent *lent, uint32_t allowance, size_t guards)
{
    struct block s = lend(sheet, guards), l = lend(&lent->length, guards), t = lend(&lent->steps, guards), p = lend(&lent->plan, guards);
    uint32_t answer = hallplan_finish(s.at, s.len, allowance, l.at, l.len, t.at, t.len, p.at, p.len);
    struct bytes left = take_back(s);
    must(same(&left, sheet), "finish wrote the sheet");
    lent->length = take_back(l);
    lent->steps = take_back(t);
    lent->plan = take_back(p);
    return answer;
}

/* Where the hall's shifts stand, if they are written. */
static size_t shifts_place(const struct bytes *sheet)
{
    return 1 + 2u * (sheet->at[0] & 1) + 2u * (sheet->at[0] >> 1 & 1);
}

/* The hall's shifts, on a sheet that reads. */
static uint32_t shifts_of(const struct bytes *sheet)
{
    const uint8_t *at = sheet->at + shifts_place(sheet);
    return sheet->at[0] >> 2 & 1 ? at[0] + 256u * at[1] : 1;
}

/* The sheet with other shifts, at most its own; with its own where a sheet cannot have them written, 0 and 1. */
static struct bytes with_shifts(const struct bytes *sheet, uint32_t shifts)
{
    struct bytes other = *sheet;
    if (shifts > 1) {
        other.at[shifts_place(sheet)] = (uint8_t)(shifts % 256);
        other.at[shifts_place(sheet) + 1] = (uint8_t)(shifts / 256);
    }
    return other;
}

/* Whether a search of the sheet with these shifts finds a plan, in a few steps; where they cannot be written, it does not. */
static int has_plan(const struct bytes *sheet, uint32_t shifts, size_t plan_len)
{
    struct bytes other = with_shifts(sheet, shifts);
    uint8_t note[HALLPLAN_NOTE_BYTES] = {0}, steps[HALLPLAN_STEP_BYTES], plan[HALLPLAN_MAX_PLAN_BYTES];
    return shifts > 1 && hallplan_search(other.at, other.len, note, sizeof note, 50, steps, sizeof steps, plan, plan_len) == HALLPLAN_PLACED;
}

/* What request #103 says of a call that is not refused, as far as it can be seen from outside: a length takes a step at least. */
static void finished(const struct bytes *sheet, const struct finish_lent *before, const struct finish_lent *after, uint32_t allowance, uint32_t answer)
{
    uint32_t length = after->length.at[0] + 256u * after->length.at[1], steps = steps_in(&after->steps), shifts = shifts_of(sheet);
    must(answer <= HALLPLAN_NONE, "an answer of finish");
    must(answer == HALLPLAN_SPENT ? steps == allowance : steps <= allowance, "the steps of finish");
    must(length <= shifts && length <= steps, "the length");
    if (answer == HALLPLAN_PLACED) {
        struct bytes shortened = with_shifts(sheet, length);
        must(length > 0 && check(sheet, &after->plan) == HALLPLAN_YES, "an earliest plan does not fit");
        must(check(&shortened, &after->plan) == HALLPLAN_YES, "an earliest plan does not fit its length");
        must(!has_plan(sheet, length - 1, after->plan.len), "a shorter length has a plan");
        return;
    }
    must(same(&before->plan, &after->plan), "finish wrote the plan");
    must(answer == HALLPLAN_NONE ? length == 0 && steps >= shifts : length < shifts, "the length without a plan");
    must(!has_plan(sheet, answer == HALLPLAN_NONE ? shifts : length, after->plan.len), "a length shown impossible has a plan");
}

static void finish(const struct bytes *sheet, struct finish_lent *lent, uint32_t allowance)
{
    struct finish_lent before = *lent, again = *lent;
    uint32_t answer = finish_on(sheet, lent, allowance, 0);
    must(answer == finish_on(sheet, &again, allowance, GUARD_BYTES), "finish answers twice");
    must(same(&lent->length, &again.length) && same(&lent->steps, &again.steps) && same(&lent->plan, &again.plan), "finish leaves twice");
    if (answer > HALLPLAN_REFUSED) {
        must(answer <= HALLPLAN_REFUSED + 8 || is_new(answer), "a refusal of finish");
        must(same(&lent->length, &before.length) && same(&lent->steps, &before.steps) && same(&lent->plan, &before.plan), "a refusal of finish wrote");
    } else {
        finished(sheet, &before, lent, allowance, answer);
    }
    finishes[answer < 3 ? answer : 3 + answer - HALLPLAN_REFUSED]++;
}

/* Finish on the sheet, mostly with buffers of the lengths due. */
static void finish_case(const struct bytes *sheet, unsigned pieces)
{
    static struct finish_lent lent;
    make_plan(&lent.plan, pieces);
    make_random(&lent.length, 5);
    make_random(&lent.steps, 8);
    lent.length.len = below(20) ? HALLPLAN_LENGTH_BYTES : lent.length.len;
    lent.steps.len = below(20) ? HALLPLAN_STEP_BYTES : lent.steps.len;
    finish(sheet, &lent, below(below(2) ? 12 : MOST_ALLOWANCE + 1));
}

/* The sheet, which is whole and has a walkway, beside the same without it: 3 or an earlier fault where it is 0, else the same number; a plan that
 * fits fits without it too; and where the sheet without it has none in a few steps, none is found with it. */
static void without_walkway(const struct bytes *sheet, const struct bytes *plan, uint32_t checked)
{
    struct bytes without = *sheet;
    without.at[0] ^= 0x80;
    without.len--;
    uint32_t plain = check(&without, plan);
    if (plain > HALLPLAN_REFUSED && plain != HALLPLAN_REFUSED + 8 && plain != BAD_MARK) {
        must(checked == plain, "an earlier fault than the walkway's");
        return;
    }
    if (sheet->at[sheet->len - 1] == 0) {
        must(checked == HALLPLAN_REFUSED + 3, "3 for a walkway of 0");
        return;
    }
    must(plain <= HALLPLAN_YES ? checked <= plain : checked == plain, "a plan fits only with the walkway");
    if (plain <= HALLPLAN_YES) {
        uint8_t note[HALLPLAN_NOTE_BYTES] = {0}, again[HALLPLAN_NOTE_BYTES] = {0}, steps[HALLPLAN_STEP_BYTES], found[HALLPLAN_MAX_PLAN_BYTES];
        uint32_t answer = hallplan_search(without.at, without.len, note, sizeof note, 50, steps, sizeof steps, found, plan->len);
        uint32_t with = hallplan_search(sheet->at, sheet->len, again, sizeof again, 50, steps, sizeof steps, found, plan->len);
        must(!(answer == HALLPLAN_NONE && with == HALLPLAN_PLACED), "placed only with the walkway");
    }
}

/* The sheet, which is whole, as check answered it: 13 exactly where a mark of a plan of the right length may not stand. And beside the same sheet with no
 * piece that may turn: it is refused by the same number, a plan without marks fits it as it fits the other, one with a mark gets 13, and where the
 * sheet has none in a few steps the other has no plan in as many. */
static void without_turning(const struct bytes *sheet, unsigned pieces, const size_t *maps_at, const struct bytes *plan, uint32_t checked)
{
    struct bytes upright = *sheet;
    int bad = 0, marked = 0;
    for (unsigned u = 0; u < pieces; u++) {
        unsigned mark = plan->len == HALLPLAN_PIECE_BYTES * (size_t)pieces ? plan->at[HALLPLAN_PIECE_BYTES * u + 6] : 0;
        bad |= mark > 1 || (mark == 1 && !(sheet->at[maps_at[u]] & 8));
        marked |= mark > 0;
        upright.at[maps_at[u]] &= 0xF7;
    }
    uint32_t plain = check(&upright, plan);
    if (checked > HALLPLAN_REFUSED && checked != BAD_MARK) {
        must(plain == checked, "a refusal of the sheet without turning");
        return;
    }
    must((checked == BAD_MARK) == bad, "13 exactly where a mark may not stand");
    must((plain == BAD_MARK) == marked, "13 where no piece may turn");
    must(marked || plain == checked, "a plan without marks");
    uint8_t note[HALLPLAN_NOTE_BYTES] = {0}, again[HALLPLAN_NOTE_BYTES] = {0}, steps[HALLPLAN_STEP_BYTES], found[HALLPLAN_MAX_PLAN_BYTES];
    uint32_t with = hallplan_search(sheet->at, sheet->len, note, sizeof note, 50, steps, sizeof steps, found, plan->len);
    uint32_t without = hallplan_search(upright.at, upright.len, again, sizeof again, 50, steps, sizeof steps, found, plan->len);
    must(!(with == HALLPLAN_NONE && without == HALLPLAN_PLACED), "placed only without turning");
    must(!(without == HALLPLAN_PLACED && with != HALLPLAN_PLACED), "placed upright, and not at once");
}

static void one_case(void)
{
    static struct bytes sheet;
    static struct lent lent;
    size_t maps_at[HALLPLAN_MAX_PIECES];
    int above, whole = 1;
    unsigned pieces = make_sheet(&sheet, &above, maps_at);
    switch (below(16)) {
    case 0:
    case 1:
    case 2:
    case 3: damage(&sheet); whole = 0; break;
    case 4: make_random(&sheet, LONGEST_SHEET + 1); whole = 0; break;
    default: break;
    }
    make_plan(&lent.plan, pieces);
    uint32_t checked = check(&sheet, &lent.plan);
    must(!whole || (checked == TOO_LARGE) == above, "12 exactly where a measure is above 4,095");
    /* orders without pieces are left out of the bytes, so that a walkway would be read as their count */
    if (whole && sheet.at[0] >> 7 && (sheet.at[0] >> 3 & 3) != 2) {
        without_walkway(&sheet, &lent.plan, checked);
    }
    if (whole) {
        without_turning(&sheet, pieces, maps_at, &lent.plan, checked);
    }
    count_pieces(&sheet, &lent.plan, checked);
    make_note(&lent.note);
    make_random(&lent.steps, 8);
    lent.steps.len = below(20) ? HALLPLAN_STEP_BYTES : lent.steps.len;
    uint32_t answer = search(&sheet, &lent, below(below(2) ? 6 : MOST_ALLOWANCE + 1));
    if (answer == HALLPLAN_SPENT) {
        must(search(&sheet, &lent, below(20)) < HALLPLAN_REFUSED, "a note that a call left is refused");
        damage(&lent.note);
        search(&sheet, &lent, below(20));
    }
    finish_case(&sheet, pieces);
}

static void print_counts(const char *what, const unsigned long long *counts, unsigned answers, const char *const *words)
{
    for (unsigned k = 0; k < answers; k++) {
        printf("%12llu  %s: %s\n", counts[k], what, words[k]);
    }
    for (unsigned number = 1; number < NUMBERS; number++) {
        if (counts[answers + number]) {
            printf("%12llu  %s: refused %u\n", counts[answers + number], what, number);
        }
    }
}

int main(int argc, char **argv)
{
    static const char *const yes_no[] = {"no", "yes"}, *const counted[] = {"counted"}, *const words[] = {"spent", "placed", "none"};
    double seconds = argc > 1 ? atof(argv[1]) : 60;
    uint64_t seed = argc > 2 ? strtoull(argv[2], NULL, 10) : 1;
    time_t began = time(NULL);
    while (difftime(time(NULL), began) < seconds) {
        state = seed * 0xD1B54A32D192ED03u + cases;
        one_case();
        cases++;
    }
    print_counts("check", checks, 2, yes_no);
    print_counts("pieces", piece_calls, 1, counted);
    print_counts("search", searches, 3, words);
    print_counts("finish", finishes, 3, words);
    printf("fuzz: %llu cases in %.0f s, seed %llu: nothing outside, nothing unexpected\n", cases, seconds, (unsigned long long)seed);
    return 0;
}
