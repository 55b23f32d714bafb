/* Check, pieces, search and finish as a C client calls them: every row of document 01's "Small halls", sheets with lags, measures about
 * 4,095, walkways and pieces that may turn, alone and as lists of calls with refused calls among them; choices above 255; marks; earliest finishes under
 * each allowance; wrong lengths; damaged notes. The buffers are compared whole, with a guard byte on each side. */
#include "hallplan.h"

#include <stdio.h>
#include <string.h>

#define GUARD 0xA5
#define MOST_PIECES 10
#define MOST_STEPS 12
#define CHOICE 273
#define MOST_LENGTHS 4095
#define ALL_ALLOWANCES 300

/* The buffers lent to be written. */
struct lent {
    uint8_t note[1 + HALLPLAN_NOTE_BYTES + 1];
    uint8_t steps[1 + HALLPLAN_STEP_BYTES + 1];
    uint8_t plan[1 + HALLPLAN_PIECE_BYTES * MOST_PIECES + 1];
};

/* A row of the table: what it gives, after how many steps, the starts of a placed plan and the row of turns after each step, with its choice and a
 * colon before it where that is not 0. */
struct row {
    const char *name, *sheet;
    size_t len, pieces;
    uint32_t answer, steps;
    const char *turns[MOST_STEPS + 1];
    uint8_t starts[3 * MOST_PIECES];
};

#define BYTES(text) text, sizeof text - 1
#define REFUSED(number) HALLPLAN_REFUSED + number, 0, {""}, {0}
#define BOXES "\x05\x05\x3A\x00\x14\x00\x05\x63\x00\x03\x00\x05\x07\x00\x35\x00\x05\x0B\x00\x5A\x00\x05\x1A\x00\x41\x00" \
    "\x07\x01\x03\x01\x04\x02\x00\x02\x01\x02\x03\x03\x00\x04\x03"
#define TWO_UNITS "\x0F\x02\x00\x02\x00\x02\x00\x02\x00\x00"
/* Three of 1x1x1 in so many shifts: orders 0,1 0,2 1,2 with lags 1, 5, 0; and the order 0,1 with lag 1. */
#define LAGS_1_5_0(shifts) "\x5C" shifts "\x00\x03\x00\x00\x00\x03\x00\x01\x00\x02\x01\x02\x01\x05\x00"
#define LAG_1(shifts) "\x5C" shifts "\x00\x03\x00\x00\x00\x01\x00\x01\x01"
/* Two of 4x1x1 in a hall of so many modules; with its walkway, and with two shifts. Three of 1x1x1 in a row, with a walkway of 1. */
#define FOURS(map, hall) map hall "\x02\x01\x04\x00\x01\x04\x00"
#define ROW(modules) "\x89" modules "\x00\x03\x00\x00\x00\x01"
#define LONGEST_SHEET 352
/* 4,095 is FF 0F, 4,096 is 00 10. */
#define MOST "\xFF\x0F"
#define MOST_3 MOST MOST MOST
/* A hall of 1x1x4095 with pieces of 255 and 3840 + more shifts, order 0,1. */
#define FILLED(more) "\x1C" MOST "\x02\x04\xFF\x00\x04" more "\x0F\x01\x00\x01"

static const struct row rows[] = {
    {"byte 00 alone", BYTES("\x00"), 0, HALLPLAN_PLACED, 1, {"", ""}, {0}},
    {"2x1x2; 2x1x1, 1x1x1; order 1,0", BYTES("\x1D\x02\x00\x02\x00\x02\x01\x02\x00\x00\x01\x01\x00"), 2, HALLPLAN_PLACED, 1, {"", ""}, {0, 0, 1, 0, 0, 0}},
    {"the same, no order", BYTES("\x0D\x02\x00\x02\x00\x02\x01\x02\x00\x00"), 2, HALLPLAN_PLACED, 2, {"", "0", "0"}, {0, 0, 0, 0, 0, 1}},
    {"2x1x1; same pieces, order 1,0", BYTES("\x19\x02\x00\x02\x01\x02\x00\x00\x01\x01\x00"), 2, HALLPLAN_NONE, 1, {"", ""}, {0}},
    {"1x1x1; 2x1x1", BYTES("\x08\x01\x01\x02\x00"), 1, HALLPLAN_NONE, 1, {"", ""}, {0}},
    {"1x1x1; 1x1x1", BYTES("\x08\x01\x00"), 1, HALLPLAN_PLACED, 1, {"", ""}, {0, 0, 0}},
    {"2x2x2; two of 1x1x1", BYTES(TWO_UNITS), 2, HALLPLAN_PLACED, 3, {"", "0", "00", "00"}, {0, 0, 0, 1, 0, 0}},
    {"2x1x1; three of 1x1x1", BYTES("\x09\x02\x00\x03\x00\x00\x00"), 3, HALLPLAN_NONE, 3, {"", "0", "1", ""}, {0}},
    {"3x1x3; three of 1x1x1; a circle", BYTES("\x1D\x03\x00\x03\x00\x03\x00\x00\x00\x03\x00\x01\x01\x02\x02\x00"), 3, HALLPLAN_NONE, 1, {"", ""}, {0}},
    {"bytes 01 01 00", BYTES("\x01\x01\x00"), 0, REFUSED(3)},
    {"bytes 01 02", BYTES("\x01\x02"), 0, REFUSED(1)},
    {"bytes 40", BYTES("\x40"), 0, REFUSED(11)},
    {"bytes 00 00", BYTES("\x00\x00"), 0, REFUSED(7)},
    {"bytes 08 00", BYTES("\x08\x00"), 0, REFUSED(4)},
    {"100x1x231; boxes of okp17-4", BYTES("\x1D\x64\x00\xE7\x00" BOXES), 5, HALLPLAN_PLACED, 1, {"", ""}, {0, 0, 211, 0, 0, 53, 0, 0, 0, 0, 0, 121, 0, 0, 56}},
    {"100x1x230; boxes of okp17-4", BYTES("\x1D\x64\x00\xE6\x00" BOXES), 5, HALLPLAN_NONE, 1, {"", ""}, {0}},
    /* 2 follows 0 directly after 5 shifts: 1 + 5 + 1 = 7 is more than by way of 1 */
    {"1x1x7; lags 1, 5, 0", BYTES(LAGS_1_5_0("\x07")), 3, HALLPLAN_PLACED, 1, {"", ""}, {0, 0, 0, 0, 0, 2, 0, 0, 6}},
    {"1x1x6; lags 1, 5, 0", BYTES(LAGS_1_5_0("\x06")), 3, HALLPLAN_NONE, 1, {"", ""}, {0}},
    /* 2 has no order: the first turns put it after 0 and after 1; in 3 shifts it must stand in the lag; 2 are too few */
    {"1x1x4; lag 1", BYTES(LAG_1("\x04")), 3, HALLPLAN_PLACED, 3, {"", "0", "00", "00"}, {0, 0, 0, 0, 0, 2, 0, 0, 3}},
    {"1x1x3; lag 1", BYTES(LAG_1("\x03")), 3, HALLPLAN_PLACED, 1, {"", ""}, {0, 0, 0, 0, 0, 2, 0, 0, 1}},
    {"1x1x2; lag 1", BYTES(LAG_1("\x02")), 3, HALLPLAN_NONE, 1, {"", ""}, {0}},
    {"an empty lag field and a byte", BYTES("\x40\x00"), 0, REFUSED(11)},
    {"a lag field of zeros", BYTES("\x58\x02\x00\x00\x01\x00\x01\x00"), 0, REFUSED(11)},
    {"a lag field of zeros and a byte", BYTES("\x58\x02\x00\x00\x01\x00\x01\x00\x01"), 0, REFUSED(11)},
    /* a piece as large as the hall, and a hall of one module less; two that fill the shifts, and two that take one more */
    {"4095x4095x4095; the same", BYTES("\x0F" MOST_3 "\x01\x07" MOST_3), 1, HALLPLAN_PLACED, 1, {"", ""}, {0, 0, 0}},
    {"4094x4095x4095; 4095x4095x4095", BYTES("\x0F\xFE\x0F" MOST MOST "\x01\x07" MOST_3), 1, HALLPLAN_NONE, 1, {"", ""}, {0}},
    {"1x1x4095; 1x1x255, 1x1x3840; order 0,1", BYTES(FILLED("\x00")), 2, HALLPLAN_PLACED, 1, {"", ""}, {0, 0, 0, 0, 0, 255}},
    {"1x1x4095; 1x1x255, 1x1x3841; order 0,1", BYTES(FILLED("\x01")), 2, HALLPLAN_NONE, 1, {"", ""}, {0}},
    {"a hall 4096 wide", BYTES("\x01\x00\x10"), 0, REFUSED(12)},
    {"a hall 4096 deep", BYTES("\x02\x00\x10"), 0, REFUSED(12)},
    {"4096 shifts", BYTES("\x04\x00\x10"), 0, REFUSED(12)},
    {"a piece 4096 wide", BYTES("\x08\x01\x01\x00\x10"), 0, REFUSED(12)},
    {"a piece 65535 deep", BYTES("\x08\x01\x02\xFF\xFF"), 0, REFUSED(12)},
    {"a piece of 4096 shifts, the second", BYTES("\x08\x02\x04" MOST "\x04\x00\x10"), 0, REFUSED(12)},
    {"4096 before a byte that is missing", BYTES("\x03\x00\x10"), 0, REFUSED(12)},
    {"4096, cut", BYTES("\x03\x02\x00\x00"), 0, REFUSED(1)},
    {"4096 after a written 1", BYTES("\x03\x01\x00\x00\x10"), 0, REFUSED(3)},
    {"4096 before a written 1", BYTES("\x03\x00\x10\x01\x00"), 0, REFUSED(12)},
    {"4096 before a bad count", BYTES("\x09\x00\x10\x00"), 0, REFUSED(12)},
    /* 4 + 4 touch in 8; a walkway of 1 takes 9, or two shifts, in which no walkway is needed */
    {"8x1x1; two of 4x1x1", BYTES(FOURS("\x09", "\x08\x00")), 2, HALLPLAN_PLACED, 2, {"", "0", "0"}, {0, 0, 0, 4, 0, 0}},
    {"the same, walkway 1", BYTES(FOURS("\x89", "\x08\x00") "\x01"), 2, HALLPLAN_NONE, 1, {"", ""}, {0}},
    {"9x1x1; walkway 1", BYTES(FOURS("\x89", "\x09\x00") "\x01"), 2, HALLPLAN_PLACED, 2, {"", "0", "0"}, {0, 0, 0, 5, 0, 0}},
    {"9x1x1; walkway 2", BYTES(FOURS("\x89", "\x09\x00") "\x02"), 2, HALLPLAN_NONE, 1, {"", ""}, {0}},
    {"8x1x2; walkway 1", BYTES(FOURS("\x8D", "\x08\x00\x02\x00") "\x01"), 2, HALLPLAN_PLACED, 2, {"", "0", "0"}, {0, 0, 0, 0, 0, 1}},
    {"1x2x2; walkway 255", BYTES("\x8E\x02\x00\x02\x00\x02\x00\x00\xFF"), 2, HALLPLAN_PLACED, 2, {"", "0", "0"}, {0, 0, 0, 0, 0, 1}},
    {"202x1x1; two of 1x1x1; walkway 200", BYTES("\x89\xCA\x00\x02\x00\x00\xC8"), 2, HALLPLAN_PLACED, 2, {"", "0", "0"}, {0, 0, 0, 201, 0, 0}},
    {"201x1x1; two of 1x1x1; walkway 200", BYTES("\x89\xC9\x00\x02\x00\x00\xC8"), 2, HALLPLAN_NONE, 1, {"", ""}, {0}},
    {"256x1x1; two of 1x1x1; walkway 255", BYTES("\x89\x00\x01\x02\x00\x00\xFF"), 2, HALLPLAN_NONE, 1, {"", ""}, {0}},
    /* 3 + 2 modules: a turn for each pair; in 4 each way of the first pair leaves no place for 2 */
    {"5x1x1; three of 1x1x1; walkway 1", BYTES(ROW("\x05")), 3, HALLPLAN_PLACED, 4, {"", "0", "00", "000", "000"}, {0, 0, 0, 2, 0, 0, 4, 0, 0}},
    {"4x1x1; three of 1x1x1; walkway 1", BYTES(ROW("\x04")), 3, HALLPLAN_NONE, 3, {"", "0", "1", ""}, {0}},
    /* with the order 0,1 and lag 1: 2 goes beside 0 */
    {"3x1x3; lag 1, walkway 1", BYTES("\xDD\x03\x00\x03\x00\x03\x00\x00\x00\x01\x00\x01\x01\x01"), 3, HALLPLAN_PLACED, 4, {"", "0", "00", "000", "000"},
     {0, 0, 0, 0, 0, 2, 2, 0, 0}},
    {"4x3x1; 4x3x1; walkway 255", BYTES("\x8B\x04\x00\x03\x00\x01\x03\x04\x00\x03\x00\xFF"), 1, HALLPLAN_PLACED, 1, {"", ""}, {0, 0, 0}},
    {"a walkway alone", BYTES("\x80\x05"), 0, HALLPLAN_PLACED, 1, {"", ""}, {0}},
    {"a walkway that is missing", BYTES("\x80"), 0, REFUSED(1)},
    {"a walkway of 0", BYTES("\x80\x00"), 0, REFUSED(3)},
    {"a walkway of 0 and a byte", BYTES("\x80\x00\x05"), 0, REFUSED(3)},
    {"a walkway and a byte", BYTES("\x80\x05\x05"), 0, REFUSED(7)},
    {"an empty lag field and a walkway", BYTES("\xC0\x05"), 0, REFUSED(11)},
    {"bit 7 of a piece", BYTES("\x88\x01\x80\x05"), 0, REFUSED(2)},
};

/* A row with pieces that may turn, and the marks of a placed plan. */
struct turn_row {
    struct row row;
    const char *marks;
};

/* Worked out by hand: compare/src/table.rs says how. A choice in which a piece is above the hall takes the one step that opens the next. */
#define SLABS_2 "\x02\x09\x02\x00\x09\x02\x00"
static const struct turn_row turn_rows[] = {
    {{"1x2x1; 2x1x1, which may turn", BYTES("\x0A\x02\x00\x01\x09\x02\x00"), 1, HALLPLAN_PLACED, 2, {"", "1:", "1:"}, {0}}, "1"},
    {{"1x2x1; 2x1x1, which may not", BYTES("\x0A\x02\x00\x01\x01\x02\x00"), 1, HALLPLAN_NONE, 1, {"", ""}, {0}}, ""},
    {{"1x1x1; 2x1x1, which may turn", BYTES("\x08\x01\x09\x02\x00"), 1, HALLPLAN_NONE, 2, {"", "1:", "1:"}, {0}}, ""},
    {{"1x1x2; 2x1x1, which may turn", BYTES("\x0C\x02\x00\x01\x09\x02\x00"), 1, HALLPLAN_NONE, 2, {"", "1:", "1:"}, {0}}, ""},
    {{"1x1x1; 1x1x1, which may turn", BYTES("\x08\x01\x08"), 1, HALLPLAN_PLACED, 1, {"", ""}, {0}}, "0"},
    {{"1x1x1; 2x2x1 and 1x1x1, which may turn", BYTES("\x08\x02\x0B\x02\x00\x02\x00\x08"), 2, HALLPLAN_NONE, 4, {"", "1:", "2:", "3:", "3:"}, {0}}, ""},
    {{"3x2x1; 3x1x1, 1x3x1; both may turn", BYTES("\x0B\x03\x00\x02\x00\x02\x09\x03\x00\x0A\x03\x00"), 2, HALLPLAN_PLACED, 4,
      {"", "1:", "2:", "2:0", "2:0"}, {0, 0, 0, 0, 1, 0}}, "01"},
    {{"3x2x1; 1x3x1, 3x1x1; both may turn", BYTES("\x0B\x03\x00\x02\x00\x02\x0A\x03\x00\x09\x03\x00"), 2, HALLPLAN_PLACED, 3,
      {"", "1:", "1:0", "1:0"}, {0, 0, 0, 0, 1, 0}}, "10"},
    {{"3x2x1; 3x1x1, 1x3x1; the second may turn", BYTES("\x0B\x03\x00\x02\x00\x02\x01\x03\x00\x0A\x03\x00"), 2, HALLPLAN_PLACED, 3,
      {"", "1:", "1:0", "1:0"}, {0, 0, 0, 0, 1, 0}}, "01"},
    {{"2x1x1; three of 1x1x1; 0 and 2 may turn", BYTES("\x09\x02\x00\x03\x08\x00\x08"), 3, HALLPLAN_NONE, 12,
      {"", "0", "1", "1:", "1:0", "1:1", "2:", "2:0", "2:1", "3:", "3:0", "3:1", "3:"}, {0}}, ""},
    {{"3x2x1; two of 2x1x1 that may turn; walkway 1", BYTES("\x8B\x03\x00\x02\x00" SLABS_2 "\x01"), 2, HALLPLAN_PLACED, 5,
      {"", "1:", "2:", "3:", "3:0", "3:0"}, {0, 0, 0, 2, 0, 0}}, "11"},
    {{"the same, walkway 2", BYTES("\x8B\x03\x00\x02\x00" SLABS_2 "\x02"), 2, HALLPLAN_NONE, 4, {"", "1:", "2:", "3:", "3:"}, {0}}, ""},
    {{"1x2x4; two of 2x1x1 that may turn; order 0,1, lag 2", BYTES("\x5E\x02\x00\x04\x00" SLABS_2 "\x01\x00\x01\x02"), 2, HALLPLAN_PLACED, 4,
      {"", "1:", "2:", "3:", "3:"}, {0, 0, 0, 0, 0, 3}}, "11"},
    {{"the same in 3 shifts", BYTES("\x5E\x02\x00\x03\x00" SLABS_2 "\x01\x00\x01\x02"), 2, HALLPLAN_NONE, 4, {"", "1:", "2:", "3:", "3:"}, {0}}, ""},
    {{"bit 4 of a piece", BYTES("\x08\x01\x10"), 0, REFUSED(2)}, ""},
    {{"bits 3 and 4 of a piece", BYTES("\x08\x01\x18"), 0, REFUSED(2)}, ""},
    {{"a byte after a piece that may turn", BYTES("\x08\x01\x08\x00"), 0, REFUSED(7)}, ""},
};

static int failed;

static void expect(int line, const char *name, uint32_t got, uint32_t want)
{
    if (got != want) {
        printf("tests/c_api.c:%d: %s: %u, and not %u\n", line, name, (unsigned)got, (unsigned)want);
        failed = 1;
    }
}

#define EXPECT(name, got, want) expect(__LINE__, (name), (got), (want))

static uint32_t lesser(uint32_t a, uint32_t b)
{
    return a < b ? a : b;
}

static const uint8_t *sheet_of(const struct row *row)
{
    return (const uint8_t *)row->sheet;
}

/* The opening note; nothing in the steps and the plan. */
static struct lent opening(void)
{
    struct lent lent;
    memset(&lent, GUARD, sizeof lent);
    memset(lent.note + 1, 0, HALLPLAN_NOTE_BYTES);
    return lent;
}

/* Starts and marks in plan bytes; a text of marks that is too short has zeros at its end. */
static void put_plan(uint8_t *plan, size_t pieces, const uint8_t *starts, const char *marks)
{
    memset(plan, 0, HALLPLAN_PIECE_BYTES * pieces);
    for (size_t i = 0; i < 3 * pieces; i++) {
        plan[HALLPLAN_PIECE_BYTES * (i / 3) + 2 * (i % 3)] = starts[i];
    }
    for (size_t piece = 0; piece < pieces && marks[piece]; piece++) {
        plan[HALLPLAN_PIECE_BYTES * piece + 6] = (uint8_t)(marks[piece] - '0');
    }
}

/* The buffers after a call that took the run from `from` to `to` steps: document 01's claim, from what the table says. */
static struct lent left_by(const struct row *row, const char *marks, uint32_t from, uint32_t to)
{
    struct lent lent = opening();
    const char *turns = row->turns[to];
    int placed = to == row->steps && row->answer == HALLPLAN_PLACED;
    if (strchr(turns, ':')) {
        lent.note[1 + CHOICE] = (uint8_t)(turns[0] - '0');
        turns += 2;
    }
    lent.note[1] = to < row->steps ? 0 : placed ? 2 : 1;
    lent.note[2] = (uint8_t)strlen(turns);
    for (size_t i = 0; turns[i]; i++) {
        lent.note[4 + i] = (uint8_t)(turns[i] - '0');
    }
    memset(lent.steps + 1, 0, HALLPLAN_STEP_BYTES);
    lent.steps[1] = (uint8_t)(to - from);
    if (placed) {
        put_plan(lent.plan + 1, row->pieces, row->starts, marks);
    }
    return lent;
}

/* A call that must be refused with `want`, and leave every byte. */
static void refused(const struct row *row, struct lent lent, size_t note, size_t steps, size_t plan, uint32_t want)
{
    struct lent before = lent;
    EXPECT(row->name, hallplan_search(sheet_of(row), row->len, lent.note + 1, note, 9, lent.steps + 1, steps, lent.plan + 1, plan), want);
    EXPECT(row->name, memcmp(&lent, &before, sizeof lent) == 0, 1);
}

/* Refused calls on the buffers as they are: other lengths, a damaged note, a refused sheet. */
static void refused_calls(const struct row *row, struct lent lent)
{
    static const struct row cut = {"a sheet cut short", BYTES("\x01\x02"), 0, REFUSED(1)};
    static const size_t lengths[][3] = {{274, 4, 0}, {276, 4, 0}, {273, 4, 0}, {0, 4, 0}, {275, 3, 0}, {275, 5, 0}, {275, 4, 1}, {275, 4, 7}, {274, 5, 1}};
    static const size_t damages[][2] = {{0, 3}, {2, 2}, {3, 2}, {272, 1}, {273, 16}, {274, 1}, {274, 255}};
    size_t plan = HALLPLAN_PIECE_BYTES * row->pieces;
    int sheet_reads = row->answer < HALLPLAN_REFUSED;
    refused(&cut, lent, HALLPLAN_NOTE_BYTES, 4, plan, cut.answer);
    for (size_t k = 0; k < sizeof lengths / sizeof lengths[0]; k++) {
        size_t wrong = lesser(plan + lengths[k][2], HALLPLAN_PIECE_BYTES * MOST_PIECES + 1);
        refused(row, lent, lengths[k][0], lengths[k][1], wrong, sheet_reads ? HALLPLAN_REFUSED + 8 : row->answer);
    }
    for (size_t k = 0; k < sizeof damages / sizeof damages[0]; k++) {
        struct lent damaged = lent;
        damaged.note[1 + damages[k][0]] = (uint8_t)damages[k][1];
        refused(row, damaged, HALLPLAN_NOTE_BYTES, 4, plan, sheet_reads ? HALLPLAN_REFUSED + 10 : row->answer);
    }
}

/* A list of calls from the opening note, with refused calls before each. */
static void list_of_calls(const struct row *row, const char *marks, const uint32_t *allowances, size_t calls)
{
    struct lent lent = opening();
    uint32_t sum = 0;
    size_t plan = HALLPLAN_PIECE_BYTES * row->pieces;
    for (size_t k = 0; k < calls; k++) {
        refused_calls(row, lent);
        uint32_t from = sum;
        sum = lesser(row->steps, lesser(row->steps, allowances[k]) + sum);
        struct lent want = row->answer < HALLPLAN_REFUSED ? left_by(row, marks, from, sum) : opening();
        memset(lent.steps + 1, GUARD, HALLPLAN_STEP_BYTES);
        memset(lent.plan + 1, GUARD, plan);
        uint32_t answer = hallplan_search(sheet_of(row), row->len, lent.note + 1, HALLPLAN_NOTE_BYTES, allowances[k], lent.steps + 1, 4, lent.plan + 1, plan);
        EXPECT(row->name, answer, sum < row->steps ? HALLPLAN_SPENT : row->answer);
        EXPECT(row->name, memcmp(&lent, &want, sizeof lent) == 0, 1);
        if (answer == HALLPLAN_PLACED) {
            EXPECT(row->name, hallplan_check(sheet_of(row), row->len, lent.plan + 1, plan), HALLPLAN_YES);
        }
    }
}

static void small_halls(void)
{
    static const uint32_t lists[][5] = {
        {1000000, 0, 1, 7, 1000000}, {0, 1, 1, 1, 1}, {1, 1, 1, 1, 1}, {2, 2, 2, 2, 2}, {0, 0, 3, 0, 0}, {0xFFFFFFFF, 0xFFFFFFFF, 1, 0, 2}};
    for (size_t r = 0; r < sizeof rows / sizeof rows[0]; r++) {
        for (size_t k = 0; k < sizeof lists / sizeof lists[0]; k++) {
            list_of_calls(&rows[r], "", lists[k], 5);
        }
    }
    static const uint32_t one_by_one[MOST_STEPS + 1] = {1, 1, 1, 1, 1, 1, 1, 1, 1, 1, 1, 1, 1};
    for (size_t r = 0; r < sizeof turn_rows / sizeof turn_rows[0]; r++) {
        const struct row *row = &turn_rows[r].row;
        for (size_t k = 0; k < sizeof lists / sizeof lists[0]; k++) {
            list_of_calls(row, turn_rows[r].marks, lists[k], 5);
        }
        list_of_calls(row, turn_rows[r].marks, one_by_one, MOST_STEPS + 1);
        /* over the choices, split at every step */
        for (uint32_t split = 0; split <= row->steps; split++) {
            uint32_t in_two[3] = {split, row->steps - split, 1};
            list_of_calls(row, turn_rows[r].marks, in_two, 3);
        }
    }
}

/* Nine or ten pieces that may turn, one after another in a hall 1 x 2: all of 1 x 1 but the last, so many modules wide. With 2 it is too wide until
 * it is turned, in the first choice with its digit, 256 or 512; with 3 it is too wide or too deep in each of 512 or 1,024. Each choice takes a step. */
struct chain {
    uint8_t sheet[64];
    size_t len, pieces;
    uint32_t steps, last;
};

static struct chain chain_of(uint8_t pieces, uint8_t width)
{
    struct chain c = {{0x1E, 2, 0, pieces, 0, pieces}, 6, pieces, 0, 0};
    for (uint8_t piece = 1; piece < pieces; piece++) {
        c.sheet[c.len++] = 8;
    }
    c.sheet[c.len++] = 9;
    c.sheet[c.len++] = width;
    c.sheet[c.len++] = 0;
    c.sheet[c.len++] = (uint8_t)(pieces - 1);
    for (uint8_t piece = 1; piece < pieces; piece++) {
        c.sheet[c.len++] = (uint8_t)(piece - 1);
        c.sheet[c.len++] = piece;
    }
    c.last = width == 2 ? 1u << (pieces - 1) : (1u << pieces) - 1;
    c.steps = c.last + 1;
    return c;
}

static void put_choice(uint8_t *note, uint32_t choice)
{
    note[CHOICE] = (uint8_t)(choice % 256);
    note[CHOICE + 1] = (uint8_t)(choice / 256);
}

/* The buffers after as many steps, of which the last call took some. */
static struct lent left_by_chain(const struct chain *c, int placed, uint32_t from, uint32_t to)
{
    static const uint8_t starts[3 * MOST_PIECES] = {0, 0, 0, 0, 0, 1, 0, 0, 2, 0, 0, 3, 0, 0, 4, 0, 0, 5, 0, 0, 6, 0, 0, 7, 0, 0, 8, 0, 0, 9};
    struct lent lent = opening();
    put_choice(lent.note + 1, lesser(to, c->last));
    lent.note[1] = to < c->steps ? 0 : placed ? 2 : 1;
    lent.steps[1] = (uint8_t)((to - from) % 256);
    lent.steps[2] = (uint8_t)((to - from) / 256);
    lent.steps[3] = lent.steps[4] = 0;
    if (to == c->steps && placed) {
        put_plan(lent.plan + 1, c->pieces, starts, c->pieces == 9 ? "000000001" : "0000000001");
    }
    return lent;
}

/* One call on the note that the steps before it leave. */
static void call_on_chain(const struct chain *c, int placed, uint32_t from, uint32_t allowance)
{
    uint32_t to = lesser(c->steps, from + allowance);
    struct lent lent = left_by_chain(c, placed, from, from), want = left_by_chain(c, placed, from, to);
    size_t plan = HALLPLAN_PIECE_BYTES * c->pieces;
    memset(lent.steps + 1, GUARD, HALLPLAN_STEP_BYTES);
    memset(lent.plan + 1, GUARD, plan);
    uint32_t answer = hallplan_search(c->sheet, c->len, lent.note + 1, HALLPLAN_NOTE_BYTES, allowance, lent.steps + 1, 4, lent.plan + 1, plan);
    EXPECT("a chain", answer, to < c->steps ? HALLPLAN_SPENT : placed ? HALLPLAN_PLACED : HALLPLAN_NONE);
    EXPECT("a chain", memcmp(&lent, &want, sizeof lent) == 0, 1);
    if (answer == HALLPLAN_PLACED) {
        EXPECT("a chain", hallplan_check(c->sheet, c->len, lent.plan + 1, plan), HALLPLAN_YES);
    }
}

/* A note with this state and choice and an empty row, in a call without steps. */
static uint32_t chain_note(const struct chain *c, uint8_t state, uint32_t choice)
{
    struct lent lent = opening();
    lent.note[1] = state;
    put_choice(lent.note + 1, choice);
    return hallplan_search(c->sheet, c->len, lent.note + 1, HALLPLAN_NOTE_BYTES, 0, lent.steps + 1, 4, lent.plan + 1, HALLPLAN_PIECE_BYTES * c->pieces);
}

/* Choices above 255: step by step, in lists of two calls split at each step of nine pieces, and at some of ten; notes with choices up to the last and
 * beyond it, open and none. */
static void choices_above_255(void)
{
    for (uint8_t pieces = 9; pieces <= 10; pieces++) {
        for (uint8_t width = 2; width <= 3; width++) {
            struct chain c = chain_of(pieces, width);
            int placed = width == 2;
            for (uint32_t split = 0; split <= c.steps; split++) {
                call_on_chain(&c, placed, split, 1);
                if (pieces == 9 || split % 64 == 0 || split % 256 < 2 || split % 256 == 255) {
                    call_on_chain(&c, placed, 0, split);
                    call_on_chain(&c, placed, split, c.steps - split);
                }
            }
            call_on_chain(&c, placed, c.steps, 7);
            uint32_t last = (1u << pieces) - 1;
            static const uint32_t beyond[] = {1, 2, 256, 512, 1024, 2048};
            for (uint32_t choice = 0; choice <= last; choice++) {
                EXPECT("an open note", chain_note(&c, 0, choice), HALLPLAN_SPENT);
                EXPECT("a none note", chain_note(&c, 1, choice), choice == last ? HALLPLAN_NONE : HALLPLAN_REFUSED + 10);
            }
            for (size_t k = 0; k < sizeof beyond / sizeof beyond[0]; k++) {
                EXPECT("an open note, beyond", chain_note(&c, 0, last + beyond[k]), HALLPLAN_REFUSED + 10);
                EXPECT("a none note, beyond", chain_note(&c, 1, last + beyond[k]), HALLPLAN_REFUSED + 10);
            }
            EXPECT("choice 65535", chain_note(&c, 0, 65535), HALLPLAN_REFUSED + 10);
        }
    }
}

/* Check with marks: 3x1x1, which may turn, and 2x1x1, which may or may not, in a hall of 3x3x1. */
static void checks_with_marks(void)
{
    static const struct {
        uint8_t map, first[3], second[3]; /* x, y, mark */
        uint32_t want;
    } plans[] = {
        {9, {0, 0, 0}, {0, 1, 0}, HALLPLAN_YES}, {9, {0, 0, 1}, {1, 0, 0}, HALLPLAN_YES}, {9, {0, 0, 1}, {1, 0, 1}, HALLPLAN_YES},
        {9, {0, 0, 0}, {1, 0, 1}, HALLPLAN_NO}, {9, {0, 0, 0}, {2, 1, 1}, HALLPLAN_YES}, {9, {0, 0, 0}, {2, 1, 0}, HALLPLAN_NO},
        {9, {0, 0, 0}, {2, 2, 1}, HALLPLAN_NO}, {9, {2, 0, 1}, {0, 0, 0}, HALLPLAN_YES}, {9, {2, 0, 0}, {0, 0, 0}, HALLPLAN_NO},
        {9, {0, 1, 1}, {1, 0, 0}, HALLPLAN_NO}, {1, {0, 0, 1}, {1, 0, 0}, HALLPLAN_YES}, {1, {0, 0, 1}, {1, 0, 1}, HALLPLAN_REFUSED + 13},
        {1, {0, 0, 0}, {0, 0, 1}, HALLPLAN_REFUSED + 13}, {9, {0, 0, 0}, {0, 1, 2}, HALLPLAN_REFUSED + 13}, {9, {0, 0, 2}, {0, 1, 0}, HALLPLAN_REFUSED + 13},
        {9, {0, 0, 255}, {0, 1, 1}, HALLPLAN_REFUSED + 13}, {9, {0, 0, 1}, {1, 0, 255}, HALLPLAN_REFUSED + 13},
        {9, {0, 0, 128}, {0, 0, 0}, HALLPLAN_REFUSED + 13}};
    EXPECT("HALLPLAN_BAD_MARK", HALLPLAN_BAD_MARK, 13);
    for (size_t k = 0; k < sizeof plans / sizeof plans[0]; k++) {
        uint8_t sheet[] = {0x0B, 3, 0, 3, 0, 2, 9, 3, 0, plans[k].map, 2, 0}, plan[3 * HALLPLAN_PIECE_BYTES] = {0};
        const uint8_t *pieces[] = {plans[k].first, plans[k].second};
        for (size_t piece = 0; piece < 2; piece++) {
            plan[HALLPLAN_PIECE_BYTES * piece] = pieces[piece][0];
            plan[HALLPLAN_PIECE_BYTES * piece + 2] = pieces[piece][1];
            plan[HALLPLAN_PIECE_BYTES * piece + 6] = pieces[piece][2];
        }
        for (size_t len = 0; len <= sizeof plan; len++) {
            EXPECT("marks", hallplan_check(sheet, sizeof sheet, plan, len), len == 2 * HALLPLAN_PIECE_BYTES ? plans[k].want : HALLPLAN_REFUSED + 8);
        }
        for (size_t len = 0; len < sizeof sheet; len++) {
            EXPECT("marks, cut", hallplan_check(sheet, len, plan, 2 * HALLPLAN_PIECE_BYTES), HALLPLAN_REFUSED + 1);
        }
    }
}

/* "the last, allowances 0, 1, 1, 1": "spent 0, spent 1, spent 1, placed 1" */
static void small_hall_in_parts(void)
{
    static const uint8_t sheet[] = TWO_UNITS;
    static const uint32_t calls[][3] = {{0, HALLPLAN_SPENT, 0}, {1, HALLPLAN_SPENT, 1}, {1, HALLPLAN_SPENT, 1}, {1, HALLPLAN_PLACED, 1}};
    uint8_t note[HALLPLAN_NOTE_BYTES] = {0}, steps[HALLPLAN_STEP_BYTES], plan[2 * HALLPLAN_PIECE_BYTES];
    for (size_t k = 0; k < sizeof calls / sizeof calls[0]; k++) {
        EXPECT("in parts", hallplan_search(sheet, sizeof sheet - 1, note, sizeof note, calls[k][0], steps, sizeof steps, plan, sizeof plan), calls[k][1]);
        EXPECT("in parts", steps[0] + 256u * steps[1], calls[k][2]);
    }
}

/* Check: 8 for every other length, after the sheet's refusals. */
static void checks(void)
{
    const struct row *row = &rows[1];
    static const uint8_t fits[21] = {0, 0, 0, 0, 1, 0}, late[14] = {0, 0, 0, 0, 0, 1}, at_once[14] = {0};
    EXPECT("fits", hallplan_check(sheet_of(row), row->len, fits, 14), HALLPLAN_YES);
    EXPECT("past the last shift", hallplan_check(sheet_of(row), row->len, late, 14), HALLPLAN_NO);
    EXPECT("in one place", hallplan_check(sheet_of(row), row->len, at_once, 14), HALLPLAN_NO);
    for (size_t n = 0; n <= sizeof fits; n++) {
        EXPECT("length", hallplan_check(sheet_of(row), row->len, fits, n), n == 14 ? HALLPLAN_YES : HALLPLAN_REFUSED + 8);
    }
    for (size_t len = 0; len < row->len; len++) {
        EXPECT("cut", hallplan_check(sheet_of(row), len, fits, len), HALLPLAN_REFUSED + 1);
    }
}

/* Check with lags: 1 is due at shift 2, and 2 at 6 and after 1's end. */
static void checks_with_lags(void)
{
    static const uint8_t sheet[] = LAGS_1_5_0("\x07");
    static const struct {
        uint8_t starts[3];
        uint32_t want;
    } plans[] = {{{0, 2, 6}, HALLPLAN_YES}, {{0, 5, 6}, HALLPLAN_YES}, {{0, 1, 6}, HALLPLAN_NO}, {{0, 2, 5}, HALLPLAN_NO}, {{0, 2, 7}, HALLPLAN_NO}};
    for (size_t k = 0; k < sizeof plans / sizeof plans[0]; k++) {
        uint8_t plan[3 * HALLPLAN_PIECE_BYTES] = {0};
        for (size_t piece = 0; piece < 3; piece++) {
            plan[HALLPLAN_PIECE_BYTES * piece + 4] = plans[k].starts[piece];
        }
        EXPECT("lags", hallplan_check(sheet, sizeof sheet - 1, plan, sizeof plan), plans[k].want);
        for (size_t len = 0; len < sizeof sheet - 1; len++) {
            EXPECT("lags, cut", hallplan_check(sheet, len, plan, sizeof plan), HALLPLAN_REFUSED + 1);
        }
    }
}

/* Check with a walkway of 3: two cubes of 2 in a hall of 9, one at 0, 0, 0, in either sequence. */
static void checks_with_walkway(void)
{
    static const uint8_t sheet[] = "\x8F\x09\x00\x09\x00\x09\x00\x02\x07\x02\x00\x02\x00\x02\x00\x07\x02\x00\x02\x00\x02\x00\x03";
    static const struct {
        uint8_t start[3];
        uint32_t want;
    } plans[] = {{{5, 0, 0}, HALLPLAN_YES}, {{4, 0, 0}, HALLPLAN_NO}, {{0, 5, 0}, HALLPLAN_YES}, {{0, 4, 0}, HALLPLAN_NO}, {{4, 4, 1}, HALLPLAN_NO},
                 {{5, 4, 1}, HALLPLAN_YES}, {{4, 5, 1}, HALLPLAN_YES}, {{2, 2, 2}, HALLPLAN_YES}, {{0, 0, 2}, HALLPLAN_YES}, {{0, 0, 1}, HALLPLAN_NO},
                 {{7, 7, 7}, HALLPLAN_YES}, {{8, 0, 0}, HALLPLAN_NO}};
    for (size_t k = 0; k < sizeof plans / sizeof plans[0]; k++) {
        for (size_t piece = 0; piece < 2; piece++) {
            uint8_t plan[2 * HALLPLAN_PIECE_BYTES] = {0};
            for (size_t axis = 0; axis < 3; axis++) {
                plan[HALLPLAN_PIECE_BYTES * piece + 2 * axis] = plans[k].start[axis];
            }
            EXPECT("walkway", hallplan_check(sheet, sizeof sheet - 1, plan, sizeof plan), plans[k].want);
        }
    }
}

/* A start is no measure: a piece of 4,095 shifts at 65,535 or 61,441 is outside, though its end is small in 16 bits. */
static void checks_far(void)
{
    static const uint8_t sheet[] = "\x0F" MOST_3 "\x01\x04" MOST;
    static const uint32_t starts[][2] = {{0, HALLPLAN_YES}, {1, HALLPLAN_NO}, {4095, HALLPLAN_NO}, {61441, HALLPLAN_NO}, {65535, HALLPLAN_NO}};
    for (size_t k = 0; k < sizeof starts / sizeof starts[0]; k++) {
        uint8_t plan[HALLPLAN_PIECE_BYTES] = {0xFE, 0x0F, 0xFE, 0x0F, (uint8_t)(starts[k][0] % 256), (uint8_t)(starts[k][0] / 256)};
        EXPECT("far", hallplan_check(sheet, sizeof sheet - 1, plan, sizeof plan), starts[k][1]);
    }
}

/* The measure at this place of the longest sheet made 4,096: 12 as soon as its two bytes are there. Then 4,095 again. */
static void one_too_large(uint8_t *sheet, size_t place)
{
    memcpy(sheet + place, "\x00\x10", 2);
    EXPECT("4096", hallplan_pieces(sheet, LONGEST_SHEET), HALLPLAN_REFUSED + 12);
    EXPECT("4096, cut after it", hallplan_pieces(sheet, place + 2), HALLPLAN_REFUSED + 12);
    EXPECT("4096, cut in it", hallplan_pieces(sheet, place + 1), HALLPLAN_REFUSED + 1);
    memcpy(sheet + place, MOST, 2);
    EXPECT("4095", hallplan_pieces(sheet, LONGEST_SHEET), 10);
}

/* The longest sheet: its pieces, and 1 wherever it is cut; a byte more; each measure above 4,095; pieces that may turn, and bit 4 of their maps; a walkway
 * of 0; lags of 0, whole, cut, and with a walkway and a byte after them. */
static void longest_sheet(void)
{
    uint8_t sheet[LONGEST_SHEET + 1];
    size_t at = 0;
    sheet[at++] = 0xFF;
    memcpy(sheet + at, MOST_3, 6);
    at += 6;
    sheet[at++] = 10;
    for (int piece = 0; piece < 10; piece++) {
        sheet[at++] = 7;
        memcpy(sheet + at, MOST_3, 6);
        at += 6;
    }
    sheet[at++] = 90;
    for (int u = 0; u < 10; u++) {
        for (int v = 0; v < 10; v++) {
            if (u != v) {
                sheet[at++] = (uint8_t)u;
                sheet[at++] = (uint8_t)v;
            }
        }
    }
    memset(sheet + at, 0xFF, 2);
    at += 2;
    memset(sheet + at, 0xFF, 91);
    sheet[at + 91] = 0;
    EXPECT("HALLPLAN_MAX_SHEET_BYTES", HALLPLAN_MAX_SHEET_BYTES, LONGEST_SHEET);
    EXPECT("HALLPLAN_MAX_MEASURE", HALLPLAN_MAX_MEASURE, 4095);
    EXPECT("the longest sheet", (uint32_t)at + 91, LONGEST_SHEET);
    EXPECT("the longest sheet", hallplan_pieces(sheet, LONGEST_SHEET), 10);
    EXPECT("a byte more", hallplan_pieces(sheet, LONGEST_SHEET + 1), HALLPLAN_REFUSED + 7);
    for (size_t len = 0; len < LONGEST_SHEET; len++) {
        EXPECT("the longest sheet, cut", hallplan_pieces(sheet, len), HALLPLAN_REFUSED + 1);
    }
    for (size_t start = 1; start <= 72; start += start == 1 ? 8 : 7) {
        for (size_t axis = 0; axis < 3; axis++) {
            one_too_large(sheet, start + 2 * axis);
        }
    }
    for (size_t map = 8; map < 78; map += 7) {
        sheet[map] |= 0x10;
        EXPECT("bit 4 of a map", hallplan_pieces(sheet, LONGEST_SHEET), HALLPLAN_REFUSED + 2);
        sheet[map] = 0x0F;
        EXPECT("a piece that may turn", hallplan_pieces(sheet, LONGEST_SHEET), 10);
    }
    sheet[LONGEST_SHEET - 1] = 0;
    EXPECT("a walkway of 0", hallplan_pieces(sheet, LONGEST_SHEET), HALLPLAN_REFUSED + 3);
    EXPECT("a walkway of 0 and a byte", hallplan_pieces(sheet, LONGEST_SHEET + 1), HALLPLAN_REFUSED + 3);
    sheet[LONGEST_SHEET - 1] = 1;
    EXPECT("a walkway of 1", hallplan_pieces(sheet, LONGEST_SHEET), 10);
    memset(sheet + at, 0, 90);
    for (size_t len = at; len <= LONGEST_SHEET + 1; len++) {
        EXPECT("lags of 0", hallplan_pieces(sheet, len), HALLPLAN_REFUSED + (len < at + 90 ? 1 : 11));
    }
    sheet[LONGEST_SHEET - 2] = 1;
    EXPECT("the last lag alone", hallplan_pieces(sheet, LONGEST_SHEET), 10);
    sheet[0] = 0x7F;
    EXPECT("without the walkway", hallplan_pieces(sheet, LONGEST_SHEET - 1), 10);
    EXPECT("a walkway without its bit", hallplan_pieces(sheet, LONGEST_SHEET), HALLPLAN_REFUSED + 7);
}

/* Pieces: the number of pieces in each row of the table, or the row's refusal; sheets for 5 and 6, which no row has; 10 pieces, the
 * most, and 11; yard numbers above 4,095; 1 wherever the printed example and the sheets with lags or a walkway are cut. */
static void pieces(void)
{
    EXPECT("HALLPLAN_SHEET_TOO_LARGE", HALLPLAN_SHEET_TOO_LARGE, 12);
    static const struct {
        const char *name, *sheet;
        size_t len;
        uint32_t want;
    } sheets[] = {
        {"u = v in an order", BYTES("\x18\x02\x00\x00\x01\x01\x01"), HALLPLAN_REFUSED + 5},
        {"a piece not on the sheet", BYTES("\x18\x02\x00\x00\x01\x00\x02"), HALLPLAN_REFUSED + 5},
        {"an order twice", BYTES("\x18\x02\x00\x00\x02\x00\x01\x00\x01"), HALLPLAN_REFUSED + 6},
        {"an order below the one before", BYTES("\x18\x02\x00\x00\x02\x01\x00\x00\x01"), HALLPLAN_REFUSED + 6},
        {"ten pieces", BYTES("\x08\x0A\x00\x00\x00\x00\x00\x00\x00\x00\x00\x00"), 10},
        {"the yard number 4096", BYTES("\x20\x00\x10"), 0},
        {"the yard number 65535", BYTES("\x28\x01\x01" MOST "\xFF\xFF"), 1},
        {"eleven pieces", BYTES("\x08\x0B\x00\x00\x00\x00\x00\x00\x00\x00\x00\x00\x00"), HALLPLAN_REFUSED + 4},
    };
    for (size_t r = 0; r < sizeof rows / sizeof rows[0]; r++) {
        uint32_t want = rows[r].answer < HALLPLAN_REFUSED ? (uint32_t)rows[r].pieces : rows[r].answer;
        EXPECT(rows[r].name, hallplan_pieces(sheet_of(&rows[r]), rows[r].len), want);
    }
    for (size_t r = 0; r < sizeof turn_rows / sizeof turn_rows[0]; r++) {
        const struct row *row = &turn_rows[r].row;
        EXPECT(row->name, hallplan_pieces(sheet_of(row), row->len), row->answer < HALLPLAN_REFUSED ? (uint32_t)row->pieces : row->answer);
        for (size_t len = 0; row->answer < HALLPLAN_REFUSED && len < row->len; len++) {
            EXPECT("cut", hallplan_pieces(sheet_of(row), len), HALLPLAN_REFUSED + 1);
        }
    }
    for (size_t k = 0; k < sizeof sheets / sizeof sheets[0]; k++) {
        EXPECT(sheets[k].name, hallplan_pieces((const uint8_t *)sheets[k].sheet, sheets[k].len), sheets[k].want);
    }
    for (size_t r = 0; r < sizeof rows / sizeof rows[0]; r++) {
        int later = sheet_of(&rows[r])[0] >= 0x40 && rows[r].answer < HALLPLAN_REFUSED;
        for (size_t len = 0; (r == 1 || later) && len < rows[r].len; len++) {
            EXPECT("cut", hallplan_pieces(sheet_of(&rows[r]), len), HALLPLAN_REFUSED + 1);
        }
    }
}

/* Notes that get 10 on the printed example, which places at once: a state, a length, a turn that are none; bytes past the length;
 * a row where there is no branching point; a none note with a row; a choice, where no piece may turn. */
static void notes(void)
{
    static const size_t bad[][4] = {{0, 3, 0, 0}, {1, 15, 2, 1}, {1, 1, 3, 2}, {3, 1, 3, 1}, {272, 1, 0, 0}, {0, 1, 1, 1}, {1, 1, 0, 0}, {0, 2, 1, 1},
                                    {273, 1, 0, 0}, {274, 1, 0, 0}, {0, 1, 273, 1}, {0, 2, 274, 1}, {0, 2, 273, 2}};
    for (size_t k = 0; k < sizeof bad / sizeof bad[0]; k++) {
        struct lent lent = opening();
        lent.note[1 + bad[k][0]] = (uint8_t)bad[k][1];
        if (bad[k][2]) {
            lent.note[1 + bad[k][2]] = (uint8_t)bad[k][3];
        }
        refused(&rows[1], lent, HALLPLAN_NOTE_BYTES, 4, 14, HALLPLAN_REFUSED + 10);
    }
}

/* The buffers that finish writes. */
struct finish_lent {
    uint8_t length[1 + HALLPLAN_LENGTH_BYTES + 1];
    uint8_t steps[1 + HALLPLAN_STEP_BYTES + 1];
    uint8_t plan[1 + HALLPLAN_PIECE_BYTES * MOST_PIECES + 1];
};

/* An earliest finish: the lengths tried, what the last of them gives, the steps of each (0 stands for 1), the starts of a placed plan. */
struct finish_row {
    const char *name, *sheet;
    size_t len, pieces, lengths;
    uint32_t answer;
    uint8_t steps[MOST_LENGTHS];
    uint8_t starts[3 * MOST_PIECES];
};

#define UNITS_2 "\x02\x00\x00"
#define UNITS_3 "\x03\x00\x00\x00"

/* Worked out by hand: compare/src/finishes.rs says how. */
static const struct finish_row finish_rows[] = {
    {"byte 00 alone", BYTES("\x00"), 0, 1, HALLPLAN_PLACED, {0}, {0}},
    {"no pieces, 9 shifts", BYTES("\x04\x09\x00"), 0, 1, HALLPLAN_PLACED, {0}, {0}},
    {"no pieces, 4095 shifts", BYTES("\x04" MOST), 0, 1, HALLPLAN_PLACED, {0}, {0}},
    {"1x1x1; 1x1x1", BYTES("\x08\x01\x00"), 1, 1, HALLPLAN_PLACED, {0}, {0}},
    {"3x3x9; 2x2x4", BYTES("\x0F\x03\x00\x03\x00\x09\x00\x01\x07\x02\x00\x02\x00\x04\x00"), 1, 4, HALLPLAN_PLACED, {0}, {0}},
    {"3x3x3; 2x2x4", BYTES("\x0F\x03\x00\x03\x00\x03\x00\x01\x07\x02\x00\x02\x00\x04\x00"), 1, 3, HALLPLAN_NONE, {0}, {0}},
    {"1x1x300; 1x1x258", BYTES("\x0C\x2C\x01\x01\x04\x02\x01"), 1, 258, HALLPLAN_PLACED, {0}, {0}},
    {"1x1x257; 1x1x258", BYTES("\x0C\x01\x01\x01\x04\x02\x01"), 1, 257, HALLPLAN_NONE, {0}, {0}},
    {"1x1x3; 2x1x1", BYTES("\x0C\x03\x00\x01\x01\x02\x00"), 1, 3, HALLPLAN_NONE, {0}, {0}},
    {"2x1x2; 2x1x1, 1x1x1; order 1,0", BYTES("\x1D\x02\x00\x02\x00\x02\x01\x02\x00\x00\x01\x01\x00"), 2, 2, HALLPLAN_PLACED, {1, 1}, {0, 0, 1, 0, 0, 0}},
    {"the same, 9 shifts", BYTES("\x1D\x02\x00\x09\x00\x02\x01\x02\x00\x00\x01\x01\x00"), 2, 2, HALLPLAN_PLACED, {1, 1}, {0, 0, 1, 0, 0, 0}},
    {"the same, 1 shift", BYTES("\x19\x02\x00\x02\x01\x02\x00\x00\x01\x01\x00"), 2, 1, HALLPLAN_NONE, {1}, {0}},
    {"the same, 5 shifts, no order", BYTES("\x0D\x02\x00\x05\x00\x02\x01\x02\x00\x00"), 2, 2, HALLPLAN_PLACED, {1, 2}, {0, 0, 0, 0, 0, 1}},
    {"2x2x5; two of 1x1x1", BYTES("\x0F\x02\x00\x02\x00\x05\x00" UNITS_2), 2, 1, HALLPLAN_PLACED, {3}, {0, 0, 0, 1, 0, 0}},
    {"2x1x1; three of 1x1x1", BYTES("\x09\x02\x00" UNITS_3), 3, 1, HALLPLAN_NONE, {3}, {0}},
    {"2x1x4; three of 1x1x1", BYTES("\x0D\x02\x00\x04\x00" UNITS_3), 3, 2, HALLPLAN_PLACED, {3, 5}, {0, 0, 0, 1, 0, 0, 1, 0, 1}},
    {"1x1x2; three of 1x1x1", BYTES("\x0C\x02\x00" UNITS_3), 3, 2, HALLPLAN_NONE, {1, 3}, {0}},
    {"1x1x9; three of 1x1x1", BYTES("\x0C\x09\x00" UNITS_3), 3, 3, HALLPLAN_PLACED, {1, 3, 4}, {0, 0, 0, 0, 0, 1, 0, 0, 2}},
    {"3x1x4; three of 1x1x1; a circle", BYTES("\x1D\x03\x00\x04\x00" UNITS_3 "\x03\x00\x01\x01\x02\x02\x00"), 3, 4, HALLPLAN_NONE, {0}, {0}},
    {"100x1x300; boxes of okp17-4", BYTES("\x1D\x64\x00\x2C\x01" BOXES), 5, 231, HALLPLAN_PLACED, {0}, {0, 0, 211, 0, 0, 53, 0, 0, 0, 0, 0, 121, 0, 0, 56}},
    {"100x1x230; boxes of okp17-4", BYTES("\x1D\x64\x00\xE6\x00" BOXES), 5, 230, HALLPLAN_NONE, {0}, {0}},
    {"1x1x9; lags 1, 5, 0", BYTES(LAGS_1_5_0("\x09")), 3, 7, HALLPLAN_PLACED, {0}, {0, 0, 0, 0, 0, 2, 0, 0, 6}},
    {"1x1x6; lags 1, 5, 0", BYTES(LAGS_1_5_0("\x06")), 3, 6, HALLPLAN_NONE, {0}, {0}},
    /* in 3 shifts 2 stands in the lag; the plan is not the one of 4, where it would stand last */
    {"1x1x4; lag 1", BYTES(LAG_1("\x04")), 3, 3, HALLPLAN_PLACED, {0}, {0, 0, 0, 0, 0, 2, 0, 0, 1}},
    {"1x1x2; lag 1", BYTES(LAG_1("\x02")), 3, 2, HALLPLAN_NONE, {0}, {0}},
    {"1x1x4095; 1x1x4095", BYTES("\x0C" MOST "\x01\x04" MOST), 1, 4095, HALLPLAN_PLACED, {0}, {0}},
    {"1x1x4095; 2x1x1", BYTES("\x0C" MOST "\x01\x01\x02\x00"), 1, 4095, HALLPLAN_NONE, {0}, {0}},
    {"1x1x4095; 1x1x255, 1x1x3840; order 0,1", BYTES(FILLED("\x00")), 2, 4095, HALLPLAN_PLACED, {0}, {0, 0, 0, 0, 0, 255}},
    {"1x1x4095; 1x1x255, 1x1x3841; order 0,1", BYTES(FILLED("\x01")), 2, 4095, HALLPLAN_NONE, {0}, {0}},
    {"8x1x9; two of 4x1x1", BYTES(FOURS("\x0D", "\x08\x00\x09\x00")), 2, 1, HALLPLAN_PLACED, {2}, {0, 0, 0, 4, 0, 0}},
    {"the same, walkway 1", BYTES(FOURS("\x8D", "\x08\x00\x09\x00") "\x01"), 2, 2, HALLPLAN_PLACED, {1, 2}, {0, 0, 0, 0, 0, 1}},
    {"9x1x9; walkway 1", BYTES(FOURS("\x8D", "\x09\x00\x09\x00") "\x01"), 2, 1, HALLPLAN_PLACED, {2}, {0, 0, 0, 5, 0, 0}},
    {"8x1x1; walkway 1", BYTES(FOURS("\x89", "\x08\x00") "\x01"), 2, 1, HALLPLAN_NONE, {1}, {0}},
    {"2x2x5; two of 1x1x1; walkway 1", BYTES("\x8F\x02\x00\x02\x00\x05\x00" UNITS_2 "\x01"), 2, 2, HALLPLAN_PLACED, {1, 2}, {0, 0, 0, 0, 0, 1}},
    {"3x1x4; three of 1x1x1; walkway 1", BYTES("\x8D\x03\x00\x04\x00" UNITS_3 "\x01"), 3, 2, HALLPLAN_PLACED, {3, 5}, {0, 0, 0, 2, 0, 0, 2, 0, 1}},
    {"no pieces, 9 shifts, walkway 255", BYTES("\x84\x09\x00\xFF"), 0, 1, HALLPLAN_PLACED, {0}, {0}},
};

/* With pieces that may turn, and the marks: each length in all choices. */
static const struct {
    struct finish_row row;
    const char *marks;
} turn_finish_rows[] = {
    {{"1x2x9; 2x1x3, which may turn", BYTES("\x0E\x02\x00\x09\x00\x01\x0D\x02\x00\x03\x00"), 1, 3, HALLPLAN_PLACED, {2, 2, 2}, {0}}, "1"},
    {{"1x1x3; 2x1x1, which may turn", BYTES("\x0C\x03\x00\x01\x09\x02\x00"), 1, 3, HALLPLAN_NONE, {2, 2, 2}, {0}}, ""},
    {{"2x1x4; three of 1x1x1 that may turn", BYTES("\x0D\x02\x00\x04\x00\x03\x08\x08\x08"), 3, 2, HALLPLAN_PLACED, {24, 5}, {0, 0, 0, 1, 0, 0, 1, 0, 1}}, ""},
    {{"2x2x4; 2x1x1, 1x2x1; the second may turn", BYTES("\x0F\x02\x00\x02\x00\x04\x00\x02\x01\x02\x00\x0A\x02\x00"), 2, 1, HALLPLAN_PLACED, {3},
      {0, 0, 0, 0, 1, 0}}, "01"},
    {{"3x2x5; two of 2x1x2 that may turn; walkway 1", BYTES("\x8F\x03\x00\x02\x00\x05\x00\x02\x0D\x02\x00\x02\x00\x0D\x02\x00\x02\x00\x01"), 2, 2,
      HALLPLAN_PLACED, {4, 5}, {0, 0, 0, 2, 0, 0}}, "11"},
    {{"1x2x9; two of 2x1x1 that may turn; order 0,1, lag 2", BYTES("\x5E\x02\x00\x09\x00" SLABS_2 "\x01\x00\x01\x02"), 2, 4, HALLPLAN_PLACED, {4, 4, 4, 4},
      {0, 0, 0, 0, 0, 3}}, "11"},
};

static struct finish_lent nothing_finished(void)
{
    struct finish_lent lent;
    memset(&lent, GUARD, sizeof lent);
    return lent;
}

/* The buffers after a call with this allowance, from what the row says, and the answer. */
static struct finish_lent finish_left_by(const struct finish_row *row, const char *marks, uint32_t allowance, uint32_t *answer)
{
    struct finish_lent lent = nothing_finished();
    uint32_t sum = 0, length = 0;
    while (length < row->lengths && sum + (row->steps[length] ? row->steps[length] : 1) <= allowance) {
        sum += row->steps[length] ? row->steps[length] : 1;
        length++;
    }
    *answer = length == row->lengths ? row->answer : HALLPLAN_SPENT;
    sum = *answer == HALLPLAN_SPENT ? allowance : sum;
    length = *answer == HALLPLAN_NONE ? 0 : length;
    for (size_t i = 0; i < HALLPLAN_STEP_BYTES; i++) {
        lent.steps[1 + i] = (uint8_t)(sum >> 8 * i);
    }
    for (size_t i = 0; i < HALLPLAN_LENGTH_BYTES; i++) {
        lent.length[1 + i] = (uint8_t)(length >> 8 * i);
    }
    if (*answer == HALLPLAN_PLACED) {
        put_plan(lent.plan + 1, row->pieces, row->starts, marks);
    }
    return lent;
}

static void finish_under(const struct finish_row *row, const char *marks, uint32_t allowance)
{
    const uint8_t *sheet = (const uint8_t *)row->sheet;
    size_t plan = HALLPLAN_PIECE_BYTES * row->pieces;
    uint32_t want_answer;
    struct finish_lent lent = nothing_finished(), want = finish_left_by(row, marks, allowance, &want_answer);
    EXPECT(row->name, hallplan_finish(sheet, row->len, allowance, lent.length + 1, 2, lent.steps + 1, 4, lent.plan + 1, plan), want_answer);
    EXPECT(row->name, memcmp(&lent, &want, sizeof lent) == 0, 1);
    if (want_answer == HALLPLAN_PLACED) {
        EXPECT(row->name, hallplan_check(sheet, row->len, lent.plan + 1, plan), HALLPLAN_YES);
    }
}

/* A call that must be refused with `want`, and leave every byte. */
static void finish_refused(const char *name, const char *sheet, size_t len, size_t length, size_t steps, size_t plan, uint32_t want)
{
    for (uint32_t allowance = 0; allowance < 4; allowance++) {
        struct finish_lent lent = nothing_finished(), before = lent;
        EXPECT(name, hallplan_finish((const uint8_t *)sheet, len, allowance, lent.length + 1, length, lent.steps + 1, steps, lent.plan + 1, plan), want);
        EXPECT(name, memcmp(&lent, &before, sizeof lent) == 0, 1);
    }
}

/* Other lengths of the three buffers: 8, and on a sheet that is refused or cut its own number first. */
static void finish_lengths(const char *name, const char *sheet, size_t len, size_t pieces, uint32_t answer)
{
    static const size_t lengths[][3] = {{1, 4, 0}, {3, 4, 0}, {0, 4, 0}, {2, 3, 0}, {2, 5, 0}, {2, 0, 0}, {2, 4, 1}, {2, 4, 7}, {1, 5, 1}};
    for (size_t k = 0; k < sizeof lengths / sizeof lengths[0]; k++) {
        size_t plan = lesser(HALLPLAN_PIECE_BYTES * pieces + lengths[k][2], HALLPLAN_PIECE_BYTES * MOST_PIECES + 1);
        finish_refused(name, sheet, len, lengths[k][0], lengths[k][1], plan, answer < HALLPLAN_REFUSED ? HALLPLAN_REFUSED + 8 : answer);
        finish_refused("cut", sheet, 0, lengths[k][0], lengths[k][1], plan, HALLPLAN_REFUSED + 1);
    }
    if (pieces > 0) {
        finish_refused(name, sheet, len, 2, 4, HALLPLAN_PIECE_BYTES * pieces - 1, HALLPLAN_REFUSED + 8);
    }
}

/* Every allowance up to more than is needed, the last ones where they are many, and the greatest; then refused calls, on the sheets that
 * search refuses too. */
static void finishes(void)
{
    for (size_t r = 0; r < sizeof finish_rows / sizeof finish_rows[0]; r++) {
        const struct finish_row *row = &finish_rows[r];
        uint32_t first = row->lengths > ALL_ALLOWANCES ? (uint32_t)row->lengths - 10 : 0;
        for (uint32_t allowance = first; allowance < row->lengths + 10; allowance++) {
            finish_under(row, "", allowance);
        }
        finish_under(row, "", 1000000);
        finish_under(row, "", 0xFFFFFFFF);
        finish_lengths(row->name, row->sheet, row->len, row->pieces, row->answer);
    }
    for (size_t r = 0; r < sizeof turn_finish_rows / sizeof turn_finish_rows[0]; r++) {
        const struct finish_row *row = &turn_finish_rows[r].row;
        for (uint32_t allowance = 0; allowance < 40; allowance++) {
            finish_under(row, turn_finish_rows[r].marks, allowance);
        }
        finish_under(row, turn_finish_rows[r].marks, 0xFFFFFFFF);
        finish_lengths(row->name, row->sheet, row->len, row->pieces, row->answer);
    }
    for (size_t r = 0; r < sizeof rows / sizeof rows[0]; r++) {
        if (rows[r].answer > HALLPLAN_REFUSED) {
            finish_refused(rows[r].name, rows[r].sheet, rows[r].len, 2, 4, 0, rows[r].answer);
            finish_lengths(rows[r].name, rows[r].sheet, rows[r].len, 0, rows[r].answer);
        }
    }
}

int main(void)
{
    small_halls();
    small_hall_in_parts();
    checks();
    checks_with_lags();
    checks_with_walkway();
    checks_with_marks();
    checks_far();
    choices_above_255();
    pieces();
    longest_sheet();
    notes();
    finishes();
    return failed;
}
