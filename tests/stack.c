/* Searches and earliest finishes in a thread of 64 kB of stack. Standard input has bench/sheets.txt's lines, NAME HEX ANSWER STEPS: each
 * sheet is searched with 1,000,000 steps, and its plan checked, in a thread whose stack is STACK_BYTES of memory filled with a pattern;
 * then its earliest finish is asked for with FINISH_ALLOWANCE steps in another. What the thread did not write still has the pattern, which
 * tells how much it used, the C library's own part included. */
#include "hallplan.h"

#include <pthread.h>
#include <stdio.h>
#include <stdlib.h>
#include <string.h>
#include <sys/mman.h>

#define STACK_BYTES 65536
#define PATTERN 0xA5
#define FINISH_ALLOWANCE 10000

static uint8_t sheet[HALLPLAN_MAX_SHEET_BYTES + 1], note[HALLPLAN_NOTE_BYTES], steps[HALLPLAN_STEP_BYTES], plan[10 * HALLPLAN_PIECE_BYTES];
static uint8_t length[HALLPLAN_LENGTH_BYTES];
static size_t sheet_len, plan_len, shifts_at;
static uint32_t answer, fits;

static void *search(void *unused)
{
    (void)unused;
    memset(note, 0, sizeof note);
    answer = hallplan_search(sheet, sheet_len, note, sizeof note, 1000000, steps, sizeof steps, plan, plan_len);
    fits = answer == HALLPLAN_PLACED ? hallplan_check(sheet, sheet_len, plan, plan_len) : HALLPLAN_YES;
    return NULL;
}

static void *finish(void *unused)
{
    (void)unused;
    answer = hallplan_finish(sheet, sheet_len, FINISH_ALLOWANCE, length, sizeof length, steps, sizeof steps, plan, plan_len);
    fits = answer == HALLPLAN_PLACED ? hallplan_check(sheet, sheet_len, plan, plan_len) : HALLPLAN_YES;
    return NULL;
}

/* Bytes of the stack that were written. */
static size_t used(const uint8_t *stack)
{
    size_t free_bytes = 0;
    while (free_bytes < STACK_BYTES && stack[free_bytes] == PATTERN) {
        free_bytes++;
    }
    return STACK_BYTES - free_bytes;
}

/* Runs the job in a thread: how much of the stack it used. */
static size_t in_thread(uint8_t *stack, void *(*job)(void *))
{
    pthread_attr_t attributes;
    pthread_t thread;
    memset(stack, PATTERN, STACK_BYTES);
    if (pthread_attr_init(&attributes) != 0 || pthread_attr_setstack(&attributes, stack, STACK_BYTES) != 0
        || pthread_create(&thread, &attributes, job, NULL) != 0 || pthread_join(thread, NULL) != 0) {
        fputs("stack: no thread\n", stderr);
        exit(2);
    }
    pthread_attr_destroy(&attributes);
    return used(stack);
}

static unsigned low_first(const uint8_t *bytes, size_t count)
{
    return count == 0 ? 0 : bytes[0] + 256 * low_first(bytes + 1, count - 1);
}

/* What has to hold of an earliest finish, beside the answer that the search of the whole hall gives. */
static int finish_holds(const char *word)
{
    unsigned told = low_first(length, sizeof length), taken = low_first(steps, sizeof steps), shifts = low_first(sheet + shifts_at, 2);
    if (answer == HALLPLAN_SPENT) {
        return taken == FINISH_ALLOWANCE && told < shifts;
    }
    if (answer == HALLPLAN_NONE) {
        return taken >= shifts && taken <= FINISH_ALLOWANCE && told == 0 && strcmp(word, "placed") != 0;
    }
    if (answer != HALLPLAN_PLACED || told < 2 || told > shifts || taken < told || taken > FINISH_ALLOWANCE || strcmp(word, "none") == 0) {
        return 0;
    }
    /* the plan fits the sheet, and the sheet with this length for its shifts */
    memcpy(sheet + shifts_at, length, sizeof length);
    return fits == HALLPLAN_YES && hallplan_check(sheet, sheet_len, plan, plan_len) == HALLPLAN_YES;
}

static void read_sheet(const char *hex)
{
    unsigned byte;
    sheet_len = 0;
    while (sheet_len < sizeof sheet && sscanf(hex + 2 * sheet_len, "%2x", &byte) == 1) {
        sheet[sheet_len++] = (uint8_t)byte;
    }
    /* the piece count follows the map byte and the measures that it names */
    size_t at = 1;
    for (int bit = 0; bit < 3; bit++) {
        at += sheet[0] >> bit & 1 ? 2 : 0;
    }
    /* and the shifts, which all of these have written, are just before it */
    shifts_at = at - 2;
    plan_len = sheet[0] >> 3 & 1 ? (size_t)sheet[at] * HALLPLAN_PIECE_BYTES : 0;
}

int main(void)
{
    static const char *const words[] = {"spent", "placed", "none"};
    char line[1024], name[64], hex[2 * HALLPLAN_MAX_SHEET_BYTES + 1], word[16];
    unsigned count;
    int wrong = 0, sheets = 0;
    size_t most = 0, most_finish = 0;
    /* a page without access below the stack ends the program where 64 kB are not enough */
    uint8_t *memory = mmap(NULL, 4096 + STACK_BYTES, PROT_READ | PROT_WRITE, MAP_PRIVATE | MAP_ANONYMOUS, -1, 0);
    if (memory == MAP_FAILED || mprotect(memory, 4096, PROT_NONE) != 0) {
        return 2;
    }
    while (fgets(line, sizeof line, stdin) != NULL) {
        if (line[0] == '#' || sscanf(line, "%63s %704s %15s %u", name, hex, word, &count) != 4) {
            continue;
        }
        read_sheet(hex);
        size_t stack = in_thread(memory + 4096, search);
        most = stack > most ? stack : most;
        unsigned taken = low_first(steps, sizeof steps);
        if (answer > 2 || strcmp(words[answer], word) != 0 || taken != count || fits != HALLPLAN_YES) {
            printf("stack: %s: expected %s %u, got %u %u\n", name, word, count, (unsigned)answer, taken);
            wrong = 1;
        }
        stack = in_thread(memory + 4096, finish);
        most_finish = stack > most_finish ? stack : most_finish;
        if (!finish_holds(word)) {
            printf("stack: %s: an earliest finish %u %u %u\n", name, (unsigned)answer, low_first(length, sizeof length), low_first(steps, sizeof steps));
            wrong = 1;
        }
        sheets++;
    }
    printf("stack: %d sheets in threads of %d bytes of stack, at most %zu used by search and %zu by finish\n", sheets, STACK_BYTES, most, most_finish);
    return wrong || sheets == 0;
}
