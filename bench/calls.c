/* What a call costs besides its steps. Standard input has a line NAME HEX STEPS for each sheet. The search is taken STEPS / 2 steps far in
 * one call; then calls with allowance 0 are timed, on the opening note and there, and one with 1000 steps. Prints a row of a table. */
#include "hallplan.h"

#include <stdio.h>
#include <string.h>
#include <time.h>

#define CALLS 200

static uint8_t sheet[HALLPLAN_MAX_SHEET_BYTES + 1];
static size_t sheet_len;
static uint8_t steps[HALLPLAN_STEP_BYTES];
static uint8_t plan[10 * HALLPLAN_PIECE_BYTES];

static double now(void)
{
    struct timespec t;
    clock_gettime(CLOCK_PROCESS_CPUTIME_ID, &t);
    return 1e9 * (double)t.tv_sec + (double)t.tv_nsec;
}

static uint32_t call(uint8_t *note, uint32_t allowance, size_t plan_len)
{
    return hallplan_search(sheet, sheet_len, note, HALLPLAN_NOTE_BYTES, allowance, steps, sizeof steps, plan, plan_len);
}

/* CPU nanoseconds of one call on a copy of the note: the least of several. */
static double timed(const uint8_t *note, uint32_t allowance, size_t plan_len)
{
    double least = 0;
    for (int i = 0; i < CALLS; i++) {
        uint8_t copy[HALLPLAN_NOTE_BYTES];
        memcpy(copy, note, sizeof copy);
        double start = now();
        call(copy, allowance, plan_len);
        double taken = now() - start;
        least = i == 0 || taken < least ? taken : least;
    }
    return least;
}

static int read_sheet(const char *hex)
{
    unsigned byte;
    sheet_len = 0;
    while (sheet_len < sizeof sheet && sscanf(hex + 2 * sheet_len, "%2x", &byte) == 1) {
        sheet[sheet_len++] = (uint8_t)byte;
    }
    return sheet_len > 0;
}

int main(void)
{
    char name[64], hex[2 * HALLPLAN_MAX_SHEET_BYTES + 1];
    unsigned count;
    puts("| sheet | branches deep | opening, ns | there, allowance 0, ns | a branch, ns | a step of 1000 there, ns |");
    puts("|---|---|---|---|---|---|");
    while (scanf("%63s %704s %u", name, hex, &count) == 3 && read_sheet(hex)) {
        size_t plan_len = 0;
        while (plan_len <= sizeof plan && call((uint8_t[HALLPLAN_NOTE_BYTES]){0}, 0, plan_len) == HALLPLAN_REFUSED + 8) {
            plan_len += HALLPLAN_PIECE_BYTES;
        }
        uint8_t opening[HALLPLAN_NOTE_BYTES] = {0}, there[HALLPLAN_NOTE_BYTES] = {0};
        call(there, count / 2, plan_len);
        unsigned depth = there[1] + 256u * there[2];
        double first = timed(opening, 0, plan_len), again = timed(there, 0, plan_len), on = timed(there, 1000, plan_len);
        printf("| %s | %u | %.0f | %.0f | %.0f | %.0f |\n", name, depth, first, again, depth ? (again - first) / depth : 0, (on - again) / 1000);
    }
    return 0;
}
