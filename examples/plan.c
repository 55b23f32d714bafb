/* Plans a sheet in small portions: plan SHEET [ALLOWANCE]
 *
 * Calls the search with ALLOWANCE steps (1) until the sheet is decided. Prints the answer, the sum of the steps and how many calls
 * there were; for placed then a line for each piece: number, x, y, t, 1 where it is turned, else 0; and what check says of the plan. */
#include "client.h"

int main(int argc, char **argv)
{
    uint8_t sheet[HALLPLAN_MAX_SHEET_BYTES + 1];
    uint8_t note[HALLPLAN_NOTE_BYTES] = {0};
    uint8_t steps[HALLPLAN_STEP_BYTES] = {0};
    uint8_t plan[HALLPLAN_MAX_PLAN_BYTES] = {0};
    long len = argc < 2 ? -1 : read_file(argv[1], sheet, sizeof sheet);
    if (len < 0) {
        fprintf(stderr, "plan SHEET [ALLOWANCE]\n");
        return 2;
    }
    uint32_t allowance = argc > 2 ? (uint32_t)strtoul(argv[2], NULL, 10) : 1;
    uint32_t pieces = hallplan_pieces(sheet, (size_t)len);
    if (pieces >= HALLPLAN_REFUSED) {
        printf("refused %u\n", (unsigned)(pieces - HALLPLAN_REFUSED));
        return 0;
    }

    size_t plan_len = HALLPLAN_PIECE_BYTES * (size_t)pieces;
    unsigned long long total = 0;
    unsigned calls = 0;
    uint32_t code;
    do {
        code = hallplan_search(sheet, (size_t)len, note, sizeof note, allowance, steps, sizeof steps, plan, plan_len);
        calls++;
        total += steps_in(steps);
    } while (code == HALLPLAN_SPENT && allowance > 0);

    printf("%s %llu calls %u\n", answer_word(code), total, calls);
    if (code == HALLPLAN_PLACED) {
        print_plan(plan, pieces);
        printf("check %u\n", (unsigned)hallplan_check(sheet, (size_t)len, plan, plan_len));
    }
    return 0;
}
