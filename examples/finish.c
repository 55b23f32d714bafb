/* The shortest hall time of a sheet: finish SHEET [ALLOWANCE]
 *
 * Tries the lengths 1, 2 and so on up to the sheet's shifts, with at most ALLOWANCE steps (1000000) for all of them. Prints `placed`, the
 * first length that has a plan, and the steps; then a line for each piece: number, x, y, t, 1 where it is turned, else 0; and what check
 * says of the plan on the sheet as it is. Or `none` and the steps, where no length has one; or `spent`, the greatest length that is known
 * to be too short (0 where there is none), and the steps. */
#include "client.h"

int main(int argc, char **argv)
{
    uint8_t sheet[HALLPLAN_MAX_SHEET_BYTES + 1];
    uint8_t length[HALLPLAN_LENGTH_BYTES] = {0};
    uint8_t steps[HALLPLAN_STEP_BYTES] = {0};
    uint8_t plan[HALLPLAN_MAX_PLAN_BYTES] = {0};
    long len = argc < 2 ? -1 : read_file(argv[1], sheet, sizeof sheet);
    if (len < 0) {
        fprintf(stderr, "finish SHEET [ALLOWANCE]\n");
        return 2;
    }
    uint32_t allowance = argc > 2 ? (uint32_t)strtoul(argv[2], NULL, 10) : 1000000;
    uint32_t pieces = hallplan_pieces(sheet, (size_t)len);
    size_t plan_len = pieces < HALLPLAN_REFUSED ? HALLPLAN_PIECE_BYTES * (size_t)pieces : 0;
    uint32_t code = hallplan_finish(sheet, (size_t)len, allowance, length, sizeof length, steps, sizeof steps, plan, plan_len);
    if (code >= HALLPLAN_REFUSED) {
        printf("refused %u\n", (unsigned)(code - HALLPLAN_REFUSED));
        return 0;
    }

    printf("%s ", answer_word(code));
    if (code != HALLPLAN_NONE) {
        printf("%u ", word(length));
    }
    printf("%lu\n", (unsigned long)steps_in(steps));
    if (code == HALLPLAN_PLACED) {
        print_plan(plan, pieces);
        printf("check %u\n", (unsigned)hallplan_check(sheet, (size_t)len, plan, plan_len));
    }
    return 0;
}
