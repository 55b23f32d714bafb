/* The earliest finish of the sheet on standard input, with the greatest allowance: prints the answer, the length and the steps. */
#include "hallplan.h"

#include <stdio.h>

static unsigned long low_first(const uint8_t *bytes, size_t count)
{
    return count == 0 ? 0 : bytes[0] + 256 * low_first(bytes + 1, count - 1);
}

int main(void)
{
    static const char *const words[] = {"spent", "placed", "none"};
    uint8_t sheet[HALLPLAN_MAX_SHEET_BYTES + 1], length[HALLPLAN_LENGTH_BYTES], steps[HALLPLAN_STEP_BYTES], plan[HALLPLAN_MAX_PLAN_BYTES];
    size_t len = fread(sheet, 1, sizeof sheet, stdin), plan_len = HALLPLAN_PIECE_BYTES * (size_t)hallplan_pieces(sheet, len);
    if (plan_len > sizeof plan) {
        return 1;
    }
    uint32_t answer = hallplan_finish(sheet, len, 0xFFFFFFFF, length, sizeof length, steps, sizeof steps, plan, plan_len);
    if (answer > HALLPLAN_NONE) {
        return 1;
    }
    printf("%s %lu %lu\n", words[answer], low_first(length, sizeof length), low_first(steps, sizeof steps));
    return 0;
}
