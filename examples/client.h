/* What the example clients share: reading a file, printing an answer. */
#ifndef CLIENT_H
#define CLIENT_H

#include "hallplan.h"

#include <stdio.h>
#include <stdlib.h>

/* At most `room` bytes of a file: how many there are, or -1 where it cannot be read. */
static long read_file(const char *name, uint8_t *bytes, size_t room)
{
    FILE *file = fopen(name, "rb");
    if (!file) {
        return -1;
    }
    size_t len = fread(bytes, 1, room, file);
    int bad = ferror(file);
    fclose(file);
    return bad ? -1 : (long)len;
}

static unsigned word(const uint8_t *at)
{
    return at[0] + 256u * at[1];
}

static uint32_t steps_in(const uint8_t *s)
{
    return word(s) + ((uint32_t)word(s + 2) << 16);
}

static const char *answer_word(uint32_t code)
{
    return code == HALLPLAN_PLACED ? "placed" : code == HALLPLAN_NONE ? "none" : "spent";
}

/* A line for each piece: number, x, y, t, and 1 where it is turned, else 0. */
static void print_plan(const uint8_t *plan, uint32_t pieces)
{
    for (uint32_t u = 0; u < pieces; u++) {
        const uint8_t *at = plan + HALLPLAN_PIECE_BYTES * u;
        printf("%u %u %u %u %u\n", (unsigned)u, word(at), word(at + 2), word(at + 4), (unsigned)at[6]);
    }
}

#endif
