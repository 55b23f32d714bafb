/* The casting hall planner, called on bytes: how many pieces a sheet has, whether a plan fits it, the search for a plan, and the shortest time in
 * which there is one.
 *
 * A sheet is the bytes of document 01, "Sheet bytes", with the lags, the walkway and the pieces that may be turned of document 02 (README.md has one
 * byte by byte). Pieces in the same shift stand at least the walkway apart on x or on y; without one they may touch. A plan is HALLPLAN_PIECE_BYTES
 * for each piece of the sheet: x, y, t, 2 bytes each, low byte first, and a mark, 1 byte: 1 where the piece is turned, its width and depth
 * exchanged, else 0. A note is HALLPLAN_NOTE_BYTES bytes: a search opens with all of them 0, and each later call gets the note that the last one
 * left. Steps are HALLPLAN_STEP_BYTES bytes, low byte first.
 *
 * A choice says which of the pieces that may be turned are. They are searched one after another, so that HALLPLAN_NONE holds however they are
 * turned. The last 2 bytes of a note, low byte first, hold the choice under way: of the pieces that may be turned, the one with the lowest number
 * is the lowest binary digit, 1 for turned.
 *
 * What the caller sees to: no pointer is null, also where its length is 0; no buffer lent to be written shares a byte with
 * another buffer of the same call; nobody else writes the note between calls. Whatever the bytes and lengths are, the functions
 * stay inside the buffers, end and answer: that is proved. They keep nothing between calls, so threads may call them at once.
 *
 * Link with libhallplan.a (./clib writes it beside this header). */
#ifndef HALLPLAN_H
#define HALLPLAN_H

#include <stddef.h>
#include <stdint.h>

#ifdef __cplusplus
extern "C" {
#endif

/* Lengths of notes, of steps, of a finish's length, and of a plan for each piece. */
#define HALLPLAN_NOTE_BYTES 275
#define HALLPLAN_STEP_BYTES 4
#define HALLPLAN_LENGTH_BYTES 2
#define HALLPLAN_PIECE_BYTES 7

/* No sheet has more pieces, a greater measure or more bytes, and no plan more bytes. */
#define HALLPLAN_MAX_PIECES 10
#define HALLPLAN_MAX_MEASURE 4095
#define HALLPLAN_MAX_SHEET_BYTES 352
#define HALLPLAN_MAX_PLAN_BYTES (HALLPLAN_MAX_PIECES * HALLPLAN_PIECE_BYTES)

/* A thread with this much stack can call any of the functions. It is measured (tests/stack), not proved. */
#define HALLPLAN_STACK_BYTES 65536

/* What check returns. */
#define HALLPLAN_NO 0
#define HALLPLAN_YES 1

/* What search and finish return: not decided within the allowance; a plan was found; there is none. */
#define HALLPLAN_SPENT 0
#define HALLPLAN_PLACED 1
#define HALLPLAN_NONE 2

/* A refusal is returned as HALLPLAN_REFUSED plus its number in document 01's table, or document 02's 11, 12 or 13. It writes nothing. The
 * sheet's own refusals, 1 to 7, 11 and 12, come first; where a sheet has several faults, it is the first one's. */
#define HALLPLAN_REFUSED 100
#define HALLPLAN_SHEET_ENDS_EARLY 1     /* it ends before a byte that is due */
#define HALLPLAN_SHEET_UNKNOWN_BIT 2    /* a piece's map byte has a bit without a meaning */
#define HALLPLAN_SHEET_WRITTEN_DEFAULT 3 /* a measure of 0 or 1, the yard number 0 or the walkway 0 is written */
#define HALLPLAN_SHEET_BAD_COUNT 4      /* count 0, over 10 pieces, over 90 orders */
#define HALLPLAN_SHEET_BAD_ORDER 5      /* an order names a piece not on the sheet, or one piece twice */
#define HALLPLAN_SHEET_ORDERS_UNSORTED 6 /* an order is not above the one before it */
#define HALLPLAN_SHEET_BYTES_AFTER 7    /* bytes after the last field */
#define HALLPLAN_BAD_LENGTH 8           /* plan_len is not 7 for each piece, note_len not 275, steps_len not 4, or length_len not 2 */
#define HALLPLAN_BAD_NOTE 10            /* the note is not one that this sheet's search can have */
#define HALLPLAN_SHEET_NO_LAG 11        /* a field of lags in which no lag is above 0 */
#define HALLPLAN_SHEET_TOO_LARGE 12     /* a measure above HALLPLAN_MAX_MEASURE is written */
#define HALLPLAN_BAD_MARK 13            /* check, after 8: a mark above 1, or 1 on a piece that may not be turned */

/* How many pieces the sheet has, 0 to HALLPLAN_MAX_PIECES; or a refusal. */
uint32_t hallplan_pieces(const uint8_t *sheet, size_t sheet_len);

/* Whether the plan fits the sheet: HALLPLAN_NO or HALLPLAN_YES; or a refusal. */
uint32_t hallplan_check(const uint8_t *sheet, size_t sheet_len, const uint8_t *plan, size_t plan_len);

/* One call of the search, which takes at most `allowance` steps: HALLPLAN_SPENT, HALLPLAN_PLACED or HALLPLAN_NONE; or a refusal.
 * Unless it is refused, it rewrites the note and the steps taken, and the plan when it returns HALLPLAN_PLACED. */
uint32_t hallplan_search(const uint8_t *sheet, size_t sheet_len, uint8_t *note, size_t note_len, uint32_t allowance, uint8_t *steps, size_t steps_len, uint8_t *plan, size_t plan_len);

/* The earliest finish: the sheet with its hall's shifts set to 1, 2 and so on up to its own, each searched whole, with `allowance` steps for all of
 * them together. HALLPLAN_PLACED: the length is the first that has a plan, and the plan is one for it; it fits the sheet too. HALLPLAN_NONE: no length
 * up to the sheet's shifts has one; the length is 0. HALLPLAN_SPENT: the allowance is below the steps that another answer needs, and all of it is
 * taken; the length is the greatest already shown to have none, 0 if there is none. Or a refusal. Unless it is refused, it writes the length, low byte
 * first, and the steps of all lengths tried, and the plan when it returns HALLPLAN_PLACED. It keeps no note: a call begins at length 1. */
uint32_t hallplan_finish(const uint8_t *sheet, size_t sheet_len, uint32_t allowance, uint8_t *length, size_t length_len, uint8_t *steps, size_t steps_len, uint8_t *plan, size_t plan_len);

#ifdef __cplusplus
}
#endif

#endif
