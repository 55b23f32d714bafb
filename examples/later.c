/* Plans a sheet over several runs: later SHEET NOTE [ALLOWANCE]
 *
 * A run takes at most ALLOWANCE steps (1000) and keeps the note in the file NOTE, from which the next run goes on; where there is no
 * such file the search opens. It prints the answer and the steps of this run, and for placed a line for each piece: number, x, y, t, and 1
 * where it is turned, else 0.
 * A note belongs to its sheet: a file NOTE is for one sheet alone.
 * It exits with 0 where the sheet is decided, 3 where a later run has to go on, 2 where something is refused or a file fails. */
#include "client.h"

#include <errno.h>

#define DECIDED 0
#define FAILED 2
#define UNDECIDED 3

/* The note of the last run, or, where there is no file, the opening note, all zeros. A file of another length is left to the search to
 * refuse; one that cannot be read ends the run, and is not written over. */
static size_t load_note(const char *name, uint8_t *note)
{
    long len = read_file(name, note, HALLPLAN_NOTE_BYTES + 1);
    if (len < 0 && errno != ENOENT) {
        perror(name);
        exit(FAILED);
    }
    return len < 0 ? HALLPLAN_NOTE_BYTES : (size_t)len;
}

/* Writes a new file and puts it in the place of the old one, so that a run that is broken off leaves a whole note. */
static int save_note(const char *name, const uint8_t *note)
{
    char fresh[4096];
    if (snprintf(fresh, sizeof fresh, "%s.new", name) >= (int)sizeof fresh) {
        return 0;
    }
    FILE *file = fopen(fresh, "wb");
    if (!file) {
        return 0;
    }
    size_t written = fwrite(note, 1, HALLPLAN_NOTE_BYTES, file);
    return fclose(file) == 0 && written == HALLPLAN_NOTE_BYTES && rename(fresh, name) == 0;
}

int main(int argc, char **argv)
{
    uint8_t sheet[HALLPLAN_MAX_SHEET_BYTES + 1];
    uint8_t note[HALLPLAN_NOTE_BYTES + 1] = {0};
    uint8_t steps[HALLPLAN_STEP_BYTES] = {0};
    uint8_t plan[HALLPLAN_MAX_PLAN_BYTES] = {0};
    long len = argc < 3 ? -1 : read_file(argv[1], sheet, sizeof sheet);
    if (len < 0) {
        fprintf(stderr, "later SHEET NOTE [ALLOWANCE]\n");
        return FAILED;
    }
    uint32_t allowance = argc > 3 ? (uint32_t)strtoul(argv[3], NULL, 10) : 1000;
    uint32_t pieces = hallplan_pieces(sheet, (size_t)len);
    size_t plan_len = pieces < HALLPLAN_REFUSED ? HALLPLAN_PIECE_BYTES * (size_t)pieces : 0;
    uint32_t code = hallplan_search(sheet, (size_t)len, note, load_note(argv[2], note), allowance, steps, sizeof steps, plan, plan_len);
    if (code >= HALLPLAN_REFUSED) {
        printf("refused %u\n", (unsigned)(code - HALLPLAN_REFUSED));
        return FAILED;
    }
    if (!save_note(argv[2], note)) {
        perror(argv[2]);
        return FAILED;
    }
    printf("%s %lu\n", answer_word(code), (unsigned long)steps_in(steps));
    if (code == HALLPLAN_PLACED) {
        print_plan(plan, pieces);
    }
    return code == HALLPLAN_SPENT ? UNDECIDED : DECIDED;
}
