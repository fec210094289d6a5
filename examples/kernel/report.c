/* What each level asked and was answered, in numbers, kept until all of it is written over the serial line. */
#include "kernel.h"

enum { MOST = 1 << 18 };

static struct {
    uint64_t numbers[MOST];
    size_t length;
} notes[LEVELS];

/* Only the level itself adds to what it notes, so none breaks into that. */
void note(enum level lane, const uint64_t *numbers, size_t count) {
    if (MOST - notes[lane].length < count) stop("a level asks too much", 3);
    memcpy(notes[lane].numbers + notes[lane].length, numbers, count * sizeof *numbers);
    notes[lane].length += count;
}

/* A line for each call, the level first. */
void write_notes(void) {
    for (uint64_t lane = 0; lane < LEVELS; lane++) {
        for (size_t at = 0; at < notes[lane].length; at++) {
            const bool is_first = notes[lane].numbers[at] == CALL;
            put(is_first ? "\n" : " ", 1);
            put_number(is_first ? lane : notes[lane].numbers[at]);
        }
    }
    put("\n", 1);
}
