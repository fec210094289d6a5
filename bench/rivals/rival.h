/* The program that each rival here is: PROGRAM BINDINGS all|one COUNT raises one event COUNT times with the word WORD,
 * with so many handlers, of which all run, or the one whose guard holds. Each handler gives the word and 1 as result, and
 * the last result stands. A rival says how handlers are bound and how the event is raised. measure builds and runs it. */
#ifndef RIVAL_H
#define RIVAL_H

#include <stdint.h>
#include <stdlib.h>
#include <string.h>

/* A handler: one that is guarded runs where the word is its key. */
struct handler {
    uint64_t key;
    int is_guarded;
};

static const uint64_t WORD = 41;

/* What the rival says: binds the handlers; raises the event, and answers its result. */
static void bind_all(struct handler *handlers, size_t count);
static uint64_t raise_word(uint64_t word);

/* What each handler does where the library has no guards. */
static inline void handle(const struct handler *self, uint64_t word, uint64_t *result) {
    if (!self->is_guarded || word == self->key) {
        *result = word + 1;
    }
}

int main(int count, char **words) {
    static struct handler handlers[64];
    if (count != 4) {
        return 2;
    }
    const size_t bindings = (size_t)atoi(words[1]);
    if (bindings > sizeof handlers / sizeof *handlers) {
        return 2;
    }
    for (size_t at = 0; at < bindings; at++) {
        handlers[at].key = WORD + at - bindings / 2;
        handlers[at].is_guarded = strcmp(words[2], "one") == 0;
    }
    bind_all(handlers, bindings);
    for (int left = atoi(words[3]); left > 0; left--) {
        if (raise_word(WORD) != WORD + 1) {
            return 1;
        }
    }
    return 0;
}

#endif
