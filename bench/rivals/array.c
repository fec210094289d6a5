/* What is written by hand where nothing else is wanted: an array of pairs of a function and what it is handed. */
#include "rival.h"

static struct pair {
    void (*function)(const struct handler *self, uint64_t word, uint64_t *result);
    struct handler *self;
} pairs[64];
static size_t length;

static void bind_all(struct handler *handlers, size_t count) {
    for (length = 0; length < count; length++) {
        pairs[length].function = handle;
        pairs[length].self = &handlers[length];
    }
}

static uint64_t raise_word(uint64_t word) {
    uint64_t result = 0;
    for (size_t at = 0; at < length; at++) {
        pairs[at].function(pairs[at].self, word, &result);
    }
    return result;
}
