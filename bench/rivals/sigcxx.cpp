// libsigc++'s signals.
#include "rival.h"

#include <sigc++/sigc++.h>

static sigc::signal<void, uint64_t, uint64_t *> raised;

static void bind_all(handler *handlers, size_t count) {
    for (size_t at = 0; at < count; at++) {
        const handler *self = &handlers[at];
        raised.connect([self](uint64_t word, uint64_t *result) { handle(self, word, result); });
    }
}

static uint64_t raise_word(uint64_t word) {
    uint64_t result = 0;
    raised.emit(word, &result);
    return result;
}
