/* A write to a page that may only be read is a fault, by which it is known which pages were changed. */
#include "kernel.h"

static void allow(const uint64_t *words, uint64_t is_allowed) {
    if (!is_allowed) stop("a write isn't allowed", 5);
    allow_write(words[0]);
    counts[WRITES_ALLOWED]++;
}

void bind_writes(void) {
    bind(&(struct spin_command_words){
             .event = PROTECTION_FAULT, .requester = WRITES, .handler = ALLOW_WRITE, .guard = IN_REGION}, allow);
}
