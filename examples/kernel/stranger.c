/* A stranger asks to serve page faults, and is denied: no rule of the owner's names it. */
#include "kernel.h"

void bind_stranger(void) {
    const struct spin_command_words wanted = {.event = PAGE_NOT_PRESENT, .requester = STRANGER, .handler = PAGE_IN};
    if (bind(&wanted, NULL)) stop("a stranger's binding is accepted", 5);
}
