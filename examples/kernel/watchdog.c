/* A watchdog hears the clock, at every fourth tick: the owner imposes that. Its own log lies in paged memory, so it
 * faults while a tick is served. */
#include "kernel.h"

enum { FIRST = REGION + REGION_PAGES / 2, PAGES = REGION_PAGES / 2 };

static void hear(const uint64_t *words, uint64_t result) {
    volatile uint64_t *page = (volatile uint64_t *)((FIRST + counts[TICKS_HEARD]++ % PAGES) << 12);
    page[1] = words[0] + result;
}

void bind_watchdog(void) {
    bind(&(struct spin_command_words){.event = TICK, .requester = WATCHDOG, .handler = HEAR}, hear);
}
