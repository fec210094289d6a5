/* A tracer hears of one breakpoint and goes. The owner makes its handler asynchronous, so that is left to a job, which is
 * done later all the same, on what was bound when the breakpoint came. */
#include "kernel.h"

static void trace(const uint64_t *words, uint64_t result) {
    (void)result;
    if (words[0]) counts[BREAKPOINTS]++;
}

void trace_breakpoint(void) {
    const uint64_t before = counts[BREAKPOINTS];
    struct bound *tracer = bind(
        &(struct spin_command_words){.event = BREAKPOINT, .requester = TRACER, .handler = HEAR}, trace);
    __asm__ volatile("int3");
    unbind(tracer);
    do_idle_jobs();
    if (counts[BREAKPOINTS] != before + 1) stop("a breakpoint isn't traced once", 5);
}
