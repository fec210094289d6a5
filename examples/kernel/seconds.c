/* Of sixteen ticks one is raised on, by the handler of the clock, as an event of its own. Who hears that needn't at once:
 * its handler is asynchronous, so the tick leaves it to a job. */
#include "kernel.h"

static void count(const uint64_t *words, uint64_t result) {
    (void)words, (void)result;
    counts[SECONDS]++;
}

void bind_seconds(void) {
    bind(&(struct spin_command_words){.event = TICK, .handler = ON_TO_SECOND, .guard = EACH_SIXTEENTH}, NULL);
    bind(&(struct spin_command_words){.event = SECOND, .handler = HEAR, .mode = SPIN_ASYNC}, count);
}
