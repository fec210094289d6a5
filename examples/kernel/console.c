/* The console: a filter makes letters upper case, the handler behind it gathers what keys are then, and a whole line is
 * an event of its own, which is raised from within. */
#include "kernel.h"

static char line[32];
static size_t length;

static void gather(const uint64_t *words, uint64_t key) {
    (void)words;
    line[length++] = (char)key;
    if (key != '\n' && length < sizeof line) return;
    raise_line(line, length);
    length = 0;
    counts[LINES]++;
}

void bind_console(void) {
    bind(&(struct spin_command_words){.event = KEY, .requester = CONSOLE, .handler = UPPER_CASE, .guard = IS_LETTER,
                                      .place = SPIN_FIRST, .mode = SPIN_FILTER}, NULL);
    bind(&(struct spin_command_words){.event = KEY, .requester = CONSOLE, .handler = ECHO}, gather);
    bind(&(struct spin_command_words){.event = LINE, .handler = SEND_LINE}, NULL);
}
