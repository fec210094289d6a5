/* This library from C, with functions as handlers. Guards are the script's; or, where GUARDED is defined, functions too,
 * which every handler has then. */
#include "rival.h"
#include "spin_host.h"

#include <stdio.h>

static struct spin_host host;
static struct spin_table table;

/* A number that can't be had ends the program, whose status then shows it. */
static void expect(uint32_t error) {
    if (error != SPIN_OK) {
        exit(3);
    }
}

static enum spin_outcome on_raised(void *self, struct spin_call *call) {
    (void)self;
    spin_call_result(call, spin_call_word(call, 0) + 1);
    return SPIN_HANDLED;
}

#ifdef GUARDED
static int holds(void *self, struct spin_call *call) {
    const struct handler *handler = (const struct handler *)self;
    return !handler->is_guarded || spin_call_word(call, 0) == handler->key;
}
#else
#define holds NULL
#endif

static void bind_all(struct handler *handlers, size_t count) {
    static const struct spin_named events[] = {{"raised", "w:w", NULL, 0}, {0}};
    static struct spin_named guards[65];
    static struct spin_declared declared = {NULL, events, NULL, NULL, guards, NULL};
    static char tests[64][32];
    struct spin_answer answer;
    for (size_t at = 0; at < count; at++) {
        (void)snprintf(tests[at], sizeof tests[at], "== a0 %llu", (unsigned long long)handlers[at].key);
        const struct spin_named guard = {"by_key", "w", tests[at], 0};
        guards[at] = guard;
    }
    expect(spin_host_open(&host, 1, &declared, &answer));
    for (size_t at = 0; at < count; at++) {
        const struct spin_function function = {on_raised, holds, &handlers[at], NULL};
        const struct spin_command_words how = {.guard = function.guard == NULL && handlers[at].is_guarded ? at + 1 : 0};
        expect(spin_bind(&host, &table, &how, function, &answer));
    }
}

static uint64_t raise_word(uint64_t word) {
    struct spin_answer answer;
    const struct spin_value arg = spin_value_word(word);
    expect(spin_raise_with(&host, &table, 0, &arg, 1, &answer));
    return answer.value;
}
