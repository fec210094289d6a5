/* cost WHAT COUNT: makes one call of a handle so often, for counting what it takes. Each raise has one binding.
 * bindings/cost runs it. */
#include "spin.h"

#include <stdlib.h>
#include <string.h>

static const char script[] = "spin 1\nevent 0 0 w:w last\nevent 1 0 b last\nevent 2 0 w:w last\nendpoint 0 out0\n"
                             "handler 1 w:w result + a0 1\nhandler 2 b send 0 0 0\n"
                             "handler 3 w:w result 1 result 2 result 3\n";

static const uint8_t bytes[64];

static uint32_t raise_words(struct spin_lane *lane) {
    static const uint64_t words[1] = {41};
    struct spin_answer answer;
    return spin_lane_raise(lane, 0, words, 1, &answer);
}

static uint32_t raise_args(struct spin_lane *lane) {
    const struct spin_arg args[1] = {spin_word(41)};
    struct spin_answer answer;
    return spin_lane_raise_args(lane, 0, NULL, 0, args, 1, &answer);
}

static uint32_t raise_bytes(struct spin_lane *lane) {
    const struct spin_arg args[1] = {spin_range(0, sizeof bytes)};
    struct spin_answer answer;
    return spin_lane_raise_args(lane, 1, bytes, sizeof bytes, args, 1, &answer);
}

static uint32_t tell_step(struct spin_lane *lane) {
    struct spin_step step;
    return spin_lane_step(lane, 1, &step);
}

static uint32_t copy_bytes(struct spin_lane *lane) {
    uint8_t buffer[sizeof bytes];
    uint64_t length;
    return spin_lane_step_bytes(lane, 1, buffer, sizeof buffer, &length);
}

/* The steps of a raise that runs so many handlers, each with three results. */
enum { HANDLERS = 32, STEPS = 128 };

/* Binds them at the first call, and raises their event. */
static uint32_t start_many(struct spin_lane *lane) {
    static int is_started = 0;
    static const uint64_t words[1] = {41};
    struct spin_answer answer;
    uint32_t error = SPIN_OK;
    if (is_started) {
        return SPIN_OK;
    }
    for (int left = HANDLERS; error == SPIN_OK && left > 0; left--) {
        const struct spin_command_words install = {.op = SPIN_INSTALL, .event = 2, .handler = 3};
        error = spin_lane_command(lane, &install, &answer);
    }
    is_started = 1;
    error = error == SPIN_OK ? spin_lane_raise(lane, 2, words, 1, &answer) : error;
    return error == SPIN_OK && answer.steps != STEPS ? (uint32_t)SPIN_NO_STEP : error;
}

static uint32_t tell_each(struct spin_lane *lane) {
    struct spin_step steps[STEPS];
    uint32_t error = start_many(lane);
    for (uint64_t at = 0; error == SPIN_OK && at < STEPS; at++) {
        error = spin_lane_step(lane, at, &steps[at]);
    }
    return error;
}

static uint32_t tell_all(struct spin_lane *lane) {
    struct spin_step steps[STEPS];
    uint64_t count;
    const uint32_t error = start_many(lane);
    return error == SPIN_OK ? spin_lane_steps(lane, 0, steps, STEPS, &count) : error;
}

static const struct {
    const char *name;
    uint32_t (*call)(struct spin_lane *lane);
} calls[] = {
    {"words", raise_words}, {"args", raise_args}, {"bytes", raise_bytes}, {"step", tell_step}, {"copied", copy_bytes},
    {"each", tell_each},    {"all", tell_all}};

/* The number of the call of this name, 0 where there is none. */
static size_t named(const char *name) {
    size_t at = sizeof calls / sizeof *calls;
    while (at-- > 0 && strcmp(calls[at].name, name) != 0) {
    }
    return at < sizeof calls / sizeof *calls ? at : 0;
}

/* Opens a handle, and binds a handler to each event. */
static uint32_t start(struct spin_lane *lane) {
    struct spin_answer answer;
    uint32_t error = spin_lane_open(lane, script, sizeof script - 1, &answer);
    for (uint16_t number = 1; error == SPIN_OK && number < 3; number++) {
        const struct spin_command_words install = {.op = SPIN_INSTALL, .event = number - 1, .handler = number};
        error = spin_lane_command(lane, &install, &answer);
    }
    return error == SPIN_OK ? raise_bytes(lane) : error;
}

int main(int count, char **words) {
    if (count != 3) {
        return 2;
    }
    struct spin_lane lane = {NULL};
    struct spin_answer answer;
    const size_t what = named(words[1]);
    uint32_t error = start(&lane);
    for (int left = atoi(words[2]); error == SPIN_OK && left > 0; left--) {
        error = calls[what].call(&lane);
    }
    spin_lane_close(&lane, &answer);
    return (int)error;
}
