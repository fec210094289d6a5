/* This library from C: handlers and guards are the script's, each bound by a command. */
#include "rival.h"
#include "spin.h"

#include <stdio.h>

static struct spin_lane lane = {NULL};

/* A number that can't be had ends the program, whose status then shows it. */
static void expect(uint32_t error) {
    if (error != SPIN_OK) {
        exit(3);
    }
}

static void bind_all(struct handler *handlers, size_t count) {
    char script[8192];
    struct spin_answer answer;
    int length = snprintf(script, sizeof script, "spin 3\nevent 0 0 w:w last\nhandler 1 w:w result + a0 1\n");
    for (size_t at = 0; at < count; at++) {
        length += snprintf(script + length, sizeof script - (size_t)length, "guard %zu w == a0 %llu\n", at + 1,
                           (unsigned long long)handlers[at].key);
    }
    expect(spin_lane_open(&lane, script, (size_t)length, &answer));
    for (size_t at = 0; at < count; at++) {
        const struct spin_command_words install = {
            .op = SPIN_INSTALL, .handler = 1, .guard = handlers[at].is_guarded ? (uint16_t)(at + 1) : 0};
        expect(spin_lane_command(&lane, &install, &answer));
    }
}

static uint64_t raise_word(uint64_t word) {
    struct spin_answer answer;
    expect(spin_lane_raise(&lane, 0, &word, 1, &answer));
    return answer.value;
}
