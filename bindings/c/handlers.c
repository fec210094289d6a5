/* A host with handlers of its own: the dispatcher says which bindings run, in which order and on which guards, and what
 * each gives and sends; the host does the rest along the steps of the reply. It counts packets, and writes what is
 * sent. */
#include "spin.h"

#include <stdio.h>

/* Event 0 is a packet, with its port. Handler 1 is the host's alone, handler 2 sends what is behind the first two bytes
 * to endpoint 1; guard 1 wants port 53. */
static const char script[] = "spin 1\nevent 0 0 bw last\nendpoint 0 out0\nendpoint 1 out1\n"
                             "handler 1 bw\nhandler 2 bw send 1 0 2\nguard 1 bw == a1 53\n";

struct host {
    unsigned seen;         /* packets that were counted */
    uint32_t bound[1 + 2]; /* the numbers of the bindings of each handler */
};

/* What the host does where the handler of a binding runs. */
static void run_handler(struct host *host, uint32_t number) {
    if (number == host->bound[1]) {
        host->seen++;
        printf("packet %u\n", host->seen);
    } else if (number == host->bound[2]) {
        puts("to the name server");
    }
}

/* What it does where bytes are sent. */
static uint32_t send_bytes(struct spin_lane *lane, uint64_t index, const struct spin_step *step) {
    char bytes[16];
    uint64_t length = 0;
    const uint32_t error = spin_lane_step_bytes(lane, index, bytes, sizeof bytes, &length);
    if (error == SPIN_OK) {
        printf("out%u: %.*s\n", step->number, (int)length, bytes);
    }
    return error;
}

/* Raises a packet, and does what its steps say. */
static uint32_t take_packet(struct host *host, struct spin_lane *lane, const char *packet, size_t length,
                            uint64_t port) {
    const struct spin_arg args[2] = {spin_range(0, length), spin_word(port)};
    struct spin_answer answer;
    uint32_t error = spin_lane_raise_args(lane, 0, packet, length, args, 2, &answer);
    for (uint64_t index = 0; error == SPIN_OK && index < answer.steps; index++) {
        struct spin_step step;
        error = spin_lane_step(lane, index, &step);
        if (error == SPIN_OK && step.kind == SPIN_RUN) {
            run_handler(host, step.number);
        } else if (error == SPIN_OK && step.kind == SPIN_SEND) {
            error = send_bytes(lane, index, &step);
        }
    }
    return error;
}

int main(void) {
    struct spin_lane lane = {NULL};
    struct spin_answer answer;
    struct host host = {0, {0, 0, 0}};
    uint32_t error = spin_lane_open(&lane, script, sizeof script - 1, &answer);
    for (uint16_t handler = 1; error == SPIN_OK && handler <= 2; handler++) {
        const struct spin_command_words install = {.op = SPIN_INSTALL, .handler = handler, .guard = handler - 1};
        error = spin_lane_command(&lane, &install, &answer);
        host.bound[handler] = answer.place; /* the binding's number is its command's place */
    }
    error = error == SPIN_OK ? take_packet(&host, &lane, "..page", 6, 80) : error;
    error = error == SPIN_OK ? take_packet(&host, &lane, "..name", 6, 53) : error;
    if (error != SPIN_OK) {
        printf("%s\n", spin_error_name(error));
    }
    spin_lane_close(&lane, &answer);
    return (int)error;
}
