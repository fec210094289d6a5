/* test [EXAMPLES]: what the calls of a handle answer, what a report is judged to be beside the capture of the examples,
 * and spin.h's own code: null pointers, and the names of errors. */
#include "spin.h"

#include <stdio.h>
#include <stdlib.h>
#include <string.h>

static int wrong = 0;

/* Tells an answer that isn't the one that is wanted, and ends behind the 20th. */
static void expect(const char *what, uint32_t answer, uint32_t wanted) {
    if (answer != wanted) {
        printf("%s: %s, and not %s\n", what, spin_error_name(answer), spin_error_name(wanted));
        if (++wrong > 20) {
            exit(1);
        }
    }
}

/* What is told of numbers that have no room where they go. Nothing is asked then. */
static void expect_wide(struct spin_lane *lane) {
    const struct spin_command_words wide[] = {
        {.op = SPIN_INSTALL, .event = 64},
        {.op = SPIN_INSTALL, .handler = 1024},
        {.op = SPIN_INSTALL, .requester = 256},
        {.op = SPIN_INSTALL, .guard = UINT64_MAX},
        {.op = SPIN_REMOVE, .target = 8192},
        {.op = (enum spin_op)8},
        {.op = SPIN_INSTALL, .handler = 1, .before = {1, UINT16_MAX}},
        {.op = SPIN_INSTALL, .handler = 1, .after = {UINT64_MAX}},
    };
    const uint64_t words[1] = {41};
    const struct spin_arg args[1] = {spin_word(41)};
    struct spin_lane other = {NULL};
    struct spin_answer answer = {9, 9, 9, 9};
    for (size_t at = 0; at < sizeof wide / sizeof *wide; at++) {
        expect("a wide number", spin_lane_command(lane, &wide[at], &answer), SPIN_WIDE);
    }
    expect("event 256", spin_lane_raise(lane, 256, words, 1, &answer), SPIN_WIDE);
    expect("event 257 with arguments", spin_lane_raise_args(lane, 257, NULL, 0, args, 1, &answer), SPIN_WIDE);
    expect("lane 256", spin_lane_seat(lane, 256, &other), SPIN_WIDE);
    expect("257 lanes", spin_lane_open_hub(&other, 257, "", 0, &answer), SPIN_WIDE);
    if (answer.place != 9 || answer.steps != 9) {
        puts("a wide number is answered");
        wrong = 1;
    }
}

/* What a handle answers. */
static void expect_lanes(void) {
    static const char script[] =
        "spin 1\nmodules 2\nevent 0 0 w:w last\nhandler 1 w:w result + a0 1\nrule 0 1 1 any any all deny\n";
    const size_t length = sizeof script - 1;
    const uint64_t words[1] = {41};
    struct spin_lane lane = {NULL};
    struct spin_answer answer = {9, 9, 9, 9};
    struct spin_command_words install = {.op = SPIN_INSTALL, .handler = 1};
    expect("a raise on a closed handle", spin_lane_raise(&lane, 0, words, 1, &answer), SPIN_CLOSED);
    expect("a close of a closed handle", spin_lane_close(&lane, &answer), SPIN_CLOSED);
    expect("an open over no script", spin_lane_open(&lane, "spin 1\nbad\n", 11, &answer), SPIN_BAD_SCRIPT);
    if (answer.place != 2 || answer.kind != 4 || lane.at != NULL) {
        puts("the bad line isn't told, or the handle is open");
        wrong = 1;
    }
    expect("an open", spin_lane_open(&lane, script, length, &answer), SPIN_OK);
    expect("an open of an open handle", spin_lane_open(&lane, script, length, &answer), SPIN_OPEN);
    expect("a command", spin_lane_command(&lane, &install, &answer), SPIN_OK);
    expect("a raise", spin_lane_raise(&lane, 0, words, 1, &answer), SPIN_OK);
    if (answer.place != 1 || answer.kind != SPIN_VALUE || answer.value != 42 || answer.steps != 2) {
        puts("the raise has another answer");
        wrong = 1;
    }
    install.requester = 1;
    expect("a denied command", spin_lane_command(&lane, &install, &answer), SPIN_REFUSED);
    if (answer.place != 1 || strcmp(spin_refusal_name(answer.kind), "denied") != 0 || answer.value != 1) {
        puts("the refusal is told as another, or its rule");
        wrong = 1;
    }
    expect_wide(&lane);
    expect("a raise without words", spin_lane_raise(&lane, 0, NULL, 0, &answer), SPIN_OK);
    expect("a raise with null words", spin_lane_raise(&lane, 0, NULL, 1, &answer), SPIN_NULL);
    expect("a null handle", spin_lane_raise(NULL, 0, words, 1, &answer), SPIN_NULL);
    expect("a null answer", spin_lane_close(&lane, NULL), SPIN_NULL);
    expect("a close", spin_lane_close(&lane, &answer), SPIN_OK);
    expect("a second close", spin_lane_close(&lane, &answer), SPIN_CLOSED);
    expect("an open again", spin_lane_open(&lane, script, length, &answer), SPIN_OK);
    expect("its close", spin_lane_close(&lane, &answer), SPIN_OK);
}

/* A script whose raise has a step of each kind: an act that sends, gives a result and raises upwards, where a packet is
 * dropped; and an asynchronous handler. */
static const char trail[] =
    "spin 1\nevent 0 0 bw:w last\nevent 1 0 b last\nevent 2 0 bwww last\nendpoint 0 out0\n"
    "handler 1 bw:w send 0 0 1 up 1 1 b 0 0 result a1\nhandler 2 b layer ipv4 2\nhandler 3 bw:w result a1\n";

static const struct spin_step steps[] = {
    {.kind = SPIN_RUN, .event = 0, .number = 1}, {.kind = SPIN_SEND, .number = 0, .length = 2},
    {.kind = SPIN_RESULT, .value = 7},           {.kind = SPIN_UP, .event = 1},
    {.kind = SPIN_RUN, .event = 1, .number = 2}, {.kind = SPIN_DROPPED, .number = 1},
    {.kind = SPIN_BACK, .answer = SPIN_DONE},    {.kind = SPIN_JOB, .event = 0, .number = 3},
};

/* What a list of so much room gets of the steps from an index on. */
static void expect_list(struct spin_lane *lane, uint64_t from, size_t room, uint32_t wanted, uint64_t count) {
    const struct spin_step mark = {9, 9, 9, 9, 9, 9};
    struct spin_step list[10], filled[10];
    uint64_t told = 99;
    for (size_t at = 0; at < 10; at++) {
        list[at] = mark;
        filled[at] = at < count ? steps[from + at] : mark;
    }
    expect("many steps", spin_lane_steps(lane, from, list, room, &told), wanted);
    if (told != count || memcmp(list, filled, sizeof list) != 0) {
        printf("of the steps from %u on %u are told\n", (unsigned)from, (unsigned)told);
        wrong = 1;
    }
}

/* What is told where no step is. */
static void expect_no_step(struct spin_lane *lane, uint64_t index, uint32_t wanted) {
    const struct spin_step none = {0, 0, 0, 0, 0, 0};
    struct spin_step step = {9, 9, 9, 9, 9, 9};
    uint64_t length = 9;
    char buffer[2] = "-";
    expect("no step", spin_lane_step(lane, index, &step), wanted);
    expect_list(lane, index, 10, wanted, 0);
    expect("no bytes", spin_lane_step_bytes(lane, index, buffer, 1, &length), wanted);
    if (memcmp(&step, &none, sizeof step) != 0 || length != 0 || buffer[0] != '-') {
        puts("where no step is one is told");
        wrong = 1;
    }
}

/* What a buffer of so much room gets of a step's bytes. */
static void expect_bytes(struct spin_lane *lane, uint64_t index, size_t room, uint32_t wanted, const char *bytes) {
    char buffer[] = "-----", filled[] = "-----";
    uint64_t length = 9;
    expect("the bytes of a step", spin_lane_step_bytes(lane, index, buffer, room, &length), wanted);
    if (wanted == SPIN_OK) {
        memcpy(filled, bytes, strlen(bytes));
    }
    if (length != strlen(bytes) || strcmp(buffer, filled) != 0) {
        printf("of a step %u bytes are told, and the buffer is %s\n", (unsigned)length, buffer);
        wrong = 1;
    }
}

/* What is told of the steps of a raise with bytes. */
static void expect_steps(void) {
    const struct spin_arg args[2] = {spin_range(1, 3), spin_word(7)};
    struct spin_lane lane = {NULL};
    struct spin_answer answer = {9, 9, 9, 9};
    struct spin_step step;
    expect_no_step(&lane, 0, SPIN_CLOSED);
    expect("an open", spin_lane_open(&lane, trail, sizeof trail - 1, &answer), SPIN_OK);
    expect_no_step(&lane, 0, SPIN_NO_REPLY);
    for (uint16_t number = 1; number < 4; number++) {
        const struct spin_command_words install = {
            .op = SPIN_INSTALL, .event = number == 2, .handler = number, .mode = number == 3 ? SPIN_ASYNC : SPIN_PLAIN};
        expect("a command", spin_lane_command(&lane, &install, &answer), SPIN_OK);
    }
    expect("a raise", spin_lane_raise_args(&lane, 0, "abcde", 5, args, 2, &answer), SPIN_OK);
    if (answer.kind != SPIN_VALUE || answer.value != 7 || answer.steps != sizeof steps / sizeof *steps) {
        puts("the raise with bytes has another answer");
        wrong = 1;
    }
    for (uint64_t index = 0; index < answer.steps; index++) {
        expect("a step", spin_lane_step(&lane, index, &step), SPIN_OK);
        if (memcmp(&step, &steps[index], sizeof step) != 0) {
            printf("step %u is another, of kind %u\n", (unsigned)index, step.kind);
            wrong = 1;
        }
    }
    expect_no_step(&lane, answer.steps, SPIN_NO_STEP);
    expect_no_step(&lane, UINT64_MAX, SPIN_NO_STEP);
    expect_list(&lane, 0, 10, SPIN_OK, 8);
    expect_list(&lane, 0, 3, SPIN_OK, 3);
    expect_list(&lane, 5, 2, SPIN_OK, 2);
    expect_list(&lane, 7, 10, SPIN_OK, 1);
    expect_list(&lane, 2, 0, SPIN_OK, 0);
    expect("null steps", spin_lane_steps(&lane, 0, NULL, 1, &answer.value), SPIN_NULL);
    expect("null steps of no room", spin_lane_steps(&lane, 0, NULL, 0, &answer.value), SPIN_OK);
    expect_bytes(&lane, 1, 5, SPIN_OK, "cd");
    expect_bytes(&lane, 1, 2, SPIN_OK, "cd");
    expect_bytes(&lane, 1, 1, SPIN_TOO_SMALL, "cd");
    expect_bytes(&lane, 0, 0, SPIN_OK, "");
    expect("a null step", spin_lane_step(&lane, 0, NULL), SPIN_NULL);
    expect("a null buffer", spin_lane_step_bytes(&lane, 1, NULL, 2, &answer.value), SPIN_NULL);
    expect("a null buffer of no bytes", spin_lane_step_bytes(&lane, 1, NULL, 0, &answer.value), SPIN_TOO_SMALL);
    expect("a close", spin_lane_close(&lane, &answer), SPIN_OK);
}

/* What is told of arguments that aren't given, and when a reply goes. */
static void expect_replies(void) {
    const struct spin_arg whole[2] = {spin_range(0, 5), spin_word(7)}, past[2] = {spin_range(3, 3), spin_word(7)};
    const struct spin_arg huge[1] = {spin_range(UINT64_MAX, 2)}, other[1] = {{2, 0, 0}};
    const struct spin_command_words none = {.op = SPIN_REMOVE, .handler = 1}, install = {.op = SPIN_INSTALL};
    struct spin_lane lane = {NULL};
    struct spin_answer answer = {9, 9, 9, 9};
    struct spin_step step;
    expect("an open", spin_lane_open(&lane, trail, sizeof trail - 1, &answer), SPIN_OK);
    expect("a raise of no handler", spin_lane_raise_args(&lane, 0, "abcde", 5, whole, 2, &answer), SPIN_OK);
    expect_no_step(&lane, 0, SPIN_NO_STEP);
    expect("a range past the end", spin_lane_raise_args(&lane, 0, "abcde", 5, past, 2, &answer), SPIN_NO_ARGUMENT);
    expect("a huge range", spin_lane_raise_args(&lane, 0, "abcde", 5, huge, 1, &answer), SPIN_NO_ARGUMENT);
    expect("another kind", spin_lane_raise_args(&lane, 0, "abcde", 5, other, 1, &answer), SPIN_NO_ARGUMENT);
    expect("null bytes", spin_lane_raise_args(&lane, 0, NULL, 5, whole, 2, &answer), SPIN_NULL);
    expect("null arguments", spin_lane_raise_args(&lane, 0, "abcde", 5, NULL, 2, &answer), SPIN_NULL);
    expect("a row that is no command", spin_lane_command(&lane, &none, &answer), SPIN_NO_COMMAND);
    expect("the reply stays", spin_lane_step(&lane, 0, &step), SPIN_NO_STEP);
    expect("a refused command", spin_lane_command(&lane, &install, &answer), SPIN_REFUSED);
    expect("the reply is gone", spin_lane_step(&lane, 0, &step), SPIN_NO_REPLY);
    expect("no arguments", spin_lane_raise_args(&lane, 0, NULL, 0, NULL, 0, &answer), SPIN_OK);
    if (answer.kind != SPIN_WRONG_ARGUMENTS) {
        puts("no arguments fit the event");
        wrong = 1;
    }
    expect("a close", spin_lane_close(&lane, &answer), SPIN_OK);
}

/* A script whose raise leaves two jobs: that of a handler of the event that it raises upwards, and one of its own. */
static const char jobs[] = "spin 1\nevent 0 0 bw:w last\nevent 1 0 b last\nendpoint 0 out0\n"
                           "handler 1 bw:w up 1 1 b 0 0 result a1\nhandler 2 b send 0 0 1\n"
                           "handler 3 bw:w result + a1 1\n";

/* What a job answers, and the step at an index of it. */
static void expect_job(struct spin_lane *lane, uint64_t index, struct spin_answer wanted, uint64_t at,
                       struct spin_step step) {
    struct spin_answer answer = {9, 9, 9, 9};
    struct spin_step told = {9, 9, 9, 9, 9, 9};
    expect("a job", spin_lane_job(lane, index, &answer), SPIN_OK);
    expect("a job's step", spin_lane_job_step(lane, at, &told), SPIN_OK);
    if (memcmp(&answer, &wanted, sizeof answer) != 0 || memcmp(&told, &step, sizeof told) != 0) {
        printf("job %u at %u has another answer, of kind %u with %u steps, or another step, of kind %u\n",
               (unsigned)index, answer.place, answer.kind, (unsigned)answer.steps, told.kind);
        wrong = 1;
    }
}

/* Opens a hub over the script with jobs, and binds its handlers by the other lane. */
static void open_jobs(struct spin_lane *lane, struct spin_lane *other) {
    struct spin_answer answer;
    expect("an open", spin_lane_open_hub(lane, 2, jobs, sizeof jobs - 1, &answer), SPIN_OK);
    expect("a seat", spin_lane_seat(lane, 1, other), SPIN_OK);
    for (uint64_t number = 1; number < 4; number++) {
        const struct spin_command_words install = {
            .op = SPIN_INSTALL, .event = number == 2, .handler = number, .mode = number > 1 ? SPIN_ASYNC : SPIN_PLAIN};
        expect("a command", spin_lane_command(other, &install, &answer), SPIN_OK);
    }
}

/* What raises that are left to jobs answer, behind the removal of the binding of event 0 that isn't asynchronous. */
static void expect_laters(struct spin_lane *lane, const struct spin_arg args[2]) {
    struct spin_lane closed = {NULL};
    struct spin_answer answer = {9, 9, 9, 9};
    expect("a later of a closed handle", spin_lane_later(&closed, 0, "abc", 3, args, 2, &answer), SPIN_CLOSED);
    expect("a later", spin_lane_later(lane, 0, "abc", 3, args, 2, &answer), SPIN_OK);
    if (answer.place != 4 || answer.kind != SPIN_QUEUED || answer.steps != 0) {
        puts("the later has another answer");
        wrong = 1;
    }
    expect_job(lane, 0, (struct spin_answer){4, SPIN_DONE, 0, 2}, 0,
               (struct spin_step){.kind = SPIN_RUN, .number = 3});
    expect("no second job", spin_lane_job(lane, 1, &answer), SPIN_NO_JOB);
    expect("a wide event", spin_lane_later(lane, 256, "abc", 3, args, 2, &answer), SPIN_WIDE);
    expect("a range past the end", spin_lane_later(lane, 0, "ab", 2, args, 2, &answer), SPIN_NO_ARGUMENT);
    expect("a refused later", spin_lane_later(lane, 9, "abc", 3, args, 2, &answer), SPIN_OK);
    if (answer.kind != SPIN_UNKNOWN_EVENT) {
        puts("the refused later has another answer");
        wrong = 1;
    }
    expect("its job", spin_lane_job(lane, 0, &answer), SPIN_NO_JOB);
}

/* What jobs answer: they are done on the bindings of their raise, in any order, and more than once. */
static void expect_jobs(void) {
    const struct spin_arg args[2] = {spin_range(0, 3), spin_word(7)};
    const struct spin_command_words remove = {.op = SPIN_REMOVE, .target = 1};
    struct spin_lane lane = {NULL}, other = {NULL};
    struct spin_answer answer;
    struct spin_step step;
    char buffer[2] = "";
    uint64_t length = 9;
    expect("a job of a closed handle", spin_lane_job(&lane, 0, &answer), SPIN_CLOSED);
    open_jobs(&lane, &other);
    expect("a job of no reply", spin_lane_job(&lane, 0, &answer), SPIN_NO_REPLY);
    expect("a raise", spin_lane_raise_args(&lane, 0, "abc", 3, args, 2, &answer), SPIN_OK);
    expect("a step before a job", spin_lane_job_step(&lane, 0, &step), SPIN_NO_REPLY);
    expect("bytes before a job", spin_lane_job_bytes(&lane, 0, buffer, 2, &length), SPIN_NO_REPLY);
    expect("a removal by another lane", spin_lane_command(&other, &remove, &answer), SPIN_OK);
    for (int turn = 0; turn < 2; turn++) {
        expect_job(&lane, 1, (struct spin_answer){3, SPIN_VALUE, 8, 2}, 1,
                   (struct spin_step){.kind = SPIN_RESULT, .value = 8});
        expect_job(&lane, 0, (struct spin_answer){3, SPIN_DONE, 0, 2}, 1,
                   (struct spin_step){.kind = SPIN_SEND, .length = 2});
    }
    expect("a job's bytes", spin_lane_job_bytes(&lane, 1, buffer, 2, &length), SPIN_OK);
    expect("no room for them", spin_lane_job_bytes(&lane, 1, NULL, 0, &length), SPIN_TOO_SMALL);
    if (length != 2 || buffer[0] != 'b' || buffer[1] != 'c') {
        puts("the job's bytes are others");
        wrong = 1;
    }
    expect("no step", spin_lane_job_step(&lane, 2, &step), SPIN_NO_STEP);
    expect("no job", spin_lane_job(&lane, 2, &answer), SPIN_NO_JOB);
    expect("the raise's reply", spin_lane_step(&lane, 0, &step), SPIN_OK);
    expect("a null step", spin_lane_job_step(&lane, 0, NULL), SPIN_NULL);
    expect_laters(&lane, args);
    expect("a close", spin_lane_close(&lane, &answer), SPIN_OK);
    expect("a close", spin_lane_close(&other, &answer), SPIN_OK);
}

static const char plus[] = "spin 2\nmodules 2\nevent 0 0 w:w last\nhandler 1 w:w result + a0 1\n"
                           "handler 2 w:w result + a0 2\nrule 0 1 1 any any all force 0 keep async\n";

/* Opens a hub over the script that adds. */
static void open_plus(struct spin_lane *lane, uint64_t lanes) {
    struct spin_answer answer;
    expect("an open", spin_lane_open_hub(lane, lanes, plus, sizeof plus - 1, &answer), SPIN_OK);
}

/* The answer to a raise of event 0 with the word 10. */
static void expect_value(struct spin_lane *lane, uint32_t place, uint64_t value) {
    const uint64_t words[1] = {10};
    struct spin_answer answer = {9, 9, 9, 9};
    expect("a raise", spin_lane_raise(lane, 0, words, 1, &answer), SPIN_OK);
    if (answer.place != place || answer.kind != SPIN_VALUE || answer.value != value) {
        printf("the raise at %u gives %u\n", answer.place, (unsigned)answer.value);
        wrong = 1;
    }
}

/* How many seats are told to be out. */
static void expect_out(struct spin_lane *lane, uint32_t wanted, uint64_t out) {
    uint64_t told = 9;
    expect("the seats that are out", spin_lane_gather(lane, &told), wanted);
    if (told != out) {
        printf("%u seats are out\n", (unsigned)told);
        wrong = 1;
    }
}

/* What handles of one hub answer. */
static void expect_seats(void) {
    struct spin_lane first = {NULL}, second = {NULL}, third = {NULL};
    struct spin_answer answer;
    const struct spin_command_words install = {.op = SPIN_INSTALL, .handler = 1};
    expect("a seat of a closed handle", spin_lane_seat(&first, 1, &second), SPIN_CLOSED);
    expect("no lanes", spin_lane_open_hub(&first, 0, plus, sizeof plus - 1, &answer), SPIN_NO_LANE);
    expect("9 lanes", spin_lane_open_hub(&first, 9, "", 0, &answer), SPIN_NO_LANE);
    expect("a closed handle", spin_lane_close(&first, &answer), SPIN_CLOSED);
    open_plus(&first, 8);
    expect("lanes of an open handle", spin_lane_open_hub(&first, 0, plus, sizeof plus - 1, &answer), SPIN_OPEN);
    expect("a lane that isn't there", spin_lane_seat(&first, 8, &second), SPIN_NO_LANE);
    expect("its own lane", spin_lane_seat(&first, 0, &second), SPIN_TAKEN);
    expect("a null seat", spin_lane_seat(&first, 1, NULL), SPIN_NULL);
    expect("one handle twice", spin_lane_seat(&first, 1, &first), SPIN_SAME);
    expect("a seat", spin_lane_seat(&first, 1, &second), SPIN_OK);
    expect("a seat to an open handle", spin_lane_seat(&first, 2, &second), SPIN_OPEN);
    expect("a seat a second time", spin_lane_seat(&first, 1, &third), SPIN_TAKEN);
    expect("a seat of a seat", spin_lane_seat(&second, 2, &third), SPIN_NO_LANE);
    expect("a command", spin_lane_command(&second, &install, &answer), SPIN_OK);
    expect("another seat", spin_lane_seat(&first, 7, &third), SPIN_OK);
    expect("a close of the opener", spin_lane_close(&first, &answer), SPIN_OK);
    expect_value(&third, 1, 11);
    expect("a close of the third", spin_lane_close(&third, &answer), SPIN_OK);
    expect("a second close", spin_lane_close(&third, &answer), SPIN_CLOSED);
    expect("a return after the opener", spin_lane_return(&second, &answer), SPIN_OK);
    expect("a second return", spin_lane_return(&second, &answer), SPIN_CLOSED);
}

/* What is told where seats come home, and go out again. */
static void expect_homes(void) {
    struct spin_lane first = {NULL}, second = {NULL}, third = {NULL};
    struct spin_answer answer;
    const struct spin_command_words install = {.op = SPIN_INSTALL, .handler = 1};
    expect_out(&first, SPIN_CLOSED, 0);
    expect("a null handle", spin_lane_return(NULL, &answer), SPIN_NULL);
    expect("a null number", spin_lane_gather(&first, NULL), SPIN_NULL);
    open_plus(&first, 3);
    expect_out(&first, SPIN_OK, 0);
    expect("a return of the opener", spin_lane_return(&first, &answer), SPIN_NO_LANE);
    expect("a seat", spin_lane_seat(&first, 1, &second), SPIN_OK);
    expect("a seat", spin_lane_seat(&first, 2, &third), SPIN_OK);
    expect_out(&first, SPIN_OK, 2);
    expect_out(&second, SPIN_NO_LANE, 0);
    expect("a command", spin_lane_command(&second, &install, &answer), SPIN_OK);
    expect("a return", spin_lane_return(&second, &answer), SPIN_OK);
    expect_out(&first, SPIN_OK, 1);
    expect("a seat again", spin_lane_seat(&first, 1, &second), SPIN_OK);
    expect("a renewal with seats that are out", spin_lane_renew(&first, &answer), SPIN_TAKEN);
    expect("a renewal by another handle", spin_lane_renew(&second, &answer), SPIN_NO_LANE);
    expect_value(&second, 1, 11);
    expect("a close, by which the seat comes home", spin_lane_close(&third, &answer), SPIN_OK);
    expect("a return", spin_lane_return(&second, &answer), SPIN_OK);
    expect("a renewal", spin_lane_renew(&first, &answer), SPIN_OK);
    expect("a seat of the renewed hub", spin_lane_seat(&first, 2, &third), SPIN_OK);
    expect_value(&third, 1, 11);
    expect("a command", spin_lane_command(&third, &install, &answer), SPIN_OK);
    expect("a close of the opener", spin_lane_close(&first, &answer), SPIN_OK);
    expect_value(&third, 2, 11);
    expect("a return", spin_lane_return(&third, &answer), SPIN_OK);
}

/* What each call answers of a hub that was ended. */
static void expect_ended(struct spin_lane *lane) {
    const uint64_t words[1] = {10};
    const struct spin_arg args[1] = {spin_word(10)}, bad[1] = {{2, 0, 0}};
    const struct spin_command_words install = {.op = SPIN_INSTALL, .handler = 1};
    struct spin_lane other = {NULL};
    struct spin_answer answer;
    struct spin_step step;
    char buffer[1];
    uint64_t told = 9;
    expect("a raise", spin_lane_raise(lane, 0, words, 1, &answer), SPIN_HUB_ENDED);
    expect("a raise with arguments", spin_lane_raise_args(lane, 0, NULL, 0, args, 1, &answer), SPIN_HUB_ENDED);
    expect("no argument", spin_lane_raise_args(lane, 0, NULL, 0, bad, 1, &answer), SPIN_NO_ARGUMENT);
    expect("a raise for later", spin_lane_later(lane, 0, NULL, 0, args, 1, &answer), SPIN_HUB_ENDED);
    expect("a job", spin_lane_job(lane, 0, &answer), SPIN_HUB_ENDED);
    expect("a job's step", spin_lane_job_step(lane, 0, &step), SPIN_HUB_ENDED);
    expect("a step", spin_lane_step(lane, 0, &step), SPIN_HUB_ENDED);
    expect("bytes", spin_lane_step_bytes(lane, 0, buffer, 1, &told), SPIN_HUB_ENDED);
    expect("a job's bytes", spin_lane_job_bytes(lane, 0, buffer, 1, &told), SPIN_HUB_ENDED);
    expect("a command", spin_lane_command(lane, &install, &answer), SPIN_HUB_ENDED);
    expect("a cycle", spin_lane_cycle(lane, 0, &told), SPIN_HUB_ENDED);
    expect("a number before", spin_lane_number_before(lane, 1, &told), SPIN_HUB_ENDED);
    expect("a seat", spin_lane_seat(lane, 1, &other), SPIN_HUB_ENDED);
    expect("a return", spin_lane_return(lane, &answer), SPIN_HUB_ENDED);
    expect_out(lane, SPIN_HUB_ENDED, 0);
    expect("a renewal", spin_lane_renew(lane, &answer), SPIN_HUB_ENDED);
    expect("a second end", spin_lane_end(lane, &told), SPIN_HUB_ENDED);
    expect("an open", spin_lane_open(lane, plus, sizeof plus - 1, &answer), SPIN_OPEN);
}

/* What a row is told to be. */
static void expect_row(struct spin_lane *lane, uint64_t index, uint64_t by, const struct spin_command_words *command) {
    struct spin_row row = {9, 9, 9, 9};
    expect("a row", spin_lane_row_at(lane, index, &row), SPIN_OK);
    const struct spin_command_words told = spin_row_command(&row);
    const struct spin_row again = spin_row_of(&told), wanted = spin_row_of(command);
    if (spin_row_lane(&row) != by || memcmp(&again, &wanted, sizeof wanted) != 0) {
        printf("row %u is another\n", (unsigned)index);
        wrong = 1;
    }
}

/* What the end of a hub leaves. */
static void expect_ends(void) {
    struct spin_lane first = {NULL}, second = {NULL};
    struct spin_answer answer;
    struct spin_row row = {9, 9, 9, 9};
    uint64_t rows = 9;
    const struct spin_command_words install = {.op = SPIN_INSTALL, .handler = 1};
    const struct spin_command_words behind = {.op = SPIN_INSTALL,
                                              .handler = 2,
                                              .place = SPIN_LAST,
                                              .mode = SPIN_FILTER,
                                              .after = {1}};
    expect("an end of a closed handle", spin_lane_end(&first, &rows), SPIN_CLOSED);
    expect("a row of a closed handle", spin_lane_row_at(&first, 0, &row), SPIN_CLOSED);
    expect("a null number", spin_lane_end(&first, NULL), SPIN_NULL);
    expect("a null row", spin_lane_row_at(&first, 0, NULL), SPIN_NULL);
    open_plus(&first, 2);
    expect("a row of a hub that goes on", spin_lane_row_at(&first, 0, &row), SPIN_NO_ROW);
    expect("a seat", spin_lane_seat(&first, 1, &second), SPIN_OK);
    expect("a command", spin_lane_command(&second, &install, &answer), SPIN_OK);
    expect("a command", spin_lane_command(&first, &behind, &answer), SPIN_OK);
    expect("an end with a seat that is out", spin_lane_end(&first, &rows), SPIN_TAKEN);
    expect("an end by another handle", spin_lane_end(&second, &rows), SPIN_NO_LANE);
    expect("a return", spin_lane_return(&second, &answer), SPIN_OK);
    expect("an end", spin_lane_end(&first, &rows), SPIN_OK);
    if (rows != 2) {
        printf("the log is told to have %u rows\n", (unsigned)rows);
        wrong = 1;
    }
    expect_row(&first, 0, 1, &install);
    expect_row(&first, 1, 0, &behind);
    expect("a row behind the last", spin_lane_row_at(&first, 2, &row), SPIN_NO_ROW);
    expect("no row", spin_lane_row_at(&first, UINT64_MAX, &row), SPIN_NO_ROW);
    if (row.a != 0 || row.b != 0 || row.c != 0 || row.d != 0) {
        puts("where no row is one is told");
        wrong = 1;
    }
    expect_ended(&first);
    expect("a close", spin_lane_close(&first, &answer), SPIN_OK);
    expect("a second close", spin_lane_close(&first, &answer), SPIN_CLOSED);
}

/* The bindings of a cycle. */
static void expect_cycle(struct spin_lane *lane, const uint64_t *bindings, uint64_t count) {
    uint64_t told = 9;
    for (uint64_t index = 0; index < count; index++) {
        expect("a binding of the cycle", spin_lane_cycle(lane, index, &told), SPIN_OK);
        if (told != bindings[index]) {
            printf("binding %u of the cycle is told as %u\n", (unsigned)index, (unsigned)told);
            wrong = 1;
        }
    }
    expect("behind the cycle", spin_lane_cycle(lane, count, &told), SPIN_NO_BINDING);
    if (told != 0) {
        puts("where no binding is one is told");
        wrong = 1;
    }
}

/* What is told of refusals. */
static void expect_refusals(void) {
    static const uint64_t cycle[3] = {1, 2, 3};
    struct spin_lane lane = {NULL};
    struct spin_answer answer;
    uint64_t told = 9;
    struct spin_command_words install = {.op = SPIN_INSTALL, .handler = 1};
    expect("a cycle of a closed handle", spin_lane_cycle(&lane, 0, &told), SPIN_CLOSED);
    expect("a null binding", spin_lane_cycle(&lane, 0, NULL), SPIN_NULL);
    open_plus(&lane, 1);
    expect_cycle(&lane, cycle, 0);
    expect("a command", spin_lane_command(&lane, &install, &answer), SPIN_OK);
    install.after[0] = 1;
    expect("a command", spin_lane_command(&lane, &install, &answer), SPIN_OK);
    install.after[0] = 2;
    install.before[0] = 1;
    expect("a conflict", spin_lane_command(&lane, &install, &answer), SPIN_REFUSED);
    if (answer.place != 2 || answer.kind != 11 || answer.value != 0 || answer.steps != 3) {
        puts("the conflict is told as another");
        wrong = 1;
    }
    expect_cycle(&lane, cycle, 3);
    expect_value(&lane, 2, 11);
    expect_cycle(&lane, cycle, 0);
    expect("the conflict again", spin_lane_command(&lane, &install, &answer), SPIN_REFUSED);
    expect_cycle(&lane, cycle, 3);
    const struct spin_command_words late = {.op = SPIN_INSTALL, .requester = 1, .handler = 1, .mode = SPIN_ASYNC};
    expect("a command whose mode isn't its own", spin_lane_command(&lane, &late, &answer), SPIN_OK);
    expect_cycle(&lane, cycle, 0);
    expect("a close", spin_lane_close(&lane, &answer), SPIN_OK);
}

/* What a text is told to begin with, of so many bytes. */
static void expect_text(uint32_t (*tell)(uint64_t, void *, size_t, uint64_t *), uint64_t number, const char *begin) {
    char buffer[512] = "";
    uint64_t length = 9, again = 9;
    expect("a text", tell(number, buffer, sizeof buffer, &length), SPIN_OK);
    expect("a text without room", tell(number, NULL, 0, &again), SPIN_TOO_SMALL);
    if (strncmp(buffer, begin, strlen(begin)) != 0 || strlen(buffer) != length || again != length) {
        printf("text %u is told as %s\n", (unsigned)number, buffer);
        wrong = 1;
    }
}

/* The sentences of causes and faults. */
static void expect_texts(void) {
    char buffer[1] = "-";
    uint64_t length = 9;
    expect_text(spin_tell_cause, 1, "too large: ");
    expect_text(spin_tell_cause, 24, "lane: ");
    expect_text(spin_tell_fault, 5, "short: ");
    expect_text(spin_tell_fault, 8, "spoilt: ");
    const uint64_t none[2] = {0, 25};
    for (int at = 0; at < 2; at++) {
        expect("no cause", spin_tell_cause(none[at], buffer, 1, &length), SPIN_NO_TEXT);
        expect("no fault", spin_tell_fault(none[at], buffer, 1, &length), SPIN_NO_TEXT);
    }
    expect("a wide cause", spin_tell_cause(UINT64_MAX, buffer, 1, &length), SPIN_WIDE);
    expect("a null length", spin_tell_fault(1, buffer, 1, NULL), SPIN_NULL);
    if (length != 0 || buffer[0] != '-') {
        puts("where no text is one is told");
        wrong = 1;
    }
}

/* The number that a binding had before a renewal. */
static void expect_before(struct spin_lane *lane, uint64_t number, uint32_t wanted, uint64_t before) {
    uint64_t told = 9;
    expect("a number before", spin_lane_number_before(lane, number, &told), wanted);
    if (told != before) {
        printf("binding %u is told to have been %u\n", (unsigned)number, (unsigned)told);
        wrong = 1;
    }
}

/* What a renewal leaves, and which handles have none. */
static void expect_renewals(void) {
    struct spin_lane lane = {NULL};
    struct spin_answer answer;
    struct spin_step step;
    const struct spin_command_words first = {.op = SPIN_INSTALL, .handler = 1};
    const struct spin_command_words second = {.op = SPIN_INSTALL, .handler = 2};
    struct spin_command_words change = {.op = SPIN_REMOVE, .target = 1};
    expect("a renewal of a closed handle", spin_lane_renew(&lane, &answer), SPIN_CLOSED);
    expect("a null handle", spin_lane_renew(NULL, &answer), SPIN_NULL);
    expect("a null number", spin_lane_number_before(&lane, 1, NULL), SPIN_NULL);
    expect_before(&lane, 1, SPIN_CLOSED, 0);
    open_plus(&lane, 2);
    expect_before(&lane, 1, SPIN_NO_BINDING, 0);
    expect("a command", spin_lane_command(&lane, &first, &answer), SPIN_OK);
    expect("a command", spin_lane_command(&lane, &second, &answer), SPIN_OK);
    expect("a command", spin_lane_command(&lane, &first, &answer), SPIN_OK);
    expect("a command", spin_lane_command(&lane, &change, &answer), SPIN_OK);
    expect_value(&lane, 4, 11);
    expect("a renewal", spin_lane_renew(&lane, &answer), SPIN_OK);
    expect("no reply", spin_lane_step(&lane, 0, &step), SPIN_NO_REPLY);
    expect_value(&lane, 2, 11);
    expect_before(&lane, 0, SPIN_NO_BINDING, 0);
    expect_before(&lane, 1, SPIN_OK, 2);
    expect_before(&lane, 2, SPIN_OK, 3);
    expect_before(&lane, 3, SPIN_NO_BINDING, 0);
    change.target = 2;
    expect("a command after it", spin_lane_command(&lane, &change, &answer), SPIN_OK);
    expect_value(&lane, 3, 12);
    for (int turn = 0; turn < 5000; turn++) {
        change = (struct spin_command_words){.op = SPIN_REPLACE, .target = 1, .handler = 1 + turn % 2};
        uint32_t error = spin_lane_command(&lane, &change, &answer);
        if (error == SPIN_FULL) {
            expect("a renewal of a full log", spin_lane_renew(&lane, &answer), SPIN_OK);
            error = spin_lane_command(&lane, &change, &answer);
        }
        expect("a command of many", error, SPIN_OK);
    }
    expect_value(&lane, 908, 12);
    expect("a close", spin_lane_close(&lane, &answer), SPIN_OK);
}

/* A script of 64 events, each with room for 64 bindings, in a text of its own. */
static size_t write_events(char *to, size_t room) {
    size_t at = (size_t)snprintf(to, room, "spin 3\n");
    for (int event = 0; event < 64; event++) {
        at += (size_t)snprintf(to + at, room - at, "event %d 0 - last\n", event);
    }
    return at + (size_t)snprintf(to + at, room - at, "handler 1 -\n");
}

/* Installs on all events until the hub is full, and answers how many bindings are live then. */
static uint32_t fill(struct spin_lane *lane) {
    struct spin_answer answer;
    uint32_t live = 0, error = SPIN_OK;
    while (error == SPIN_OK) {
        const struct spin_command_words install = {.op = SPIN_INSTALL, .event = live % 64, .handler = 1};
        error = spin_lane_command(lane, &install, &answer);
        live += error == SPIN_OK;
    }
    expect("a full hub", error, SPIN_FULL);
    return live;
}

/* That no hub is full for good: where no binding more is let in, one can be removed, be it after a renewal. */
static void expect_way_out(uint64_t lanes) {
    char script[4096];
    const size_t length = write_events(script, sizeof script);
    const struct spin_command_words remove = {.op = SPIN_REMOVE, .target = 1};
    const struct spin_command_words put = {.op = SPIN_SET_DEFAULT, .handler = 1};
    struct spin_lane lane = {NULL};
    struct spin_answer answer;
    expect("an open", spin_lane_open_hub(&lane, lanes, script, length, &answer), SPIN_OK);
    const uint32_t live = fill(&lane);
    if (live != 4096 - lanes) {
        printf("a hub of %u lanes is full with %u bindings\n", (unsigned)lanes, live);
        wrong = 1;
    }
    while (spin_lane_command(&lane, &put, &answer) == SPIN_OK) {
    }
    expect("a removal where the log is full", spin_lane_command(&lane, &remove, &answer), SPIN_FULL);
    expect("a renewal", spin_lane_renew(&lane, &answer), SPIN_OK);
    expect("a removal after it", spin_lane_command(&lane, &remove, &answer), SPIN_OK);
    expect("another renewal", spin_lane_renew(&lane, &answer), SPIN_OK);
    expect("a close", spin_lane_close(&lane, &answer), SPIN_OK);
}

/* A file of the examples. */
struct file {
    char at[4096];
    size_t length;
};

static struct file read_example(const char *examples, const char *name) {
    struct file file = {.length = 0};
    char path[1024];
    snprintf(path, sizeof path, "%s/%s", examples, name);
    FILE *from = fopen(path, "rb");
    if (from != NULL) {
        file.length = fread(file.at, 1, sizeof file.at, from);
        fclose(from);
    }
    return file;
}

/* What a report is judged to be beside a capture. */
static void expect_packets(const char *examples) {
    const struct file script = read_example(examples, "packets.spin");
    const struct file packets = read_example(examples, "packets.pcap");
    const struct file report = read_example(examples, "packets.report");
    const char *text = script.at, *capture = packets.at, *told = report.at;
    const size_t s = script.length, p = packets.length, r = report.length;
    struct spin_fault fault = {9, 9};
    expect("a history with its capture", spin_judge_packets(text, s, capture, p, told, r, "out0", 4, &fault), SPIN_OK);
    expect("it without an endpoint", spin_judge_packets(text, s, capture, p, told, r, NULL, 0, &fault),
           SPIN_NO_HISTORY);
    expect("it without its capture", spin_judge(text, s, told, r, "out0", 4, &fault), SPIN_NO_HISTORY);
    expect("it with a capture that is cut", spin_judge_packets(text, s, capture, p - 1, told, r, "out0", 4, &fault),
           SPIN_NO_HISTORY);
    expect("no script", spin_judge_packets("spin 1\nevent\n", 13, NULL, 0, told, r, NULL, 0, &fault), SPIN_BAD_SCRIPT);
    expect("a null capture", spin_judge_packets(text, s, NULL, p, told, r, "out0", 4, &fault), SPIN_NULL);
    expect("an empty capture", spin_judge_packets(text, s, NULL, 0, told, r, "out0", 4, &fault), SPIN_BAD_CAPTURE);
    if (fault.line != 0 || fault.cause != 5) {
        printf("the bad capture is told as record %u, fault %u\n", fault.line, fault.cause);
        wrong = 1;
    }
}

int main(int count, char **words) {
    expect_packets(count > 1 ? words[1] : "../examples");
    expect_lanes();
    expect_seats();
    expect_homes();
    expect_ends();
    expect_jobs();
    expect_refusals();
    expect_texts();
    expect_renewals();
    expect_way_out(1);
    expect_way_out(8);
    expect_steps();
    expect_replies();
    static const char script[] =
        "spin 1\nevent 0 0 -:w last\nhandler 1 -:w result 7\nlane 0 install 0 0 1 0 free plain\nlane 0 raise 0\n";
    static const char report[] =
        "report 1\nsegment 0 at 0\n1 0 4 install ok\n1 0 5 raise run 0 1 result 7 = value 7\nend 1\n";
    const size_t s = sizeof script - 1, r = sizeof report - 1;
    struct spin_fault fault = {9, 9};
    expect("a history", spin_judge(script, s, report, r, NULL, 0, &fault), SPIN_OK);
    expect("a report that is cut", spin_judge(script, s, report, r - 1, "", 0, &fault), SPIN_NO_HISTORY);
    expect("nothing at all", spin_judge(NULL, 0, NULL, 0, NULL, 0, &fault), SPIN_BAD_SCRIPT);
    expect("a null script", spin_judge(NULL, s, report, r, NULL, 0, &fault), SPIN_NULL);
    expect("a null report", spin_judge(script, s, NULL, r, NULL, 0, &fault), SPIN_NULL);
    expect("null names", spin_judge(script, s, report, r, NULL, 1, &fault), SPIN_NULL);
    expect("a null fault", spin_judge(script, s, report, r, NULL, 0, NULL), SPIN_NULL);
    expect("a bad line", spin_judge("spin 1\nevent\n", 13, report, r, NULL, 0, &fault), SPIN_BAD_SCRIPT);
    if (fault.line != 2 || fault.cause != 11) {
        printf("the bad line is told as line %u, cause %u\n", fault.line, fault.cause);
        wrong = 1;
    }
    if (spin_version() != SPIN_VERSION || strcmp(spin_error_name(77), "unknown") != 0) {
        puts("the version is another, or a number that is none has a name");
        wrong = 1;
    }
    return wrong != 0;
}
