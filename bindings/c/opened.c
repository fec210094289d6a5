/* opened: what the calls of an open raise answer, each with each of its errors, and that nothing is changed beside one.
 * The last line of what is wrong, if anything is, and status 1. */
#include "spin.h"

#include <stdio.h>
#include <stdlib.h>
#include <string.h>

static int wrong = 0;

/* Tells an answer that isn't the one that is wanted, and ends behind the 20th. */
static void expect(const char *what, uint32_t answer, uint32_t wanted) {
    if (answer != wanted) {
        printf("%s: %s, and not %s\n", what, spin_error_name(answer), spin_error_name(wanted));
        if (++wrong > 20) {
            exit(1);
        }
    }
}

/* Tells what isn't so. */
static void hold(const char *what, int so) {
    if (!so) {
        printf("not so: %s\n", what);
        if (++wrong > 20) {
            exit(1);
        }
    }
}

/* Event 0 has a word that may be changed and gives a result; event 1 has bytes, and gives none; events 2 and 3 have a word. */
static const char script[] =
    "spin 1\nevent 0 0 W:w last\nevent 1 0 b last\nevent 2 0 w:w last\nevent 3 0 w:w last\nendpoint 0 out0\n"
    "handler 1 W:w result + a0 1\nhandler 2 W:w set 0 + a0 10\nhandler 3 b send 0 0 2\nhandler 4 w:w result a0\n"
    "handler 5 W:w up 2 1 w a0 result a0\nguard 1 w < a0 10\n";

static struct spin_arg words[1];

static void open_hub(struct spin_lane *lane) {
    struct spin_answer answer;
    words[0] = spin_word(41);
    const uint32_t error = spin_lane_open(lane, script, sizeof script - 1, &answer);
    if (error != SPIN_OK) {
        printf("the script is bad in line %u by cause %u\n", answer.place, answer.kind);
        exit(1);
    }
}

/* Binds a handler, and tells the binding's number. */
static uint32_t bind(struct spin_lane *lane, uint64_t event, uint64_t handler, uint64_t guard, enum spin_mode mode) {
    const struct spin_command_words install = {
        .op = SPIN_INSTALL, .event = event, .handler = handler, .guard = guard, .mode = mode};
    struct spin_answer answer = {0, 0, 0, 0};
    expect("a binding", spin_lane_command(lane, &install, &answer), SPIN_OK);
    return answer.place;
}

static void expect_next(const char *what, struct spin_raising *raising, struct spin_step wanted) {
    struct spin_step step = {9, 9, 9, 9, 9, 9};
    expect(what, spin_raising_next(raising, &step), SPIN_OK);
    if (memcmp(&step, &wanted, sizeof step) != 0) {
        printf("%s: kind %u, event %u, number %u, answer %u, value %u\n", what, step.kind, step.event, step.number,
               step.answer, (unsigned)step.value);
        wrong++;
    }
}

static void expect_argument(const char *what, struct spin_raising *raising, uint64_t word) {
    struct spin_arg arg = {9, 9, 9};
    expect(what, spin_raising_argument(raising, 0, NULL, 0, &arg), SPIN_OK);
    hold(what, arg.kind == SPIN_WORD && arg.at == word && arg.length == 0);
}

/* What every call answers where no raise is open. */
static void expect_closed(struct spin_raising *raising, uint32_t forgotten) {
    const struct spin_step none = {0, 0, 0, 0, 0, 0};
    struct spin_step step = {9, 9, 9, 9, 9, 9};
    struct spin_answer answer;
    struct spin_arg arg = {9, 9, 9};
    uint64_t length = 9;
    char buffer[2] = "-";
    expect("a closed within", spin_raising_within(raising, 2, NULL, 0, words, 1, &answer), SPIN_CLOSED);
    expect("a closed next", spin_raising_next(raising, &step), SPIN_CLOSED);
    hold("a closed next tells zeros", memcmp(&step, &none, sizeof step) == 0);
    expect("a closed argument", spin_raising_argument(raising, 0, buffer, 1, &arg), SPIN_CLOSED);
    expect("a closed do", spin_raising_do(raising, &answer), SPIN_CLOSED);
    expect("a closed given", spin_raising_given(raising, 0, &step), SPIN_CLOSED);
    expect("closed bytes", spin_raising_given_bytes(raising, 0, buffer, 1, &length), SPIN_CLOSED);
    expect("a closed gave", spin_raising_gave(raising, NULL, 0, NULL, 0, &answer), SPIN_CLOSED);
    expect("a closed decline", spin_raising_declined(raising), SPIN_CLOSED);
    expect("a closed abandon", spin_raising_abandon(raising), SPIN_CLOSED);
    hold("nothing is told of a closed one", arg.kind == 0 && arg.at == 0 && length == 0 && buffer[0] == '-');
    expect("a forget", spin_raising_forget(raising), forgotten);
}

/* What a raise isn't opened by, in their order. */
static void expect_begins(void) {
    struct spin_lane lane = {NULL};
    struct spin_raising raising = {NULL};
    struct spin_answer answer = {9, 9, 9, 9};
    const struct spin_arg bytes[1] = {spin_range(0, 5)}, past[1] = {spin_range(3, 5)};
    expect("a begin of a closed lane", spin_lane_begin(&lane, &raising, 0, NULL, 0, words, 1, &answer), SPIN_CLOSED);
    expect_closed(&raising, SPIN_CLOSED);
    open_hub(&lane);
    expect("a past begin", spin_lane_begin(&lane, &raising, 1, "abcde", 5, past, 1, &answer), SPIN_NO_ARGUMENT);
    hold("a past begin leaves the handle closed", raising.at == NULL);
    expect("an unknown begin", spin_lane_begin(&lane, &raising, 9, NULL, 0, words, 1, &answer), SPIN_NOT_RAISED);
    hold("an unknown event is told", answer.kind == SPIN_UNKNOWN_EVENT && answer.place == 0);
    bind(&lane, 0, 1, 0, SPIN_PLAIN);
    expect("a begin of bytes", spin_lane_begin(&lane, &raising, 0, "abcde", 5, bytes, 1, &answer), SPIN_NOT_RAISED);
    hold("other arguments are told", answer.kind == SPIN_WRONG_ARGUMENTS && answer.place == 1);
    expect("a wide begin", spin_lane_begin(&lane, &raising, 256, NULL, 0, words, 1, &answer), SPIN_WIDE);
    expect("a null begin", spin_lane_begin(&lane, NULL, 0, NULL, 0, words, 1, &answer), SPIN_NULL);
    expect("a begin", spin_lane_begin(&lane, &raising, 0, NULL, 0, words, 1, &answer), SPIN_OK);
    hold("the place is told", answer.place == 1 && answer.kind == 0 && answer.steps == 0);
    expect("a second begin", spin_lane_begin(&lane, &raising, 0, NULL, 0, words, 1, &answer), SPIN_OPEN);
    expect("an end beside it", spin_lane_end(&lane, &answer.value), SPIN_SHARED);
    expect("a renewal beside it", spin_lane_renew(&lane, &answer), SPIN_SHARED);
    expect("an abandon", spin_raising_abandon(&raising), SPIN_OK);
    expect("an end", spin_lane_end(&lane, &answer.value), SPIN_OK);
    expect("a begin of an ended hub", spin_lane_begin(&lane, &raising, 0, NULL, 0, words, 1, &answer), SPIN_HUB_ENDED);
    expect_closed(&raising, SPIN_OK);
    expect_closed(&raising, SPIN_CLOSED);
    expect("a close", spin_lane_close(&lane, &answer), SPIN_OK);
}

/* A raise whose firings are answered in each of the three ways. */
static void expect_answers(void) {
    struct spin_lane lane = {NULL};
    struct spin_raising raising = {NULL};
    struct spin_answer answer;
    struct spin_step step;
    const struct spin_gift result[1] = {{SPIN_GIVES_RESULT, 0, 5, 0}};
    const struct spin_gift change[2] = {{SPIN_GIVES_WORD, 0, 7, 0}, {SPIN_GIVES_RESULT, 0, 6, 0}};
    open_hub(&lane);
    const uint32_t filter = bind(&lane, 0, 2, 0, SPIN_FILTER), guarded = bind(&lane, 0, 1, 1, SPIN_PLAIN);
    const uint32_t plain = bind(&lane, 0, 1, 0, SPIN_PLAIN), apart = bind(&lane, 0, 1, 0, SPIN_ASYNC);
    expect("a begin", spin_lane_begin(&lane, &raising, 0, NULL, 0, words, 1, &answer), SPIN_OK);
    expect("a do before a firing", spin_raising_do(&raising, &answer), SPIN_NOT_DUE);
    expect("a gave before a firing", spin_raising_gave(&raising, NULL, 0, result, 1, &answer), SPIN_NOT_DUE);
    expect("a decline before a firing", spin_raising_declined(&raising), SPIN_NOT_DUE);
    expect("a within before a firing", spin_raising_within(&raising, 2, NULL, 0, words, 1, &answer), SPIN_NOT_DUE);
    expect_next("the filter", &raising, (struct spin_step){SPIN_RUN, 0, filter, SPIN_FILTER, 2, 0});
    expect_next("the filter again", &raising, (struct spin_step){SPIN_RUN, 0, filter, SPIN_FILTER, 2, 0});
    expect_argument("the argument", &raising, 41);
    expect("a gave of the filter", spin_raising_gave(&raising, NULL, 0, change, 2, &answer), SPIN_OK);
    hold("two things are given", answer.steps == 2);
    expect("what ran", spin_raising_given(&raising, 0, &step), SPIN_OK);
    hold("it ran", step.kind == SPIN_RUN && step.event == 0 && step.number == filter);
    expect("its result", spin_raising_given(&raising, 1, &step), SPIN_OK);
    hold("it gave 6", step.kind == SPIN_RESULT && step.value == 6);
    expect("no more", spin_raising_given(&raising, 2, &step), SPIN_NO_STEP);
    expect("a second gave", spin_raising_gave(&raising, NULL, 0, result, 1, &answer), SPIN_NOT_DUE);
    expect_next("the guarded one", &raising, (struct spin_step){SPIN_RUN, 0, guarded, SPIN_PLAIN, 1, 0});
    expect_argument("the changed argument", &raising, 7);
    expect("nothing is given any more", spin_raising_given(&raising, 0, &step), SPIN_NO_STEP);
    expect("a change by it", spin_raising_gave(&raising, NULL, 0, change, 2, &answer), SPIN_GIFT_REFUSED);
    hold("it is no filter", answer.kind == SPIN_GIFT_NO_FILTER);
    expect("a decline", spin_raising_declined(&raising), SPIN_OK);
    expect("a second decline", spin_raising_declined(&raising), SPIN_NOT_DUE);
    expect_next("the plain one", &raising, (struct spin_step){SPIN_RUN, 0, plain, SPIN_PLAIN, 1, 0});
    expect("a do", spin_raising_do(&raising, &answer), SPIN_OK);
    expect("its result", spin_raising_given(&raising, answer.steps - 1, &step), SPIN_OK);
    hold("it gave 8", step.kind == SPIN_RESULT && step.value == 8);
    expect_next("the one apart", &raising, (struct spin_step){SPIN_RUN, 0, apart, SPIN_ASYNC, 1, 0});
    expect("a gift of it", spin_raising_gave(&raising, NULL, 0, result, 1, &answer), SPIN_GIFT_REFUSED);
    hold("it runs apart", answer.kind == SPIN_GIFT_APART);
    expect("its do", spin_raising_do(&raising, &answer), SPIN_OK);
    expect("its job", spin_raising_given(&raising, 0, &step), SPIN_OK);
    hold("it is left to a job", step.kind == SPIN_JOB && step.number == apart && answer.steps == 1);
    expect_next("the end", &raising, (struct spin_step){SPIN_END, 0, 0, SPIN_VALUE, 8, 0});
    expect_closed(&raising, SPIN_OK);
    expect("a close", spin_lane_close(&lane, &answer), SPIN_OK);
}

/* Gifts that aren't, and those that are refused. */
static void expect_gifts(void) {
    struct spin_lane lane = {NULL};
    struct spin_raising raising = {NULL};
    struct spin_answer answer;
    struct spin_step step;
    struct spin_arg arg;
    uint64_t length = 9;
    char buffer[8] = "-------";
    const struct spin_arg bytes[1] = {spin_range(1, 3)};
    const struct spin_gift none[] = {{4, 0, 0, 0},   {SPIN_GIVES_WORD, 256, 0, 0}, {SPIN_GIVES_BYTES, 0, 3, 1},
                                     {3, 256, 0, 1}, {SPIN_GIVES_SEND, 0, 0, 4},   {3, 0, UINT64_MAX, 2}};
    const struct spin_gift refused[] = {{SPIN_GIVES_RESULT, 0, 1, 0}, {SPIN_GIVES_BYTES, 1, 0, 1},
                                        {SPIN_GIVES_WORD, 0, 1, 0},   {SPIN_GIVES_BYTES, 0, 0, 2}};
    const uint32_t faults[] = {SPIN_GIFT_NO_RESULT, SPIN_GIFT_NO_ARGUMENT, SPIN_GIFT_KIND, SPIN_GIFT_FIXED};
    const struct spin_gift send[1] = {{SPIN_GIVES_SEND, 3, 1, 2}};
    open_hub(&lane);
    const uint32_t filter = bind(&lane, 1, 3, 0, SPIN_FILTER), plain = bind(&lane, 1, 3, 0, SPIN_PLAIN);
    expect("a begin", spin_lane_begin(&lane, &raising, 1, "abcde", 5, bytes, 1, &answer), SPIN_OK);
    expect_next("the filter", &raising, (struct spin_step){SPIN_RUN, 1, filter, SPIN_FILTER, 3, 0});
    expect("its argument", spin_raising_argument(&raising, 0, buffer, 7, &arg), SPIN_OK);
    hold("it has three bytes", arg.kind == SPIN_BYTES && arg.length == 3 && memcmp(buffer, "bcd----", 7) == 0);
    expect("a small buffer", spin_raising_argument(&raising, 0, buffer, 2, &arg), SPIN_TOO_SMALL);
    hold("its length is told", arg.length == 3 && memcmp(buffer, "bcd----", 7) == 0);
    expect("no argument", spin_raising_argument(&raising, 1, buffer, 7, &arg), SPIN_NO_ARGUMENT);
    expect("a far argument", spin_raising_argument(&raising, UINT64_MAX, buffer, 7, &arg), SPIN_NO_ARGUMENT);
    for (size_t at = 0; at < sizeof none / sizeof *none; at++) {
        expect("no gift", spin_raising_gave(&raising, "xyz", 3, &none[at], 1, &answer), SPIN_NO_ARGUMENT);
    }
    for (size_t at = 0; at < sizeof refused / sizeof *refused; at++) {
        expect("a gift", spin_raising_gave(&raising, "xyz", 3, &refused[at], 1, &answer), SPIN_GIFT_REFUSED);
        hold("its fault is told", answer.kind == faults[at]);
    }
    expect("null gifts", spin_raising_gave(&raising, "xyz", 3, NULL, 1, &answer), SPIN_NULL);
    expect("a send", spin_raising_gave(&raising, "xyz", 3, send, 1, &answer), SPIN_OK);
    expect("it", spin_raising_given(&raising, 1, &step), SPIN_OK);
    hold("it sends", step.kind == SPIN_SEND && step.number == 3 && step.length == 2 && answer.steps == 2);
    expect("its bytes", spin_raising_given_bytes(&raising, 1, buffer, 7, &length), SPIN_OK);
    hold("they are told", length == 2 && memcmp(buffer, "yzd----", 7) == 0);
    expect("a small buffer", spin_raising_given_bytes(&raising, 1, NULL, 0, &length), SPIN_TOO_SMALL);
    hold("their number is told", length == 2);
    expect("no bytes", spin_raising_given_bytes(&raising, 0, NULL, 0, &length), SPIN_OK);
    hold("none are told", length == 0);
    expect("no step", spin_raising_given_bytes(&raising, 2, buffer, 7, &length), SPIN_NO_STEP);
    expect_next("the plain one", &raising, (struct spin_step){SPIN_RUN, 1, plain, SPIN_PLAIN, 3, 0});
    expect("its do", spin_raising_do(&raising, &answer), SPIN_OK);
    expect_next("the end", &raising, (struct spin_step){SPIN_END, 0, 0, SPIN_DONE, 0, 0});
    expect("a forget", spin_raising_forget(&raising), SPIN_OK);
    expect("a close", spin_lane_close(&lane, &answer), SPIN_OK);
}

/* Raises from within, by the host and upwards by acts; commands meanwhile, and a lane that is closed. */
static void expect_nesting(void) {
    struct spin_lane lane = {NULL};
    struct spin_raising raising = {NULL};
    struct spin_answer answer;
    const struct spin_gift result[1] = {{SPIN_GIVES_RESULT, 0, 5, 0}};
    const struct spin_command_words remove = {.op = SPIN_REMOVE, .target = 1};
    const struct spin_arg bytes[1] = {spin_range(0, 1)}, past[1] = {spin_range(1, 1)};
    open_hub(&lane);
    bind(&lane, 0, 5, 0, SPIN_PLAIN);
    bind(&lane, 2, 4, 0, SPIN_PLAIN);
    expect("a begin", spin_lane_begin(&lane, &raising, 0, NULL, 0, words, 1, &answer), SPIN_OK);
    expect_next("the firing", &raising, (struct spin_step){SPIN_RUN, 0, 1, SPIN_PLAIN, 5, 0});
    expect("a command meanwhile", spin_lane_command(&lane, &remove, &answer), SPIN_OK);
    expect("a raise meanwhile", spin_lane_raise_args(&lane, 0, NULL, 0, words, 1, &answer), SPIN_OK);
    hold("it is on the newer version", answer.place == 3 && answer.kind == SPIN_NO_HANDLER);
    expect("a past within", spin_raising_within(&raising, 1, "a", 1, past, 1, &answer), SPIN_NO_ARGUMENT);
    expect("an unknown within", spin_raising_within(&raising, 4, NULL, 0, words, 1, &answer), SPIN_NOT_RAISED);
    hold("the event is unknown", answer.kind == SPIN_UNKNOWN_EVENT && answer.place == 2);
    expect("a wrong within", spin_raising_within(&raising, 2, "a", 1, bytes, 1, &answer), SPIN_NOT_RAISED);
    hold("the arguments are others", answer.kind == SPIN_WRONG_ARGUMENTS && answer.place == 2);
    expect("a downward within", spin_raising_within(&raising, 0, NULL, 0, words, 1, &answer), SPIN_DOWNWARD);
    words[0].at = 43;
    expect("a within", spin_raising_within(&raising, 2, NULL, 0, words, 1, &answer), SPIN_OK);
    expect_argument("its argument", &raising, 43);
    expect("a within of it", spin_raising_within(&raising, 3, NULL, 0, words, 1, &answer), SPIN_NOT_DUE);
    expect("the lane's close", spin_lane_close(&lane, &answer), SPIN_OK);
    expect_next("its firing", &raising, (struct spin_step){SPIN_RUN, 2, 2, SPIN_PLAIN, 4, 0});
    expect("a downward within it", spin_raising_within(&raising, 2, NULL, 0, words, 1, &answer), SPIN_DOWNWARD);
    expect("a within it", spin_raising_within(&raising, 3, NULL, 0, words, 1, &answer), SPIN_OK);
    expect_next("its end", &raising, (struct spin_step){SPIN_END, 0, 2, SPIN_NO_HANDLER, 0, 0});
    expect("its gave", spin_raising_gave(&raising, NULL, 0, result, 1, &answer), SPIN_OK);
    expect_next("its end", &raising, (struct spin_step){SPIN_END, 0, 1, SPIN_VALUE, 5, 0});
    expect_next("the firing", &raising, (struct spin_step){SPIN_RUN, 0, 1, SPIN_PLAIN, 5, 0});
    expect_argument("its argument", &raising, 41);
    expect("its do", spin_raising_do(&raising, &answer), SPIN_OK);
    expect_next("up", &raising, (struct spin_step){SPIN_UP, 2, 0, 0, 0, 0});
    expect_next("its firing", &raising, (struct spin_step){SPIN_RUN, 2, 2, SPIN_PLAIN, 4, 0});
    expect("its do", spin_raising_do(&raising, &answer), SPIN_OK);
    expect_next("back", &raising, (struct spin_step){SPIN_BACK, 0, 0, SPIN_VALUE, 41, 0});
    expect_next("the end", &raising, (struct spin_step){SPIN_END, 0, 0, SPIN_VALUE, 41, 0});
    expect_closed(&raising, SPIN_OK);
}

/* Handlers that start until no more may: what is declined starts none. */
static void expect_spent(void) {
    struct spin_lane lane = {NULL};
    struct spin_raising raising = {NULL};
    struct spin_answer answer;
    struct spin_step step = {0, 0, 0, 0, 0, 0};
    open_hub(&lane);
    bind(&lane, 0, 1, 0, SPIN_PLAIN);
    for (int at = 0; at < 16; at++) {
        bind(&lane, 2, 4, 0, SPIN_PLAIN);
    }
    uint64_t started = 0, declined = 0;
    expect("a begin", spin_lane_begin(&lane, &raising, 0, NULL, 0, words, 1, &answer), SPIN_OK);
    expect("a firing", spin_raising_next(&raising, &step), SPIN_OK);
    for (started = 1; started < 9000 && step.kind != SPIN_SPENT;) {
        if (step.event == 0 || step.kind == SPIN_END) {
            expect("a within", spin_raising_within(&raising, 2, NULL, 0, words, 1, &answer), SPIN_OK);
        } else if (declined < 99) {
            declined++;
            started--;
            expect("a decline", spin_raising_declined(&raising), SPIN_OK);
        } else {
            expect("a do", spin_raising_do(&raising, &answer), SPIN_OK);
        }
        expect("what is next", spin_raising_next(&raising, &step), SPIN_OK);
        if (step.kind == SPIN_END) {
            expect("the firing again", spin_raising_next(&raising, &step), SPIN_OK);
        } else {
            started += step.kind == SPIN_RUN;
        }
    }
    hold("4096 handlers start", started == 4096);
    expect_next("it is spent", &raising, (struct spin_step){SPIN_SPENT, 0, 0, 0, 0, 0});
    expect("a do of what is spent", spin_raising_do(&raising, &answer), SPIN_NOT_DUE);
    expect("an abandon", spin_raising_abandon(&raising), SPIN_OK);
    expect("a begin", spin_lane_begin(&lane, &raising, 0, NULL, 0, words, 1, &answer), SPIN_OK);
    expect_next("its firing", &raising, (struct spin_step){SPIN_RUN, 0, 1, SPIN_PLAIN, 1, 0});
    expect("a forget of an open one", spin_raising_forget(&raising), SPIN_OK);
    hold("it is closed", raising.at == NULL);
    expect("an end of the hub", spin_lane_end(&lane, &answer.value), SPIN_OK);
    expect("a close", spin_lane_close(&lane, &answer), SPIN_OK);
}

int main(void) {
    expect_begins();
    expect_answers();
    expect_gifts();
    expect_nesting();
    expect_spent();
    return wrong != 0;
}
