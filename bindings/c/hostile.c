/* hostile [STEPS [SEED]]: calls of every kind in every order, with right and with wrong numbers, over two hubs and
 * eight handles. A small model beside them knows which error must come, and what is told: places, rows, cycles, numbers
 * of bindings, how many seats are out, how long a reply is kept, and what a run hands out. It ends where there is no
 * memory, of which refusing.c is. */
#include "spin.h"

#include <stdio.h>
#include <stdlib.h>
#include <string.h>

enum { STEPS = 200000, HUBS = 2, HANDLES = 8, EVENTS = 2, PLACES = 4096, LIVE = 32, NONE = -1 };

/* Event 0 takes bytes and a word, event 1 a word. Handlers 1 and 2 are for event 1, handler 3 is for event 0 and raises
 * event 1. Module 1 may bind nothing: to event 0 by a rule, and to event 1 since no rule allows it. */
static const char script[] = "spin 2\nmodules 2\nevent 0 0 bw:w last\nevent 1 0 w:w last\nendpoint 0 out0\n"
                             "handler 1 w:w result + a0 1\nhandler 2 w:w result + a0 2\n"
                             "handler 3 bw:w send 0 0 1 up 1 1 w a1 result a1\nguard 1 w < a0 2\n"
                             "rule 0 1 1 any any all deny\n";

/* A binding that is live. */
struct binding {
    int is_live;
    uint64_t event;
    enum spin_place place;
};

/* A hub; it is there as long as one of its handles is open. */
struct hub {
    int handles, lanes, opener, is_ended;
    unsigned out; /* a bit for each lane whose seat is out */
    uint32_t first, place;
    struct spin_row rows[PLACES + 1];        /* at each place the row that was accepted there */
    struct binding bindings[PLACES + 1];     /* by number */
    uint32_t before[PLACES + 1], renumbered; /* the numbers before the last renewal */
};

/* A handle; its hub is NONE where it is closed. */
struct handle {
    struct spin_lane lane;
    int hub, number;
    int is_kept, is_job_kept;       /* whether a reply is, and one to a job of it */
    uint32_t place;                 /* that of the reply */
    uint64_t steps, jobs, job_steps; /* how many it has */
    uint64_t cycle, in_cycle[2];
};

static struct hub hubs[HUBS];
static struct handle handles[HANDLES];
static uint64_t seed = 1, step_number, met[SPIN_WIDE + 1]; /* how often each error came */

static uint64_t some(uint64_t bound) {
    seed ^= seed << 13;
    seed ^= seed >> 7;
    seed ^= seed << 17;
    return (seed >> 11) % bound;
}

static _Noreturn void stop(const char *what) {
    printf("hostile: step %u: %s\n", (unsigned)step_number, what);
    exit(1);
}

static void want(const char *what, uint32_t told, uint32_t wanted) {
    if (told == SPIN_NO_MEMORY) {
        stop("there is no memory, so nothing is found out");
    }
    if (told != wanted) {
        printf("hostile: step %u: %s: %s, and not %s\n", (unsigned)step_number, what, spin_error_name(told),
               spin_error_name(wanted));
        exit(1);
    }
    met[told]++;
}

/* A buffer of the test's own. */
static char *buffer_of(size_t room) {
    char *buffer = malloc(room + 1);
    if (buffer == NULL) {
        stop("there is no memory, so nothing is found out");
    }
    return buffer;
}

/* That an answer is of zeros, but where it is told with the error. */
static void want_answer(const struct spin_answer *told, struct spin_answer wanted) {
    if (memcmp(told, &wanted, sizeof wanted) != 0) {
        printf("place %u kind %u value %u steps %u, and not %u, %u, %u, %u\n", told->place, told->kind,
               (unsigned)told->value, (unsigned)told->steps, wanted.place, wanted.kind, (unsigned)wanted.value,
               (unsigned)wanted.steps);
        stop("another answer is told");
    }
}

static const struct spin_answer untold = {0, 0, 0, 0};

/* Why a handle does nothing but be opened, tell rows or be closed, where it does no more. */
static uint32_t why_not(const struct handle *it) {
    return it->hub == NONE ? SPIN_CLOSED : hubs[it->hub].is_ended ? SPIN_HUB_ENDED : SPIN_OK;
}

/* The hub that a handle opened. */
static struct hub *opened_by(const struct handle *it) {
    return why_not(it) == SPIN_OK && it->number == 0 ? &hubs[it->hub] : NULL;
}

/* Forgets the reply. */
static void forget(struct handle *it) { it->is_kept = it->is_job_kept = 0; }

/* Closes a handle in the model. */
static void let_go(struct handle *it) {
    struct hub *hub = &hubs[it->hub];
    hub->out &= ~(1u << it->number);
    hub->handles--;
    if (it->number == 0) {
        hub->opener = NONE;
    }
    *it = (struct handle){.lane = it->lane, .hub = NONE};
    if (it->lane.at != NULL) {
        stop("a closed handle isn't null");
    }
}

/* A hub that isn't there. */
static int free_hub(void) {
    int at = 0;
    while (at < HUBS && hubs[at].handles > 0) {
        at++;
    }
    return at < HUBS ? at : NONE;
}

static void call_open(struct handle *it) {
    const int at = free_hub(), is_bad = some(8) == 0;
    const uint64_t lanes = some(4) == 0 ? some(300) : 1 + some(8);
    struct spin_answer answer = {9, 9, 9, 9};
    if (at == NONE && it->hub == NONE && lanes >= 1 && lanes <= 8) {
        return;
    }
    const uint32_t told =
        spin_lane_open_hub(&it->lane, lanes, script, is_bad ? 20 : sizeof script - 1, &answer);
    if (lanes > UINT8_MAX) {
        want("an open", told, SPIN_WIDE);
        return;
    }
    const int has_lanes = lanes >= 1 && lanes <= 8;
    const uint32_t wanted = it->hub != NONE ? SPIN_OPEN
                            : !has_lanes    ? SPIN_NO_LANE
                            : is_bad        ? SPIN_BAD_SCRIPT
                                            : SPIN_OK;
    want("an open", told, wanted);
    want_answer(&answer, wanted == SPIN_BAD_SCRIPT ? (struct spin_answer){3, 4, 0, 0} : untold);
    if (wanted == SPIN_OK) {
        memset(&hubs[at], 0, sizeof hubs[at]);
        hubs[at].handles = 1;
        hubs[at].lanes = (int)lanes;
        hubs[at].opener = (int)(it - handles);
        it->hub = at;
        it->number = 0;
    }
}

static void call_seat(struct handle *it) {
    struct handle *other = &handles[some(HANDLES)];
    const uint64_t number = some(10) == 0 ? 254 + some(4) : some(9);
    const struct hub *hub = opened_by(it);
    const uint32_t told = spin_lane_seat(&it->lane, number, &other->lane);
    if (it == other) {
        want("a seat to itself", told, SPIN_SAME);
        return;
    }
    uint32_t wanted = SPIN_OK;
    if (number > UINT8_MAX) {
        wanted = SPIN_WIDE;
    } else if (it->hub == NONE) {
        wanted = SPIN_CLOSED;
    } else if (other->hub != NONE) {
        wanted = SPIN_OPEN;
    } else if (hubs[it->hub].is_ended) {
        wanted = SPIN_HUB_ENDED;
    } else if (hub == NULL || number >= (uint64_t)hub->lanes) {
        wanted = SPIN_NO_LANE;
    } else if (number == 0 || hub->out >> number & 1) {
        wanted = SPIN_TAKEN;
    }
    want("a seat", told, wanted);
    if (wanted == SPIN_OK) {
        other->hub = it->hub;
        other->number = (int)number;
        hubs[it->hub].out |= 1u << number;
        hubs[it->hub].handles++;
    }
}

static void call_return(struct handle *it) {
    struct spin_answer answer = {9, 9, 9, 9};
    uint32_t wanted = why_not(it);
    wanted = wanted == SPIN_OK && it->number == 0 ? (uint32_t)SPIN_NO_LANE : wanted;
    want("a return", spin_lane_return(&it->lane, &answer), wanted);
    want_answer(&answer, untold);
    if (wanted == SPIN_OK) {
        let_go(it);
    }
}

static void call_close(struct handle *it) {
    struct spin_answer answer = {9, 9, 9, 9};
    want("a close", spin_lane_close(&it->lane, &answer), it->hub == NONE ? SPIN_CLOSED : SPIN_OK);
    want_answer(&answer, untold);
    if (it->hub != NONE) {
        let_go(it);
    }
}

/* How many seats of a hub are out. */
static uint64_t count_out(const struct hub *hub) {
    uint64_t count = 0;
    for (int lane = 1; lane < hub->lanes; lane++) {
        count += hub->out >> lane & 1;
    }
    return count;
}

/* What a call answers that only the opener may make, and only where all seats are home if they have to be. */
static uint32_t why_not_opener(const struct handle *it, int has_all) {
    const struct hub *hub = opened_by(it);
    if (why_not(it) != SPIN_OK) {
        return why_not(it);
    }
    return hub == NULL ? SPIN_NO_LANE : has_all && hub->out != 0 ? SPIN_TAKEN : SPIN_OK;
}

static void call_gather(struct handle *it) {
    uint64_t out = 99;
    const uint32_t wanted = why_not_opener(it, 0);
    want("a gather", spin_lane_gather(&it->lane, &out), wanted);
    if (out != (wanted == SPIN_OK ? count_out(&hubs[it->hub]) : 0)) {
        stop("another number of seats is out");
    }
}

static void call_renew(struct handle *it) {
    struct spin_answer answer = {9, 9, 9, 9};
    const uint32_t wanted = why_not_opener(it, 1);
    want("a renewal", spin_lane_renew(&it->lane, &answer), wanted);
    want_answer(&answer, untold);
    if (wanted != SPIN_OK) {
        return;
    }
    struct hub *hub = &hubs[it->hub];
    uint32_t live = 0;
    for (uint32_t number = 1; number <= hub->place; number++) {
        if (hub->bindings[number].is_live) {
            hub->before[live++] = number;
            hub->bindings[live] = hub->bindings[number];
        }
        hub->bindings[number].is_live = number <= live;
    }
    hub->renumbered = hub->first = hub->place = live;
    it->cycle = 0;
    forget(it);
}

static void call_before(struct handle *it) {
    uint64_t before = 99;
    const uint64_t number = some(60);
    uint32_t wanted = why_not(it);
    const struct hub *hub = wanted == SPIN_OK ? &hubs[it->hub] : NULL;
    /* the handle of another lane isn't told */
    const uint64_t count = hub == NULL || it->number != 0 ? 0 : hub->renumbered;
    wanted = wanted == SPIN_OK && (number < 1 || number > count) ? (uint32_t)SPIN_NO_BINDING : wanted;
    want("a number before", spin_lane_number_before(&it->lane, number, &before), wanted);
    if (before != (wanted == SPIN_OK ? hub->before[number - 1] : 0)) {
        stop("a binding had another number");
    }
}

static void call_end(struct handle *it) {
    uint64_t rows = 99;
    const uint32_t wanted = why_not_opener(it, 1);
    struct hub *hub = wanted == SPIN_OK ? &hubs[it->hub] : NULL;
    want("an end", spin_lane_end(&it->lane, &rows), wanted);
    if (rows != (hub == NULL ? 0 : hub->place - hub->first)) {
        stop("the log has another number of rows");
    }
    if (hub != NULL) {
        hub->is_ended = 1;
    }
}

static void call_row(struct handle *it) {
    const struct hub *hub = it->hub == NONE || !hubs[it->hub].is_ended ? NULL : &hubs[it->hub];
    const uint64_t count = hub == NULL ? 0 : hub->place - hub->first, index = some(count + 2);
    struct spin_row row = {9, 9, 9, 9}, wanted = {0, 0, 0, 0};
    const uint32_t error = it->hub == NONE ? SPIN_CLOSED : index < count ? SPIN_OK : SPIN_NO_ROW;
    want("a row", spin_lane_row_at(&it->lane, index, &row), error);
    if (error == SPIN_OK) {
        wanted = hub->rows[hub->first + index + 1];
    }
    if (memcmp(&row, &wanted, sizeof row) != 0) {
        stop("another row is told");
    }
}

/* How many steps of the kept reply are jobs. */
static uint64_t count_jobs(struct handle *it, uint64_t steps) {
    uint64_t count = 0;
    for (uint64_t index = 0; index < steps; index++) {
        struct spin_step step;
        want("a step of many", spin_lane_step(&it->lane, index, &step), SPIN_OK);
        count += step.kind == SPIN_JOB;
    }
    return count;
}

/* What a raise leaves in the model: its arguments fit the event, or there is none such. */
static void note_raise(struct handle *it, const struct spin_answer *answer, uint64_t event, int is_fit, int is_later) {
    const uint32_t refused = event >= EVENTS ? SPIN_UNKNOWN_EVENT : is_fit ? 0 : SPIN_WRONG_ARGUMENTS;
    if (answer->place != hubs[it->hub].place) {
        stop("a raise is at another place");
    }
    const int is_right = refused    ? answer->kind == refused
                         : is_later ? answer->kind == SPIN_QUEUED
                                    : answer->kind <= SPIN_DEFAULT;
    if (!is_right || ((refused || is_later) && (answer->steps != 0 || answer->value != 0))) {
        stop("a raise has another answer");
    }
    it->is_kept = 1;
    it->is_job_kept = 0;
    it->cycle = 0;
    it->place = answer->place;
    it->steps = answer->steps;
    it->jobs = answer->kind == SPIN_QUEUED ? 1 : count_jobs(it, answer->steps);
}

static void call_raise(struct handle *it) {
    const uint64_t words[3] = {some(4), 1, 2}, event = some(16) == 0 ? 250 + some(20) : some(3), count = some(4);
    struct spin_answer answer = {9, 9, 9, 9};
    const uint32_t told = spin_lane_raise(&it->lane, event, words, count, &answer);
    if (event > UINT8_MAX) {
        want("a wide raise", told, SPIN_WIDE);
        return;
    }
    want("a raise", told, why_not(it));
    if (told != SPIN_OK) {
        want_answer(&answer, untold);
        return;
    }
    note_raise(it, &answer, event, event == 1 && count == 1, 0);
}

static void call_raise_args(struct handle *it, int is_later) {
    const uint64_t event = some(16) == 0 ? 250 + some(20) : some(3), count = some(4);
    const struct spin_arg bad[4] = {
        {2, 0, 0}, {SPIN_BYTES, 3, 3}, {SPIN_BYTES, UINT64_MAX, 2}, {SPIN_BYTES, 2, UINT64_MAX}};
    struct spin_arg args[3] = {spin_range(some(2), some(5)), spin_word(some(4)), spin_word(1)};
    const int is_bad = count > 0 && some(6) == 0;
    if (is_bad) {
        args[some(count)] = bad[some(4)];
    } else if (some(2) == 0) {
        args[0] = spin_word(some(4));
    }
    struct spin_answer answer = {9, 9, 9, 9};
    const uint32_t told = is_later ? spin_lane_later(&it->lane, event, "bytes", 5, args, count, &answer)
                                   : spin_lane_raise_args(&it->lane, event, "bytes", 5, args, count, &answer);
    if (event > UINT8_MAX) {
        want("a wide raise", told, SPIN_WIDE);
        return;
    }
    want("a raise with arguments", told, is_bad ? (uint32_t)SPIN_NO_ARGUMENT : why_not(it));
    if (told != SPIN_OK) {
        want_answer(&answer, untold);
        return;
    }
    const int has_bytes = count > 0 && args[0].kind == SPIN_BYTES;
    note_raise(it, &answer, event, event == 0 ? count == 2 && has_bytes : count == 1 && !has_bytes, is_later);
}

static void call_job(struct handle *it) {
    const uint64_t index = some(3);
    struct spin_answer answer = {9, 9, 9, 9};
    uint32_t wanted = why_not(it);
    if (wanted == SPIN_OK) {
        wanted = !it->is_kept ? SPIN_NO_REPLY : index < it->jobs ? SPIN_OK : SPIN_NO_JOB;
    }
    want("a job", spin_lane_job(&it->lane, index, &answer), wanted);
    if (wanted != SPIN_OK) {
        want_answer(&answer, untold);
        return;
    }
    if (answer.place != it->place || answer.kind > SPIN_DEFAULT) {
        stop("a job has another answer");
    }
    it->is_job_kept = 1;
    it->job_steps = answer.steps;
}

static void call_step(struct handle *it, int of_job) {
    const uint64_t count = of_job ? it->job_steps : it->steps, far = some(16) == 0 ? UINT64_MAX : some(count + 2);
    const uint64_t index = some(3) == 0 ? 1 : far; /* the second step of event 0 sends */
    const size_t room = some(5);
    uint32_t wanted = why_not(it);
    if (wanted == SPIN_OK) {
        wanted = !(of_job ? it->is_job_kept : it->is_kept) ? SPIN_NO_REPLY : index < count ? SPIN_OK : SPIN_NO_STEP;
    }
    struct spin_step step = {9, 9, 9, 9, 9, 9};
    const struct spin_step none = {0, 0, 0, 0, 0, 0};
    char *buffer = buffer_of(room);
    uint64_t length = 99;
    want("a step", (of_job ? spin_lane_job_step : spin_lane_step)(&it->lane, index, &step), wanted);
    if (wanted != SPIN_OK && memcmp(&step, &none, sizeof step) != 0) {
        stop("where no step is one is told");
    }
    struct spin_step list[3] = {{9, 9, 9, 9, 9, 9}, {9, 9, 9, 9, 9, 9}, {9, 9, 9, 9, 9, 9}};
    const size_t many = some(4), left = wanted == SPIN_OK && !of_job ? count - index : 0;
    uint64_t told = 99;
    if (!of_job) {
        want("steps", spin_lane_steps(&it->lane, index, list, many, &told), wanted);
        if (told != (left < many ? left : many) || (told > 0 && memcmp(&list[0], &step, sizeof step) != 0) ||
            (told < 3 && list[told].kind != 9)) {
            stop("other steps are told");
        }
    }
    wanted = wanted == SPIN_OK && step.length > room ? (uint32_t)SPIN_TOO_SMALL : wanted;
    want("bytes", (of_job ? spin_lane_job_bytes : spin_lane_step_bytes)(&it->lane, index, buffer, room, &length),
         wanted);
    if (length != step.length || step.kind > SPIN_JOB) {
        stop("another number of bytes is told");
    }
    free(buffer);
}

/* A live binding of the event, or 0. */
static uint64_t some_binding(const struct hub *hub, uint64_t event) {
    for (int turn = 0; turn < 8 && hub->place > 0; turn++) {
        const uint64_t number = 1 + some(hub->place);
        if (hub->bindings[number].is_live && hub->bindings[number].event == event) {
            return number;
        }
    }
    return 0;
}

static uint64_t count_live(const struct hub *hub, uint64_t event) {
    uint64_t count = 0;
    for (uint32_t number = 1; number <= hub->place; number++) {
        count += hub->bindings[number].is_live && hub->bindings[number].event == event;
    }
    return count;
}

/* A command, and the number of its refusal, 0 where it is accepted. */
struct wish {
    struct spin_command_words command;
    uint32_t refusal;
};

/* An install that is in order but where its event has as many bindings as it may. */
static struct wish some_install(const struct hub *hub) {
    const uint64_t event = some(EVENTS), known = some_binding(hub, event);
    const enum spin_place place = known ? hub->bindings[known].place : SPIN_FREE;
    struct wish wish = {{.op = SPIN_INSTALL,
                         .event = event,
                         .handler = event ? 1 + some(2) : 3,
                         .guard = event ? some(2) : 0,
                         .mode = some(3) == 0 ? SPIN_ASYNC : SPIN_PLAIN},
                        0};
    if (known && some(2) && place != SPIN_FIRST) {
        wish.command.before[0] = known;
    } else if (known && some(2) && place != SPIN_LAST) {
        wish.command.after[0] = known;
    } else {
        wish.command.place = (enum spin_place)some(3);
    }
    wish.refusal = count_live(hub, event) == LIVE ? 10 : 0;
    return wish;
}

/* Another command that is in order, but where it names no binding. */
static struct wish some_change(const struct hub *hub) {
    const uint64_t event = some(EVENTS), known = some_binding(hub, event);
    const enum spin_op op = (enum spin_op)(2 + some(4));
    struct wish wish = {{.op = op, .event = event}, 0};
    if (op == SPIN_REMOVE || op == SPIN_REPLACE) {
        wish.command.target = known;
        wish.refusal = known ? 0 : 5;
    }
    if (op == SPIN_REPLACE || op == SPIN_SET_DEFAULT) {
        wish.command.handler = event ? 1 + some(2) : 3;
    }
    return wish;
}

/* An install with one thing wrong. */
static struct wish some_wrong(const struct hub *hub) {
    struct wish wish = {{.op = SPIN_INSTALL, .event = 1, .handler = 1}, (uint32_t)(1 + some(6))};
    const uint64_t known = some_binding(hub, 1);
    switch (wish.refusal) {
    case 1: wish.command.event = EVENTS + some(60); break;
    case 2: wish.command.requester = 2 + some(254); break;
    case 3: wish.command.handler = 4 + some(1000); break;
    case 4: wish.command.guard = 2 + some(1000); break;
    case 5: wish.command.after[0] = PLACES; break;
    default: wish.command.handler = 3;
    }
    if (some(4) == 0) {
        wish = (struct wish){{.op = SPIN_SET_DEFAULT, .event = some(2), .requester = 1, .handler = 3}, 9};
        wish.command.handler = wish.command.event ? 1 : 3;
    } else if (known && some(4) == 0 && count_live(hub, 1) < LIVE) {
        wish = (struct wish){{.op = SPIN_INSTALL, .event = 1, .handler = 1, .before = {known}, .after = {known}}, 11};
    }
    return wish;
}

/* What an accepted command does in the model. */
static void accept(struct handle *it, const struct wish *wish, const struct spin_row *row) {
    struct hub *hub = &hubs[it->hub];
    const struct spin_command_words *c = &wish->command;
    hub->place++;
    hub->bindings[hub->place] = (struct binding){c->op == SPIN_INSTALL, c->event, c->place};
    hub->rows[hub->place] = *row;
    hub->rows[hub->place].a &= ~((uint64_t)15 << 49);
    hub->rows[hub->place].a |= (uint64_t)it->number << 49;
    if (c->op == SPIN_REMOVE) {
        hub->bindings[c->target].is_live = 0;
    }
}

/* What is told of a command of the log, which isn't full, that is refused or not. */
static void note_command(struct handle *it, const struct wish *wish, const struct spin_row *row,
                         const struct spin_answer *answer) {
    const struct hub *hub = &hubs[it->hub];
    const int is_by_rule = wish->refusal == 9 && wish->command.event == 0;
    struct spin_answer wanted = {hub->place, wish->refusal, is_by_rule, wish->refusal == 11 ? 2 : 0};
    wanted.place += wish->refusal == 0;
    want_answer(answer, wanted);
    if (wish->refusal == 11) {
        it->cycle = 2;
        it->in_cycle[0] = wish->command.before[0];
        it->in_cycle[1] = hub->place + 1;
    }
    if (wish->refusal == 0) {
        accept(it, wish, row);
    }
}

static void call_command(struct handle *it) {
    static const struct hub nowhere;
    const uint32_t why = why_not(it);
    const struct hub *hub = why == SPIN_OK ? &hubs[it->hub] : &nowhere;
    const uint64_t which = some(10);
    const struct wish wish = which < 4 ? some_install(hub) : which < 8 ? some_change(hub) : some_wrong(hub);
    struct spin_row row = spin_row_of(&wish.command);
    struct spin_answer answer = {9, 9, 9, 9};
    row.a |= some(16) << 49; /* whatever its lane is, it is the handle's */
    const uint32_t wanted = why != SPIN_OK         ? why
                            : hub->place == PLACES ? SPIN_FULL
                            : wish.refusal         ? SPIN_REFUSED
                                                   : SPIN_OK;
    const uint32_t told = spin_command(&it->lane, &row, &answer);
    if (told != wanted) {
        printf("op %u of event %u, refused by %u\n", wish.command.op, (unsigned)wish.command.event, answer.kind);
    }
    want("a command", told, wanted);
    if (why != SPIN_OK) {
        want_answer(&answer, untold);
        return;
    }
    forget(it);
    it->cycle = 0;
    if (wanted == SPIN_FULL) {
        want_answer(&answer, untold);
        return;
    }
    note_command(it, &wish, &row, &answer);
}

/* So many commands that the log is full. */
static void call_many(struct handle *it) {
    while (why_not(it) == SPIN_OK && hubs[it->hub].place < PLACES) {
        call_command(it);
    }
}

/* A row that stands for no command, or a command without room. */
static void call_no_command(struct handle *it) {
    const struct spin_command_words wide[3] = {{.op = SPIN_INSTALL, .handler = 1024 + some(1000)},
                                               {.op = SPIN_REMOVE, .target = UINT64_MAX},
                                               {.op = SPIN_INSTALL, .handler = 1, .after = {UINT16_MAX}}};
    const struct spin_row rows[4] = {{some(UINT64_MAX), some(UINT64_MAX), some(UINT64_MAX), some(UINT64_MAX)},
                                     {some(UINT64_MAX) | (uint64_t)1 << 63, 0, UINT64_MAX, UINT64_MAX},
                                     {(uint64_t)2 << 53, 1, 1, UINT64_MAX},
                                     {0, 0, 0, 0}};
    struct spin_answer answer = {9, 9, 9, 9};
    want("a wide command", spin_lane_command(&it->lane, &wide[some(3)], &answer), SPIN_WIDE);
    want_answer(&answer, (struct spin_answer){9, 9, 9, 9});
    const uint32_t why = why_not(it);
    want("no command", spin_command(&it->lane, &rows[some(4)], &answer),
         why == SPIN_OK ? (uint32_t)SPIN_NO_COMMAND : why);
    want_answer(&answer, untold);
}

static void call_cycle(struct handle *it) {
    const uint64_t index = some(3);
    uint64_t binding = 99;
    uint32_t wanted = why_not(it);
    wanted = wanted == SPIN_OK && index >= it->cycle ? (uint32_t)SPIN_NO_BINDING : wanted;
    want("a cycle", spin_lane_cycle(&it->lane, index, &binding), wanted);
    if (binding != (wanted == SPIN_OK ? it->in_cycle[index] : 0)) {
        stop("another binding is in the cycle");
    }
}

/* The texts of causes; and what is null that may not be. */
static void call_text(struct handle *it) {
    const uint64_t number = some(30);
    const size_t room = some(400);
    char *buffer = buffer_of(room);
    uint64_t length = 0, again = 0;
    const uint32_t first = spin_tell_cause(number, NULL, 0, &length);
    want("a cause", first, number >= 1 && number <= 24 ? SPIN_TOO_SMALL : SPIN_NO_TEXT);
    want("a cause", spin_tell_cause(number, buffer, room, &again),
         first == SPIN_NO_TEXT ? SPIN_NO_TEXT : length <= room ? SPIN_OK : SPIN_TOO_SMALL);
    if (again != length) {
        stop("a text has another length");
    }
    free(buffer);
    struct spin_answer answer = {9, 9, 9, 9};
    want("a null handle", spin_lane_raise(NULL, 0, NULL, 0, &answer), SPIN_NULL);
    want("a null answer", spin_lane_renew(&it->lane, NULL), SPIN_NULL);
    want("null words", spin_lane_raise(&it->lane, 0, NULL, 1, &answer), SPIN_NULL);
    want("a null command", spin_lane_command(&it->lane, NULL, &answer), SPIN_NULL);
    want_answer(&answer, (struct spin_answer){9, 9, 9, 9});
}

/* A run in buffers of some room, over a script, or what is none, with a capture that is none, or without one. */
static void call_run(void) {
    static const char run[] = "spin 1\nevent 0 0 b last\nendpoint 0 out0\nhandler 1 b send 0 0 1\n"
                              "lane 0 install 0 0 1 0 free plain\nlane 1 raise 0 x0102\nlane 0 later 0 x030405\n";
    static const char report[] = "report 1\nsegment 0 at 0\n1 0 5 install ok\n1 0 7 later queued\n"
                                 "1 1 6 raise run 0 1 send 0 1 = done\njob 1 0 7 0 run 0 1 send 0 2 = done\nend 1\n";
    enum { WHOLE = sizeof report - 1 };
    char reported[WHOLE + 2], sent[4];
    struct spin_sending sends[4];
    const struct spin_buffers buffers = {reported, WHOLE + 1 - some(4), sends, 1 + some(4), sent, 2 + some(3)};
    const int is_bad = some(8) == 0, has_packets = some(8) == 0;
    const int fits = buffers.report_room >= WHOLE && buffers.sends_room >= 2 && buffers.bytes_room >= 3;
    struct spin_ran ran = {9, 9, 9, 9, 9};
    memset(reported, '-', sizeof reported);
    const uint32_t told = spin_run(run, is_bad ? 20 : sizeof run - 1, has_packets ? "" : NULL, 0, "echo out0", 9,
                                   some(16) == 0 ? NULL : &buffers, &ran);
    if (told == SPIN_NULL) {
        want("a run into null", told, SPIN_NULL);
        return;
    }
    want("a run", told, is_bad        ? SPIN_BAD_SCRIPT
                        : has_packets ? SPIN_BAD_CAPTURE
                        : fits        ? SPIN_OK
                                      : SPIN_TOO_SMALL);
    const struct spin_ran sizes = {WHOLE, 2, 3, 0, 0}, bad = {0, 0, 0, 2, 9}, no_capture = {0, 0, 0, 0, 5};
    if (memcmp(&ran, is_bad ? &bad : has_packets ? &no_capture : &sizes, sizeof ran) != 0) {
        stop("a run tells something else");
    }
    const size_t kept = told == SPIN_OK ? WHOLE : 0;
    if (memcmp(reported, report, kept) != 0 || reported[kept] != '-' || reported[WHOLE + 1] != '-') {
        stop("a run hands something else out");
    }
    if (told == SPIN_OK && (memcmp(sent, "\2\4\5", 3) != 0 || sends[1].at != 1 || sends[1].length != 2)) {
        stop("a run sends something else");
    }
}

/* Answers a firing that is due amiss, which changes nothing, and then rightly. */
static void call_due(struct spin_raising *raising, const struct spin_step *due) {
    const struct spin_gift change = {SPIN_GIVES_WORD, 0, 1, 0}, none = {4 + some(9), 0, 0, 0}, far = {3, 0, 1, 1};
    const struct spin_arg args[2] = {spin_range(0, 1), spin_word(1)};
    struct spin_answer answer;
    struct spin_step again;
    want("a change", spin_raising_gave(raising, NULL, 0, &change, 1, &answer), SPIN_GIFT_REFUSED);
    want_answer(&answer, (struct spin_answer){0, (uint32_t[]){3, 6, 1}[due->answer], 0, 0});
    want("no gift", spin_raising_gave(raising, NULL, 0, &none, 1, &answer), SPIN_NO_ARGUMENT);
    want("a gift too far", spin_raising_gave(raising, "x", 1, &far, 1, &answer), SPIN_NO_ARGUMENT);
    want("a raise downwards", spin_raising_within(raising, 0, "x", 1, args, 2, &answer), SPIN_DOWNWARD);
    want("a raise of none", spin_raising_within(raising, 2, "x", 1, args, 2, &answer), SPIN_NOT_RAISED);
    want("it is due still", spin_raising_next(raising, &again), SPIN_OK);
    if (memcmp(&again, due, sizeof again) != 0) {
        stop("another firing is due");
    }
    const uint64_t how = some(3);
    const uint32_t error = how == 0   ? spin_raising_do(raising, &answer)
                           : how == 1 ? spin_raising_gave(raising, NULL, 0, NULL, 0, &answer)
                                      : spin_raising_declined(raising);
    want("an answer", error, SPIN_OK);
    want("a second answer", spin_raising_do(raising, &answer), SPIN_NOT_DUE);
    want("a second answer", spin_raising_declined(raising), SPIN_NOT_DUE);
}

/* An open raise on a handle, which is abandoned or ends before anything else is called. */
static void call_raising(struct handle *it) {
    static struct spin_raising raising = {NULL};
    const struct spin_arg arg = spin_word(some(100)), wrong = {2 + some(9), 0, 0};
    const uint32_t why = why_not(it);
    struct spin_answer answer;
    struct spin_step step;
    want("nothing is next", spin_raising_next(&raising, &step), SPIN_CLOSED);
    want("nothing is due", spin_raising_do(&raising, &answer), SPIN_CLOSED);
    want("no argument", spin_lane_begin(&it->lane, &raising, 1, NULL, 0, &wrong, 1, &answer), SPIN_NO_ARGUMENT);
    want("no event", spin_lane_begin(&it->lane, &raising, 2 + some(200), NULL, 0, &arg, 1, &answer),
         why == SPIN_OK ? (uint32_t)SPIN_NOT_RAISED : why);
    want("a begin", spin_lane_begin(&it->lane, &raising, 1, NULL, 0, &arg, 1, &answer), why);
    if (why == SPIN_OK) {
        want("a second begin", spin_lane_begin(&it->lane, &raising, 1, NULL, 0, &arg, 1, &answer), SPIN_OPEN);
        want("not due yet", spin_raising_declined(&raising), SPIN_NOT_DUE);
        do {
            want("a turn", spin_raising_next(&raising, &step), SPIN_OK);
            if (step.kind == SPIN_RUN) {
                call_due(&raising, &step);
            }
        } while (step.kind == SPIN_RUN && some(4) != 0);
        want("an end", spin_raising_abandon(&raising), step.kind == SPIN_END ? SPIN_CLOSED : SPIN_OK);
    }
    if (some(2) == 0) {
        const uint32_t was = spin_raising_forget(&raising);
        want("a closed one", spin_raising_forget(&raising), SPIN_CLOSED);
        want("a close", was, raising.at == NULL && was == SPIN_CLOSED ? SPIN_CLOSED : SPIN_OK);
    }
}

/* Makes a call on some handle. */
static void make_call(void) {
    struct handle *it = &handles[some(HANDLES)];
    const uint64_t what = some(1000);
    if (what == 0 && some(5) == 0) {
        call_many(it);
    } else if (what < 2) {
        call_end(it);
    } else if (what < 8) {
        call_close(it);
    } else if (what < 30) {
        call_return(it);
    } else if (what < 60) {
        call_open(it);
    } else if (what < 140) {
        call_seat(it);
    } else if (what < 170) {
        call_renew(it);
    } else {
        switch (what % 16) {
        case 0: call_raise(it); break;
        case 1: call_raise_args(it, 0); break;
        case 2: call_raise_args(it, 1); break;
        case 3: call_job(it); break;
        case 4: call_step(it, 0); break;
        case 5: call_step(it, 1); break;
        case 6: call_cycle(it); break;
        case 7: call_before(it); break;
        case 8: call_row(it); break;
        case 9: call_gather(it); break;
        case 10: call_no_command(it); break;
        case 11: call_text(it); break;
        case 12: call_run(); break;
        case 13: call_raising(it); break;
        default: call_command(it); break;
        }
    }
}

/* That each error came but those of no memory, of reports, and of handles that are being closed by other threads. */
static void want_all(void) {
    for (uint32_t error = 0; error <= SPIN_WIDE; error++) {
        const int is_other = error == SPIN_NO_MEMORY || error == SPIN_NO_HISTORY || error == SPIN_SHARED ||
                             strcmp(spin_error_name(error), "unknown") == 0;
        if (met[error] == 0 && !is_other) {
            printf("hostile: %s never came\n", spin_error_name(error));
            exit(1);
        }
    }
}

int main(int given, char **words) {
    const uint64_t steps = given > 1 ? strtoull(words[1], NULL, 10) : STEPS;
    seed = given > 2 ? strtoull(words[2], NULL, 10) * 2 + 1 : 88172645463325252u;
    for (int at = 0; at < HANDLES; at++) {
        handles[at].hub = NONE;
    }
    for (step_number = 0; step_number < steps; step_number++) {
        make_call();
    }
    for (int at = 0; at < HANDLES; at++) {
        call_close(&handles[at]);
    }
    if (steps >= STEPS) {
        want_all();
    }
    printf("hostile: %u calls answer what the model has\n", (unsigned)steps);
    return 0;
}
