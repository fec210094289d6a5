/* Functions of the host's: what they are handed, what they may do, and what becomes of a raise that they end; callers
 * that ask amiss; and eight seats on threads. Each refusal tells its number and changes nothing. */
#include "spin_host.h"

#include <pthread.h>
#include <stdio.h>

#define WANT(is_so) want(is_so, #is_so, __LINE__)

static void want(int is_so, const char *what, int line) {
    if (!is_so) {
        fprintf(stderr, "host_test.c:%d: %s\n", line, what);
        exit(1);
    }
}

static const struct spin_named events[] = {{"Low", "Bw:w", "fold + a0 a1", 0}, {"Middle", "W:w", NULL, 0},
                                           {"High", "b", NULL, 0},             {"Kept", "w", NULL, 1},
                                           {"Words", "wwwwwwww", NULL, 0},     {0}};
static const struct spin_named handlers[] = {{"add", "W:w", "set 0 + a0 1 result a0", 0},
                                             {"up", "Bw:w", "send 0 0 0 up 1 1 w a1", 0},
                                             {0}};
static const struct spin_named guards[] = {{"small", "w", "< a0 10", 0}, {0}};
static const char *const modules[] = {"net", "app", NULL}, *const endpoints[] = {"out0", NULL};
static const struct spin_declared declared = {modules, events, endpoints, handlers, guards,
                                              "rule 3 0 255 install any all deny\n"};

/* What a function does, and what it saw. */
struct plan {
    struct spin_table *table;
    enum spin_outcome outcome;
    uint32_t error;
    unsigned runs;
    uint64_t word;
    int holds;
    void (*act)(struct plan *plan, struct spin_call *call);
};

static enum spin_outcome follow(void *self, struct spin_call *call) {
    struct plan *plan = (struct plan *)self;
    plan->runs++;
    if (plan->act != NULL) {
        plan->act(plan, call);
    }
    return plan->outcome;
}
static int holds(void *self, struct spin_call *call) {
    (void)call;
    return ((struct plan *)self)->holds;
}

static struct spin_host host;
static struct spin_table table;
static struct spin_answer answer;

/* Binds a plan to an event. */
static uint32_t bind(uint64_t event, struct plan *plan, enum spin_mode mode, int is_guarded) {
    const struct spin_command_words how = {.event = event, .mode = mode};
    const struct spin_function f = {plan->act == NULL && !plan->outcome && !plan->error ? NULL : follow,
                                    is_guarded ? holds : NULL, plan, NULL};
    WANT(spin_bind(&host, &table, &how, f, &answer) == SPIN_OK);
    return answer.place;
}
static uint32_t raise_low(const char *bytes, uint64_t word) {
    const struct spin_value args[2] = {spin_value_bytes(bytes, strlen(bytes)), spin_value_word(word)};
    return spin_raise_with(&host, &table, 0, args, 2, &answer);
}
static uint32_t raise_middle(uint64_t word) {
    const struct spin_value arg = spin_value_word(word);
    return spin_raise_with(&host, &table, 1, &arg, 1, &answer);
}
static void open_host(void) { WANT(spin_host_open(&host, 1, &declared, &answer) == SPIN_OK); }
static void close_host(void) {
    int abandoned = 1;
    WANT(spin_host_close(&host, &abandoned) == SPIN_OK && !abandoned && spin_table_free(&table) == SPIN_OK);
}

static void give_length(struct plan *plan, struct spin_call *call) {
    size_t length;
    plan->word = spin_call_bytes(call, 0, &length)[0];
    spin_call_result(call, length);
}
static void cut(struct plan *plan, struct spin_call *call) {
    size_t length;
    const uint8_t *bytes = spin_call_bytes(call, 0, &length);
    plan->word = spin_call_word(call, 1);
    spin_call_set_bytes(call, 0, bytes + 1, length - 1);
}
static void add_one(struct plan *plan, struct spin_call *call) {
    plan->word = spin_call_word(call, 0);
    spin_call_set_word(call, 0, plan->word + 1);
    spin_call_result(call, plan->word + 1);
}
static void give_word(struct plan *plan, struct spin_call *call) { spin_call_result(call, plan->word); }

static void test_filters_guards_and_merges(void) {
    struct plan filter = {.act = cut}, length = {.act = give_length}, guarded = {.act = give_word, .word = 100};
    open_host();
    bind(0, &filter, SPIN_FILTER, 0);
    bind(0, &length, SPIN_PLAIN, 0);
    bind(0, &guarded, SPIN_PLAIN, 1);
    WANT(raise_low("abcd", 7) == SPIN_OK && answer.kind == SPIN_VALUE && answer.value == 3 && answer.place == 3);
    WANT(filter.word == 7 && length.word == 'b' && guarded.runs == 0);
    guarded.holds = 1;
    WANT(raise_low("abcd", 7) == SPIN_OK && answer.value == 103);
    WANT(spin_unbind(&host, &table, 0, 3, 0, &answer) == SPIN_OK);
    WANT(raise_low("abcd", 7) == SPIN_OK && answer.value == 3);
    close_host();
}

static void raise_up(struct plan *plan, struct spin_call *call) {
    struct spin_answer within;
    const struct spin_value args[2] = {spin_value_bytes("", 0), spin_value_word(plan->word)};
    WANT(spin_call_raise(call, 0, args, 2, &within) == SPIN_DOWNWARD);
    WANT(spin_call_raise(call, 9, args, 1, &within) == SPIN_OK && within.kind == SPIN_UNKNOWN_EVENT);
    WANT(spin_call_raise(call, 1, args, 1, &within) == SPIN_OK && within.kind == SPIN_WRONG_ARGUMENTS);
    WANT(spin_call_raise(call, 1, args, 9, &within) == SPIN_OK && within.kind == SPIN_WRONG_ARGUMENTS);
    WANT(spin_call_raise(call, SPIN_UNNAMED, args, 1, &within) == SPIN_NO_NAME);
    WANT(spin_call_raise(call, 300, args, 1, &within) == SPIN_WIDE);
    WANT(spin_call_raise(call, 1, NULL, 1, &within) == SPIN_NULL);
    WANT(raise_low("", 1) == SPIN_OPEN && spin_host_renew(&host, plan->table, &within) == SPIN_SHARED);
    WANT(spin_lane_renew(&host.lane, &within) == SPIN_SHARED && spin_table_free(plan->table) == SPIN_OPEN);
    plan->error = spin_call_raise(call, 1, &args[1], 1, &within);
    spin_call_result(call, plan->error == SPIN_OK ? within.value : 0);
}
static void unbind_self(struct plan *plan, struct spin_call *call) {
    struct spin_answer told;
    WANT(spin_unbind(call->host, plan->table, call->event, call->number, 0, &told) == SPIN_OK);
    spin_call_result(call, spin_call_word(call, 0) * 2);
}

static void test_raises_within(void) {
    struct plan low = {.act = raise_up, .table = &table, .word = 21}, once = {.act = unbind_self, .table = &table};
    open_host();
    bind(0, &low, SPIN_PLAIN, 0);
    bind(0, &low, SPIN_PLAIN, 0);
    bind(1, &once, SPIN_PLAIN, 0);
    /* the second raise within is on the same bindings, so it calls it again, but can't unbind it again */
    once.act = give_word;
    once.word = 5;
    WANT(raise_low("", 1) == SPIN_OK && answer.value == 10 && once.runs == 2);
    once.act = unbind_self;
    WANT(raise_middle(4) == SPIN_OK && answer.value == 8 && table.bindings[3].handler == NULL);
    WANT(raise_middle(4) == SPIN_OK && answer.kind == SPIN_NO_HANDLER && once.runs == 3);
    close_host();
}

/* The steps that were told. */
static uint32_t kinds[64];
static size_t kind_count;
static uint8_t sent[8];
static void note(void *self, const struct spin_step *step, const uint8_t *bytes) {
    (void)self;
    kinds[kind_count++ % 64] = step->kind;
    if (step->kind == SPIN_SEND && step->length <= sizeof sent) {
        memcpy(sent, bytes, step->length);
    }
}

static void test_acts_and_steps(void) {
    struct plan as_declared = {.outcome = SPIN_AS_DECLARED}, pass = {.outcome = SPIN_PASS};
    struct spin_command_words up = {.handler = spin_handler_named(&host, "none")};
    const struct spin_function none = {NULL, NULL, NULL, NULL}, declared_act = {follow, NULL, &as_declared, "it"};
    open_host();
    WANT(up.handler == SPIN_UNNAMED && spin_bind(&host, &table, &up, none, &answer) == SPIN_NO_NAME);
    up.handler = spin_handler_named(&host, "up");
    WANT(up.handler == 2 && spin_guard_named(&host, "small") == 1 && spin_module_named(&host, "app") == 1);
    spin_host_watch(&host, note, NULL);
    WANT(spin_bind(&host, &table, &up, none, &answer) == SPIN_OK);
    const struct spin_command_words add = {.event = 1, .handler = 1, .mode = SPIN_FILTER};
    WANT(spin_bind(&host, &table, &add, declared_act, &answer) == SPIN_OK && spin_binding_named(&table, "it") == 2);
    bind(1, &pass, SPIN_PLAIN, 0);
    WANT(raise_low("data", 6) == SPIN_OK && answer.kind == SPIN_DONE && memcmp(sent, "data", 4) == 0);
    const uint32_t wanted[] = {SPIN_RUN, SPIN_SEND, SPIN_UP, SPIN_RUN, SPIN_RESULT, SPIN_BACK};
    WANT(kind_count == 6 && memcmp(kinds, wanted, sizeof wanted) == 0 && pass.runs == 1 && as_declared.runs == 1);
    struct plan other = {.act = give_word, .word = 9};
    struct spin_command_words how = {.event = 1, .target = 2};
    const struct spin_function replaced = {follow, NULL, &other, NULL};
    WANT(spin_rebind(&host, &table, &how, replaced, &answer) == SPIN_OK);
    WANT(raise_middle(1) == SPIN_OK && answer.value == 9);
    close_host();
}

static void test_defaults_and_renewals(void) {
    struct plan by_default = {.act = give_word, .word = 3}, gone = {.outcome = SPIN_STOP}, stays = {.act = give_word};
    struct spin_command_words how = {.event = 1};
    const struct spin_function f = {follow, NULL, &by_default, NULL}, none = {NULL, NULL, NULL, NULL};
    open_host();
    WANT(spin_bind_default(&host, &table, &how, f, &answer) == SPIN_OK);
    WANT(raise_middle(1) == SPIN_OK && answer.kind == SPIN_DEFAULT_VALUE && answer.value == 3);
    by_default.outcome = SPIN_PASS;
    WANT(raise_middle(1) == SPIN_OK && answer.kind == SPIN_NO_HANDLER);
    WANT(spin_bind_default(&host, &table, &how, none, &answer) == SPIN_OK && by_default.runs == 2);
    WANT(raise_middle(1) == SPIN_OK && answer.kind == SPIN_NO_HANDLER && by_default.runs == 2);
    const uint32_t first = bind(1, &gone, SPIN_PLAIN, 0), second = bind(1, &stays, SPIN_PLAIN, 0);
    WANT(raise_middle(1) == SPIN_STOPPED && stays.runs == 0);
    WANT(spin_unbind(&host, &table, 1, first, 0, &answer) == SPIN_OK && second == 4);
    WANT(spin_host_renew(&host, &table, &answer) == SPIN_OK && table.bindings[1].self == &stays);
    WANT(table.bindings[4].handler == NULL && raise_middle(1) == SPIN_OK && answer.value == 0 && stays.runs == 1);
    close_host();
}

static void wrong_argument(struct plan *plan, struct spin_call *call) {
    size_t length;
    WANT(spin_call_count(call) == 1 && spin_call_bytes(call, plan->word, &length) != NULL && length == 0);
    WANT(spin_call_word(call, 0) == 0 && spin_call_result(call, 1) == SPIN_NO_ARGUMENT);
    WANT(spin_call_raise(call, 2, NULL, 0, &answer) == SPIN_NO_ARGUMENT);
}
static void answer_twice(struct plan *plan, struct spin_call *call) {
    struct spin_answer told;
    struct spin_step step;
    WANT(spin_raising_declined(&call->host->raising) == SPIN_OK);
    WANT(spin_raising_declined(&call->host->raising) == SPIN_NOT_DUE);
    WANT(spin_raising_do(&call->host->raising, &told) == SPIN_NOT_DUE);
    WANT(spin_raising_within(&call->host->raising, 2, "", 0, NULL, 0, &told) == SPIN_NOT_DUE);
    WANT(spin_raising_given(&call->host->raising, plan->word, &step) == SPIN_NO_STEP);
}
static void close_it(struct plan *plan, struct spin_call *call) {
    int abandoned = 0;
    plan->error = spin_host_close(call->host, &abandoned);
    WANT(abandoned && spin_call_result(call, 1) == SPIN_CLOSED);
}
static void set_word(struct plan *plan, struct spin_call *call) { spin_call_set_word(call, plan->word, 1); }
static void set_bytes(struct plan *plan, struct spin_call *call) { spin_call_set_bytes(call, plan->word, "x", 1); }

/* What may not be given is refused with its number, and the raise is abandoned; the next one is as if none had been. */
static void test_hostile_functions(void) {
    const struct {
        void (*act)(struct plan *plan, struct spin_call *call);
        uint64_t word;
        enum spin_mode mode;
        uint32_t error, kind;
    } tries[] = {
        {wrong_argument, 0, SPIN_PLAIN, SPIN_NO_ARGUMENT, 0},
        {wrong_argument, 3, SPIN_PLAIN, SPIN_NO_ARGUMENT, 0},
        {answer_twice, 0, SPIN_PLAIN, SPIN_NOT_DUE, 0},
        {set_word, 0, SPIN_PLAIN, SPIN_GIFT_REFUSED, 3},
        {set_word, 1, SPIN_FILTER, SPIN_GIFT_REFUSED, 4},
        {set_bytes, 0, SPIN_FILTER, SPIN_GIFT_REFUSED, 5},
        {set_word, 999, SPIN_FILTER, SPIN_NO_ARGUMENT, 0},
    };
    for (size_t at = 0; at < sizeof tries / sizeof *tries; at++) {
        struct plan plan = {.act = tries[at].act, .word = tries[at].word};
        open_host();
        const uint32_t number = bind(1, &plan, tries[at].mode, 0);
        WANT(raise_middle(1) == tries[at].error && plan.runs == 1);
        WANT(tries[at].error != SPIN_GIFT_REFUSED || (answer.kind == tries[at].kind && answer.steps == number));
        plan.outcome = SPIN_PASS;
        plan.act = NULL;
        WANT(raise_middle(1) == SPIN_OK && answer.kind == SPIN_NO_HANDLER);
        close_host();
    }
}

static void test_hostile_callers(void) {
    struct plan closing = {.act = close_it}, word = {.act = give_word};
    struct spin_step step;
    int abandoned;
    const struct spin_value wrong = {7, 0, NULL, 0}, null = {SPIN_BYTES, 0, NULL, 1}, one = spin_value_word(1);
    WANT(spin_raise_with(&host, &table, 1, &one, 1, &answer) == SPIN_CLOSED && table.raises == 0);
    WANT(spin_host_close(&host, &abandoned) == SPIN_CLOSED && !abandoned);
    open_host();
    WANT(spin_raise_with(NULL, &table, 1, &one, 1, &answer) == SPIN_NULL);
    WANT(spin_raise_with(&host, &table, 1, NULL, 1, &answer) == SPIN_NULL);
    WANT(spin_raise_with(&host, &table, 1, &null, 1, &answer) == SPIN_NULL);
    WANT(spin_raise_with(&host, &table, 1, &wrong, 1, &answer) == SPIN_NO_ARGUMENT);
    WANT(spin_raise_with(&host, &table, SPIN_UNNAMED, &one, 1, &answer) == SPIN_NO_NAME);
    WANT(spin_raising_next(&host.raising, &step) == SPIN_CLOSED);
    WANT(spin_raising_do(&host.raising, &answer) == SPIN_CLOSED);
    bind(2, &word, SPIN_PLAIN, 0);
    const struct spin_value bytes = spin_value_bytes("", 0);
    WANT(spin_raise_with(&host, &table, 2, &bytes, 1, &answer) == SPIN_GIFT_REFUSED);
    WANT(answer.kind == SPIN_GIFT_NO_RESULT);
    const struct spin_command_words denied = {.event = 3, .requester = 0}, lost = {.event = 1, .target = 99};
    const struct spin_function f = {follow, NULL, &word, NULL};
    WANT(spin_bind(&host, &table, &denied, f, &answer) == SPIN_REFUSED && answer.kind == 9 && answer.value == 1);
    WANT(spin_rebind(&host, &table, &lost, f, &answer) == SPIN_REFUSED && table.change_count == 0);
    WANT(spin_unbind(&host, &table, 1, 99999, 0, &answer) == SPIN_WIDE);
    bind(1, &closing, SPIN_PLAIN, 0);
    bind(1, &word, SPIN_PLAIN, 0);
    WANT(raise_middle(1) == SPIN_CLOSED && closing.error == SPIN_OK && word.runs == 1 && table.raises == 0);
    WANT(raise_middle(1) == SPIN_CLOSED && spin_table_free(&table) == SPIN_OK);
}

static void go_deeper(struct plan *plan, struct spin_call *call) {
    struct spin_answer within;
    const struct spin_value arg = spin_value_word(plan->word);
    plan->error = spin_call_raise(call, call->event + 1, &arg, 1, &within);
}

/* 64 events, each of which raises the next one, twice: the raises are as deep as they may be, and then 4096 handlers
 * have started. */
static void test_deep_raises(void) {
    static struct spin_named deep[65];
    static char names[64][8];
    struct plan plan = {.act = go_deeper};
    for (size_t at = 0; at < 64; at++) {
        (void)snprintf(names[at], sizeof names[at], "E%zu", at);
        const struct spin_named event = {names[at], "w", NULL, 0};
        deep[at] = event;
    }
    const struct spin_declared all = {NULL, deep, NULL, NULL, NULL, NULL};
    const struct spin_value arg = spin_value_word(1);
    WANT(spin_host_open(&host, 1, &all, &answer) == SPIN_OK);
    for (uint64_t at = 0; at < 64; at++) {
        bind(at, &plan, SPIN_PLAIN, 0);
    }
    WANT(spin_raise_with(&host, &table, 0, &arg, 1, &answer) == SPIN_OK && plan.runs == 64);
    for (uint64_t at = 0; at < 64; at++) {
        bind(at, &plan, SPIN_PLAIN, 0);
    }
    WANT(spin_raise_with(&host, &table, 0, &arg, 1, &answer) == SPIN_SPENT_ALL && plan.runs == 64 + 4096);
    close_host();
}

static void test_jobs(void) {
    struct plan job = {.act = give_length}, low = {.act = raise_up, .table = &table};
    uint64_t ran = 9;
    open_host();
    spin_host_watch(&host, note, NULL);
    kind_count = 0;
    bind(0, &job, SPIN_ASYNC, 0);
    WANT(raise_low("four", 1) == SPIN_OK && answer.kind == SPIN_DONE && job.runs == 0 && kinds[0] == SPIN_JOB);
    WANT(spin_host_jobs(&host, &table, &ran) == SPIN_OK && ran == 1 && job.runs == 1 && job.word == 'f');
    WANT(kind_count == 2 && kinds[1] == SPIN_RESULT && spin_host_jobs(&host, &table, &ran) == SPIN_OK && ran == 0);
    WANT(raise_low("left", 1) == SPIN_OK && host.left_count == 1 && low.runs == 0);
    close_host();
}

/* A seat on a thread, with a table of its own: it binds, raises and unbinds. */
struct seat {
    struct spin_host host;
    uint64_t number;
};

static void *work(void *self) {
    struct seat *seat = (struct seat *)self;
    struct spin_table own;
    struct plan filter = {.act = add_one}, mine = {.act = give_word, .word = seat->number};
    struct spin_command_words how = {.event = 1, .mode = SPIN_FILTER, .place = SPIN_FIRST};
    const struct spin_function f = {follow, NULL, &filter, NULL}, g = {follow, NULL, &mine, NULL};
    struct spin_answer told;
    memset(&own, 0, sizeof own);
    for (unsigned at = 0; at < 60; at++) {
        const struct spin_value arg = spin_value_word(at);
        how.mode = SPIN_FILTER;
        WANT(spin_bind(&seat->host, &own, &how, f, &told) == SPIN_OK);
        const uint32_t first = told.place;
        how.mode = SPIN_PLAIN;
        WANT(spin_bind(&seat->host, &own, &how, g, &told) == SPIN_OK);
        const uint32_t second = told.place;
        WANT(spin_raise_with(&seat->host, &own, 1, &arg, 1, &told) == SPIN_OK && told.kind == SPIN_VALUE);
        WANT(filter.runs == at + 1 && mine.runs == at + 1);
        WANT(spin_unbind(&seat->host, &own, 1, first, 0, &told) == SPIN_OK);
        WANT(spin_unbind(&seat->host, &own, 1, second, 0, &told) == SPIN_OK);
    }
    WANT(spin_table_free(&own) == SPIN_OK);
    return NULL;
}

static void test_threads(void) {
    static struct seat seats[8];
    static pthread_t threads[8];
    int abandoned;
    WANT(spin_host_open(&seats[0].host, 8, &declared, &answer) == SPIN_OK);
    for (int round = 0; round < 3; round++) {
        for (uint64_t at = 0; at < 8; at++) {
            seats[at].number = at;
            WANT(at == 0 || spin_host_seat(&seats[0].host, at, &seats[at].host) == SPIN_OK);
        }
        for (size_t at = 0; at < 8; at++) {
            WANT(pthread_create(&threads[at], NULL, work, &seats[at]) == 0);
        }
        for (size_t at = 0; at < 8; at++) {
            WANT(pthread_join(threads[at], NULL) == 0);
        }
        for (size_t at = 1; at < 8; at++) {
            WANT(spin_host_close(&seats[at].host, &abandoned) == SPIN_OK);
            memset(&seats[at].host, 0, sizeof seats[at].host);
        }
        WANT(spin_host_renew(&seats[0].host, &table, &answer) == SPIN_OK);
    }
    WANT(spin_host_close(&seats[0].host, &abandoned) == SPIN_OK && spin_table_free(&table) == SPIN_OK);
}

int main(void) {
    test_filters_guards_and_merges();
    test_raises_within();
    test_acts_and_steps();
    test_defaults_and_renewals();
    test_hostile_functions();
    test_hostile_callers();
    test_deep_raises();
    test_jobs();
    test_threads();
    puts("functions of the host: all as wanted");
    return 0;
}
