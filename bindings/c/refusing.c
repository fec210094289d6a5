/* refusing: an allocation that refuses. All calls are made in one order, once for each request for memory that they
 * make, which is refused: alone, or with all that follow within its call. The call has to answer that there is no
 * memory, or what it answers anyway; made again, it has to answer what it answers where nothing is refused, as have all
 * that follow. In the end nothing may be left. */
#include "spin.h"

#include <stdio.h>
#include <stdlib.h>
#include <string.h>

void *__libc_malloc(size_t size);
void *__libc_calloc(size_t count, size_t size);
void *__libc_realloc(void *at, size_t size);
void *__libc_memalign(size_t alignment, size_t size);
void __libc_free(void *at);

enum { NEVER = -1, HANDLES = 3 };

/* The requests of calls: how many were made, which is refused, and what is held. */
static struct {
    int is_watched, is_lasting, is_refused;
    long made, refused, held;
} memory = {.refused = NEVER};

/* Whether a request is refused. */
static int is_refused(void) {
    if (!memory.is_watched) {
        return 0;
    }
    const long number = memory.made++;
    const int is = number == memory.refused || (memory.is_lasting && memory.is_refused);
    memory.is_refused |= is;
    return is;
}

/* Notes where the machine itself refuses. */
static void *note(void *at) {
    memory.is_refused |= memory.is_watched && at == NULL;
    return at;
}

static void *count(void *at) {
    memory.held += memory.is_watched && at != NULL;
    return note(at);
}

void *malloc(size_t size) { return is_refused() ? NULL : count(__libc_malloc(size)); }

void *calloc(size_t many, size_t size) { return is_refused() ? NULL : count(__libc_calloc(many, size)); }

void *realloc(void *at, size_t size) {
    if (is_refused()) {
        return NULL;
    }
    return at == NULL ? count(__libc_realloc(at, size)) : note(__libc_realloc(at, size));
}

void *aligned_alloc(size_t alignment, size_t size) {
    return is_refused() ? NULL : count(__libc_memalign(alignment, size));
}

int posix_memalign(void **to, size_t alignment, size_t size) {
    void *at = aligned_alloc(alignment, size);
    *to = at == NULL ? *to : at;
    return at == NULL ? 12 : 0;
}

void free(void *at) {
    memory.held -= memory.is_watched && at != NULL;
    __libc_free(at);
}

static const char script[] =
    "spin 2\nmodules 2\nevent 0 0 bw:w last\nevent 1 0 w:w fold + a0 a1\nendpoint 0 out0\n"
    "handler 1 w:w result + a0 1\nhandler 2 w:w result + a0 2\nhandler 3 bw:w send 0 0 1 up 1 1 w a1 result a1\n"
    "guard 1 w < a0 20\nguard 2 w == a0 7\nrule 0 1 1 any any all deny\n";
static const char judged[] =
    "spin 1\nevent 0 0 -:w last\nhandler 1 -:w result 7\nlane 0 install 0 0 1 0 free plain\nlane 0 raise 0\n";
static const char report[] =
    "report 1\nsegment 0 at 0\n1 0 4 install ok\n1 0 5 raise run 0 1 result 7 = value 7\nend 1\n";

static const char sending[] = "spin 1\nevent 0 0 b last\nendpoint 0 out0\nhandler 1 b send 0 0 1\n"
                              "lane 0 install 0 0 1 0 free plain\nlane 1 raise 0 x0102\nlane 0 later 0 x0304\n";

static struct spin_lane lanes[HANDLES];

/* What a call tells: of a call, the parts that it has. */
struct told {
    struct spin_answer answer;
    struct spin_fault fault;
    struct spin_ran ran;
    char report[256];
    struct spin_sending sends[4];
    struct spin_step step;
    struct spin_row row;
    uint64_t number;
    char bytes[8];
};

static uint32_t open_hub(struct told *told) {
    return spin_lane_open_hub(&lanes[0], 3, script, sizeof script - 1, &told->answer);
}

static uint32_t open_bad(struct told *told) {
    return spin_lane_open(&lanes[2], script, sizeof script - 3, &told->answer);
}

static uint32_t judge(struct told *told) {
    return spin_judge(judged, sizeof judged - 1, report, sizeof report - 1, "out0", 4, &told->fault);
}

static uint32_t judge_packets(struct told *told) {
    return spin_judge_packets(judged, sizeof judged - 1, "pcap", 4, report, sizeof report - 1, NULL, 0, &told->fault);
}

static uint32_t run_script(struct told *told) {
    const struct spin_buffers buffers = {told->report, sizeof told->report, told->sends, 4, told->bytes, 8};
    return spin_run(sending, sizeof sending - 1, NULL, 0, "out0", 4, &buffers, &told->ran);
}

static uint32_t run_too_much(struct told *told) {
    const struct spin_buffers buffers = {told->report, 9, NULL, 0, told->bytes, 8};
    return spin_run(sending, sizeof sending - 1, NULL, 0, "out0", 4, &buffers, &told->ran);
}

static uint32_t run_packets(struct told *told) {
    const struct spin_buffers buffers = {NULL, 0, NULL, 0, NULL, 0};
    return spin_run(sending, sizeof sending - 1, "pcap", 4, NULL, 0, &buffers, &told->ran);
}

static uint32_t command(struct told *told, int by, struct spin_command_words words) {
    return spin_lane_command(&lanes[by], &words, &told->answer);
}

static uint32_t install_own(struct told *told) {
    return command(told, 0, (struct spin_command_words){.op = SPIN_INSTALL, .event = 0, .handler = 3});
}

static uint32_t install_later(struct told *told) {
    return command(told, 1, (struct spin_command_words){.op = SPIN_INSTALL, .handler = 3, .mode = SPIN_ASYNC});
}

static uint32_t install_guarded(struct told *told) {
    const uint64_t guard = 1 + (uint64_t)told->number % 2;
    return command(told, 1, (struct spin_command_words){.op = SPIN_INSTALL, .event = 1, .handler = 1, .guard = guard});
}

static uint32_t install_behind(struct told *told) {
    return command(told, 0, (struct spin_command_words){
                                .op = SPIN_INSTALL, .event = 1, .handler = 2, .after = {3}, .place = SPIN_LAST});
}

static uint32_t install_denied(struct told *told) {
    return command(told, 0, (struct spin_command_words){.op = SPIN_INSTALL, .event = 0, .handler = 3, .requester = 1});
}

static uint32_t install_in_a_cycle(struct told *told) {
    return command(told, 0, (struct spin_command_words){
                                .op = SPIN_INSTALL, .event = 1, .handler = 2, .before = {3}, .after = {3}});
}

static uint32_t replace(struct told *told) {
    return command(told, 0, (struct spin_command_words){.op = SPIN_REPLACE, .event = 1, .target = 3, .handler = 2});
}

static uint32_t remove_one(struct told *told) {
    return command(told, 1, (struct spin_command_words){.op = SPIN_REMOVE, .event = 0, .target = 1});
}

static uint32_t set_default(struct told *told) {
    return command(told, 0, (struct spin_command_words){.op = SPIN_SET_DEFAULT, .event = 1, .handler = 1});
}

static uint32_t no_default(struct told *told) {
    return command(told, 1, (struct spin_command_words){.op = SPIN_NO_DEFAULT, .event = 1});
}

static uint32_t no_command(struct told *told) {
    return command(told, 0, (struct spin_command_words){.op = SPIN_REMOVE, .event = 1, .handler = 1});
}

static uint32_t raise_word(struct told *told) {
    const uint64_t words[1] = {7};
    return spin_lane_raise(&lanes[1], 1, words, 1, &told->answer);
}

static uint32_t raise_bytes(struct told *told) {
    const struct spin_arg args[2] = {spin_range(0, 5), spin_word(7)};
    return spin_lane_raise_args(&lanes[0], 0, "bytes", 5, args, 2, &told->answer);
}

static uint32_t raise_nothing(struct told *told) { return spin_lane_raise(&lanes[0], 9, NULL, 0, &told->answer); }

static uint32_t later(struct told *told) {
    const struct spin_arg args[2] = {spin_range(0, 5), spin_word(7)};
    return spin_lane_later(&lanes[0], 0, "bytes", 5, args, 2, &told->answer);
}

static uint32_t step(struct told *told) { return spin_lane_step(&lanes[0], 1, &told->step); }

static uint32_t steps(struct told *told) { return spin_lane_steps(&lanes[0], 1, &told->step, 1, &told->number); }

static uint32_t step_bytes(struct told *told) {
    return spin_lane_step_bytes(&lanes[0], 1, told->bytes, sizeof told->bytes, &told->number);
}

static uint32_t job(struct told *told) { return spin_lane_job(&lanes[0], 0, &told->answer); }

static uint32_t job_step(struct told *told) { return spin_lane_job_step(&lanes[0], 1, &told->step); }

static uint32_t job_bytes(struct told *told) {
    return spin_lane_job_bytes(&lanes[0], 1, told->bytes, sizeof told->bytes, &told->number);
}

static uint32_t cycle(struct told *told) { return spin_lane_cycle(&lanes[0], 1, &told->number); }

static uint32_t seat(struct told *told) {
    (void)told;
    return spin_lane_seat(&lanes[0], 1, &lanes[1]);
}

static uint32_t come_home(struct told *told) { return spin_lane_return(&lanes[1], &told->answer); }

static uint32_t gather(struct told *told) { return spin_lane_gather(&lanes[0], &told->number); }

static uint32_t renew(struct told *told) { return spin_lane_renew(&lanes[0], &told->answer); }

static uint32_t before(struct told *told) { return spin_lane_number_before(&lanes[0], 2, &told->number); }

static uint32_t end(struct told *told) { return spin_lane_end(&lanes[0], &told->number); }

static uint32_t row_at(struct told *told) { return spin_lane_row_at(&lanes[0], 0, &told->row); }

static uint32_t cause(struct told *told) { return spin_tell_cause(24, told->bytes, sizeof told->bytes, &told->number); }

static uint32_t fault(struct told *told) { return spin_tell_fault(8, told->bytes, sizeof told->bytes, &told->number); }

static uint32_t begin(struct spin_lane *lane, struct told *told) {
    const struct spin_arg args[2] = {spin_range(0, 5), spin_word(7)};
    struct spin_raising raising = {NULL};
    const uint32_t error = spin_lane_begin(lane, &raising, 0, "bytes", 5, args, 2, &told->answer);
    spin_raising_forget(&raising);
    return error;
}

static struct spin_raising raising = {NULL};

static uint32_t begin_open(struct told *told) {
    const struct spin_arg args[2] = {spin_range(0, 5), spin_word(7)};
    return spin_lane_begin(&lanes[0], &raising, 0, "bytes", 5, args, 2, &told->answer);
}

static uint32_t within_early(struct told *told) {
    const struct spin_arg args[2] = {spin_word(7), spin_word(8)};
    return spin_raising_within(&raising, 1, NULL, 0, args, 2, &told->answer);
}

static uint32_t gave_early(struct told *told) {
    const struct spin_gift gifts[1] = {{SPIN_GIVES_SEND, 0, 0, 5}};
    return spin_raising_gave(&raising, "bytes", 5, gifts, 1, &told->answer);
}

static uint32_t forget(struct told *told) {
    (void)told;
    return spin_raising_forget(&raising);
}

static uint32_t begin_closed(struct told *told) { return begin(&lanes[2], told); }

static uint32_t begin_ended(struct told *told) { return begin(&lanes[0], told); }

static uint32_t close_first(struct told *told) { return spin_lane_close(&lanes[0], &told->answer); }

static uint32_t close_second(struct told *told) { return spin_lane_close(&lanes[1], &told->answer); }

/* All calls, in order, with the error that each tells where nothing is refused, and whether it may ask for memory, and that
 * error is told all the same. */
enum { ASKS_IN_VAIN = 2 };

static const struct call {
    const char *name;
    uint32_t (*make)(struct told *told);
    uint32_t error;
    int asks;
} calls[] = {
    {"judge", judge, SPIN_OK, 1},
    {"judge with packets", judge_packets, SPIN_BAD_CAPTURE, 1},
    {"run", run_script, SPIN_OK, 1},
    {"run into too little room", run_too_much, SPIN_TOO_SMALL, 1},
    {"run with packets", run_packets, SPIN_BAD_CAPTURE, 1},
    {"open no script", open_bad, SPIN_BAD_SCRIPT, 1},
    {"open", open_hub, SPIN_OK, 1},
    {"seat", seat, SPIN_OK, 1},
    {"install", install_own, SPIN_OK, 1},
    {"raise without a handler", raise_word, SPIN_OK, 1},
    {"raise without a handler again", raise_word, SPIN_OK, 0},
    {"install for later", install_later, SPIN_OK, 1},
    {"install with a guard", install_guarded, SPIN_OK, 1},
    {"install behind", install_behind, SPIN_OK, 1},
    {"install what is denied", install_denied, SPIN_REFUSED, 1},
    {"install in a cycle", install_in_a_cycle, SPIN_REFUSED, 1},
    {"cycle", cycle, SPIN_OK, 0},
    {"no command", no_command, SPIN_NO_COMMAND, 1},
    {"set a default", set_default, SPIN_OK, 1},
    {"raise a word", raise_word, SPIN_OK, 1},
    {"raise no event", raise_nothing, SPIN_OK, 1},
    {"raise bytes", raise_bytes, SPIN_OK, 1},
    {"raise bytes again", raise_bytes, SPIN_OK, 1},
    {"begin", begin_open, SPIN_OK, 1},
    {"within before a firing", within_early, SPIN_NOT_DUE, ASKS_IN_VAIN},
    {"gave before a firing", gave_early, SPIN_NOT_DUE, ASKS_IN_VAIN},
    {"forget", forget, SPIN_OK, 0},
    {"step", step, SPIN_OK, 0},
    {"steps", steps, SPIN_OK, 0},
    {"bytes", step_bytes, SPIN_OK, 1},
    {"job", job, SPIN_OK, 1},
    {"job's step", job_step, SPIN_OK, 0},
    {"job's bytes", job_bytes, SPIN_OK, 1},
    {"later", later, SPIN_OK, 1},
    {"the later job", job, SPIN_OK, 1},
    {"the later job again", job, SPIN_OK, 1},
    {"remove", remove_one, SPIN_OK, 1},
    {"replace", replace, SPIN_OK, 1},
    {"no default", no_default, SPIN_OK, 1},
    {"gather with a seat out", gather, SPIN_OK, 0},
    {"renew with a seat out", renew, SPIN_TAKEN, 1},
    {"return", come_home, SPIN_OK, 0},
    {"gather", gather, SPIN_OK, 0},
    {"renew", renew, SPIN_OK, 1},
    {"number before", before, SPIN_OK, 0},
    {"seat again", seat, SPIN_OK, 1},
    {"raise on the renewed hub", raise_word, SPIN_OK, 1},
    {"install on the renewed hub", install_guarded, SPIN_OK, 1},
    {"close a seat", close_second, SPIN_OK, 0},
    {"renew again", renew, SPIN_OK, 1},
    {"set a default again", set_default, SPIN_OK, 1},
    {"end", end, SPIN_OK, 1},
    {"row", row_at, SPIN_OK, 0},
    {"raise on what was ended", raise_bytes, SPIN_HUB_ENDED, 1},
    {"begin on what was ended", begin_ended, SPIN_HUB_ENDED, ASKS_IN_VAIN},
    {"begin on a closed handle", begin_closed, SPIN_CLOSED, ASKS_IN_VAIN},
    {"cause", cause, SPIN_TOO_SMALL, 0},
    {"fault", fault, SPIN_TOO_SMALL, 0},
    {"close", close_first, SPIN_OK, 0},
};

enum { CALLS = sizeof calls / sizeof *calls };

/* What each call tells where nothing is refused. */
static struct told wanted[CALLS];

static _Noreturn void stop(const struct call *call, const char *why) {
    printf("refusing: request %ld: %s: %s\n", memory.refused, call->name, why);
    exit(1);
}

/* Makes a call, watched. What it doesn't tell is 0. */
static uint32_t make(const struct call *call, struct told *told) {
    memset(told, 0, sizeof *told);
    memory.is_refused = 0;
    memory.is_watched = 1;
    const uint32_t error = call->make(told);
    memory.is_watched = 0;
    return error;
}

/* Makes a call, and once more where it tells that there is no memory. */
static void make_or_again(const struct call *call, struct told *told) {
    static const struct told nothing;
    const void *before[HANDLES] = {lanes[0].at, lanes[1].at, lanes[2].at};
    const long made = memory.made;
    uint32_t error = make(call, told);
    if (!call->asks && memory.made != made) {
        stop(call, "it asks for memory");
    }
    if (error == SPIN_NO_MEMORY && call->asks == ASKS_IN_VAIN) {
        stop(call, "want of memory is told first");
    }
    if (error == SPIN_NO_MEMORY) {
        for (int at = 0; at < HANDLES; at++) {
            if ((before[at] == NULL) != (lanes[at].at == NULL)) {
                stop(call, "a handle is opened or closed without memory");
            }
        }
        if (!memory.is_refused || memcmp(told, &nothing, sizeof nothing) != 0) {
            stop(call, "want of memory is told where there was memory, or something besides");
        }
        error = make(call, told);
    }
    if (error != call->error) {
        stop(call, spin_error_name(error));
    }
}

/* Makes all calls, of which a request is refused, and answers whether there was one so far. */
static int run(long refused, int is_lasting) {
    memory.made = memory.held = 0;
    memory.refused = refused;
    memory.is_lasting = is_lasting;
    for (int at = 0; at < CALLS; at++) {
        struct told told;
        make_or_again(&calls[at], &told);
        if (refused == NEVER) {
            wanted[at] = told;
        } else if (memcmp(&told, &wanted[at], sizeof told) != 0) {
            stop(&calls[at], "it tells something else after a refusal");
        }
    }
    if (memory.held != 0) {
        stop(&calls[CALLS - 1], "memory is left");
    }
    return memory.made > refused;
}

int main(void) {
    long refused = 0;
    run(NEVER, 0);
    while (run(refused, 0) && run(refused, 1)) {
        refused++;
    }
    printf("refusing: %d calls bear each of %ld refusals of memory\n", CALLS, refused);
    return refused == 0;
}
