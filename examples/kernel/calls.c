/* Raises at any level, what the handlers that ran do then, and the jobs that a raise leaves. */
#include "kernel.h"

enum { MOST_ACTS = 8, MOST_WORDS = 2, MOST_BYTES = 64 };

/* What handlers are to do that ran, or that were left to jobs: in their order, and each on its result. */
struct acts {
    size_t count;
    struct { deed *run; uint64_t result; } of[MOST_ACTS];
    uint64_t words[MOST_WORDS];
};

/* By which calls the steps of a reply are asked for: of that to a raise, or to a job. */
struct reply {
    uint32_t (*step)(struct spin_lane *lane, uint64_t index, struct spin_step *step);
    uint32_t (*bytes)(struct spin_lane *lane, uint64_t index, void *buffer, size_t room, uint64_t *length);
};
static const struct reply OF_RAISE = {spin_lane_step, spin_lane_step_bytes};
static const struct reply OF_JOB = {spin_lane_job_step, spin_lane_job_bytes};

volatile enum level level;
static volatile bool is_thread_asking;

/* The jobs that each level's last reply leaves. A handler may be unbound by the time that its job is done. */
static struct acts left[LEVELS];

/* A level begins to ask its seat, maybe in the midst of a call of the thread's. What its last reply leaves is done
 * first, since the seat keeps that reply no longer. */
enum level begin(void) {
    uint16_t task;
    __asm__("str %0" : "=r"(task)); /* the other processor has none */
    const enum level lane = task ? level : OTHER;
    do_late_jobs(lane);
    if (lane == THREAD) is_thread_asking = true;
    else if (lane != OTHER) counts[CALLS_MET] += is_thread_asking;
    return lane;
}

void end(enum level lane, uint32_t error) {
    if (lane == THREAD) is_thread_asking = false;
    must(error);
}

static void add(struct acts *acts, deed *run) {
    if (acts->count == MOST_ACTS) stop("a raise has too many handlers", 3);
    acts->of[acts->count].result = 0;
    acts->of[acts->count++].run = run;
}

static void do_acts(const struct acts *acts) {
    for (size_t at = 0; at < acts->count; at++) {
        if (acts->of[at].run) acts->of[at].run(acts->words, acts->of[at].result);
    }
}

static void send(enum level lane, const struct reply *of, uint64_t index) {
    char bytes[MOST_BYTES];
    uint64_t length;
    must(of->bytes(seat(lane), index, bytes, sizeof bytes, &length));
    put(bytes, length);
}

/* Notes a reply with its steps, sends what they send, and keeps what is to be done: now, and by jobs. */
static void follow(enum level lane, const struct reply *of, const struct spin_answer *answer, struct acts *now) {
    struct spin_step step;
    NOTE(lane, answer->place, answer->kind, answer->value);
    for (uint64_t index = 0; index < answer->steps; index++) {
        must(of->step(seat(lane), index, &step));
        NOTE(lane, step.kind, step.event, step.number, step.answer, step.value, step.length);
        if (step.kind == SPIN_RUN) add(now, deed_of(&step));
        if (step.kind == SPIN_JOB) add(&left[lane], deed_of(&step));
        if (step.kind == SPIN_RESULT) now->of[now->count - 1].result = step.value;
        if (step.kind == SPIN_SEND) send(lane, of, index);
    }
}

/* Raises an event with words, and answers how many handlers ran. */
size_t raise(enum event event, const uint64_t *words, size_t count) {
    struct spin_answer answer;
    struct acts now = {0};
    const enum level lane = begin();
    if (count > MOST_WORDS) stop("a raise has too many words", 3);
    end(lane, spin_lane_raise(seat(lane), event, words, count, &answer));
    NOTE(lane, CALL, RAISED, event, count);
    note(lane, words, count);
    memcpy(now.words, words, count * sizeof *words);
    memcpy(left[lane].words, words, count * sizeof *words);
    follow(lane, &OF_RAISE, &answer, &now);
    do_acts(&now);
    return now.count;
}

/* Raises the event of a line with its bytes. */
void raise_line(const char *line, size_t length) {
    struct spin_answer answer;
    struct acts now = {0};
    const struct spin_arg text = spin_range(0, length);
    const enum level lane = begin();
    end(lane, spin_lane_raise_args(seat(lane), LINE, line, length, &text, 1, &answer));
    NOTE(lane, CALL, RAISED_LINE, LINE, length);
    for (size_t at = 0; at < length; at++) NOTE(lane, (uint8_t)line[at]);
    follow(lane, &OF_RAISE, &answer, &now);
    do_acts(&now);
}

/* Does the jobs that a level's last reply leaves, on what was bound at its raise, whatever is by now; and answers how many
 * there were. All are done before what they are to do, which may ask the seat anew. */
size_t do_jobs(enum level lane) {
    struct acts done = {0};
    struct spin_answer answer;
    const size_t count = left[lane].count;
    for (uint64_t index = 0; index < count; index++) {
        const size_t first = done.count;
        must(spin_lane_job(seat(lane), index, &answer));
        NOTE(lane, CALL, JOB, index);
        follow(lane, &OF_JOB, &answer, &done);
        done.of[first].run = left[lane].of[index].run;
    }
    memcpy(done.words, left[lane].words, sizeof done.words);
    left[lane].count = 0;
    do_acts(&done);
    return count;
}

/* Does them where the kernel didn't idle before. Any level may count that, on either processor. */
void do_late_jobs(enum level lane) {
    const size_t count = do_jobs(lane);
    if (count) __atomic_fetch_add(&counts[JOBS_LATE], count, __ATOMIC_RELAXED);
}
