/* The one hub, with a seat for each level: extensions bind and unbind at any level, and the hub is renewed. */
#include "kernel.h"

enum { MOST_BOUND = 16, PLACES = 4096, LEAST_ROOM = 32, STAYS = 300 };

struct bound {
    struct spin_command_words install; /* what would bind it anew */
    uint64_t number;                   /* 0 where nothing is bound */
    deed *run;
};

static struct bound all_bound[MOST_BOUND];
static struct spin_lane seats[LEVELS];
static volatile uint32_t place;

struct spin_lane *seat(enum level lane) { return &seats[lane]; }

void must(uint32_t error) {
    if (error != SPIN_OK && error != SPIN_REFUSED) stop(spin_error_name(error), 3);
}

static void hand_out_seats(enum level last) {
    for (enum level lane = THREAD + 1; lane <= last; lane++) must(spin_lane_seat(&seats[THREAD], lane, &seats[lane]));
}

void open_hub(void) {
    struct spin_answer answer;
    must(spin_lane_open_hub(&seats[THREAD], LEVELS, script, strlen(script), &answer));
    hand_out_seats(OTHER);
}

/* Gives a command, and answers the place of one that is accepted, else 0. */
static uint32_t command(struct spin_command_words c) {
    struct spin_answer answer;
    const enum level lane = begin();
    const uint32_t error = spin_lane_command(&seats[lane], &c, &answer);
    end(lane, error);
    NOTE(lane, CALL, COMMANDED, answer.place, answer.kind, answer.value, c.op, c.event, c.requester, c.handler, c.guard,
         c.target, c.place, c.mode);
    if (error == SPIN_REFUSED) return 0;
    if (answer.place > place) place = answer.place;
    return answer.place;
}

/* Binds; null where that is refused. What has a deed is bound with interrupts off, so that it is known when it runs. */
struct bound *bind(const struct spin_command_words *wanted, deed *run) {
    struct bound *at = all_bound;
    const bool were_on = run && interrupts_off();
    while (at->number) at++;
    if (at == all_bound + MOST_BOUND - 1) stop("too much is bound", 3);
    *at = (struct bound){*wanted, 0, run};
    at->install.op = SPIN_INSTALL;
    at->number = command(at->install);
    interrupts_back(were_on);
    return at->number ? at : NULL;
}

static void remove_number(enum event event, enum module requester, uint64_t number) {
    const struct spin_command_words c = {.op = SPIN_REMOVE, .event = event, .requester = requester, .target = number};
    if (!command(c)) stop("what is bound doesn't go", 3);
}

void unbind(struct bound *bound) {
    remove_number(bound->install.event, bound->install.requester, bound->number);
    bound->number = 0;
}

/* Gives what is bound another handler and deed. */
void rebind(struct bound *bound, enum handler handler, deed *run) {
    bound->install.handler = handler;
    struct spin_command_words c = bound->install;
    c.op = SPIN_REPLACE;
    c.target = bound->number;
    if (!command(c)) stop("a binding isn't replaced", 3);
    bound->run = run;
}

/* A visitor binds itself, raises the event that it came for, stays for a moment, and goes. Both processors have some. Of
 * two lanes that command without a pause one may keep the other's commands from coming first. */
void visit(void) {
    const uint64_t number = command(
        (struct spin_command_words){.op = SPIN_INSTALL, .event = VISIT, .requester = VISITOR, .handler = GIVE});
    if (raise(VISIT, (const uint64_t[]){1}, 1) > 1) __atomic_fetch_add(&counts[VISITS_MET], 1, __ATOMIC_RELAXED);
    for (int turn = 0; turn < STAYS; turn++) __asm__ volatile("pause");
    remove_number(VISIT, VISITOR, number);
}

/* What the binding of a step is to do; null for nothing. */
deed *deed_of(const struct spin_step *step) {
    for (const struct bound *at = all_bound; at < all_bound + MOST_BOUND; at++) {
        if (at->number == step->number && at->install.event == step->event) return at->run;
    }
    return NULL;
}

bool has_room(void) { return PLACES - place > LEAST_ROOM; }

/* A level leaves its seat, once all is done that its last reply leaves. */
void leave_seat(enum level lane) {
    struct spin_answer answer;
    do_late_jobs(lane);
    must(spin_lane_return(&seats[lane], &answer));
}

/* Brings all seats home: with interrupts off, and where the second processor has left its own. */
static void gather_seats(void) {
    uint64_t out;
    do_late_jobs(THREAD);
    leave_seat(INTERRUPTS);
    leave_seat(FAULTS);
    must(spin_lane_gather(&seats[THREAD], &out));
    if (out) stop("seats are out still", 3);
}

/* What was bound under another number before a renewal has its new one. Both rise, and no new one is above its old. */
static void number_anew(void) {
    uint64_t before;
    for (place = 0; spin_lane_number_before(&seats[THREAD], place + 1, &before) == SPIN_OK; place++) {
        NOTE(THREAD, before);
        for (struct bound *at = all_bound; at < all_bound + MOST_BOUND; at++) {
            if (at->number == before) at->number = place + 1;
        }
    }
}

/* Where the log has little room left the thread renews the hub, while no other level runs, on either processor. */
void keep_room(void) {
    if (has_room()) return;
    struct spin_answer answer;
    call_other();
    const bool were_on = interrupts_off();
    gather_seats();
    must(spin_lane_renew(&seats[THREAD], &answer));
    for (enum level lane = THREAD; lane < LEVELS; lane++) NOTE(lane, CALL, RENEWED);
    number_anew();
    hand_out_seats(is_other_done() ? FAULTS : OTHER);
    counts[RENEWALS]++;
    interrupts_back(were_on);
    send_other();
}

/* Ends the hub, with interrupts off, and notes the rows of its last log. */
void end_hub(void) {
    struct spin_answer answer;
    struct spin_row row;
    uint64_t rows;
    gather_seats();
    must(spin_lane_end(&seats[THREAD], &rows));
    for (uint64_t at = 0; at < rows; at++) {
        must(spin_lane_row_at(&seats[THREAD], at, &row));
        const struct spin_command_words c = spin_row_command(&row);
        NOTE(THREAD, CALL, ROW, spin_row_lane(&row), c.op, c.event, c.requester, c.handler, c.guard, c.target, c.place,
             c.mode);
    }
    must(spin_lane_close(&seats[THREAD], &answer));
}
