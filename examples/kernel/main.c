/* The kernel's own thread, and what becomes of traps: events. */
#include "kernel.h"

#ifdef SHORT
enum { TOUCHED = 3, REPLACED_AT = 2, WAITS_AFTER = 1 };
#else
enum { TOUCHED = 128, REPLACED_AT = 64, WAITS_AFTER = 8 };
#endif

/* Of so many visitors here one has a breakpoint behind it. */
enum { TRACED = 50 };

struct frame {
    uint64_t pushed[15], number, error, at, code, flags, stack, segment;
};

volatile uint64_t counts[COUNTERS];
static const char *const counted[COUNTERS] = {
    "ticks", "of these the watchdog heard", "seconds", "breakpoints that were traced", "pages of the first pager",
    "pages of the second", "writes that were allowed", "lines of keys", "renewals", "jobs that the idle thread did",
    "jobs that were done before a level asked anew", "calls in the midst of one of the thread's",
    "visitors who met one of the other processor's"};

static void fault(const struct frame *frame) {
    uint64_t address;
    __asm__ volatile("mov %%cr2, %0" : "=r"(address));
    const uint64_t words[] = {address >> 12, frame->error >> 1 & 1};
    if (raise(frame->error & 1 ? PROTECTION_FAULT : PAGE_NOT_PRESENT, words, 2) == 0) stop("nobody serves a fault", 5);
}

static void tick(void) {
    static bool is_replaced;
    const uint64_t count = ++counts[TICKS];
    raise(TICK, &count, 1);
    if (counts[PAGES_IN] < REPLACED_AT || is_replaced) return;
    replace_pager();
    is_replaced = true;
}

static void keys(void) {
    for (int key = read_key(); key >= 0; key = read_key()) raise(KEY, (const uint64_t[]){(uint64_t)key}, 1);
}

void trap(const struct frame *frame) {
    const enum level before = level;
    level = frame->number < 32 ? FAULTS : INTERRUPTS;
    switch (frame->number) {
    case 3: raise(BREAKPOINT, &frame->at, 1); break;
    case 14: fault(frame); break;
    case 32: tick(); break;
    case 36: keys(); break;
    default: tell("at", frame->at), stop("nobody serves trap", (uint8_t)frame->number);
    }
    if (level == INTERRUPTS) end_interrupt();
    level = before;
}

/* Does the jobs of all levels of this processor, with interrupts off, as their seats are other levels' else. */
void do_idle_jobs(void) {
    const bool were_on = interrupts_off();
    for (enum level lane = THREAD; lane <= FAULTS; lane++) counts[JOBS_IDLE] += do_jobs(lane);
    interrupts_back(were_on);
}

/* Waits for the next interrupt. */
void idle(void) {
    do_idle_jobs();
    __asm__ volatile("hlt");
}

/* Reads and writes pages, each of which faults twice; a tick replaces their pager meanwhile. */
static void touch_pages(void) {
    for (uint64_t page = REGION; page < REGION + TOUCHED; page++) {
        volatile uint64_t *at = (volatile uint64_t *)(page << 12);
        if (at[0] != page) stop("a page isn't what its pager gave", 5);
        at[1] = page;
        if (at[0] != page || at[1] != page) stop("a page doesn't keep what is written", 5);
        if (page % WAITS_AFTER == 0) idle();
    }
}

/* Visitors come and go, here and on the other processor. */
static void receive_visitors(void) {
    start_other();
    for (int visits = 0; visits < VISITS; visits++) {
        visit();
        if (visits % TRACED == 0) trace_breakpoint();
        do_idle_jobs();
        keep_room();
    }
    while (!is_other_done()) {
        keep_room();
        idle();
    }
}

void kernel(void) {
    start_machine();
    open_hub();
    bind_watchdog();
    bind_seconds();
    bind_console();
    bind_writes();
    bind_stranger();
    bind_pager();
    tell("is up, and levels are", LEVELS);
    interrupts_back(true);
    touch_pages();
    receive_visitors();
    while (counts[LINES] == 0 || counts[TICKS_HEARD] == 0 || counts[SECONDS] == 0) idle();
    interrupts_off();
    end_hub();
    for (enum counter at = 0; at < COUNTERS; at++) tell(counted[at], counts[at]);
    write_notes();
    stop("ends with", 0);
}
