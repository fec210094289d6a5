/* The second processor, which has a seat of its own and runs beside all levels of the first. It waits for nobody but where
 * the hub is renewed: then it leaves its seat, and goes on with the one that it is given behind that. */
#include "kernel.h"

static bool is_called, is_at_work, is_done;

static void set(bool *flag, bool value) { __atomic_store_n(flag, value, __ATOMIC_SEQ_CST); }

static bool get(const bool *flag) { return __atomic_load_n(flag, __ATOMIC_SEQ_CST); }

bool is_other_done(void) { return get(&is_done); }

/* Starts it, a tick after it was told to begin anew: at 0x8000, where boot.S has put its first steps. */
void start_other(void) {
    volatile uint32_t *const apic = (volatile uint32_t *)0xfee00000;
    set(&is_at_work, true);
    apic[0x310 / 4] = 1 << 24;
    apic[0x300 / 4] = 0x4500;
    idle();
    idle();
    apic[0x300 / 4] = 0x4608;
}

/* Waits until it has left its seat, which is the thread's to hand out then. */
void call_other(void) {
    set(&is_called, true);
    while (get(&is_at_work)) __asm__ volatile("pause");
}

/* It has a seat again, unless it is done. */
void send_other(void) {
    set(&is_called, false);
    set(&is_at_work, !get(&is_done));
}

static void wait_for_seat(void) {
    leave_seat(OTHER);
    set(&is_at_work, false);
    while (!get(&is_at_work)) __asm__ volatile("pause");
}

void other_processor(void) {
    for (int visits = 0; visits < VISITS; visits++) {
        if (get(&is_called) || !has_room()) wait_for_seat();
        visit();
    }
    leave_seat(OTHER);
    set(&is_done, true);
    set(&is_at_work, false);
}
