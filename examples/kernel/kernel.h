/* What the files of the kernel share. */
#ifndef KERNEL_H
#define KERNEL_H

#include "spin.h"

#include <stdbool.h>

/* Who runs: the kernel's own thread, interrupts, which break into it, and faults, which break into both; and the other
 * processor, beside all of them. Each is a lane of the one hub, with a seat of its own, so no call of a seat meets
 * another one of it. */
enum level { THREAD, INTERRUPTS, FAULTS, OTHER, LEVELS };

/* The numbers of the script, kernel.spin, which boot.S has. */
enum event { TICK, KEY, PAGE_NOT_PRESENT, PROTECTION_FAULT, BREAKPOINT, SECOND, LINE, VISIT };
enum handler { PAGE_IN = 1, PAGE_IN_ELSEWHERE, ALLOW_WRITE, HEAR, ON_TO_SECOND, UPPER_CASE, ECHO, SEND_LINE, GIVE };
enum guard { NO_GUARD, EACH_FOURTH, IN_REGION, IS_LETTER, EACH_SIXTEENTH };
enum module { KERNEL, PAGERS, WATCHDOG, CONSOLE, WRITES, VISITOR, STRANGER, TRACER };
extern const char script[];

/* The pages from 0x48000000 on, which fault until a pager maps them. */
enum { REGION = 0x48000, REGION_PAGES = 512 };

/* What an extension does when a binding of its has run: on the words of the raise, of which there are two at most, and the
 * result of the handler. */
typedef void deed(const uint64_t *words, uint64_t result);

/* How many visitors each processor has. */
#ifdef SHORT
enum { VISITS = 1 };
#else
enum { VISITS = 2500 };
#endif

/* What is counted, and told at the end. */
enum counter { TICKS, TICKS_HEARD, SECONDS, BREAKPOINTS, PAGES_IN, PAGES_ELSEWHERE, WRITES_ALLOWED, LINES, RENEWALS,
               JOBS_IDLE, JOBS_LATE, CALLS_MET, VISITS_MET, COUNTERS };
extern volatile uint64_t counts[COUNTERS];

/* memory.S */
void *memcpy(void *to, const void *from, size_t count);
void *memset(void *to, int value, size_t count);
size_t strlen(const char *text);

/* machine.c */
void start_machine(void);
bool interrupts_off(void);
void interrupts_back(bool were_on);
void put(const char *bytes, size_t length);
void put_number(uint64_t number);
void tell(const char *what, uint64_t number);
int read_key(void);
void end_interrupt(void);
void map_page(uint64_t page, uint64_t frame, bool is_writable);
void allow_write(uint64_t page);
_Noreturn void stop(const char *why, uint8_t status);

/* main.c */
void do_idle_jobs(void);
void idle(void);

/* hub.c: the seats, and what is bound, whatever number a renewal gives it. */
struct bound;
void open_hub(void);
void end_hub(void);
struct bound *bind(const struct spin_command_words *wanted, deed *run);
void unbind(struct bound *bound);
void rebind(struct bound *bound, enum handler handler, deed *run);
deed *deed_of(const struct spin_step *step);
void visit(void);
bool has_room(void);
void keep_room(void);
void leave_seat(enum level lane);
struct spin_lane *seat(enum level lane);
void must(uint32_t error);

/* calls.c: raises, and the jobs that these leave. */
extern volatile enum level level;
enum level begin(void);
void end(enum level lane, uint32_t error);
size_t raise(enum event event, const uint64_t *words, size_t count);
void raise_line(const char *line, size_t length);
size_t do_jobs(enum level lane);
void do_late_jobs(enum level lane);

/* other.c: the second processor. */
void start_other(void);
void call_other(void);
void send_other(void);
bool is_other_done(void);

/* report.c: what is noted of a call begins with these two. */
enum { COMMANDED, RAISED, RAISED_LINE, RENEWED, JOB, ROW };
#define CALL (UINT64_MAX - 1)
#define NOTE(lane, ...) \
    note(lane, (const uint64_t[]){__VA_ARGS__}, sizeof(const uint64_t[]){__VA_ARGS__} / sizeof(uint64_t))
void note(enum level lane, const uint64_t *numbers, size_t count);
void write_notes(void);

/* The extensions, each in a file of its own. */
void bind_pager(void);
void replace_pager(void);
deed page_in_elsewhere;
void bind_watchdog(void);
void bind_seconds(void);
void bind_console(void);
void bind_writes(void);
void bind_stranger(void);
void trace_breakpoint(void);

#endif
