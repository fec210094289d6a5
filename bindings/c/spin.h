/* The dispatcher for C: the calls of the static library of crates/spin_c, and what stands before them.
 *
 * Every call answers SPIN_OK or the number of an error, whose name spin_error_name tells. What is proved of the calls
 * themselves is said in crates/spin_c/README.md. The inline functions here are C, of which nothing is proved: they test
 * for null, which the proved calls can't be handed, and for numbers that have no room in a call, which C would cut, and
 * else pass on what they are handed.
 *
 * Left to C is what no call can test:
 * - a pointer that isn't null leads to memory that is as long as its length says, and that nothing else writes
 *   meanwhile; what a call writes to overlaps nothing else that it is handed;
 * - a handle begins as {NULL}; one that is open isn't copied, and is given to one call at a time. It may go to another
 *   thread, which is ordered by that thread's start or join, or by a lock. Handles of one hub may be used at once, each
 *   on a thread of its own;
 * - the calls are made on the stack of a thread, and not from a signal handler;
 * - malloc, realloc and free are those of one allocator.
 *
 * Each call below says whether it asks for memory. One that asks for none never answers SPIN_NO_MEMORY. One that does
 * answers it where there was none, and not in place of SPIN_NO_LANE, SPIN_TAKEN, SPIN_SHARED, SPIN_HUB_ENDED or
 * SPIN_NO_COMMAND; a handle is as it was then, but that its seat may know of more commands.
 */
#ifndef SPIN_H
#define SPIN_H

#include <stddef.h>
#include <stdint.h>

#ifdef __cplusplus
extern "C" {
#endif

/* What spin_version answers of the library whose calls these are. */
#define SPIN_VERSION 2

enum spin_error {
    SPIN_OK = 0,
    SPIN_NO_MEMORY = 1,    /* there was no memory */
    SPIN_BAD_SCRIPT = 2,   /* the text is no script: its first bad line, and the cause, are told */
    SPIN_NO_HISTORY = 3,   /* the report isn't that of a history of the script */
    SPIN_CLOSED = 4,       /* the handle is closed */
    SPIN_OPEN = 5,         /* the handle is open already */
    SPIN_NO_COMMAND = 6,   /* the row stands for no command */
    SPIN_FULL = 7,         /* the log has as many commands as it holds, or an install would leave none to get out by */
    SPIN_REFUSED = 8,      /* the command is refused: its place, and the number of the refusal, are told */
    SPIN_NO_REPLY = 9,     /* no reply is kept: nothing was raised yet, or a command or a renewal was done since */
    SPIN_NO_STEP = 10,     /* the reply has no step of that index */
    SPIN_TOO_SMALL = 11,   /* what is handed out doesn't fit the buffer, or one of several; how long it is is told */
    SPIN_NO_ARGUMENT = 12, /* an argument is neither a word nor a range within the bytes: nothing is done */
    SPIN_NO_LANE = 13,     /* no hub has so many lanes, or the hub no such lane; or this is, or isn't, its opener */
    SPIN_TAKEN = 14,       /* the seat of the lane is out; or some seat is, so the hub is neither renewed nor ended */
    SPIN_NO_BINDING = 15,  /* the last renewal numbered no such binding, or the last cycle has none */
    SPIN_BAD_CAPTURE = 16, /* the bytes are refused as a capture: the record, and the number of the fault, are told */
    SPIN_SHARED = 17,      /* a raise is open on the hub, or a handle whose seat came home is still being closed */
    SPIN_NO_JOB = 18,      /* the reply leaves no job of that index */
    SPIN_HUB_ENDED = 19,   /* the hub was ended: its handle tells rows, and is closed */
    SPIN_NO_ROW = 20,      /* the log has no row of that index, or the hub wasn't ended */
    SPIN_NO_TEXT = 21,     /* there is no cause, or no fault, of that number */
    SPIN_NOT_RAISED = 22,  /* the raise isn't opened: the place, and as a spin_kind why, are told */
    SPIN_NOT_DUE = 23,     /* no firing waits for its answer */
    SPIN_DOWNWARD = 24,    /* only a greater event is raised from within */
    SPIN_GIFT_REFUSED = 25, /* what the handler gave is refused: the number of the fault is told, a spin_gift_fault */
    SPIN_NULL = 100,       /* a pointer is null that may not be */
    SPIN_SAME = 101,       /* one handle is handed in as two */
    SPIN_WIDE = 102        /* a number has no room in what it is handed to: nothing is asked */
};

/* Where a text is no script, or a capture is refused, and why; zeros where nothing is told. */
struct spin_fault {
    uint32_t line;  /* the first bad line, counted from 1; 0 where the text is too large. Of a capture that is refused
                       its record, counted from 1; 0 where it is the header */
    uint32_t cause; /* the number of the cause, or of the capture's fault, as docs/FORMATS.md has them */
};

/* A send of a run: `length` bytes from `at` on of all that are sent, to the endpoint of that number. */
struct spin_sending {
    uint64_t endpoint, at, length;
};

/* How much a run hands out, and why it doesn't run; zeros where nothing is told. */
struct spin_ran {
    uint64_t report;      /* how many bytes the report has */
    uint64_t sends;       /* how many sends there are */
    uint64_t bytes;       /* how many bytes are sent */
    uint32_t line, cause; /* as a spin_fault has them */
};

/* A handle: a seat of a hub over a script; closed where it is {NULL}. A hub has a seat for each lane. Its opener, the
 * handle with which it was opened, has that of lane 0 and hands the others out; each that comes home may go out again.
 * The last handle that is closed frees the hub. */
struct spin_lane {
    void *at;
};

/* The kinds of answers to a raise; from SPIN_UNKNOWN_EVENT to SPIN_TOO_MANY_HANDLERS there is none. */
enum spin_kind {
    SPIN_NO_HANDLER = 0,       /* no binding ran, and there is no default */
    SPIN_DONE = 1,             /* bindings ran, and gave no result */
    SPIN_VALUE = 2,            /* bindings ran; the value is told */
    SPIN_DEFAULT_VALUE = 3,    /* the default ran; its result is told */
    SPIN_DEFAULT = 4,          /* the default ran, and gave no result */
    SPIN_UNKNOWN_EVENT = 5,    /* there is no event of that number */
    SPIN_WRONG_ARGUMENTS = 6,  /* the arguments don't fit the event */
    SPIN_TOO_MANY_HANDLERS = 7, /* more than 4096 handlers would start: nothing is done */
    SPIN_QUEUED = 8             /* the raise is left to a job, job 0 of the reply */
};

/* What a call of a handle tells besides its number; zeros where nothing is told. */
struct spin_answer {
    uint32_t place; /* the number of commands that were accepted up to the answer; of a bad script its first bad line */
    uint32_t kind;  /* the kind of an answer to a raise; the number of a refusal; of a bad script the cause */
    uint64_t value; /* the value of an answer to a raise, where it has one; the rule of a refusal by one */
    uint64_t steps; /* the number of steps of a raise; of a conflict how many bindings are in its cycle */
};

/* The kinds of steps of a reply. */
enum spin_step_kind {
    SPIN_RUN = 1,     /* the handler of binding `number` of `event` runs, 0 being the default; its steps follow */
    SPIN_RESULT = 2,  /* the act gives the result `value` */
    SPIN_SEND = 3,    /* the act sends `length` bytes to endpoint `number` */
    SPIN_UP = 4,      /* a raise upwards of `event` begins; its steps follow */
    SPIN_BACK = 5,    /* the last raise upwards that hasn't ended ends: `answer` is its spin_kind, `value` its value */
    SPIN_DROPPED = 6, /* the act drops a packet: `number` is that of the fault of its headers */
    SPIN_JOB = 7,     /* the handler of binding `number` of `event` is left to a job */
    SPIN_END = 8,     /* of an open raise: the innermost one that the host opened ends, and `number` are open around it */
    SPIN_SPENT = 9    /* of an open raise: 4096 handlers have started, and one more is next */
};

/* A step of a reply. What its kind doesn't have is 0. */
struct spin_step {
    uint32_t kind, event, number, answer;
    uint64_t value, length;
};

/* An argument: a word, which is `at`; or `length` bytes from `at` on of those that are handed in beside it. */
enum spin_argument_kind { SPIN_WORD = 0, SPIN_BYTES = 1 };
struct spin_arg {
    uint64_t kind, at, length;
};

/* A command as four words, by the table of crates/spin_word/src/row.rt. */
struct spin_row {
    uint64_t a, b, c, d;
};

/* An open raise: one whose firings the host is told one by one, and answers. Closed where it is {NULL}; one that has no
 * raise open may hold room, which the next raise takes over. It is no part of the lane's handle: it has its own share of
 * the hub and of the bindings at its place, so commands, other raises and the lane's close leave it as it is. A hub is
 * neither renewed nor ended while a raise is open on it: that is SPIN_SHARED. */
struct spin_raising {
    void *at;
};

/* The kinds of what a host's own handler gives. */
enum spin_gift_kind {
    SPIN_GIVES_RESULT = 0, /* the result `at` */
    SPIN_GIVES_WORD = 1,   /* argument `index` becomes the word `at` */
    SPIN_GIVES_BYTES = 2,  /* argument `index` becomes `length` bytes from `at` on of those handed in */
    SPIN_GIVES_SEND = 3    /* endpoint `index` is sent those bytes */
};
struct spin_gift {
    uint64_t kind, index, at, length;
};

/* Why what a host's own handler gives is refused. Of several the first is told. */
enum spin_gift_fault {
    SPIN_GIFT_APART = 1,     /* what runs apart gives the raise nothing */
    SPIN_GIFT_NO_RESULT = 2, /* the event gives no result */
    SPIN_GIFT_NO_FILTER = 3, /* only a filter changes arguments */
    SPIN_GIFT_NO_ARGUMENT = 4, /* there is no argument of that number */
    SPIN_GIFT_KIND = 5,      /* a word is put in the place of bytes, or the reverse */
    SPIN_GIFT_FIXED = 6      /* the argument may not be changed */
};

/* The calls as they are proved. A pointer with a length may not be null, nor may any other. */
uint32_t spin_version(void);
uint32_t spin_check(const uint8_t *text, size_t text_length, const uint8_t *report, size_t report_length,
                    const uint8_t *standing, size_t standing_length, struct spin_fault *fault);
uint32_t spin_check_packets(const uint8_t *text, size_t text_length, const uint8_t *packets, size_t packets_length,
                            const uint8_t *report, size_t report_length, const uint8_t *standing,
                            size_t standing_length, struct spin_fault *fault);
uint32_t spin_run_text(const uint8_t *text, size_t text_length, const uint8_t *packets, size_t packets_length,
                       const uint8_t *standing, size_t standing_length, uint32_t has_packets, uint8_t *report,
                       size_t report_room, struct spin_sending *sends, size_t sends_room, uint8_t *bytes,
                       size_t bytes_room, struct spin_ran *ran);

uint32_t spin_open(const uint8_t *text, size_t text_length, struct spin_lane *lane, struct spin_answer *answer);
uint32_t spin_open_lanes(const uint8_t *text, size_t text_length, uint8_t lanes, struct spin_lane *lane,
                         struct spin_answer *answer);
uint32_t spin_seat(struct spin_lane *lane, uint8_t number, struct spin_lane *seat);
uint32_t spin_raise_words(struct spin_lane *lane, uint8_t event, const uint64_t *words, size_t count,
                          struct spin_answer *answer);
uint32_t spin_raise(struct spin_lane *lane, uint8_t event, const uint8_t *bytes, size_t length,
                    const struct spin_arg *args, size_t count, struct spin_answer *answer);
uint32_t spin_later(struct spin_lane *lane, uint8_t event, const uint8_t *bytes, size_t length,
                    const struct spin_arg *args, size_t count, struct spin_answer *answer);
uint32_t spin_step(struct spin_lane *lane, uint64_t index, struct spin_step *step);
uint32_t spin_steps(struct spin_lane *lane, uint64_t from, struct spin_step *steps, size_t room, uint64_t *count);
uint32_t spin_step_bytes(struct spin_lane *lane, uint64_t index, uint8_t *buffer, size_t room, uint64_t *length);
uint32_t spin_job(struct spin_lane *lane, uint64_t index, struct spin_answer *answer);
uint32_t spin_job_step(struct spin_lane *lane, uint64_t index, struct spin_step *step);
uint32_t spin_job_bytes(struct spin_lane *lane, uint64_t index, uint8_t *buffer, size_t room, uint64_t *length);
uint32_t spin_command(struct spin_lane *lane, const struct spin_row *row, struct spin_answer *answer);
uint32_t spin_cycle(struct spin_lane *lane, uint64_t index, struct spin_answer *answer);
uint32_t spin_return(struct spin_lane *lane, struct spin_answer *answer);
uint32_t spin_gather(struct spin_lane *lane, struct spin_answer *answer);
uint32_t spin_renew(struct spin_lane *lane, struct spin_answer *answer);
uint32_t spin_before(struct spin_lane *lane, uint64_t index, struct spin_answer *answer);
uint32_t spin_end(struct spin_lane *lane, struct spin_answer *answer);
uint32_t spin_row_at(struct spin_lane *lane, uint64_t index, struct spin_row *row);
uint32_t spin_close(struct spin_lane *lane, struct spin_answer *answer);

uint32_t spin_begin(struct spin_lane *lane, struct spin_raising *raising, const uint8_t *bytes, size_t length,
                    const struct spin_arg *args, size_t count, uint8_t event, struct spin_answer *answer);
uint32_t spin_within(struct spin_raising *raising, uint8_t event, const uint8_t *bytes, size_t length,
                     const struct spin_arg *args, size_t count, struct spin_answer *answer);
uint32_t spin_next(struct spin_raising *raising, struct spin_step *step);
uint32_t spin_argument(struct spin_raising *raising, uint64_t index, uint8_t *buffer, size_t room,
                       struct spin_arg *arg);
uint32_t spin_do(struct spin_raising *raising, struct spin_answer *answer);
uint32_t spin_given(struct spin_raising *raising, uint64_t index, struct spin_step *step);
uint32_t spin_given_bytes(struct spin_raising *raising, uint64_t index, uint8_t *buffer, size_t room,
                          uint64_t *length);
uint32_t spin_gave(struct spin_raising *raising, const uint8_t *bytes, size_t length, const struct spin_gift *gifts,
                   size_t count, struct spin_answer *answer);
uint32_t spin_declined(struct spin_raising *raising);
uint32_t spin_abandon(struct spin_raising *raising);
uint32_t spin_forget(struct spin_raising *raising);

uint32_t spin_cause_text(uint32_t cause, uint8_t *buffer, size_t room, uint64_t *length);
uint32_t spin_fault_text(uint32_t fault, uint8_t *buffer, size_t room, uint64_t *length);

/* Bytes that are handed in: null stands for none where the length is 0. */
static inline const uint8_t *spin_bytes(const void *at, size_t length) {
    return at == NULL && length == 0 ? (const uint8_t *)"" : (const uint8_t *)at;
}

/* What is written to: null stands for a buffer without room, and nothing goes to what stands for it. */
static inline void *spin_room(void *at, size_t room, void *none) { return at == NULL && room == 0 ? none : at; }

/* Whether a report is that of one legal history of a script, which has no capture. `standing` has the names of the
 * endpoints that stood, with blanks between them. SPIN_OK is yes, and SPIN_NO_HISTORY no. It asks for memory. */
static inline uint32_t spin_judge(const void *text, size_t text_length, const void *report, size_t report_length,
                                  const void *standing, size_t standing_length, struct spin_fault *fault) {
    const uint8_t *texts[3] = {spin_bytes(text, text_length), spin_bytes(report, report_length),
                               spin_bytes(standing, standing_length)};
    if (texts[0] == NULL || texts[1] == NULL || texts[2] == NULL || fault == NULL) {
        return SPIN_NULL;
    }
    return spin_check(texts[0], text_length, texts[1], report_length, texts[2], standing_length, fault);
}

/* Whether a report is that of one legal history of a script with a capture, which is handed in as its bytes, and else
 * as spin_judge. SPIN_BAD_CAPTURE says that it is refused; the script is one then. It asks for memory. */
static inline uint32_t spin_judge_packets(const void *text, size_t text_length, const void *packets,
                                          size_t packets_length, const void *report, size_t report_length,
                                          const void *standing, size_t standing_length, struct spin_fault *fault) {
    const uint8_t *texts[4] = {spin_bytes(text, text_length), spin_bytes(packets, packets_length),
                               spin_bytes(report, report_length), spin_bytes(standing, standing_length)};
    if (texts[0] == NULL || texts[1] == NULL || texts[2] == NULL || texts[3] == NULL || fault == NULL) {
        return SPIN_NULL;
    }
    return spin_check_packets(texts[0], text_length, texts[1], packets_length, texts[2], report_length, texts[3],
                              standing_length, fault);
}

/* The buffers of a caller for what a run hands out, each with how much it has room for; null where that is 0. */
struct spin_buffers {
    void *report;
    size_t report_room;
    struct spin_sending *sends;
    size_t sends_room;
    void *bytes;
    size_t bytes_room;
};

/* Runs a script whole: each segment lane after lane, and the jobs of each deed at once. A capture is handed in as its
 * bytes; null packets of length 0 are none, and then there is no capture. To the fronts of the buffers go the report of
 * one legal history of the script, what its endpoints receive in it, those whose names are in `standing`, with blanks
 * between them, and the bytes of these sends, one behind another; how much each is is told. Where a buffer has too little
 * room, SPIN_TOO_SMALL tells the same, and all stay as they were: the run is made again then, in larger ones. It asks for
 * memory, and makes no thread. */
static inline uint32_t spin_run(const void *text, size_t text_length, const void *packets, size_t packets_length,
                                const void *standing, size_t standing_length, const struct spin_buffers *buffers,
                                struct spin_ran *ran) {
    struct spin_sending no_send[1] = {{0, 0, 0}};
    uint8_t no_byte[2] = {0, 0};
    if (buffers == NULL || ran == NULL) {
        return SPIN_NULL;
    }
    const uint8_t *texts[3] = {spin_bytes(text, text_length), spin_bytes(packets, packets_length),
                               spin_bytes(standing, standing_length)};
    uint8_t *report = (uint8_t *)spin_room(buffers->report, buffers->report_room, &no_byte[0]);
    uint8_t *bytes = (uint8_t *)spin_room(buffers->bytes, buffers->bytes_room, &no_byte[1]);
    struct spin_sending *sends = (struct spin_sending *)spin_room(buffers->sends, buffers->sends_room, no_send);
    if (texts[0] == NULL || texts[1] == NULL || texts[2] == NULL || report == NULL || sends == NULL || bytes == NULL) {
        return SPIN_NULL;
    }
    return spin_run_text(texts[0], text_length, texts[1], packets_length, texts[2], standing_length, packets != NULL,
                         report, buffers->report_room, sends, buffers->sends_room, bytes, buffers->bytes_room, ran);
}

/* Opens a closed handle over a script: what it declares, with nothing bound. It asks for memory. */
static inline uint32_t spin_lane_open(struct spin_lane *lane, const void *text, size_t length,
                                      struct spin_answer *answer) {
    const uint8_t *bytes = spin_bytes(text, length);
    if (bytes == NULL || lane == NULL || answer == NULL) {
        return SPIN_NULL;
    }
    return spin_open(bytes, length, lane, answer);
}

/* Opens a closed handle over a script with a hub of so many lanes, 1 to 8. The handle is the hub's opener, at which the
 * seats of the other lanes wait for spin_lane_seat. Another number of lanes is SPIN_NO_LANE, whatever the text is. It
 * asks for memory. */
static inline uint32_t spin_lane_open_hub(struct spin_lane *lane, uint64_t lanes, const void *text, size_t length,
                                          struct spin_answer *answer) {
    const uint8_t *bytes = spin_bytes(text, length);
    if (bytes == NULL || lane == NULL || answer == NULL) {
        return SPIN_NULL;
    }
    return lanes > UINT8_MAX ? (uint32_t)SPIN_WIDE : spin_open_lanes(bytes, length, (uint8_t)lanes, lane, answer);
}

/* Hands the seat of another lane out, by the hub's opener, to a closed handle. It asks for memory. */
static inline uint32_t spin_lane_seat(struct spin_lane *lane, uint64_t number, struct spin_lane *seat) {
    if (lane == NULL || seat == NULL) {
        return SPIN_NULL;
    }
    if (lane == seat) {
        return SPIN_SAME;
    }
    return number > UINT8_MAX ? (uint32_t)SPIN_WIDE : spin_seat(lane, (uint8_t)number, seat);
}

/* Closes a handle whose seat was handed out: the seat comes home, and may go out again by spin_lane_seat. The opener is
 * SPIN_NO_LANE, and stays open. It asks for no memory. */
static inline uint32_t spin_lane_return(struct spin_lane *lane, struct spin_answer *answer) {
    if (lane == NULL || answer == NULL) {
        return SPIN_NULL;
    }
    return spin_return(lane, answer);
}

/* Takes the seats in that came home, by the hub's opener, and tells how many are still out. It asks for no memory. */
static inline uint32_t spin_lane_gather(struct spin_lane *lane, uint64_t *out) {
    if (lane == NULL || out == NULL) {
        return SPIN_NULL;
    }
    struct spin_answer answer;
    const uint32_t error = spin_gather(lane, &answer);
    *out = answer.value;
    return error;
}

/* Raises an event with words as its arguments. It asks for memory where the handle's raises haven't left enough. */
static inline uint32_t spin_lane_raise(struct spin_lane *lane, uint64_t event, const uint64_t *words, size_t count,
                                       struct spin_answer *answer) {
    static const uint64_t none[1] = {0};
    const uint64_t *given = words == NULL && count == 0 ? none : words;
    if (given == NULL || lane == NULL || answer == NULL) {
        return SPIN_NULL;
    }
    return event > UINT8_MAX ? (uint32_t)SPIN_WIDE : spin_raise_words(lane, (uint8_t)event, given, count, answer);
}

/* An argument that is a word. */
static inline struct spin_arg spin_word(uint64_t word) {
    const struct spin_arg arg = {SPIN_WORD, word, 0};
    return arg;
}

/* An argument that is a range of the bytes that are handed in beside it. */
static inline struct spin_arg spin_range(uint64_t start, uint64_t length) {
    const struct spin_arg arg = {SPIN_BYTES, start, length};
    return arg;
}

/* Raises an event with these arguments, words and ranges of these bytes. It asks for memory. */
static inline uint32_t spin_lane_raise_args(struct spin_lane *lane, uint64_t event, const void *bytes, size_t length,
                                            const struct spin_arg *args, size_t count, struct spin_answer *answer) {
    static const struct spin_arg none[1] = {{SPIN_WORD, 0, 0}};
    const struct spin_arg *given = args == NULL && count == 0 ? none : args;
    const uint8_t *at = spin_bytes(bytes, length);
    if (at == NULL || given == NULL || lane == NULL || answer == NULL) {
        return SPIN_NULL;
    }
    return event > UINT8_MAX ? (uint32_t)SPIN_WIDE
                             : spin_raise(lane, (uint8_t)event, at, length, given, count, answer);
}

/* Leaves a raise of an event with these arguments to a job, as a script's `later` does: the answer is SPIN_QUEUED, or
 * that of a raise that is refused, and spin_lane_job does job 0. It asks for memory. */
static inline uint32_t spin_lane_later(struct spin_lane *lane, uint64_t event, const void *bytes, size_t length,
                                       const struct spin_arg *args, size_t count, struct spin_answer *answer) {
    static const struct spin_arg none[1] = {{SPIN_WORD, 0, 0}};
    const struct spin_arg *given = args == NULL && count == 0 ? none : args;
    const uint8_t *at = spin_bytes(bytes, length);
    if (at == NULL || given == NULL || lane == NULL || answer == NULL) {
        return SPIN_NULL;
    }
    return event > UINT8_MAX ? (uint32_t)SPIN_WIDE
                             : spin_later(lane, (uint8_t)event, at, length, given, count, answer);
}

/* Tells the step at an index, counted from 0, of the reply to the last raise. It is kept until the next raise, and the
 * next row that stands for a command, or a renewal. It asks for no memory. */
static inline uint32_t spin_lane_step(struct spin_lane *lane, uint64_t index, struct spin_step *step) {
    if (lane == NULL || step == NULL) {
        return SPIN_NULL;
    }
    return spin_step(lane, index, step);
}

/* Tells the steps from an index on by one call, each as spin_lane_step does: as many as have room go to the front of
 * `steps`, null standing for no room, and it is told how many. It answers as spin_lane_step of that index, and asks for no
 * memory. */
static inline uint32_t spin_lane_steps(struct spin_lane *lane, uint64_t from, struct spin_step *steps, size_t room,
                                       uint64_t *count) {
    struct spin_step none[1] = {{0, 0, 0, 0, 0, 0}};
    struct spin_step *at = (struct spin_step *)spin_room(steps, room, none);
    if (at == NULL || lane == NULL || count == NULL) {
        return SPIN_NULL;
    }
    return spin_steps(lane, from, at, room, count);
}

/* Copies the bytes that such a step sends into a buffer, null standing for one of no bytes, and tells how many. It asks
 * for memory. */
static inline uint32_t spin_lane_step_bytes(struct spin_lane *lane, uint64_t index, void *buffer, size_t room,
                                            uint64_t *length) {
    uint8_t none[1] = {0};
    uint8_t *at = buffer == NULL && room == 0 ? none : (uint8_t *)buffer;
    if (at == NULL || lane == NULL || length == NULL) {
        return SPIN_NULL;
    }
    return spin_step_bytes(lane, index, at, room, length);
}

/* Does the job at an index, counted from 0, of those that the reply to the last raise leaves, as its steps tell them in
 * order. It is done on the bindings at the place of that raise, whatever was bound since, and its answer is told as a
 * raise's. A job may be done again, and answers the same. It asks for memory. */
static inline uint32_t spin_lane_job(struct spin_lane *lane, uint64_t index, struct spin_answer *answer) {
    if (lane == NULL || answer == NULL) {
        return SPIN_NULL;
    }
    return spin_job(lane, index, answer);
}

/* Tells the step at an index of the reply to the last job, which is kept beside that to the raise, and as long as it.
 * SPIN_NO_REPLY says that no job of it was done. It asks for no memory. */
static inline uint32_t spin_lane_job_step(struct spin_lane *lane, uint64_t index, struct spin_step *step) {
    if (lane == NULL || step == NULL) {
        return SPIN_NULL;
    }
    return spin_job_step(lane, index, step);
}

/* Copies the bytes that such a step sends, as spin_lane_step_bytes does. It asks for memory. */
static inline uint32_t spin_lane_job_bytes(struct spin_lane *lane, uint64_t index, void *buffer, size_t room,
                                           uint64_t *length) {
    uint8_t none[1] = {0};
    uint8_t *at = buffer == NULL && room == 0 ? none : (uint8_t *)buffer;
    if (at == NULL || lane == NULL || length == NULL) {
        return SPIN_NULL;
    }
    return spin_job_bytes(lane, index, at, room, length);
}

/* Renews a hub all of whose seats are its opener's or home, by the opener: it goes on over a new log, so that its
 * bindings may change again, and nothing is lost that is bound. The live bindings are numbered anew, from 1 on in the
 * order of their numbers. SPIN_TAKEN comes where a seat is out. It asks for memory. */
static inline uint32_t spin_lane_renew(struct spin_lane *lane, struct spin_answer *answer) {
    if (lane == NULL || answer == NULL) {
        return SPIN_NULL;
    }
    return spin_renew(lane, answer);
}

/* Tells which number the binding of this number had before the last renewal. It asks for no memory. */
static inline uint32_t spin_lane_number_before(struct spin_lane *lane, uint64_t number, uint64_t *before) {
    if (lane == NULL || before == NULL) {
        return SPIN_NULL;
    }
    struct spin_answer answer;
    const uint32_t error = spin_before(lane, number - 1, &answer);
    *before = answer.value;
    return error;
}

/* Ends a hub all of whose seats are its opener's or home, by the opener, and tells how many rows its log has: the
 * commands that were accepted since it was opened or renewed, which with all that was answered are one history.
 * SPIN_TAKEN comes where a seat is out. It asks for memory. */
static inline uint32_t spin_lane_end(struct spin_lane *lane, uint64_t *rows) {
    if (lane == NULL || rows == NULL) {
        return SPIN_NULL;
    }
    struct spin_answer answer;
    const uint32_t error = spin_end(lane, &answer);
    *rows = answer.value;
    return error;
}

/* Tells the row at an index, counted from 0, of the log of a hub that was ended. It asks for no memory. */
static inline uint32_t spin_lane_row_at(struct spin_lane *lane, uint64_t index, struct spin_row *row) {
    if (lane == NULL || row == NULL) {
        return SPIN_NULL;
    }
    return spin_row_at(lane, index, row);
}

/* Closes a handle; a seat that was handed out comes home. It asks for no memory. */
static inline uint32_t spin_lane_close(struct spin_lane *lane, struct spin_answer *answer) {
    if (lane == NULL || answer == NULL) {
        return SPIN_NULL;
    }
    return spin_close(lane, answer);
}

/* Opens a raise of an event with these arguments on the bindings at the end of the log, whose place is told, in a
 * handle that has none open: SPIN_OPEN says that it has one, and then come SPIN_NO_ARGUMENT, SPIN_CLOSED and
 * SPIN_HUB_ENDED of the lane, and SPIN_NOT_RAISED. The reply to the lane's last raise is kept. It asks for memory where
 * the last raise of this handle left too little room. */
static inline uint32_t spin_lane_begin(struct spin_lane *lane, struct spin_raising *raising, uint64_t event,
                                       const void *bytes, size_t length, const struct spin_arg *args, size_t count,
                                       struct spin_answer *answer) {
    static const struct spin_arg none[1] = {{SPIN_WORD, 0, 0}};
    const struct spin_arg *given = args == NULL && count == 0 ? none : args;
    const uint8_t *at = spin_bytes(bytes, length);
    if (at == NULL || given == NULL || lane == NULL || raising == NULL || answer == NULL) {
        return SPIN_NULL;
    }
    return event > UINT8_MAX ? (uint32_t)SPIN_WIDE
                             : spin_begin(lane, raising, at, length, given, count, (uint8_t)event, answer);
}

/* Opens another raise between a firing and its answer, on the same bindings, of a greater event. SPIN_CLOSED,
 * SPIN_NO_ARGUMENT, SPIN_NOT_DUE, SPIN_NOT_RAISED and SPIN_DOWNWARD say in this order why not, and nothing is changed
 * then. It asks for memory where there is too little room. */
static inline uint32_t spin_raising_within(struct spin_raising *raising, uint64_t event, const void *bytes,
                                           size_t length, const struct spin_arg *args, size_t count,
                                           struct spin_answer *answer) {
    static const struct spin_arg none[1] = {{SPIN_WORD, 0, 0}};
    const struct spin_arg *given = args == NULL && count == 0 ? none : args;
    const uint8_t *at = spin_bytes(bytes, length);
    if (at == NULL || given == NULL || raising == NULL || answer == NULL) {
        return SPIN_NULL;
    }
    return event > UINT8_MAX ? (uint32_t)SPIN_WIDE
                             : spin_within(raising, (uint8_t)event, at, length, given, count, answer);
}

/* Tells what comes next, as a step: SPIN_RUN, a firing is due, which is told again until it is answered: `value` is its
 * handler, `answer` its spin_mode; SPIN_UP, a raise upwards that an act asked for begins, and SPIN_BACK, it ended;
 * SPIN_END, the innermost raise that the host opened ended with that answer, and where `number` is 0 none is open any
 * more; SPIN_SPENT, it can only be abandoned. It asks for memory for a raise upwards where there is too little room; where
 * there was none no raise is open any more. */
static inline uint32_t spin_raising_next(struct spin_raising *raising, struct spin_step *step) {
    return raising == NULL || step == NULL ? (uint32_t)SPIN_NULL : spin_next(raising, step);
}

/* Tells an argument of the innermost raise, as it stands: a word as SPIN_WORD, in `at`; bytes as SPIN_BYTES, with their
 * length, which are copied into the buffer, null standing for one of no bytes. SPIN_NO_ARGUMENT says that there is none
 * of that index. It asks for memory for bytes where there is too little room. */
static inline uint32_t spin_raising_argument(struct spin_raising *raising, uint64_t index, void *buffer, size_t room,
                                             struct spin_arg *arg) {
    uint8_t none[1] = {0};
    uint8_t *at = buffer == NULL && room == 0 ? none : (uint8_t *)buffer;
    if (at == NULL || raising == NULL || arg == NULL) {
        return SPIN_NULL;
    }
    return spin_argument(raising, index, at, room, arg);
}

/* The declared act of what is due is done, or it is left to a job where it runs apart; how many things that gave is told
 * as the steps. It asks for memory; where there was none no raise is open any more. */
static inline uint32_t spin_raising_do(struct spin_raising *raising, struct spin_answer *answer) {
    return raising == NULL || answer == NULL ? (uint32_t)SPIN_NULL : spin_do(raising, answer);
}

/* Tells the thing at an index, counted from 0, that the last answer gave, until spin_raising_next: first what ran, or is
 * left to a job, and then results, sends, raises upwards and dropped packets in order. It asks for no memory. */
static inline uint32_t spin_raising_given(struct spin_raising *raising, uint64_t index, struct spin_step *step) {
    return raising == NULL || step == NULL ? (uint32_t)SPIN_NULL : spin_given(raising, index, step);
}

/* Copies the bytes that such a thing sends into a buffer, null standing for one of no bytes, and tells how many. It asks
 * for memory where there is too little room. */
static inline uint32_t spin_raising_given_bytes(struct spin_raising *raising, uint64_t index, void *buffer,
                                                size_t room, uint64_t *length) {
    uint8_t none[1] = {0};
    uint8_t *at = buffer == NULL && room == 0 ? none : (uint8_t *)buffer;
    if (at == NULL || raising == NULL || length == NULL) {
        return SPIN_NULL;
    }
    return spin_given_bytes(raising, index, at, room, length);
}

/* The host's own handler ran in the place of what is due, and gave this: results, changes of arguments, and sends. How
 * many things that gave is told as the steps. SPIN_CLOSED, SPIN_NO_ARGUMENT, SPIN_NOT_DUE and SPIN_GIFT_REFUSED say in
 * this order why it isn't taken, and nothing is changed then. It asks for memory where there is too little room; where
 * there was none in the midst of it no raise is open any more. */
static inline uint32_t spin_raising_gave(struct spin_raising *raising, const void *bytes, size_t length,
                                         const struct spin_gift *gifts, size_t count, struct spin_answer *answer) {
    static const struct spin_gift none[1] = {{SPIN_GIVES_RESULT, 0, 0, 0}};
    const struct spin_gift *given = gifts == NULL && count == 0 ? none : gifts;
    const uint8_t *at = spin_bytes(bytes, length);
    if (at == NULL || given == NULL || raising == NULL || answer == NULL) {
        return SPIN_NULL;
    }
    return spin_gave(raising, at, length, given, count, answer);
}

/* The host's own guard didn't hold: what is due runs no handler. It asks for no memory. */
static inline uint32_t spin_raising_declined(struct spin_raising *raising) {
    return raising == NULL ? (uint32_t)SPIN_NULL : spin_declined(raising);
}

/* Ends what is open, and keeps the room. It asks for no memory. */
static inline uint32_t spin_raising_abandon(struct spin_raising *raising) {
    return raising == NULL ? (uint32_t)SPIN_NULL : spin_abandon(raising);
}

/* Closes a handle, with whatever raise is open, and frees the room. It asks for no memory. */
static inline uint32_t spin_raising_forget(struct spin_raising *raising) {
    return raising == NULL ? (uint32_t)SPIN_NULL : spin_forget(raising);
}

enum spin_op { SPIN_INSTALL = 1, SPIN_REMOVE = 2, SPIN_REPLACE = 3, SPIN_SET_DEFAULT = 4, SPIN_NO_DEFAULT = 5 };
enum spin_place { SPIN_FREE = 0, SPIN_FIRST = 1, SPIN_LAST = 2 };
enum spin_mode { SPIN_PLAIN = 0, SPIN_FILTER = 1, SPIN_ASYNC = 2 };

/* A command, which is one of the lane of the handle that does it. What its op doesn't use is 0. `before` and `after`
 * name up to four bindings each, rising, and then 0. */
struct spin_command_words {
    enum spin_op op;
    enum spin_place place;
    enum spin_mode mode;
    uint64_t event, requester, handler, guard, target, before[4], after[4];
};

/* Whether each number has room in a row. */
static inline int spin_has_room(const struct spin_command_words *c) {
    int is_wide = (unsigned)c->op >> 3 || (unsigned)c->place >> 3 || (unsigned)c->mode >> 2 || c->event >> 6 ||
                  c->requester >> 8 || c->handler >> 10 || c->guard >> 10 || c->target >> 13;
    for (int at = 0; at < 4; at++) {
        is_wide = is_wide || c->before[at] >= UINT16_MAX || c->after[at] >= UINT16_MAX;
    }
    return !is_wide;
}

/* Four numbers of bindings as one word, 65535 standing for none. */
static inline uint64_t spin_quarters(const uint64_t numbers[4]) {
    uint64_t word = 0;
    for (int at = 3; at >= 0; at--) {
        word = word << 16 | (numbers[at] == 0 ? UINT16_MAX : numbers[at]);
    }
    return word;
}

/* The row of a command, each number of which has room in it. That of its lane is 0. */
static inline struct spin_row spin_row_of(const struct spin_command_words *c) {
    const struct spin_row row = {(uint64_t)c->mode | (uint64_t)c->place << 2 | c->guard << 15 | c->handler << 25 |
                                     c->requester << 35 | c->event << 43 | (uint64_t)c->op << 53,
                                 c->target, spin_quarters(c->before), spin_quarters(c->after)};
    return row;
}

/* The lane of a row of a log. */
static inline uint64_t spin_row_lane(const struct spin_row *row) { return row->a >> 49 & 15; }

/* The command of a row of a log. */
static inline struct spin_command_words spin_row_command(const struct spin_row *row) {
    struct spin_command_words command = {(enum spin_op)(row->a >> 53 & 7), (enum spin_place)(row->a >> 2 & 7),
                                         (enum spin_mode)(row->a & 3),     row->a >> 43 & 63,
                                         row->a >> 35 & 255,               row->a >> 25 & 1023,
                                         row->a >> 15 & 1023,              row->b,
                                         {0, 0, 0, 0},                     {0, 0, 0, 0}};
    for (int at = 0; at < 4; at++) {
        const uint64_t before = row->c >> 16 * at & UINT16_MAX, after = row->d >> 16 * at & UINT16_MAX;
        command.before[at] = before == UINT16_MAX ? 0 : before;
        command.after[at] = after == UINT16_MAX ? 0 : after;
    }
    return command;
}

/* Does a command, and tells its place, which is the number, too, of the binding that it installs. SPIN_NO_COMMAND says
 * that it is none, however full the log is, and the reply to the last raise is kept then. SPIN_FULL says of an install
 * besides that with it, and one by each other lane, 4096 bindings would be live, so that after a renewal nothing could
 * be removed. It asks for memory. */
static inline uint32_t spin_lane_command(struct spin_lane *lane, const struct spin_command_words *command,
                                         struct spin_answer *answer) {
    if (lane == NULL || command == NULL || answer == NULL) {
        return SPIN_NULL;
    }
    if (!spin_has_room(command)) {
        return SPIN_WIDE;
    }
    const struct spin_row row = spin_row_of(command);
    return spin_command(lane, &row, answer);
}

/* Tells the binding at an index, counted from 0, of the cycle of the last command, where that was refused as a
 * conflict. It is kept as long as a reply. It asks for no memory. */
static inline uint32_t spin_lane_cycle(struct spin_lane *lane, uint64_t index, uint64_t *binding) {
    if (lane == NULL || binding == NULL) {
        return SPIN_NULL;
    }
    struct spin_answer answer;
    const uint32_t error = spin_cycle(lane, index, &answer);
    *binding = answer.value;
    return error;
}

/* Copies the sentence of why a script is refused, by the number of the cause, into a buffer, null standing for one of
 * no bytes, and tells how many bytes it has. It asks for no memory. */
static inline uint32_t spin_tell_cause(uint64_t cause, void *buffer, size_t room, uint64_t *length) {
    uint8_t none[1] = {0};
    uint8_t *at = buffer == NULL && room == 0 ? none : (uint8_t *)buffer;
    if (at == NULL || length == NULL) {
        return SPIN_NULL;
    }
    return cause > UINT32_MAX ? (uint32_t)SPIN_WIDE : spin_cause_text((uint32_t)cause, at, room, length);
}

/* Copies the sentence of why a capture is refused, by the number of the fault, as spin_tell_cause does. */
static inline uint32_t spin_tell_fault(uint64_t fault, void *buffer, size_t room, uint64_t *length) {
    uint8_t none[1] = {0};
    uint8_t *at = buffer == NULL && room == 0 ? none : (uint8_t *)buffer;
    if (at == NULL || length == NULL) {
        return SPIN_NULL;
    }
    return fault > UINT32_MAX ? (uint32_t)SPIN_WIDE : spin_fault_text((uint32_t)fault, at, room, length);
}

/* The name of a refusal, as reports have it, and "unknown" of any other number. */
static inline const char *spin_refusal_name(uint32_t refusal) {
    static const char *const names[] = {"unknown",         "unknown_event",   "unknown_module", "unknown_handler",
                                        "unknown_guard",   "unknown_binding", "wrong_type",     "downward",
                                        "wrong_mode",      "denied",          "too_many",       "conflict",
                                        "forced_mode"};
    return names[refusal < sizeof names / sizeof *names ? refusal : 0];
}

/* The name of an error, and "unknown" of any other number. */
static inline const char *spin_error_name(uint32_t error) {
    switch (error) {
    case SPIN_OK: return "ok";
    case SPIN_NO_MEMORY: return "no memory";
    case SPIN_BAD_SCRIPT: return "no script";
    case SPIN_NO_HISTORY: return "no history of the script";
    case SPIN_CLOSED: return "closed";
    case SPIN_OPEN: return "open";
    case SPIN_NO_COMMAND: return "no command";
    case SPIN_FULL: return "the log is full";
    case SPIN_REFUSED: return "refused";
    case SPIN_NO_REPLY: return "no reply";
    case SPIN_NO_STEP: return "no such step";
    case SPIN_TOO_SMALL: return "the buffer is too small";
    case SPIN_NO_ARGUMENT: return "no argument";
    case SPIN_NO_LANE: return "no such lane";
    case SPIN_TAKEN: return "the seat is taken";
    case SPIN_NO_BINDING: return "no such binding";
    case SPIN_BAD_CAPTURE: return "no capture";
    case SPIN_SHARED: return "the hub is shared";
    case SPIN_NO_JOB: return "no such job";
    case SPIN_HUB_ENDED: return "the hub was ended";
    case SPIN_NO_ROW: return "no such row";
    case SPIN_NO_TEXT: return "no such text";
    case SPIN_NOT_RAISED: return "not raised";
    case SPIN_NOT_DUE: return "no firing is due";
    case SPIN_DOWNWARD: return "not a greater event";
    case SPIN_GIFT_REFUSED: return "the gift is refused";
    case SPIN_NULL: return "null";
    case SPIN_SAME: return "one handle twice";
    case SPIN_WIDE: return "a number is too wide";
    default: return "unknown";
    }
}

#ifdef __cplusplus
}
#endif

#endif
