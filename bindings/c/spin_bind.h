/* Hosts, which are seats with the raise that is open on them, and how functions are bound; spin_host.h says more. */
#ifndef SPIN_BIND_H
#define SPIN_BIND_H

#include "spin_names.h"
#include "spin_table.h"

#ifdef __cplusplus
extern "C" {
#endif

enum spin_host_error {
    SPIN_NO_NAME = 110, /* nothing has that name; the command names it by SPIN_UNNAMED */
    SPIN_STOPPED = 111, /* a function ended the raise by SPIN_STOP */
    SPIN_SPENT_ALL = 112 /* 4096 handlers have started in the raise, and one more would: the raise was abandoned */
};

/* What is told of what acts and functions gave, as the steps of a reply: `bytes` are those that a send sends. */
typedef void (*spin_step_fn)(void *self, const struct spin_step *step, const uint8_t *bytes);

/* An argument: a word, or bytes. */
struct spin_value {
    uint64_t kind, word;
    const uint8_t *bytes;
    size_t length;
};

/* An argument that is a word. */
static inline struct spin_value spin_value_word(uint64_t word) {
    const struct spin_value value = {SPIN_WORD, word, NULL, 0};
    return value;
}

/* An argument that is these bytes, which aren't copied. */
static inline struct spin_value spin_value_bytes(const void *bytes, size_t length) {
    const struct spin_value value = {SPIN_BYTES, 0, spin_bytes(bytes, length), length};
    return value;
}

/* A job that is left to the host: the function of an asynchronous binding with a copy of the arguments. */
struct spin_left {
    struct spin_function function;
    uint32_t event, number;
    struct spin_value args[SPIN_MOST_ARGUMENTS];
    size_t count;
    uint8_t *bytes;
};

/* A seat with the raise that is open on it. */
struct spin_host {
    struct spin_lane lane;
    struct spin_raising raising;
    const struct spin_declared *declared;
    uint64_t first_own; /* the handler without steps of event 0; that of event k is k more */
    struct spin_call *innermost;
    uint32_t fault; /* why the raise under way was abandoned */
    uint32_t place; /* that of the last command that was accepted */
    spin_step_fn step;
    void *step_self;
    struct spin_gift *gifts;
    size_t gift_count, gift_room;
    struct spin_buffer given; /* the bytes that gifts have */
    struct spin_buffer spare; /* room for arguments that are copied */
    struct spin_left *left;
    size_t left_count, left_room;
};

/* A firing, as a function is handed it. */
struct spin_call {
    struct spin_host *host;
    struct spin_table *table;
    uint32_t event;     /* that is raised */
    uint32_t number;    /* of the binding; 0 is the default */
    uint64_t handler;   /* that is bound */
    uint32_t mode;      /* a spin_mode; SPIN_ASYNC is a job */
    uint32_t fault_kind; /* where a gift is refused, why */
    /* the rest is for the functions here */
    const struct spin_value *args, *raised;
    size_t count, raised_count, first_gift, first_byte;
    uint32_t is_seen, is_changed, ups;
    struct spin_call *around;
    struct spin_buffer copied;
    struct spin_value copies[SPIN_MOST_ARGUMENTS];
};

/* --- Names --- */

/* The numbers of an event, a handler, a guard and a module by their names. */
static inline uint64_t spin_event_named(const struct spin_host *host, const char *name) {
    return host->declared == NULL ? SPIN_UNNAMED : spin_index_of(host->declared->events, name);
}
static inline uint64_t spin_handler_named(const struct spin_host *host, const char *name) {
    const uint64_t at = host->declared == NULL ? SPIN_UNNAMED : spin_index_of(host->declared->handlers, name);
    return at == SPIN_UNNAMED ? at : at + 1;
}
static inline uint64_t spin_guard_named(const struct spin_host *host, const char *name) {
    const uint64_t at = host->declared == NULL ? SPIN_UNNAMED : spin_index_of(host->declared->guards, name);
    return at == SPIN_UNNAMED ? at : at + 1;
}
static inline uint64_t spin_module_named(const struct spin_host *host, const char *name) {
    const char *const *modules = host->declared == NULL ? NULL : host->declared->modules;
    for (uint64_t at = 0; modules != NULL && modules[at] != NULL; at++) {
        if (strcmp(modules[at], name) == 0) {
            return at;
        }
    }
    return SPIN_UNNAMED;
}

/* --- Hosts --- */

/* Opens a host that is all zeros, as the opener of a hub of so many lanes, over a script of the host's own. Then no
 * name is known, and a command names its handler. */
static inline uint32_t spin_host_open_text(struct spin_host *host, uint64_t lanes, const void *text, size_t length,
                                           struct spin_answer *answer) {
    return host == NULL ? (uint32_t)SPIN_NULL : spin_lane_open_hub(&host->lane, lanes, text, length, answer);
}

/* Opens it over the script that declares this, which stays as it is while the host and its seats are open. */
static inline uint32_t spin_host_open(struct spin_host *host, uint64_t lanes, const struct spin_declared *declared,
                                      struct spin_answer *answer) {
    if (host == NULL || declared == NULL) {
        return SPIN_NULL;
    }
    struct spin_buffer text = {NULL, 0, 0};
    uint32_t error = spin_append_script(&text, declared);
    error = error != SPIN_OK ? error : spin_host_open_text(host, lanes, text.at, text.length, answer);
    free(text.at);
    if (error == SPIN_OK) {
        host->declared = declared;
        host->first_own = spin_count_of(declared->handlers) + 1;
    }
    return error;
}

/* Hands the seat of another lane out to a host that is all zeros, as spin_lane_seat does. */
static inline uint32_t spin_host_seat(struct spin_host *host, uint64_t number, struct spin_host *seat) {
    if (host == NULL || seat == NULL) {
        return SPIN_NULL;
    }
    const uint32_t error = spin_lane_seat(&host->lane, number, &seat->lane);
    if (error == SPIN_OK) {
        seat->declared = host->declared;
        seat->first_own = host->first_own;
    }
    return error;
}

/* Has this function told each step of the host's raises: null is none. */
static inline void spin_host_watch(struct spin_host *host, spin_step_fn step, void *self) {
    host->step = step;
    host->step_self = self;
}

/* Renews the hub, as spin_lane_renew does, and gives the functions of the table the numbers that their bindings have
 * now. SPIN_SHARED is answered within a raise, too. */
static inline uint32_t spin_host_renew(struct spin_host *host, struct spin_table *table, struct spin_answer *answer) {
    if (host == NULL || table == NULL || answer == NULL) {
        return SPIN_NULL;
    }
    if (table->raises != 0) {
        return SPIN_SHARED;
    }
    const uint32_t error = spin_lane_renew(&host->lane, answer);
    if (error != SPIN_OK) {
        return error;
    }
    /* numbers only fall, in their order, so each may be moved at once */
    uint64_t number = 1, before = 0;
    for (; number < table->room && spin_lane_number_before(&host->lane, number, &before) == SPIN_OK; number++) {
        const struct spin_function none = {NULL, NULL, NULL, NULL};
        table->bindings[number] = before < table->room ? table->bindings[before] : none;
    }
    if (number < table->room) {
        memset(table->bindings + number, 0, (table->room - number) * sizeof *table->bindings);
    }
    host->place = answer->place;
    return SPIN_OK;
}

/* Frees a job that is left. */
static inline void spin_drop_left(struct spin_host *host, size_t from) {
    for (size_t at = from; at < host->left_count; at++) {
        free(host->left[at].bytes);
    }
    host->left_count = from;
}

/* Closes a host, and says whether a raise was open on it, which is abandoned then; its functions aren't called any
 * more, and who raised is answered SPIN_CLOSED. Jobs that are left are dropped. It asks for no memory. */
static inline uint32_t spin_host_close(struct spin_host *host, int *abandoned) {
    if (host == NULL || abandoned == NULL) {
        return SPIN_NULL;
    }
    struct spin_answer answer;
    *abandoned = host->innermost != NULL && host->fault == SPIN_OK;
    (void)spin_forget(&host->raising);
    const uint32_t error = spin_lane_close(&host->lane, &answer);
    if (host->innermost != NULL) {
        host->fault = host->fault == SPIN_OK ? (uint32_t)SPIN_CLOSED : host->fault;
    }
    spin_drop_left(host, 0);
    free(host->left);
    free(host->gifts);
    free(host->given.at);
    free(host->spare.at);
    const struct spin_buffer none = {NULL, 0, 0};
    host->left = NULL;
    host->gifts = NULL;
    host->left_room = host->gift_room = host->gift_count = 0;
    host->given = host->spare = none;
    return error;
}

/* --- Binding --- */

/* The command with this op and, where it names no handler, the one without steps of its event. */
static inline struct spin_command_words spin_filled(const struct spin_host *host, const struct spin_command_words *how,
                                                    enum spin_op op) {
    struct spin_command_words words = *how;
    words.op = op;
    if (words.handler == 0 && host->declared != NULL && words.event < SPIN_MOST_EVENTS) {
        words.handler = host->first_own + words.event;
    }
    return words;
}

/* Does a command, and keeps its place. */
static inline uint32_t spin_host_command(struct spin_host *host, const struct spin_command_words *words,
                                         struct spin_answer *answer) {
    if (host == NULL || words == NULL || answer == NULL) {
        return SPIN_NULL;
    }
    const uint64_t *const named[4] = {&words->event, &words->requester, &words->handler, &words->guard};
    for (size_t at = 0; at < 4; at++) {
        if (*named[at] == SPIN_UNNAMED) {
            return SPIN_NO_NAME;
        }
    }
    const uint32_t error = spin_lane_command(&host->lane, words, answer);
    host->place = error == SPIN_OK ? answer->place : host->place;
    return error;
}

/* Installs a binding as `how` says, whose op isn't read, and enters what stands for it: the function in the place of
 * its handler's act, where it isn't null; and the host's guard, where it isn't, which is asked after the script's. A
 * handler of 0 is the one without steps that spin_host_open declares. answer->place is the binding's number. Where the
 * command is refused nothing is entered. Where there is no memory to enter it nothing is done, but that it may be
 * installed and removed again where another lane commands meanwhile. */
static inline uint32_t spin_bind(struct spin_host *host, struct spin_table *table, const struct spin_command_words *how,
                                 struct spin_function function, struct spin_answer *answer) {
    if (host == NULL || table == NULL || how == NULL || answer == NULL) {
        return SPIN_NULL;
    }
    if (spin_table_reserve(table, (size_t)host->place + 8) != SPIN_OK) {
        return SPIN_NO_MEMORY;
    }
    const struct spin_command_words words = spin_filled(host, how, SPIN_INSTALL);
    uint32_t error = spin_host_command(host, &words, answer);
    if (error != SPIN_OK) {
        return error;
    }
    error = spin_table_reserve(table, answer->place);
    if (error == SPIN_OK) {
        table->bindings[answer->place] = function;
        return SPIN_OK;
    }
    struct spin_command_words away = {SPIN_REMOVE, SPIN_FREE, SPIN_PLAIN, how->event, how->requester, 0, 0,
                                      answer->place, {0, 0, 0, 0}, {0, 0, 0, 0}};
    (void)spin_host_command(host, &away, answer);
    return error;
}

/* Does a command on what stands in the table, and then changes that. */
static inline uint32_t spin_change(struct spin_host *host, struct spin_table *table,
                                   const struct spin_command_words *words, uint32_t is_default, uint64_t number,
                                   struct spin_function to, struct spin_answer *answer) {
    if (host == NULL || table == NULL || answer == NULL) {
        return SPIN_NULL;
    }
    uint32_t error = spin_reserve_change(table);
    if (error == SPIN_OK && !is_default && number <= 4096) {
        error = spin_table_reserve(table, (size_t)number);
    }
    error = error != SPIN_OK ? error : spin_host_command(host, words, answer);
    if (error == SPIN_OK) {
        spin_change_table(table, is_default, number, to);
    }
    return error;
}

/* Removes a binding of an event, for the module that asks, and what stands for it. A raise that is under way still
 * tells it, and calls its function. */
static inline uint32_t spin_unbind(struct spin_host *host, struct spin_table *table, uint64_t event, uint64_t number,
                                   uint64_t requester, struct spin_answer *answer) {
    const struct spin_function none = {NULL, NULL, NULL, NULL};
    const struct spin_command_words words = {SPIN_REMOVE, SPIN_FREE, SPIN_PLAIN, event, requester, 0, 0, number,
                                             {0, 0, 0, 0}, {0, 0, 0, 0}};
    return spin_change(host, table, &words, 0, number, none, answer);
}

/* Gives a binding, how->target, another handler and guard, and another function. */
static inline uint32_t spin_rebind(struct spin_host *host, struct spin_table *table,
                                   const struct spin_command_words *how, struct spin_function function,
                                   struct spin_answer *answer) {
    if (host == NULL || how == NULL) {
        return SPIN_NULL;
    }
    const struct spin_command_words words = spin_filled(host, how, SPIN_REPLACE);
    return spin_change(host, table, &words, 0, how->target, function, answer);
}

/* Sets the default of an event, how->event, and its function; or takes both away, where it is neither a handler's
 * number nor a function. */
static inline uint32_t spin_bind_default(struct spin_host *host, struct spin_table *table,
                                         const struct spin_command_words *how, struct spin_function function,
                                         struct spin_answer *answer) {
    if (host == NULL || how == NULL) {
        return SPIN_NULL;
    }
    struct spin_command_words words = *how;
    words.op = SPIN_NO_DEFAULT;
    if (how->handler != 0 || !spin_is_none(&function)) {
        words = spin_filled(host, how, SPIN_SET_DEFAULT);
    }
    return spin_change(host, table, &words, 1, how->event, function, answer);
}

#ifdef __cplusplus
}
#endif

#endif
