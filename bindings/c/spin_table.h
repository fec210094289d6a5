/* The functions that stand for bindings: a table that spin_host.h goes by. */
#ifndef SPIN_TABLE_H
#define SPIN_TABLE_H

#include "spin.h"

#include <stdlib.h>
#include <string.h>

#ifdef __cplusplus
extern "C" {
#endif

/* What a function says of a firing. */
enum spin_outcome {
    SPIN_HANDLED = 0,    /* it ran, and what it gave is taken, if anything */
    SPIN_PASS = 1,       /* it is as if its guard didn't hold: nothing is taken */
    SPIN_AS_DECLARED = 2, /* the handler's act is done as the script declares it: what the function gave isn't taken */
    SPIN_STOP = 3        /* the raise is abandoned, with all around it, and answers SPIN_STOPPED */
};

struct spin_call;

/* A handler of the host's, and a guard, which says whether it holds, by another number than 0. */
typedef enum spin_outcome (*spin_handler_fn)(void *self, struct spin_call *call);
typedef int (*spin_guard_fn)(void *self, struct spin_call *call);

/* The greatest numbers of arguments and of events. */
enum { SPIN_MOST_ARGUMENTS = 8, SPIN_MOST_EVENTS = 64 };

/* What stands for a binding: a function in the place of the handler's act, where there is one, and one that is asked
 * before it, where there is one; what both are handed first; and a name, or null. */
struct spin_function {
    spin_handler_fn handler;
    spin_guard_fn guard;
    void *self;
    const char *name;
};

/* A change of a table that waits for the end of the raise. */
struct spin_change {
    uint32_t is_default;
    uint32_t number;
    struct spin_function to;
};

/* The functions of bindings, by their numbers, and of the defaults of events, by theirs. */
struct spin_table {
    struct spin_function *bindings;
    size_t room;
    struct spin_function defaults[SPIN_MOST_EVENTS];
    struct spin_change *changes;
    size_t change_count, change_room;
    uint32_t raises; /* how many raises that the host began go by it now */
};

/* A list of so many things of a size with room for one more; null where there is no memory. */
static inline void *spin_grown(void *list, size_t count, size_t *room, size_t size) {
    if (count < *room) {
        return list;
    }
    void *grown = realloc(list, (count + 1) * 2 * size);
    if (grown != NULL) {
        *room = (count + 1) * 2;
    }
    return grown;
}

static inline int spin_is_none(const struct spin_function *f) { return f->handler == NULL && f->guard == NULL; }

/* What stands for a binding of this number, or for the default of the event where it is 0; null where nothing does. */
static inline const struct spin_function *spin_function_of(const struct spin_table *table, uint32_t event,
                                                           uint32_t number) {
    const struct spin_function *found = NULL;
    if (number == 0) {
        found = event < SPIN_MOST_EVENTS ? &table->defaults[event] : NULL;
    } else if (number < table->room) {
        found = &table->bindings[number];
    }
    return found == NULL || spin_is_none(found) ? NULL : found;
}

/* Makes room for the binding of a number. */
static inline uint32_t spin_table_reserve(struct spin_table *table, size_t number) {
    if (number < table->room) {
        return SPIN_OK;
    }
    const size_t room = (number + 1) * 2;
    struct spin_function *grown = (struct spin_function *)realloc(table->bindings, room * sizeof *grown);
    if (grown == NULL) {
        return SPIN_NO_MEMORY;
    }
    memset(grown + table->room, 0, (room - table->room) * sizeof *grown);
    table->bindings = grown;
    table->room = room;
    return SPIN_OK;
}

/* Makes room for a change that waits. */
static inline uint32_t spin_reserve_change(struct spin_table *table) {
    void *grown = spin_grown(table->changes, table->change_count, &table->change_room, sizeof *table->changes);
    if (grown == NULL) {
        return SPIN_NO_MEMORY;
    }
    table->changes = (struct spin_change *)grown;
    return SPIN_OK;
}

/* Makes a change for which there is room. */
static inline void spin_make_change(struct spin_table *table, const struct spin_change *change) {
    if (change->is_default) {
        table->defaults[change->number % SPIN_MOST_EVENTS] = change->to;
    } else if (change->number < table->room) {
        table->bindings[change->number] = change->to;
    }
}

/* Makes a change for which there is room: at once, or where a raise goes by the table when that has ended, since it
 * still tells what was bound when it began. */
static inline void spin_change_table(struct spin_table *table, uint32_t is_default, uint64_t number,
                                     struct spin_function to) {
    const struct spin_change change = {is_default, (uint32_t)number, to};
    if (table->raises == 0) {
        spin_make_change(table, &change);
    } else {
        table->changes[table->change_count++] = change;
    }
}

/* A raise that goes by a table ends: after the last one what waits is done. */
static inline void spin_leave_table(struct spin_table *table) {
    if (--table->raises == 0) {
        for (size_t at = 0; at < table->change_count; at++) {
            spin_make_change(table, &table->changes[at]);
        }
        table->change_count = 0;
    }
}

/* Frees what a table has, and leaves it empty. SPIN_OPEN says that a raise goes by it, and it is left as it is. */
static inline uint32_t spin_table_free(struct spin_table *table) {
    if (table == NULL) {
        return SPIN_NULL;
    }
    if (table->raises != 0) {
        return SPIN_OPEN;
    }
    free(table->bindings);
    free(table->changes);
    memset(table, 0, sizeof *table);
    return SPIN_OK;
}

/* The number of the binding of this name; 0 where there is none. */
static inline uint64_t spin_binding_named(const struct spin_table *table, const char *name) {
    for (size_t number = 1; number < table->room; number++) {
        const struct spin_function *f = &table->bindings[number];
        if (!spin_is_none(f) && f->name != NULL && strcmp(f->name, name) == 0) {
            return number;
        }
    }
    return 0;
}

#ifdef __cplusplus
}
#endif

#endif
