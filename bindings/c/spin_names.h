/* The script that declares events, handlers and guards with names: the text that spin_host.h opens a hub over. */
#ifndef SPIN_NAMES_H
#define SPIN_NAMES_H

#include "spin.h"

#include <stdlib.h>
#include <string.h>

#ifdef __cplusplus
extern "C" {
#endif

/* Bytes that grow. */
struct spin_buffer {
    uint8_t *at;
    size_t length, room;
};

/* What a script declares, by names, as spin_host_open makes it: lists end with an entry of zeros, and may be null. The
 * number of an event is its index; that of a handler or a guard its index and 1. */
struct spin_named {
    const char *name;
    const char *signature; /* as scripts have it: w and b, W and B where a filter may change it, :w for a result */
    const char *does;      /* a handler's steps, a guard's test; an event's merge, null being `last` */
    uint64_t owner;        /* of an event the number of the module that owns it */
};
struct spin_declared {
    const char *const *modules; /* null where there is one, without a name */
    const struct spin_named *events;
    const char *const *endpoints;
    const struct spin_named *handlers, *guards;
    const char *more; /* further lines: rules, authorisers and defaults */
};

/* Makes room for so many more bytes behind those that are there. */
static inline uint32_t spin_reserve(struct spin_buffer *buffer, size_t more) {
    if (buffer->room - buffer->length >= more) {
        return SPIN_OK;
    }
    if (more > SIZE_MAX / 2 - buffer->length) {
        return SPIN_NO_MEMORY;
    }
    const size_t wanted = (buffer->length + more) * 2;
    uint8_t *at = (uint8_t *)realloc(buffer->at, wanted);
    if (at == NULL) {
        return SPIN_NO_MEMORY;
    }
    buffer->at = at;
    buffer->room = wanted;
    return SPIN_OK;
}

/* Appends bytes for which there is room. */
static inline void spin_append(struct spin_buffer *buffer, const void *bytes, size_t length) {
    if (length > 0) {
        memcpy(buffer->at + buffer->length, bytes, length);
        buffer->length += length;
    }
}

/* What stands for a name that nothing has. No number of a command is so great. */
#define SPIN_UNNAMED UINT64_MAX

/* The index of a name among what is declared. */
static inline uint64_t spin_index_of(const struct spin_named *list, const char *name) {
    for (uint64_t at = 0; list != NULL && list[at].name != NULL; at++) {
        if (strcmp(list[at].name, name) == 0) {
            return at;
        }
    }
    return SPIN_UNNAMED;
}

/* How many there are in a list. */
static inline uint64_t spin_count_of(const struct spin_named *list) {
    uint64_t count = 0;
    while (list != NULL && list[count].name != NULL) {
        count++;
    }
    return count;
}

/* Appends the words, with a blank before each but the first, and a line's end. */
static inline uint32_t spin_append_line(struct spin_buffer *text, const char *const *words, size_t count) {
    for (size_t at = 0; at < count; at++) {
        const size_t length = strlen(words[at]);
        if (spin_reserve(text, length + 2) != SPIN_OK) {
            return SPIN_NO_MEMORY;
        }
        spin_append(text, words[at], length);
        spin_append(text, at + 1 < count && length > 0 ? " " : "", at + 1 < count && length > 0);
    }
    spin_append(text, "\n", 1);
    return SPIN_OK;
}

/* A number as decimal digits, in a buffer of 21 bytes. */
static inline const char *spin_digits(uint64_t number, char buffer[21]) {
    char *at = buffer + 20;
    *at = '\0';
    do {
        *--at = (char)('0' + number % 10);
        number /= 10;
    } while (number > 0);
    return at;
}

/* Appends a line for each in a list, whose first number is this one: of events, or of handlers or guards. */
static inline uint32_t spin_append_list(struct spin_buffer *text, const char *word, const struct spin_named *list,
                                        uint64_t first) {
    uint32_t error = SPIN_OK;
    for (uint64_t at = 0; error == SPIN_OK && at < spin_count_of(list); at++) {
        char number[21], owner[21];
        const int is_event = strcmp(word, "event") == 0;
        const char *does = list[at].does == NULL ? (is_event ? "last" : "") : list[at].does;
        const char *const event[5] = {word, spin_digits(first + at, number), spin_digits(list[at].owner, owner),
                                      list[at].signature, does};
        const char *const unit[4] = {word, event[1], list[at].signature, does};
        error = is_event ? spin_append_line(text, event, 5) : spin_append_line(text, unit, 4);
    }
    return error;
}

/* Appends the lines before those of events, and those of endpoints. */
static inline uint32_t spin_append_modules(struct spin_buffer *text, const char *const *modules) {
    static const char *const version[1] = {"spin 3"};
    char number[21];
    uint64_t count = 0;
    while (modules != NULL && modules[count] != NULL) {
        count++;
    }
    const char *const words[2] = {"modules", spin_digits(count, number)};
    const uint32_t error = spin_append_line(text, version, 1);
    return error != SPIN_OK || count == 0 ? error : spin_append_line(text, words, 2);
}
static inline uint32_t spin_append_endpoints(struct spin_buffer *text, const char *const *endpoints) {
    uint32_t error = SPIN_OK;
    for (uint64_t at = 0; error == SPIN_OK && endpoints != NULL && endpoints[at] != NULL; at++) {
        char number[21];
        const char *const words[3] = {"endpoint", spin_digits(at, number), endpoints[at]};
        error = spin_append_line(text, words, 3);
    }
    return error;
}

/* Appends the script that declares this, and behind its handlers one without steps for each event. */
static inline uint32_t spin_append_script(struct spin_buffer *text, const struct spin_declared *declared) {
    const uint64_t handlers = spin_count_of(declared->handlers), events = spin_count_of(declared->events);
    uint32_t error = spin_append_modules(text, declared->modules);
    error = error != SPIN_OK ? error : spin_append_list(text, "event", declared->events, 0);
    error = error != SPIN_OK ? error : spin_append_endpoints(text, declared->endpoints);
    error = error != SPIN_OK ? error : spin_append_list(text, "handler", declared->handlers, 1);
    for (uint64_t at = 0; error == SPIN_OK && at < events; at++) {
        char number[21];
        const char *const words[3] = {"handler", spin_digits(handlers + 1 + at, number),
                                      declared->events[at].signature};
        error = spin_append_line(text, words, 3);
    }
    error = error != SPIN_OK ? error : spin_append_list(text, "guard", declared->guards, 1);
    const char *const more[1] = {declared->more == NULL ? "" : declared->more};
    return error != SPIN_OK ? error : spin_append_line(text, more, 1);
}

#ifdef __cplusplus
}
#endif

#endif
