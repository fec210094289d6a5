/* Handlers and guards that are functions of the host, in C, over the open raises of spin.h.
 *
 * A binding is bound as any other, and a table says which function stands for it. A raise goes through its firings:
 * where the table has a function for the binding, that is called in the place of the handler's act, and what it gives
 * is handed in; where it has none, the act is done as it is declared. Which bindings run, in which order, on which
 * arguments, and what the raise answers, the library says; of the code here nothing is proved.
 *
 * What is left to the caller, besides what spin.h says:
 * - a host, and a table, begin as all zeros, and are used by one thread at a time; a table that isn't changed
 *   meanwhile may be read by several. Neither is copied while it is in use;
 * - what a call hands out is good until the function that was called returns;
 * - the bytes of a raise's arguments stay as they are until it has ended, and so does the `self` of a function that
 *   was unbound within it.
 *
 * Each function answers SPIN_OK, the number of an error of spin.h, or one of those below. */
#ifndef SPIN_HOST_H
#define SPIN_HOST_H

#include "spin_bind.h"

#ifdef __cplusplus
extern "C" {
#endif

/* --- Calls, which a function makes with what it is handed --- */

/* Abandons the raise under way, with all around it, for this reason, if it wasn't abandoned for another. */
static inline uint32_t spin_host_fail(struct spin_host *host, uint32_t error) {
    if (host->fault == SPIN_OK) {
        host->fault = error;
        (void)spin_abandon(&host->raising);
    }
    return host->fault;
}

/* Tells an argument of the innermost raise, with its bytes behind those that are copied already. */
static inline uint32_t spin_copy_argument(struct spin_call *call, size_t index) {
    static uint8_t none[1];
    struct spin_arg arg;
    struct spin_raising *raising = &call->host->raising;
    uint32_t error = spin_argument(raising, index, none, 0, &arg);
    if (error == SPIN_TOO_SMALL) {
        error = spin_reserve(&call->copied, arg.length);
        if (error == SPIN_OK) {
            error = spin_argument(raising, index, call->copied.at + call->copied.length, arg.length, &arg);
        }
    }
    if (error == SPIN_OK) {
        const struct spin_value value = {arg.kind, arg.kind == SPIN_WORD ? arg.at : 0, NULL,
                                         arg.kind == SPIN_WORD ? 0 : (size_t)arg.length};
        call->copies[index] = value;
        call->copied.length += value.length;
    }
    return error;
}

/* Sees to it that the arguments of the firing are known: they are those that were raised, as long as no filter changed
 * them. */
static inline uint32_t spin_see(struct spin_call *call) {
    if (call->is_seen) {
        return SPIN_OK;
    }
    size_t count = 0;
    uint32_t error = SPIN_OK;
    if (call->copied.at == NULL) {
        const struct spin_buffer none = {NULL, 0, 0};
        call->copied = call->host->spare;
        call->host->spare = none;
    }
    call->copied.length = 0;
    while (error == SPIN_OK && count < SPIN_MOST_ARGUMENTS) {
        error = spin_copy_argument(call, count);
        count += error == SPIN_OK;
    }
    if (error != SPIN_OK && error != SPIN_NO_ARGUMENT) {
        return spin_host_fail(call->host, error);
    }
    /* the bytes may have moved as they came */
    for (size_t at = 0, from = 0; at < count; at++) {
        call->copies[at].bytes = call->copies[at].kind == SPIN_WORD ? NULL : spin_bytes(call->copied.at, 0) + from;
        from += call->copies[at].length;
    }
    call->args = call->copies;
    call->count = count;
    call->is_seen = 1;
    return SPIN_OK;
}

/* An argument of this kind; null where there is none, and then the raise is abandoned. */
static inline const struct spin_value *spin_call_argument(struct spin_call *call, uint64_t index, uint64_t kind) {
    if (call->host->fault != SPIN_OK || spin_see(call) != SPIN_OK) {
        return NULL;
    }
    if (index >= call->count || call->args[index].kind != kind) {
        (void)spin_host_fail(call->host, SPIN_NO_ARGUMENT);
        return NULL;
    }
    return &call->args[index];
}

/* The word that the argument of this index is, as the filters before have left it. Where it is none it is 0, and the
 * raise is abandoned with SPIN_NO_ARGUMENT. */
static inline uint64_t spin_call_word(struct spin_call *call, uint64_t index) {
    const struct spin_value *value = spin_call_argument(call, index, SPIN_WORD);
    return value == NULL ? 0 : value->word;
}

/* The bytes that it is, which are good until the function returns; as spin_call_word where it is none. */
static inline const uint8_t *spin_call_bytes(struct spin_call *call, uint64_t index, size_t *length) {
    const struct spin_value *value = spin_call_argument(call, index, SPIN_BYTES);
    *length = value == NULL ? 0 : value->length;
    return value == NULL ? (const uint8_t *)"" : value->bytes;
}

/* How many arguments there are. */
static inline size_t spin_call_count(struct spin_call *call) {
    return call->host->fault != SPIN_OK || spin_see(call) != SPIN_OK ? 0 : call->count;
}

/* Gives one thing more. The bytes are copied. */
static inline uint32_t spin_give(struct spin_call *call, uint64_t kind, uint64_t index, uint64_t word,
                                 const uint8_t *bytes, size_t length) {
    struct spin_host *host = call->host;
    if (host->fault != SPIN_OK) {
        return host->fault;
    }
    if (bytes == NULL && length > 0) {
        return SPIN_NULL;
    }
    void *grown = spin_grown(host->gifts, host->gift_count, &host->gift_room, sizeof *host->gifts);
    host->gifts = grown == NULL ? host->gifts : (struct spin_gift *)grown;
    if (grown == NULL || spin_reserve(&host->given, length) != SPIN_OK) {
        return spin_host_fail(host, SPIN_NO_MEMORY);
    }
    struct spin_gift gift = {kind, index, word, 0};
    if (kind == SPIN_GIVES_BYTES || kind == SPIN_GIVES_SEND) {
        gift.at = host->given.length - call->first_byte;
        gift.length = length;
        spin_append(&host->given, bytes, length);
    }
    host->gifts[host->gift_count++] = gift;
    return SPIN_OK;
}

/* What a handler gives: a result, of which the last one counts; another word, or other bytes, for an argument, which
 * only a filter may; bytes for an endpoint. The raise tells in the end whether it may: where it mayn't, it is
 * abandoned with SPIN_GIFT_REFUSED, and answer->kind is why, a spin_gift_fault. They ask for memory until there was
 * room enough once, and where there is none the raise is abandoned. So what they answer need not be looked at. */
static inline uint32_t spin_call_result(struct spin_call *call, uint64_t word) {
    return spin_give(call, SPIN_GIVES_RESULT, 0, word, NULL, 0);
}
static inline uint32_t spin_call_set_word(struct spin_call *call, uint64_t index, uint64_t word) {
    return spin_give(call, SPIN_GIVES_WORD, index, word, NULL, 0);
}
static inline uint32_t spin_call_set_bytes(struct spin_call *call, uint64_t index, const void *bytes, size_t length) {
    return spin_give(call, SPIN_GIVES_BYTES, index, 0, (const uint8_t *)bytes, length);
}
static inline uint32_t spin_call_send(struct spin_call *call, uint64_t endpoint, const void *bytes, size_t length) {
    return spin_give(call, SPIN_GIVES_SEND, endpoint, 0, (const uint8_t *)bytes, length);
}

/* What was given since the function was called is let go of. */
static inline void spin_forget_gifts(struct spin_call *call) {
    if (call->host->fault == SPIN_OK) {
        call->host->gift_count = call->first_gift;
        call->host->given.length = call->first_byte;
    }
}

/* --- Raises --- */

/* Tells what the last answer gave, where somebody wants it. */
static inline uint32_t spin_tell_given(struct spin_host *host, uint64_t count) {
    uint32_t error = SPIN_OK;
    for (uint64_t at = 0; host->step != NULL && error == SPIN_OK && at < count; at++) {
        struct spin_step step;
        struct spin_buffer sent = {NULL, 0, 0};
        error = spin_given(&host->raising, at, &step);
        if (error == SPIN_OK && step.kind == SPIN_SEND && step.length > 0) {
            uint64_t length = 0;
            error = spin_reserve(&sent, (size_t)step.length);
            error = error != SPIN_OK
                        ? error
                        : spin_given_bytes(&host->raising, at, sent.at, (size_t)step.length, &length);
        }
        /* a raise upwards is told when it begins */
        if (error == SPIN_OK && step.kind != SPIN_UP) {
            host->step(host->step_self, &step, spin_bytes(sent.at, 0));
        }
        free(sent.at);
        error = host->fault != SPIN_OK ? host->fault : error;
    }
    return error;
}

/* The arguments may be others than those that are known. */
static inline void spin_unsee(struct spin_call *call) {
    call->is_seen = 0;
    call->is_changed |= call->ups == 0;
}

/* Has the declared act done. */
static inline uint32_t spin_do_act(struct spin_call *call) {
    struct spin_answer answer;
    const uint32_t error = spin_do(&call->host->raising, &answer);
    if (error != SPIN_OK) {
        return error;
    }
    if (call->mode == SPIN_FILTER) {
        spin_unsee(call);
    }
    return spin_tell_given(call->host, answer.steps);
}

/* Hands in what a function gave. */
static inline uint32_t spin_hand_in(struct spin_call *call) {
    static const struct spin_gift none[1] = {{0, 0, 0, 0}};
    struct spin_host *host = call->host;
    struct spin_answer answer;
    const size_t count = host->gift_count - call->first_gift, length = host->given.length - call->first_byte;
    const struct spin_gift *gifts = count == 0 ? none : host->gifts + call->first_gift;
    const uint8_t *bytes = length == 0 ? spin_bytes(NULL, 0) : host->given.at + call->first_byte;
    const uint32_t error = spin_gave(&host->raising, bytes, length, gifts, count, &answer);
    if (error != SPIN_OK) {
        call->fault_kind = error == SPIN_GIFT_REFUSED ? answer.kind : 0;
        return error;
    }
    spin_forget_gifts(call);
    if (count > 0 && call->mode == SPIN_FILTER) {
        spin_unsee(call);
    }
    return host->step == NULL ? (uint32_t)SPIN_OK : spin_tell_given(host, answer.steps);
}

/* Copies the arguments of a firing into a job. */
static inline uint32_t spin_copy_left(struct spin_call *call, struct spin_left *left) {
    struct spin_buffer bytes = {NULL, 0, 0};
    uint32_t error = spin_see(call);
    size_t wanted = 1;
    for (size_t at = 0; error == SPIN_OK && at < call->count; at++) {
        wanted += call->args[at].length;
    }
    error = error != SPIN_OK ? error : spin_reserve(&bytes, wanted);
    for (size_t at = 0; error == SPIN_OK && at < call->count; at++) {
        left->args[at] = call->args[at];
        left->args[at].bytes = bytes.at + bytes.length;
        spin_append(&bytes, call->args[at].bytes, call->args[at].length);
    }
    left->count = call->count;
    left->bytes = bytes.at;
    return error;
}

/* Leaves a binding that runs apart to a job, for spin_host_jobs. */
static inline uint32_t spin_leave_job(struct spin_call *call, struct spin_function function) {
    struct spin_host *host = call->host;
    void *grown = spin_grown(host->left, host->left_count, &host->left_room, sizeof *host->left);
    if (grown == NULL) {
        return SPIN_NO_MEMORY;
    }
    host->left = (struct spin_left *)grown;
    struct spin_left left;
    left.function = function;
    left.event = call->event;
    left.number = call->number;
    uint32_t error = spin_copy_left(call, &left);
    error = error != SPIN_OK ? error : spin_hand_in(call);
    if (error != SPIN_OK) {
        free(left.bytes);
        return error;
    }
    host->left[host->left_count++] = left;
    return SPIN_OK;
}

/* Whether a function gave nothing in the place of the handler without steps, whose act then comes to the same, and is
 * done for less. */
static inline int spin_gave_none(const struct spin_call *call) {
    const struct spin_host *host = call->host;
    return host->gift_count == call->first_gift && call->mode == SPIN_PLAIN && host->declared != NULL &&
           call->handler == host->first_own + call->event;
}

/* Answers a firing that is due, by what the table has for it. */
static inline uint32_t spin_answer_firing(struct spin_call *call, const struct spin_step *due) {
    struct spin_host *host = call->host;
    const struct spin_function *found = spin_function_of(call->table, due->event, due->number);
    call->event = due->event;
    call->number = due->number;
    call->handler = due->value;
    call->mode = due->answer;
    if (found == NULL) {
        return spin_do_act(call);
    }
    const struct spin_function f = *found; /* the table may grow as the function runs */
    enum spin_outcome outcome = f.handler == NULL ? SPIN_AS_DECLARED : SPIN_HANDLED;
    if (f.guard != NULL && !f.guard(f.self, call)) {
        outcome = SPIN_PASS;
    }
    spin_forget_gifts(call);
    if (host->fault == SPIN_OK && outcome == SPIN_HANDLED && call->mode == SPIN_ASYNC) {
        return spin_leave_job(call, f);
    }
    if (host->fault == SPIN_OK && outcome == SPIN_HANDLED) {
        outcome = f.handler(f.self, call);
    }
    if (host->fault != SPIN_OK) {
        return host->fault;
    }
    if (outcome == SPIN_HANDLED) {
        return spin_gave_none(call) ? spin_do_act(call) : spin_hand_in(call);
    }
    spin_forget_gifts(call);
    return outcome == SPIN_PASS          ? spin_declined(&host->raising)
           : outcome == SPIN_AS_DECLARED ? spin_do_act(call)
                                         : (uint32_t)SPIN_STOPPED;
}

/* A raise upwards that an act asked for begins, or ends: its arguments are others. */
static inline void spin_turn(struct spin_call *call, const struct spin_step *step) {
    call->is_seen = 0;
    call->ups += step->kind == SPIN_UP ? 1u : (uint32_t)-1;
    if (call->ups == 0 && !call->is_changed) {
        call->args = call->raised;
        call->count = call->raised_count;
        call->is_seen = 1;
    }
    if (call->host->step != NULL) {
        call->host->step(call->host->step_self, step, spin_bytes(NULL, 0));
    }
}

/* Goes through the firings of a raise that was begun, to its end. */
static inline uint32_t spin_go_through(struct spin_call *call, struct spin_answer *answer) {
    struct spin_host *host = call->host;
    struct spin_step step;
    for (;;) {
        uint32_t error = spin_next(&host->raising, &step);
        if (error == SPIN_OK && step.kind == SPIN_RUN) {
            error = spin_answer_firing(call, &step);
        } else if (error == SPIN_OK && step.kind == SPIN_END) {
            answer->kind = step.answer;
            answer->value = step.value;
            return SPIN_OK;
        } else if (error == SPIN_OK && step.kind == SPIN_SPENT) {
            error = SPIN_SPENT_ALL;
        } else if (error == SPIN_OK) {
            spin_turn(call, &step);
            error = host->fault;
        }
        if (error != SPIN_OK) {
            answer->kind = error == SPIN_GIFT_REFUSED ? call->fault_kind : answer->kind;
            answer->steps = error == SPIN_GIFT_REFUSED ? call->number : 0;
            return spin_host_fail(host, error);
        }
    }
}

/* Arguments as they are handed in: what each is, and the bytes of all, which are those of the only one that has any, or
 * else are copied behind what is given. */
static inline uint32_t spin_lay_out(struct spin_host *host, const struct spin_value *args, size_t count,
                                    struct spin_arg *laid, const uint8_t **bytes, size_t *length) {
    const struct spin_value *only = NULL;
    int is_only = 1;
    *length = 0;
    for (size_t at = 0; at < count; at++) {
        laid[at] = args[at].kind == SPIN_WORD ? spin_word(args[at].word) : spin_range(*length, args[at].length);
        laid[at].kind = args[at].kind;
        if (args[at].kind == SPIN_BYTES) {
            if (args[at].bytes == NULL) {
                return SPIN_NULL;
            }
            is_only = is_only && only == NULL;
            only = &args[at];
            *length += args[at].length;
        }
    }
    *bytes = only == NULL ? spin_bytes(NULL, 0) : only->bytes;
    if (is_only) {
        return SPIN_OK;
    }
    const size_t from = host->given.length;
    if (spin_reserve(&host->given, *length + 1) != SPIN_OK) {
        return SPIN_NO_MEMORY;
    }
    for (size_t at = 0; at < count; at++) {
        spin_append(&host->given, args[at].bytes, args[at].kind == SPIN_BYTES ? args[at].length : 0);
    }
    host->given.length = from;
    *bytes = host->given.at + from;
    return SPIN_OK;
}

/* Begins the raise of a call: the first one on the host, or one within a firing that waits for its answer. */
static inline uint32_t spin_begin_call(struct spin_call *call, uint64_t event, struct spin_answer *answer) {
    struct spin_host *host = call->host;
    struct spin_arg laid[SPIN_MOST_ARGUMENTS];
    laid[0] = spin_word(0);
    const uint8_t *bytes = NULL;
    size_t length = 0;
    const size_t count = call->raised_count;
    const uint32_t error = spin_lay_out(host, call->raised, count, laid, &bytes, &length);
    if (error != SPIN_OK) {
        return error;
    }
    return call->around == NULL
               ? spin_begin(&host->lane, &host->raising, bytes, length, laid, count, (uint8_t)event, answer)
               : spin_within(&host->raising, (uint8_t)event, bytes, length, laid, count, answer);
}

/* Raises an event within a call, or as the first one where that is null. */
static inline uint32_t spin_raise_in(struct spin_host *host, struct spin_table *table, struct spin_call *around,
                                     uint64_t event, const struct spin_value *args, size_t count,
                                     struct spin_answer *answer) {
    struct spin_call call;
    call.host = host;
    call.table = table;
    call.args = call.raised = args;
    call.count = call.raised_count = count;
    call.first_gift = host->gift_count;
    call.first_byte = host->given.length;
    call.is_seen = 1;
    call.is_changed = call.ups = call.fault_kind = 0;
    call.around = around;
    call.copied.at = NULL;
    call.copied.length = call.copied.room = 0;
    const uint32_t begun = spin_begin_call(&call, event, answer);
    if (begun != SPIN_OK) {
        /* as a closed raise answers it */
        return begun == SPIN_NOT_RAISED ? (uint32_t)SPIN_OK : begun;
    }
    host->innermost = &call;
    table->raises += around == NULL;
    const uint32_t error = spin_go_through(&call, answer);
    host->innermost = around;
    if (call.copied.at != NULL && host->spare.at == NULL && host->fault != SPIN_CLOSED) {
        host->spare = call.copied;
        host->spare.length = 0;
    } else {
        free(call.copied.at);
    }
    if (around == NULL) {
        spin_leave_table(table);
        host->gift_count = host->given.length = 0;
        host->fault = SPIN_OK;
    }
    return error;
}

/* Whether arguments can be handed in. */
static inline uint32_t spin_raise_fault(uint64_t event, const struct spin_value *args, size_t count,
                                        const struct spin_answer *answer) {
    if ((args == NULL && count > 0) || answer == NULL) {
        return SPIN_NULL;
    }
    return event == SPIN_UNNAMED ? (uint32_t)SPIN_NO_NAME : event > UINT8_MAX ? (uint32_t)SPIN_WIDE : (uint32_t)SPIN_OK;
}

/* What a raise of more arguments than any event has is answered. */
static inline uint32_t spin_too_many(const struct spin_host *host, struct spin_answer *answer) {
    const struct spin_answer told = {host->place, SPIN_WRONG_ARGUMENTS, 0, 0};
    *answer = told;
    return SPIN_OK;
}

/* Raises an event on these arguments, and calls what the table has for its bindings. The answer is a raise's, whose
 * steps go to spin_host_watch. Where it is abandoned the error says why, and answer->place is the place it began at;
 * beside SPIN_GIFT_REFUSED answer->kind is why, and answer->steps the binding. Within a raise it answers SPIN_OPEN: a
 * function raises by spin_call_raise. It asks for no memory once as much was asked for before, but for what acts
 * give. */
static inline uint32_t spin_raise_with(struct spin_host *host, struct spin_table *table, uint64_t event,
                                       const struct spin_value *args, size_t count, struct spin_answer *answer) {
    if (host == NULL || table == NULL) {
        return SPIN_NULL;
    }
    const uint32_t error = spin_raise_fault(event, args, count, answer);
    if (error != SPIN_OK || host->innermost != NULL) {
        return error != SPIN_OK ? error : (uint32_t)SPIN_OPEN;
    }
    return count > SPIN_MOST_ARGUMENTS ? spin_too_many(host, answer)
                                       : spin_raise_in(host, table, NULL, event, args, count, answer);
}

/* Raises another event from within a function, on the bindings of the raise under way: one with a greater number, else
 * it answers SPIN_DOWNWARD. What it is refused for changes nothing; where the raise within is abandoned all is, and
 * the function may as well return. In a job it is a raise of its own. */
static inline uint32_t spin_call_raise(struct spin_call *call, uint64_t event, const struct spin_value *args,
                                       size_t count, struct spin_answer *answer) {
    if (call == NULL) {
        return SPIN_NULL;
    }
    struct spin_host *host = call->host;
    const uint32_t error = spin_raise_fault(event, args, count, answer);
    if (error != SPIN_OK || host->fault != SPIN_OK) {
        return error != SPIN_OK ? error : host->fault;
    }
    return count > SPIN_MOST_ARGUMENTS ? spin_too_many(host, answer)
                                       : spin_raise_in(host, call->table, host->innermost, event, args, count, answer);
}

/* --- Jobs --- */

/* Tells what a job gave. A change of an argument is refused. */
static inline uint32_t spin_tell_job(struct spin_call *call) {
    struct spin_host *host = call->host;
    for (size_t at = call->first_gift; at < host->gift_count; at++) {
        const struct spin_gift gift = host->gifts[at];
        const int is_send = gift.kind == SPIN_GIVES_SEND;
        if (!is_send && gift.kind != SPIN_GIVES_RESULT) {
            return SPIN_GIFT_REFUSED;
        }
        const struct spin_step step = {is_send ? (uint32_t)SPIN_SEND : (uint32_t)SPIN_RESULT, call->event,
                                       is_send ? (uint32_t)gift.index : call->number, 0, is_send ? 0 : gift.at,
                                       gift.length};
        if (host->step != NULL) {
            host->step(host->step_self, &step, is_send ? host->given.at + gift.at : spin_bytes(NULL, 0));
        }
    }
    return SPIN_OK;
}

/* Runs one job. */
static inline uint32_t spin_run_left(struct spin_host *host, struct spin_table *table, struct spin_left *left) {
    struct spin_call call;
    memset(&call, 0, sizeof call);
    call.host = host;
    call.table = table;
    call.event = left->event;
    call.number = left->number;
    call.mode = SPIN_ASYNC;
    call.args = call.raised = left->args;
    call.count = call.raised_count = left->count;
    call.is_seen = 1;
    const enum spin_outcome outcome = left->function.handler(left->function.self, &call);
    const uint32_t stopped = outcome == SPIN_STOP ? (uint32_t)SPIN_STOPPED : (uint32_t)SPIN_OK;
    uint32_t error = host->fault != SPIN_OK ? host->fault : stopped;
    error = error == SPIN_OK && outcome == SPIN_HANDLED ? spin_tell_job(&call) : error;
    host->gift_count = host->given.length = 0;
    host->fault = SPIN_OK;
    return error;
}

/* Runs the jobs that raises left to the host's functions, in order, with those that come meanwhile, up to the first
 * that fails, which is dropped; and tells how many ran. Within a raise it answers SPIN_OPEN. */
static inline uint32_t spin_host_jobs(struct spin_host *host, struct spin_table *table, uint64_t *ran) {
    if (host == NULL || table == NULL || ran == NULL) {
        return SPIN_NULL;
    }
    uint32_t error = host->innermost != NULL ? (uint32_t)SPIN_OPEN : (uint32_t)SPIN_OK;
    size_t done = 0;
    for (*ran = 0; error == SPIN_OK && done < host->left_count; done++) {
        struct spin_left left = host->left[done];
        error = spin_run_left(host, table, &left);
        free(left.bytes);
        *ran += error == SPIN_OK;
    }
    if (done > 0 && done <= host->left_count) {
        memmove(host->left, host->left + done, (host->left_count - done) * sizeof *host->left);
        host->left_count -= done;
    }
    return error;
}

/* The name of an error of these functions. */
static inline const char *spin_host_error_name(uint32_t error) {
    return error == SPIN_NO_NAME     ? "nothing has that name"
           : error == SPIN_STOPPED   ? "a function stopped the raise"
           : error == SPIN_SPENT_ALL ? "no more handlers may start"
                                     : spin_error_name(error);
}

#ifdef __cplusplus
}
#endif

#endif
