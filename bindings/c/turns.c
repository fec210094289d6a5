/* As turns.h says. */
#include "turns.h"

uint32_t codzvregi_raise_words(struct codzvregi_words *raise) {
    return spin_raise_words(raise->lane, raise->event, raise->words, raise->count, &raise->answer);
}

/* Begins a raise with these arguments, and tells what comes next. */
static uint32_t begin(struct codzvregi_turn *turn, const uint8_t *bytes, size_t length, const struct spin_arg *args) {
    const uint8_t event = (uint8_t)turn->event;
    const uint32_t error =
        turn->lane == NULL
            ? spin_within(turn->raising, event, bytes, length, args, turn->count, &turn->answer)
            : spin_begin(turn->lane, turn->raising, bytes, length, args, turn->count, event, &turn->answer);
    return error == SPIN_OK ? spin_next(turn->raising, &turn->step) : error;
}

uint32_t codzvregi_begin(struct codzvregi_turn *turn) { return begin(turn, turn->bytes, turn->length, turn->args); }

uint32_t codzvregi_begin_words(struct codzvregi_turn *turn) {
    struct spin_arg args[8];
    for (size_t at = 0; at < turn->count; at++) {
        args[at] = spin_word(turn->words[at]);
    }
    return begin(turn, spin_bytes(NULL, 0), 0, args);
}

uint32_t codzvregi_gave(struct codzvregi_turn *turn) {
    const uint32_t error = spin_gave(turn->raising, turn->given, turn->given_length, turn->gifts, turn->gift_count,
                                     &turn->answer);
    return error == SPIN_OK ? spin_next(turn->raising, &turn->step) : error;
}

uint32_t codzvregi_do(struct codzvregi_turn *turn) {
    const uint32_t error = spin_do(turn->raising, &turn->answer);
    return error == SPIN_OK ? spin_next(turn->raising, &turn->step) : error;
}
