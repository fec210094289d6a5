/* Calls for languages that pay for each call into C and for each thing that it is handed: a raise of words, and two calls
 * of an open raise in one. What they are handed, and what they tell, stands in one struct. The shared library has them
 * beside the proved calls; of them nothing is proved. */
#ifndef CODZVREGI_TURNS_H
#define CODZVREGI_TURNS_H

#include "spin.h"

/* A raise of words. */
struct codzvregi_words {
    struct spin_lane *lane;
    uint8_t event, room[7];
    uint64_t count, words[8];
    struct spin_answer answer;
};

/* An open raise. */
struct codzvregi_turn {
    struct spin_raising *raising;
    struct spin_lane *lane; /* null for a raise within one */
    uint64_t event, count;
    uint64_t words[8]; /* where all arguments are words they */
    const uint8_t *bytes; /* those of the arguments */
    uint64_t length;
    struct spin_arg args[8];
    uint64_t gift_count;
    const uint8_t *given; /* the bytes of gifts */
    uint64_t given_length;
    struct spin_gift gifts[8];
    struct spin_answer answer;
    struct spin_step step;
};

/* Raises an event with words. */
uint32_t codzvregi_raise_words(struct codzvregi_words *raise);

/* Begins a raise, and tells what comes next. */
uint32_t codzvregi_begin(struct codzvregi_turn *turn);

/* Begins a raise whose arguments are words, and tells what comes next. */
uint32_t codzvregi_begin_words(struct codzvregi_turn *turn);

/* Hands in what a handler gave, and tells what comes next. */
uint32_t codzvregi_gave(struct codzvregi_turn *turn);

/* Has the declared act of what is due done, and tells what comes next. */
uint32_t codzvregi_do(struct codzvregi_turn *turn);

#endif
