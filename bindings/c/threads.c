/* threads [COMMANDS [RENEWALS]]: threads that share a hub for as long as they like. Each has a seat, gives commands,
 * raises, and does jobs at once with the others, and gives its seat back; then the hub is renewed, and the seats go out
 * again. What all of them were answered is judged: along the places it must be what a hub of one lane answers, asked
 * one by one, and the rows that are left at the end are the commands that were accepted since the last renewal. */
#include "spin.h"

#include <pthread.h>
#include <sched.h>
#include <stdio.h>
#include <stdlib.h>
#include <string.h>

/* Whether the threads end before the hub is renewed: else only the library's own code orders what they did before it,
 * which a sanitiser doesn't see whose code isn't in the library. */
#ifndef JOINED
#define JOINED 0
#endif

enum { LANES = 8, COMMANDS = 10000, RENEWALS = 6, BETWEEN = 20, PLACES = 4097, EVENTS = 4 };

static const char script[] =
    "spin 1\nmodules 2\nevent 0 0 w:w last\nevent 1 0 w:w fold + a0 a1\nevent 2 0 w:w last\nevent 3 0 w:w last\n"
    "handler 1 w:w result + a0 1\nhandler 2 w:w result + a0 2\nhandler 3 w:w result + a0 3\n"
    "rule 0 1 1 any any all deny\n";

enum what { COMMAND, RAISE, JOB };

/* What was asked, a command, or an event's raise with a word or by a job, and what was answered. */
struct entry {
    enum what what;
    struct spin_command_words command;
    uint64_t event, word;
    uint32_t error;
    struct spin_answer answer;
};

/* A thread's seat, and what it asked in order. */
struct party {
    struct spin_lane seat;
    struct entry *entries;
    size_t count;
    uint64_t random, event, binding;
};

static _Noreturn void stop(const char *why, uint32_t error) {
    printf("threads: %s: %s\n", why, spin_error_name(error));
    exit(1);
}

static void must(const char *what, uint32_t error) {
    if (error != SPIN_OK) {
        stop(what, error);
    }
}

/* The next number below a bound, the same in each run. */
static uint32_t below(struct party *party, uint32_t bound) {
    party->random = party->random * 6364136223846793005u + 1442695040888963407u;
    return (uint32_t)(party->random >> 33) % bound;
}

/* A command: another default, none, a binding of the party's own, or that this one is removed or has another handler.
 * Now and then it is refused, since it is denied, or names no binding. */
static struct spin_command_words some_command(struct party *party) {
    static const enum spin_op without[] = {SPIN_SET_DEFAULT, SPIN_NO_DEFAULT, SPIN_INSTALL, SPIN_REMOVE};
    static const enum spin_op with[] = {SPIN_SET_DEFAULT, SPIN_REPLACE, SPIN_REPLACE, SPIN_REMOVE};
    struct spin_command_words command = {.requester = below(party, 8) == 0};
    command.op = (party->binding ? with : without)[below(party, 4)];
    command.event = below(party, EVENTS);
    if (command.op == SPIN_REMOVE || command.op == SPIN_REPLACE) {
        command.event = party->event;
        command.target = party->binding;
    }
    if (command.op != SPIN_REMOVE && command.op != SPIN_NO_DEFAULT) {
        command.handler = 1 + below(party, 3);
    }
    return command;
}

/* Whether the command was accepted, whose place is then its own. */
static int is_accepted(const struct entry *entry) { return entry->what == COMMAND && entry->error == SPIN_OK; }

/* Keeps in mind which binding of its own a party has. */
static void note(struct party *party, const struct entry *entry) {
    if (entry->command.op == SPIN_INSTALL) {
        party->event = entry->command.event;
        party->binding = entry->answer.place;
    }
    if (entry->command.op == SPIN_REMOVE) {
        party->binding = 0;
    }
}

static uint32_t ask(struct spin_lane *seat, struct entry *entry) {
    const struct spin_arg args[1] = {spin_word(entry->word)};
    switch (entry->what) {
    case COMMAND: return spin_lane_command(seat, &entry->command, &entry->answer);
    case RAISE: return spin_lane_raise(seat, entry->event, &entry->word, 1, &entry->answer);
    default: must("a raise for later", spin_lane_later(seat, entry->event, NULL, 0, args, 1, &entry->answer));
    }
    return spin_lane_job(seat, 0, &entry->answer);
}

/* Gives the commands, and raises between them. */
static void take_part(struct party *party) {
    for (size_t at = 0; at < party->count; at++) {
        struct entry *entry = &party->entries[at];
        memset(entry, 0, sizeof *entry);
        entry->what = at % (BETWEEN + 1) == 0 ? COMMAND : below(party, 8) == 0 ? JOB : RAISE;
        if (entry->what == COMMAND) {
            entry->command = some_command(party);
        } else {
            entry->event = below(party, EVENTS);
            entry->word = below(party, 1000);
        }
        entry->error = ask(&party->seat, entry);
        if (is_accepted(entry)) {
            note(party, entry);
        }
    }
}

/* Takes part, and gives the seat back. */
static void *take_part_and_return(void *given) {
    struct party *party = given;
    struct spin_answer answer;
    take_part(party);
    must("a seat doesn't come home", spin_lane_return(&party->seat, &answer));
    return NULL;
}

/* What is judged: the hub of one lane that is asked the same, its place, and which command was accepted at each place
 * since the last renewal, by which lane. */
struct judge {
    struct spin_lane plain;
    uint32_t first, place;
    const struct entry *accepted[PLACES];
    int by[PLACES];
};

/* Asks the hub of one lane the same, which must be answered the same. */
static void ask_again(struct judge *judge, const struct entry *entry) {
    struct entry again = *entry;
    again.error = ask(&judge->plain, &again);
    if (again.error != entry->error || memcmp(&again.answer, &entry->answer, sizeof again.answer) != 0) {
        stop("an answer isn't that of the plain dispatcher at its place", entry->error);
    }
}

/* Goes on with what a party asked up to an answer that is past the place, or to the command that has the next one. */
static size_t go_on(struct judge *judge, const struct party *party, size_t at) {
    while (at < party->count && party->entries[at].answer.place == judge->place && !is_accepted(&party->entries[at])) {
        ask_again(judge, &party->entries[at++]);
    }
    return at;
}

/* Goes on with the command that was accepted at the next place, and answers whether there is one. */
static int pass(struct judge *judge, const struct party *parties, size_t at[LANES]) {
    for (int lane = 0; lane < LANES; lane++) {
        const struct entry *next = at[lane] < parties[lane].count ? &parties[lane].entries[at[lane]] : NULL;
        if (next != NULL && is_accepted(next) && next->answer.place == judge->place + 1) {
            ask_again(judge, next);
            at[lane]++;
            judge->place++;
            judge->accepted[judge->place] = next;
            judge->by[judge->place] = lane;
            return 1;
        }
    }
    return 0;
}

/* Judges what all were answered: along the places one after another, each party's in its own order, ending with the
 * command that was accepted at the next place. */
static void judge_all(struct judge *judge, const struct party *parties) {
    size_t at[LANES] = {0};
    do {
        for (int lane = 0; lane < LANES; lane++) {
            at[lane] = go_on(judge, &parties[lane], at[lane]);
        }
    } while (pass(judge, parties, at));
    for (int lane = 0; lane < LANES; lane++) {
        if (at[lane] != parties[lane].count) {
            stop("answers are left that no order of places has", parties[lane].entries[at[lane]].error);
        }
    }
}

/* Numbers the parties' bindings as the renewal of both hubs did. */
static void renumber(struct judge *judge, struct party *parties) {
    uint64_t numbers[PLACES] = {0}, number = 1, before = 0, again = 0;
    while (spin_lane_number_before(&parties[0].seat, number, &before) == SPIN_OK) {
        must("a number is missing", spin_lane_number_before(&judge->plain, number, &again));
        if (again != before) {
            stop("a binding isn't numbered as in the plain dispatcher", SPIN_OK);
        }
        numbers[before] = number++;
    }
    if (spin_lane_number_before(&judge->plain, number, &again) != SPIN_NO_BINDING) {
        stop("a binding isn't renewed", SPIN_OK);
    }
    for (int lane = 0; lane < LANES; lane++) {
        parties[lane].binding = numbers[parties[lane].binding];
    }
    judge->first = judge->place = (uint32_t)(number - 1);
}

/* The rows that are left of both hubs: those of the commands that were accepted since the last renewal. */
static void compare_rows(struct judge *judge, struct spin_lane *opener, uint64_t rows) {
    uint64_t plain = 0;
    must("the plain dispatcher doesn't end", spin_lane_end(&judge->plain, &plain));
    if (rows != judge->place - judge->first || plain != rows) {
        stop("the log has another number of rows", SPIN_OK);
    }
    for (uint64_t index = 0; index < rows; index++) {
        struct spin_row row, again;
        const uint64_t place = judge->first + index + 1;
        must("a row", spin_lane_row_at(opener, index, &row));
        must("a row", spin_lane_row_at(&judge->plain, index, &again));
        struct spin_row wanted = spin_row_of(&judge->accepted[place]->command);
        const int is_plain = memcmp(&again, &wanted, sizeof wanted) == 0;
        wanted.a |= (uint64_t)judge->by[place] << 49;
        if (!is_plain || memcmp(&row, &wanted, sizeof wanted) != 0 || (int)spin_row_lane(&row) != judge->by[place]) {
            stop("a row isn't that of the command at its place", SPIN_OK);
        }
    }
}

static void join(const pthread_t threads[LANES]) {
    for (int lane = 1; lane < LANES; lane++) {
        pthread_join(threads[lane], NULL);
    }
}

/* Renews the hub, or ends it where its rows are asked for, once all seats are home. */
static void go_over(struct spin_lane *opener, uint64_t *rows) {
    struct spin_answer answer;
    uint32_t error;
    do {
        error = rows != NULL ? spin_lane_end(opener, rows) : spin_lane_renew(opener, &answer);
    } while ((error == SPIN_TAKEN || error == SPIN_SHARED) && sched_yield() == 0);
    must("the hub isn't renewed or ended", error);
}

/* Hands the seats out, has all take part, each on a thread, and judges them. */
static void run_round(struct judge *judge, struct party *parties, uint64_t *rows) {
    pthread_t threads[LANES];
    for (uint64_t lane = 1; lane < LANES; lane++) {
        must("a seat doesn't go out", spin_lane_seat(&parties[0].seat, lane, &parties[lane].seat));
        if (pthread_create(&threads[lane], NULL, take_part_and_return, &parties[lane]) != 0) {
            stop("a thread doesn't start", SPIN_OK);
        }
    }
    take_part(&parties[0]);
    if (JOINED) {
        join(threads);
    }
    go_over(&parties[0].seat, rows);
    if (!JOINED) {
        join(threads);
    }
    judge_all(judge, parties);
}

/* Opens both hubs, and makes room for what the parties ask. */
static void begin(struct judge *judge, struct party *parties, size_t count) {
    struct spin_answer answer;
    must("a hub doesn't open", spin_lane_open_hub(&parties[0].seat, LANES, script, sizeof script - 1, &answer));
    must("a hub doesn't open", spin_lane_open(&judge->plain, script, sizeof script - 1, &answer));
    for (int lane = 0; lane < LANES; lane++) {
        parties[lane].random = (uint64_t)lane;
        parties[lane].count = count;
        parties[lane].entries = calloc(count, sizeof *parties[lane].entries);
        if (parties[lane].entries == NULL) {
            stop("the test has no memory", SPIN_NO_MEMORY);
        }
    }
}

int main(int given, char **words) {
    static struct judge judge;
    struct party parties[LANES] = {0};
    struct spin_answer answer;
    const size_t commands = given > 1 ? strtoul(words[1], NULL, 10) : COMMANDS;
    const size_t renewals = given > 2 ? strtoul(words[2], NULL, 10) : RENEWALS;
    const size_t each = commands / (LANES * (renewals + 1)) + 1;
    uint64_t rows = 0, accepted = 0;
    if (each * LANES >= PLACES - LANES) {
        printf("threads: a log has no room for so many commands before a renewal\n");
        return 2;
    }
    begin(&judge, parties, each * (BETWEEN + 1));
    for (size_t round = 0; round <= renewals; round++) {
        run_round(&judge, parties, round == renewals ? &rows : NULL);
        accepted += judge.place - judge.first;
        if (round < renewals) {
            must("the plain dispatcher isn't renewed", spin_lane_renew(&judge.plain, &answer));
            renumber(&judge, parties);
        }
    }
    compare_rows(&judge, &parties[0].seat, rows);
    must("a close", spin_lane_close(&parties[0].seat, &answer));
    must("a close", spin_lane_close(&judge.plain, &answer));
    for (int lane = 0; lane < LANES; lane++) {
        free(parties[lane].entries);
    }
    const size_t all = each * LANES * (renewals + 1);
    printf("threads: %zu commands, %u of them accepted, and %zu raises and jobs are one history, over %zu renewals\n",
           all, (unsigned)accepted, all * BETWEEN, renewals);
    return accepted == 0;
}
