/* runs EXAMPLES: what spin_run hands out. Each example whose natives aren't the program's own is run, with its capture
 * where it has one: its report, and what endpoint 0 is sent, must be what lies beside it. Each smaller buffer must be
 * told to be too small, and stay as it was; and what is null that may not be, and what is refused, be told. */
#include "spin.h"

#include <stdio.h>
#include <stdlib.h>
#include <string.h>

enum { ROOM = 1 << 20, SENDS = 1 << 10 };

static const char standing[] = "out0 out1 out2 out3 echo";

static int wrong = 0;

static void expect(const char *what, uint32_t answer, uint32_t wanted) {
    if (answer != wanted) {
        printf("%s: %s, and not %s\n", what, spin_error_name(answer), spin_error_name(wanted));
        wrong = 1;
    }
}

static void complain(const char *what, const char *why) {
    printf("%s: %s\n", what, why);
    wrong = 1;
}

/* What a file has, and how much; NULL where it isn't there. */
static char *read_file(const char *folder, const char *name, const char *end, size_t *length) {
    char path[4096];
    snprintf(path, sizeof path, "%s/%s%s", folder, name, end);
    FILE *file = fopen(path, "rb");
    *length = 0;
    if (file == NULL) {
        return NULL;
    }
    char *bytes = malloc(ROOM);
    *length = fread(bytes, 1, ROOM, file);
    fclose(file);
    return bytes;
}

/* The script of a run, and its capture if it has one. */
struct given {
    const char *name, *text, *packets;
    size_t text_length, packets_length;
};

static uint32_t run(const struct given *given, const struct spin_buffers *buffers, struct spin_ran *ran) {
    return spin_run(given->text, given->text_length, given->packets, given->packets_length, standing,
                    sizeof standing - 1, buffers, ran);
}

/* Buffers of just this room, filled with 0x5A. */
static struct spin_buffers buffers_for(const struct spin_ran *sizes) {
    struct spin_buffers buffers = {malloc(sizes->report + 1), sizes->report,
                                   malloc((sizes->sends + 1) * sizeof *buffers.sends), sizes->sends,
                                   malloc(sizes->bytes + 1), sizes->bytes};
    memset(buffers.report, 0x5A, sizes->report + 1);
    memset(buffers.sends, 0x5A, (sizes->sends + 1) * sizeof *buffers.sends);
    memset(buffers.bytes, 0x5A, sizes->bytes + 1);
    return buffers;
}

static void free_buffers(const struct spin_buffers *buffers) {
    free(buffers->report);
    free(buffers->sends);
    free(buffers->bytes);
}

/* Whether bytes from one place to another are all 0x5A. */
static int is_untouched(const void *at, size_t from, size_t to) {
    const unsigned char *bytes = at;
    while (from < to && bytes[from] == 0x5A) {
        from++;
    }
    return from == to;
}

/* Whether behind these parts, or everywhere where there are none, buffers for so much are as they were. */
static int is_rest_untouched(const struct spin_buffers *buffers, const struct spin_ran *sizes,
                             const struct spin_ran *parts) {
    const size_t of_send = sizeof *buffers->sends;
    return is_untouched(buffers->report, parts->report, sizes->report + 1) &&
           is_untouched(buffers->sends, parts->sends * of_send, (sizes->sends + 1) * of_send) &&
           is_untouched(buffers->bytes, parts->bytes, sizes->bytes + 1);
}

/* Runs into buffers for so much, which is too little for one part, or for none. */
static void expect_run(const struct given *given, struct spin_ran room, const struct spin_ran *wanted, int is_small) {
    static const struct spin_ran none;
    struct spin_ran ran = {9, 9, 9, 9, 9};
    const struct spin_buffers buffers = buffers_for(&room);
    expect(given->name, run(given, &buffers, &ran), is_small ? SPIN_TOO_SMALL : SPIN_OK);
    if (memcmp(&ran, wanted, sizeof ran) != 0) {
        complain(given->name, "other sizes are told");
    }
    if (!is_rest_untouched(&buffers, &room, is_small ? &none : wanted)) {
        complain(given->name, "what isn't handed out is written to");
    }
    free_buffers(&buffers);
}

/* Whether what endpoint 0 is sent are the pieces of a file: each a length of four bytes, the first the highest, and the
 * bytes. */
static int are_pieces(const struct spin_buffers *buffers, const struct spin_ran *ran, const char *file, size_t length) {
    size_t at = 0;
    for (uint64_t number = 0; number < ran->sends; number++) {
        const struct spin_sending *sent = &buffers->sends[number];
        const char head[4] = {(char)(sent->length >> 24), (char)(sent->length >> 16), (char)(sent->length >> 8),
                              (char)sent->length};
        if (sent->endpoint != 0) {
            continue;
        }
        if (length - at < 4 + sent->length || memcmp(file + at, head, 4) != 0 ||
            memcmp(file + at + 4, (char *)buffers->bytes + sent->at, sent->length) != 0) {
            return 0;
        }
        at += 4 + sent->length;
    }
    return at == length;
}

/* What an example's run hands out, in buffers of its size and in others. */
static void expect_example(const char *folder, const char *name) {
    size_t text_length, packets_length, report_length, sent_length;
    char *text = read_file(folder, name, ".spin", &text_length);
    char *packets = read_file(folder, name, ".pcap", &packets_length);
    char *report = read_file(folder, name, ".report", &report_length);
    char *sent = read_file(folder, name, ".out0", &sent_length);
    const struct given given = {name, text, packets, text_length, packets_length};
    const struct spin_buffers nothing = {NULL, 0, NULL, 0, NULL, 0};
    struct spin_ran sizes = {9, 9, 9, 9, 9};
    expect(name, run(&given, &nothing, &sizes), SPIN_TOO_SMALL);
    const struct spin_buffers buffers = buffers_for(&sizes);
    expect(name, run(&given, &buffers, &sizes), SPIN_OK);
    if (sizes.report != report_length || memcmp(buffers.report, report, report_length) != 0) {
        complain(name, "another report is handed out");
    }
    if (!are_pieces(&buffers, &sizes, sent, sent_length)) {
        complain(name, "other bytes are sent");
    }
    const struct spin_ran more = {sizes.report + 7, sizes.sends + 1, sizes.bytes + 7, 0, 0};
    const struct spin_ran less[3] = {{sizes.report - 1, sizes.sends, sizes.bytes, 0, 0},
                                     {sizes.report + 7, sizes.sends - 1, sizes.bytes + 7, 0, 0},
                                     {sizes.report, sizes.sends + 7, sizes.bytes - 1, 0, 0}};
    expect_run(&given, more, &sizes, 0);
    for (int at = 0; at < (sizes.bytes > 0 ? 3 : 1); at++) {
        expect_run(&given, less[at], &sizes, 1);
    }
    free_buffers(&buffers);
    free(text);
    free(packets);
    free(report);
    free(sent);
}

/* What is told of what is refused, and of what is null. */
static void expect_refusals(void) {
    static const char text[] = "spin 1\nevent 0 0 b last\nendpoint 0 out0\nhandler 1 b send 0 0 0\n"
                               "lane 0 install 0 0 1 0 free plain\nlane 0 raise 0 x0102\n";
    const struct spin_ran room = {ROOM, SENDS, ROOM, 0, 0};
    const struct spin_buffers buffers = buffers_for(&room);
    const struct {
        const char *name, *text, *packets;
        uint32_t error;
        struct spin_ran told;
    } bad[] = {{"no script", "spin 1\nbad\n", NULL, SPIN_BAD_SCRIPT, {0, 0, 0, 2, 4}},
               {"an empty script", "", "", SPIN_BAD_SCRIPT, {0, 0, 0, 1, 3}},
               {"an empty capture", text, "", SPIN_BAD_CAPTURE, {0, 0, 0, 0, 5}},
               {"no capture", text, "no capture in 24 bytes or more", SPIN_BAD_CAPTURE, {0, 0, 0, 0, 2}}};
    for (size_t at = 0; at < sizeof bad / sizeof *bad; at++) {
        const struct given given = {bad[at].name, bad[at].text, bad[at].packets, strlen(bad[at].text),
                                    bad[at].packets == NULL ? 0 : strlen(bad[at].packets)};
        struct spin_ran ran = {9, 9, 9, 9, 9}, none = {0, 0, 0, 0, 0};
        expect(given.name, run(&given, &buffers, &ran), bad[at].error);
        if (memcmp(&ran, &bad[at].told, sizeof ran) != 0 || !is_rest_untouched(&buffers, &room, &none)) {
            complain(given.name, "something else is told, or a buffer is written to");
        }
    }
    struct spin_buffers null[3] = {buffers, buffers, buffers};
    null[0].report = null[2].bytes = NULL;
    null[1].sends = NULL;
    const struct given given = {"a run", text, NULL, sizeof text - 1, 0}, no_text = {"no text", NULL, NULL, 1, 0};
    const struct given no_packets = {"no packets", text, NULL, sizeof text - 1, 1};
    struct spin_ran ran = {9, 9, 9, 9, 9};
    for (int at = 0; at < 3; at++) {
        expect("a null buffer", run(&given, &null[at], &ran), SPIN_NULL);
    }
    expect("null buffers", run(&given, NULL, &ran), SPIN_NULL);
    expect("a null text", run(&no_text, &buffers, &ran), SPIN_NULL);
    expect("null packets", run(&no_packets, &buffers, &ran), SPIN_NULL);
    expect("nowhere to tell", run(&given, &buffers, NULL), SPIN_NULL);
    if (ran.report != 9 || ran.cause != 9) {
        complain("null", "something is told");
    }
    expect("null names", spin_run(text, sizeof text - 1, NULL, 0, NULL, 0, &buffers, &ran), SPIN_OK);
    if (ran.sends != 0 || ran.bytes != 0) {
        complain("null names", "something is sent");
    }
    free_buffers(&buffers);
}

int main(int given, char **words) {
    static const char *const names[] = {"filters", "first", "forced",   "jobs",    "lanes",
                                        "order",   "packets", "policies", "results", "wide"};
    if (given != 2) {
        puts("runs EXAMPLES");
        return 2;
    }
    for (size_t at = 0; at < sizeof names / sizeof *names; at++) {
        expect_example(words[1], names[at]);
    }
    expect_refusals();
    return wrong;
}
