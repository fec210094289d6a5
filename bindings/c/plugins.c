/* A host whose plug-ins are functions: it counts packets, and tells the first one to a name server. */
#include "spin_host.h"
#include <stdio.h>
static const struct spin_named events[] = {{"Net.Packet", "Bw:w", "fold + a0 a1", 0}, {"Net.Name", "b", NULL, 0}, {0}};
static struct spin_host host;
static struct spin_table table;
static struct spin_answer answer;
static size_t length, tag = 2;
static enum spin_outcome strip_tag(void *size, struct spin_call *call) { /* for those behind */
    const uint8_t *packet = spin_call_bytes(call, 0, &length) + *(size_t *)size;
    return spin_call_set_bytes(call, 0, packet, length - *(size_t *)size) ? SPIN_STOP : SPIN_HANDLED;
}
static int is_for_names(void *server, struct spin_call *call) { return spin_call_word(call, 1) == *(uint64_t *)server; }
static enum spin_outcome to_name_server(void *server, struct spin_call *call) { /* upwards, from within */
    const uint32_t error = spin_call_raise(call, spin_event_named(&host, "Net.Name"), call->args, 1, &answer);
    return error || spin_call_result(call, ((uint64_t *)server)[1]) ? SPIN_STOP : SPIN_HANDLED;
}
static enum spin_outcome count(void *bytes, struct spin_call *call) {
    return spin_call_bytes(call, 0, bytes) && spin_call_result(call, *(size_t *)bytes) ? SPIN_STOP : SPIN_HANDLED;
}
static enum spin_outcome first_name(void *label, struct spin_call *call) { /* what is raised later doesn't see it */
    printf("%s: %.4s\n", (const char *)label, (const char *)spin_call_bytes(call, 0, &length));
    return spin_unbind(&host, &table, 1, call->number, 0, &answer) ? SPIN_STOP : SPIN_HANDLED;
}
int main(void) {
    uint64_t server[2] = {53, 100}, ports[3] = {53, 80, 53};
    const struct spin_function plugins[4] = {{strip_tag, NULL, &tag, ""}, {to_name_server, is_for_names, server, ""},
                                             {count, NULL, &length, ""}, {first_name, NULL, "name", ""}};
    const struct spin_command_words how[4] = {{.mode = SPIN_FILTER}, {0}, {0}, {.event = 1}};
    uint32_t error = spin_host_open(&host, 1, &(struct spin_declared){.events = events}, &answer);
    for (int at = 0; at < 4 && !error; at++) {
        error = spin_bind(&host, &table, &how[at], plugins[at], &answer);
    }
    for (int at = 0; at < 3 && !error; at++) {
        const struct spin_value args[2] = {spin_value_bytes("\0\7name", 6), spin_value_word(ports[at])};
        error = spin_raise_with(&host, &table, spin_event_named(&host, "Net.Packet"), args, 2, &answer);
        printf("%u %u\n", (unsigned)ports[at], (unsigned)answer.value);
    }
    return spin_host_close(&host, &(int){0}) || spin_table_free(&table) || error;
}
