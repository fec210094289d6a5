/* GLib's list of hooks, the lightest that it has for such a thing. */
#include "rival.h"

#include <glib.h>

static GHookList list;

struct raised {
    uint64_t word, result;
};

static void bind_all(struct handler *handlers, size_t count) {
    g_hook_list_init(&list, sizeof(GHook));
    for (size_t at = 0; at < count; at++) {
        GHook *hook = g_hook_alloc(&list);
        hook->data = &handlers[at];
        g_hook_append(&list, hook);
    }
}

static void on_raised(GHook *hook, gpointer raised) {
    struct raised *at = raised;
    handle(hook->data, at->word, &at->result);
}

static uint64_t raise_word(uint64_t word) {
    struct raised raised = {word, 0};
    g_hook_list_marshal(&list, FALSE, on_raised, &raised);
    return raised.result;
}
