/* GLib's signals: g_signal_emit of a signal of an object, by the marshaller that GLib has for such arguments. */
#include "rival.h"

#include <glib-object.h>

static GObject *object;
static guint signal_number;

static void on_raised(GObject *from, guint word, gpointer result, gpointer self) {
    (void)from;
    handle(self, word, result);
}

static void bind_all(struct handler *handlers, size_t count) {
    object = g_object_new(G_TYPE_OBJECT, NULL);
    signal_number = g_signal_new("raised", G_TYPE_OBJECT, G_SIGNAL_RUN_LAST, 0, NULL, NULL,
                                 g_cclosure_marshal_VOID__UINT_POINTER, G_TYPE_NONE, 2, G_TYPE_UINT, G_TYPE_POINTER);
    g_signal_set_va_marshaller(signal_number, G_TYPE_OBJECT, g_cclosure_marshal_VOID__UINT_POINTERv);
    for (size_t at = 0; at < count; at++) {
        g_signal_connect(object, "raised", G_CALLBACK(on_raised), &handlers[at]);
    }
}

static uint64_t raise_word(uint64_t word) {
    uint64_t result = 0;
    g_signal_emit(object, signal_number, 0, (guint)word, &result);
    return result;
}
