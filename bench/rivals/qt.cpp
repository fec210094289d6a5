// Qt's signals, of an object whose class moc has read.
#include "rival.h"

#include <QObject>

class Raiser : public QObject {
    Q_OBJECT
  signals:
    void raised(quint64 word, uint64_t *result);
};

static Raiser raiser;

static void bind_all(handler *handlers, size_t count) {
    for (size_t at = 0; at < count; at++) {
        const handler *self = &handlers[at];
        QObject::connect(&raiser, &Raiser::raised,
                         [self](quint64 word, uint64_t *result) { handle(self, word, result); });
    }
}

static uint64_t raise_word(uint64_t word) {
    uint64_t result = 0;
    emit raiser.raised(word, &result);
    return result;
}

#include "qt.moc"
