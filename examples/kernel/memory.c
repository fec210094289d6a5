/* The heap, in classes of size, and the few words of a C library that the dispatcher's library wants. */
#include "kernel.h"

enum { HEAP = 64 << 20, SMALLEST = 5, CLASSES = 27, FRONT = 16 };

static uint8_t heap[HEAP] __attribute__((aligned(64)));
static size_t used;
static uint64_t *freed[CLASSES];
static bool is_held;

/* The heap is one processor's at a time, and nothing breaks into that. */
static bool hold(void) {
    const bool were_on = interrupts_off();
    while (__atomic_exchange_n(&is_held, true, __ATOMIC_ACQUIRE)) {}
    return were_on;
}

static void let_go(bool were_on) {
    __atomic_store_n(&is_held, false, __ATOMIC_RELEASE);
    interrupts_back(were_on);
}

/* A block has its class in front, and where it is free the next free one behind that. */
void *malloc(size_t size) {
    size_t class = SMALLEST;
    while (class < CLASSES && (size_t)1 << class < size + FRONT) class++;
    if (class == CLASSES) return NULL;
    const bool were_on = hold();
    uint64_t *block = freed[class];
    if (block) {
        freed[class] = (uint64_t *)block[1];
    } else if (HEAP - used >= (size_t)1 << class) {
        block = (uint64_t *)(heap + used);
        used += (size_t)1 << class;
    }
    let_go(were_on);
    if (!block) return NULL;
    block[0] = class;
    return block + 2;
}

void free(void *at) {
    if (!at) return;
    uint64_t *block = (uint64_t *)at - 2;
    const bool were_on = hold();
    block[1] = (uint64_t)freed[block[0]];
    freed[block[0]] = block;
    let_go(were_on);
}

void *realloc(void *at, size_t size) {
    const size_t room = at ? ((size_t)1 << ((uint64_t *)at)[-2]) - FRONT : 0;
    if (at && size <= room) return at;
    void *more = malloc(size);
    if (more) memcpy(more, at, room), free(at);
    return more;
}

/* These only the plain library calls, for Rust's own. */
void *calloc(size_t count, size_t size) {
    void *at = malloc(count * size);
    return at ? memset(at, 0, count * size) : NULL;
}

int posix_memalign(void **at, size_t alignment, size_t size) {
    *at = alignment > FRONT ? NULL : malloc(size);
    return *at ? 0 : 12;
}
