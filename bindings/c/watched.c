/* What code calls that rustc builds for its sanitiser of threads, and cc's has under other names: each is watched there. */
#include <string.h>

void *__tsan_memcpy(void *to, const void *from, size_t count);
void *__tsan_memmove(void *to, const void *from, size_t count);
void *__tsan_memset(void *at, int byte, size_t count);

void *__tsan_memcpy(void *to, const void *from, size_t count) { return memcpy(to, from, count); }

void *__tsan_memmove(void *to, const void *from, size_t count) { return memmove(to, from, count); }

void *__tsan_memset(void *at, int byte, size_t count) { return memset(at, byte, count); }
