/* The machine: its serial line, its clock, and the pages of the region. */
#include "kernel.h"

enum { SERIAL = 0x3f8, PIC = 0x20, OTHER_PIC = 0xa0, CLOCK = 0x40, RATE = 1193182 / 100, EXIT = 0xf4 };

extern uint64_t level2[];
static uint64_t pages[REGION_PAGES] __attribute__((aligned(4096)));

static void out(uint16_t port, uint8_t value) { __asm__ volatile("outb %0, %1" ::"a"(value), "Nd"(port)); }

static uint8_t in(uint16_t port) {
    uint8_t value;
    __asm__ volatile("inb %1, %0" : "=a"(value) : "Nd"(port));
    return value;
}

bool interrupts_off(void) {
    uint64_t flags;
    __asm__ volatile("pushfq; pop %0; cli" : "=r"(flags)::"memory");
    return flags >> 9 & 1;
}

void interrupts_back(bool were_on) {
    if (were_on) __asm__ volatile("sti" ::: "memory");
}

void put(const char *bytes, size_t length) {
    for (size_t at = 0; at < length; at++) {
        while (at % 16 == 0 && !(in(SERIAL + 5) & 0x20)) {}
        out(SERIAL, (uint8_t)bytes[at]);
    }
}

void put_number(uint64_t number) {
    char digits[20];
    size_t at = sizeof digits;
    do digits[--at] = (char)('0' + number % 10);
    while (number /= 10);
    put(digits + at, sizeof digits - at);
}

/* A line of what the kernel tells. */
void tell(const char *what, uint64_t number) {
    put("kernel: ", 8), put(what, strlen(what)), put(" ", 1), put_number(number), put("\n", 1);
}

/* The next key of the serial line; -1 where none waits. */
int read_key(void) { return in(SERIAL + 5) & 1 ? in(SERIAL) : -1; }

void end_interrupt(void) { out(PIC, 0x20); }

/* Ends the machine; qemu's own status is then twice this one and one. */
_Noreturn void stop(const char *why, uint8_t status) {
    tell(why, status);
    out(EXIT, status);
    for (;;) __asm__ volatile("cli; hlt");
}

void map_page(uint64_t page, uint64_t frame, bool is_writable) {
    pages[page % REGION_PAGES] = frame << 12 | (is_writable ? 3 : 1);
    __asm__ volatile("invlpg (%0)" ::"r"(page << 12) : "memory");
}

void allow_write(uint64_t page) { map_page(page, pages[page % REGION_PAGES] >> 12, true); }

/* The clock ticks as trap 32 and keys come as trap 36, once interrupts are on; every other interrupt stays off. */
void start_machine(void) {
    static const uint16_t settings[][2] = {
        {SERIAL + 3, 0x80}, {SERIAL, 1},       {SERIAL + 1, 0},        {SERIAL + 3, 3},   {SERIAL + 2, 1},
        {SERIAL + 4, 11},   {SERIAL + 1, 1},   {PIC, 0x11},            {PIC + 1, 32},     {PIC + 1, 4},
        {PIC + 1, 1},       {PIC + 1, 0xee},   {OTHER_PIC, 0x11},      {OTHER_PIC + 1, 40}, {OTHER_PIC + 1, 2},
        {OTHER_PIC + 1, 1}, {OTHER_PIC + 1, 0xff}, {CLOCK + 3, 0x36},  {CLOCK, RATE & 0xff}, {CLOCK, RATE >> 8}};
    for (size_t at = 0; at < sizeof settings / sizeof *settings; at++) out(settings[at][0], (uint8_t)settings[at][1]);
    level2[REGION >> 9] = (uint64_t)pages | 3;
}
