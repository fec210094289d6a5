/* The demand pager: a page is mapped where it is first touched, for reading alone. */
#include "kernel.h"

static struct bound *pager;

/* Fills the frame that the handler gave with what the page has, its number, and maps it. */
static void page_in(const uint64_t *words, uint64_t frame) {
    *(uint64_t *)(frame << 12) = words[0];
    map_page(words[0], frame, false);
    counts[PAGES_IN]++;
}

void bind_pager(void) {
    pager = bind(&(struct spin_command_words){
                     .event = PAGE_NOT_PRESENT, .requester = PAGERS, .handler = PAGE_IN, .guard = IN_REGION}, page_in);
}

/* Another pager takes this one's place, under its number and while faults come. */
void replace_pager(void) { rebind(pager, PAGE_IN_ELSEWHERE, page_in_elsewhere); }
