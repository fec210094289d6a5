/* The second pager has frames of its own, and a page whose first touch is a write may be written to at once. */
#include "kernel.h"

void page_in_elsewhere(const uint64_t *words, uint64_t frame) {
    *(uint64_t *)(frame << 12) = words[0];
    map_page(words[0], frame, words[1] != 0);
    counts[PAGES_ELSEWHERE]++;
}
