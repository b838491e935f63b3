/* A program without malloc: norphuen_arena.c takes all memory from a static array. The program runs again and again: it
 * opens two heaps, closes them in the order in which they were opened, and the array serves the next round too. */
#include "norphuen.h"
#include <stdio.h>

/* Opens a heap, and returns how many objects of 176 bytes it holds. */
static unsigned filled(nph_heap *heap, uint32_t pages) {
    uint32_t object;
    unsigned made = 0;
    if (nph_open(heap, pages, 512, 1, 64) != NPH_OK) return 0;
    while (nph_malloc(heap, 176, &object) == NPH_OK) made++;
    return made;
}

int main(void) {
    nph_heap first = NPH_HEAP, second = NPH_HEAP;
    size_t most = 0;
    printf("1024 pages: %d\n", (int)nph_open(&first, 1024, 512, 1, 64));
    for (int round = 1; round <= 3; round++) {
        unsigned in_first = filled(&first, 16), in_second = filled(&second, 8);
        printf("round %d: %u and %u objects\n", round, in_first, in_second);
        nph_close(&first);
        printf("the first again: %u objects\n", filled(&first, 16));
        nph_close(&first);
        nph_close(&second);
        if (round == 1) most = nph_arena_most();
    }
    printf("more memory than in round 1: %s\n", nph_arena_most() == most ? "no" : "yes");
    return 0;
}
