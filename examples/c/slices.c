/* A control loop whose every cycle has the same bound. A free leaves its work as a job, and each cycle does slices of it until
 * its budget of counted steps is spent, however large the freed object was. */
#include "norphuen.h"
#include <stdio.h>

enum { CYCLES = 14, BUDGET = 130, QUANTUM = 32, QUEUE = 8, KEPT = 4 };

static uint64_t taken(nph_sliced_heap *heap) {
    uint64_t steps = 0;
    return nph_sliced_last_steps(heap, &steps) == NPH_OK ? steps : UINT64_MAX;
}

int main(void) {
    static const uint32_t sizes[CYCLES] = {1000, 1000, 1000, 1000, 1000, 3000, 40, 1000, 100, 1000, 500, 60, 1000, 20};
    nph_sliced_heap heap = NPH_SLICED_HEAP;
    uint32_t queue[QUEUE], first = 0, last = 0, words, moving;
    if (nph_sliced_open(&heap, 8, 4096, QUEUE, QUANTUM) != NPH_OK) return 1;
    for (int cycle = 0; cycle < CYCLES; cycle++) {
        uint64_t left = BUDGET;
        unsigned slices = 0, freed = 0, made = 0;
        /* Slices first: the next free needs an idle heap. */
        while (nph_sliced_left(&heap, &words) == NPH_OK && words > 0 && nph_sliced_most_step(QUANTUM) <= left) {
            if (nph_sliced_step(&heap) != NPH_OK) return 1;
            left -= taken(&heap);
            slices++;
        }
        if (last - first > KEPT && words == 0 && nph_sliced_most_free(QUANTUM) + nph_sliced_most_malloc() <= left) {
            if (nph_sliced_free(&heap, queue[first++ % QUEUE]) != NPH_OK) return 1;
            left -= taken(&heap);
            freed++;
        }
        if (last - first < QUEUE && nph_sliced_most_malloc() <= left) {
            if (nph_sliced_malloc(&heap, sizes[cycle], &queue[last % QUEUE]) == NPH_OK) {
                last++;
                made++;
            }
            left -= taken(&heap);
        }
        if (nph_sliced_left(&heap, &words) != NPH_OK || nph_sliced_moving(&heap, &moving) != NPH_OK) return 1;
        printf("cycle %2d: %u slices, %u freed, %u made, %3u of %u steps; %3u words left%s\n", cycle, slices, freed, made,
               (unsigned)(BUDGET - left), (unsigned)BUDGET, (unsigned)words, moving == NPH_NONE ? "" : " of a move");
    }
    nph_sliced_close(&heap);
    return 0;
}
