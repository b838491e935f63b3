/* A control loop: each frame makes an object and drops an older one within a budget of counted steps. The bound of each call
 * is known beforehand. A free whose bound does not fit what is left of the budget waits for the next frame. */
#include "norphuen.h"
#include <stdio.h>

enum { FRAMES = 8, BUDGET = 150, QUEUE = 16 };

/* The most steps of a free of this object, by the words of its slot. 0 if the handle is not live. */
static uint64_t bound_of_free(nph_heap *heap, uint32_t handle) {
    uint32_t words;
    return nph_slot_words(heap, handle, &words) == NPH_OK ? nph_most_free(words) : 0;
}

int main(void) {
    static const uint32_t sizes[FRAMES] = {300, 20, 500, 500, 60, 300, 20, 20};
    nph_heap heap = NPH_HEAP;
    nph_freed freed;
    uint32_t queue[QUEUE], first = 0, last = 0;
    uint64_t steps;
    if (nph_open(&heap, 8, 512, 1, QUEUE) != NPH_OK) return 1;
    for (int frame = 0; frame < FRAMES; frame++) {
        uint32_t made = 0, dropped = 0;
        uint64_t left = BUDGET;
        /* Two objects are kept. The oldest ones beyond these are freed first. */
        while (last - first > 2 && bound_of_free(&heap, queue[first % QUEUE]) + 2 * nph_most_malloc() <= left) {
            if (nph_free(&heap, queue[first++ % QUEUE], &freed) != NPH_OK) return 1;
            if (nph_last_steps(&heap, &steps) != NPH_OK) return 1;
            left -= steps;
            dropped++;
        }
        for (int i = 0; i < 2; i++) {
            if (last - first == QUEUE || nph_malloc(&heap, sizes[frame], &queue[last % QUEUE]) != NPH_OK) break;
            if (nph_last_steps(&heap, &steps) != NPH_OK) return 1;
            last++;
            left -= steps;
            made++;
        }
        printf("frame %d: %u made, %u freed, %u waiting, %u of %u steps\n", frame, made, dropped, last - first - 2,
               (unsigned)(BUDGET - left), (unsigned)BUDGET);
    }
    nph_close(&heap);
    return 0;
}
