/* A heap of each library in one program, all open at once, with the same calls: twelve objects, of which each second one is freed, and
 * a text that is written into another and read back. The calls differ little: those of a heap of tasks name a task, and in a heap
 * with slices the work of a free is done by steps. The last heap, whose objects have ids, is saved too. */
#include "norphuen.h"
#include <inttypes.h>
#include <stdio.h>
#include <stdlib.h>

enum { PAGES = 64, PAGE_BYTES = 512, PROXIES = 128, QUANTUM = 16, TASK = 3, COUNT = 12 };

static uint64_t bytes_of_all;

static void must(nph_status status) {
    if (status == NPH_OK) return;
    fprintf(stderr, "%s\n", nph_text(status));
    exit(1);
}

/* The settings of a heap, with k or without; a task, and a place for what a free tells, if the calls have them. */
#define BOUND_1 1,
#define OF_TASK TASK,
#define AND_NULL , NULL
#define SLICES , QUANTUM
#define NO_MORE

/* The calls by the names of one library, which begin with `nph`, on objects of `bytes` bytes. */
#define PLAY(nph, bytes, K, MORE, WHOSE, FREED, FIRST, AFTER) \
    static void play_##nph(nph##_heap *heap, const char *name) { \
        uint32_t handles[COUNT]; \
        uint64_t steps, malloc_most = 0, free_most = 0; \
        nph_needed needed; \
        char text[6] = ""; \
        must(nph##_bytes_needed(PAGES, PAGE_BYTES, K PROXIES, &needed)); \
        bytes_of_all += needed.total; \
        must(nph##_open(heap, PAGES, PAGE_BYTES, K PROXIES MORE)); \
        FIRST; \
        for (int i = 0; i < COUNT; i++) { \
            must(nph##_malloc(heap, WHOSE bytes, &handles[i])); \
            must(nph##_last_steps(heap, &steps)); \
            if (steps > malloc_most) malloc_most = steps; \
        } \
        must(nph##_write(heap, WHOSE handles[1], bytes - 6, "hello", 6)); \
        for (int i = 0; i < COUNT; i += 2) { \
            must(nph##_free(heap, WHOSE handles[i] FREED)); \
            must(nph##_last_steps(heap, &steps)); \
            if (steps > free_most) free_most = steps; \
            AFTER; \
        } \
        must(nph##_read(heap, WHOSE handles[1], bytes - 6, text, 6)); \
        printf("%-12s %d objects of %4d bytes, steps of a malloc %3" PRIu64 ", of a free %3" PRIu64 ", %s\n", name, COUNT, bytes, \
               malloc_most, free_most, text); \
    }

static void all_slices(nph_sliced_heap *heap) {
    uint32_t left = 0;
    for (must(nph_sliced_left(heap, &left)); left > 0; must(nph_sliced_left(heap, &left))) must(nph_sliced_step(heap));
}

PLAY(nph, 112, BOUND_1, NO_MORE, NO_MORE, AND_NULL, , )
PLAY(nph_nm, 112, BOUND_1, NO_MORE, NO_MORE, AND_NULL, , )
PLAY(nph_tlsf, 112, BOUND_1, NO_MORE, NO_MORE, AND_NULL, , )
PLAY(nph_half, 112, BOUND_1, NO_MORE, NO_MORE, AND_NULL, , )
PLAY(nph_sliced, 112, NO_MORE, SLICES, NO_MORE, NO_MORE, , all_slices(heap))
PLAY(nph_tasks, 112, NO_MORE, NO_MORE, OF_TASK, AND_NULL, must(nph_tasks_set_quota(heap, TASK, 8)), )
PLAY(nph_large, 1200, NO_MORE, NO_MORE, NO_MORE, NO_MORE, , )

static void play_images(nph_images_heap *heap) {
    uint64_t image_bytes, offset;
    nph_needed needed;
    char text[6] = "";
    static unsigned char image[2048];
    must(nph_images_bytes_needed(PAGES, PAGE_BYTES, 1, PROXIES, &needed));
    bytes_of_all += needed.total;
    must(nph_images_open(heap, PAGES, PAGE_BYTES, 1, PROXIES));
    for (uint32_t id = 0; id < COUNT; id++) must(nph_images_make(heap, id, 112));
    must(nph_images_write(heap, 1, 106, "hello", 6));
    for (uint32_t id = 0; id < COUNT; id += 2) must(nph_images_free(heap, id));
    must(nph_images_save(heap, image, sizeof image, &image_bytes));
    nph_images_close(heap);
    must(nph_images_load(heap, image, (size_t)image_bytes, 1, &offset));
    must(nph_images_read(heap, 1, 106, text, 6));
    printf("%-12s %d objects of %4d bytes, saved and loaded again, %s\n", "with images", COUNT, 112, text);
}

int main(void) {
    nph_heap moving = NPH_HEAP;
    nph_nm_heap nonmoving = NPH_NM_HEAP;
    nph_tlsf_heap tlsf = NPH_TLSF_HEAP;
    nph_half_heap half = NPH_HALF_HEAP;
    nph_sliced_heap sliced = NPH_SLICED_HEAP;
    nph_tasks_heap tasks = NPH_TASKS_HEAP;
    nph_large_heap large = NPH_LARGE_HEAP;
    nph_images_heap images = NPH_IMAGES_HEAP;
    play_nph(&moving, "moving");
    play_nph_nm(&nonmoving, "non-moving");
    play_nph_tlsf(&tlsf, "TLSF");
    play_nph_half(&half, "Half-Fit");
    play_nph_sliced(&sliced, "in slices");
    play_nph_tasks(&tasks, "of tasks");
    play_nph_large(&large, "long objects");
    play_images(&images);
    printf("%" PRIu64 " bytes for all\n", bytes_of_all);
    nph_close(&moving);
    nph_nm_close(&nonmoving);
    nph_tlsf_close(&tlsf);
    nph_half_close(&half);
    nph_sliced_close(&sliced);
    nph_tasks_close(&tasks);
    nph_large_close(&large);
    nph_images_close(&images);
    return 0;
}
