/* A moving, a non-moving, a TLSF and a Half-Fit heap in one program, all open at once, with the same calls: twelve objects fill three
 * pages, each second one is freed, and then there is a malloc of a whole page. The moving heap moves objects, and the
 * non-moving one exchanges blocks of its table, so that both have a page again. TLSF and Half-Fit have as much free memory, in
 * small blocks. Each free has a bound of steps before it is made, by the words of its slot or block. */
#include "norphuen.h"
#include <inttypes.h>
#include <stdio.h>
#include <stdlib.h>

enum { PAGES = 3, PAGE_BYTES = 512, COUNT = 12, BYTES = 112 };

static void must(nph_status status) {
    if (status == NPH_OK) return;
    fprintf(stderr, "%s\n", nph_text(status));
    exit(1);
}

/* The calls, by the names of one library, which begin with `nph`. */
#define PLAY(nph) \
    static void play_##nph(nph##_heap *heap, const char *name) { \
        uint32_t handles[COUNT], page, words, moves = 0; \
        uint64_t steps, bound, most = 0; \
        nph_heap_totals totals; \
        must(nph##_open(heap, PAGES, PAGE_BYTES, 1, COUNT)); \
        for (int i = 0; i < COUNT; i++) must(nph##_malloc(heap, BYTES, &handles[i])); \
        for (int i = 0; i < COUNT; i += 2) { \
            nph_freed freed; \
            must(nph##_slot_words(heap, handles[i], &words)); \
            bound = nph##_most_free(words); \
            must(nph##_free(heap, handles[i], &freed)); \
            must(nph##_last_steps(heap, &steps)); \
            if (steps > bound) exit(1); \
            if (steps > most) most = steps; \
            moves += freed.moved != NPH_NONE; \
        } \
        must(nph##_totals(heap, &totals)); \
        printf("%-10s free %4" PRIu32 " words at most, moves %" PRIu32 ", steps of a free %2" PRIu64 ", at most %2" PRIu64 "; a page: %s\n", name, \
               totals.largest, moves, most, bound, nph_text(nph##_malloc(heap, PAGE_BYTES - 8, &page))); \
    }
PLAY(nph)
PLAY(nph_nm)
PLAY(nph_tlsf)
PLAY(nph_half)

int main(void) {
    nph_heap moving = NPH_HEAP;
    nph_nm_heap nonmoving = NPH_NM_HEAP;
    nph_tlsf_heap tlsf = NPH_TLSF_HEAP;
    nph_half_heap half = NPH_HALF_HEAP;
    play_nph(&moving, "moving");
    play_nph_nm(&nonmoving, "non-moving");
    play_nph_tlsf(&tlsf, "TLSF");
    play_nph_half(&half, "Half-Fit");
    nph_close(&moving);
    nph_nm_close(&nonmoving);
    nph_tlsf_close(&tlsf);
    nph_half_close(&half);
    return 0;
}
