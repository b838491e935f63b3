/* Looking inside a heap: bounds of a class before the first object, a walk over the live objects that frees some, and what the
 * heap counted. */
#include "norphuen.h"
#include <stdio.h>

int main(void) {
    nph_heap heap = NPH_HEAP;
    uint32_t objects[8], handle, next, number, length, words;
    uint64_t steps, most = 0;
    nph_class figures;
    nph_counted counted;
    if (nph_open(&heap, 4, 512, 1, 12) != NPH_OK) return 1;

    /* Two of the pages for objects of 100 bytes may be partly full: fewer moves for a page more. */
    if (nph_class_of(&heap, 100, &number) != NPH_OK || nph_figures(&heap, number, &figures) != NPH_OK) return 1;
    words = figures.slot_words;
    printf("k = 65: %s\n", nph_text(nph_set_bound(&heap, words, 65)));
    printf("slots of 1,000 words: %s\n", nph_text(nph_set_bound(&heap, 1000, 2)));
    printf("slots of %u words: %s\n", (unsigned)words, nph_text(nph_set_bound(&heap, words, 2)));

    for (uint32_t i = 0; i < 8; i++)
        if (nph_malloc(&heap, 100 + i, &objects[i]) != NPH_OK) return 1;
    printf("with live objects: %s\n", nph_text(nph_set_bound(&heap, words, 1)));

    /* Every object of an odd length is freed. The next one is asked for before the free. */
    printf("freed:");
    if (nph_next(&heap, NPH_NONE, &handle) != NPH_OK) return 1;
    for (; handle != NPH_NONE; handle = next) {
        if (nph_next(&heap, handle, &next) != NPH_OK || nph_last_steps(&heap, &steps) != NPH_OK) return 1;
        if (steps > most) most = steps;
        if (nph_length(&heap, handle, &length) != NPH_OK) return 1;
        if (length % 2 == 0) continue;
        printf(" %u", (unsigned)length);
        if (nph_free(&heap, handle, NULL) != NPH_OK) return 1;
    }
    printf(" bytes; a call of the walk took at most %u steps\n", (unsigned)most);
    printf("the next object after a freed one: %s\n", nph_text(nph_next(&heap, objects[1], &next)));

    if (nph_malloc(&heap, 5000, &handle) != NPH_SIZE || nph_free(&heap, objects[1], NULL) != NPH_UNKNOWN) return 1;
    if (nph_counts(&heap, &counted) != NPH_OK) return 1;
    printf("at most %u bytes were asked for, and %u pages in use\n", (unsigned)counted.most_asked, (unsigned)(4 - counted.least_free));
    printf("%u objects moved; refused: %u too long, %u unknown\n", (unsigned)counted.moves, (unsigned)counted.size, (unsigned)counted.unknown);
    nph_close(&heap);
    return 0;
}
