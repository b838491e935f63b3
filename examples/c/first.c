/* The shortest program: it opens a heap, makes an object, writes it in place, and prints a copy of it. */
#include "norphuen.h"
#include <stdio.h>
#include <string.h>

int main(void) {
    nph_heap heap = NPH_HEAP;
    uint32_t object, place;
    uint64_t *words;
    char back[6];
    if (nph_open(&heap, 64, 4096, 1, 1000) != NPH_OK) return 1;
    if (nph_malloc(&heap, 100, &object) != NPH_OK) return 1;
    if (nph_place(&heap, object, &place) != NPH_OK || nph_lend(&heap, &words) != NPH_OK) return 1;
    strcpy((char *)nph_bytes(words, place), "hello");
    if (nph_return(&heap) != NPH_OK) return 1;
    if (nph_read(&heap, object, 0, back, 6) != NPH_OK) return 1;
    if (nph_free(&heap, object, NULL) != NPH_OK) return 1;
    nph_close(&heap);
    return puts(back) < 0;
}
