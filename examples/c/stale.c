/* The handle of a freed object is refused, though a new object has its memory and its number. */
#include "norphuen.h"
#include <stdio.h>

int main(void) {
    nph_heap heap = NPH_HEAP;
    uint32_t old, other, length, old_place, place;
    char byte = 'x';
    if (nph_open(&heap, 8, 512, 1, 16) != NPH_OK) return 1;
    if (nph_malloc(&heap, 100, &old) != NPH_OK || nph_place(&heap, old, &old_place) != NPH_OK) return 1;
    if (nph_free(&heap, old, NULL) != NPH_OK) return 1;
    if (nph_malloc(&heap, 100, &other) != NPH_OK || nph_place(&heap, other, &place) != NPH_OK) return 1;
    printf("the new object has the old one's place: %d, and its handle: %d\n", place == old_place, other == old);
    printf("free: %s\n", nph_text(nph_free(&heap, old, NULL)));
    printf("resize: %s\n", nph_text(nph_resize(&heap, old, 50, NULL)));
    printf("write: %s\n", nph_text(nph_write(&heap, old, 0, &byte, 1)));
    printf("read: %s\n", nph_text(nph_read(&heap, old, 0, &byte, 1)));
    printf("length: %s\n", nph_text(nph_length(&heap, old, &length)));
    printf("place: %s\n", nph_text(nph_place(&heap, old, &place)));
    if (nph_length(&heap, other, &length) != NPH_OK) return 1;
    printf("the new object has %u bytes\n", (unsigned)length);
    nph_close(&heap);
    return 0;
}
