/* The session of the README: four objects of 176 bytes on two pages. The second free moves object b, whose handle and
 * bytes stay. Then most other calls and codes. */
#include "norphuen.h"
#include <stdio.h>

static nph_heap heap = NPH_HEAP;
static uint32_t b;

/* Makes an object, prints the code, and returns the handle. */
static uint32_t make(uint32_t bytes) {
    uint32_t handle = NPH_NONE;
    printf("malloc %u: %d\n", bytes, (int)nph_malloc(&heap, bytes, &handle));
    return handle;
}

/* Frees an object, and prints the code, whether b moved, and the steps. */
static void release(const char *name, uint32_t handle) {
    nph_freed freed = {0, NPH_NONE};
    uint64_t steps = 0;
    int code = nph_free(&heap, handle, &freed);
    if (nph_last_steps(&heap, &steps) != NPH_OK) steps = 0;
    printf("free %s: %d, %u words, moved %s, %u steps\n", name, code, freed.slot_words,
           freed.moved == NPH_NONE ? "none" : freed.moved == b ? "b" : "another", (unsigned)steps);
}

/* Prints the first two bytes of an object. */
static void read_two(uint32_t handle) {
    uint8_t bytes[2] = {0, 0};
    int code = nph_read(&heap, handle, 0, bytes, 2);
    printf("read: %d, %02x%02x\n", code, bytes[0], bytes[1]);
}

int main(void) {
    uint8_t bytes[8] = {0xca, 0xfe, 0, 0, 0, 0, 0, 0};
    uint32_t length = 0, place = 0;
    uint64_t *words = NULL;
    nph_resized resized = {0, 0, NPH_NONE};
    nph_class figures = {0, 0, 0, 0, 0};
    nph_heap_totals totals = {0, 0, 0, 0, 0, 0, 0};

    make(8);
    printf("open: %d", (int)nph_open(&heap, 0, 512, 1, 8));
    printf(" %d", (int)nph_open(&heap, 2, 500, 1, 8));
    printf(" %d", (int)nph_open(&heap, 2, 512, 65, 8));
    printf(" %d", (int)nph_open(&heap, 2, 512, 1, 0));
    printf(" %d", (int)nph_open(&heap, 4096, 131072, 1, 8));
    printf(" %d", (int)nph_open(&heap, 2, 512, 1, 4));
    printf(" %d\n", (int)nph_open(&heap, 2, 512, 1, 4));

    uint32_t a = make(176);
    b = make(176);
    uint32_t c = make(176), d = make(176);
    printf("room for 8 bytes: %d, for 505: %d\n", (int)nph_has_room(&heap, 8), (int)nph_has_room(&heap, 505));
    make(8);
    printf("write: %d\n", (int)nph_write(&heap, b, 0, bytes, 2));
    release("a", a);
    release("c", c);
    read_two(b);

    printf("place of b: %d", (int)nph_place(&heap, b, &place));
    printf(", %u; of a: %d\n", place, (int)nph_place(&heap, a, &place));
    printf("lend: %d", (int)nph_lend(&heap, &words));
    uint8_t *in_place = (uint8_t *)nph_bytes(words, place);
    printf(", %02x%02x; free of b: %d, open: %d, lend: %d\n", in_place[0], in_place[1], (int)nph_free(&heap, b, NULL),
           (int)nph_open(&heap, 2, 512, 1, 4), (int)nph_lend(&heap, &words));
    printf("return: %d", (int)nph_return(&heap));
    printf(" %d, %s\n", (int)nph_return(&heap), nph_text(NPH_NOT_LENT));

    printf("length: %d", (int)nph_length(&heap, b, &length));
    printf(", %u; of a: %d\n", length, (int)nph_length(&heap, a, &length));
    printf("resize: %d", (int)nph_resize(&heap, b, 20, &resized));
    printf(", %u to %u words\n", resized.old_slot_words, resized.slot_words);
    read_two(b);
    printf("class 11: %d", (int)nph_figures(&heap, 11, &figures));
    printf(", %u words, %u slots, %u live, %u pages, %u partly full\n", figures.slot_words, figures.slots, figures.live,
           figures.pages, figures.not_full);
    printf("class 20: %d\n", (int)nph_figures(&heap, 20, &figures));
    printf("totals: %d", (int)nph_totals(&heap, &totals));
    printf(", asked %u, taken %u, held %u, live %u, used %u, free %u, largest %u\n", (unsigned)totals.asked,
           (unsigned)totals.taken, (unsigned)totals.held, totals.live, totals.used, totals.free, totals.largest);

    release("a", a);
    printf("read of a: %d, past the end of b: %d\n", (int)nph_read(&heap, a, 0, bytes, 8), (int)nph_read(&heap, b, 13, bytes, 8));
    printf("write past the end of d: %d\n", (int)nph_write(&heap, d, 175, bytes, 2));
    make(8);
    make(505);
    make(300);
    nph_close(&heap);
    nph_close(&heap);
    release("b", b);
    return 0;
}
