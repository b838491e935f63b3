/* A heap with just the pages that the program needs. It has at most the objects of `needs` live at one time, so
 * nph_pages_needed says how many pages are enough. With them 100,000 drawn calls are served. With a page less one malloc
 * fails if all objects are made. */
#include "norphuen.h"
#include <inttypes.h>
#include <stdio.h>
#include <stdlib.h>

enum { PAGE_BYTES = 512, KINDS = 3, OBJECTS = 28, CALLS = 100000 };
static const nph_need needs[KINDS] = {{24, 20}, {176, 6}, {400, 2}};

/* The live objects: their handles, and the kind of each. */
static uint32_t handles[OBJECTS], live[KINDS], count;
static int kinds[OBJECTS];

static void must(nph_status status) {
    if (status == NPH_OK) return;
    fprintf(stderr, "%s\n", nph_text(status));
    exit(1);
}

static nph_status make(nph_heap *heap, int kind) {
    nph_status status = nph_malloc(heap, needs[kind].bytes, &handles[count]);
    if (status == NPH_OK) kinds[count++] = kind, live[kind]++;
    return status;
}

/* Frees the object at this place of the list; the last one goes there. */
static nph_status drop(nph_heap *heap, uint32_t at) {
    nph_status status = nph_free(heap, handles[at], NULL);
    live[kinds[at]]--;
    count--;
    handles[at] = handles[count], kinds[at] = kinds[count];
    return status;
}

/* A number below `below`, drawn. */
static uint32_t drawn(uint32_t below) {
    static uint32_t state = 1;
    state = state * 1664525u + 1013904223u;
    return (state >> 8) % below;
}

/* Opens a heap, and makes all objects. */
static nph_status open_and_fill(nph_heap *heap, uint32_t pages) {
    nph_status status = nph_open(heap, pages, PAGE_BYTES, 1, OBJECTS);
    for (int kind = 0; kind < KINDS; kind++)
        for (uint32_t n = 0; n < needs[kind].count && status == NPH_OK; n++) status = make(heap, kind);
    return status;
}

int main(void) {
    nph_heap heap = NPH_HEAP;
    uint32_t pages;
    must(nph_pages_needed(PAGE_BYTES, 1, needs, KINDS, &pages));
    printf("%" PRIu32 " pages of %d bytes are enough\n", pages, PAGE_BYTES);

    must(open_and_fill(&heap, pages));
    for (int call = 0; call < CALLS; call++) {
        int kind = (int)drawn(KINDS);
        must(live[kind] < needs[kind].count ? make(&heap, kind) : drop(&heap, drawn(count)));
    }
    printf("%d calls: %s\n", CALLS, nph_text(NPH_OK));
    nph_close(&heap);
    live[0] = live[1] = live[2] = count = 0;

    nph_status status = open_and_fill(&heap, pages - 1);
    printf("%" PRIu32 " pages: object %" PRIu32 " of %d: %s\n", pages - 1, count + 1, OBJECTS, nph_text(status));
    nph_close(&heap);
    return 0;
}
