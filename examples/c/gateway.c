/* The program of docs/TUTORIAL.md: a gateway with at most the objects of examples/demands/sizes.txt, on the settings that
 * tools/plan prints for them. No malloc is refused, and no object moves. */
#include "norphuen.h"
#include <stdio.h>
#include <stdlib.h>
#include <string.h>

enum { MESSAGE, TIMER, FRAME, PACKET, KINDS };
static const uint32_t most[KINDS] = {200, 100, 40, 10}, bytes[KINDS] = {64, 128, 512, 1500};
enum { PAGES = 9, PAGE_BYTES = 8192, K = 4, OBJECTS = 350, MALLOC_MOST = 17, FREE_MOST = 217 };

static nph_heap heap;
static uint32_t handles[KINDS][200], live[KINDS], moves;
static uint64_t longest_malloc, longest_free;

/* Ends the program on a status that it does not expect. */
static void must(nph_status status) {
    if (status == NPH_OK) return;
    fprintf(stderr, "gateway: %s\n", nph_text(status));
    exit(1);
}

/* The steps of the last call, or those before if they are more. */
static uint64_t longer(uint64_t longest) {
    uint64_t steps;
    must(nph_last_steps(&heap, &steps));
    return steps > longest ? steps : longest;
}

/* Makes an object of a kind and fills it in place. */
static void receive(int kind) {
    uint32_t object, place;
    uint64_t *words;
    must(nph_malloc(&heap, bytes[kind], &object));
    longest_malloc = longer(longest_malloc);
    must(nph_place(&heap, object, &place));
    must(nph_lend(&heap, &words));
    memset(nph_bytes(words, place), kind + 1, bytes[kind]);
    must(nph_return(&heap));
    handles[kind][live[kind]++] = object;
}

/* Reads the last byte of an object, and frees it. */
static void handle(int kind, uint32_t index) {
    uint32_t object = handles[kind][index];
    nph_freed freed;
    uint8_t last;
    must(nph_read(&heap, object, bytes[kind] - 1, &last, 1));
    if (last != kind + 1) exit(1);
    must(nph_free(&heap, object, &freed));
    longest_free = longer(longest_free);
    moves += freed.moved != NPH_NONE;
    handles[kind][index] = handles[kind][--live[kind]];
}

/* A drawn number below `n`. */
static uint32_t draw(uint32_t n) {
    static uint64_t state = 1;
    state = state * 6364136223846793005u + 1442695040888963407u;
    return (uint32_t)(state >> 33) % n;
}

int main(void) {
    nph_needed needed;
    nph_heap_totals totals;
    uint32_t received = 0, used = 0;
    must(nph_bytes_needed(PAGES, PAGE_BYTES, K, OBJECTS, &needed));
    must(nph_open(&heap, PAGES, PAGE_BYTES, K, OBJECTS));
    for (int i = 0; i < 100000; i++) {
        int kind = (int)draw(KINDS);
        uint32_t chance = i / 4000 % 2 == 0 ? 3 : 1; /* of four: the gateway fills up, and runs empty */
        if (live[kind] < most[kind] && draw(4) < chance) receive(kind), received++;
        else if (live[kind] > 0) handle(kind, draw(live[kind]));
        must(nph_totals(&heap, &totals));
        if (totals.used > used) used = totals.used;
    }
    printf("%u received, none refused, %u moved; %u of %d pages\n", (unsigned)received, (unsigned)moves, (unsigned)used, PAGES);
    printf("longest malloc %u of %d steps, longest free %u of %d\n", (unsigned)longest_malloc, MALLOC_MOST,
           (unsigned)longest_free, FREE_MOST);
    printf("memory: %u bytes in %u blocks\n", (unsigned)needed.total, (unsigned)needed.blocks);
    nph_close(&heap);
    return 0;
}
