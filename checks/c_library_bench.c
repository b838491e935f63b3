/* Applies the generated commands of a seed (docs/USING.md) through the C library, and prints the line of mode `bench`.
 * checks/c_library compares it with cf_tool's. Arguments: the seed and the count. */
#include "norphuen.h"

#include <inttypes.h>
#include <stdio.h>
#include <stdlib.h>

/* The state of SplitMix64. */
static uint64_t state;
/* The handle of each id, NPH_NONE if the id is not live. */
static uint32_t handles[4096];

/* The next word of SplitMix64. */
static uint64_t next_word(void) {
    uint64_t z = state += 0x9e3779b97f4a7c15u;
    z = (z ^ (z >> 30)) * 0xbf58476d1ce4e5b9u;
    z = (z ^ (z >> 27)) * 0x94d049bb133111ebu;
    return z ^ (z >> 31);
}

/* Applies the command that the word g makes. Returns the library's code, NPH_UNKNOWN if the id allows no call. */
static int32_t apply(nph_heap *heap, uint64_t g, uint64_t *moves) {
    uint32_t *handle = &handles[g % 4096];
    uint8_t bytes[8];
    nph_freed freed;
    switch ((g >> 12) % 8) {
    case 0: case 1: case 2:
        if (*handle != NPH_NONE) return NPH_UNKNOWN;
        return nph_malloc(heap, (uint32_t)((g >> 16) % ((g >> 32) % 8 == 0 ? 16384 : 1024)), handle);
    case 3: case 4: {
        if (*handle == NPH_NONE) return NPH_UNKNOWN;
        int32_t code = nph_free(heap, *handle, &freed);
        *handle = NPH_NONE;
        *moves += freed.moved != NPH_NONE;
        return code;
    }
    case 5:
        if (*handle == NPH_NONE) return NPH_UNKNOWN;
        for (int i = 0; i < 8; i++) bytes[i] = (uint8_t)(g >> 8 * i);
        return nph_write(heap, *handle, 0, bytes, 8);
    default:
        if (*handle == NPH_NONE) return NPH_UNKNOWN;
        return nph_read(heap, *handle, 0, bytes, 8);
    }
}

int main(int argc, char **argv) {
    nph_heap heap = NPH_HEAP;
    nph_heap_totals totals;
    uint64_t count, ok = 0, refused = 0, moves = 0;
    if (argc != 3 || nph_open(&heap, 64, 16384, 1, 4096) != NPH_OK) return 1;
    state = strtoull(argv[1], NULL, 10);
    count = strtoull(argv[2], NULL, 10);
    for (int i = 0; i < 4096; i++) handles[i] = NPH_NONE;
    for (uint64_t i = 0; i < count; i++) {
        int32_t code = apply(&heap, next_word(), &moves);
        ok += code == NPH_OK;
        refused += code >= NPH_SIZE && code <= NPH_SPACE;
    }
    if (nph_totals(&heap, &totals) != NPH_OK) return 1;
    printf("bench commands %" PRIu64 " ok %" PRIu64 " refused %" PRIu64 " live %" PRIu32 " pages %" PRIu32 " moves %" PRIu64 "\n",
           count, ok, refused, totals.live, totals.used, moves);
    nph_close(&heap);
    return 0;
}
