/* Memory for Norphuen from a static array, in place of malloc. Compile this file with the size of the array, and link it
 * with the library:
 *
 *   cc -DNPH_ARENA_BYTES=1048576 -Iinclude -c src/norphuen_arena.c
 *
 * Several heaps may be open at once, as long as the array has room. Only nph_open, nph_images_load and
 * nph_close use it.
 *
 *   - A block goes to the first gap that is large enough, from the start of the array on. So its place depends on the
 *     blocks in use alone, and a heap that was closed opens again with the same settings while the others stay as they
 *     are.
 *   - A block takes a head of 16 bytes, and its own bytes are rounded up to a multiple of 16. nph_arena_most() returns how
 *     many bytes of the array were in use so far, from its start: an array of this size serves the same calls.
 *   - A call visits each block and gap at most twice. nph_open makes a few dozen of them.
 *
 * There is no lock: one call of nph_open, nph_images_load, nph_close or nph_arena_most at a time, in all threads. */
#include "norphuen.h"
#include <stdalign.h>
#include <string.h>

#ifndef NPH_ARENA_BYTES
#error "NPH_ARENA_BYTES is the size of the static array, in bytes"
#endif

/* The head in front of a block, and the unit of the array. `units` counts the head too. */
typedef struct head {
    alignas(16) size_t units;
    size_t is_used;
} head;

enum { UNIT = sizeof(head), UNITS = (NPH_ARENA_BYTES) / UNIT };
_Static_assert(UNIT == 16, "the libraries are for processors with 64 bits");
_Static_assert(UNITS >= 2, "NPH_ARENA_BYTES is too small for a block");

/* Blocks and gaps, one behind the other, each with a head. Neighbouring gaps are joined when a search meets them. */
static head arena[UNITS];
static head *const end = arena + UNITS;
static size_t most;

/* The units of a block of `bytes` bytes, which is at most UNITS if there is room for it. */
static size_t units_of(size_t bytes) {
    return bytes > (size_t)NPH_ARENA_BYTES ? (size_t)UNITS + 1 : 1 + (bytes + UNIT - 1) / UNIT;
}

/* Joins the gaps behind a block or gap to it, while it has fewer than `units` units. */
static void join(head *at, size_t units) {
    while (at->units < units && at + at->units < end && !at[at->units].is_used) at->units += at[at->units].units;
}

/* Makes a block of the first `units` units, and a gap of the rest. */
static void take(head *at, size_t units) {
    size_t past = (size_t)(at - arena) + units;
    if (at->units > units) {
        at[units].units = at->units - units;
        at[units].is_used = 0;
    }
    at->units = units;
    at->is_used = 1;
    if (past > most) most = past;
}

nph_block rattle_alloc(size_t bytes, size_t align) {
    size_t units = units_of(bytes);
    nph_block block = {false, arena}; /* an address that isn't null */
    head *at;
    (void)align; /* at most 16 */
    if (arena->units == 0) arena->units = UNITS; /* at first: one gap */
    for (at = arena; at < end; at += at->units) {
        if (at->is_used) continue;
        join(at, units);
        if (at->units < units) continue;
        take(at, units);
        block.ok = true;
        block.at = at + 1;
        return block;
    }
    return block;
}

/* Stays where it is if the gap behind it has room. */
nph_block rattle_realloc(void *at, size_t kept, size_t bytes, size_t align) {
    size_t units = units_of(bytes);
    head *old = (head *)at - 1;
    nph_block block = {true, at};
    size_t had = old->units;
    join(old, units);
    if (old->units >= units) {
        take(old, units);
        return block;
    }
    take(old, had);
    block = rattle_alloc(bytes, align);
    if (!block.ok) return block;
    memcpy(block.at, at, kept < bytes ? kept : bytes);
    old->is_used = 0;
    return block;
}

void rattle_dealloc(void *at) { ((head *)at - 1)->is_used = 0; }

size_t nph_arena_most(void) { return most * UNIT; }
