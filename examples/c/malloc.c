/* The three functions by which the library takes and returns memory, over malloc. */
#include "norphuen.h"
#include <stdlib.h>

/* The address of a block that could not be taken: it must not be null. */
static max_align_t none;

static nph_block block_at(void *at) {
    nph_block block = {at != NULL, at != NULL ? at : &none};
    return block;
}

/* malloc aligns a block for every type, so for each alignment up to 16 that the library asks for. */
nph_block rattle_alloc(size_t bytes, size_t align) {
    (void)align;
    return block_at(malloc(bytes > 0 ? bytes : 1));
}

nph_block rattle_realloc(void *at, size_t kept, size_t bytes, size_t align) {
    (void)kept;
    (void)align;
    return block_at(realloc(at, bytes > 0 ? bytes : 1));
}

void rattle_dealloc(void *at) { free(at); }
