/* Compares what nph_bytes_needed writes with what nph_open asks for, over each size of a page and several numbers of pages,
 * proxies and k: the number of blocks, their bytes, the largest one, and that none grows. Compares the codes for settings
 * out of range. checks/c_library runs it with each library. */
#include "norphuen.h"
#include <stdio.h>
#include <stdlib.h>

static uint64_t total, largest, grown;
static uint32_t blocks, left;

nph_block rattle_alloc(size_t bytes, size_t align) {
    nph_block block = {true, malloc(bytes)};
    (void)align;
    if (block.at == NULL) abort();
    total += bytes;
    if (bytes > largest) largest = bytes;
    blocks++;
    left++;
    return block;
}

nph_block rattle_realloc(void *at, size_t kept, size_t bytes, size_t align) {
    nph_block block = {true, realloc(at, bytes)};
    (void)kept;
    (void)align;
    if (block.at == NULL) abort();
    grown++;
    return block;
}

void rattle_dealloc(void *at) {
    left--;
    free(at);
}

/* The program fails unless the two agree; if the settings are out of range, in their code. Returns whether the heap opens. */
static int agrees(nph_heap *heap, uint32_t pages, uint32_t page_bytes, uint32_t k, uint32_t proxies) {
    nph_needed needed = {7, 7, 7};
    nph_status wanted, code = nph_bytes_needed(pages, page_bytes, k, proxies, &needed);
    total = largest = grown = blocks = 0;
    wanted = nph_open(heap, pages, page_bytes, k, proxies);
    if (wanted != NPH_OK) total = largest = blocks = 7;
    if (code == wanted && grown == 0 && needed.total == total && needed.largest == largest && needed.blocks == blocks) {
        nph_close(heap);
        if (left == 0) return wanted == NPH_OK;
    }
    printf("%u pages of %u bytes, k %u, %u proxies: code %d, %u blocks of %llu bytes, at most %llu; the open returns %d, and "
           "takes %u of %llu, at most %llu; %llu grow, %u are left\n",
           pages, page_bytes, k, proxies, (int)code, needed.blocks, (unsigned long long)needed.total,
           (unsigned long long)needed.largest, (int)wanted, blocks, (unsigned long long)total, (unsigned long long)largest,
           (unsigned long long)grown, left);
    exit(1);
}

int main(void) {
    static const uint32_t pages[] = {0, 1, 2, 3, 5, 64, 513, 4096, 4097}, proxies[] = {0, 1, 2, 3, 4, 5, 1000, 4096, 65536, 65537};
    static const uint32_t bounds[] = {1, 64};
    nph_heap heap = NPH_HEAP;
    unsigned opened = 0;
    for (uint32_t page_bytes = 256; page_bytes <= 262144; page_bytes *= 2)
        for (size_t i = 0; i < sizeof pages / sizeof *pages; i++)
            for (size_t j = 0; j < sizeof proxies / sizeof *proxies; j++)
                opened += (unsigned)agrees(&heap, pages[i], page_bytes, bounds[(i + j) % 2], proxies[j]);
    for (uint32_t k = 0; k <= 66; k++) opened += (unsigned)agrees(&heap, 2, 512, k, 8);
    opened += (unsigned)agrees(&heap, 2, 513, 1, 8);
    opened += (unsigned)agrees(&heap, UINT32_MAX, UINT32_MAX, UINT32_MAX, UINT32_MAX);
    printf("%u heaps were opened\n", opened);
    return 0;
}
