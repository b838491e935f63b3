/* The calls of the library of long objects, which checks/worst_case counts under the bounds that tools/worst_case computes
 * (worst_case.h). */
#include "worst_case.h"

enum { LIVE = 64, ALL = 1 << 17 };
static uint32_t handles[LIVE], lengths[LIVE], live, page_words;
static nph_large_heap heap = NPH_LARGE_HEAP;
#define ON_HEAP(name, ...) CALL(#name, nph_large_##name, (uint64_t)&heap, __VA_ARGS__)
#define ASK(name, ...) PLAIN(#name, nph_large_##name, __VA_ARGS__)

static uint64_t last_steps(void) {
    uint64_t steps = 0;
    if (heap.is_open && nph_large_last_steps(&heap, &steps) != NPH_OK) exit(1);
    return steps;
}

static int32_t make(uint32_t bytes) {
    uint32_t handle = 0;
    int32_t code = ON_HEAP(malloc, bytes, (uint64_t)&handle);
    printf(" bytes %" PRIu32 " W %" PRIu32 "\n", bytes, page_words);
    if (code == NPH_OK) handles[live] = handle, lengths[live++] = bytes;
    return code;
}

static void release_handle(uint32_t handle, uint32_t bytes) {
    ON_HEAP(free, handle);
    printf(" bytes %" PRIu32 " W %" PRIu32 "\n", bytes, page_words);
}

static void read_or_write(bool writes, uint32_t handle, uint32_t bytes, uint32_t at, uint32_t n) {
    if (writes) ON_HEAP(write, handle, at, (uint64_t)buffer, n);
    else ON_HEAP(read, handle, at, (uint64_t)buffer, n);
    printf(" bytes %" PRIu32 " at %" PRIu32 " n %" PRIu32 " W %" PRIu32 "\n", bytes, at, n, page_words);
}

static void ask_handle(uint32_t handle) {
    uint32_t number;
    ASK(length, (uint64_t)&heap, handle, (uint64_t)&number);
}

/* Frees an object. Some handles are used once more: each call with them is refused. */
static void release(uint32_t i) {
    uint32_t handle = handles[i];
    release_handle(handle, lengths[i]);
    handles[i] = handles[--live], lengths[i] = lengths[live];
    if (drawn(8)) return;
    release_handle(handle, 0), ask_handle(handle), read_or_write(true, handle, 0, 0, 8), read_or_write(false, handle, 0, 0, 8);
}

static void release_all(void) {
    while (live) release(live - 1);
}

static void ask(void) {
    nph_class of_class;
    nph_heap_totals totals;
    uint64_t steps;
    ASK(figures, (uint64_t)&heap, drawn(70), (uint64_t)&of_class);
    ASK(totals, (uint64_t)&heap, (uint64_t)&totals);
    ASK(last_steps, (uint64_t)&heap, (uint64_t)&steps);
    ASK(version, 0);
    ASK(most_malloc, page_words * 8, drawn(ALL));
    ASK(most_free, page_words * 8, drawn(ALL));
    ASK(most_access, page_words * 8, drawn(ALL), drawn(ALL));
    ASK(most_access, page_words * 8, drawn(ALL), 0);
}

static void draw_calls(uint64_t count) {
    for (uint64_t n = 0; n < count; n++) {
        uint32_t i = live ? (uint32_t)drawn(live) : 0, at;
        if (!live || (drawn(3) == 0 && live < LIVE)) {
            make(drawn(2) ? size_for(page_words) : (uint32_t)drawn(drawn(2) ? ALL : page_words * 40));
            continue;
        }
        at = (uint32_t)drawn(lengths[i] + 1);
        switch (drawn(8)) {
        case 0: case 1: case 2: release(i); break;
        case 3: ask_handle(handles[i]); break;
        case 4: case 5: read_or_write(true, handles[i], lengths[i], at, (uint32_t)drawn(lengths[i] - at + 1)); break;
        case 6: read_or_write(false, handles[i], lengths[i], at, (uint32_t)drawn(lengths[i] - at + 1)); break;
        default: ask(), n += 8;
        }
    }
}

/* Reads and writes an object of up to `bytes` bytes from and to each byte of a word. */
static void sweep(uint32_t bytes) {
    release_all();
    if (bytes < 40 || make(bytes) != NPH_OK) return;
    for (uint32_t at = 0; at < 9; at++)
        for (uint32_t end = 0; end < 9; end++)
            read_or_write(true, handles[0], bytes, at, bytes - at - end), read_or_write(false, handles[0], bytes, at, bytes - at - end);
    for (uint32_t n = 0; n < 40; n++) read_or_write(true, handles[0], bytes, n % 8, n), read_or_write(false, handles[0], bytes, n % 8, n);
}

/* Calls that are made to be long: objects of one part and of many, read and written from each byte of a word, the longest object
 * that fits, and frees that move an object of the largest classes. */
static void long_calls(uint32_t pages) {
    uint32_t most = page_words * 8 - 8;
    for (uint32_t part = 1; part < 12; part += part) sweep(most / part - 8 * (part > 1));
    for (uint32_t parts = 2; parts < pages && parts * most <= ALL; parts += parts) sweep(parts * most), sweep(parts * most - most / 2);
    release_all();
    for (uint32_t bytes = pages * most < ALL ? pages * most : ALL; live == 0 && bytes > most; bytes -= most / 4) make(bytes);
    release_all();
    for (uint32_t part = 1; part < 10; part++) {
        uint32_t bytes = (most + 8) / part / 32 * 32 - 8;
        for (uint32_t n = 0; n < 4 * part && live < LIVE; n++) make(bytes);
        for (uint32_t n = 0; n < 3; n++) if (live > 2 * part) release(n), release(live - 1 - n);
        while (live) release((uint32_t)drawn(live));
    }
    release_all();
}

static int32_t open_or_close(bool opens, const uint64_t *settings) {
    int32_t code = opens ? ON_HEAP(open, settings[0], settings[1], settings[3])
                         : make_call("close", (void *)nph_large_close, (uint64_t[6]){(uint64_t)&heap}, false);
    printf(" P %" PRIu64 " W %" PRIu32 " Q %" PRIu64 "\n", settings[0], page_words, settings[3]);
    return code;
}

/* Calls that a closed heap refuses. */
static void refused(void) {
    make(8), ask_handle(0), release_handle(0, 0), ask();
    read_or_write(true, 0, 0, 0, 8), read_or_write(false, 0, 0, 0, 8);
}

int main(int argc, char **argv) {
    uint64_t settings[5];
    nph_needed needed;
    begin(argc, argv, settings);
    page_words = (uint32_t)settings[1] / 8;
    refused();
    CALL("bytes_needed", nph_large_bytes_needed, settings[0], settings[1], settings[3], (uint64_t)&needed), printf(" W %" PRIu32 "\n", page_words);
    OPEN_WITH_LITTLE(open_or_close(true, settings));
    draw_calls(strtoull(argv[2], NULL, 10));
    long_calls((uint32_t)settings[0]);
    open_or_close(false, settings);
    print_ran();
    return 0;
}
