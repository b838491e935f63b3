/* Drawn calls through the library of long objects do what a plain model does: c_library_large CALLS SEED. The model has the bytes of
 * each object, and counts the parts, the spines and the pages that they need by the rule of the size classes. It counts the steps of
 * each read and write, and the memory that the library takes. */
#include "norphuen.h"
#include <stdio.h>
#include <stdlib.h>
#include <string.h>

enum { OBJECTS = 24, MOST_BYTES = 40000, STALE = 64 };

typedef struct object { uint32_t handle, length; uint8_t bytes[MOST_BYTES]; } object;

static nph_large_heap heap = NPH_LARGE_HEAP;
static object objects[OBJECTS];
static uint32_t live, stale[STALE], stale_count, pages, page_bytes, proxies, sizes[128], classes, call;
static uint64_t state, taken, largest;
static uint32_t blocks;

static void fail(const char *what, long given, long wanted) {
    fprintf(stderr, "call %u: %s is %ld, not %ld\n", call, what, given, wanted);
    exit(1);
}
static void same(const char *what, long given, long wanted) {
    if (given != wanted) fail(what, given, wanted);
}

static uint32_t drawn(uint32_t below) {
    state = state * 6364136223846793005u + 1442695040888963407u;
    return (uint32_t)(state >> 33) % below;
}

/* The memory functions, which count what is taken. */
nph_block rattle_alloc(size_t bytes, size_t align) {
    nph_block block = {true, malloc(bytes > 0 ? bytes : 1)};
    (void)align;
    if (block.at == NULL) exit(2);
    if (bytes > 0) taken += bytes, blocks++, largest = bytes > largest ? bytes : largest;
    return block;
}
nph_block rattle_realloc(void *at, size_t kept, size_t bytes, size_t align) {
    nph_block block = {false, at};
    (void)align;
    fail("a call of rattle_realloc", (long)bytes, (long)kept);
    return block;
}
void rattle_dealloc(void *at) { free(at); }

static uint32_t part_bytes(void) { return page_bytes - 8; }
static uint32_t parts_of(uint32_t bytes) { return (bytes + part_bytes() - 1) / part_bytes(); }
static uint32_t cut(uint32_t bytes) { return bytes <= part_bytes() ? 0 : parts_of(bytes); }
static uint32_t inner_of(uint32_t bytes) { return bytes <= part_bytes() ? 1 : 1 + parts_of(bytes); }
static uint32_t class_for(uint32_t bytes) {
    uint32_t words = 1 + (bytes + 7) / 8, c = 0;
    while (sizes[c] < words) c++;
    return c;
}
static void count_classes(uint32_t bytes, uint32_t *counts) {
    if (bytes <= part_bytes()) {
        counts[class_for(bytes)]++;
        return;
    }
    uint32_t parts = parts_of(bytes);
    counts[class_for(4 * parts)]++;
    counts[classes - 1] += parts - 1;
    counts[class_for(bytes - (parts - 1) * part_bytes())]++;
}
static uint32_t slots_of(uint32_t c) { return page_bytes / 8 / sizes[c]; }
static void count_all(uint32_t *counts, uint32_t *inner) {
    memset(counts, 0, 128 * sizeof *counts);
    *inner = 0;
    for (uint32_t i = 0; i < live; i++) count_classes(objects[i].length, counts), *inner += inner_of(objects[i].length);
}
static uint32_t pages_for(const uint32_t *counts) {
    uint32_t all = 0;
    for (uint32_t c = 0; c < classes; c++) all += (counts[c] + slots_of(c) - 1) / slots_of(c);
    return all;
}
static int found(uint32_t handle) {
    for (uint32_t i = 0; i < live; i++)
        if (objects[i].handle == handle) return (int)i;
    return -1;
}
static uint64_t last_steps(void) {
    uint64_t steps = UINT64_MAX;
    same("last_steps", nph_large_last_steps(&heap, &steps), NPH_OK);
    return steps;
}

static void open_heap(void) {
    static const uint32_t lengths[] = {512, 1024, 4096};
    nph_needed needed;
    page_bytes = lengths[drawn(3)], pages = 4 + drawn(200), proxies = 8 + drawn(200), live = stale_count = classes = 0;
    for (uint32_t size = 4; size < page_bytes / 8; size = (9 * size + 7) / 8) sizes[classes++] = size;
    sizes[classes++] = page_bytes / 8;
    taken = largest = blocks = 0;
    same("a refused open", nph_large_open(&heap, pages, page_bytes + 8, proxies), NPH_PAGE_BYTES);
    same("bytes_needed", nph_large_bytes_needed(pages, page_bytes, proxies, &needed), NPH_OK);
    same("open", nph_large_open(&heap, pages, page_bytes, proxies), NPH_OK);
    same("open again", nph_large_open(&heap, pages, page_bytes, proxies), NPH_OPEN);
    same("the bytes taken", (long)taken, (long)needed.total);
    same("the largest block", (long)largest, (long)needed.largest);
    same("the blocks", blocks, needed.blocks);
}

/* A handle: live, freed before, or any. */
static uint32_t any_handle(void) {
    switch (drawn(8)) {
    case 0: return drawn(1 << 20);
    case 1: if (stale_count > 0) return stale[drawn(stale_count < STALE ? stale_count : STALE)]; break;
    default: break;
    }
    return live > 0 ? objects[drawn(live)].handle : NPH_NONE;
}

static void make(void) {
    uint32_t bytes = drawn(3) ? drawn(600) : drawn(3) ? drawn(MOST_BYTES) : drawn(2) ? part_bytes() * drawn(12) : drawn(1u << 31);
    uint32_t handle = 7, counts[128], inner;
    nph_status wanted = NPH_OK;
    count_all(counts, &inner);
    if (bytes > part_bytes() && 4 * (uint64_t)parts_of(bytes) > part_bytes()) wanted = NPH_SIZE;
    else if (inner + inner_of(bytes) > proxies) wanted = NPH_PROXY;
    else {
        count_classes(bytes, counts);
        if (pages_for(counts) > pages) wanted = NPH_SPACE;
    }
    if (wanted == NPH_OK && (bytes > MOST_BYTES || live == OBJECTS)) return;
    same("malloc", nph_large_malloc(&heap, bytes, &handle), wanted);
    uint64_t steps = last_steps(), most = nph_large_most_malloc(page_bytes, bytes);
    if (wanted != NPH_OK) {
        same("the steps of a refused malloc", (long)steps, 0);
        same("the handle after a refusal", handle, 7);
        return;
    }
    if (steps == 0 || steps > most) fail("the steps of a malloc", (long)steps, (long)most);
    same("the most steps of a malloc", (long)most, cut(bytes) ? 19 + 18 * cut(bytes) : 17);
    same("an old handle", found(handle), -1);
    for (uint32_t i = 0; i < stale_count && i < STALE; i++)
        if (stale[i] == handle) fail("a stale handle", handle, -1);
    objects[live].handle = handle, objects[live].length = bytes;
    memset(objects[live++].bytes, 0, MOST_BYTES);
}

static void drop(void) {
    uint32_t handle = any_handle();
    int at = found(handle);
    same("free", nph_large_free(&heap, handle), at < 0 ? NPH_UNKNOWN : NPH_OK);
    uint64_t steps = last_steps();
    if (at < 0) {
        same("the steps of a refused free", (long)steps, 0);
        return;
    }
    uint64_t most = nph_large_most_free(page_bytes, objects[at].length);
    if (steps == 0 || steps > most) fail("the steps of a free", (long)steps, (long)most);
    uint32_t parts = cut(objects[at].length), large = (parts ? 24 + 19 * parts : 20) + (parts + 1) * page_bytes / 8;
    if (most > large) fail("the most steps of a free", (long)most, large);
    objects[at] = objects[--live];
    stale[stale_count++ % STALE] = handle;
}

static void access(int writes) {
    static uint8_t bytes[MOST_BYTES], kept[MOST_BYTES];
    uint32_t handle = any_handle(), from = drawn(MOST_BYTES), count = drawn(3) ? drawn(40) : drawn(MOST_BYTES), u = part_bytes();
    int at = found(handle);
    if (at >= 0 && drawn(4)) from = drawn(objects[at].length + 1), count = drawn(objects[at].length - from + 1);
    for (uint32_t i = 0; i < count; i++) kept[i] = bytes[i] = (uint8_t)drawn(256);
    nph_status wanted = at < 0 ? NPH_UNKNOWN : from + count > objects[at].length ? NPH_RANGE : NPH_OK;
    if (writes) {
        same("write", nph_large_write(&heap, handle, from, bytes, count), wanted);
        if (wanted == NPH_OK) memcpy(objects[at].bytes + from, bytes, count);
    } else {
        same("read", nph_large_read(&heap, handle, from, bytes, count), wanted);
        if (wanted == NPH_OK) memcpy(kept, objects[at].bytes + from, count);
        same("what is read", memcmp(bytes, kept, count), 0);
    }
    uint64_t steps = last_steps(), exact = 0, most = nph_large_most_access(page_bytes, from, count);
    uint32_t words = count ? (from % 8 + count + 7) / 8 : 0;
    if (wanted == NPH_OK) exact = objects[at].length <= u ? 2 + words : count ? 5 * ((from + count - 1) / u + 1 - from / u) + words : 0;
    same("the steps of an access", (long)steps, (long)exact);
    uint64_t large = count ? 5 * ((from + count - 1) / u + 1 - from / u) + words : 2;
    if (steps > most || most > large) fail("the most steps of an access", (long)most, (long)large);
}

static void measure(void) {
    uint32_t handle = any_handle(), length = 7, counts[128], inner;
    int at = found(handle);
    same("length", nph_large_length(&heap, handle, &length), at < 0 ? NPH_UNKNOWN : NPH_OK);
    same("the length", length, at < 0 ? 7 : objects[at].length);
    nph_heap_totals totals;
    count_all(counts, &inner);
    same("totals", nph_large_totals(&heap, &totals), NPH_OK);
    same("live", totals.live, inner);
    same("pages in use", totals.used, pages_for(counts));
    same("free pages", totals.free, pages - pages_for(counts));
    uint32_t c = drawn(classes + 1);
    nph_class one = {1, 2, 3, 4, 5};
    same("figures", nph_large_figures(&heap, c, &one), c < classes ? NPH_OK : NPH_UNKNOWN);
    if (c == classes) return;
    same("slot words", one.slot_words, sizes[c]);
    same("slots", one.slots, slots_of(c));
    same("live of a class", one.live, counts[c]);
    same("pages of a class", one.pages, (counts[c] + slots_of(c) - 1) / slots_of(c));
    same("partly full", one.not_full, counts[c] % slots_of(c) != 0);
}

/* A long object whose spine and last part each fill a page: its malloc takes the most steps. The free moves an object into each of
 * these two slots, from a page that it empties: it takes the most steps for slots of so many words. */
static void longest_calls(void) {
    enum { PARTS = 5, BYTES = 504 * (PARTS - 1) + 232, SLOTS = 64 * (PARTS - 1) + 30 + 4 };
    uint32_t object, other;
    same("open", nph_large_open(&heap, 40, 512, 100), NPH_OK);
    for (int i = 0; i < 15; i++) same("malloc", nph_large_malloc(&heap, 8, &other), NPH_OK);
    same("malloc", nph_large_malloc(&heap, 232, &other), NPH_OK);
    same("malloc", nph_large_malloc(&heap, BYTES, &object), NPH_OK);
    same("the most steps of a malloc", (long)last_steps(), (long)nph_large_most_malloc(512, BYTES));
    same("malloc", nph_large_malloc(&heap, 8, &other), NPH_OK);
    same("malloc", nph_large_malloc(&heap, 232, &other), NPH_OK);
    same("free", nph_large_free(&heap, object), NPH_OK);
    same("the most steps of a free", (long)last_steps(), 24 + 19 * PARTS + SLOTS);
    nph_large_close(&heap);
}

int main(int given, char **words) {
    uint32_t calls = given > 1 ? (uint32_t)atoi(words[1]) : 100000, handle = 7;
    state = given > 2 ? (uint64_t)atoi(words[2]) : 1;
    same("closed", nph_large_malloc(&heap, 8, &handle), NPH_CLOSED);
    open_heap();
    for (call = 1; call <= calls; call++) {
        switch (drawn(16)) {
        case 0: case 1: case 2: case 3: case 4: case 5: make(); break;
        case 6: case 7: case 8: drop(); break;
        case 9: case 10: access(1); break;
        case 11: case 12: case 13: access(0); break;
        default: measure(); break;
        }
        if (drawn(5000) == 0) {
            nph_large_close(&heap);
            same("closed", nph_large_free(&heap, handle), NPH_CLOSED);
            open_heap();
        }
    }
    nph_large_close(&heap);
    longest_calls();
    printf("%u calls\n", calls);
    return 0;
}
