/* Drawn calls through the library of images do what a plain model does: c_library_images CALLS SEED. The model has the bytes under each
 * id, makes the image of them itself, and reads damaged images by the format's rules. With k above 1 a make may be refused for space
 * though the pages would do, but only if the classes may have k partly full pages each. Memory is refused too, at each block of an open
 * or a load; no other call takes any. */
#include "norphuen.h"
#include <stdio.h>
#include <stdlib.h>
#include <string.h>

enum { IDS = 90, PROXIES = 60, MOST_BYTES = 600, MOST_IMAGE = 20 + PROXIES * (6 + MOST_BYTES) };

typedef struct object { int live; uint32_t id, length; uint8_t bytes[MOST_BYTES]; } object;

static nph_images_heap heap = NPH_IMAGES_HEAP;
static object objects[IDS]; /* by rising id */
static uint32_t pages, page_bytes, k, live, call;
/* Whether the heap was loaded, and how often such a one had no space, though with k = 1 it would have. */
static uint32_t is_loaded, scattered;
static uint8_t image[MOST_IMAGE + 64], given[MOST_IMAGE + 64];
static uint64_t state;
/* What was asked for since the heap was last closed, the blocks that were not returned, and the number of blocks until one is refused. */
static nph_needed asked;
static uint32_t taken, left = UINT32_MAX;

static void fail(const char *what, long seen, long wanted) {
    fprintf(stderr, "call %u: %s is %ld, not %ld\n", call, what, seen, wanted);
    exit(1);
}
static void same(const char *what, long seen, long wanted) {
    if (seen != wanted) fail(what, seen, wanted);
}

static uint32_t drawn(uint32_t below) {
    state = state * 6364136223846793005u + 1442695040888963407u;
    return (uint32_t)(state >> 33) % below;
}

nph_block rattle_alloc(size_t bytes, size_t align) {
    nph_block block = {left > 0, &state};
    if (left == 0) return block;
    left--, taken++;
    block.at = aligned_alloc(align, (bytes + align - 1) / align * align);
    asked.total += bytes, asked.blocks++;
    if (asked.largest < bytes) asked.largest = bytes;
    if (block.at == NULL) fail("the memory", 0, 1);
    return block;
}
nph_block rattle_realloc(void *at, size_t kept, size_t bytes, size_t align) {
    (void)at, (void)kept, (void)bytes, (void)align;
    fail("a call of rattle_realloc", 1, 0);
    exit(1);
}
void rattle_dealloc(void *at) {
    taken--;
    free(at);
}

static void close_heap(void) {
    nph_images_close(&heap);
    same("blocks not returned", taken, 0);
    memset(&asked, 0, sizeof asked);
}
/* What was asked for is what bytes_needed writes. */
static void needed_now(uint32_t bound) {
    nph_needed needed;
    same("bytes_needed", nph_images_bytes_needed(pages, page_bytes, bound, PROXIES, &needed), NPH_OK);
    same("bytes asked for", (long)asked.total, (long)needed.total);
    same("blocks asked for", asked.blocks, needed.blocks);
    same("the largest block", (long)asked.largest, (long)needed.largest);
    left = 0; /* no other call takes memory */
}

/* The pages that objects need, `counts` of each size class of pages of `words` words. */
static uint32_t class_for(uint32_t words, uint32_t bytes, uint32_t *slot) {
    uint32_t c = 0, size = 4;
    for (; size < 1 + (bytes + 7) / 8 && size < words; c++) size = (9 * size + 7) / 8;
    *slot = size < words ? size : words;
    return c;
}
typedef struct counts { uint32_t words, objects[128], slots[128]; } counts;
static void count_one(counts *all, uint32_t bytes) {
    uint32_t slot, c = class_for(all->words, bytes, &slot);
    all->objects[c]++, all->slots[c] = all->words / slot;
}
static uint32_t pages_for(const counts *all) {
    uint32_t n = 0;
    for (uint32_t c = 0; c < 128; c++)
        if (all->objects[c]) n += (all->objects[c] + all->slots[c] - 1) / all->slots[c];
    return n;
}
/* The most pages that they may take with k partly full pages in each class. */
static uint32_t most_pages_for(const counts *all) {
    uint32_t n = 0;
    for (uint32_t c = 0; c < 128; c++) {
        uint32_t most = all->objects[c] ? all->objects[c] / all->slots[c] + k : 0;
        n += most < all->objects[c] ? most : all->objects[c];
    }
    return n;
}

static void put(uint8_t *at, uint32_t n, int bytes) {
    for (int i = 0; i < bytes; i++) at[i] = (uint8_t)(n >> (8 * i));
}
static uint32_t number(const uint8_t *at, int bytes) {
    uint32_t n = 0;
    for (int i = 0; i < bytes; i++) n |= (uint32_t)at[i] << (8 * i);
    return n;
}

static size_t make_image(void) {
    size_t at = 20;
    memcpy(image, "CFI1", 4);
    put(image + 4, pages, 4), put(image + 8, page_bytes, 4), put(image + 12, PROXIES, 4), put(image + 16, live, 4);
    for (int i = 0; i < IDS; i++) {
        if (!objects[i].live) continue;
        put(image + at, objects[i].id, 2), put(image + at + 2, objects[i].length, 4);
        memcpy(image + at + 6, objects[i].bytes, objects[i].length);
        at += 6 + objects[i].length;
    }
    return at;
}

/* Where the `count` bytes of `given` stop being an image; -1 if they are one. */
static long broken(size_t count) {
    static const char mark[] = "CFI1";
    size_t at = 20;
    if (count < 4 || memcmp(given, mark, 4)) return 0;
    if (count < 8 || number(given + 4, 4) - 1 >= 4096) return 4;
    uint32_t n = number(given + 4, 4), bytes, most, entries, next = 0;
    if (count < 12) return 8;
    bytes = number(given + 8, 4);
    if (bytes < 512 || bytes > 131072 || (bytes & (bytes - 1)) || (uint64_t)n * bytes > 67108864) return 8;
    if (count < 16 || number(given + 12, 4) - 1 >= 65536) return 12;
    most = number(given + 12, 4);
    if (count < 20 || number(given + 16, 4) > most) return 16;
    entries = number(given + 16, 4);
    counts all;
    memset(&all, 0, sizeof all);
    all.words = bytes / 8;
    for (uint32_t i = 0; i < entries; i++) {
        if (count - at < 2 || number(given + at, 2) < next) return (long)at;
        next = number(given + at, 2) + 1;
        if (count - at < 6) return (long)at + 2;
        uint64_t length = number(given + at + 2, 4);
        if (1 + (length + 7) / 8 > all.words) return (long)at + 2;
        count_one(&all, (uint32_t)length);
        if (pages_for(&all) > n) return (long)at + 2;
        if (count - at - 6 < length) return (long)at + 6;
        at += 6 + length;
    }
    return at < count ? (long)at : -1;
}

static void open_heap(void) {
    pages = 4 + drawn(20), page_bytes = 512u << drawn(2), k = drawn(2) ? 1 : 1 + drawn(4), live = 0, is_loaded = 0;
    for (int i = 0; i < IDS; i++) objects[i].live = 0, objects[i].id = i == 0 ? 0 : i == IDS - 1 ? 65535 : (uint32_t)i * 700 + drawn(700);
    for (uint32_t blocks = drawn(2) ? 99 : 0;; blocks++) {
        left = blocks;
        nph_status status = nph_images_open(&heap, pages, page_bytes, k, PROXIES);
        if (status == NPH_OK) break;
        same("open without memory", status, NPH_MEMORY);
        close_heap();
    }
    needed_now(k);
    same("open again", nph_images_open(&heap, pages, page_bytes, k, PROXIES), NPH_OPEN);
}

/* An id of the model or, with `at` -1, one that is never live. */
static uint32_t any_id(int *at) {
    *at = drawn(20) ? (int)drawn(IDS) : -1;
    if (*at < 0) return 65536 + drawn(4) * 65535;
    return objects[*at].id;
}

static void make(void) {
    static const uint32_t often[] = {24, 100, 176, 240};
    int at;
    uint32_t id = any_id(&at), bytes = drawn(4) ? often[drawn(4)] : drawn(8) ? drawn(MOST_BYTES) : drawn(2000);
    counts all;
    memset(&all, 0, sizeof all);
    all.words = page_bytes / 8;
    nph_status wanted = NPH_OK;
    if (at < 0) wanted = NPH_UNKNOWN;
    else if (objects[at].live) wanted = NPH_LIVE;
    else if (1 + (bytes + 7) / 8 > all.words) wanted = NPH_SIZE;
    else if (live == PROXIES) wanted = NPH_PROXY;
    else {
        for (int i = 0; i < IDS; i++)
            if (objects[i].live) count_one(&all, objects[i].length);
        count_one(&all, bytes);
        if (pages_for(&all) > pages) wanted = NPH_SPACE;
    }
    if (bytes > MOST_BYTES && wanted == NPH_OK) return;
    nph_status status = nph_images_make(&heap, id, bytes);
    if (k > 1 && status == NPH_SPACE && wanted == NPH_OK) { /* partly full pages of other classes */
        if (most_pages_for(&all) <= pages) fail("a refusal for space with enough pages", (long)most_pages_for(&all), pages);
        scattered += is_loaded;
        return;
    }
    same("make", status, wanted);
    if (wanted != NPH_OK) return;
    objects[at].live = 1, objects[at].length = bytes, live++;
    memset(objects[at].bytes, 0, MOST_BYTES);
}

static void drop(void) {
    int at;
    uint32_t id = any_id(&at);
    int there = at >= 0 && objects[at].live;
    same("free", nph_images_free(&heap, id), there ? NPH_OK : NPH_UNKNOWN);
    if (there) objects[at].live = 0, live--;
}

static void access(int writes) {
    int at;
    uint32_t id = any_id(&at), from = drawn(MOST_BYTES), count = drawn(3) ? drawn(40) : drawn(MOST_BYTES), length = 7;
    uint8_t bytes[MOST_BYTES], kept[MOST_BYTES];
    object *one = at >= 0 && objects[at].live ? &objects[at] : NULL;
    if (one && drawn(4)) from = drawn(one->length + 1), count = drawn(one->length - from + 1);
    for (uint32_t i = 0; i < MOST_BYTES; i++) kept[i] = bytes[i] = (uint8_t)drawn(256);
    nph_status wanted = !one ? NPH_UNKNOWN : from + count > one->length ? NPH_RANGE : NPH_OK;
    if (writes) {
        same("write", nph_images_write(&heap, id, from, bytes, count), wanted);
        if (wanted == NPH_OK) memcpy(one->bytes + from, bytes, count);
    } else {
        same("read", nph_images_read(&heap, id, from, bytes, count), wanted);
        if (wanted == NPH_OK) memcpy(kept, one->bytes + from, count);
        same("what is read", memcmp(bytes, kept, MOST_BYTES), 0);
    }
    same("length", nph_images_length(&heap, id, &length), one ? NPH_OK : NPH_UNKNOWN);
    same("the length", length, one ? one->length : 7);
}

/* Saves, and compares with the image that the model makes; returns its bytes. */
static size_t save(void) {
    size_t bytes = make_image(), room = drawn(2) ? bytes : bytes + drawn(60);
    uint64_t asked = 7, written = 7;
    same("image_bytes", nph_images_image_bytes(&heap, &asked), NPH_OK);
    same("the bytes of the image", (long)asked, (long)bytes);
    memset(given, 0xa5, sizeof given);
    same("save in less", nph_images_save(&heap, given, bytes - 1 - drawn(20), &written), NPH_RANGE);
    same("what is written then", (long)written + given[0], 7 + 0xa5);
    same("save", nph_images_save(&heap, given, room, &written), NPH_OK);
    same("written", (long)written, (long)bytes);
    same("the image", memcmp(given, image, bytes), 0);
    for (size_t i = bytes; i < sizeof given; i++)
        if (given[i] != 0xa5) fail("a byte behind the image", given[i], 0xa5);
    return bytes;
}

/* Closes the heap and loads its image, damaged before in most cases. */
static void load(void) {
    size_t bytes = save(), count = bytes;
    uint64_t offset = 7;
    same("load over it", nph_images_load(&heap, given, bytes, k, &offset), NPH_OPEN);
    close_heap();
    left = UINT32_MAX;
    k = drawn(2) ? 1 : 1 + drawn(4);
    if (drawn(4)) {
        switch (drawn(4)) {
        case 0: count = drawn((uint32_t)bytes); break;
        case 1: count += 1 + drawn(20); break;
        case 2: given[drawn(20)] ^= (uint8_t)(1u << drawn(8)); break;
        default: given[drawn((uint32_t)bytes)] ^= (uint8_t)(1u << drawn(8)); break;
        }
        long at = broken(count);
        same("load with a wrong k", nph_images_load(&heap, given, count, drawn(2) ? 0 : 65 + drawn(99), &offset), NPH_BOUND);
        same("the offset", (long)offset, 7);
        same("load of a damaged image", nph_images_load(&heap, given, count, k, &offset), at < 0 ? NPH_OK : NPH_IMAGE);
        same("the offset", (long)offset, at < 0 ? 7 : at);
        if (at >= 0) same("closed then", nph_images_free(&heap, 0), NPH_CLOSED);
        close_heap();
        offset = 7;
    }
    for (uint32_t blocks = drawn(8) ? 99 : 0;; blocks++) {
        left = blocks;
        nph_status status = nph_images_load(&heap, image, bytes, k, &offset);
        same("the offset", (long)offset, 7);
        if (status == NPH_OK) break;
        same("load without memory", status, NPH_MEMORY);
        close_heap();
    }
    needed_now(k);
    is_loaded = 1;
    (void)save();
}

int main(int words_given, char **words) {
    uint32_t calls = words_given > 1 ? (uint32_t)atoi(words[1]) : 100000;
    uint64_t bytes = 7;
    state = words_given > 2 ? (uint64_t)atoi(words[2]) : 1;
    same("closed", nph_images_make(&heap, 0, 8), NPH_CLOSED);
    same("no image of it", nph_images_image_bytes(&heap, &bytes), NPH_CLOSED);
    open_heap();
    for (call = 1; call <= calls; call++) {
        switch (drawn(64) ? drawn(12) : 12) {
        case 0: case 1: case 2: case 3: make(); break;
        case 4: case 5: drop(); break;
        case 6: case 7: case 8: access(1); break;
        case 9: case 10: case 11: access(0); break;
        default: load(); break;
        }
        if (drawn(2000) == 0) {
            close_heap();
            close_heap();
            open_heap();
        }
    }
    close_heap();
    if (calls >= 100000 && scattered == 0) fail("loaded heaps that k above 1 leaves without space", 0, 1);
    printf("%u calls\n", calls);
    return 0;
}
