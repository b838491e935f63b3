/* The calls of the library of objects with ids, which checks/worst_case counts under the bounds that tools/worst_case computes
 * (worst_case.h). Its calls count no steps. */
#include "worst_case.h"

enum { LIVE = 64, IDS = 1 << 16, HEAD = 20, CHUNK = 4096, IMAGE = 1 << 23 };
static uint32_t ids[LIVE], lengths[IDS], live, page_words;
static uint8_t image[IMAGE];
static uint64_t image_settings[3]; /* pages, k and proxies */
static nph_images_heap heap = NPH_IMAGES_HEAP;
#define ON_HEAP(name, ...) CALL(#name, nph_images_##name, (uint64_t)&heap, __VA_ARGS__)
#define ASK(name, ...) PLAIN(#name, nph_images_##name, __VA_ARGS__)

static uint64_t last_steps(void) { return 0; }

/* The words of the slot of an object. */
static uint32_t slot_of(uint32_t bytes) {
    uint32_t need = 1 + (bytes + 7) / 8, size = 4;
    while (size < need) size = (9 * size + 7) / 8;
    return size < page_words ? size : page_words;
}

static int32_t make(uint32_t id, uint32_t bytes) {
    int32_t code = ON_HEAP(make, id, bytes);
    puts("");
    if (code == NPH_OK) {
        lengths[id] = bytes;
        if (live < LIVE) ids[live] = id;
        live++;
    }
    return code;
}

static void release_id(uint32_t id, uint32_t bytes) {
    ON_HEAP(free, id);
    printf(" s %" PRIu32 "\n", slot_of(bytes));
}

static void read_or_write(bool writes, uint32_t id, uint32_t at, uint32_t n) {
    if (writes) ON_HEAP(write, id, at, (uint64_t)buffer, n);
    else ON_HEAP(read, id, at, (uint64_t)buffer, n);
    printf(" at %" PRIu32 " n %" PRIu32 "\n", at, n);
}

static void ask(uint32_t id) {
    uint32_t number;
    uint64_t bytes;
    ASK(length, (uint64_t)&heap, id, (uint64_t)&number);
    ASK(image_bytes, (uint64_t)&heap, (uint64_t)&bytes);
    ASK(version, 0);
}

/* Frees an object. Some ids are used once more: each call with them is refused. */
static void release(uint32_t i) {
    uint32_t id = ids[i];
    release_id(id, lengths[id]);
    ids[i] = ids[--live];
    if (drawn(8)) return;
    release_id(id, 0), ask(id), read_or_write(true, id, 0, 8), read_or_write(false, id, 0, 8);
}

static void release_all(void) {
    while (live) release(live - 1);
}

/* The objects of the image in `image`, their chunks, and the most words of one of these. */
static void print_lengths(void) {
    uint32_t count, n, l = 0, most = 0;
    uint64_t at = HEAD;
    memcpy(&count, image + 16, 4);
    for (uint32_t i = 0; i < count; i++, at += 6 + n) {
        memcpy(&n, image + at + 2, 4);
        l += (n + CHUNK - 1) / CHUNK;
        if (n > most) most = n;
    }
    printf(" n %" PRIu32 " l %" PRIu32 " w %" PRIu32, count, l, ((most < CHUNK ? most : CHUNK) + 7) / 8);
}

static uint64_t save(uint64_t room) {
    uint64_t written = 0;
    if (ON_HEAP(save, (uint64_t)image, room, (uint64_t)&written) == NPH_OK) print_lengths();
    puts("");
    return written;
}

static int32_t load_with(uint64_t k, uint64_t count) {
    uint64_t offset;
    int32_t code = ON_HEAP(load, (uint64_t)image, count, k, (uint64_t)&offset);
    print_lengths();
    printf(" P %" PRIu64 " W %" PRIu32 " Q %" PRIu64 "\n", image_settings[0], page_words, image_settings[2]);
    return code;
}

static int32_t load(uint64_t count) { return load_with(image_settings[1], count); }

static int32_t open_or_close(bool opens, const uint64_t *settings) {
    int32_t code = opens ? ON_HEAP(open, settings[0], settings[1], settings[2], settings[3])
                         : make_call("close", (void *)nph_images_close, (uint64_t[6]){(uint64_t)&heap}, false);
    printf(" P %" PRIu64 " W %" PRIu32 " Q %" PRIu64 "\n", settings[0], page_words, settings[3]);
    return code;
}

/* Saves the heap, with too little room too, and loads the image: with little memory, cut, with a byte too many, with a wrong k, and whole. */
static void save_and_load(const uint64_t *settings) {
    uint64_t count;
    save(0);
    count = save(IMAGE);
    image_settings[0] = settings[0], image_settings[1] = settings[2], image_settings[2] = settings[3];
    load(count);
    open_or_close(false, settings);
    for (uint32_t cut = 1; cut < 16 && cut < count; cut++) load(count - cut);
    for (uint32_t few = 0; few < HEAD + 16 && few < count; few++) load(few);
    load(count + 1), load_with(65, count);
    image[0] ^= 1, load(count), image[0] ^= 1;
    OPEN_WITH_LITTLE(load(count));
}

static void draw_calls(uint64_t count) {
    for (uint64_t n = 0; n < count; n++) {
        uint32_t i = live ? (uint32_t)drawn(live) : 0, at;
        if (!live || (drawn(3) == 0 && live < LIVE)) {
            make((uint32_t)drawn(IDS), drawn(20) ? size_for(page_words) : page_words * 8);
            continue;
        }
        at = (uint32_t)drawn(lengths[ids[i]] + 1);
        switch (drawn(8)) {
        case 0: case 1: case 2: release(i); break;
        case 3: make(ids[i], 8); break;
        case 4: case 5: read_or_write(true, ids[i], at, (uint32_t)drawn(lengths[ids[i]] - at + 1)); break;
        case 6: read_or_write(false, ids[i], at, (uint32_t)drawn(lengths[ids[i]] - at + 1)); break;
        default: ask(ids[i]), n += 2;
        }
    }
}

/* Calls that are made to be long: frees of objects of the largest classes, which move one; reads and writes of the largest
 * object, from each byte of a word; images of few large objects, of small ones of each length, of as many objects as fit if a
 * fourth of the proxies share the memory, and of as many empty ones as fit. */
static void long_calls(const uint64_t *settings) {
    uint32_t most = page_words * 8 - 8, share = (uint32_t)(4 * settings[0] * settings[1] / settings[3]);
    uint32_t sizes[2] = {share < most ? share - 1 : most - 1, 0};
    release_all();
    for (uint32_t part = 1; part < 10; part++) {
        uint32_t bytes = (most + 8) / part / 32 * 32 - 8;
        for (uint32_t n = 0; n < 4 * part && live < LIVE; n++) make(n, bytes);
        for (uint32_t n = 0; n < 3; n++) if (live > 2 * part) release(n), release(live - 1 - n);
        while (live) release((uint32_t)drawn(live));
    }
    if (make(0, most) == NPH_OK) {
        for (uint32_t at = 0; at < 9; at++)
            for (uint32_t end = 0; end < 9; end++) read_or_write(true, 0, at, most - at - end), read_or_write(false, 0, at, most - at - end);
        for (uint32_t n = 0; n < 40; n++) read_or_write(true, 0, n % 8, n), read_or_write(false, 0, n % 8, n);
    }
    release_all();
    save_and_load(settings);
    for (uint32_t n = 0; n < settings[0] && n < LIVE; n++) make(n, most - n % 3);
    save_and_load(settings);
    release_all();
    for (uint32_t n = 0; n < LIVE && make(n, n) == NPH_OK;) n++;
    save_and_load(settings);
    release_all();
    for (uint32_t i = 0; i < 2; i++) {
        uint32_t n = 0;
        while (n < IDS && make(n, sizes[i]) == NPH_OK) n++;
        save_and_load(settings);
        while (n > 0) release_id(--n, sizes[i]);
        live = 0;
    }
}

/* Calls that a closed heap refuses. */
static void refused(void) {
    make(0, 8), ask(0), release_id(0, 0), save(IMAGE);
    read_or_write(true, 0, 0, 8), read_or_write(false, 0, 0, 8);
}

int main(int argc, char **argv) {
    uint64_t settings[5];
    nph_needed needed;
    begin(argc, argv, settings);
    page_words = (uint32_t)settings[1] / 8;
    refused();
    CALL("bytes_needed", nph_images_bytes_needed, settings[0], settings[1], settings[2], settings[3], (uint64_t)&needed), printf(" W %" PRIu32 "\n", page_words);
    OPEN_WITH_LITTLE(open_or_close(true, settings));
    draw_calls(strtoull(argv[2], NULL, 10));
    long_calls(settings);
    open_or_close(false, settings);
    print_ran();
    return 0;
}
