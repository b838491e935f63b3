/* The calls of the libraries for one caller, which checks/worst_case counts under the bounds that tools/worst_case computes
 * (worst_case.h). */
#include "worst_case.h"

/* checks/worst_case.py defines HAS_CALL for each call that the library has. */
#ifdef HAS_lend
enum { LENDS = 1 };
#else
enum { LENDS = 0 };
#undef nph_place
#undef nph_lend
#undef nph_return
#define nph_place NULL
#define nph_lend NULL
#define nph_return NULL
#endif
/* Only a library with pages has these. */
#ifdef HAS_pages_needed
enum { PAGED = 1 };
#else
enum { PAGED = 0 };
#undef nph_class_of
#undef nph_pages_needed
#undef nph_set_bound
#define nph_class_of NULL
#define nph_pages_needed NULL
#define nph_set_bound NULL
#endif

enum { LIVE = 1024 };
static nph_heap heap = NPH_HEAP;
static uint32_t handles[LIVE], lengths[LIVE], live, page_words;
static uint64_t proxies, entries;

static uint64_t last_steps(void) {
    uint64_t steps = 0;
    if (heap.is_open && nph_last_steps(&heap, &steps) != NPH_OK) exit(1);
    return steps;
}

/* Makes a call whose first argument is this number. */
static int32_t call_with(uint64_t first, const char *name, void *function, uint64_t a, uint64_t b, uint64_t c, uint64_t d) {
    return make_call(name, function, (uint64_t[6]){first, a, b, c, d}, function != (void *)nph_close);
}

/* The same for a call on the heap. */
static int32_t call(const char *name, void *function, uint64_t a, uint64_t b, uint64_t c, uint64_t d) {
    return call_with((uint64_t)&heap, name, function, a, b, c, d);
}

static int32_t make(uint32_t bytes) {
    uint32_t handle = 0;
    int32_t code = call("malloc", (void *)nph_malloc, bytes, (uint64_t)&handle, 0, 0);
    printf(" bytes %" PRIu32 "\n", bytes);
    if (code == NPH_OK) handles[live] = handle, lengths[live++] = bytes;
    return code;
}

static void release_handle(uint32_t handle) {
    nph_freed freed = {0, NPH_NONE};
    call("free", (void *)nph_free, handle, (uint64_t)&freed, 0, 0);
    printf(" s %" PRIu32 " moved %d\n", freed.slot_words, freed.moved != NPH_NONE);
}

static int32_t resize_handle(uint32_t handle, uint32_t old, uint32_t bytes) {
    nph_resized done = {0, 0, NPH_NONE};
    int32_t code = call("resize", (void *)nph_resize, handle, bytes, (uint64_t)&done, 0);
    printf(" s %" PRIu32 " n %" PRIu32 " moved %d old %" PRIu32 " bytes %" PRIu32 "\n", done.old_slot_words, done.slot_words,
           done.moved != NPH_NONE, old, bytes);
    return code;
}

static void resize(uint32_t i, uint32_t bytes) {
    if (resize_handle(handles[i], lengths[i], bytes) == NPH_OK) lengths[i] = bytes;
}

static void read_or_write(bool writes, uint32_t handle, uint32_t at, uint32_t n) {
    call(writes ? "write" : "read", writes ? (void *)nph_write : (void *)nph_read, handle, at, (uint64_t)buffer, n);
    printf(" at %" PRIu32 " n %" PRIu32 "\n", at, n);
}

/* The calls that ask for one object. */
static void ask_handle(uint32_t handle) {
    uint32_t number;
    call("length", (void *)nph_length, handle, (uint64_t)&number, 0, 0), puts("");
    call("slot_words", (void *)nph_slot_words, handle, (uint64_t)&number, 0, 0), puts("");
    call("next", (void *)nph_next, handle, (uint64_t)&number, 0, 0), printf(" Q %" PRIu64 "\n", proxies);
    if (LENDS) call("place", (void *)nph_place, handle, (uint64_t)&number, 0, 0), puts("");
}

/* Frees an object. Some handles are used once more: each call with them is refused. */
static void release(uint32_t i) {
    uint32_t handle = handles[i];
    release_handle(handle);
    handles[i] = handles[--live], lengths[i] = lengths[live];
    if (drawn(8)) return;
    resize_handle(handle + (uint32_t)entries, 8, 8); /* the next handle of its entry, which no object has yet */
    release_handle(handle), resize_handle(handle, 8, 8), ask_handle(handle);
    read_or_write(true, handle, 0, 8), read_or_write(false, handle, 0, 8);
}

/* The bounds. */
static void ask_most(void) {
    uint64_t n = drawn(page_words);
    call_with(0, "most_malloc", (void *)nph_most_malloc, 0, 0, 0, 0), puts("");
    call_with(n, "most_free", (void *)nph_most_free, 0, 0, 0, 0), puts("");
    call_with(8 * n, "most_resize", (void *)nph_most_resize, n + 4, n + 4, 0, 0), puts("");
    call_with(8 * n, "most_resize", (void *)nph_most_resize, n + 4, page_words, 0, 0), puts("");
    call_with(drawn(8), "most_access", (void *)nph_most_access, n, 0, 0, 0), puts("");
    call_with(0, "most_has_room", (void *)nph_most_has_room, 0, 0, 0, 0), puts("");
    call_with(n, "most_totals", (void *)nph_most_totals, 0, 0, 0, 0), puts("");
    call_with(0, "most_length", (void *)nph_most_length, 0, 0, 0, 0), puts("");
}

/* The calls that ask for the whole heap. */
static void ask_heap(void) {
    uint64_t steps;
    nph_class c;
    nph_heap_totals t;
    nph_counted counted;
    uint32_t size_class, number;
    if (PAGED) call("class_of", (void *)nph_class_of, drawn(page_words * 8), (uint64_t)&size_class, 0, 0), puts("");
    call("has_room", (void *)nph_has_room, drawn(page_words * 8), 0, 0, 0), puts("");
    call("figures", (void *)nph_figures, drawn(70), (uint64_t)&c, 0, 0), puts("");
    call("totals", (void *)nph_totals, (uint64_t)&t, 0, 0, 0), puts("");
    call("counts", (void *)nph_counts, (uint64_t)&counted, 0, 0, 0), puts("");
    call("next", (void *)nph_next, NPH_NONE, (uint64_t)&number, 0, 0), printf(" Q %" PRIu64 "\n", proxies);
    if (PAGED) call("set_bound", (void *)nph_set_bound, drawn(page_words), drawn(66), 0, 0), printf(" W %" PRIu32 "\n", page_words);
    call_with(0, "version", (void *)nph_version, 0, 0, 0, 0), puts("");
    call_with(0, "kind", (void *)nph_kind, 0, 0, 0, 0), puts("");
    ask_most();
    call("last_steps", (void *)nph_last_steps, (uint64_t)&steps, 0, 0, 0), puts("");
}

/* Calls that a closed or lent heap refuses. */
static void refused(uint32_t handle) {
    make(8), ask_handle(handle), release_handle(handle), resize_handle(handle, 8, 8), ask_heap();
    read_or_write(true, handle, 0, 8), read_or_write(false, handle, 0, 8);
}

/* Lends the heap, makes calls that a lent heap refuses, and takes it back. */
static void lend(uint32_t handle) {
    uint64_t *words;
    if (!LENDS) return;
    call("return", (void *)nph_return, 0, 0, 0, 0), puts("");
    call("lend", (void *)nph_lend, (uint64_t)&words, 0, 0, 0), puts("");
    call("lend", (void *)nph_lend, (uint64_t)&words, 0, 0, 0), puts("");
    refused(handle);
    call("return", (void *)nph_return, 0, 0, 0, 0), puts("");
}

static void ask(uint32_t i) { ask_handle(handles[i]), lend(handles[i]), ask_heap(); }

static uint32_t size(void) { return size_for(page_words); }

static void draw_calls(uint64_t count) {
    for (uint64_t n = 0; n < count; n++) {
        uint32_t i = live ? (uint32_t)drawn(live) : 0, bytes = size(), at;
        if (!live || (drawn(3) == 0 && live < LIVE)) { make(bytes); continue; }
        at = (uint32_t)drawn(lengths[i] + 1);
        switch (drawn(8)) {
        case 0: case 1: case 2: release(i); break;
        case 3: case 4: resize(i, drawn(2) ? bytes : (uint32_t)drawn(lengths[i] + 9)); break;
        case 5: read_or_write(true, handles[i], at, (uint32_t)drawn(lengths[i] - at + 1)); break;
        case 6: read_or_write(false, handles[i], at, (uint32_t)drawn(lengths[i] - at + 1)); break;
        default: ask(i); n += 8;
        }
    }
}

/* Resizes an object of up to `bytes` bytes between all lengths that end within two words, and reads and writes it from and to
 * each byte of a word. */
static void sweep(uint32_t bytes) {
    while (live) release(live - 1);
    if (bytes < 40 || make(bytes) != NPH_OK) return;
    for (uint32_t from = 0; from < 17; from++)
        for (uint32_t to = from + 1; to < 18; to++) resize(0, bytes - from), resize(0, bytes - to);
    resize(0, bytes);
    for (uint32_t at = 0; at < 9; at++)
        for (uint32_t end = 0; end < 9; end++)
            read_or_write(true, handles[0], at, bytes - at - end), read_or_write(false, handles[0], at, bytes - at - end);
    for (uint32_t n = 0; n < 40; n++) read_or_write(true, handles[0], n % 8, n), read_or_write(false, handles[0], n % 8, n);
    for (uint32_t less = 24; less < bytes; less += less / 4) resize(0, bytes - less), resize(0, bytes);
}

/* In each class with few slots a page: an object of a full page gets a page of its own, and one of the partly full page takes its
 * slot. In each class: resizes between its longest and its shortest objects. */
static void each_class(void) {
    nph_class c;
    for (uint32_t n = 0, before = 0; PAGED && nph_figures(&heap, n, &c) == NPH_OK; n++) {
        uint32_t bytes = c.slot_words * 8 - 8;
        while (live) release(live - 1);
        for (uint32_t i = 0; i <= 2 * c.slots && c.slots <= 16 && live < LIVE; i++) make(bytes);
        if (live > c.slots) resize(0, page_words * 8 - 8);
        while (live) release(live - 1);
        if (before && make(bytes) == NPH_OK)
            for (uint32_t i = 0; i < 36; i++) resize(0, before * 8 - 7 + i), resize(0, bytes - i % 9);
        before = c.slot_words;
    }
    while (live) release(live - 1);
}

/* Calls that are made to be long: a page's largest object written and read from each byte of a word, resizes to and from
 * a page, and frees and resizes that move an object of the largest classes. */
static void long_calls(void) {
    uint32_t most = page_words * 8 - 8;
    while (live) release(live - 1);
    for (uint32_t part = 1; part < 12; part += part) sweep(most / part - 8 * (part > 1));
    each_class();
    if (make(most) == NPH_OK) {
        resize(0, most - 9), resize(0, most), resize(0, 8), resize(0, most), resize(0, most / 2 - 8), resize(0, most), resize(0, 0), resize(0, most);
    }
    while (live) release(live - 1);
    for (uint32_t part = 2; part < 10; part++) {
        uint32_t bytes = (most + 8) / part / 32 * 32 - 8;
        for (uint32_t n = 0; n < 4 * part; n++) make(bytes);
        for (uint32_t n = 0; n < 3; n++) if (live > 2 * part) release(n), release(live - 1 - n);
        for (uint32_t n = 0; n < 3 && n < live; n++) resize(n, bytes / 2), resize(n, most), resize(n, bytes - 40), resize(n, bytes);
        while (live) release((uint32_t)drawn(live));
    }
    /* With blocks: many free blocks, then a malloc that splits one, and frees that join it with both neighbours. */
    while (live < LIVE && make(16) == NPH_OK) ;
    ask(0);
    for (uint32_t n = live; n >= 2; n -= 2) release(n - 2);
    ask(0), make(most), make(8);
    while (live) release(live - 1);
    for (uint32_t n = 0; n < 3; n++) make(1);
    while (live) release(0);
    /* With blocks: a full region, of which each second block is then free. */
    while (live < LIVE && make(48) == NPH_OK) ;
    for (uint32_t n = live; n >= 2; n -= 2) release(n - 2);
    ask(0);
    /* A heap that has no room. */
    while (live) release(live - 1);
    for (uint32_t bytes = most; bytes > 8; bytes /= 2)
        while (live < LIVE && make(bytes) == NPH_OK) ;
    ask(0);
}

/* On a heap without objects: bounds of each class, and of none. */
static void set_bounds(void) {
    nph_class c;
    for (uint32_t n = 0; PAGED && nph_figures(&heap, n, &c) == NPH_OK; n++)
        call("set_bound", (void *)nph_set_bound, c.slot_words, 1, 0, 0), printf(" W %" PRIu32 "\n", page_words);
    ask_heap();
}

static int32_t open_or_close(bool opens, const uint64_t *settings) {
    int32_t code = opens ? call("open", (void *)nph_open, settings[0], settings[1], settings[2], settings[3])
                         : call("close", (void *)nph_close, 0, 0, 0, 0);
    printf(" P %" PRIu64 " W %" PRIu32 " Q %" PRIu64 "\n", settings[0], page_words, settings[3]);
    return code;
}

int main(int argc, char **argv) {
    uint64_t settings[5];
    begin(argc, argv, settings);
    page_words = (uint32_t)settings[1] / 8;
    proxies = settings[3];
    for (entries = 1; entries < proxies;) entries += entries;
    refused(0);
    nph_needed needed;
    call_with(settings[0], "bytes_needed", (void *)nph_bytes_needed, settings[1], settings[2], settings[3], (uint64_t)&needed), printf(" W %" PRIu32 "\n", page_words);
    if (PAGED) {
        static nph_need needs[64];
        uint32_t found;
        for (uint32_t n = 0; n < 64; n++) needs[n] = (nph_need){(37 * n + 1) % 500, 1 + n % 3};
        for (uint64_t n = 0; n <= 64; n += 16) call_with(settings[1], "pages_needed", (void *)nph_pages_needed, settings[2], (uint64_t)needs, n, (uint64_t)&found), printf(" n %" PRIu64 " W %" PRIu32 "\n", n, page_words);
        /* Each object has a page: so each need is compared with all sizes. */
        for (uint32_t n = 0; n < 64; n++) needs[n].bytes = (uint32_t)settings[1] - 8;
        call_with(settings[1], "pages_needed", (void *)nph_pages_needed, settings[2], (uint64_t)needs, 64, (uint64_t)&found), printf(" n 64 W %" PRIu32 "\n", page_words);
    }
    OPEN_WITH_LITTLE(open_or_close(true, settings));
    draw_calls(strtoull(argv[2], NULL, 10));
    long_calls();
    while (live) release(live - 1);
    set_bounds();
    open_or_close(false, settings);
    print_ran();
    return 0;
}
