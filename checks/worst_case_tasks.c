/* The calls of the library of tasks, which checks/worst_case counts under the bounds that tools/worst_case computes
 * (worst_case.h). */
#include "worst_case.h"

enum { TASKS = 16, LIVE = 256, NEEDS = 64 };
typedef struct task { uint32_t handles[LIVE], lengths[LIVE], live; } task;
static nph_tasks_heap heap = NPH_TASKS_HEAP;
static task tasks[TASKS];
static uint32_t page_words;
#define ON_HEAP(name, ...) CALL(#name, nph_tasks_##name, (uint64_t)&heap, __VA_ARGS__)
#define ASK(name, ...) PLAIN(#name, nph_tasks_##name, __VA_ARGS__)

static uint64_t last_steps(void) {
    uint64_t steps = 0;
    if (heap.is_open && nph_tasks_last_steps(&heap, &steps) != NPH_OK) exit(1);
    return steps;
}

static int32_t make(uint32_t t, uint32_t bytes) {
    uint32_t handle = 0;
    task *own = &tasks[t % TASKS];
    int32_t code = ON_HEAP(malloc, t, bytes, (uint64_t)&handle);
    printf(" bytes %" PRIu32 "\n", bytes);
    if (code == NPH_OK) own->handles[own->live] = handle, own->lengths[own->live++] = bytes;
    return code;
}

static void release_handle(uint32_t t, uint32_t handle) {
    nph_freed freed = {0, NPH_NONE};
    ON_HEAP(free, t, handle, (uint64_t)&freed);
    printf(" s %" PRIu32 " moved %d\n", freed.slot_words, freed.moved != NPH_NONE);
}

static void read_or_write(bool writes, uint32_t t, uint32_t handle, uint32_t at, uint32_t n) {
    if (writes) ON_HEAP(write, t, handle, at, (uint64_t)buffer, n);
    else ON_HEAP(read, t, handle, at, (uint64_t)buffer, n);
    printf(" at %" PRIu32 " n %" PRIu32 "\n", at, n);
}

static void ask_handle(uint32_t t, uint32_t handle) {
    uint32_t number;
    ASK(length, (uint64_t)&heap, t, handle, (uint64_t)&number);
}

/* Frees an object of a task. Some handles are used once more: each call with them is refused. */
static void release(uint32_t t, uint32_t i) {
    task *own = &tasks[t];
    uint32_t handle = own->handles[i];
    release_handle(t, handle);
    own->handles[i] = own->handles[--own->live], own->lengths[i] = own->lengths[own->live];
    if (drawn(8)) return;
    release_handle(t, handle), ask_handle(t, handle), read_or_write(true, t, handle, 0, 8), read_or_write(false, t, handle, 0, 8);
}

static void release_all(void) {
    for (uint32_t t = 0; t < TASKS; t++)
        while (tasks[t].live) release(t, tasks[t].live - 1);
}

static void set_quota(uint32_t t, uint32_t pages) { ASK(set_quota, (uint64_t)&heap, t, pages); }

/* Gives all pages to one task. */
static void give_all(uint32_t t, uint32_t pages) {
    for (uint32_t other = 0; other < TASKS; other++) set_quota(other, 0);
    set_quota(t, pages), set_quota(t, pages);
}

/* The calls that ask for a task, and for the whole heap. */
static void ask(uint32_t t) {
    nph_task figures;
    nph_class of_class;
    uint64_t steps;
    uint32_t pages;
    ASK(task, (uint64_t)&heap, t, (uint64_t)&figures);
    ASK(figures, (uint64_t)&heap, t, drawn(70), (uint64_t)&of_class);
    ASK(unassigned, (uint64_t)&heap, (uint64_t)&pages);
    ASK(last_steps, (uint64_t)&heap, (uint64_t)&steps);
    ASK(version, 0);
}

/* Plans with `n` needs, which are of drawn lengths, or all of a page: then each is compared with all sizes, and since but the first
 * are of no object, the quota is enough. */
static void plan(uint32_t t, uint32_t n, bool drawn_lengths) {
    static nph_need needs[NEEDS + 1];
    uint32_t pages;
    for (uint32_t i = 0; i < n; i++) {
        needs[i] = (nph_need){page_words * 8 - 8, i == 0};
        if (drawn_lengths) needs[i] = (nph_need){(uint32_t)drawn(500), (uint32_t)drawn(4)};
    }
    ON_HEAP(least_quota, (uint64_t)needs, n, (uint64_t)&pages), printf(" n %" PRIu32 " W %" PRIu32 "\n", n, page_words);
    ON_HEAP(admit, t, (uint64_t)needs, n), printf(" n %" PRIu32 " W %" PRIu32 "\n", n, page_words);
}

static void draw_calls(uint64_t count, uint32_t pages) {
    for (uint64_t n = 0; n < count; n++) {
        uint32_t t = (uint32_t)drawn(drawn(2) ? TASKS : 2), i, at;
        task *own = &tasks[t];
        i = own->live ? (uint32_t)drawn(own->live) : 0;
        if (!own->live || (drawn(3) == 0 && own->live < LIVE)) { make(t, size_for(page_words)); continue; }
        at = (uint32_t)drawn(own->lengths[i] + 1);
        switch (drawn(8)) {
        case 0: case 1: case 2: release(t, i); break;
        case 3: ask_handle(t, own->handles[i]); break;
        case 4: set_quota(t, (uint32_t)drawn(pages + 2)); break;
        case 5: read_or_write(true, t, own->handles[i], at, (uint32_t)drawn(own->lengths[i] - at + 1)); break;
        case 6: read_or_write(false, t, own->handles[i], at, (uint32_t)drawn(own->lengths[i] - at + 1)); break;
        default: ask(t), ask(TASKS + t), plan(t, (uint32_t)drawn(8), true); n += 8;
        }
    }
}

/* Reads and writes an object of up to `bytes` bytes from and to each byte of a word. */
static void sweep(uint32_t t, uint32_t bytes) {
    release_all();
    if (bytes < 40 || make(t, bytes) != NPH_OK) return;
    uint32_t handle = tasks[t].handles[0];
    for (uint32_t at = 0; at < 9; at++)
        for (uint32_t end = 0; end < 9; end++)
            read_or_write(true, t, handle, at, bytes - at - end), read_or_write(false, t, handle, at, bytes - at - end);
    for (uint32_t n = 0; n < 40; n++) read_or_write(true, t, handle, n % 8, n), read_or_write(false, t, handle, n % 8, n);
}

/* Calls that are made to be long: a page's largest object read and written from each byte of a word, frees that move an object
 * of the largest classes, and plans of as many needs as may be. */
static void long_calls(uint32_t t, uint32_t pages) {
    uint32_t most = page_words * 8 - 8;
    task *own = &tasks[t];
    release_all(), give_all(t, pages);
    for (uint32_t part = 1; part < 12; part += part) sweep(t, most / part - 8 * (part > 1));
    release_all();
    for (uint32_t part = 1; part < 10; part++) {
        uint32_t bytes = (most + 8) / part / 32 * 32 - 8;
        for (uint32_t n = 0; n < 4 * part && own->live < LIVE; n++) make(t, bytes);
        for (uint32_t n = 0; n < 3; n++) if (own->live > 2 * part) release(t, n), release(t, own->live - 1 - n);
        while (own->live) release(t, (uint32_t)drawn(own->live));
    }
    while (own->live < LIVE && make(t, 16) == NPH_OK) ;
    for (uint32_t n = own->live; n >= 2; n -= 2) release(t, n - 2);
    make(t, most), make(t, 8), release_all();
    for (uint32_t n = 0; n <= NEEDS; n += 16) plan(t, n, false), plan(t, n, true);
    plan(t, NEEDS + 1, true);
}

static int32_t open_or_close(bool opens, const uint64_t *settings) {
    int32_t code = opens ? ON_HEAP(open, settings[0], settings[1], settings[3])
                         : make_call("close", (void *)nph_tasks_close, (uint64_t[6]){(uint64_t)&heap}, false);
    printf(" P %" PRIu64 " W %" PRIu32 " Q %" PRIu64 "\n", settings[0], page_words, settings[3]);
    return code;
}

/* Calls that a closed heap, or one without such a task, refuses. */
static void refused(uint32_t t) {
    make(t, 8), ask_handle(t, 0), release_handle(t, 0), ask(t), set_quota(t, 1), plan(t, 0, true);
    read_or_write(true, t, 0, 0, 8), read_or_write(false, t, 0, 0, 8);
}

int main(int argc, char **argv) {
    uint64_t settings[5];
    nph_needed needed;
    begin(argc, argv, settings);
    page_words = (uint32_t)settings[1] / 8;
    refused(0);
    CALL("bytes_needed", nph_tasks_bytes_needed, settings[0], settings[1], settings[3], (uint64_t)&needed), printf(" W %" PRIu32 "\n", page_words);
    OPEN_WITH_LITTLE(open_or_close(true, settings));
    refused(TASKS);
    for (uint32_t t = 0; t < TASKS; t++) set_quota(t, (uint32_t)settings[0] / TASKS + (t < 2));
    draw_calls(strtoull(argv[2], NULL, 10), (uint32_t)settings[0]);
    long_calls(0, (uint32_t)settings[0]), long_calls(TASKS - 1, (uint32_t)settings[0]);
    open_or_close(false, settings);
    print_ran();
    return 0;
}
