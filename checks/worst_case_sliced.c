/* The calls of the library with slices, which checks/worst_case counts under the bounds that tools/worst_case computes
 * (worst_case.h). Objects are read and written also while they move. */
#include "worst_case.h"

enum { LIVE = 1024 };
static nph_sliced_heap heap = NPH_SLICED_HEAP;
static uint32_t handles[LIVE], lengths[LIVE], live, page_words, quantum;
#define ON_HEAP(name, ...) CALL(#name, nph_sliced_##name, (uint64_t)&heap, __VA_ARGS__)
#define ASK(name, ...) PLAIN(#name, nph_sliced_##name, __VA_ARGS__)

static uint64_t last_steps(void) {
    uint64_t steps = 0;
    if (heap.is_open && nph_sliced_last_steps(&heap, &steps) != NPH_OK) exit(1);
    return steps;
}

static uint32_t left(void) {
    uint32_t words = 0;
    if (heap.is_open && nph_sliced_left(&heap, &words) != NPH_OK) exit(1);
    return words;
}

static int32_t make(uint32_t bytes) {
    uint32_t handle = 0;
    int32_t code = ON_HEAP(malloc, bytes, (uint64_t)&handle);
    printf(" bytes %" PRIu32 "\n", bytes);
    if (code == NPH_OK) handles[live] = handle, lengths[live++] = bytes;
    return code;
}

static void step(void) {
    uint32_t before = left();
    ON_HEAP(step, 0);
    printf(" q %" PRIu32 " next %d\n", quantum, before > 0 && before <= quantum && left() > 0);
}

static int32_t release_handle(uint32_t handle) {
    int32_t code = ON_HEAP(free, handle);
    printf(" q %" PRIu32 "\n", quantum);
    return code;
}

static void read_or_write(bool writes, uint32_t handle, uint32_t at, uint32_t n) {
    if (writes) ON_HEAP(write, handle, at, (uint64_t)buffer, n);
    else ON_HEAP(read, handle, at, (uint64_t)buffer, n);
    printf(" at %" PRIu32 " n %" PRIu32 "\n", at, n);
}

static void ask_handle(uint32_t handle) {
    uint32_t number;
    ASK(length, (uint64_t)&heap, handle, (uint64_t)&number);
    ASK(slot_words, (uint64_t)&heap, handle, (uint64_t)&number);
    ASK(place, (uint64_t)&heap, handle, (uint64_t)&number);
}

/* The calls that ask for the whole heap, and the bounds. */
static void ask_heap(void) {
    uint64_t steps;
    uint32_t number;
    nph_class c;
    nph_heap_totals t;
    ASK(has_room, (uint64_t)&heap, drawn(page_words * 8));
    ASK(class_of, (uint64_t)&heap, drawn(page_words * 8), (uint64_t)&number);
    ASK(figures, (uint64_t)&heap, drawn(70), (uint64_t)&c);
    ASK(totals, (uint64_t)&heap, (uint64_t)&t);
    ASK(left, (uint64_t)&heap, (uint64_t)&number);
    ASK(moving, (uint64_t)&heap, (uint64_t)&number);
    ASK(last_steps, (uint64_t)&heap, (uint64_t)&steps);
    ASK(version, 0);
    ASK(most_malloc, 0), ASK(most_has_room, 0), ASK(most_length, 0);
    ASK(most_free, quantum), ASK(most_step, quantum);
    ASK(most_access, drawn(8), drawn(page_words)), ASK(most_access, 0, 0);
}

/* The number of the object that has this handle, or `live`. */
static uint32_t with(uint32_t handle) {
    uint32_t i = 0;
    while (i < live && handles[i] != handle) i++;
    return i;
}

/* Reads and writes the object that the pending job moves: the whole of it, from and to each byte of a word, and a few bytes about
 * the place up to which it has moved. */
static void access_moving(void) {
    uint32_t handle = NPH_NONE, i;
    ASK(moving, (uint64_t)&heap, (uint64_t)&handle);
    i = with(handle);
    if (i == live) return;
    ask_handle(handle);
    for (uint32_t at = 0; at < 9; at++)
        for (uint32_t end = 0; end < 9; end++)
            if (at + end <= lengths[i]) read_or_write(true, handle, at, lengths[i] - at - end), read_or_write(false, handle, at, lengths[i] - at - end);
    for (uint32_t n = 0; n < 60 && n < lengths[i]; n++) {
        uint32_t at = (uint32_t)drawn(lengths[i] - n);
        read_or_write(true, handle, at, n), read_or_write(false, handle, at, n);
    }
}

/* Does slices until no job is pending. */
static void finish(bool looks) {
    while (left() > 0) {
        if (looks) access_moving(), looks = drawn(4);
        step();
    }
    step();
}

/* Frees an object. Some handles are used once more, and some frees are tried beside the job: each such call is refused. */
static void release(uint32_t i) {
    uint32_t handle = handles[i];
    finish(false);
    release_handle(handle);
    handles[i] = handles[--live], lengths[i] = lengths[live];
    if (live && drawn(8) == 0) release_handle(handles[0]);
    if (drawn(8)) return;
    release_handle(handle), ask_handle(handle), read_or_write(true, handle, 0, 8), read_or_write(false, handle, 0, 8);
}

static void release_all(void) {
    while (live) release(live - 1);
    finish(false);
}

/* Calls that a closed or lent heap refuses. */
static void refused(uint32_t handle) {
    make(8), ask_handle(handle), step(), release_handle(handle), ask_heap();
    read_or_write(true, handle, 0, 8), read_or_write(false, handle, 0, 8);
}

/* Lends the heap, makes calls that a lent heap refuses, and takes it back. Beside a pending job it can't be lent. */
static void lend(uint32_t handle) {
    uint64_t *words;
    ASK(return, (uint64_t)&heap);
    ASK(lend, (uint64_t)&heap, (uint64_t)&words);
    if (heap.is_lent) ASK(lend, (uint64_t)&heap, (uint64_t)&words), refused(handle);
    ASK(return, (uint64_t)&heap);
}

static void draw_calls(uint64_t count) {
    for (uint64_t n = 0; n < count; n++) {
        uint32_t i = live ? (uint32_t)drawn(live) : 0, at;
        if (!live || (drawn(3) == 0 && live < LIVE)) { make(size_for(page_words)); continue; }
        at = (uint32_t)drawn(lengths[i] + 1);
        switch (drawn(8)) {
        case 0: case 1: release(i); break;
        case 2: case 3: step(); break;
        case 4: finish(drawn(16) == 0); break;
        case 5: read_or_write(true, handles[i], at, (uint32_t)drawn(lengths[i] - at + 1)); break;
        case 6: read_or_write(false, handles[i], at, (uint32_t)drawn(lengths[i] - at + 1)); break;
        default: ask_handle(handles[i]), lend(handles[i]), ask_heap(); n += 8;
        }
    }
}

/* Reads and writes an object of up to `bytes` bytes from and to each byte of a word. */
static void sweep(uint32_t bytes) {
    release_all();
    if (bytes < 40 || make(bytes) != NPH_OK) return;
    for (uint32_t at = 0; at < 9; at++)
        for (uint32_t end = 0; end < 9; end++)
            read_or_write(true, handles[0], at, bytes - at - end), read_or_write(false, handles[0], at, bytes - at - end);
    for (uint32_t n = 0; n < 40; n++) read_or_write(true, handles[0], n % 8, n), read_or_write(false, handles[0], n % 8, n);
}

/* Calls that are made to be long: the largest objects read and written from each byte of a word, at rest and while they move, and
 * frees of the first objects of full pages, each of which moves an object of the class's last page. */
static void long_calls(void) {
    uint32_t most = page_words * 8 - 8;
    for (uint32_t part = 1; part < 12; part += part) sweep(most / part - 8 * (part > 1));
    for (uint32_t part = 1; part < 10; part++) {
        uint32_t bytes = (most + 8) / part / 32 * 32 - 8;
        release_all();
        for (uint32_t n = 0; n < 4 * part && live < LIVE; n++) make(bytes);
        for (uint32_t n = 0; n < 3 && live > part; n++) {
            release(n);
            /* While the job is pending its class gets a second partly full page: so a job follows. */
            for (uint32_t more = 0; left() && more <= part && live < LIVE; more++) make(bytes);
            finish(true);
        }
        while (live) {
            release((uint32_t)drawn(live)), step();
            if (drawn(4) == 0) make(8);
        }
        release_all();
    }
    /* Small objects in many pages: the frees leave pages with one used slot each in turn. */
    while (live < LIVE && make(16) == NPH_OK) ;
    for (uint32_t n = live; n >= 2; n -= 2) release(n - 2), finish(drawn(16) == 0);
    ask_heap(), make(most), make(8);
    release_all();
}

static int32_t open_or_close(bool opens, const uint64_t *settings) {
    int32_t code = opens ? ON_HEAP(open, settings[0], settings[1], settings[3], quantum)
                         : make_call("close", (void *)nph_sliced_close, (uint64_t[6]){(uint64_t)&heap}, false);
    printf(" P %" PRIu64 " W %" PRIu32 " Q %" PRIu64 "\n", settings[0], page_words, settings[3]);
    return code;
}

int main(int argc, char **argv) {
    uint64_t settings[5];
    nph_needed needed;
    begin(argc, argv, settings);
    page_words = (uint32_t)settings[1] / 8, quantum = (uint32_t)settings[4];
    refused(0);
    CALL("bytes_needed", nph_sliced_bytes_needed, settings[0], settings[1], settings[3], (uint64_t)&needed), printf(" W %" PRIu32 "\n", page_words);
    OPEN_WITH_LITTLE(open_or_close(true, settings));
    draw_calls(strtoull(argv[2], NULL, 10));
    long_calls();
    release_all();
    open_or_close(false, settings);
    print_ran();
    return 0;
}
