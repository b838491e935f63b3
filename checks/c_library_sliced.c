/* Drawn calls of the library with slices beside a plain model: each object's handle, place and bytes, and the pending job.
 * Objects are read and written while they move. Handles of objects that were freed of late are refused, also while a job is
 * pending; a free beside a job is refused as busy; no call that fails writes anything. No call takes more steps than its
 * bound. A job ends after the slices that its words and those of a whole slot take. Figures and totals are those of the
 * model's objects, with one slot more while a job is pending. Loans are given only without a job; the bytes at an object's
 * place are its own, and what is written there is read later. The blocks that an open takes are those that
 * nph_sliced_bytes_needed says. Ends with 1 at the first difference. Arguments: the number of calls, and the seed. */
#include "norphuen.h"
#include <stdio.h>
#include <stdlib.h>
#include <string.h>

enum { MOST = 200, PAGES = 32, PAGE = 2048, STALE = 64, CLASSES = 64 };

typedef struct object {
    uint32_t handle;
    uint32_t length;
    uint32_t place;
    uint8_t bytes[PAGE];
} object;

static nph_sliced_heap heap = NPH_SLICED_HEAP;
static object objects[MOST];
/* job_class: of the pending job, if there is one. */
static uint32_t live, stale[STALE], freed, quantum, job_class;
static uint64_t state, moves, places, slices, busy, full, loans;
static nph_needed asked;

#define CHECK(x) do { if (!(x)) { printf("line %d: not %s\n", __LINE__, #x); exit(1); } } while (0)

nph_block rattle_alloc(size_t bytes, size_t align) {
    nph_block block = {true, aligned_alloc(align, (bytes + align - 1) / align * align)};
    CHECK(block.at != NULL);
    asked.total += bytes;
    asked.blocks++;
    if (asked.largest < bytes) asked.largest = bytes;
    return block;
}

nph_block rattle_realloc(void *at, size_t kept, size_t bytes, size_t align) {
    (void)at, (void)kept, (void)bytes, (void)align;
    CHECK(!"a call of rattle_realloc");
    exit(1);
}

void rattle_dealloc(void *at) { free(at); }

/* The steps of the last call. */
static uint64_t taken(void) {
    uint64_t steps;
    CHECK(nph_sliced_last_steps(&heap, &steps) == NPH_OK);
    return steps;
}

/* A drawn number below `n`. */
static uint32_t draw(uint32_t n) {
    state = state * 6364136223846793005u + 1442695040888963407u;
    return (uint32_t)(state >> 33) % n;
}

/* The words that the pending job has left, which no call for them changes. */
static uint32_t left(void) {
    uint32_t words = 77;
    CHECK(nph_sliced_left(&heap, &words) == NPH_OK);
    return words;
}

/* The object with this handle, NULL if none has it. */
static object *with(uint32_t handle) {
    for (uint32_t i = 0; i < live; i++)
        if (objects[i].handle == handle) return &objects[i];
    return NULL;
}

/* The slot sizes in words, by the rule: from 4 words on, each the last one and an eighth, up to the page. */
static uint32_t slot_sizes[CLASSES], classes;
static void find_sizes(void) {
    for (uint32_t s = 4; s < PAGE / 8; s = (9 * s + 7) / 8) slot_sizes[classes++] = s;
    slot_sizes[classes++] = PAGE / 8;
}

/* The class of a length: the first whose slots hold a header and the bytes. */
static uint32_t class_of(uint32_t length) {
    uint32_t c = 0;
    while (slot_sizes[c] < 1 + (length + 7) / 8) c++;
    return c;
}

/* The figures of each class and of the heap are those of the model's objects, and a pending job's slot is one more that is
 * used. Since each class has at most one partly full page then, its slots determine its pages. */
static void count(void) {
    uint32_t used = 0, objects_of[CLASSES] = {0};
    uint64_t asked_bytes = 0, taken_bytes = left() > 0 ? 8 * (uint64_t)slot_sizes[job_class] : 0, steps = taken();
    nph_heap_totals t;
    nph_class f = {1, 2, 3, 4, 5};
    for (uint32_t i = 0; i < live; i++) {
        uint32_t c = class_of(objects[i].length);
        objects_of[c]++;
        asked_bytes += objects[i].length;
        taken_bytes += 8 * (uint64_t)slot_sizes[c];
    }
    for (uint32_t c = 0; c < classes; c++) {
        uint32_t n = objects_of[c] + (left() > 0 && c == job_class), slots = PAGE / 8 / slot_sizes[c];
        CHECK(nph_sliced_figures(&heap, c, &f) == NPH_OK && f.slot_words == slot_sizes[c] && f.slots == slots);
        CHECK(f.live == objects_of[c] && f.pages == (n + slots - 1) / slots && f.not_full == (n % slots > 0));
        used += f.pages;
    }
    CHECK(nph_sliced_figures(&heap, classes, &f) == NPH_UNKNOWN && f.slot_words == PAGE / 8);
    CHECK(nph_sliced_totals(&heap, &t) == NPH_OK && t.live == live && t.asked == asked_bytes && t.taken == taken_bytes);
    CHECK(t.used == used && t.held == (uint64_t)PAGE * used && t.free == PAGES - used && t.largest == (used < PAGES ? PAGE / 8 : 0));
    CHECK(taken() == steps);
}

/* The place of an object is where the model has it. */
static void find(object *o) {
    uint32_t place = 77;
    CHECK(nph_sliced_place(&heap, o->handle, &place) == NPH_OK && place == o->place && taken() == 1);
}

/* After a free or a slice: the object that moves is live, and at most one object has another place. A move that ends in the
 * same call shows only there. */
static void note_moves(void) {
    uint32_t moving, place, changed = 0;
    CHECK(nph_sliced_moving(&heap, &moving) == NPH_OK);
    CHECK(moving == NPH_NONE || (left() > 0 && with(moving) != NULL));
    for (uint32_t i = 0; i < live; i++) {
        CHECK(nph_sliced_place(&heap, objects[i].handle, &place) == NPH_OK);
        changed += place != objects[i].place;
        objects[i].place = place;
    }
    CHECK(changed <= 1);
    places += changed;
}

/* A loan is refused while a job is pending. Else each object's bytes are at its place, a drawn byte of one is written there,
 * and all other calls are refused until the return. */
static void lend(void) {
    uint64_t *words = NULL, steps = taken();
    uint32_t number = 77;
    uint8_t byte = 7;
    nph_heap_totals totals;
    if (left() > 0) {
        CHECK(nph_sliced_lend(&heap, &words) == NPH_BUSY && words == NULL && nph_sliced_return(&heap) == NPH_NOT_LENT && taken() == steps);
        return;
    }
    CHECK(nph_sliced_lend(&heap, &words) == NPH_OK && words != NULL);
    CHECK(nph_sliced_lend(&heap, &words) == NPH_LENT && nph_sliced_step(&heap) == NPH_LENT && nph_sliced_left(&heap, &number) == NPH_LENT);
    CHECK(nph_sliced_totals(&heap, &totals) == NPH_LENT && nph_sliced_open(&heap, PAGES, PAGE, MOST, quantum) == NPH_LENT);
    for (uint32_t i = 0; i < live; i++) {
        object *o = &objects[i];
        uint8_t *at = nph_sliced_bytes(words, o->place);
        CHECK(memcmp(at, o->bytes, o->length) == 0);
        CHECK(nph_sliced_read(&heap, o->handle, 0, &byte, 1) == NPH_LENT && nph_sliced_free(&heap, o->handle) == NPH_LENT);
        if (o->length > 0 && draw(4) == 0) {
            uint32_t k = draw(o->length);
            at[k] = o->bytes[k] = (uint8_t)draw(256);
        }
    }
    CHECK(byte == 7 && number == 77 && nph_sliced_return(&heap) == NPH_OK && nph_sliced_return(&heap) == NPH_NOT_LENT && taken() == steps);
    loans++;
}

/* Opens the heap with a drawn quantum. What it takes is what nph_sliced_bytes_needed says. */
static void open_heap(void) {
    nph_needed needed;
    quantum = 1 + draw(draw(2) ? 8 : 300);
    asked = (nph_needed){0, 0, 0};
    CHECK(nph_sliced_step(&heap) == NPH_CLOSED);
    CHECK(nph_sliced_open(&heap, PAGES, PAGE, MOST, draw(2) ? 0 : 16385) == NPH_QUANTUM);
    CHECK(nph_sliced_open(&heap, 0, PAGE, MOST, quantum) == NPH_PAGES);
    CHECK(nph_sliced_open(&heap, PAGES, PAGE, MOST, quantum) == NPH_OK);
    CHECK(nph_sliced_open(&heap, PAGES, PAGE, MOST, quantum) == NPH_OPEN);
    CHECK(nph_sliced_bytes_needed(PAGES, PAGE, MOST, &needed) == NPH_OK);
    CHECK(needed.total == asked.total && needed.largest == asked.largest && needed.blocks == asked.blocks);
    CHECK(taken() == 0 && left() == 0);
}

static void make(void) {
    object *o = &objects[live];
    uint32_t length = draw(draw(8) ? 120 : 1800), handle = 77;
    nph_status room = nph_sliced_has_room(&heap, length), status;
    CHECK(taken() <= nph_sliced_most_has_room());
    status = nph_sliced_malloc(&heap, length, &handle);
    CHECK(taken() <= nph_sliced_most_malloc());
    CHECK(room == status && (status == NPH_OK || status == NPH_SPACE || (status == NPH_BUSY && left() > 0)));
    if (status != NPH_OK) { CHECK(handle == 77); full++; return; }
    CHECK(with(handle) == NULL && handle != NPH_NONE);
    o->handle = handle;
    o->length = length;
    CHECK(nph_sliced_place(&heap, handle, &o->place) == NPH_OK);
    memset(o->bytes, 0, PAGE);
    live++;
}

static void release(object *o) {
    uint32_t before = left(), moving, words = 77;
    CHECK(nph_sliced_slot_words(&heap, o->handle, &words) == NPH_OK && words == slot_sizes[class_of(o->length)] && taken() == 3);
    nph_status status = nph_sliced_free(&heap, o->handle);
    CHECK(taken() <= nph_sliced_most_free(quantum));
    CHECK(status == (before > 0 ? NPH_BUSY : NPH_OK));
    if (status != NPH_OK) { CHECK(left() == before && taken() == 1); busy++; return; }
    stale[freed++ % STALE] = o->handle;
    job_class = class_of(o->length);
    *o = objects[--live];
    CHECK(left() <= words && left() >= (words > quantum ? words - quantum : 0));
    CHECK(nph_sliced_moving(&heap, &moving) == NPH_OK);
    moves += moving != NPH_NONE;
    note_moves();
}

/* One slice does the quantum, or all words left, and then another job of the same class may begin. */
static void slice(void) {
    uint32_t before = left(), after;
    CHECK(nph_sliced_step(&heap) == NPH_OK);
    CHECK(taken() <= (before == 0 ? 0 : nph_sliced_most_step(quantum)));
    after = left();
    if (before > quantum) CHECK(after == before - quantum && taken() >= quantum);
    if (before == 0) CHECK(after == 0);
    slices += before > 0;
    note_moves();
}

/* Does slices until no job is pending. */
static void finish(void) {
    uint32_t n = (left() + quantum - 1) / quantum + (PAGE / 8 + quantum - 1) / quantum;
    while (left() > 0) { CHECK(n-- > 0); slice(); }
}

/* Writes and reads a range, which may pass the end of the object. */
static void access(object *o) {
    uint32_t at = draw(o->length + 2), count = draw(40), length = 77, number = 77;
    uint8_t bytes[40], out[40];
    bool fits = at + count <= o->length;
    for (uint32_t i = 0; i < count; i++) bytes[i] = (uint8_t)draw(256);
    CHECK(nph_sliced_length(&heap, o->handle, &length) == NPH_OK && length == o->length && taken() == nph_sliced_most_length());
    CHECK(nph_sliced_class_of(&heap, length, &number) == NPH_OK && number == class_of(length) && taken() == 1);
    find(o);
    CHECK(nph_sliced_write(&heap, o->handle, at, bytes, count) == (fits ? NPH_OK : NPH_RANGE));
    CHECK(taken() == (fits ? nph_sliced_most_access(at, count) : 2));
    if (fits) memcpy(o->bytes + at, bytes, count);
    memset(out, 7, sizeof out);
    CHECK(nph_sliced_read(&heap, o->handle, at, out, count) == (fits ? NPH_OK : NPH_RANGE));
    CHECK(taken() == (fits ? nph_sliced_most_access(at, count) : 2));
    for (uint32_t i = 0; i < sizeof out; i++) CHECK(out[i] == (fits && i < count ? o->bytes[at + i] : 7));
}

/* A handle that no live object has is refused. */
static void refuse(uint32_t handle) {
    uint32_t length = 77;
    uint8_t byte = 7;
    if (with(handle) != NULL) return;
    CHECK(nph_sliced_free(&heap, handle) == NPH_UNKNOWN && taken() == 1);
    CHECK(nph_sliced_write(&heap, handle, 0, &byte, 1) == NPH_UNKNOWN && nph_sliced_read(&heap, handle, 0, &byte, 1) == NPH_UNKNOWN);
    CHECK(nph_sliced_length(&heap, handle, &length) == NPH_UNKNOWN && nph_sliced_place(&heap, handle, &length) == NPH_UNKNOWN);
    CHECK(nph_sliced_slot_words(&heap, handle, &length) == NPH_UNKNOWN && taken() == 1 && length == 77 && byte == 7);
    CHECK(nph_sliced_class_of(&heap, PAGE - 7, &length) == NPH_SIZE && taken() == 1 && length == 77);
}

/* All objects have their bytes. */
static void compare(void) {
    uint8_t out[PAGE];
    for (uint32_t i = 0; i < live; i++) {
        CHECK(nph_sliced_read(&heap, objects[i].handle, 0, out, objects[i].length) == NPH_OK);
        CHECK(memcmp(out, objects[i].bytes, objects[i].length) == 0);
        find(&objects[i]);
    }
    count();
}

int main(int argc, char **argv) {
    if (argc != 3) return 1;
    uint64_t calls = strtoull(argv[1], NULL, 10);
    state = strtoull(argv[2], NULL, 10);
    find_sizes();
    open_heap();
    for (uint64_t i = 0; i < calls; i++) {
        uint32_t what = draw(16);
        object *o = live > 0 ? &objects[draw(live)] : NULL;
        if (what < 4 && live < MOST) make();
        else if (what < 7 && o != NULL) { release(o); if (draw(4) == 0) finish(); }
        else if (what < 11) slice();
        else if (what < 15 && o != NULL) access(o);
        else refuse(draw(4) ? stale[draw(STALE)] : draw(UINT32_MAX));
        if (i % 16 == 0) count();
        if (i % 64 == 0) lend();
        if (i % 4096 == 0) compare();
        if (i % 65536 == 65535) {
            uint64_t *words;
            if (draw(2)) { finish(); CHECK(nph_sliced_lend(&heap, &words) == NPH_OK); }
            nph_sliced_close(&heap);
            nph_sliced_close(&heap);
            live = 0;
            open_heap();
        }
    }
    compare();
    nph_sliced_close(&heap);
    if (calls >= 100000) CHECK(places > 1000 && slices > 1000 && busy > 100 && full > 100 && loans > 100);
    printf("%llu calls, %llu moves, %llu slices, %llu busy frees, %llu refused mallocs, %llu loans\n", (unsigned long long)calls,
           (unsigned long long)moves, (unsigned long long)slices, (unsigned long long)busy, (unsigned long long)full, (unsigned long long)loans);
    return 0;
}
