/* Drawn calls beside a plain model: each object's handle, bytes and place. Bytes are written and read by copies and in place,
 * two objects at once. Handles of objects that were freed of late are refused, drawn numbers unless a live object has them;
 * a lent heap refuses each call, and no call that fails writes anything. No call takes more steps than its bound. The words of a
 * slot or block are known before its free, are enough for the object, and stay the same; no two slots or blocks overlap, and together
 * they have the bytes taken. A walk finds each live object once; the heap counts what the model counts; and no class has more partly
 * full pages than the bound that was set. Ends with 1 at the first difference. Arguments: the number of calls, and the seed. */
#include "norphuen.h"
#include <stdio.h>
#include <stdlib.h>
#include <string.h>

enum { MOST = 200, NUMBERS = 256, PAGES = 32, PAGE = 2048, STALE = 64, LONG = 100000, CLASSES = 67 };
#if defined NPH_USE_TLSF || defined NPH_USE_HALF
#define WITH_BLOCKS
enum { BLOCKS = 1, HEADERS = 2, ASK_WORDS = 2 };
#else
enum { BLOCKS = 0, HEADERS = 1, ASK_WORDS = 3 };
#endif

typedef struct object {
    uint32_t handle;
    uint32_t length;
    uint32_t place;
    uint32_t words; /* of its slot or block */
    uint8_t bytes[PAGE];
} object;

static nph_heap heap = NPH_HEAP;
static object objects[MOST];
static uint32_t live, stale[STALE], freed;
static uint64_t state, asked, moves, loans, refused, full, walks;
static nph_counted counted; /* of the model */
static uint32_t bounds[CLASSES], most_not_full, long_in;

#define CHECK(x) do { if (!(x)) { printf("line %d: not %s\n", __LINE__, #x); exit(1); } } while (0)

/* The steps of the last call. */
static uint64_t taken(void) {
    uint64_t steps;
    CHECK(nph_last_steps(&heap, &steps) == NPH_OK);
    return steps;
}

/* A drawn number below `n`. */
static uint32_t draw(uint32_t n) {
    state = state * 6364136223846793005u + 1442695040888963407u;
    return (uint32_t)(state >> 33) % n;
}

/* A length; one of `long_in` is long. */
static uint32_t draw_length(void) { return draw(draw(long_in) ? 120 : 1800); }

/* The object with this handle, NULL if none has it. */
static object *with(uint32_t handle) {
    for (uint32_t i = 0; i < live; i++)
        if (objects[i].handle == handle) return &objects[i];
    return NULL;
}

/* The place of an object that was made or moved. */
static void find_place(object *o) { CHECK(nph_place(&heap, o->handle, &o->place) == NPH_OK); }

/* The words of the slot or block of an object. */
static uint32_t slot_words(object *o) {
    uint32_t words = 0;
    CHECK(nph_slot_words(&heap, o->handle, &words) == NPH_OK);
    CHECK(taken() == ASK_WORDS && words >= HEADERS + (o->length + 7) / 8);
#ifndef WITH_BLOCKS
    uint32_t c = 77;
    nph_class figures;
    CHECK(nph_class_of(&heap, o->length, &c) == NPH_OK);
    CHECK(nph_figures(&heap, c, &figures) == NPH_OK && figures.slot_words == words);
#endif
    return words;
}

/* Notes that an object moved, if one did. */
static void note_move(uint32_t handle) {
    if (handle == NPH_NONE) return;
    object *o = with(handle);
    CHECK(o != NULL);
    find_place(o);
    moves++;
    counted.moves++;
}

/* Notes what is asked for and free after a call. */
static void note_peaks(void) {
    nph_heap_totals t;
    CHECK(nph_totals(&heap, &t) == NPH_OK);
    uint64_t left = BLOCKS ? t.held - t.taken : t.free;
    if (asked > counted.most_asked) counted.most_asked = asked;
    if (left < counted.least_free) counted.least_free = left;
}

static void make(void) {
    object *o = &objects[live];
    uint32_t length = draw_length(), handle = 77;
    nph_status room = nph_has_room(&heap, length), status;
    CHECK(taken() <= nph_most_has_room());
    status = nph_malloc(&heap, length, &handle);
    CHECK(taken() <= nph_most_malloc());
    CHECK(room == status && (status == NPH_OK || status == NPH_SPACE));
    if (status != NPH_OK) { CHECK(handle == 77); full++; counted.space++; return; }
    CHECK(with(handle) == NULL && handle != NPH_NONE);
    o->handle = handle;
    o->length = length;
    memset(o->bytes, 0, PAGE);
    find_place(o);
    o->words = slot_words(o);
    asked += length;
    live++;
    note_peaks();
}

/* Mallocs and resizes that are refused for another cause than space. */
static void ask_too_much(object *o) {
    uint32_t handle = 77;
    CHECK(nph_malloc(&heap, LONG, &handle) == NPH_SIZE);
    counted.size++;
    if (live == MOST) {
        CHECK(nph_malloc(&heap, 1, &handle) == NPH_PROXY);
        counted.proxy++;
    }
    CHECK(handle == 77);
    if (live == 0) return;
    nph_status status = nph_resize(&heap, o->handle, LONG, NULL);
    CHECK(status == (BLOCKS ? NPH_KIND : NPH_SIZE));
    if (status == NPH_SIZE) counted.size++;
}

/* A walk finds each live object once, by rising number. */
static void walk(void) {
    uint32_t found = 0, handle = NPH_NONE, before = 0;
    uint64_t steps = 0;
    for (;;) {
        CHECK(nph_next(&heap, handle, &handle) == NPH_OK);
        steps += taken();
        CHECK(taken() <= NUMBERS);
        if (handle == NPH_NONE) break;
        CHECK(with(handle) != NULL && (found == 0 || handle % NUMBERS > before));
        before = handle % NUMBERS;
        found++;
    }
    CHECK(found == live && steps == NUMBERS + live);
    walks++;
}

/* The heap counted what the model did, and no class has too many partly full pages. */
static void compare(void) {
    nph_counted c;
    nph_class f;
    CHECK(nph_counts(&heap, &c) == NPH_OK && memcmp(&c, &counted, sizeof c) == 0);
    for (uint32_t i = 0; nph_figures(&heap, i, &f) == NPH_OK; i++) {
        CHECK(i < CLASSES && f.not_full <= bounds[i]);
        if (f.not_full > most_not_full) most_not_full = f.not_full;
    }
}

/* The slots or blocks are where the places say, none overlaps another, and the whole heap has the figures of them all. */
static void compare_all(void) {
    static uint8_t used[PAGES * PAGE / 8];
    nph_heap_totals t;
    uint64_t words = 0;
    memset(used, 0, sizeof used);
    for (uint32_t i = 0; i < live; i++) {
        CHECK(slot_words(&objects[i]) == objects[i].words && objects[i].place + objects[i].words <= sizeof used);
        for (uint32_t w = 0; w < objects[i].words; w++) CHECK(used[objects[i].place + w]++ == 0);
        words += objects[i].words;
    }
    CHECK(nph_totals(&heap, &t) == NPH_OK && t.live == live && t.asked == asked && t.taken == 8 * words);
}

static void release(object *o) {
    nph_freed f = {0, NPH_NONE};
    uint32_t words = slot_words(o);
    CHECK(words == o->words && nph_free(&heap, o->handle, draw(2) ? &f : NULL) == NPH_OK);
    CHECK(taken() <= nph_most_free(words) && (f.slot_words == 0 || f.slot_words == words));
    stale[freed++ % STALE] = o->handle;
    asked -= o->length;
    uint32_t moved = f.moved;
    *o = objects[--live];
    if (f.slot_words > 0) { note_move(moved); return; }
    for (uint32_t i = 0; i < live; i++) { /* it is not known what moved */
        uint32_t place = objects[i].place;
        find_place(&objects[i]);
        counted.moves += objects[i].place != place;
    }
}

static void resize(object *o) {
    uint32_t length = draw_length();
    nph_resized r = {0, 0, 77};
    nph_status status = nph_resize(&heap, o->handle, length, &r);
    CHECK(status != NPH_OK || taken() <= nph_most_resize(length, r.old_slot_words, r.slot_words));
    if (status != NPH_OK) { CHECK(status == (BLOCKS ? NPH_KIND : NPH_SPACE) && r.moved == 77); full += !BLOCKS; counted.space += !BLOCKS; return; }
    if (length < o->length) memset(o->bytes + length, 0, PAGE - length);
    asked = asked - o->length + length;
    o->length = length;
    find_place(o);
    CHECK(r.old_slot_words == o->words);
    o->words = slot_words(o);
    CHECK(r.slot_words == o->words);
    note_move(r.moved);
    note_peaks();
}

/* Writes and reads a range by copies, which may pass the end of the object. */
static void copy(object *o) {
    uint8_t bytes[16], back[16];
    uint32_t n = draw(17), at = draw(o->length + 1);
    for (uint32_t i = 0; i < n; i++) bytes[i] = (uint8_t)draw(256);
    memset(back, 7, 16);
    nph_status wanted = n <= o->length - at ? NPH_OK : NPH_RANGE;
    CHECK(nph_write(&heap, o->handle, at, bytes, n) == wanted && nph_read(&heap, o->handle, at, back, n) == wanted);
    CHECK(wanted == NPH_OK ? taken() == nph_most_access(at, n) : taken() <= nph_most_access(at, n));
    if (wanted == NPH_OK) memcpy(o->bytes + at, bytes, n);
    for (uint32_t i = 0; i < 16; i++) CHECK(back[i] == (wanted == NPH_OK && i < n ? bytes[i] : 7));
}

/* Each call on a heap that is not open returns this code, and writes nothing. */
static void all_refused(nph_status code, uint32_t handle) {
    uint32_t number = 77;
    uint64_t steps = 77, *words = NULL;
    uint8_t byte = 77;
    nph_freed f = {77, 77};
    nph_resized r = {77, 77, 77};
    nph_class c = {77, 77, 77, 77, 77};
    nph_heap_totals t = {77, 77, 77, 77, 77, 77, 77};
    CHECK(nph_malloc(&heap, 1, &number) == code && nph_free(&heap, handle, &f) == code && nph_free(&heap, handle, NULL) == code);
    CHECK(nph_resize(&heap, handle, 1, &r) == code && nph_resize(&heap, handle, 1, NULL) == code);
    CHECK(nph_read(&heap, handle, 0, &byte, 1) == code && nph_write(&heap, handle, 0, &byte, 1) == code);
    CHECK(nph_length(&heap, handle, &number) == code && nph_has_room(&heap, 1) == code && nph_figures(&heap, 0, &c) == code);
    CHECK(nph_totals(&heap, &t) == code && nph_last_steps(&heap, &steps) == code && nph_place(&heap, handle, &number) == code);
    CHECK(nph_lend(&heap, &words) == code && nph_next(&heap, NPH_NONE, &number) == code);
    nph_counted counts = {77, 77, 77, 77, 77, 77, 77};
    CHECK(nph_counts(&heap, &counts) == code && counts.most_asked == 77 && counts.space == 77);
    CHECK(nph_slot_words(&heap, handle, &number) == code);
#ifndef WITH_BLOCKS
    CHECK(nph_set_bound(&heap, 3, 1) == code);
#endif
    CHECK(number == 77 && steps == 77 && words == NULL && byte == 77 && f.slot_words == 77 && f.moved == 77);
    CHECK(r.old_slot_words == 77 && r.moved == 77 && c.slot_words == 77 && c.not_full == 77 && t.asked == 77 && t.largest == 77);
}

/* Changes two objects in place, which may be one. */
static void in_place(object *o, object *p) {
    uint64_t *words;
    uint32_t place;
    CHECK(nph_place(&heap, o->handle, &place) == NPH_OK && place == o->place);
    CHECK(nph_place(&heap, p->handle, &place) == NPH_OK && place == p->place);
    CHECK(nph_lend(&heap, &words) == NPH_OK);
    uint8_t *x = (uint8_t *)nph_bytes(words, o->place), *y = (uint8_t *)nph_bytes(words, p->place);
    CHECK((uintptr_t)x % 8 == 0 && memcmp(x, o->bytes, o->length) == 0 && memcmp(y, p->bytes, p->length) == 0);
    for (int i = 0; i < 8; i++) {
        uint8_t byte = (uint8_t)draw(256);
        uint32_t at = o->length > 0 ? draw(o->length) : 0, other = p->length > 0 ? draw(p->length) : 0;
        if (o->length > 0) x[at] = o->bytes[at] = byte;
        if (p->length > 0) y[other] = p->bytes[other] = (uint8_t)~byte;
    }
    if (loans++ % 64 == 0) all_refused(NPH_LENT, o->handle);
    if (loans % 64 == 1) CHECK(nph_open(&heap, 1, 512, 1, 1) == NPH_LENT);
    CHECK(nph_return(&heap) == NPH_OK && nph_return(&heap) == NPH_NOT_LENT);
    uint8_t back[PAGE];
    CHECK(nph_read(&heap, o->handle, 0, back, o->length) == NPH_OK && memcmp(back, o->bytes, o->length) == 0);
}

/* No call takes a handle that no live object has. */
static void refuse(uint32_t handle) {
    uint32_t number = 77;
    uint8_t byte = 77;
    nph_freed f = {77, 77};
    CHECK(nph_free(&heap, handle, &f) == NPH_UNKNOWN && nph_free(&heap, handle, NULL) == NPH_UNKNOWN);
    CHECK(nph_resize(&heap, handle, 1, NULL) == NPH_UNKNOWN || nph_resize(&heap, handle, 1, NULL) == NPH_KIND);
    CHECK(nph_read(&heap, handle, 0, &byte, 1) == NPH_UNKNOWN && nph_write(&heap, handle, 0, &byte, 1) == NPH_UNKNOWN);
    CHECK(nph_length(&heap, handle, &number) == NPH_UNKNOWN && nph_place(&heap, handle, &number) == NPH_UNKNOWN);
    CHECK(nph_next(&heap, handle, &number) == NPH_UNKNOWN && nph_slot_words(&heap, handle, &number) == NPH_UNKNOWN);
    CHECK(taken() == 1);
    counted.unknown += 3;
    CHECK(number == 77 && byte == 77 && f.slot_words == 77 && f.moved == 77);
    refused++;
}

/* Sets drawn bounds of the classes of a heap without objects. */
static void set_bounds(void) {
    for (uint32_t i = 0; i < CLASSES; i++) bounds[i] = 1;
#ifndef WITH_BLOCKS
    nph_class f;
    uint32_t handle;
    CHECK(nph_set_bound(&heap, 3, 0) == NPH_BOUND && nph_set_bound(&heap, 3, 65) == NPH_BOUND && nph_set_bound(&heap, 0, 1) == NPH_UNKNOWN);
    for (uint32_t i = 0; nph_figures(&heap, i, &f) == NPH_OK; i++) {
        if (draw(2)) continue;
        bounds[i] = 1 + draw(4);
        CHECK(nph_set_bound(&heap, f.slot_words, bounds[i]) == NPH_OK);
    }
    CHECK(nph_malloc(&heap, 0, &handle) == NPH_OK && nph_set_bound(&heap, 3, 1) == NPH_LIVE && nph_free(&heap, handle, NULL) == NPH_OK);
    note_peaks();
    counted.least_free = PAGES - 1;
#endif
}

/* Closes the heap, which may be lent or closed already, and opens it again. All its handles are stale. */
static void reopen(void) {
    uint64_t *words;
    nph_status status = draw(2) ? nph_lend(&heap, &words) : NPH_OK;
    CHECK(status == NPH_OK || status == NPH_CLOSED);
    for (uint32_t i = 0; i < live && i < STALE; i++) stale[freed++ % STALE] = objects[i].handle;
    live = 0;
    asked = 0;
    long_in = 1 + draw(8);
    nph_close(&heap);
    all_refused(NPH_CLOSED, stale[0]);
    CHECK(nph_return(&heap) == NPH_CLOSED);
    CHECK(nph_open(&heap, PAGES, PAGE, 1, MOST) == NPH_OK && nph_open(&heap, 1, 512, 1, 1) == NPH_OPEN);
    memset(&counted, 0, sizeof counted);
    counted.least_free = BLOCKS ? PAGES * PAGE : PAGES;
    set_bounds();
}

int main(int argc, char **argv) {
    long calls = argc > 1 ? atol(argv[1]) : 100000;
    state = argc > 2 ? strtoull(argv[2], NULL, 10) : 1;
    CHECK(BLOCKS == (nph_kind() >= NPH_TLSF));
    reopen();
    for (long i = 0; i < calls; i++) {
        object *o = &objects[live > 0 ? draw(live) : 0];
        uint32_t kind = draw(10), handle;
        switch (live == 0 ? 0 : kind) {
        case 0: if (live < MOST) make(); break;
        case 9: ask_too_much(o); break;
        case 1: release(o); break;
        case 2: resize(o); break;
        case 3: case 4: copy(o); break;
        case 5: case 6: in_place(o, &objects[draw(live)]); break;
        default:
            if (freed == 0) break;
            handle = kind == 7 ? stale[draw(freed < STALE ? freed : STALE)] : (uint32_t)(state >> 16);
            if (kind == 7) CHECK(with(handle) == NULL); /* no new object has it so soon */
            if (with(handle) == NULL) refuse(handle);
        }
        if (i % 50000 == 49999) reopen();
        if (i % 64 == 0) { walk(); compare(); }
        if (i % 1024 == 0) compare_all();
    }
    CHECK(BLOCKS || calls < 10000 || most_not_full > 1);
    CHECK(calls < 200000 || full > 20);
    printf("%ld calls: %lu moves, %lu loans, %lu handles refused, %lu times no room, %lu walks\n", calls, (unsigned long)moves,
           (unsigned long)loans, (unsigned long)refused, (unsigned long)full, (unsigned long)walks);
    nph_close(&heap);
    return 0;
}
