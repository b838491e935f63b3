/* Drawn calls through the library of the heap of tasks do what a plain model does: c_library_tasks CALLS SEED. The model has for
 * each task its quota and the bytes of its objects, and counts the pages that they need by the rule of the size classes. */
#include "norphuen.h"
#include <stdio.h>
#include <stdlib.h>
#include <string.h>

enum { TASKS = 16, PROXIES = 40, MOST_BYTES = 600, STALE = 64 };

typedef struct object { uint32_t handle, length; uint8_t bytes[MOST_BYTES]; } object;
typedef struct task { uint32_t quota, live, stale_count; object objects[PROXIES]; uint32_t stale[STALE]; } task;

static nph_tasks_heap heap = NPH_TASKS_HEAP;
static task tasks[TASKS];
static uint32_t pages, page_words, sizes[128], classes, call;
static uint64_t state;

static void fail(const char *what, long given, long wanted) {
    fprintf(stderr, "call %u: %s is %ld, not %ld\n", call, what, given, wanted);
    exit(1);
}
static void same(const char *what, long given, long wanted) {
    if (given != wanted) fail(what, given, wanted);
}

static uint32_t drawn(uint32_t below) {
    state = state * 6364136223846793005u + 1442695040888963407u;
    return (uint32_t)(state >> 33) % below;
}

static uint32_t class_for(uint32_t bytes) {
    uint32_t words = 1 + (bytes + 7) / 8, c = 0;
    while (sizes[c] < words) c++;
    return c;
}
static uint32_t pages_for(const uint32_t *counts) {
    uint32_t all = 0;
    for (uint32_t c = 0; c < classes; c++) all += (counts[c] + page_words / sizes[c] - 1) / (page_words / sizes[c]);
    return all;
}
static void count_classes(const task *t, uint32_t *counts) {
    memset(counts, 0, 128 * sizeof *counts);
    for (uint32_t i = 0; i < t->live; i++) counts[class_for(t->objects[i].length)]++;
}
static uint32_t pages_of(const task *t) {
    uint32_t counts[128];
    count_classes(t, counts);
    return pages_for(counts);
}
static uint32_t quotas(void) {
    uint32_t all = 0;
    for (uint32_t t = 0; t < TASKS; t++) all += tasks[t].quota;
    return all;
}
static int found(const task *t, uint32_t handle) {
    for (uint32_t i = 0; i < t->live; i++)
        if (t->objects[i].handle == handle) return (int)i;
    return -1;
}

static void open_heap(void) {
    static const uint32_t page_bytes[] = {512, 1024};
    nph_needed needed;
    uint32_t bytes = page_bytes[drawn(2)];
    pages = 4 + drawn(60), page_words = bytes / 8, classes = 0;
    for (uint32_t size = 4; size < page_words; size = (9 * size + 7) / 8) sizes[classes++] = size;
    sizes[classes++] = page_words;
    memset(tasks, 0, sizeof tasks);
    same("bytes_needed", nph_tasks_bytes_needed(pages, bytes, PROXIES, &needed), NPH_OK);
    same("open", nph_tasks_open(&heap, pages, bytes, PROXIES), NPH_OK);
    same("open again", nph_tasks_open(&heap, pages, bytes, PROXIES), NPH_OPEN);
}

/* A handle of the task: live, freed before, of another task, or any. */
static uint32_t any_handle(const task *t) {
    const task *other = &tasks[drawn(TASKS)];
    switch (drawn(8)) {
    case 0: return drawn(1 << 20);
    case 1: if (t->stale_count > 0) return t->stale[drawn(t->stale_count < STALE ? t->stale_count : STALE)]; break;
    case 2: if (other->live > 0) return other->objects[drawn(other->live)].handle; break;
    default: break;
    }
    return t->live > 0 ? t->objects[drawn(t->live)].handle : NPH_NONE;
}

static void make(uint32_t n, task *t) {
    static const uint32_t often[] = {24, 100, 176, 240};
    uint32_t bytes = drawn(4) ? often[drawn(4)] : drawn(8) ? drawn(MOST_BYTES) : drawn(2000), handle = 7, counts[128], most = 17;
    nph_status wanted = NPH_OK;
    if (1 + (bytes + 7) / 8 > page_words) wanted = NPH_SIZE;
    else if (t->live == PROXIES) wanted = NPH_PROXY;
    else {
        count_classes(t, counts);
        counts[class_for(bytes)]++;
        if (pages_for(counts) > t->quota) wanted = NPH_SPACE;
    }
    if (bytes > MOST_BYTES && wanted == NPH_OK) return;
    same("malloc", nph_tasks_malloc(&heap, n, bytes, &handle), wanted);
    uint64_t steps = 0;
    same("last_steps", nph_tasks_last_steps(&heap, &steps), NPH_OK);
    if (steps == 0 || steps > most) fail("the steps of a malloc", (long)steps, most);
    if (wanted != NPH_OK) {
        same("the handle after a refusal", handle, 7);
        return;
    }
    same("an old handle", found(t, handle), -1);
    for (uint32_t i = 0; i < t->stale_count && i < STALE; i++)
        if (t->stale[i] == handle) fail("a stale handle", handle, -1);
    t->objects[t->live].handle = handle, t->objects[t->live].length = bytes;
    memset(t->objects[t->live++].bytes, 0, MOST_BYTES);
}

static void drop(uint32_t n, task *t) {
    uint32_t handle = any_handle(t);
    int at = found(t, handle);
    nph_freed freed = {1, 2};
    uint64_t steps = 0;
    same("free", nph_tasks_free(&heap, n, handle, &freed), at < 0 ? NPH_UNKNOWN : NPH_OK);
    same("last_steps", nph_tasks_last_steps(&heap, &steps), NPH_OK);
    if (at < 0) {
        same("the steps of a refused free", (long)steps, 1);
        same("freed after a refusal", freed.slot_words * 10 + freed.moved, 12);
        return;
    }
    same("slot words", freed.slot_words, sizes[class_for(t->objects[at].length)]);
    if (steps > 20 + freed.slot_words) fail("the steps of a free", (long)steps, 20 + freed.slot_words);
    t->objects[at] = t->objects[--t->live];
    t->stale[t->stale_count++ % STALE] = handle;
    if (freed.moved != NPH_NONE && found(t, freed.moved) < 0) fail("moved", freed.moved, -1);
}

static void access(uint32_t n, task *t, int writes) {
    uint32_t handle = any_handle(t), from = drawn(MOST_BYTES), count = drawn(3) ? drawn(40) : drawn(MOST_BYTES);
    uint8_t bytes[MOST_BYTES], kept[MOST_BYTES];
    int at = found(t, handle);
    if (at >= 0 && drawn(4)) from = drawn(t->objects[at].length + 1), count = drawn(t->objects[at].length - from + 1);
    for (uint32_t i = 0; i < MOST_BYTES; i++) kept[i] = bytes[i] = (uint8_t)drawn(256);
    nph_status wanted = at < 0 ? NPH_UNKNOWN : from + count > t->objects[at].length ? NPH_RANGE : NPH_OK;
    if (writes) {
        same("write", nph_tasks_write(&heap, n, handle, from, bytes, count), wanted);
        if (wanted == NPH_OK) memcpy(t->objects[at].bytes + from, bytes, count);
    } else {
        same("read", nph_tasks_read(&heap, n, handle, from, bytes, count), wanted);
        if (wanted == NPH_OK) memcpy(kept, t->objects[at].bytes + from, count);
        same("what is read", memcmp(bytes, kept, MOST_BYTES), 0);
    }
    uint64_t steps = 0;
    same("last_steps", nph_tasks_last_steps(&heap, &steps), NPH_OK);
    uint32_t words = count ? (from % 8 + count + 7) / 8 : 0;
    same("the steps of an access", (long)steps, wanted == NPH_OK ? 2 + words : wanted == NPH_RANGE ? 2 : 1);
}

static void measure(uint32_t n, task *t) {
    uint32_t handle = any_handle(t), length = 7, left = 0;
    int at = found(t, handle);
    same("length", nph_tasks_length(&heap, n, handle, &length), at < 0 ? NPH_UNKNOWN : NPH_OK);
    same("the length", length, at < 0 ? 7 : t->objects[at].length);
    nph_task figures = {1, 2, 3};
    same("task", nph_tasks_task(&heap, n, &figures), NPH_OK);
    same("quota", figures.quota, t->quota);
    same("pages", figures.pages, pages_of(t));
    same("live", figures.live, t->live);
    same("unassigned", nph_tasks_unassigned(&heap, &left), NPH_OK);
    same("pages left", left, pages - quotas());
    uint32_t c = drawn(classes + 1), counts[128];
    nph_class one = {1, 2, 3, 4, 5};
    same("figures", nph_tasks_figures(&heap, n, c, &one), c < classes ? NPH_OK : NPH_UNKNOWN);
    if (c == classes) return;
    count_classes(t, counts);
    uint32_t slots = page_words / sizes[c];
    same("slot words", one.slot_words, sizes[c]);
    same("slots", one.slots, slots);
    same("live of a class", one.live, counts[c]);
    same("pages of a class", one.pages, (counts[c] + slots - 1) / slots);
    same("partly full", one.not_full, counts[c] % slots != 0);
}

static void allot(uint32_t n, task *t) {
    uint32_t quota = drawn(8) ? drawn(pages / 4 + 2) : drawn(2 * pages);
    nph_status wanted = quotas() - t->quota + quota > pages ? NPH_PAGES : pages_of(t) > quota ? NPH_SPACE : NPH_OK;
    same("set_quota", nph_tasks_set_quota(&heap, n, quota), wanted);
    if (wanted == NPH_OK) t->quota = quota;
}

static void plan(uint32_t n, task *t) {
    nph_need needs[70];
    uint32_t count = drawn(20) ? drawn(6) : 60 + drawn(10), objects = 0, counts[128] = {0}, least = 7;
    nph_status wanted = count > 64 ? NPH_ENTRIES : NPH_OK;
    for (uint32_t i = 0; i < count; i++) {
        needs[i].bytes = drawn(30) ? drawn(page_words * 8 - 8) : drawn(3000), needs[i].count = drawn(6);
        objects += needs[i].count;
        if (1 + (needs[i].bytes + 7) / 8 > page_words) wanted = wanted ? wanted : NPH_SIZE;
        else counts[class_for(needs[i].bytes)] += needs[i].count;
    }
    if (!wanted && objects > PROXIES) wanted = NPH_PROXIES;
    same("least_quota", nph_tasks_least_quota(&heap, needs, count, &least), wanted);
    same("the least quota", least, wanted ? 7 : pages_for(counts));
    if (!wanted && pages_for(counts) > t->quota) wanted = NPH_SPACE;
    same("admit", nph_tasks_admit(&heap, n, needs, count), wanted);
}

int main(int given, char **words) {
    uint32_t calls = given > 1 ? (uint32_t)atoi(words[1]) : 100000, handle = 7;
    state = given > 2 ? (uint64_t)atoi(words[2]) : 1;
    same("closed", nph_tasks_malloc(&heap, 0, 8, &handle), NPH_CLOSED);
    open_heap();
    for (uint32_t t = 0; t < TASKS; t++) allot(t, &tasks[t]);
    for (call = 1; call <= calls; call++) {
        uint32_t n = drawn(TASKS);
        task *t = &tasks[n];
        if (drawn(50) == 0) same("no such task", nph_tasks_malloc(&heap, TASKS + drawn(100), 8, &handle), NPH_UNKNOWN);
        switch (drawn(16)) {
        case 0: case 1: case 2: case 3: case 4: make(n, t); break;
        case 5: case 6: case 7: drop(n, t); break;
        case 8: case 9: access(n, t, 1); break;
        case 10: case 11: case 12: access(n, t, 0); break;
        case 13: measure(n, t); break;
        case 14: allot(n, t); break;
        default: plan(n, t); break;
        }
        if (drawn(20000) == 0) {
            nph_tasks_close(&heap);
            same("closed", nph_tasks_set_quota(&heap, 0, 1), NPH_CLOSED);
            open_heap();
        }
    }
    nph_tasks_close(&heap);
    printf("%u calls\n", calls);
    return 0;
}
