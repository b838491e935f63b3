/* A cache of the 100 entries that were used last. An entry is an object. Entries link to each other by handles: those of a
 * bucket in a list, and all in the order of their last use. bindings/ has the same program in C++, Rust and Ada. */
#include "norphuen.h"
#include <stdio.h>
#include <stdlib.h>
#include <string.h>

enum { MOST = 100, BUCKETS = 64, KEYS = 300 };

typedef struct entry {
    uint32_t key;
    uint32_t next;  /* in the bucket */
    uint32_t newer; /* in the order of use */
    uint32_t older;
    uint64_t value[6];
} entry;

static nph_heap heap;
static uint32_t buckets[BUCKETS], newest = NPH_NONE, oldest = NPH_NONE, count;
static uint64_t hits, evicted, moves;

/* Ends the program on a status that it does not expect. */
static void must(nph_status status) {
    if (status == NPH_OK) return;
    fprintf(stderr, "lru: %s\n", nph_text(status));
    exit(1);
}

/* The place of an entry; of none any number. */
static uint32_t place_of(uint32_t handle) {
    uint32_t place = 0;
    if (handle != NPH_NONE) must(nph_place(&heap, handle, &place));
    return place;
}

/* The words of the lent heap. */
static uint64_t *lend(void) {
    uint64_t *words;
    must(nph_lend(&heap, &words));
    return words;
}

static entry *at(uint64_t *words, uint32_t place) { return (entry *)nph_bytes(words, place); }

/* A copy of an entry. */
static entry copy_of(uint32_t handle) {
    uint32_t place = place_of(handle);
    entry e = *at(lend(), place);
    must(nph_return(&heap));
    return e;
}

/* Takes an entry out of the order of use. */
static void unlink_entry(const entry *e) {
    uint32_t newer = place_of(e->newer), older = place_of(e->older);
    uint64_t *words = lend();
    if (e->newer != NPH_NONE) at(words, newer)->older = e->older;
    else newest = e->older;
    if (e->older != NPH_NONE) at(words, older)->newer = e->newer;
    else oldest = e->newer;
    must(nph_return(&heap));
}

/* Puts an entry in front of the order of use. */
static void put_first(uint32_t handle) {
    uint32_t place = place_of(handle), second = place_of(newest);
    uint64_t *words = lend();
    at(words, place)->newer = NPH_NONE;
    at(words, place)->older = newest;
    if (newest != NPH_NONE) at(words, second)->newer = handle;
    else oldest = handle;
    newest = handle;
    must(nph_return(&heap));
}

/* Takes the entry that was not used for longest out of its bucket and of the order, and frees it. */
static void evict(void) {
    uint32_t handle = oldest;
    entry e = copy_of(handle);
    uint32_t *link = &buckets[e.key % BUCKETS];
    nph_freed freed;
    unlink_entry(&e);
    if (*link == handle) {
        *link = e.next;
    } else {
        uint32_t before = *link;
        for (uint32_t next; (next = copy_of(before).next) != handle;) before = next;
        uint32_t place = place_of(before);
        at(lend(), place)->next = e.next;
        must(nph_return(&heap));
    }
    must(nph_free(&heap, handle, &freed));
    moves += freed.moved != NPH_NONE;
    evicted++;
    count--;
}

/* The last word of a key's value. A key without an entry gets one, and each word of its value is the key. */
static uint64_t value_of(uint32_t key) {
    uint32_t handle = buckets[key % BUCKETS], place;
    while (handle != NPH_NONE) {
        entry e = copy_of(handle);
        if (e.key == key) {
            unlink_entry(&e);
            put_first(handle);
            hits++;
            return e.value[5];
        }
        handle = e.next;
    }
    if (count == MOST) evict();
    must(nph_malloc(&heap, sizeof(entry), &handle));
    place = place_of(handle);
    entry *e = at(lend(), place);
    e->key = key;
    e->next = buckets[key % BUCKETS];
    for (int i = 0; i < 6; i++) e->value[i] = key;
    must(nph_return(&heap));
    buckets[key % BUCKETS] = handle;
    put_first(handle);
    count++;
    return key;
}

/* A drawn number below `n`. */
static uint32_t draw(uint32_t n) {
    static uint64_t state = 1;
    state = state * 6364136223846793005u + 1442695040888963407u;
    return (uint32_t)(state >> 33) % n;
}

int main(int argc, char **argv) {
    long rounds = argc > 1 ? atol(argv[1]) : 10000;
    memset(buckets, 0xff, sizeof buckets);
    must(nph_open(&heap, 16, 1024, 1, MOST));
    for (long i = 0; i < rounds; i++) {
        uint32_t key = draw(1 + draw(KEYS)); /* low keys are drawn more often */
        if (value_of(key) != key) return 1;
    }
    printf("%ld rounds: %lu hits, %lu evicted, %lu moves\n", rounds, (unsigned long)hits, (unsigned long)evicted,
           (unsigned long)moves);
    if (count > 0) printf("newest %u, oldest %u\n", (unsigned)copy_of(newest).key, (unsigned)copy_of(oldest).key);
    nph_close(&heap);
    return 0;
}
