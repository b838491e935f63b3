/* Norphuen: a verified memory manager for real-time programs. It is no drop-in malloc: a program names an object by its
 * handle (with images by an id), and copies its bytes or asks for its address.
 *
 * A heap has one region of words of 8 bytes, but for TLSF and Half-Fit cut into equal pages. A page in use has slots of one size, a
 * size class; an object takes the smallest slot that holds it and its header of a word. nph_open takes all memory, so that the
 * calls on the open heap take none. A step is a counted access to a word or to an entry of a table. docs/CALLS.md has the most
 * steps of each call that counts them, and nph_last_steps writes those of the last such call. There are eight libraries, and a
 * program may link several:
 *
 *   libnorphuen.a            Compact-fit, moving: a free may move one object, whose handle stays the same
 *   libnorphuen_nonmoving.a  Compact-fit, non-moving: a free may exchange entries of a block table. Lends nothing, since
 *                            an object's words may lie apart
 *   libnorphuen_tlsf.a       TLSF, for comparison: blocks in place of pages. No object moves or changes its length
 *   libnorphuen_half.a       Half-Fit, for comparison: the same, but a free list for each power of two
 *   libnorphuen_sliced.a     Compact-fit, moving, with frees in slices of a set length: "Frees in slices" below
 *   libnorphuen_tasks.a      Compact-fit, moving, shared by sixteen tasks with quotas: "Heaps of tasks" below. Lends nothing
 *   libnorphuen_images.a     Compact-fit, moving, with objects under ids, saved and loaded as an image: "Images" below. Lends nothing
 *   libnorphuen_large.a      Compact-fit, moving, with objects that may be longer than a page: "Long objects" below. Lends nothing
 *
 * Each has names and a type of heap of its own: nph_open and nph_heap, nph_nm_open and nph_nm_heap, nph_tlsf_open and
 * nph_tlsf_heap, nph_half_open and nph_half_heap, nph_sliced_open and nph_sliced_heap, nph_tasks_open and nph_tasks_heap,
 * nph_images_open and nph_images_heap, nph_large_open and nph_large_heap, and so on. The comments below speak of the short names,
 * those of the moving library. With the macro NPH_USE_NONMOVING, NPH_USE_TLSF or NPH_USE_HALF, defined before the header is
 * included, the short names mean that library instead. "With blocks" means with TLSF and Half-Fit, "with pages" with the others.
 *
 * The program defines the three functions rattle_alloc, rattle_realloc and rattle_dealloc, by which the library takes
 * and returns memory: examples/c/malloc.c does so over malloc, src/norphuen_arena.c over a static array.
 *
 * A caller has these duties, which the library cannot test:
 *
 *   - A heap begins as NPH_HEAP. Only the calls below change it, and it stays in one struct: no call gets a copy.
 *   - Other pointers point to what their types say. They are not null, but `freed` and `resized` may be. What two pointers of a
 *     call point to does not overlap.
 *   - A buffer has `count` bytes, and `needs` has `count` entries. With a count of 0 the pointer is not null either.
 *   - While a heap is lent, the program writes only bytes of live objects, and none beyond an object's length. After
 *     nph_return or nph_close it uses no pointer that it got from the loan.
 *   - One call at a time runs on a heap, in any thread. A lock, a join or a start of a thread orders the calls, and the
 *     uses of a lent heap's bytes.
 *
 * The library tests all else: every number may be passed as a setting, handle, id, task, length, offset or class, and every
 * call may be made on a heap that is not open or is lent. No call takes a const heap, since even a read writes the count of
 * steps. docs/C.md says what is proved.
 *
 * A program must not use a handle where it may name another object, since no call can refuse it there: in another heap, for
 * another task, after an nph_close (docs/GUARANTEES.md says when it is refused), or once the number in it was freed 65,535 times
 * since the malloc that returned it. After its free an id of images may name another object too.
 */
#ifndef NORPHUEN_H
#define NORPHUEN_H

#include <stdbool.h>
#include <stddef.h>
#include <stdint.h>

/* The version of this header, 0.4.0: 10,000 times the major number, 100 times the minor one, and the patch. */
#define NPH_VERSION 400

#ifdef __GNUC__
#define NPH_NONNULL __attribute__((nonnull))
#define NPH_CALL __attribute__((nonnull, warn_unused_result))
#define NPH_CALL_OR_NULL __attribute__((nonnull(1), warn_unused_result))
#else
#define NPH_NONNULL
#define NPH_CALL
#define NPH_CALL_OR_NULL
#endif

#ifdef __cplusplus
extern "C" {
#endif

/* A heap: closed, open or lent. Its fields are the library's own. */
typedef struct nph_heap { void *at; uint32_t last; bool is_open; bool is_lent; } nph_heap;
typedef struct nph_nm_heap { void *at; uint32_t last; bool is_open; bool is_lent; } nph_nm_heap;
typedef struct nph_tlsf_heap { void *at; uint32_t last; bool is_open; bool is_lent; } nph_tlsf_heap;
typedef struct nph_half_heap { void *at; uint32_t last; bool is_open; bool is_lent; } nph_half_heap;
typedef struct nph_sliced_heap { void *at; uint32_t last; bool is_open; bool is_lent; } nph_sliced_heap;
typedef struct nph_tasks_heap { void *at; uint32_t last; bool is_open; } nph_tasks_heap;
typedef struct nph_images_heap { void *at; uint32_t last; bool is_open; } nph_images_heap;
typedef struct nph_large_heap { void *at; uint32_t last; bool is_open; } nph_large_heap;

/* A closed heap, to initialize or to assign. A static heap is closed without it; with it gcc -pedantic warns. */
#ifdef __cplusplus
#define NPH_HEAP nph_heap{}
#define NPH_NM_HEAP nph_nm_heap{}
#define NPH_TLSF_HEAP nph_tlsf_heap{}
#define NPH_HALF_HEAP nph_half_heap{}
#define NPH_SLICED_HEAP nph_sliced_heap{}
#define NPH_TASKS_HEAP nph_tasks_heap{}
#define NPH_IMAGES_HEAP nph_images_heap{}
#define NPH_LARGE_HEAP nph_large_heap{}
#else
#define NPH_HEAP (nph_heap){ NULL, 0, false, false }
#define NPH_NM_HEAP (nph_nm_heap){ NULL, 0, false, false }
#define NPH_TLSF_HEAP (nph_tlsf_heap){ NULL, 0, false, false }
#define NPH_HALF_HEAP (nph_half_heap){ NULL, 0, false, false }
#define NPH_SLICED_HEAP (nph_sliced_heap){ NULL, 0, false, false }
#define NPH_TASKS_HEAP (nph_tasks_heap){ NULL, 0, false }
#define NPH_IMAGES_HEAP (nph_images_heap){ NULL, 0, false }
#define NPH_LARGE_HEAP (nph_large_heap){ NULL, 0, false }
#endif

/* What a call returns. A call that does not return NPH_OK leaves the caller's numbers, structures and buffers as they were; but
 * see nph_images_load. */
typedef enum nph_status {
    NPH_OK = 0,
    NPH_SIZE = 1,    /* the object with its header needs more words than a page has; nph_large_malloc: its spine does */
    NPH_PROXY = 2,   /* every proxy is in use, with tasks every one of the task; nph_large_malloc: too few are left */
    NPH_SPACE = 3,   /* no free slot of the class and no free page; with blocks no block in the free lists that a malloc searches;
                        with tasks the quota is too small; nph_large_malloc: all objects with this one need too many pages */
    NPH_UNKNOWN = 4, /* the handle is not live; no object has the id; there is no such id, class (with blocks there is none) or
                        task */
    NPH_RANGE = 5,   /* the range passes the end of the object, or of the caller's buffer */
    NPH_KIND = 6,    /* nph_resize: with blocks there is no resize */
    NPH_CLOSED = 7,  /* the heap is closed */
    NPH_OPEN = 8,    /* nph_open, nph_images_load: the heap is open already */
    NPH_LENT = 9,    /* the heap is lent: only nph_return and nph_close are allowed */
    NPH_MEMORY = 10, /* out of memory; the heap is not open */
    NPH_PAGES = 11,      /* pages are 1 to 4096; the quotas exceed the pages */
    NPH_PAGE_BYTES = 12, /* a page has 512, 1024, and so on by powers of two to 131072 bytes */
    NPH_BOUND = 13,      /* k is 1 to 64 */
    NPH_PROXIES = 14,    /* proxies are 1 to 65536; the needs are more objects than a heap or a task may have */
    NPH_REGION = 15,     /* pages * page_bytes is at most 67108864 */
    NPH_NOT_LENT = 16,   /* nph_return: the heap is not lent */
    NPH_ENTRIES = 17,    /* there are more than 64 needs */
    NPH_BUSY = 18,       /* nph_sliced_free, nph_sliced_lend: a job is pending; nph_sliced_malloc, nph_sliced_has_room: no slot is
                            left but that of the pending job */
    NPH_QUANTUM = 19,    /* nph_sliced_open: a quantum is 1 to 16384 words */
    NPH_LIVE = 20,       /* nph_set_bound: an object is live; nph_images_make: one has the id */
    NPH_IMAGE = 21       /* nph_images_load: the bytes are no image, and `offset` says where */
} nph_status;

/* A text for a message. */
static inline const char *nph_text(nph_status status) {
    switch (status) {
    case NPH_OK: return "ok";
    case NPH_SIZE: return "larger than a page";
    case NPH_PROXY: return "every proxy is in use";
    case NPH_SPACE: return "no space";
    case NPH_UNKNOWN: return "no such object or class";
    case NPH_RANGE: return "past the end of the object";
    case NPH_KIND: return "no resize with blocks";
    case NPH_CLOSED: return "the heap is not open";
    case NPH_OPEN: return "the heap is open already";
    case NPH_LENT: return "the heap is lent";
    case NPH_MEMORY: return "out of memory";
    case NPH_PAGES: return "pages out of range";
    case NPH_PAGE_BYTES: return "bytes of a page out of range";
    case NPH_BOUND: return "k out of range";
    case NPH_PROXIES: return "proxies out of range";
    case NPH_REGION: return "the region is too large";
    case NPH_NOT_LENT: return "the heap is not lent";
    case NPH_ENTRIES: return "too many needs";
    case NPH_BUSY: return "a job is pending";
    case NPH_QUANTUM: return "quantum out of range";
    case NPH_LIVE: return "an object is live";
    case NPH_IMAGE: return "no image";
    default: return "no status";
    }
}

/* The value in place of a handle that says that there is none: it names no object, and every handle is smaller. In nph_freed and
 * nph_resized it means that no object moved, from nph_sliced_moving that none moves. nph_next takes it at the start of a walk, and
 * writes it at the end. On an open heap each other call that takes it as a handle fails with NPH_UNKNOWN. */
#define NPH_NONE UINT32_MAX

/* The memory that nph_open asks for, in blocks from rattle_alloc: the bytes of all, those of the largest, and how many there are. */
typedef struct nph_needed {
    uint64_t total;
    uint64_t largest;
    uint32_t blocks;
} nph_needed;

/* What a program has live at one time: at most `count` objects of `bytes` bytes. */
typedef struct nph_need {
    uint32_t bytes;
    uint32_t count;
} nph_need;

/* A free: the words of the freed slot or block, and the object that moved to its address, or NPH_NONE. */
typedef struct nph_freed {
    uint32_t slot_words;
    uint32_t moved;
} nph_freed;

/* A resize: the words of the slot before and after, and the other object that moved to the old address, or NPH_NONE. */
typedef struct nph_resized {
    uint32_t old_slot_words;
    uint32_t slot_words;
    uint32_t moved;
} nph_resized;

/* A size class: the words of a slot, slots of a page, live objects, pages, and partly full pages. */
typedef struct nph_class {
    uint32_t slot_words;
    uint32_t slots;
    uint32_t live;
    uint32_t pages;
    uint32_t not_full;
} nph_class;

/* The whole heap. Bytes: those asked for the live objects, those of their slots or blocks, and those of the pages in use,
 * with blocks those of the region. Then the numbers of live objects, of pages or blocks in use, and of free ones; and the
 * words of the largest free one, 0 if none is free. */
typedef struct nph_heap_totals {
    uint64_t asked;
    uint64_t taken;
    uint64_t held;
    uint32_t live;
    uint32_t used;
    uint32_t free;
    uint32_t largest;
} nph_heap_totals;

/* What a heap counted since it was opened. `most_asked` is the most bytes that its live objects asked for at one time. `least_free`
 * is the fewest free pages after a call: so after each call at most pages - least_free were in use (during a resize one more may
 * be). With blocks it is the fewest bytes outside used blocks. `moves` counts the objects named as `moved`. The others count each
 * nph_malloc, nph_free and nph_resize that failed with NPH_UNKNOWN, NPH_SIZE, NPH_PROXY or NPH_SPACE. A count stops at
 * UINT64_MAX. */
typedef struct nph_counted {
    uint64_t most_asked;
    uint64_t least_free;
    uint64_t moves;
    uint64_t unknown;
    uint64_t size;
    uint64_t proxy;
    uint64_t space;
} nph_counted;

/* Opens a heap without objects, of `pages` pages of `page_bytes` bytes. At most `proxies` objects are live at a time, and `k` pages
 * of each size class may be partly full (nph_set_bound changes this for one). With blocks the pages are one region without classes,
 * and k has no effect, but must be 1 to 64. Fails with NPH_LENT, NPH_OPEN, NPH_PAGES, NPH_PAGE_BYTES, NPH_BOUND, NPH_PROXIES,
 * NPH_REGION or NPH_MEMORY. */
NPH_CALL nph_status nph_open(nph_heap *heap, uint32_t pages, uint32_t page_bytes, uint32_t k, uint32_t proxies);

/* Writes what nph_open with these settings asks of rattle_alloc, exactly. nph_open never calls rattle_realloc. What the program's
 * own functions need for a block, and the nph_heap itself, are not counted. Fails as nph_open does for these settings. */
NPH_CALL nph_status nph_bytes_needed(uint32_t pages, uint32_t page_bytes, uint32_t k, uint32_t proxies, nph_needed *needed);

/* Writes how many pages of `page_bytes` bytes are enough for a program: on a heap with them no nph_malloc and no nph_resize fails
 * with NPH_SPACE, whatever the order of the calls, if the live objects were within the `count` needs after each call so far, and
 * still are with the new or resized one. With fewer pages some program within the needs has an nph_malloc that fails with
 * NPH_SPACE. Needs of the same length add up. The number is the same for every k, and may be more than nph_open takes. Fails with
 * NPH_ENTRIES, NPH_PAGE_BYTES, NPH_BOUND, NPH_SIZE, or with NPH_PROXIES if the needs are more objects than a heap may have. A
 * library with blocks lacks this call. */
NPH_CALL nph_status nph_pages_needed(uint32_t page_bytes, uint32_t k, const nph_need *needs, size_t count, uint32_t *pages);

/* Returns the memory, of a lent heap too. The heap is closed afterwards, and may be opened again. May be called twice. */
NPH_NONNULL void nph_close(nph_heap *heap);

/* Makes an object of `bytes` bytes, all zero, and writes its handle. Fails with NPH_SIZE, NPH_PROXY or NPH_SPACE. */
NPH_CALL nph_status nph_malloc(nph_heap *heap, uint32_t bytes, uint32_t *handle);

/* Frees an object, and writes into `freed`, which may be NULL, what was freed and moved. Fails with NPH_UNKNOWN. */
NPH_CALL nph_status nph_free(nph_heap *heap, uint32_t handle, nph_freed *freed);

/* Changes the length of an object to `bytes` bytes: its first bytes stay, and added bytes are zero. Writes into
 * `resized`, which may be NULL, the words of its slots and what moved. Fails with NPH_UNKNOWN, NPH_KIND, NPH_SIZE or
 * NPH_SPACE; the object then stays as it was. */
NPH_CALL nph_status nph_resize(nph_heap *heap, uint32_t handle, uint32_t bytes, nph_resized *resized);

/* Writes `count` bytes into an object, from its byte `at` on. Fails with NPH_UNKNOWN or NPH_RANGE. */
NPH_CALL nph_status nph_write(nph_heap *heap, uint32_t handle, uint32_t at, const void *bytes, size_t count);

/* Reads `count` bytes of an object, from its byte `at` on, into `bytes`. Fails with NPH_UNKNOWN or NPH_RANGE. */
NPH_CALL nph_status nph_read(nph_heap *heap, uint32_t handle, uint32_t at, void *bytes, size_t count);

/* Writes the length of an object in bytes. Fails with NPH_UNKNOWN. */
NPH_CALL nph_status nph_length(nph_heap *heap, uint32_t handle, uint32_t *bytes);

/* Returns what nph_malloc of `bytes` bytes would return now. Makes no object. */
NPH_CALL nph_status nph_has_room(nph_heap *heap, uint32_t bytes);

/* Writes how many words the slot or block of an object has, its headers among them. nph_free would write the same number, and
 * nph_most_free takes it. Fails with NPH_UNKNOWN. */
NPH_CALL nph_status nph_slot_words(nph_heap *heap, uint32_t handle, uint32_t *words);

/* Writes the size class of an object of `bytes` bytes, for nph_figures. Fails with NPH_SIZE. A library with blocks lacks this
 * call. */
NPH_CALL nph_status nph_class_of(nph_heap *heap, uint32_t bytes, uint32_t *size_class);

/* Writes the figures of a size class, the fields of nph_class; the classes are numbered from 0. Fails with NPH_UNKNOWN if there
 * is no such class. */
NPH_CALL nph_status nph_figures(nph_heap *heap, uint32_t size_class, nph_class *figures);

/* Writes the figures of the whole heap, the fields of nph_heap_totals. With blocks this visits each free block. */
NPH_CALL nph_status nph_totals(nph_heap *heap, nph_heap_totals *totals);

/* Writes the handle of the live object after `handle` into `next`, in a fixed order: the first one if `handle` is NPH_NONE, and
 * NPH_NONE after the last. Fails with NPH_UNKNOWN, also if the object of `handle` was freed: ask for the next one before a free. An
 * object that was made during the walk may be left out. Takes a step for `handle` unless that is NPH_NONE, and
 * one for each number of an object that it looks at: together at most p, the proxies rounded up to a power of two. A walk over n
 * objects takes p + n steps in all. */
NPH_CALL nph_status nph_next(nph_heap *heap, uint32_t handle, uint32_t *next);

/* Writes what the heap counted since it was opened: the fields of nph_counted. */
NPH_CALL nph_status nph_counts(nph_heap *heap, nph_counted *counts);

/* Sets the bound of the size class with slots of `slot_words` words: at most `k` of its pages, 1 to 64, may be partly full. Fails
 * with NPH_BOUND, with NPH_LIVE if an object is live, or with NPH_UNKNOWN if no class has such slots. A library with blocks lacks
 * this call. */
NPH_CALL nph_status nph_set_bound(nph_heap *heap, uint32_t slot_words, uint32_t k);

/* Writes the steps of the last call on the heap that counts them. nph_figures, nph_counts, nph_set_bound, nph_lend, nph_return
 * and this call take none, and leave the count as it was. */
NPH_CALL nph_status nph_last_steps(nph_heap *heap, uint64_t *steps);

/* Returns the version of the library, in the form of NPH_VERSION. */
uint32_t nph_version(void);

/* Bounds for a plan: the most steps of a call, before it is made. They are proved, and need no heap. A refused call takes at most
 * as many. nph_place takes one step. */

/* Returns the kind of the library's heaps: NPH_MOVING, NPH_NONMOVING, NPH_TLSF or NPH_HALF. */
uint32_t nph_kind(void);
enum { NPH_MOVING = 0, NPH_NONMOVING = 1, NPH_TLSF = 2, NPH_HALF = 3 };

/* Returns the most steps of nph_malloc. */
uint64_t nph_most_malloc(void);

/* Returns the most steps of nph_free of an object whose slot or block has `slot_words` words. */
uint64_t nph_most_free(uint32_t slot_words);

/* Returns the most steps of nph_resize to `bytes` bytes, from a slot of `old_slot_words` words to one of `slot_words`. */
uint64_t nph_most_resize(uint32_t bytes, uint32_t old_slot_words, uint32_t slot_words);

/* Returns the most steps of nph_read or nph_write of `count` bytes from byte `at` on. A call that is not refused takes exactly
 * these. */
uint64_t nph_most_access(uint32_t at, uint32_t count);

/* Returns the most steps of nph_has_room. */
uint64_t nph_most_has_room(void);

/* Returns the most steps of nph_totals on a heap with `free_count` free pages or blocks. */
uint64_t nph_most_totals(uint32_t free_count);

/* Returns the most steps of nph_length. */
uint64_t nph_most_length(void);

/* Pointers to objects. Call nph_place for each object, then nph_lend. Until nph_return the bytes of an object are at
 * nph_bytes(words, place), aligned to 8, and the program reads and writes them there. Until then each other call on the heap
 * but nph_close returns NPH_LENT. A library that lends nothing has none of these calls. */

/* Writes the place of an object: the index in the region of its first word. A header is in front of its bytes. The place stays the
 * same until the object is freed, resized, or named as `moved`. Fails with NPH_UNKNOWN. */
NPH_CALL nph_status nph_place(nph_heap *heap, uint32_t handle, uint32_t *place);

/* Lends the heap, and writes the address of the first word of the region. */
NPH_CALL nph_status nph_lend(nph_heap *heap, uint64_t **words);

/* Ends the loan: the heap is open again, and its objects have the bytes that the program wrote. Fails with NPH_CLOSED or
 * NPH_NOT_LENT. */
NPH_CALL nph_status nph_return(nph_heap *heap);

/* The address of the bytes of an object. With blocks two words are in front of them. */
static inline void *nph_bytes(uint64_t *words, uint32_t place) { return words + place + 1; }
static inline void *nph_tlsf_bytes(uint64_t *words, uint32_t place) { return words + place + 2; }
static inline void *nph_half_bytes(uint64_t *words, uint32_t place) { return words + place + 2; }

/* The calls of the other libraries. Each is as the one above with the short name. */
#define NPH_CALLS_OF(nph) \
    NPH_CALL nph_status nph##_open(nph##_heap *heap, uint32_t pages, uint32_t page_bytes, uint32_t k, uint32_t proxies); \
    NPH_CALL nph_status nph##_bytes_needed(uint32_t pages, uint32_t page_bytes, uint32_t k, uint32_t proxies, nph_needed *needed); \
    NPH_NONNULL void nph##_close(nph##_heap *heap); \
    NPH_CALL nph_status nph##_malloc(nph##_heap *heap, uint32_t bytes, uint32_t *handle); \
    NPH_CALL nph_status nph##_free(nph##_heap *heap, uint32_t handle, nph_freed *freed); \
    NPH_CALL nph_status nph##_resize(nph##_heap *heap, uint32_t handle, uint32_t bytes, nph_resized *resized); \
    NPH_CALL nph_status nph##_write(nph##_heap *heap, uint32_t handle, uint32_t at, const void *bytes, size_t count); \
    NPH_CALL nph_status nph##_read(nph##_heap *heap, uint32_t handle, uint32_t at, void *bytes, size_t count); \
    NPH_CALL nph_status nph##_length(nph##_heap *heap, uint32_t handle, uint32_t *bytes); \
    NPH_CALL nph_status nph##_has_room(nph##_heap *heap, uint32_t bytes); \
    NPH_CALL nph_status nph##_slot_words(nph##_heap *heap, uint32_t handle, uint32_t *words); \
    NPH_CALL nph_status nph##_figures(nph##_heap *heap, uint32_t size_class, nph_class *figures); \
    NPH_CALL nph_status nph##_totals(nph##_heap *heap, nph_heap_totals *totals); \
    NPH_CALL nph_status nph##_next(nph##_heap *heap, uint32_t handle, uint32_t *next); \
    NPH_CALL nph_status nph##_counts(nph##_heap *heap, nph_counted *counts); \
    NPH_CALL nph_status nph##_last_steps(nph##_heap *heap, uint64_t *steps); \
    uint32_t nph##_version(void); \
    uint32_t nph##_kind(void); \
    uint64_t nph##_most_malloc(void); \
    uint64_t nph##_most_free(uint32_t slot_words); \
    uint64_t nph##_most_resize(uint32_t bytes, uint32_t old_slot_words, uint32_t slot_words); \
    uint64_t nph##_most_access(uint32_t at, uint32_t count); \
    uint64_t nph##_most_has_room(void); \
    uint64_t nph##_most_totals(uint32_t free_count); \
    uint64_t nph##_most_length(void);
NPH_CALLS_OF(nph_nm)
NPH_CALLS_OF(nph_tlsf)
NPH_CALLS_OF(nph_half)
NPH_CALL nph_status nph_nm_pages_needed(uint32_t page_bytes, uint32_t k, const nph_need *needs, size_t count, uint32_t *pages);
NPH_CALL nph_status nph_nm_class_of(nph_nm_heap *heap, uint32_t bytes, uint32_t *size_class);
NPH_CALL nph_status nph_nm_set_bound(nph_nm_heap *heap, uint32_t slot_words, uint32_t k);
NPH_CALL nph_status nph_tlsf_place(nph_tlsf_heap *heap, uint32_t handle, uint32_t *place);
NPH_CALL nph_status nph_tlsf_lend(nph_tlsf_heap *heap, uint64_t **words);
NPH_CALL nph_status nph_tlsf_return(nph_tlsf_heap *heap);
NPH_CALL nph_status nph_half_place(nph_half_heap *heap, uint32_t handle, uint32_t *place);
NPH_CALL nph_status nph_half_lend(nph_half_heap *heap, uint64_t **words);
NPH_CALL nph_status nph_half_return(nph_half_heap *heap);

/* Frees in slices: libnorphuen_sliced.a. A free leaves its long work, to clear a slot or to move another object into it, as a
 * job. The free and each nph_sliced_step do a slice of it: at most as many words as the quantum. Each class has at most one
 * partly full page, but the class of a pending job may have two. Objects are read and written also while they move. A program
 * calls nph_sliced_step until nph_sliced_left writes 0. The jobs of a free take at most n slices, where n is the words of its
 * slot divided by the quantum, rounded up, and at most n more for each nph_sliced_malloc of its class in between. */

/* Opens a heap without objects, as nph_open with k = 1, whose slices have at most `quantum` words. Fails with NPH_LENT,
 * NPH_OPEN, NPH_PAGES, NPH_PAGE_BYTES, NPH_PROXIES, NPH_REGION, NPH_QUANTUM or NPH_MEMORY. */
NPH_CALL nph_status nph_sliced_open(nph_sliced_heap *heap, uint32_t pages, uint32_t page_bytes, uint32_t proxies, uint32_t quantum);

/* As nph_bytes_needed, for nph_sliced_open with these settings and any quantum. */
NPH_CALL nph_status nph_sliced_bytes_needed(uint32_t pages, uint32_t page_bytes, uint32_t proxies, nph_needed *needed);

/* As nph_close. A pending job ends with the heap. */
NPH_NONNULL void nph_sliced_close(nph_sliced_heap *heap);

/* As nph_malloc. The slot of a pending job counts as used: fails with NPH_BUSY if only it is left. */
NPH_CALL nph_status nph_sliced_malloc(nph_sliced_heap *heap, uint32_t bytes, uint32_t *handle);

/* Frees an object, and does the first slice of the job that this leaves. Fails with NPH_UNKNOWN, or with NPH_BUSY if a job is
 * pending. */
NPH_CALL nph_status nph_sliced_free(nph_sliced_heap *heap, uint32_t handle);

/* Does one slice of the pending job; nothing if none is pending. The last slice of a job may begin another one. */
NPH_CALL nph_status nph_sliced_step(nph_sliced_heap *heap);

/* Writes how many words the pending job has yet to clear or move; 0 if none is pending. */
NPH_CALL nph_status nph_sliced_left(nph_sliced_heap *heap, uint32_t *words);

/* Writes the object that the pending job moves; NPH_NONE if it moves none, or none is pending. */
NPH_CALL nph_status nph_sliced_moving(nph_sliced_heap *heap, uint32_t *handle);

/* As nph_write. */
NPH_CALL nph_status nph_sliced_write(nph_sliced_heap *heap, uint32_t handle, uint32_t at, const void *bytes, size_t count);

/* As nph_read. */
NPH_CALL nph_status nph_sliced_read(nph_sliced_heap *heap, uint32_t handle, uint32_t at, void *bytes, size_t count);

/* As nph_length. */
NPH_CALL nph_status nph_sliced_length(nph_sliced_heap *heap, uint32_t handle, uint32_t *bytes);

/* Returns what nph_sliced_malloc of `bytes` bytes would return now. Makes no object. */
NPH_CALL nph_status nph_sliced_has_room(nph_sliced_heap *heap, uint32_t bytes);

/* As nph_slot_words. A free of the object begins a job of as many words, to clear its slot or to move another object there. */
NPH_CALL nph_status nph_sliced_slot_words(nph_sliced_heap *heap, uint32_t handle, uint32_t *words);

/* As nph_class_of. */
NPH_CALL nph_status nph_sliced_class_of(nph_sliced_heap *heap, uint32_t bytes, uint32_t *size_class);

/* As nph_figures. The slot of a pending job counts as used: its page is one of the class, but it is no live object. */
NPH_CALL nph_status nph_sliced_figures(nph_sliced_heap *heap, uint32_t size_class, nph_class *figures);

/* As nph_totals. The slot of a pending job counts as taken, and its page as used, but it is no live object and asks for no
 * bytes. */
NPH_CALL nph_status nph_sliced_totals(nph_sliced_heap *heap, nph_heap_totals *totals);

/* Writes the steps of the last call on the heap that counts them. nph_sliced_left, nph_sliced_moving, nph_sliced_figures,
 * nph_sliced_totals, nph_sliced_lend, nph_sliced_return and this call take none, and leave the count as it was. */
NPH_CALL nph_status nph_sliced_last_steps(nph_sliced_heap *heap, uint64_t *steps);

/* As nph_place, but each nph_sliced_free and nph_sliced_step may change the place of another object: call it again after
 * these. A move may begin and end in one such call. While a job moves an object, the place is where the object moves to. */
NPH_CALL nph_status nph_sliced_place(nph_sliced_heap *heap, uint32_t handle, uint32_t *place);

/* As nph_lend; the bytes of an object are at nph_sliced_bytes(words, place). Fails with NPH_BUSY if a job is pending, since an
 * object in motion is in two parts: call nph_sliced_step until nph_sliced_left writes 0. */
NPH_CALL nph_status nph_sliced_lend(nph_sliced_heap *heap, uint64_t **words);

/* As nph_return. */
NPH_CALL nph_status nph_sliced_return(nph_sliced_heap *heap);

/* The address of the bytes of an object, whatever library the short names mean. */
static inline void *nph_sliced_bytes(uint64_t *words, uint32_t place) { return words + place + 1; }

/* As nph_version. */
uint32_t nph_sliced_version(void);

/* The most steps of a call, before it is made. A refused call takes at most as many. */

/* Returns the most steps of nph_sliced_malloc. */
uint64_t nph_sliced_most_malloc(void);

/* Returns the most steps of nph_sliced_free in a heap with this quantum. */
uint64_t nph_sliced_most_free(uint32_t quantum);

/* Returns the most steps of nph_sliced_step in a heap with this quantum. */
uint64_t nph_sliced_most_step(uint32_t quantum);

/* Returns the steps of nph_sliced_read or nph_sliced_write of `count` bytes from byte `at` on, if it is not refused. */
uint64_t nph_sliced_most_access(uint32_t at, uint32_t count);

/* Returns the most steps of nph_sliced_has_room. */
uint64_t nph_sliced_most_has_room(void);

/* Returns the most steps of nph_sliced_length. */
uint64_t nph_sliced_most_length(void);

/* These let `freed` and `resized` be NULL. The libraries' own functions need a pointer. */
#define NPH_OR_NULL_OF(nph) \
    NPH_CALL_OR_NULL static inline nph_status nph##_free_or_null(nph##_heap *heap, uint32_t handle, nph_freed *freed) { \
        nph_freed ignored; \
        return nph##_free(heap, handle, freed ? freed : &ignored); \
    } \
    NPH_CALL_OR_NULL static inline nph_status nph##_resize_or_null(nph##_heap *heap, uint32_t handle, uint32_t bytes, nph_resized *resized) { \
        nph_resized ignored; \
        return nph##_resize(heap, handle, bytes, resized ? resized : &ignored); \
    }
NPH_OR_NULL_OF(nph)
NPH_OR_NULL_OF(nph_nm)
NPH_OR_NULL_OF(nph_tlsf)
NPH_OR_NULL_OF(nph_half)
#undef NPH_CALLS_OF
#undef NPH_OR_NULL_OF

#define nph_nm_free(heap, handle, freed) nph_nm_free_or_null(heap, handle, freed)
#define nph_nm_resize(heap, handle, bytes, resized) nph_nm_resize_or_null(heap, handle, bytes, resized)
#define nph_tlsf_free(heap, handle, freed) nph_tlsf_free_or_null(heap, handle, freed)
#define nph_tlsf_resize(heap, handle, bytes, resized) nph_tlsf_resize_or_null(heap, handle, bytes, resized)
#define nph_half_free(heap, handle, freed) nph_half_free_or_null(heap, handle, freed)
#define nph_half_resize(heap, handle, bytes, resized) nph_half_resize_or_null(heap, handle, bytes, resized)

/* What the short names mean. */
#if defined NPH_USE_NONMOVING + defined NPH_USE_TLSF + defined NPH_USE_HALF > 1
#error "the short names are those of one library"
#elif defined NPH_USE_NONMOVING
#define NPH_NAME(name) nph_nm_##name
#elif defined NPH_USE_TLSF
#define NPH_NAME(name) nph_tlsf_##name
#elif defined NPH_USE_HALF
#define NPH_NAME(name) nph_half_##name
#else
#define nph_free(heap, handle, freed) nph_free_or_null(heap, handle, freed)
#define nph_resize(heap, handle, bytes, resized) nph_resize_or_null(heap, handle, bytes, resized)
#endif

#ifdef NPH_NAME
#define nph_heap NPH_NAME(heap)
#define nph_open NPH_NAME(open)
#define nph_bytes_needed NPH_NAME(bytes_needed)
#define nph_pages_needed NPH_NAME(pages_needed)
#define nph_close NPH_NAME(close)
#define nph_malloc NPH_NAME(malloc)
#define nph_free NPH_NAME(free)
#define nph_resize NPH_NAME(resize)
#define nph_write NPH_NAME(write)
#define nph_read NPH_NAME(read)
#define nph_length NPH_NAME(length)
#define nph_has_room NPH_NAME(has_room)
#define nph_slot_words NPH_NAME(slot_words)
#define nph_class_of NPH_NAME(class_of)
#define nph_figures NPH_NAME(figures)
#define nph_totals NPH_NAME(totals)
#define nph_next NPH_NAME(next)
#define nph_counts NPH_NAME(counts)
#define nph_set_bound NPH_NAME(set_bound)
#define nph_last_steps NPH_NAME(last_steps)
#define nph_version NPH_NAME(version)
#define nph_kind NPH_NAME(kind)
#define nph_most_malloc NPH_NAME(most_malloc)
#define nph_most_free NPH_NAME(most_free)
#define nph_most_resize NPH_NAME(most_resize)
#define nph_most_access NPH_NAME(most_access)
#define nph_most_has_room NPH_NAME(most_has_room)
#define nph_most_totals NPH_NAME(most_totals)
#define nph_most_length NPH_NAME(most_length)
#define nph_place NPH_NAME(place)
#define nph_lend NPH_NAME(lend)
#define nph_return NPH_NAME(return)
#define nph_bytes NPH_NAME(bytes)
#endif

/* Heaps of tasks: libnorphuen_tasks.a. Sixteen tasks, numbered 0 to 15, share the pages of a heap. Each has its own objects and
 * handles, and a quota, the most pages that it may use; no page has objects of two tasks. So a task may hit its quota, and no other
 * task notices: of a task's calls only nph_tasks_set_quota fails because of the quotas of others. Each class of a task has at most
 * one partly full page. A handle means the object of the task that the call names, and two tasks may have equal handles. A call
 * on an open heap that names a task above 15 fails with NPH_UNKNOWN. Only nph_tasks_malloc and the calls with a handle count
 * steps, if there is such a task; the others leave the count as it was. */

/* A task: its quota, the pages that have its objects, and its live objects. */
typedef struct nph_task {
    uint32_t quota;
    uint32_t pages;
    uint32_t live;
} nph_task;

/* Opens a heap as nph_open does, with at most `proxies` live objects in each task. Each quota is 0 at first. */
NPH_CALL nph_status nph_tasks_open(nph_tasks_heap *heap, uint32_t pages, uint32_t page_bytes, uint32_t proxies);

/* As nph_bytes_needed, for nph_tasks_open. */
NPH_CALL nph_status nph_tasks_bytes_needed(uint32_t pages, uint32_t page_bytes, uint32_t proxies, nph_needed *needed);

/* As nph_close. */
NPH_NONNULL void nph_tasks_close(nph_tasks_heap *heap);

/* Sets the quota of a task. Fails with NPH_PAGES if all quotas would sum to more pages than the heap has, or with NPH_SPACE if
 * the task uses more than `pages` pages. */
NPH_CALL nph_status nph_tasks_set_quota(nph_tasks_heap *heap, uint32_t task, uint32_t pages);

/* Makes an object of a task, as nph_malloc. Fails with NPH_SIZE, NPH_PROXY if the task's proxies are all in use, or NPH_SPACE if
 * the task's objects with this one need more pages than its quota. */
NPH_CALL nph_status nph_tasks_malloc(nph_tasks_heap *heap, uint32_t task, uint32_t bytes, uint32_t *handle);

/* Frees an object of a task, as nph_free. What moves is of the same task. */
NPH_CALL nph_status nph_tasks_free(nph_tasks_heap *heap, uint32_t task, uint32_t handle, nph_freed *freed);

/* As nph_write. */
NPH_CALL nph_status nph_tasks_write(nph_tasks_heap *heap, uint32_t task, uint32_t handle, uint32_t at, const void *bytes, size_t count);

/* As nph_read. */
NPH_CALL nph_status nph_tasks_read(nph_tasks_heap *heap, uint32_t task, uint32_t handle, uint32_t at, void *bytes, size_t count);

/* As nph_length. */
NPH_CALL nph_status nph_tasks_length(nph_tasks_heap *heap, uint32_t task, uint32_t handle, uint32_t *bytes);

/* Writes the figures of a task, the fields of nph_task. */
NPH_CALL nph_status nph_tasks_task(nph_tasks_heap *heap, uint32_t task, nph_task *figures);

/* Writes the figures of a size class of a task, as nph_figures. */
NPH_CALL nph_status nph_tasks_figures(nph_tasks_heap *heap, uint32_t task, uint32_t size_class, nph_class *figures);

/* Writes how many pages are in no quota. */
NPH_CALL nph_status nph_tasks_unassigned(nph_tasks_heap *heap, uint32_t *pages);

/* Tests whether the quota of a task is enough for `count` needs: for a task that begins without objects, keeps its quota, and
 * whose live objects with the new one stay within the needs, no nph_tasks_malloc then fails with NPH_SPACE, whatever the order of
 * its calls. Fails as nph_tasks_least_quota does, else with NPH_SPACE if the quota is not enough. */
NPH_CALL nph_status nph_tasks_admit(nph_tasks_heap *heap, uint32_t task, const nph_need *needs, size_t count);

/* Writes the least quota for which nph_tasks_admit returns NPH_OK. Fails with NPH_ENTRIES if there are more than 64 needs, with
 * NPH_SIZE, or with NPH_PROXIES if the needs are more objects than a task may have. */
NPH_CALL nph_status nph_tasks_least_quota(nph_tasks_heap *heap, const nph_need *needs, size_t count, uint32_t *pages);

/* Writes the steps of the last call on the heap that counts them. */
NPH_CALL nph_status nph_tasks_last_steps(nph_tasks_heap *heap, uint64_t *steps);

/* As nph_version. */
uint32_t nph_tasks_version(void);

/* Lets `freed` be NULL. */
NPH_CALL_OR_NULL static inline nph_status nph_tasks_free_or_null(nph_tasks_heap *heap, uint32_t task, uint32_t handle, nph_freed *freed) {
    nph_freed ignored;
    return nph_tasks_free(heap, task, handle, freed ? freed : &ignored);
}
#define nph_tasks_free(heap, task, handle, freed) nph_tasks_free_or_null(heap, task, handle, freed)

/* Images: libnorphuen_images.a. A program names an object by an id that it chooses, 0 to 65535, in place of a handle. It can save
 * the whole heap as an image and load it later: the same objects under the same ids. The image of a heap depends on its settings
 * without k, and on the bytes under each id, but not on how the heap came about. docs/USING.md describes the format.
 * Calls on such a heap count no steps. On an open heap a call on an id of more than 16 bits fails with NPH_UNKNOWN; but for
 * nph_images_make, so does a call on an id without an object. */

/* Opens a heap as nph_open does, with 512 KiB for the table of ids, and no memory for handles. */
NPH_CALL nph_status nph_images_open(nph_images_heap *heap, uint32_t pages, uint32_t page_bytes, uint32_t k, uint32_t proxies);

/* As nph_bytes_needed, for nph_images_open, and for nph_images_load of an image with these settings. */
NPH_CALL nph_status nph_images_bytes_needed(uint32_t pages, uint32_t page_bytes, uint32_t k, uint32_t proxies, nph_needed *needed);

/* Opens a heap with the settings and the objects of an image of `count` bytes. An image has no k: the heap gets this one. Fails
 * with NPH_OPEN, NPH_BOUND, NPH_MEMORY or NPH_IMAGE; a closed heap then stays closed. With NPH_IMAGE it writes into `offset` where
 * the bytes stop being an image: the first byte of the field that breaks a rule or is cut by the end, or of what follows the
 * image. */
NPH_CALL nph_status nph_images_load(nph_images_heap *heap, const void *bytes, size_t count, uint32_t k, uint64_t *offset);

/* As nph_close. */
NPH_NONNULL void nph_images_close(nph_images_heap *heap);

/* Makes an object of `bytes` bytes, all zero, under an id. Fails with NPH_UNKNOWN, NPH_LIVE, NPH_SIZE, NPH_PROXY or NPH_SPACE. */
NPH_CALL nph_status nph_images_make(nph_images_heap *heap, uint32_t id, uint32_t bytes);

/* Frees the object of an id, which may then name another. Fails with NPH_UNKNOWN. */
NPH_CALL nph_status nph_images_free(nph_images_heap *heap, uint32_t id);

/* As nph_write. */
NPH_CALL nph_status nph_images_write(nph_images_heap *heap, uint32_t id, uint32_t at, const void *bytes, size_t count);

/* As nph_read. */
NPH_CALL nph_status nph_images_read(nph_images_heap *heap, uint32_t id, uint32_t at, void *bytes, size_t count);

/* As nph_length. */
NPH_CALL nph_status nph_images_length(nph_images_heap *heap, uint32_t id, uint32_t *bytes);

/* Writes how many bytes the heap's image has: 20, and for each object 6 and its bytes. */
NPH_CALL nph_status nph_images_image_bytes(nph_images_heap *heap, uint64_t *bytes);

/* Writes the heap's image to the start of a buffer of `count` bytes, and its length into `written`. Fails with NPH_RANGE if the
 * image has more bytes. The heap stays as it is. */
NPH_CALL nph_status nph_images_save(nph_images_heap *heap, void *bytes, size_t count, uint64_t *written);

/* As nph_version. */
uint32_t nph_images_version(void);

/* Long objects: libnorphuen_large.a. An object that fits a page, of at most page_bytes - 8 bytes, is one object of a moving heap
 * with k = 1. A longer one is cut into parts of that many bytes and a rest, each an object of that heap, and a spine, which has
 * four bytes for each part and must fit a page: so with pages of 4,096 bytes the longest object has 4,177,936 bytes. Parts and
 * spines count as objects wherever objects are counted. nph_large_malloc, nph_large_free, nph_large_write, nph_large_read and
 * nph_large_totals count steps; the others leave the count as it was. */

/* Opens a heap without objects, as nph_open with k = 1. */
NPH_CALL nph_status nph_large_open(nph_large_heap *heap, uint32_t pages, uint32_t page_bytes, uint32_t proxies);

/* As nph_bytes_needed, for nph_large_open. */
NPH_CALL nph_status nph_large_bytes_needed(uint32_t pages, uint32_t page_bytes, uint32_t proxies, nph_needed *needed);

/* As nph_close. */
NPH_NONNULL void nph_large_close(nph_large_heap *heap);

/* Makes an object, as nph_malloc. Fails with NPH_SIZE if its spine does not fit a page, with NPH_PROXY if it takes more proxies
 * than are left, or with NPH_SPACE if all objects with this one need more pages than there are. */
NPH_CALL nph_status nph_large_malloc(nph_large_heap *heap, uint32_t bytes, uint32_t *handle);

/* Frees an object with all its parts. Fails with NPH_UNKNOWN. */
NPH_CALL nph_status nph_large_free(nph_large_heap *heap, uint32_t handle);

/* As nph_write, across parts. */
NPH_CALL nph_status nph_large_write(nph_large_heap *heap, uint32_t handle, uint32_t at, const void *bytes, size_t count);

/* As nph_read, across parts. */
NPH_CALL nph_status nph_large_read(nph_large_heap *heap, uint32_t handle, uint32_t at, void *bytes, size_t count);

/* As nph_length. */
NPH_CALL nph_status nph_large_length(nph_large_heap *heap, uint32_t handle, uint32_t *bytes);

/* As nph_figures. */
NPH_CALL nph_status nph_large_figures(nph_large_heap *heap, uint32_t size_class, nph_class *figures);

/* As nph_totals. */
NPH_CALL nph_status nph_large_totals(nph_large_heap *heap, nph_heap_totals *totals);

/* Writes the steps of the last call on the heap that counts them. */
NPH_CALL nph_status nph_large_last_steps(nph_large_heap *heap, uint64_t *steps);

/* Returns the most steps of nph_large_malloc of `bytes` bytes, in a heap with pages of `page_bytes` bytes. */
uint64_t nph_large_most_malloc(uint32_t page_bytes, uint32_t bytes);

/* Returns the most steps of nph_large_free of an object of `bytes` bytes. */
uint64_t nph_large_most_free(uint32_t page_bytes, uint32_t bytes);

/* Returns the most steps of nph_large_read or nph_large_write of `count` bytes from byte `at` on. */
uint64_t nph_large_most_access(uint32_t page_bytes, uint32_t at, uint32_t count);

/* As nph_version. */
uint32_t nph_large_version(void);

/* A block of memory at the address `at`. If out of memory, `ok` is false and `at` is any address but null. */
typedef struct nph_block {
    bool ok;
    void *at;
} nph_block;

/* The program defines these three. A block is aligned to `align`, a power of two up to 16, and no two overlap. */
nph_block rattle_alloc(size_t bytes, size_t align);

/* Changes the length of a block to `bytes` bytes. Its first `kept` bytes stay. It may move; if out of memory it stays as
 * it is. */
nph_block rattle_realloc(void *at, size_t kept, size_t bytes, size_t align);

/* Takes back a block. */
void rattle_dealloc(void *at);

/* Of src/norphuen_arena.c alone: how many bytes of its array were in use so far, from its start. An array of this size serves the
 * same calls. */
size_t nph_arena_most(void);

#ifdef __cplusplus
}
#endif

#endif
