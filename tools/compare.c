/* Replays calls on one allocator, and prints what each took. tools/compare compiles it for the C library's allocator, or one
 * that LD_PRELOAD names, and with -DNORPHUEN for a library of Norphuen, and runs it.
 *
 *   program MODE [PAGES PAGEBYTES K PROXIES] < CALLS
 *
 * A line of CALLS is `m ID BYTES`, `f ID` or `z ID BYTES`. A line of output has the letter of a call and a number: in mode
 * `count` its instructions, in mode `memory` the bytes that the allocator has taken so far. Mode `count` runs under qemu: the
 * plugin checks/worst_case_count.c adds 1 to `instructions` for each instruction, and to `entries` for each system call. The
 * last line has the system calls. If a call is refused, the program ends with status 3. */
#include <dlfcn.h>
#include <fcntl.h>
#include <inttypes.h>
#include <stdio.h>
#include <stdlib.h>
#include <string.h>
#include <sys/prctl.h>
#include <unistd.h>

enum { IDS = 1 << 16, CALLS = 1 << 20, TEXT = 1 << 24 };
volatile uint64_t instructions, entries;
static uint64_t objects[IDS], numbers[CALLS], own, called, around;
static uint32_t lengths[IDS];
static char text[TEXT], letters[CALLS];
static size_t calls;
static int counts;

typedef uint64_t function(uint64_t a, uint64_t b, uint64_t c, uint64_t d, uint64_t e);

/* A function of two instructions: the others of a call of it are those `around` each call. */
__attribute__((noipa)) static uint64_t nothing(uint64_t a, uint64_t b, uint64_t c, uint64_t d, uint64_t e) {
    (void)a, (void)b, (void)c, (void)d, (void)e;
    return 0;
}

/* Makes a call; `own` grows by its instructions, up to its return, and `called` by its system calls. */
__attribute__((noipa)) static uint64_t call(function *f, uint64_t a, uint64_t b, uint64_t c, uint64_t d, uint64_t e) {
    uint64_t before = instructions, entered = entries, result = f(a, b, c, d, e);
    own += instructions - before - around;
    called += entries - entered;
    return result;
}

static void refused(void) { _exit(3); }

#ifdef NORPHUEN
#include "norphuen.h"
static nph_heap heap = NPH_HEAP;
static nph_needed needed;

static void begin(char **words) {
    uint32_t at[4];
    for (int i = 0; i < 4; i++) at[i] = (uint32_t)strtoul(words[i], NULL, 10);
    if (nph_open(&heap, at[0], at[1], at[2], at[3]) != NPH_OK) _exit(4);
    if (nph_bytes_needed(at[0], at[1], at[2], at[3], &needed) != NPH_OK) _exit(4);
}

static uint64_t taken(void) { return needed.total; }

static int32_t on_heap(void *f, uint64_t a, uint64_t b, uint64_t c, uint64_t d) {
    return (int32_t)call((function *)f, (uint64_t)&heap, a, b, c, d);
}

static void make(uint32_t id, uint32_t bytes) {
    uint32_t handle = 0;
    if (on_heap((void *)nph_malloc, bytes, (uint64_t)&handle, 0, 0) != NPH_OK) refused();
    objects[id] = handle;
}

static void release(uint32_t id) {
    nph_freed freed;
    if (on_heap((void *)(nph_free), objects[id], (uint64_t)&freed, 0, 0) != NPH_OK) _exit(4);
}

/* With blocks there is no resize: a malloc, a copy and a free. */
static void resize(uint32_t id, uint32_t bytes) {
    static char buffer[1 << 17];
    nph_resized resized;
    uint64_t old = objects[id];
    uint32_t kept = lengths[id] < bytes ? lengths[id] : bytes;
    int32_t code = on_heap((void *)(nph_resize), old, bytes, (uint64_t)&resized, 0);
    if (code == NPH_OK) return;
    if (code != NPH_KIND) refused();
    own = 0;
    make(id, bytes);
    uint64_t new = objects[id];
    if (on_heap((void *)nph_read, old, 0, (uint64_t)buffer, kept) != NPH_OK) _exit(4);
    if (on_heap((void *)nph_write, new, 0, (uint64_t)buffer, kept) != NPH_OK) _exit(4);
    objects[id] = old;
    release(id);
    objects[id] = new;
}

static void write_all(uint32_t id) { (void)id; }
#else
static function *the_malloc, *the_free, *the_realloc;
static uint64_t before;
static int status;

/* The memory of the process that is in no file and is resident, in bytes. */
static uint64_t anonymous(void) {
    char said[4096];
    ssize_t n = pread(status, said, sizeof said - 1, 0);
    said[n > 0 ? n : 0] = 0;
    const char *line = strstr(said, "RssAnon:");
    return line ? 1024 * strtoull(line + 8, NULL, 10) : 0;
}

/* The functions' own addresses: a pointer of the program would reach them through its linkage table. */
static void begin(char **words) {
    (void)words;
    *(void **)&the_malloc = dlsym(RTLD_DEFAULT, "malloc");
    *(void **)&the_free = dlsym(RTLD_DEFAULT, "free");
    *(void **)&the_realloc = dlsym(RTLD_DEFAULT, "realloc");
    prctl(PR_SET_THP_DISABLE, 1, 0, 0, 0);
    status = open("/proc/self/status", O_RDONLY);
    before = anonymous();
    call(the_free, call(the_malloc, 1, 0, 0, 0, 0), 0, 0, 0, 0); /* it makes its tables at its first call */
}

static uint64_t taken(void) { return anonymous() - before; }
static void make(uint32_t id, uint32_t bytes) {
    if (!(objects[id] = call(the_malloc, bytes, 0, 0, 0, 0)) && bytes) refused();
}
static void release(uint32_t id) { call(the_free, objects[id], 0, 0, 0, 0); }
static void resize(uint32_t id, uint32_t bytes) {
    if (!(objects[id] = call(the_realloc, objects[id], bytes, 0, 0, 0)) && bytes) refused();
}
static void write_all(uint32_t id) {
    if (objects[id]) memset((void *)objects[id], 1, lengths[id]);
}
#endif

/* Makes one call, and keeps its number. */
static void apply(char letter, uint32_t id, uint32_t bytes) {
    own = 0;
    if (letter == 'm') make(id, bytes);
    if (letter == 'f') release(id);
    if (letter == 'z') resize(id, bytes);
    lengths[id] = bytes;
    if (!counts && letter != 'f') write_all(id);
    letters[calls] = letter;
    numbers[calls++] = counts ? own : taken();
}

int main(int argc, char **words) {
    size_t size = 0;
    for (ssize_t n; (n = read(0, text + size, TEXT - 1 - size)) > 0;) size += (size_t)n;
    counts = argc > 1 && words[1][0] == 'c';
    /* The program's own pages are there before it measures. */
    memset(objects, 0xff, sizeof objects);
    memset(numbers, 0xff, sizeof numbers);
    memset(lengths, 0xff, sizeof lengths);
    memset(letters, 0xff, sizeof letters);
    call(nothing, 0, 0, 0, 0, 0);
    around = counts ? own - 2 : 0;
    begin(words + 2);
    called = 0;
    for (char *at = text; *at && calls < CALLS; at = strchr(at, '\n') + 1) {
        char *rest = at + 1;
        uint32_t id = (uint32_t)strtoul(rest, &rest, 10), bytes = *at == 'f' ? 0 : (uint32_t)strtoul(rest, &rest, 10);
        apply(*at, id, bytes);
    }
    for (size_t i = 0; i < calls; i++) printf("%c %" PRIu64 "\n", letters[i], numbers[i]);
    printf("s %" PRIu64 "\n", called);
    return 0;
}
