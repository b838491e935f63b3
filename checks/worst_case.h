/* What the programs of checks/worst_case share: how a call of a library is made, counted and printed. Each program defines
 * `last_steps` and makes the calls of one library or more.
 *
 *   program SEED COUNT PAGES PAGEBYTES K PROXIES QUANTUM
 *
 * It runs under qemu, for x86-64 or ARM64. The plugin worst_case_count.c adds 1 to `instructions` for each instruction of
 * the library that runs. A line of output has a call, its code, the instructions, the bytes of stack, the steps, what was
 * counted of its loops (the number of a path and a counter after #, and its most), and what its lengths follow from. The
 * calls run on a stack of their own, which is painted before. The functions outside of the library run on the stack of
 * main. After COUNT drawn calls it makes those that are made to be long. Lines `ran OFFSET` come last, for each instruction
 * of the library that ran. */
#ifndef WORST_CASE_H
#define WORST_CASE_H
#include "norphuen.h"

#include <inttypes.h>
#include <stdio.h>
#include <stdlib.h>
#include <string.h>

enum { STACK = 1 << 14 };
static const unsigned char paints[2] = {0xa5, 0x5a};
static _Alignas(16) unsigned char stack[STACK];
static uint64_t state;
static uint8_t buffer[1 << 17];
static int paint;
/* The plugin writes here: the instructions, and how often each one ran, by its distance from the library's first byte. */
volatile uint64_t instructions, ran[1 << 16];
/* And here what it counts within a call: the number of pairs, the pairs, and the first word of a pair for the next call of a
 * function outside. */
enum { PAIRS = 1024 };
volatile uint64_t turns[2 + 2 * PAIRS];
/* Calls and bytes of memcpy, memmove and memset, in one call of the library. */
static uint64_t copied[3][2];

/* How many blocks the allocator hands out before it is out of memory. */
static uint32_t allocations_left = UINT32_MAX;

/* The steps of the last call; 0 if the heap is closed. */
static uint64_t last_steps(void);

/* What the trampoline reads and writes: a function, its arguments, the stack pointers where the painted stack begins, of
 * main, and of the library, and a return address. */
struct trampoline { uint64_t function, arguments[6], top, outer, inner, back; } trampoline;
int32_t call_on_stack(void);

#if defined(__x86_64__)
__asm__(".text\ncall_on_stack:\n"
        " push %rbx\n lea trampoline(%rip), %rbx\n mov %rsp, 64(%rbx)\n mov 56(%rbx), %rsp\n"
        " mov 8(%rbx), %rdi\n mov 16(%rbx), %rsi\n mov 24(%rbx), %rdx\n mov 32(%rbx), %rcx\n mov 40(%rbx), %r8\n mov 48(%rbx), %r9\n"
        " call *(%rbx)\n mov trampoline+64(%rip), %rsp\n pop %rbx\n ret\n");
#define OUTSIDE(name) \
    __asm__(".globl outside_" #name "\noutside_" #name ":\n mov %rsp, trampoline+72(%rip)\n mov trampoline+64(%rip), %rsp\n" \
            " call real_" #name "\n mov trampoline+72(%rip), %rsp\n ret\n");
#elif defined(__aarch64__)
#define AT " adrp x9, trampoline\n add x9, x9, :lo12:trampoline\n"
__asm__(".text\ncall_on_stack:\n stp x29, x30, [sp, #-16]!\n" AT
        " mov x10, sp\n str x10, [x9, #64]\n ldr x10, [x9, #56]\n mov sp, x10\n"
        " ldp x11, x0, [x9]\n ldp x1, x2, [x9, #16]\n ldp x3, x4, [x9, #32]\n ldr x5, [x9, #48]\n blr x11\n" AT
        " ldr x10, [x9, #64]\n mov sp, x10\n ldp x29, x30, [sp], #16\n ret\n");
#define OUTSIDE(name) \
    __asm__(".globl outside_" #name "\noutside_" #name ":\n" AT " mov x10, sp\n stp x10, x30, [x9, #72]\n ldr x10, [x9, #64]\n mov sp, x10\n" \
            " bl real_" #name "\n" AT " ldp x10, x30, [x9, #72]\n mov sp, x10\n ret\n");
#endif
OUTSIDE(memcpy) OUTSIDE(memmove) OUTSIDE(memset) OUTSIDE(rattle_alloc) OUTSIDE(rattle_realloc) OUTSIDE(rattle_dealloc)

static void count_bytes(int function, size_t n) {
    copied[function][0]++, copied[function][1] += n;
    for (uint64_t i = turns[0]; i-- > 0;) {
        if (turns[1 + 2 * i] != turns[1 + 2 * PAIRS]) continue;
        if (turns[2 + 2 * i] < n) turns[2 + 2 * i] = n;
        return;
    }
    if (turns[0] == PAIRS) exit(1);
    turns[1 + 2 * turns[0]] = turns[1 + 2 * PAIRS], turns[2 + 2 * turns[0]] = n, turns[0]++;
}
void *real_memcpy(void *to, const void *from, size_t n) { count_bytes(0, n); return memcpy(to, from, n); }
void *real_memmove(void *to, const void *from, size_t n) { count_bytes(1, n); return memmove(to, from, n); }
void *real_memset(void *to, int byte, size_t n) { count_bytes(2, n); return memset(to, byte, n); }
nph_block real_rattle_alloc(size_t bytes, size_t align) {
    if (!allocations_left) return (nph_block){false, (void *)align};
    allocations_left--;
    return (nph_block){true, aligned_alloc(16, (bytes + 16) & ~(size_t)15)};
}
nph_block real_rattle_realloc(void *at, size_t kept, size_t bytes, size_t align) {
    nph_block b = {true, realloc(at, bytes + 16)};
    (void)kept, (void)align;
    return b;
}
void real_rattle_dealloc(void *at) { free(at); }

/* Makes a call of the library, and prints the first words of its line. `returns` is false of a call that returns nothing. */
static int32_t make_call(const char *name, void *function, const uint64_t *arguments, bool returns) {
    uint64_t counted, pairs, moved[3][2];
    unsigned char *low = stack, *top = stack + STACK - 64;
    int32_t code;
    trampoline = (struct trampoline){(uint64_t)function, {0}, (uint64_t)top, 0, 0, 0};
    memcpy(trampoline.arguments, arguments, sizeof trampoline.arguments);
    instructions = turns[0] = 0;
    memset(copied, 0, sizeof copied);
    code = call_on_stack();
    counted = instructions, pairs = turns[0];
    memcpy(moved, copied, sizeof moved);
    for (uint64_t word; low < top && (memcpy(&word, low, 8), word == paints[paint] * 0x0101010101010101u);) low += 8;
    while (low < top && *low == paints[paint]) low++;
    paint ^= 1;
    memset(stack, paints[paint], STACK);
    printf("%s %" PRId32 " %" PRIu64 " %d %" PRIu64, name, returns ? code : 0, counted, (int)(top - low), last_steps());
    for (int i = 0; i < 3; i++) printf(" %" PRIu64 " %" PRIu64, moved[i][0], moved[i][1]);
    for (uint64_t i = 0; i < pairs; i++) printf(" #%" PRIu64 " %" PRIu64, turns[1 + 2 * i], turns[2 + 2 * i]);
    return code;
}
#define CALL(name, function, ...) make_call(name, (void *)function, (const uint64_t[6]){__VA_ARGS__}, true)

/* A call without lengths. */
#define PLAIN(name, function, ...) (CALL(name, function, __VA_ARGS__), puts(""))

static uint64_t drawn(uint64_t below) {
    uint64_t z = state += 0x9e3779b97f4a7c15u;
    z = (z ^ (z >> 30)) * 0xbf58476d1ce4e5b9u;
    z = (z ^ (z >> 27)) * 0x94d049bb133111ebu;
    return (z ^ (z >> 31)) % below;
}

/* Opens the heap by this call again and again, at first without memory, each time with memory for one block more. */
#define OPEN_WITH_LITTLE(open) \
    for (uint32_t blocks = 0, code = NPH_MEMORY; code == NPH_MEMORY; blocks++) { \
        allocations_left = blocks; \
        code = (uint32_t)(open); \
        if (code != NPH_MEMORY && code != NPH_OK) exit(1); \
    } \
    allocations_left = UINT32_MAX

/* A size that often fills a slot of a small or of a large class of a page of this many words. */
static uint32_t size_for(uint32_t page_words) {
    uint64_t most = page_words * 8 - 8, part = 1 + drawn(16);
    return (uint32_t)(drawn(4) ? drawn(most / part + 1) : most / part);
}

/* Reads the arguments, of which those behind COUNT are settings, and paints the stack. */
static void begin(int argc, char **argv, uint64_t *settings) {
    if (argc != 8) exit(1);
    state = strtoull(argv[1], NULL, 10);
    for (int i = 0; i < 5; i++) settings[i] = strtoull(argv[3 + i], NULL, 10);
    memset(stack, paints[paint], STACK);
}

static void print_ran(void) {
    for (size_t at = 0; at < sizeof ran / sizeof *ran; at++)
        if (ran[at]) printf("ran %zx\n", at);
}
#endif
