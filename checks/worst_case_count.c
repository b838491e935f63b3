/* A plugin of qemu-user: counts instructions. checks/worst_case runs checks/worst_case.c under it, tools/compare its driver.
 *
 *   qemu -B 0 -plugin FILE,first=A,past=A,instructions=A,ran=A,turns=A,watched=FILE program ..
 *   qemu -B 0 -plugin FILE,instructions=A,entries=A program ..
 *
 * These are addresses of the program, in hexadecimal; with -B 0 they are those of qemu too. For each instruction from
 * `first` up to `past` that runs (without them for each one), 1 is added to the number at `instructions`, and to the one of
 * that instruction in `ran`; for each system call 1 is added to the number at `entries`.
 *
 * The file WATCHED, which checks/worst_case_turns.py writes, has what is counted within a call of the library, apart for
 * each path of calls that leads from an export to a function. At `turns` is a number, and behind it as many of 1024 pairs:
 * 65536 times the number of a path, plus that of a counter; and the most that the counter had on that path. The program sets
 * the number to 0 before a call. Each line of the file has a kind, an address and a number, in hexadecimal, all of one address
 * together and in this order:
 *
 *   after A N   the call N, if it is under way, has returned
 *   entry A N   a function begins: with the path that the last call leads to, or, if none was, with the path N
 *   reset A N   the counter N becomes 0
 *   count A N   1 is added to the counter N
 *   call A N    the call N is the next one, unless the instruction is a jump that isn't taken
 *   tail A N    the same of a call that doesn't return here
 *   bytes A N   a call of a function outside of the library is next: the path and the counter N are written behind the pairs
 *   path N A B  no address: on path A the call N leads to path B
 *
 * The declarations are those of qemu-plugin.h (version 1), which Debian 12 has in no package. */
#include <inttypes.h>
#include <stddef.h>
#include <stdint.h>
#include <stdio.h>
#include <stdlib.h>
#include <string.h>

struct block;
struct instruction;
void qemu_plugin_register_vcpu_tb_trans_cb(uint64_t id, void (*translated)(uint64_t id, struct block *block));
size_t qemu_plugin_tb_n_insns(const struct block *block);
struct instruction *qemu_plugin_tb_get_insn(const struct block *block, size_t n);
uint64_t qemu_plugin_insn_vaddr(const struct instruction *one);
void qemu_plugin_register_vcpu_insn_exec_inline(struct instruction *one, int operation, void *to, uint64_t number);
void qemu_plugin_register_vcpu_insn_exec_cb(struct instruction *one, void (*runs)(unsigned cpu, void *data), int flags, void *data);
void qemu_plugin_register_vcpu_syscall_cb(uint64_t id, void (*entered)(uint64_t id, unsigned cpu, int64_t number, uint64_t a, uint64_t b,
                                                                      uint64_t c, uint64_t d, uint64_t e, uint64_t f, uint64_t g, uint64_t h));

enum { ADD = 0, NO_REGISTERS = 0, EVENTS = 4096, COUNTERS = 512, CALLS = 512, PATHS = 512, DEEP = 64, PAIRS = 1024 };
int qemu_plugin_version = 1;
static uint64_t first, past = UINT64_MAX, instructions, ran, entries, turns;

static struct event { char kind[8]; uint64_t at, number; } events[EVENTS + 1];
static size_t watched;
/* The path of the function that runs, the calls that are under way with the paths that they began on, and the call that was just made. */
static uint64_t path, depth, called[DEEP], from[DEEP], last;
static int returns;
static uint64_t counters[COUNTERS];
static uint16_t leads[PATHS][CALLS], places[PATHS][COUNTERS];

/* Writes the counter, if it is more than before, for the path that runs. */
static void write_counter(uint64_t counter) {
    uint64_t *count = (uint64_t *)turns, *pairs = count + 1, key = path << 16 | counter, place = places[path][counter];
    if (place >= *count || pairs[2 * place] != key) {
        if (*count == PAIRS) abort();
        place = places[path][counter] = (uint16_t)(*count)++;
        pairs[2 * place] = key, pairs[2 * place + 1] = 0;
    }
    if (pairs[2 * place + 1] < counters[counter]) pairs[2 * place + 1] = counters[counter];
}

static void enter(uint64_t number) {
    if (!last) { path = number, depth = 0; return; }
    if (returns) called[depth % DEEP] = last, from[depth++ % DEEP] = path;
    path = leads[path][last], last = 0;
}

/* Does what the events of an address say. */
static void happens(unsigned cpu, void *data) {
    (void)cpu;
    for (const struct event *one = data, *begin = one; one->at == begin->at; one++) {
        switch (one->kind[0]) {
        case 'a':
            if (depth && called[(depth - 1) % DEEP] == one->number) path = from[--depth % DEEP];
            last = 0;
            break;
        case 'e': enter(one->number); break;
        case 'r': counters[one->number] = 0; break;
        case 'c':
            if (one->kind[1] == 'a') last = one->number, returns = 1;
            else counters[one->number]++, write_counter(one->number);
            break;
        case 't': last = one->number, returns = 0; break;
        case 'b': ((uint64_t *)turns)[1 + 2 * PAIRS] = path << 16 | one->number; break;
        default: break;
        }
    }
}

static int read_watched(const char *name) {
    FILE *file = fopen(name, "r");
    char kind[8];
    uint64_t a, b, c;
    while (file && watched < EVENTS && fscanf(file, "%7s %" SCNx64 " %" SCNx64, kind, &a, &b) == 3) {
        if (strcmp(kind, "path") == 0) {
            if (fscanf(file, "%" SCNx64, &c) != 1 || a >= CALLS || b >= PATHS || c >= PATHS) return 0;
            leads[b][a] = (uint16_t)c;
        } else {
            struct event *one = &events[watched++];
            memcpy(one->kind, kind, sizeof kind), one->at = a, one->number = b;
            if (b >= COUNTERS) return 0;
        }
    }
    return file && feof(file) && !fclose(file);
}

static void translated(uint64_t id, struct block *block) {
    (void)id;
    for (size_t n = 0; n < qemu_plugin_tb_n_insns(block); n++) {
        struct instruction *one = qemu_plugin_tb_get_insn(block, n);
        uint64_t at = qemu_plugin_insn_vaddr(one);
        if (at < first || at >= past) continue;
        qemu_plugin_register_vcpu_insn_exec_inline(one, ADD, (void *)instructions, 1);
        if (ran) qemu_plugin_register_vcpu_insn_exec_inline(one, ADD, (void *)(ran + 8 * (at - first)), 1);
        for (size_t e = 0; e < watched; e++)
            if (events[e].at == at) { qemu_plugin_register_vcpu_insn_exec_cb(one, happens, NO_REGISTERS, &events[e]); break; }
    }
}

static void entered(uint64_t id, unsigned cpu, int64_t number, uint64_t a, uint64_t b, uint64_t c, uint64_t d, uint64_t e, uint64_t f,
                    uint64_t g, uint64_t h) {
    (void)id, (void)cpu, (void)number, (void)a, (void)b, (void)c, (void)d, (void)e, (void)f, (void)g, (void)h;
    ++*(uint64_t *)entries;
}

int qemu_plugin_install(uint64_t id, const void *info, int count, char **words) {
    struct { const char *name; uint64_t *to; } numbers[] = {{"first=", &first}, {"past=", &past}, {"instructions=", &instructions}, {"ran=", &ran}, {"entries=", &entries}, {"turns=", &turns}};
    (void)info;
    for (int i = 0; i < count; i++) {
        if (strncmp(words[i], "watched=", 8) == 0 && !read_watched(words[i] + 8)) return 1;
        for (size_t n = 0; n < sizeof numbers / sizeof *numbers; n++)
            if (strncmp(words[i], numbers[n].name, strlen(numbers[n].name)) == 0) *numbers[n].to = strtoull(strchr(words[i], '=') + 1, NULL, 16);
    }
    if (past <= first || !instructions || (ran && !first) || (watched && !turns)) return 1;
    qemu_plugin_register_vcpu_tb_trans_cb(id, translated);
    if (entries) qemu_plugin_register_vcpu_syscall_cb(id, entered);
    return 0;
}
