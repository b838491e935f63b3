/* Plays a script of mode `run` through the C library, and prints what cf_tool prints. checks/c_library compares. It
 * knows the commands heap, m, f, w, r, z, walk, frag and steps; the library has no calls for the others. */
#include "norphuen.h"

#include <inttypes.h>
#include <stdio.h>
#include <stdlib.h>
#include <string.h>

/* The handle of each id, NPH_NONE if the id is not live. */
static uint32_t handles[65536];
static nph_heap heap = NPH_HEAP;
/* What `steps` prints: of the last call its steps and their bound, and the objects and words moved so far. */
static struct { uint64_t steps, bound, moves, words; } last;

/* The reply of cf_tool for a code. */
static const char *text_of(int32_t code) {
    switch (code) {
    case NPH_OK: return "ok";
    case NPH_SIZE: return "refused size";
    case NPH_PROXY: return "refused proxy";
    case NPH_SPACE: return "refused space";
    case NPH_KIND: return "none";
    case NPH_UNKNOWN: return "unknown";
    case NPH_RANGE: return "range";
    default: fprintf(stderr, "code %d\n", (int)code); exit(1);
    }
}

/* Notes the steps of the call just made, its bound, and the object that moved, if one did, with the words of its slot. */
static void count(uint64_t bound, uint32_t moved, uint32_t words) {
    if (nph_last_steps(&heap, &last.steps) != NPH_OK) exit(1);
    last.bound = bound;
    if (moved != NPH_NONE) last.moves++, last.words += words;
}

/* The reply to `m`. */
static const char *make(uint32_t id, uint32_t bytes) {
    if (handles[id] != NPH_NONE) return "live";
    int32_t code = nph_malloc(&heap, bytes, &handles[id]);
    count(64, NPH_NONE, 0);
    return text_of(code);
}

/* The reply to `f`. */
static const char *release(uint32_t id) {
    nph_freed freed = {0, NPH_NONE};
    if (handles[id] == NPH_NONE) return "unknown";
    int32_t code = nph_free(&heap, handles[id], &freed);
    handles[id] = NPH_NONE;
    count(96 + 2 * (uint64_t)freed.slot_words, freed.moved, freed.slot_words);
    return text_of(code);
}

/* The reply to `z`. */
static const char *resize(uint32_t id, uint32_t bytes) {
    nph_resized done = {0, 0, NPH_NONE};
    if (handles[id] == NPH_NONE) return "unknown";
    int32_t code = nph_resize(&heap, handles[id], bytes, &done);
    uint32_t most = done.slot_words > done.old_slot_words ? done.slot_words : done.old_slot_words;
    count(160 + 3 * (uint64_t)most, done.moved, done.old_slot_words);
    return text_of(code);
}

/* The reply to `w` on a live id. */
static const char *write_hex(uint32_t id, uint32_t at, const char *hex) {
    uint8_t bytes[4096];
    size_t n = strlen(hex) / 2;
    unsigned byte;
    for (size_t i = 0; i < n; i++) {
        if (sscanf(hex + 2 * i, "%2x", &byte) != 1) exit(1);
        bytes[i] = (uint8_t)byte;
    }
    return text_of(nph_write(&heap, handles[id], at, bytes, n));
}

/* Prints the reply to `r` on a live id. */
static void read_hex(uint32_t id, uint32_t at, uint32_t n) {
    uint8_t bytes[4096];
    int32_t code = nph_read(&heap, handles[id], at, bytes, n);
    if (code != NPH_OK) { puts(text_of(code)); return; }
    putchar('=');
    for (uint32_t i = 0; i < n; i++) printf("%02x", bytes[i]);
    putchar('\n');
}

/* Whether the library has size classes: one with blocks has none. */
static bool has_classes(void) {
    nph_class c;
    return nph_figures(&heap, 0, &c) == NPH_OK;
}

/* Prints the reply to `walk`. */
static void walk(void) {
    nph_class c;
    nph_heap_totals t;
    for (uint32_t i = 0; nph_figures(&heap, i, &c) == NPH_OK; i++)
        if (c.live > 0)
            printf("class %" PRIu32 " slots %" PRIu32 " live %" PRIu32 " pages %" PRIu32 " notfull %" PRIu32 "\n",
                   c.slot_words, c.slots, c.live, c.pages, c.not_full);
    if (nph_totals(&heap, &t) != NPH_OK) exit(1);
    if (!has_classes()) {
        printf("blocks used %" PRIu32 " free %" PRIu32 " largest %" PRIu32 "\n", t.used, t.free, t.largest);
        return;
    }
    printf("total live %" PRIu32 " pages %" PRIu32 " free %" PRIu32 "\n", t.live, t.used, t.free);
}

static void frag(void) {
    nph_heap_totals t;
    if (nph_totals(&heap, &t) != NPH_OK) exit(1);
    printf("frag asked %" PRIu64 " taken %" PRIu64 " held %" PRIu64 "\n", t.asked, t.taken, t.held);
}

int main(void) {
    static char line[9000], hex[9000];
    uint32_t a, b, c, d;
    memset(handles, 0xff, sizeof handles);
    while (fgets(line, sizeof line, stdin)) {
        if (sscanf(line, " heap %" SCNu32 " %" SCNu32 " %" SCNu32 " %" SCNu32, &a, &b, &c, &d) == 4)
            puts(text_of(nph_open(&heap, a, b, c, d)));
        else if (sscanf(line, " m %" SCNu32 " %" SCNu32, &a, &b) == 2) puts(make(a, b));
        else if (sscanf(line, " f %" SCNu32, &a) == 1) puts(release(a));
        else if (sscanf(line, " w %" SCNu32 " %" SCNu32 " %8999[0-9a-f]", &a, &b, hex) == 3) puts(write_hex(a, b, hex));
        else if (sscanf(line, " r %" SCNu32 " %" SCNu32 " %" SCNu32, &a, &b, &c) == 3) read_hex(a, b, c);
        else if (sscanf(line, " z %" SCNu32 " %" SCNu32, &a, &b) == 2) puts(resize(a, b));
        else if (strncmp(line, "walk", 4) == 0) walk();
        else if (strncmp(line, "frag", 4) == 0) frag();
        else if (strncmp(line, "steps", 5) == 0 && !has_classes()) printf("steps last %" PRIu64 "\n", last.steps);
        else if (strncmp(line, "steps", 5) == 0)
            printf("steps last %" PRIu64 " bound %" PRIu64 " moves %" PRIu64 " words %" PRIu64 "\n", last.steps, last.bound,
                   last.moves, last.words);
        else if (line[strspn(line, " \t\r\n")] != '#' && line[strspn(line, " \t\r\n")] != 0) return 1;
    }
    nph_close(&heap);
    return 0;
}
