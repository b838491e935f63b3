/* A log of records in one long object. It is cut into parts, each in a page of its own: neither the malloc nor the free of 20,000
 * bytes needs pages side by side. The program budgets each call before it makes it. */
#include "norphuen.h"
#include <inttypes.h>
#include <stdio.h>
#include <string.h>

enum { PAGES = 48, PAGE_BYTES = 512, PROXIES = 100, BYTES = 20000, RECORD = 40 };

static nph_large_heap heap = NPH_LARGE_HEAP;

/* Prints what a call returned, its steps, and the most that it may take. */
static void show(const char *call, nph_status status, uint64_t most) {
    uint64_t steps = 0;
    int code = nph_large_last_steps(&heap, &steps);
    printf("%-6s %s, %" PRIu64 " of %" PRIu64 " steps%s\n", call, nph_text(status), steps, most, code == NPH_OK ? "" : "?");
}

int main(void) {
    uint32_t small[12], log = NPH_NONE, bytes = 0;
    char record[RECORD], text[RECORD] = "";
    nph_needed needed = {0, 0, 0};
    nph_heap_totals totals;
    if (nph_large_bytes_needed(PAGES, PAGE_BYTES, PROXIES, &needed) != NPH_OK) return 1;
    printf("open for %" PRIu64 " bytes in %" PRIu32 " blocks: %s\n", needed.total, needed.blocks,
           nph_text(nph_large_open(&heap, PAGES, PAGE_BYTES, PROXIES)));
    /* Small objects that leave gaps in three pages. */
    for (int i = 0; i < 12; i++)
        if (nph_large_malloc(&heap, 112, &small[i]) != NPH_OK) return 1;
    for (int i = 0; i < 12; i += 2)
        if (nph_large_free(&heap, small[i]) != NPH_OK) return 1;

    show("malloc", nph_large_malloc(&heap, BYTES, &log), nph_large_most_malloc(PAGE_BYTES, BYTES));
    printf("length: %s", nph_text(nph_large_length(&heap, log, &bytes)));
    printf(", %" PRIu32 "\n", bytes);
    /* A record that passes the end of a part, whose bytes are 504. */
    snprintf(record, RECORD, "record %d, from byte %d on", 12, 12 * RECORD);
    show("write", nph_large_write(&heap, log, 12 * RECORD, record, RECORD), nph_large_most_access(PAGE_BYTES, 12 * RECORD, RECORD));
    show("read", nph_large_read(&heap, log, 12 * RECORD, text, RECORD), nph_large_most_access(PAGE_BYTES, 12 * RECORD, RECORD));
    printf("it is \"%s\"\n", text);
    printf("past the end: %s\n", nph_text(nph_large_read(&heap, log, BYTES - 1, text, 2)));
    if (nph_large_totals(&heap, &totals) != NPH_OK) return 1;
    printf("objects with parts and spine: %" PRIu32 ", pages in use %" PRIu32 " of %d\n", totals.live, totals.used, PAGES);
    printf("a second log: %s\n", nph_text(nph_large_malloc(&heap, BYTES, &small[0])));

    show("free", nph_large_free(&heap, log), nph_large_most_free(PAGE_BYTES, BYTES));
    printf("read again: %s\n", nph_text(nph_large_read(&heap, log, 0, text, 1)));
    nph_large_close(&heap);
    printf("closed: %s\n", nph_text(nph_large_free(&heap, log)));
    return 0;
}
