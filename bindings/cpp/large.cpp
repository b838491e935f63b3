// A log of records in one long object, which is cut into parts in pages of their own. Each call is budgeted before it is made.
#include "norphuen.hpp"

#include <array>
#include <cstdio>

using norphuen::large::object;

struct record {
    char text[40];
};
using records = std::array<record, 500>;

constexpr uint32_t page_bytes = 512;

namespace {

norphuen::large::heap heap;

// Prints what a call returned, its steps, and the most that it may take.
void show(const char *call, nph_status status, uint64_t most) {
    uint64_t steps = 0;
    if (nph_large_last_steps(heap.raw(), &steps) != NPH_OK) return;
    std::printf("%s: %s, %u of %u steps\n", call, nph_text(status), static_cast<unsigned>(steps), static_cast<unsigned>(most));
}

} // namespace

int main() {
    object<records> log, second;
    record value = {"record 12"};
    nph_needed needed = {};
    nph_heap_totals totals = {};
    if (norphuen::large::heap::bytes_needed(48, page_bytes, 100, needed) != NPH_OK) return 1;
    std::printf("make: %s\n", nph_text(heap.make(log)));
    std::printf("open for %u bytes: %s\n", static_cast<unsigned>(needed.total), nph_text(heap.open(48, page_bytes, 100)));
    show("make", heap.make(log), nph_large_most_malloc(page_bytes, sizeof(records)));
    std::printf("a second log: %s\n", nph_text(heap.make(second)));
    const uint32_t at = 12 * sizeof(record);
    show("write", heap.write_element(log, 12, value), nph_large_most_access(page_bytes, at, sizeof(record)));
    value = {};
    show("read", heap.read_element(log, 12, value), nph_large_most_access(page_bytes, at, sizeof(record)));
    std::printf("it is \"%s\"\n", value.text);
    std::printf("element 500: %s", nph_text(heap.read_element(log, 500, value)));
    // It would begin at byte 2^32 + 24.
    std::printf(", element 107374183: %s\n", nph_text(heap.read_element(log, 107374183, value)));
    static records all;
    show("read all", heap.read(log, all), nph_large_most_access(page_bytes, 0, sizeof(records)));
    std::printf("element 11 is \"%s\", element 12 is \"%s\"\n", all[11].text, all[12].text);
    if (nph_large_totals(heap.raw(), &totals) != NPH_OK) return 1;
    std::printf("parts and spine: %u, in %u pages\n", static_cast<unsigned>(totals.live), static_cast<unsigned>(totals.used));
    object<records> old = log;
    show("free", heap.drop(log), nph_large_most_free(page_bytes, sizeof(records)));
    std::printf("the handle is %s, free: %s", log ? "still there" : "none", nph_text(heap.drop(log)));
    std::printf(", read: %s\n", nph_text(heap.read(old, all)));
}
