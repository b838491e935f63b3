// A log that outlives a restart: the heap is saved as an image in a vector, and loaded again, with another k. A record holds the
// id of the record before it, and ids stay the same in the loaded heap.
#include "norphuen.hpp"

#include <cstdio>
#include <vector>

using norphuen::images::heap;
using norphuen::images::object;

struct record {
    object<record> before;
    char text[16];
};

// Holds the id of the last record. The first one names itself as the one before it.
constexpr object<object<record>> last{1};

namespace {

bool add(heap &log, uint16_t id, const char *text) {
    record value{object<record>(id), ""};
    std::snprintf(value.text, sizeof value.text, "%s", text);
    if (log.make(last, value.before) != NPH_OK && log.read(last, value.before) != NPH_OK) return false;
    return log.make(object<record>(id), value) == NPH_OK && log.write(last, object<record>(id)) == NPH_OK;
}

bool show(heap &log) {
    object<record> at(0);
    record value{at, ""};
    if (log.read(last, value.before) != NPH_OK) return false;
    do {
        at = value.before;
        if (log.read(at, value) != NPH_OK) return false;
        std::printf("%u: %s\n", static_cast<unsigned>(at.handle), value.text);
    } while (at != value.before);
    return true;
}

void refuse(const char *what, const std::vector<uint8_t> &image, uint32_t k) {
    heap log;
    uint64_t offset = 0;
    nph_status status = log.load(image, k, offset);
    std::printf("%s: %s, byte %u", what, nph_text(status), static_cast<unsigned>(offset));
    std::printf("; then: %s\n", nph_text(log.drop(last)));
}

} // namespace

int main() {
    std::vector<uint8_t> image, again;
    uint64_t offset = 0;
    nph_needed needed = {};
    {
        heap log;
        if (heap::bytes_needed(8, 512, 2, 100, needed) != NPH_OK) return 1;
        std::printf("memory: %u bytes in %u blocks\n", static_cast<unsigned>(needed.total), static_cast<unsigned>(needed.blocks));
        std::printf("save: %s\n", nph_text(log.save(image)));
        if (log.open(8, 512, 2, 100) != NPH_OK) return 1;
        if (!add(log, 60000, "started") || !add(log, 60002, "low battery") || !add(log, 60001, "stopped")) return 1;
        std::printf("make again: %s\n", nph_text(log.make(object<record>(60001), {object<record>(0), ""})));
        if (log.save(image) != NPH_OK) return 1;
        std::printf("saved: %u bytes\n", static_cast<unsigned>(image.size()));
    }
    heap log;
    if (log.load(image, 64, offset) != NPH_OK || !show(log)) return 1;
    std::printf("load again: %s\n", nph_text(log.load(image, 64, offset)));
    if (log.save(again) != NPH_OK) return 1;
    std::printf("saved again: %s\n", image == again ? "the same bytes" : "other bytes");
    record value{object<record>(0), ""};
    std::printf("free: %s", nph_text(log.drop(object<record>(60000))));
    std::printf(", again: %s", nph_text(log.drop(object<record>(60000))));
    std::printf(", read: %s\n", nph_text(log.read(object<record>(60000), value)));
    if (log.save(again) != NPH_OK) return 1;
    std::printf("saved: %u bytes\n", static_cast<unsigned>(again.size()));

    refuse("k = 65", image, 65);
    refuse("no bytes", {}, 1);
    again.pop_back();
    refuse("a byte less", again, 1);
    image[8] ^= 0xff;
    refuse("a byte changed", image, 1);
}
