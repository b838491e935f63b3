// A free in slices: examples/slice.cf in C++. An object is read and written while a job moves it, and in place afterwards.
#include "norphuen.hpp"

#include <array>
#include <cstdio>

using norphuen::scope;
using norphuen::sliced::object;

using bytes = std::array<uint8_t, 176>;
using page = std::array<uint8_t, 504>;

namespace {

norphuen::sliced::heap heap;

// Does the rest of the pending job, and prints how many slices that takes.
bool finish() {
    uint32_t left = 1, slices = 0;
    uint64_t steps = 0;
    for (; left > 0; slices++) {
        if (heap.step(left) != NPH_OK || nph_sliced_last_steps(heap.raw(), &steps) != NPH_OK) return false;
        if (steps > nph_sliced_most_step(8)) return false;
    }
    std::printf("slices: %u\n", static_cast<unsigned>(slices));
    return true;
}

bool show(const char *what, nph_status status) {
    uint32_t left = 0;
    if (nph_sliced_left(heap.raw(), &left) != NPH_OK) return false;
    std::printf("%s: %s, %u words left\n", what, nph_text(status), static_cast<unsigned>(left));
    return true;
}

} // namespace

int main() {
    object<bytes> a, b, c, d;
    object<page> p;
    bytes value = {0xca};
    uint32_t moving = NPH_NONE;
    std::printf("make: %s\n", nph_text(heap.make(a, {})));
    std::printf("quantum 0: %s\n", nph_text(heap.open(2, 512, 8, 0)));
    if (heap.open(2, 512, 8, 8) != NPH_OK) return 1;
    for (object<bytes> *made : {&a, &b, &c, &d})
        if (heap.make(*made, value) != NPH_OK) return 1;
    object<bytes> old = a;
    if (!show("free a", heap.drop(a)) || !show("free c", heap.drop(c)) || !finish()) return 1;
    if (!show("free c", heap.drop(c)) || nph_sliced_moving(heap.raw(), &moving) != NPH_OK) return 1;
    std::printf("b moves: %d, lend: %s\n", moving == b.handle, nph_text(scope(heap, b).status()));
    value[175] = 0xfe;
    if (heap.write(b, value) != NPH_OK || !show("make a page", heap.make(p, {})) || !finish()) return 1;
    {
        scope s(heap, b, d);
        if (s.status() != NPH_OK) return 1;
        auto &[first, second] = s;
        std::printf("b: %02x and %02x\n", first[0], first[175]);
        second = first;
        std::printf("step while lent: %s\n", nph_text(nph_sliced_step(heap.raw())));
    }
    value = {};
    if (heap.read(d, value) != NPH_OK) return 1;
    std::printf("d: %02x and %02x\n", value[0], value[175]);
    return show("make a page", heap.make(p, {})) && show("free a", heap.drop(old)) ? 0 : 1;
}
