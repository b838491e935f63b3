// The session of the README, in C++.
#include "norphuen.hpp"

#include <array>
#include <cstdio>

using norphuen::object;
using norphuen::scope;

using bytes = std::array<uint8_t, 176>;

int main() {
    norphuen::heap heap;
    object<bytes> a, b, c, d;
    nph_freed freed = {};
    uint64_t steps = 0;
    std::printf("make: %s\n", nph_text(heap.make(a, {})));
    std::printf("open: %s\n", nph_text(heap.open(2, 500, 1, 8)));
    if (heap.open(2, 512, 1, 8) != NPH_OK) return 1;
    for (object<bytes> *made : {&a, &b, &c, &d})
        if (heap.make(*made, {}) != NPH_OK) return 1;
    std::printf("room for 8 bytes: %s\n", nph_text(nph_has_room(heap.raw(), 8)));
    {
        scope s(heap, b, d);
        if (s.status() != NPH_OK) return 1;
        auto &[first, second] = s;
        first[0] = 0xca;
        first[1] = 0xfe;
        second = first;
        std::printf("free while lent: %s\n", nph_text(heap.drop(a)));
    }
    object<bytes> old = a;
    std::printf("free a: %s\n", nph_text(heap.drop(a)));
    std::printf("free c: %s", nph_text(heap.drop(c, &freed)));
    std::printf(", b moved: %d", freed.moved == b.handle);
    if (nph_last_steps(heap.raw(), &steps) != NPH_OK) return 1;
    std::printf(", %u steps\n", static_cast<unsigned>(steps));
    {
        scope s(heap, b, d);
        if (s.status() != NPH_OK) return 1;
        auto &[first, second] = s;
        std::printf("b: %02x%02x, d the same: %d\n", first[0], first[1], first == second);
    }
    std::printf("a: %s\n", nph_text(scope(heap, old).status()));
    std::printf("resize: %s\n", nph_text(nph_resize(heap.raw(), b.handle, 20, nullptr)));
    std::printf("b as 176 bytes: %s\n", nph_text(scope(heap, b).status()));
    std::printf("b as 20 bytes: %s\n", nph_text(scope(heap, object<std::array<uint8_t, 20>>{b.handle}).status()));
}
