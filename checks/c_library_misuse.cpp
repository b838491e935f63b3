// What g++ and clang++ must refuse with -Wall -Wextra -Werror. A line `misuse N: TEXT` stands before each; the message has
// TEXT. Without MISUSE all compiles.
#include "../bindings/cpp/norphuen.hpp"

using norphuen::object;
using norphuen::scope;

struct alignas(16) wide { long a, b; };
struct text { ~text() {} };
struct node { int key; object<node> next; };

int main() {
    norphuen::sliced::heap slices;
    norphuen::sliced::object<int> f;
    norphuen::tasks::heap shared;
    norphuen::tasks::object<int, 0> one;
    norphuen::tasks::object<int, 1> two;
    norphuen::images::heap saved;
    norphuen::images::object<int> named{7};
    norphuen::large::heap large;
    norphuen::large::object<std::array<int, 1000>> items;
    if (saved.make(named, 1) != NPH_OK || large.make(items) != NPH_OK || large.write_element(items, 999, 1) != NPH_OK) return 1;
    if (slices.make(f, 1) != NPH_OK || shared.make(one, 1) != NPH_OK || shared.make(two, 1) != NPH_OK) return 1;
    norphuen::heap heap;
    object<int> a;
    object<long> b;
    object<node> n;
    if (heap.open(64, 4096, 1, 1000) != NPH_OK || heap.make(a, 1) != NPH_OK || heap.make(b, 2L) != NPH_OK) return 1;
    if (heap.make(n, {1, {}}) != NPH_OK) return 1;
    scope s(heap, a, b);
    if (s.status() != NPH_OK) return 1;
    auto &[x, y] = s;
    scope r(slices, f);
    if (r.status() != NPH_OK) return 1;
    x = static_cast<int>(y);
#if MISUSE == 1 // misuse 1: deleted
    int &z = scope(heap, a).get<0>();
    z = 1;
#elif MISUSE == 2 // misuse 2: deleted
    auto [p, q] = scope(heap, a, b);
    p = static_cast<int>(q);
#elif MISUSE == 3 // misuse 3: deleted
    norphuen::heap copy = heap;
#elif MISUSE == 4 // misuse 4: deleted
    norphuen::heap moved = static_cast<norphuen::heap &&>(heap);
#elif MISUSE == 5 // misuse 5: deleted
    auto copy = s;
#elif MISUSE == 6 // misuse 6: the library moves objects by copying their bytes
    object<text> t;
    if (heap.make(t, text()) != NPH_OK) return 1;
#elif MISUSE == 7 // misuse 7: objects are aligned to 8 bytes
    scope t(heap, object<wide>{});
#elif MISUSE == 8 // misuse 8: object_of<
    a = b;
#elif MISUSE == 9 // misuse 9: unused-
    heap.drop(a);
#elif MISUSE == 10 // misuse 10: unused-
    scope<norphuen::heap, int>(heap, a);
#elif MISUSE == 11 // misuse 11: object_of<
    one = two;
#elif MISUSE == 12 // misuse 12: no match
    if (slices.drop(a) != NPH_OK) return 1;
#elif MISUSE == 13 // misuse 13: no match
    if (heap.read(f, x) != NPH_OK) return 1;
#elif MISUSE == 14 // misuse 14: tasks are 0 to 15
    norphuen::tasks::object<int, 16> v;
#elif MISUSE == 15 // misuse 15: deleted
    norphuen::tasks::heap copy = shared;
#elif MISUSE == 16 // misuse 16: unused-
    shared.write(one, 2);
#elif MISUSE == 17 // misuse 17: deduction
    scope t(slices, a);
#elif MISUSE == 18 // misuse 18: deduction
    scope t(shared, one);
#elif MISUSE == 19 // misuse 19: narrow
    norphuen::images::object<int> wide{70000};
#elif MISUSE == 20 // misuse 20: no match
    if (saved.write(f, 1) != NPH_OK) return 1;
#elif MISUSE == 21 // misuse 21: deleted
    norphuen::images::heap copy = saved;
#elif MISUSE == 22 // misuse 22: no match
    if (large.write_element(items, 0, 1L) != NPH_OK) return 1;
#elif MISUSE == 23 // misuse 23: a length has 32 bits
    norphuen::large::object<std::array<long, 1u << 30>> beyond;
    if (large.make(beyond) != NPH_OK) return 1;
#elif MISUSE == 24 // misuse 24: an image is bytes
    uint64_t offset = 0;
    if (saved.load(std::array<int, 8>(), 1, offset) != NPH_OK) return 1;
#endif
    return x == 2 ? 0 : 1;
}
