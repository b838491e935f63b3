// Two tasks in one heap, each with the least quota for its needs. A handle of one is no handle of the other.
#include "norphuen.hpp"

#include <array>
#include <cstdio>

using norphuen::tasks::object;

constexpr uint32_t logger = 0, planner = 1;

using bytes = std::array<uint8_t, 176>;
using page = std::array<uint8_t, 504>;

namespace {

norphuen::tasks::heap heap;

// Gives a task the least quota for `count` objects of `size` bytes, if so many pages are left, and prints what becomes of it.
void start(uint32_t task, uint32_t size, uint32_t count) {
    const nph_need need = {size, count};
    uint32_t quota = 0, left = 0;
    if (nph_tasks_least_quota(heap.raw(), &need, 1, &quota) != NPH_OK) return;
    nph_status set = nph_tasks_set_quota(heap.raw(), task, quota), admitted = nph_tasks_admit(heap.raw(), task, &need, 1);
    if (nph_tasks_unassigned(heap.raw(), &left) != NPH_OK) return;
    std::printf("task %u: %u pages: %s, admitted: %s, %u pages left\n", static_cast<unsigned>(task), static_cast<unsigned>(quota),
                nph_text(set), nph_text(admitted), static_cast<unsigned>(left));
}

void show(uint32_t task) {
    nph_task figures = {};
    if (nph_tasks_task(heap.raw(), task, &figures) != NPH_OK) return;
    std::printf("task %u: quota %u, pages %u, live %u\n", static_cast<unsigned>(task), static_cast<unsigned>(figures.quota),
                static_cast<unsigned>(figures.pages), static_cast<unsigned>(figures.live));
}

} // namespace

int main() {
    object<bytes, logger> a, b, c, d, e;
    object<page, planner> p, q;
    bytes value = {0xca, 0xfe};
    nph_freed freed = {};
    std::printf("make: %s\n", nph_text(heap.make(a, {})));
    if (heap.open(3, 512, 8) != NPH_OK) return 1;
    start(logger, 176, 4);
    start(planner, 504, 1);
    start(2, 8, 1);
    for (object<bytes, logger> *made : {&a, &b, &c, &d})
        if (heap.make(*made, value) != NPH_OK) return 1;
    std::printf("a fifth of the logger: %s\n", nph_text(heap.make(e, {})));
    std::printf("a page of the planner: %s", nph_text(heap.make(p, {})));
    std::printf(", a second: %s\n", nph_text(heap.make(q, {})));
    std::printf("free a: %s\n", nph_text(heap.drop(a)));
    std::printf("free c: %s", nph_text(heap.drop(c, &freed)));
    std::printf(", b moved: %d\n", freed.moved == b.handle);
    value = {};
    if (heap.read(b, value) != NPH_OK) return 1;
    std::printf("b: %02x%02x\n", value[0], value[1]);
    show(logger);
    show(planner);
    std::printf("less than the planner uses: %s\n", nph_text(nph_tasks_set_quota(heap.raw(), planner, 0)));
    std::printf("task 16: %s\n", nph_text(nph_tasks_set_quota(heap.raw(), 16, 0)));
}
