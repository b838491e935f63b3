"""The cases of checks/plan. `differences` compares the planner with

 - a search that tries all histories of small drawn programs, with all choices of a manager with pages: the most pages in use;
 - the tool: it serves the calls of each row of each demand with the row's pages, and refuses one with a page less; on a drawn
   history within the demand it refuses nothing, and no free takes more steps or moves more than the row says;
 - the proved tests, whose definitions are written anew, and `nph_bytes_needed`;
 - the table of budgets in docs/SIZING.md, the formula of `pages_for_a_budget_serve` if every bound is 1, and Robson's bound in
   tiny cases.

Each planner of `WRONG` must show a difference.
"""
import ctypes
import importlib.machinery
import importlib.util
import itertools
import random
import subprocess
import sys
import tempfile
from collections import Counter
from pathlib import Path
from types import SimpleNamespace
from unittest import mock

sys.dont_write_bytecode = True
loader = importlib.machinery.SourceFileLoader("cf_plan", "tools/plan")
plan = importlib.util.module_from_spec(importlib.util.spec_from_loader("cf_plan", loader))
loader.exec_module(plan)
needs = plan.page_needs

HELD_BYTES = 1528  # the block of an open heap of a C library (docs/SPEED.md)
DEMANDS = sorted(Path("examples/demands").glob("*.txt"))
# Demands of other kinds, which are played too.
KINDS = {
    "long objects": "long\nmode load\n3 of 20000\n50 of 100\nmode work\n1 of 20000\n400 of 60\n",
    "tasks": "task one\n40 of 100\n8 of 1000\ntask two\nbudget 9000 bytes of 50..500\ntask three\nmode a\n10 of 64\nmode b\n50 of 900\n",
    "a resize": "resizes\nmode first\n1 of 8\nmode second\n1 of 40\n",
    "resizes in a class": "resizes\nmode first\n7 of 153\n1 of 20\nmode second\n6 of 176\n9 of 20\n",
    "a budget with resizes": "resizes\nbudget 2000 bytes of 60..90\n",
    "objects": "budget 30 objects of 64..200\n",
    "no moves": "4 of 504\n",
}
# Lengths of objects on a page of 512 bytes, by the slots of a page: two lengths of each of two classes, and one of three more.
LENGTHS = [(176, 160), (128, 114), (96,), (140,), (300,)]

# Programs that drawing seldom finds: modes and bounds. Sizes share a class; in the first two a resize changes the mode.
FIXED = [
    ([{176: 5}, {176: 1, 160: 1, 300: 3}], [2, 3], True),
    ([{128: 1, 114: 4, 140: 1}, {128: 2, 140: 4}], [2, 2], True),
    ([{176: 3}, {160: 2, 300: 3}], [2, 1], False),
]


# All histories of a small program


def filled(pages, size, slots):
    """A class's pages after a malloc, with each choice of a page."""
    open_pages = {page for page in pages if len(page) < slots}
    for page in open_pages:
        yield changed(pages, page, sorted((*page, size)))
    if not open_pages:
        yield changed(pages, None, (size,))


def left(pages, page, size, slots, bound):
    """A class's pages after a free of an object of this size on this page, with each choice of a filler."""
    rest = without(page, size)
    others = [other for other in pages if len(other) < slots]
    if len(page) < slots or slots == 1 or len(others) < bound:
        yield changed(pages, page, rest)
        return
    for other in set(others):
        for filler in set(other):
            yield changed(changed(pages, other, without(other, filler)), page, sorted((*rest, filler)))


def without(page, size):
    at = page.index(size)
    return page[:at] + page[at + 1 :]


def changed(pages, old, new):
    """The pages with one of them changed; a page without objects is none."""
    rest = list(pages)
    if old is not None:
        rest.remove(old)
    return tuple(sorted([*rest, tuple(new)] if new else rest))


def searched(layout, sizes, bounds, allows, resizes):
    """The most pages in use, over all histories and all choices of the manager."""
    classes = sorted({layout.class_of(size) for size in sizes})
    bounds = [*bounds, *[1] * len(classes)]  # (a wrong planner may know fewer classes)
    home = {size: classes.index(layout.class_of(size)) for size in sizes}
    slots = [layout.slots[c] for c in classes]
    start, most = ((),) * len(classes), 0
    seen, waiting = {start}, [start]

    def put(state, c, pages):
        return (*state[:c], pages, *state[c + 1 :])

    def freed(state, size):
        c = home[size]
        for page in set(state[c]):
            if size in page:
                yield from (put(state, c, pages) for pages in left(state[c], page, size, slots[c], bounds[c]))

    def resized(state, size, other):
        nonlocal most
        c, d = home[size], home[other]
        if c == d:
            for page in set(state[c]):
                if size in page:
                    yield put(state, c, changed(state[c], page, sorted((*without(page, size), other))))
            return
        for pages in filled(state[d], other, slots[d]):
            both = put(state, d, pages)
            most = max(most, sum(map(len, both)))
            yield from freed(both, size)

    while waiting:
        state = waiting.pop()
        most = max(most, sum(map(len, state)))
        live = Counter(size for pages in state for page in pages for size in page)
        after = []
        for size in sizes:
            if allows(live + Counter([size])):
                after += [put(state, home[size], pages) for pages in filled(state[home[size]], size, slots[home[size]])]
            if live[size]:
                after += freed(state, size)
            for other in sizes if resizes and live[size] else ():
                if other != size and allows(live - Counter([size]) + Counter([other])):
                    after += resized(state, size, other)
        for new in after:
            if new not in seen:
                seen.add(new)
                waiting.append(new)
    return most


def keeps(lines, allows):
    """Whether the calls of a script keep to a demand."""
    lengths = {}
    for line in lines:
        verb, number, *size = line.split()
        if verb == "f":
            del lengths[number]
        else:
            lengths[number] = int(size[0])
        if not allows(Counter(lengths.values())):
            return False
    return True


def kept(program, mode, to):
    """By class, the objects that can stay when the program goes from one mode to another: of each size as many as both have."""
    stay = [0] * len(program.classes)
    for size, c in zip(program.sizes, program.home):
        stay[c] += min(program.modes[mode].get(size, 0), program.modes[to].get(size, 0))
    return stay


def leads_on(program, bounds, points, held, stay, to):
    """Whether a vector of pages leads to one of a mode, if these objects stay: `LeadsInto`."""
    least = [min(p, n, (n + k * (m - 1)) // m) for p, n, m, k in zip(held, stay, program.m, bounds)]
    return any(other == to and all(a <= b for a, b in zip(least, more)) for other, more in points)


def certifies(program, bounds, pages, points):
    """Whether these vectors of pages show that so many pages are enough: `IsCertificate` of `certified_pages_serve`, with its
    definitions written anew."""
    modes = range(len(program.modes))
    return (
        {mode for mode, _ in points} == {*modes}
        and all(n <= p * m for mode, held in points for n, p, m in zip(program.by_class[mode], held, program.m))
        and all(leads_on(program, bounds, points, held, kept(program, mode, to), to) for mode, held in points for to in modes)
        and all(sum(held) <= pages for _, held in points)
    )


def allows_resizes(program, bounds, pages, points):
    """Whether they show it of resizes too: `AreForResizes`, with its definitions written anew."""
    classes = range(len(program.classes))

    def resized(mode, held, to):
        stay, before, after = kept(program, mode, to), program.by_class[mode], program.by_class[to]
        more = [[*stay[:c], stay[c] + 1, *stay[c + 1 :]] for c in classes if stay[c] < min(before[c], after[c])]
        return all(leads_on(program, bounds, points, held, some, to) for some in more)

    def during(held, stay, before, after, c, d):
        for e, p, n, a, b, m, k in zip(classes, held, stay, before, after, program.m, bounds):
            most = min(n + 1, a) if e == c else n
            yield min(p + 1, -(-min(n + 1, b) // m)) if e == d else min(p, most, (most + k * (m - 1)) // m)

    return all(resized(mode, held, to) for mode, held in points for to in range(len(program.modes))) and all(
        sum(during(held, kept(program, mode, to), program.by_class[mode], after, c, d)) <= pages
        for mode, held in points
        for to, after in enumerate(program.by_class)
        for c, d in itertools.permutations(classes, 2)
        if program.by_class[mode][c] and after[d]
    )


def proves(program, bounds, pages, points, resizes):
    return certifies(program, bounds, pages, points) and (not resizes or allows_resizes(program, bounds, pages, points))


def found(points):
    return [(point.mode, point.pages) for point in points]


def test_differs(seed, library):
    """How the proved test differs from `proves`, on the certificate of a drawn program and on false ones, or refuses the planner's
    number; None if it doesn't."""
    draw = random.Random(seed)
    layout = needs.Layout(draw.choice((512, 1024)), library.manager)
    program, _, _ = drawn_modes(draw, layout)
    bounds = [draw.choice((1, 2, 2, 3)) for _ in program.classes]
    by_class, need = plan.spread(layout, program.classes, bounds, 1), program.need(bounds).pages
    points = found(program.certificate(bounds))
    most = max(sum(pages) for _, pages in points)
    at = draw.randrange(len(points))
    mode, pages = points[at]
    lower = tuple(p - (c == draw.randrange(len(pages))) if p else p for c, p in enumerate(pages))
    tried = [(most, points), (most - 1, points), (most, points[:at] + points[at + 1 :]), (most, [*points[:at], (mode, lower), *points[at + 1 :]])]
    for (pages, some), resizes in itertools.product([*tried, (most + 1, points), (need, points)], (False, True)):
        if not pages:
            continue
        right = proves(program, bounds, pages, some, resizes)
        rows = [(mode, plan.spread(layout, program.classes, held, 0)) for mode, held in some]
        if library.accepts(pages, layout.page_bytes, by_class, program.modes, rows, resizes) != right:
            return f"seed {seed}: the proved test {'refuses' if right else 'accepts'} {pages} pages with the points {some}"
        if some is points and resizes == program.resizes and pages == need and not right:
            return f"seed {seed}: the proved test refuses the planner's {need} pages"
    return None


def budget_test_differs(seed, library):
    """The same of the proved tests of a budget, `AreBudgetLevels` and `IsBudgetCertificate`."""
    draw = random.Random(seed)
    layout = needs.Layout(draw.choice((512, 1024)) if seed else 512, library.manager)
    # (the first is one for which a search finds fewer pages than the test accepts)
    budget = drawn_budget(draw, layout)[0] if seed else needs.Budget(layout, 5, False, 90, 120)
    ones = [1] * len(budget.classes)
    pages = budget.need(ones).pages
    prices, levels, opened = budget.certificate(ones)
    at, amount = draw.choice(budget.classes), budget.amount
    lower, higher = ([t + (c == at) * step for c, t in enumerate(levels)] for step in (-1, 1))
    fewer = [n - (c == at) if n else n for c, n in enumerate(opened)]
    more = [n + (c == at) for c, n in enumerate(opened)]
    tried = [(pages, levels, opened), (pages - 1, levels, opened), (pages + 1, levels, opened), (pages, higher, opened), (pages, lower, opened)]
    for many, by_class, some in [*tried, (pages, levels, fewer), (pages, levels, more), (pages + 1, levels, more)]:
        if not many:
            continue
        cost = sum(((n - 1) * m + 1) * price for n, m, price in zip(some, layout.slots, prices) if n)
        right = all_show(layout, many, [1] * len(prices), prices, amount, by_class) and cost <= amount and sum(some) == many
        if library.accepts_budget(many, layout.page_bytes, prices, amount, by_class, some) != right:
            return f"seed {seed}: the proved test {'refuses' if right else 'accepts'} {many} pages for a budget with {by_class} and {some}"
        if (many, by_class, some) == tried[0] and not right:
            return f"seed {seed}: the planner's certificate of a budget is none"
    bounds = [draw.choice((1, 2, 3, 5)) if seed else 2 for _ in ones]
    need, (prices, levels, _) = budget.need(bounds), budget.certificate(bounds)
    by_class, pages, lower[at], higher[at] = plan.spread(layout, budget.classes, bounds, 1), need.pages, levels[at] - 1, levels[at] + 1
    if not all_show(layout, pages, by_class, prices, amount, levels):
        return f"seed {seed}: the planner's levels do not show that {pages} pages are enough for a budget with {bounds}"
    top = min(m * price for m, price in zip(layout.slots, prices))
    if all(any(shows(layout, pages - 1, by_class, prices, amount, i, t) for t in range(top + 1)) for i in budget.classes):
        return f"seed {seed}: some levels show that fewer pages than the planner's {pages} are enough for a budget with {bounds}"
    for many, some in itertools.product((pages - 1, pages, pages + 1), (lower, levels, higher)):
        right = all_show(layout, many, by_class, prices, amount, some)
        if many and library.accepts_levels(many, layout.page_bytes, by_class, prices, amount, some) != right:
            return f"seed {seed}: the proved test errs on {many} pages for a budget with the levels {some} and {bounds}"
    return None


def shows(layout, pages, bounds, prices, amount, i, level):
    """Whether a level shows that so many pages are enough for a new object of class i within a budget: `IsBudgetLevel`, written anew."""
    full = all(level <= m * price for m, price in zip(layout.slots, prices))
    loose = [min(k, -(-(amount // price) // m)) for k, price, m in zip(bounds, prices, layout.slots)]
    gaps = sum(k * max(0, level - price) for c, (k, price) in enumerate(zip(loose, prices)) if c != i)
    return full and amount + gaps < pages * level + prices[i]


def all_show(layout, pages, bounds, prices, amount, levels):
    return all(shows(layout, pages, bounds, prices, amount, i, level) for i, level in enumerate(levels))


def memory_differs():
    """Settings for which the planner's memory is not what `nph_bytes_needed` says, less the handles and the open heap."""
    with tempfile.TemporaryDirectory() as folder:
        for manager, (name, prefix) in {"cf": ("norphuen", "nph_"), "nm": ("norphuen_nonmoving", "nph_nm_")}.items():
            shared, archive = f"{folder}/{name}.so", f"crates/{name}/out/lib{name}.a"
            parts = ["-Iinclude", "examples/c/malloc.c", "-Wl,--whole-archive", archive, "-Wl,--no-whole-archive"]
            subprocess.run(["gcc", "-shared", "-fPIC", "-o", shared, *parts], check=True)
            call = getattr(ctypes.CDLL(shared), prefix + "bytes_needed")
            for page_bytes, pages, proxies in itertools.product(plan.study.PAGE_SIZES, (1, 7, 300), (1, 100, 3000)):
                needed = (ctypes.c_uint64 * 3)()
                code = call(*map(ctypes.c_uint32, (pages, page_bytes, 1, proxies)), needed)
                wanted = plan.memory_of(needs.Layout(page_bytes, manager), manager, pages, proxies) + 4 * (1 << (proxies - 1).bit_length()) + HELD_BYTES
                if code or needed[0] != wanted:
                    return f"{manager}, {pages} pages of {page_bytes} bytes, {proxies} proxies: {needed[0]} bytes are needed, not {wanted}"
    return None


def drawn_modes(draw, layout):
    """A small program with modes, and what it allows."""
    kinds = draw.sample(LENGTHS, draw.choice((1, 2, 2, 2)))
    sizes = [size for kind in kinds for size in kind[: draw.choice((1, 1, 2))]][:3]
    most = 8 if len(sizes) == 1 else 5 if len(sizes) == 2 else 4
    modes = [{size: draw.choice((0, most, draw.randint(0, most))) for size in sizes} for _ in range(draw.choice((1, 2, 3, 3)))]
    modes[0][sizes[0]] = most
    return small(layout, modes, draw.random() < 0.5)


def small(layout, modes, resizes):
    program = needs.Modes(layout, modes, resizes)
    return program, program.sizes, lambda live: any(all(n <= mode.get(s, 0) for s, n in live.items()) for mode in modes)


def drawn_budget(draw, layout):
    """A small program with a budget, and what it allows."""
    least = draw.choice((60, 90, 110, 150))
    is_bytes, greatest = draw.random() < 0.7, least + draw.choice((10, 30, 45))
    amount = draw.randint(greatest, 7 * least) if is_bytes else draw.randint(1, 6)
    stride, cost = draw.choice((1, 1, 2)), {}
    budget = needs.Budget(layout, amount, is_bytes, least, greatest, stride=stride)
    for length in range(least, greatest + 1) if stride == 1 else ():
        if layout.class_of(length) not in map(layout.class_of, cost):
            cost[length] = length if is_bytes else 1
    cost = cost or dict(zip(budget.asked, budget.cost))
    sizes = [size for size in cost if cost[size] <= amount]
    return budget, sizes, lambda live: sum(cost.get(size, size) * n for size, n in live.items()) <= amount


def differs(seed):
    """How the planner's numbers for a drawn program differ from what the search finds; None if they don't."""
    draw = random.Random(seed)
    layout = needs.Layout(512, "cf")
    if seed < len(FIXED):
        modes, bounds, resizes = FIXED[seed]
        program, sizes, allows = small(layout, modes, resizes)
    else:
        program, sizes, allows = draw.choice((drawn_modes, drawn_modes, drawn_budget))(draw, layout)
        bounds, resizes = [draw.choice((1, 2, 2, 3)) for _ in program.classes], program.resizes
    need, most = program.need(bounds), searched(layout, sizes, bounds, allows, resizes)
    what = f"seed {seed}, bounds {bounds}"
    if not need.least == (need.searched or need.pages) == most <= need.pages:
        return f"{what}: {need.least} to {need.searched or need.pages} pages, and the search finds {most}"
    if isinstance(program, needs.Modes) and not proves(program, bounds, most, found(program.points(bounds)), resizes):
        return f"{what}: the planner's vectors of pages are no certificate"
    calls = program.script(bounds, need)
    if calls.most != most and not need.is_shared:
        return f"{what}: the calls reach {calls.most} pages of {most}"
    return None if keeps(calls.lines, allows) else f"{what}: the calls do not keep to the demand"


# On the tool


def flags(manager="cf"):
    return SimpleNamespace(page=[], k=[], manager=manager, most_moved=None, most_steps=None)


def history(row, draw, count):
    """Drawn calls within a demand of modes or a budget, with the steps after each free. It is mostly full or mostly empty in turn."""
    task = row.demand.tasks[0]
    live, most, fills = {}, [*task.modes.values()], True
    for turn in range(count):
        if turn % 400 == 0:
            fills, mode = not fills if turn else True, draw.choice(most) if most else None
        if task.budget:
            amount, is_bytes, least, greatest = task.budget
            size = draw.choice((least, draw.randint(least, greatest), draw.choice(row.programs[0].asked)))
            fits = (sum(live.values()) if is_bytes else len(live)) + (size if is_bytes else 1) <= amount
        else:
            size = draw.choice([*mode])
            counts = Counter(live.values())
            counts[size] += 1
            fits = any(all(n <= other.get(s, 0) for s, n in counts.items()) for other in most)
        if fits and draw.random() < (0.8 if fills else 0.2):
            number = next(number for number in itertools.count() if number not in live)
            live[number] = size
            asked = next((up for up in row.rounded() if up >= size), size)
            yield f"m {number} {asked}"
        elif live:
            number = draw.choice([*live])
            del live[number]
            yield f"f {number}"
            yield "steps"


def history_differs(row, program, folder, seed, count=1500):
    """What the tool does on a drawn history that the row does not allow."""
    lines = [*row.settings(row.pages), *history(row, random.Random(seed), count)]
    before = 0
    for line, reply in zip(lines, plan.replies(program, row, lines, folder)):
        if line != "steps" and reply != "ok":
            return f"`{line}` is answered `{reply}` in a history within the demand"
        if line == "steps":
            words = reply.split()
            steps, moved = int(words[2]), 8 * (int(words[8]) - before)
            before = int(words[8])
            if steps > row.steps or moved > row.moved:
                return f"a free takes {steps} steps and moves {moved} bytes, more than {row.steps} and {row.moved}"
    return None


def demand_differs(path, name, program, folder, manager="cf", plays=None):
    """The first row of a demand with which the tool does something else than the planner says."""
    planner = plan.Planner(plan.Demand(str(path)), flags(manager), plan.study.Progress("plan", 60))
    rows = planner.rows()
    ones = {row.layout.page_bytes: row.pages for row in rows if row.label == "1"}
    for at, row in enumerate(rows):
        where = f"{name}, {manager}, pages of {row.layout.page_bytes} bytes, k = {row.label}"
        if row.label == "by class" and row.pages != ones[row.layout.page_bytes]:
            return f"{where}: the bounds cost pages"
        if plays and at % plays:
            continue
        is_right, words = plan.play(row, program, folder)
        if not is_right:
            return f"{where}: {words}"
        if not planner.ones_only and not row.demand.resizes and (wrong := history_differs(row, program, folder, at)):
            return f"{where}: {wrong}"
    return None


def differences(program, seeds, count):
    """What differs, line by line: of drawn programs, of the proved test, then of the demands."""
    for seed in range(seeds):
        yield differs(seed)
        count["drawn programs"] += 1
    with tempfile.TemporaryDirectory() as folder:
        for manager in "cf", "nm":
            library = plan.proved_test.Library(manager, folder)
            yield from (test(seed, library) for seed in range(seeds) for test in (test_differs, budget_test_differs))
    yield memory_differs()
    with tempfile.TemporaryDirectory() as folder:
        for name, text in KINDS.items():
            path = Path(folder) / "demand"
            path.write_text(text)
            yield demand_differs(path, name, program, folder, plays=2)
            count["demands"] += 1
        for path, manager in itertools.product(DEMANDS, ("cf", "nm")):
            yield demand_differs(path, path.stem, program, folder, manager, 1 if manager == "cf" else 3)
            count["demands"] += 1
    yield document_differs(Path("docs/SIZING.md").read_text(encoding="utf-8"), program)
    yield robson_differs()


# What docs/SIZING.md says


# Budgets and page sizes for which the formula gives the planner's number: bytes, least and greatest request, page sizes.
SETTINGS = [
    (262144, 64, 4096, (8192, 16384, 32768)),
    (262144, 512, 4096, (8192, 16384, 32768)),
    (65536, 64, 1024, (2048, 4096, 8192, 16384, 32768)),
    (1048576, 16, 2000, (2048, 4096, 8192, 16384, 32768)),
]


def formula(budget):
    """The pages of `pages_for_a_budget_serve` if every bound is 1 and each level is the greatest."""
    least = min(cost * m for cost, m in zip(budget.cost, budget.m))
    return (budget.amount + sum(max(0, least - cost) for cost in budget.cost)) // least


def document_differs(text, program):
    """The first row of the table of budgets that the planner computes otherwise, or the tool does not play as planned; a budget
    whose need the formula does not give."""
    rows = [[cell.strip() for cell in line.strip("|").split("|")] for line in text.split("\n") if line.startswith("| `budget ")]
    with tempfile.TemporaryDirectory() as folder:
        path = Path(folder) / "demand"
        for row in rows:
            path.write_text(row[0].strip("`"))
            demand = plan.Demand(str(path))
            found = plan.Planner(demand, flags(), plan.study.Progress("plan", 60)).rows()
            plain = min((it for it in found if it.label == "1"), key=plan.Row.order)
            best = min(found, key=plan.Row.order)
            least = needs.robson(*demand.tasks[0].budget)
            wanted = [f"{it:,}" if it else "" for it in (plain.region, best.region, best.memory, least)]
            if [*row[1:4], row[5]] != wanted:
                return f"docs/SIZING.md: {row[0]} has {row[1:4]} and {row[5]}, not {wanted}"
            for it in plain, best:
                is_right, words = plan.play(it, program, folder)
                if not is_right:
                    return f"docs/SIZING.md: {row[0]}, k = {it.label}: {words}"
    if len(rows) != 5:
        return f"docs/SIZING.md has {len(rows)} budgets, not 5"
    for amount, least, greatest, pages in SETTINGS:
        for page_bytes in pages:
            budget = needs.Budget(needs.Layout(page_bytes, "cf"), amount, True, least, greatest)
            need = budget.need([1] * len(budget.classes))
            if need.pages != formula(budget):
                return f"the formula gives {formula(budget)} pages of {page_bytes} bytes for {amount} bytes of {least}..{greatest}, not {need.pages}"
    return None


# Robson's bound


def survives(room, most, sizes):
    """Whether some manager that moves nothing serves each program that has at most `most` units live at once, of these sizes, in
    `room` units: the states in which it never has to refuse, as sets of blocks (place, size), found by leaving out the others."""

    def places(state, size):
        used = {place + i for place, length in state for i in range(length)}
        return [at for at in range(room - size + 1) if not used & {*range(at, at + size)}]

    states, waiting = {frozenset()}, [frozenset()]
    while waiting:
        state = waiting.pop()
        for size in sizes:
            if sum(length for _, length in state) + size <= most:
                more = {state | {(at, size)} for at in places(state, size)} - states
                states |= more
                waiting += more

    def is_safe(state):
        left = most - sum(length for _, length in state)
        return all(state - {block} in states for block in state) and all(
            any(state | {(at, size)} in states for at in places(state, size)) for size in sizes if size <= left
        )

    while len(kept := set(filter(is_safe, states))) < len(states):
        states = kept
    return frozenset() in states


def robson_differs():
    """The first case in which Robson's bound is not the least room in which a manager survives."""
    for most, sizes in ((4, (1, 2)), (6, (1, 2)), (4, (1, 2, 4))):
        bound = needs.robson(most, True, 1, sizes[-1])
        if survives(bound - 1, most, sizes) or not survives(bound, most, sizes):
            return f"Robson's bound for {most} units is not {bound}"
    return None


# Wrong planners


def replaced(owner, name, make):
    """A planner one of whose functions is made from the right one."""
    return mock.patch.object(owner, name, make(getattr(owner, name)))


def less(need):
    return need._replace(pages=need.pages - 1, least=need.least - 1)


def by_search(right):
    """Takes what a search finds for proved."""

    def need(self, bounds):
        found = right(self, bounds)
        return found._replace(pages=found.searched or found.pages)

    return need


def fewer_classes(right):
    """Leaves out the classes of the least requests."""

    def make(self, layout, amount, is_bytes, least, greatest, **more):
        right(self, layout, amount, is_bytes, min(least + 20, greatest), greatest, **more)

    return make


def one_level(right):
    """Takes the greatest level for each class, so pages that are enough, but not the least that the test accepts."""

    def proved(self, bounds):
        top = min(map(int.__mul__, self.cost, self.m))
        gaps = sum(k * max(0, top - cost) for cost, k in zip(self.cost, bounds))
        pages = max((self.amount + gaps - k * max(0, top - cost) - cost) // top + 1 for cost, k in zip(self.cost, bounds))
        return pages, [top] * len(bounds)

    return proved


def high_bounds(right):
    return lambda self, layout, programs, row: self.row(layout, programs, [1] + [64] * (len(row.bounds) - 1), "by class")


def meet_by_class(right):
    return lambda self, a, b: tuple(map(min, self.by_class[a], self.by_class[b]))


def first_mode(right):
    return lambda self, layout, modes, *rest: right(self, layout, modes[:1], *rest)


WRONG = {
    "a page less": lambda: replaced(needs.Modes, "need", lambda right: lambda self, bounds: less(right(self, bounds))),
    "modes forgotten": lambda: replaced(needs.Modes, "__init__", first_mode),
    "ceil for floor": lambda: replaced(needs, "most_pages", lambda right: lambda n, m, k: min(n, -(-(n + k * (m - 1)) // m))),
    "floor for ceil": lambda: replaced(needs, "ceil_div", lambda right: lambda n, m: max(1, n // m) if n else 0),
    "one for k": lambda: replaced(needs, "most_pages", lambda right: lambda n, m, k: right(n, m, 1)),
    "a meet by class": lambda: replaced(needs.Modes, "meet_of", meet_by_class),
    "no surplus of a resize": lambda: replaced(needs.Modes, "surplus", lambda right: lambda *_: (0, None)),
    "no resize within a class": lambda: replaced(needs.Modes, "resize_within", lambda right: lambda *_: None),
    "an object less to open": lambda: replaced(needs, "objects_to_open", lambda right: lambda n, m: max(n, right(n, m) - 1)),
    "an object less to hold": lambda: replaced(needs, "objects_to_hold", lambda right: lambda n, m, k: max(1, right(n, m, k) - 1)),
    "classes of a budget forgotten": lambda: replaced(needs.Budget, "__init__", fewer_classes),
    "a search for a proof": lambda: replaced(needs.Budget, "need", by_search),
    "one level for all": lambda: replaced(needs.Budget, "proved", one_level),
    "bounds that cost pages": lambda: replaced(plan.Planner, "by_class", high_bounds),
    "less memory": lambda: mock.patch.object(plan, "CLASS_BYTES", 24),
    "no moves": lambda: replaced(plan, "most_moved", lambda right: lambda *_: 0),
    "fewer steps": lambda: mock.patch.dict(plan.study.BOUNDS["cf"], free=lambda s: s),
}


def main(program, seeds):
    count, failed = Counter(), 0
    for wrong in filter(None, differences(program, seeds, count)):
        print(f"checks/plan: {wrong}", file=sys.stderr)
        failed += 1
        if failed == 5:
            break
    for name, planner in WRONG.items() if not failed else ():
        with planner():
            if not next(filter(None, differences(program, seeds, Counter())), None):
                failed += 1
                print(f"checks/plan: the planner with {name} is not found out", file=sys.stderr)
    if failed:
        sys.exit(1)
    print(f"checks/plan: {count['drawn programs']} drawn programs, {count['demands']} demands, {len(WRONG)} wrong planners", file=sys.stderr)


if __name__ == "__main__":
    main(sys.argv[1], int(sys.argv[2]))
