"""How many pages a program needs so that no malloc is refused for space, whatever the order of its calls, and calls that
need as many. docs/SIZING.md says what each number rests on.

In names and comments m is the slots of a page of a class, k the class's bound on partly full pages, n its live objects.
"""
import bisect
import collections
import heapq
import random

MOST_COMPARED = 500_000  # vectors of pages that `Modes` compares before it gives the safe bound
MOST_CHOICES = 20_000  # choices that `Budget` tries before it gives two bounds
NEVER = 2**32 - 1  # the cost of an object for which the program of a `Budget` never asks
TRIES, TRIED_OBJECTS = 30, 100_000  # orders of the mallocs that `Modes.script` tries, and the objects in them


# Pages and classes


def class_sizes(page_words, unit):
    """The words of the slots, by the rule in units of one word or of one block."""
    sizes, s = [], 4 // unit
    while s < page_words // unit:
        sizes.append(unit * s)
        s = (9 * s + 7) // 8
    return sizes + [page_words]


def payload(slot):
    """The bytes of the largest object in a slot of so many words: one word is its header."""
    return 8 * (slot - 1)


class Layout:
    """The classes of a page, of the moving manager `cf` or the non-moving `nm`."""

    def __init__(self, page_bytes, manager):
        self.page_bytes, self.page_words = page_bytes, page_bytes // 8
        self.sizes = class_sizes(self.page_words, 1 if manager == "cf" else 4)
        self.slots = [self.page_words // size for size in self.sizes]
        self.largest = payload(self.page_words)

    def class_of(self, length):
        """The class of an object of this many bytes, at most `largest`."""
        return bisect.bisect_left(self.sizes, 1 + (length + 7) // 8)

    def least_request(self, c):
        """The least bytes that an object of a class has."""
        return payload(self.sizes[c - 1]) + 1 if c else 0


# The arithmetic of one class


def ceil_div(n, m):
    return -(-n // m)


def most_pages(n, m, k):
    """The most pages that n objects can be on."""
    return min(n, (n + k * (m - 1)) // m)


def objects_to_open(pages, m):
    """The objects that open this many pages: a page is opened only if all others are full."""
    return (pages - 1) * m + 1


def objects_to_hold(pages, m, k):
    """The least objects that can be on this many pages."""
    return max(pages, pages * m - k * (m - 1))


class Need(collections.namedtuple("Need", "pages least is_shared way searched", defaults=(False, None, None))):
    """`pages` are enough, and with fewer than `least` some calls are refused, those of `way`. `is_shared`: that `least` is least
    is not proved, since sizes share a class. `searched`: fewer pages, enough by a search that is not proved, or None."""

    def mark(self):
        return "<" if self.least < self.pages else "*" if self.is_shared else "="


# A program with modes


class Point(collections.namedtuple("Point", "mode pages switch before")):
    """Pages by class that a history can have at the end of a mode; `switch` led there, from the point `before`."""


class Switch(collections.namedtuple("Switch", "to meet resized", defaults=(None,))):
    """A change of modes: `meet` has the objects, by class, that can stay live. `resized` is a pair of sizes of one class: the
    change is a resize from the first to the second."""


class Modes:
    """A program whose live objects are always within one of its modes: at most so many of each size. One mode alone is a
    program with a greatest count for each size."""

    def __init__(self, layout, modes, resizes=False):
        self.layout, self.modes, self.resizes = layout, modes, resizes
        self.sizes = sorted({size for mode in modes for size, count in mode.items() if count})
        self.classes = sorted({layout.class_of(size) for size in self.sizes})
        self.home = [self.classes.index(layout.class_of(size)) for size in self.sizes]
        self.members = [[i for i, home in enumerate(self.home) if home == c] for c in range(len(self.classes))]
        self.m = [layout.slots[c] for c in self.classes]
        self.counts = [[mode.get(size, 0) for size in self.sizes] for mode in modes]
        self.by_class = [self.of_classes(count) for count in self.counts]
        self.most = [max(column) for column in zip(*self.by_class)]
        self.is_shared = len(self.classes) < len(self.sizes)
        self.starts = [tuple(map(ceil_div, counts, self.m)) for counts in self.by_class]
        self.switches = [[*self.switches_from(a)] for a in range(len(modes))]
        self.gave_up = False

    def of_classes(self, counts):
        """These counts by size, as counts by class."""
        total = [0] * len(self.classes)
        for home, count in zip(self.home, counts):
            total[home] += count
        return tuple(total)

    def meet_of(self, a, b):
        return self.of_classes(map(min, self.counts[a], self.counts[b]))

    def switches_from(self, a):
        for b in range(len(self.modes)):
            if b == a:
                continue
            meet = self.meet_of(a, b)
            yield Switch(b, meet)
            if self.resizes:
                for c, members in enumerate(self.members):
                    pair = self.resize_within(a, b, members)
                    if pair:
                        yield Switch(b, (*meet[:c], meet[c] + 1, *meet[c + 1 :]), pair)

    def resize_within(self, a, b, members):
        """Two sizes of one class such that a resize from the one to the other, as the step from mode a to b, keeps an object more
        than a free and a malloc do; None if there are none."""
        if len(members) < 2:
            return None
        more = [i for i in members if self.counts[a][i] > self.counts[b][i]]
        less = [i for i in members if self.counts[a][i] < self.counts[b][i]]
        return (more[0], less[0]) if more and less else None

    def bound_one(self):
        """The need if each bound is 1, which no bounds lower: the greatest mode's pages."""
        return max(map(sum, self.starts))

    def spreads(self, bounds):
        """For each mode pages by class that no history exceeds, by a formula."""
        for counts in self.by_class:
            yield tuple(min(most_pages(n, m, k), ceil_div(most, m)) for n, m, k, most in zip(counts, self.m, bounds, self.most))

    def safe(self, bounds):
        """Enough pages, by this formula."""
        return max(map(sum, self.spreads(bounds)))

    def points(self, bounds):
        """For each mode its greatest vectors of pages over all histories; if that takes too long, some, and `gave_up` is set."""
        found, waiting = [[] for _ in self.modes], collections.deque()
        caps = [[tuple(map(most_pages, s.meet, self.m, bounds)) for s in switches] for switches in self.switches]
        compared = 0

        def add(point):
            nonlocal compared
            mine = found[point.mode]
            compared += len(mine)
            if any(all(map(int.__ge__, other.pages, point.pages)) for other in mine):
                return
            found[point.mode] = [*(other for other in mine if not all(map(int.__ge__, point.pages, other.pages))), point]
            waiting.append(point)

        for mode, start in enumerate(self.starts):
            add(Point(mode, start, None, None))
        while waiting and not self.gave_up:
            point = waiting.popleft()
            if point not in found[point.mode]:
                continue
            for switch, cap in zip(self.switches[point.mode], caps[point.mode]):
                add(Point(switch.to, tuple(map(max, map(min, point.pages, cap), self.starts[switch.to])), switch, point))
            self.gave_up = compared > MOST_COMPARED
        return [point for mine in found for point in mine]

    def certificate(self, bounds):
        """The points with which `is_certified` of the crate `sizing` accepts the pages of `need`."""
        found = self.points(bounds)
        return [Point(mode, pages, None, None) for mode, pages in enumerate(self.spreads(bounds))] if self.gave_up else found

    def need(self, bounds):
        """The pages for these bounds, one for each class."""
        least = self.bound_one()
        first = next(Point(mode, start, None, None) for mode, start in enumerate(self.starts) if sum(start) == least)
        if len(self.modes) == 1 or not self.resizes and self.safe(bounds) == least:
            return Need(least, least, way=(first, None))
        found = [first] if self.gave_up else self.points(bounds)
        last = max(found, key=lambda point: sum(point.pages))
        reached, way = sum(last.pages), (last, None)
        if self.resizes and len(found) * len(self.modes) * len(self.sizes) <= MOST_COMPARED:
            for point in found:
                more, surplus = self.surplus(point, bounds)
                if more > reached:
                    reached, way = more, (point, surplus)
        elif self.resizes:
            self.gave_up = True
        pages = self.safe(bounds) + self.resizes if self.gave_up else reached
        return Need(pages, reached, self.is_shared and reached > least, way)

    def surplus(self, point, bounds):
        """The most pages during a resize from one class to another that leaves a mode at this point: while the old object still
        lives, the live objects can be in no mode. With the pages the mode and the two sizes."""
        best = 0, None
        for b in range(len(self.modes)):
            if b == point.mode:
                continue
            meet = self.meet_of(point.mode, b)
            held = [min(p, most_pages(n, m, k)) for p, n, m, k in zip(point.pages, meet, self.m, bounds)]
            gains = [self.gains(point, b, i, meet, held, bounds) for i in range(len(self.sizes))]
            # (for each class the best size to resize from, and the best to resize to)
            left, taken = {}, {}
            for i, (leave, take) in enumerate(gains):
                for table, gain in ((left, leave), (taken, take)):
                    if gain is not None and gain > table.get(self.home[i], (-1, 0))[0]:
                        table[self.home[i]] = gain, i
            for c, (leave, i) in left.items():
                for d, (take, e) in taken.items():
                    if c != d:
                        best = max(best, (sum(held) + leave + take, (b, i, e)), key=lambda it: it[0])
        return best

    def gains(self, point, b, i, meet, held, bounds):
        """What an object of size i adds to the pages if it is the resized one, and if it is the new one; None if it can't be."""
        c, mine, other = self.home[i], self.counts[point.mode][i], self.counts[b][i]
        m, k, p, n = self.m[c], bounds[c], point.pages[c], meet[c]
        leave = min(p, most_pages(n + (mine > other), m, k)) - held[c] if mine else None
        before = n - (mine >= other)
        take = max(min(p, most_pages(before, m, k)), ceil_div(before + 1, m)) - held[c] if other else None
        return leave, take

    def is_within(self, bounds, pages):
        """Whether so many pages are enough for these bounds."""
        return self.need(bounds).pages <= pages

    def objects(self):
        """The most live objects."""
        return max(map(sum, self.counts))

    def script(self, bounds, need):
        """Calls with the pages `need.least`. If sizes share a class, they are allocated in drawn orders until one has as many."""
        best = self.calls_of(*need.way, bounds, None)
        for draw in range(min(TRIES, TRIED_OBJECTS // self.objects()) if self.is_shared else 0):
            if best.most >= need.least:
                break
            best = max(best, self.calls_of(*need.way, bounds, random.Random(draw)), key=lambda calls: calls.most)
        return best

    def calls_of(self, last, surplus, bounds, draw):
        """The calls on the way to a point, and its surplus."""
        path = [last]
        while path[-1].before:
            path.append(path[-1].before)
        calls, live = Calls(self.layout, dict(zip(self.classes, bounds))), {size: {} for size in self.sizes}

        def leave(counts):
            for c, of_page in enumerate(self.classes):
                mine = {size: len(live[size]) - count for size, count, home in zip(self.sizes, counts, self.home) if home == c}
                for number, size in calls.drop(of_page, mine):
                    del live[size][number]

        def resize(i, e):
            number, _ = live[self.sizes[i]].popitem()
            calls.resize(number, self.sizes[e])
            live[self.sizes[e]][number] = None

        for point in reversed(path):
            if point.switch:
                target = [*map(min, self.counts[point.before.mode], self.counts[point.mode])]
                if point.switch.resized:
                    target[point.switch.resized[0]] += 1
                leave(target)
                if point.switch.resized:
                    resize(*point.switch.resized)
            missing = [size for size, count in zip(self.sizes, self.counts[point.mode]) for _ in range(count - len(live[size]))]
            if draw:
                draw.shuffle(missing)
            for size in missing:
                live[size][calls.malloc(size)] = None
        if surplus:
            b, i, e = surplus
            target = [*map(min, self.counts[last.mode], self.counts[b])]
            target[i] = min(self.counts[last.mode][i], self.counts[b][i] + 1)
            target[e] = min(self.counts[last.mode][e], self.counts[b][e] - 1)
            leave(target)
            resize(i, e)
        return calls


# A program with a budget


class Budget:
    """A program that asks for at most `amount` bytes at once, or has as many objects, of `least` to `greatest` bytes each. With
    `stride` j it rounds its requests up to the greatest of each j-th class."""

    def __init__(self, layout, amount, is_bytes, least, greatest, resizes=False, stride=1):
        self.layout, self.amount, self.resizes, self.stride = layout, amount, resizes, stride
        first, last = layout.class_of(least), layout.class_of(greatest)
        self.classes, self.asked, self.cost = [], [], []
        for c in range(last, first - 1, -stride):
            below = c - stride
            lowest = payload(layout.sizes[below]) + 1 if below >= first else least
            if lowest <= amount or not is_bytes:
                self.classes.insert(0, c)
                self.asked.insert(0, min(payload(layout.sizes[c]), greatest) if stride > 1 else lowest)
                self.cost.insert(0, lowest if is_bytes else 1)
        self.m = [layout.slots[c] for c in self.classes]
        self.most = [amount // cost for cost in self.cost]

    def objects(self):
        return max(self.most)

    def gap(self, i, pages, k):
        """The bytes that a class of so many pages gives back once they are open."""
        return self.cost[i] * (self.m[i] - 1) * min(pages - 1, k - 1)

    def order(self, pages, bounds):
        """The best order to open the pages of each class: those that give back most first."""
        used = [i for i in range(len(pages)) if pages[i]]
        return sorted(used, key=lambda i: -self.gap(i, pages[i], bounds[i]))

    def is_reached(self, pages, bounds):
        held = 0
        for i in self.order(pages, bounds):
            if held + self.cost[i] * objects_to_open(pages[i], self.m[i]) > self.amount:
                return False
            held += self.cost[i] * objects_to_hold(pages[i], self.m[i], bounds[i])
        return True

    def cheapest(self, amount, bounds, among=None):
        """The pages by class if each page costs what it takes to hold it: k pages an object each, each further one a full page."""
        items = []
        for i in range(len(self.cost)) if among is None else among:
            items += [(self.cost[i], i, bounds[i]), (self.cost[i] * self.m[i], i, amount)]
        pages = [0] * len(self.cost)
        for cost, i, supply in sorted(items):
            count = min(supply, amount // cost)
            pages[i] += count
            amount -= count * cost
        return pages

    def reached(self, bounds):
        """Many pages that some calls reach, by class."""
        low, high = 0, self.amount
        while low < high:
            middle = (low + high + 1) // 2
            if self.is_reached(self.cheapest(middle, bounds), bounds):
                low = middle
            else:
                high = middle - 1
        pages, grows = self.cheapest(low, bounds), True
        while grows:
            grows = False
            for i in sorted(range(len(pages)), key=lambda i: self.cost[i]):
                more = [*pages[:i], pages[i] + 1, *pages[i + 1 :]]
                if self.is_reached(more, bounds):
                    pages, grows = more, True
        return pages

    def need(self, bounds):
        (pages, _), way, searched = self.proved(bounds), self.reached(bounds), None
        if sum(way) < pages and len(way) <= 6:
            way, are_all = self.search(bounds, way)
            searched = sum(way) + self.resizes if are_all and sum(way) < pages else None
        return Need(pages + self.resizes, sum(way), way=way, searched=searched)

    def proved(self, bounds):
        """The least pages that `are_budget_levels` of the crate `sizing` accepts, and by class the level that shows it. If a class
        lacks a slot, its pages are full. Each page then costs the level at least, but for the gap of each page of another class that
        is partly full. Between two costs the pages rise or fall with the level, so the costs are tried, and the greatest level."""
        loose = [min(k, ceil_div(most, m)) for most, m, k in zip(self.most, self.m, bounds)]
        top = min(map(int.__mul__, self.cost, self.m))
        levels = sorted({cost for cost in self.cost if cost < top} | {top})
        gaps = [sum(k * (level - cost) for cost, k in zip(self.cost, loose) if cost < level) for level in levels]
        best = []
        for cost, k in zip(self.cost, loose):
            beside = (self.amount - cost + gap - k * max(0, level - cost) for level, gap in zip(levels, gaps))
            best.append(min((most // level + 1, level) for most, level in zip(beside, levels)))
        return max(pages for pages, _ in best), [level for _, level in best]

    def is_within(self, bounds, pages):
        """Whether the proved test accepts that so many pages are enough for these bounds."""
        return self.proved(bounds)[0] + self.resizes <= pages

    def certificate(self, bounds):
        """What `are_budget_levels` and `is_budget_certificate` of the crate `sizing` test, by class of the page: the least cost of an
        object, the level, and the pages of `cheapest`, which are the most that the budget affords if every bound is 1."""
        prices, levels, opened = ([number] * len(self.layout.sizes) for number in (NEVER, 0, 0))
        for c, *numbers in zip(self.classes, self.cost, self.proved(bounds)[1], self.cheapest(self.amount, bounds)):
            prices[c], levels[c], opened[c] = numbers
        return prices, levels, opened

    def search(self, bounds, best):
        """The most pages that some calls reach, by trying; whether all choices were tried."""
        tried = 0

        def choose(i, pages, left):
            nonlocal best, tried
            if i == len(self.cost):
                if sum(pages) > sum(best) and self.is_reached(pages, bounds):
                    best = pages
                return
            costs, rest = [0], range(i + 1, len(self.cost))
            while costs[-1] <= left:
                costs.append(self.cost[i] * objects_to_hold(len(costs), self.m[i], bounds[i]))
            for count in range(len(costs) - 2, -1, -1):
                tried += 1
                if tried > MOST_CHOICES:
                    return
                if sum(pages) + count + sum(self.cheapest(left - costs[count], bounds, rest)) > sum(best):
                    choose(i + 1, [*pages, count], left - costs[count])

        choose(0, [], self.amount)
        return best, tried <= MOST_CHOICES

    def script(self, bounds, need):
        """Calls with the pages `need.least`."""
        way, calls = need.way, Calls(self.layout, dict(zip(self.classes, bounds)))
        for i in self.order(way, bounds):
            opened = objects_to_open(way[i], self.m[i])
            for _ in range(opened):
                calls.malloc(self.asked[i])
            calls.drop(self.classes[i], {self.asked[i]: opened - objects_to_hold(way[i], self.m[i], bounds[i])})
        return calls


# Calls and where their objects are


class Page:
    """The objects on a page by slot, and the free slots: those of `freed`, and all from `next` on."""

    def __init__(self):
        self.objects, self.freed, self.next = {}, [], 0

    def take(self, number):
        slot = heapq.heappop(self.freed) if self.freed else self.next
        self.next = max(self.next, slot + 1)
        self.objects[slot] = number
        return slot

    def leave(self, slot):
        del self.objects[slot]
        heapq.heappush(self.freed, slot)


class Calls:
    """The lines of a script, and on which pages the objects are: a malloc takes the least free slot of the first partly full page of
    its class, a free that must move takes the object in the least slot of that page (`page_model/specs/Order`)."""

    def __init__(self, layout, bounds):
        self.layout, self.bounds, self.lines = layout, bounds, []
        self.not_full = collections.defaultdict(list)
        self.full = collections.defaultdict(dict)  # by class: pages, in the order in which they filled
        self.at, self.sizes, self.spare = {}, {}, []
        self.pages = self.most = 0

    def take(self, number, size):
        c = self.layout.class_of(size)
        if self.not_full[c]:
            page = self.not_full[c][0]
        else:
            page = Page()
            self.not_full[c].insert(0, page)
            self.pages += 1
            self.most = max(self.most, self.pages)
        self.at[number], self.sizes[number] = (c, page, page.take(number)), size
        if len(page.objects) == self.layout.slots[c]:
            self.not_full[c].pop(0)
            self.full[c][page] = None

    def leave(self, c, page, slot):
        """Frees a slot of a page; the pages of its class change as after a free without a move."""
        if len(page.objects) == self.layout.slots[c]:
            del self.full[c][page]
            self.not_full[c].insert(0, page)
        page.leave(slot)
        if not page.objects:
            self.not_full[c].remove(page)
            self.pages -= 1

    def release(self, c, page, slot):
        """Frees a slot, with a move if one is due."""
        others = self.not_full[c]
        if page in self.full[c] and self.layout.slots[c] > 1 and len(others) == self.bounds.get(c, 1):
            source = others[0]
            low = min(source.objects)
            moved = source.objects[low]
            self.leave(c, source, low)
            page.objects[slot] = moved
            self.at[moved] = c, page, slot
        else:
            self.leave(c, page, slot)

    def malloc(self, size):
        number = self.spare.pop() if self.spare else len(self.at)
        self.lines.append(f"m {number} {size}")
        self.take(number, size)
        return number

    def free(self, number):
        self.lines.append(f"f {number}")
        self.release(*self.at.pop(number))
        del self.sizes[number]
        self.spare.append(number)

    def resize(self, number, size):
        self.lines.append(f"z {number} {size}")
        old = self.at[number]
        if self.layout.class_of(size) == old[0]:
            self.sizes[number] = size
        else:
            self.take(number, size)
            self.release(*old)

    def drop(self, c, excess):
        """Frees so many objects of a class, by size, with as few pages lost as it can. Returns their numbers with their sizes."""
        freed, excess = [], {size: count for size, count in excess.items() if count}
        while excess:
            number = self.choose(c, excess)
            size = self.sizes[number]
            freed.append((number, size))
            excess[size] -= 1
            if not excess[size]:
                del excess[size]
            self.free(number)
        return freed

    def choose(self, c, excess):
        """The object to free next. On a partly full page that keeps another, or on a full page if it may become partly full or the
        page that gives the filler keeps another, no page is lost."""
        others, m = self.not_full[c], self.layout.slots[c]

        def first_on(pages):
            return next((number for page in pages for number in page.objects.values() if self.sizes[number] in excess), None)

        number = first_on(page for page in others if len(page.objects) > 1)
        if number is None and m > 1 and (len(others) < self.bounds.get(c, 1) or len(others[0].objects) > 1):
            number = first_on(self.full[c])
        if number is None:
            number = first_on(others)
        return first_on(self.full[c]) if number is None else number


# From the literature


def robson(amount, is_bytes, least, greatest):
    """The bytes below which any manager that moves nothing refuses some program of a budget of bytes, if its requests are the least
    one times 1, 2, 4 .. n: M/2 log n + M - n + 1 units for M units asked at once (Robson, Journal of the ACM, 1974). None if n is 1."""
    doublings = (greatest // least).bit_length() - 1 if is_bytes else 0
    n = 1 << doublings
    units = amount // least // n * n
    return (units * doublings // 2 + units - n + 1) * least if doublings and units else None
