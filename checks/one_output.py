"""The cases of checks/one_output: a plain program that follows the definitions computes what each drawn script prints.

It computes each address, number, word and count of steps from the rules alone: which page, slot, number, object and free
block comes first (`page_model/specs/Order`), and what a call costs (`cf_model/specs/ExactCosts`, `block_model/specs/Costs`).
In modes `large`, `quota` and `slice` it computes each reply but that to `p` from how many objects each class has. It reads
scripts by the rules of docs/USING.md, so that it knows the first bad line of a damaged one. It counts what the scripts make
the tool do, and fails if they leave out something that is listed in `MET`, `MET_BLOCKS`, `MET_MODES` or `MET_DAMAGE`.
"""
import contextlib
import itertools
import os
import random
import re
import select
import struct
import subprocess
import sys
import tempfile
from collections import Counter
from concurrent.futures import ProcessPoolExecutor
from functools import partial
from pathlib import Path

NONE = 2**32 - 1


# The words of an object of n bytes: its header and its bytes.
def need(n):
    return 1 + (n + 7) // 8


class Heap:
    """What all four managers have: proxies, objects by number with address and bytes, and counters."""

    def __init__(self, pages, page_bytes, bound, proxies):
        self.pages, self.page_words, self.bound, self.proxies = pages, page_bytes // 8, bound, proxies
        self.words = pages * self.page_words
        self.spare = list(range(proxies))
        self.held = {}
        self.cost = 0
        self.seen = Counter()


class Pages(Heap):
    """The managers with pages: moving, and with a block table non-moving."""

    def __init__(self, moving, *settings):
        super().__init__(*settings)
        self.moving = moving
        unit = 1 if moving else 4
        size, self.sizes = 4 if moving else 1, []
        while size < self.page_words // unit:
            self.sizes.append(size * unit)
            size = (9 * size + 7) // 8
        self.sizes.append(self.page_words)
        self.bounds = [self.bound] * len(self.sizes)
        self.pool = list(range(self.pages))
        self.not_full = [[] for _ in self.sizes]
        self.used = [{} for _ in range(self.pages)]  # by page: the object's number by slot
        self.frames = list(range(self.words // 4))
        self.step_bound = self.moves = self.moved_words = 0
        self.touch = 1 if moving else 2

    # The class of an object of n bytes.
    def class_for(self, n):
        return next(c for c, size in enumerate(self.sizes) if need(n) <= size)

    # How many slots of class c a page has.
    def slots(self, c):
        return self.page_words // self.sizes[c]

    # The address of a slot of class c.
    def place(self, c, page, slot):
        return page * self.page_words + slot * self.sizes[c]

    # How many blocks of four words the n words from word i of a slot on are in.
    def blocks(self, i, n):
        return min(n, (i % 4 + n + 3) // 4)

    def run(self, i, n, each):
        """The steps of touching n words from word i of a slot on; with a block table `each` more for each block."""
        return n if self.moving else n + each * self.blocks(i, n)

    # Whether class c has a free slot, or a page is free.
    def has_slot(self, c):
        return bool(self.not_full[c] or self.pool)

    def take(self, c, number):
        """The slot that the next object of class c gets, and the steps of finding it."""
        if self.not_full[c]:
            page = self.not_full[c][0]
            slot = next(s for s in range(self.slots(c)) if s not in self.used[page])
            full = len(self.used[page]) + 1 == self.slots(c)
            if full:
                self.not_full[c].pop(0)
            steps = 13 if full else 5
        else:
            page, slot, steps = self.pool.pop(0), 0, 11
            if self.slots(c) > 1:
                self.not_full[c] = [page]
        self.used[page][slot] = number
        return self.place(c, page, slot), steps

    def drop(self, c, page, slot):
        """Frees a slot of a page; returns how many slots of the page were used before."""
        many = len(self.used[page])
        if many == 1:
            self.not_full[c] = [other for other in self.not_full[c] if other != page]
            self.pool.insert(0, page)
        elif many == self.slots(c):
            self.not_full[c].insert(0, page)
            self.seen["two partly full pages of a class"] += len(self.not_full[c]) == 2
            self.seen["64 partly full pages of a class"] += len(self.not_full[c]) == 64
        del self.used[page][slot]
        return many

    def leave(self, place, c):
        """Removes an object of class c from its slot: another one moves there, or the slot becomes free. Returns the steps."""
        size, page = self.sizes[c], place // self.page_words
        slot = place % self.page_words // size
        if len(self.used[page]) == self.slots(c) > 1 and len(self.not_full[c]) == self.bounds[c]:
            front = self.not_full[c][0]
            low = min(self.used[front])
            other = self.used[front][low]
            source = self.place(c, front, low)
            many = self.drop(c, front, low)
            self.used[page][slot] = other
            self.held[other][0] = place
            if not self.moving:
                for i in range(size // 4):
                    a, b = place // 4 + i, source // 4 + i
                    self.frames[a], self.frames[b] = self.frames[b], self.frames[a]
            self.moves += 1
            self.moved_words += size
            kind = "of the class" if self.bounds[c] != self.bound else "above 1" if self.bound > 1 else "1"
            self.seen[f"move at a bound {kind}"] += 1
            return 1 + self.touch + (size if self.moving else size + size // 2) + (12 if many == 1 else 7)
        many = len(self.used[page])
        full = self.slots(c)
        self.drop(c, page, slot)
        return (size if self.moving else size + size // 4) + (10 if many == 1 else 13 if many == full else 5)

    # The new object's number, or the refusal.
    def malloc(self, n):
        self.step_bound, self.cost = 64, 1
        if need(n) > self.page_words:
            return "refused size"
        if not self.spare:
            return "refused proxy"
        c = self.class_for(n)
        if not self.has_slot(c):
            return "refused space"
        number = self.spare.pop(0)
        place, steps = self.take(c, number)
        self.held[number] = [place, bytearray(n)]
        self.cost = 3 + self.touch + steps
        return number

    # Frees the object of a live number.
    def free(self, number):
        place, bytes_ = self.held.pop(number)
        c = self.class_for(len(bytes_))
        self.step_bound = 96 + 2 * self.sizes[c]
        self.cost = 5 + self.touch + self.leave(place, c)
        self.spare.insert(0, number)

    def tail(self, n, m):
        """The steps of a resize that cuts an object of m bytes to n bytes, in its slot."""
        return self.touch + self.run(2 + n // 8, (m + 7) // 8 - n // 8 - 1, 1) if n < m else 0

    # The reply to a resize of a live object to n bytes.
    def resize(self, number, n):
        self.step_bound, self.cost = 160, 2
        if need(n) > self.page_words:
            return "refused size"
        place, bytes_ = self.held[number]
        m, old, new = len(bytes_), self.class_for(len(bytes_)), self.class_for(n)
        if old != new and not self.has_slot(new):
            self.cost = 4 + self.touch
            return "refused space"
        self.step_bound = 160 + 3 * max(self.sizes[old], self.sizes[new])
        changed = bytearray(bytes_[:n].ljust(n, b"\0"))
        if old == new:
            self.cost = 3 + 2 * self.touch + self.tail(n, m)
            self.held[number] = [place, changed]
            self.seen["z in its slot"] += 1
            return "ok"
        target, steps = self.take(new, number)
        kept = (min(m, n) + 7) // 8
        carry = self.run(1, kept, 2) + self.tail(n, 8 * kept) + self.touch + 1
        self.held[number] = [target, changed]
        moves = self.moves
        self.cost = 4 + self.touch + steps + carry + self.leave(place, old)
        self.seen["z to another class with a move" if self.moves > moves else "z to another class"] += 1
        return "ok"

    # The reply to `k`, for the class whose slots have `size` words.
    def set_bound(self, size, bound):
        if size not in self.sizes:
            return "none"
        self.bounds[self.sizes.index(size)] = bound
        return "ok"

    # The reply to `b`, for block i of a live object.
    def block(self, number, i):
        if self.moving:
            return "none"
        place, bytes_ = self.held[number]
        if i >= self.sizes[self.class_for(len(bytes_))] // 4:
            return "range"
        self.seen["b of a moved block"] += self.frames[place // 4 + i] != place // 4 + i
        return f"block {self.frames[place // 4 + i]}"

    # Word w of the region, as objects see it.
    def word(self, w):
        for number, (place, bytes_) in self.held.items():
            if place <= w < place + need(len(bytes_)):
                if w == place:
                    return number + 2**32 * len(bytes_)
                return int.from_bytes(bytes_[8 * (w - place - 1):][:8], "little")
        return 0

    # The reply to `walk`, as lines.
    def walk(self):
        lines = []
        for c, size in enumerate(self.sizes):
            live = sum(1 for place, bytes_ in self.held.values() if self.class_for(len(bytes_)) == c)
            if live:
                pages = {place // self.page_words for place, bytes_ in self.held.values() if self.class_for(len(bytes_)) == c}
                lines.append(f"class {size} slots {self.slots(c)} live {live} pages {len(pages)} notfull {len(self.not_full[c])}")
        return [*lines, f"total live {len(self.held)} pages {self.pages - len(self.pool)} free {len(self.pool)}"]

    # The reply to `frag`.
    def frag(self):
        asked = sum(len(bytes_) for _, bytes_ in self.held.values())
        taken = sum(8 * self.sizes[self.class_for(len(bytes_))] for _, bytes_ in self.held.values())
        return f"frag asked {asked} taken {taken} held {8 * self.page_words * (self.pages - len(self.pool))}"

    # The reply to `steps`.
    def steps(self):
        return f"steps last {self.cost} bound {self.step_bound} moves {self.moves} words {self.moved_words}"


class Blocks(Heap):
    """The managers with blocks: a block is [size, number or None], by address; each list has its head first."""

    def __init__(self, tlsf, *settings):
        super().__init__(*settings)
        self.count = 336 if tlsf else 24
        self.bucket = self.tlsf_bucket if tlsf else lambda size: size.bit_length() - 1
        self.search = self.tlsf_search if tlsf else lambda size: (size - 1).bit_length()
        self.blocks = {0: [self.words, None]}
        self.ends = {self.words: 0}
        self.lists = {self.bucket(self.words): [0]}

    # The number of the list that TLSF has for blocks of this size in words.
    @staticmethod
    def tlsf_bucket(size):
        f = size.bit_length() - 1
        return size if size < 16 else 16 + 16 * (f - 4) + (size - 2**f) // 2 ** (f - 4)

    # The first list in which TLSF searches for a block of this size.
    @classmethod
    def tlsf_search(cls, size):
        return size if size < 16 else cls.tlsf_bucket(size + 2 ** (size.bit_length() - 5) - 1)

    # Makes the words from `at` on a block of an object, or a free one.
    def set_block(self, at, size, number):
        self.blocks[at] = [size, number]
        self.ends[at + size] = at

    def unlink(self, at, size):
        """Removes a free block from its list; returns the steps."""
        members = self.lists[self.bucket(size)]
        i = members.index(at)
        steps = 1 + (2 if i else 3) + (2 if i + 1 < len(members) else 0)
        members.remove(at)
        return steps

    # Puts a free block at the head of its list; returns the steps.
    def push(self, at, size):
        members = self.lists.setdefault(self.bucket(size), [])
        members.insert(0, at)
        return 5 if len(members) == 1 else 7

    # The steps of writing a block's new size into the header of the next block: none if the region ends there.
    def behind(self, end):
        return 2 if end < self.words else 0

    # The new object's number, or the refusal.
    def malloc(self, n):
        self.cost = 0
        if need(n) > self.page_words:
            return "refused size"
        if not self.spare:
            return "refused proxy"
        wanted = need(n) + 1
        first = self.search(wanted)
        found = next((i for i in range(first, self.count) if self.lists.get(i)), None)
        if found is None:
            self.cost = 0 if self.count <= first else 2
            return "refused space"
        look = (1 if found // 16 == first // 16 else 3) + 1
        at = self.lists[found][0]
        size = self.blocks[at][0]
        steps = 3 + self.unlink(at, size)
        number = self.spare.pop(0)
        if wanted + 2 <= size:
            self.set_block(at, wanted, number)
            self.set_block(at + wanted, size - wanted, None)
            steps += 1 + self.behind(at + size) + self.push(at + wanted, size - wanted)
        else:
            self.blocks[at] = [size, number]
        self.held[number] = [at, bytearray(n)]
        self.cost = look + steps + 2
        return number

    # Frees the object of a live number, and joins its block with free neighbours.
    def free(self, number):
        at, _ = self.held.pop(number)
        size = self.blocks[at][0]
        steps, end, start = size + 4, at + size, at
        steps += 0 if end == self.words else 1
        if end in self.blocks and self.blocks[end][1] is None:
            more = self.blocks.pop(end)[0]
            steps += 5 + self.unlink(end, more) + self.behind(end + more)
            end += more
        steps += 0 if at == 0 else 1
        before = self.ends.get(at)
        if before is not None and self.blocks[before][1] is None:
            steps += 5 + self.unlink(before, self.blocks[before][0]) + self.behind(end)
            del self.blocks[at]
            start = before
        self.set_block(start, end - start, None)
        self.cost = steps + 2 + self.push(start, end - start)
        self.spare.insert(0, number)

    # Blocks have no resize.
    def resize(self, number, n):
        return "none"

    # Blocks have no classes.
    def set_bound(self, size, bound):
        return "none"

    # Only the non-moving manager has physical blocks.
    def block(self, number, i):
        return "none"

    # Word w of the region, with the headers of blocks and the links of free ones.
    def word(self, w):
        at = max(a for a in self.blocks if a <= w)
        size, number = self.blocks[at]
        before = at - self.ends[at] if at else 0
        if w == at:
            return size + (0 if number is None else 2**31) + 2**32 * before
        if number is None:
            members = self.lists[self.bucket(size)]
            i = members.index(at)
            after = members[i + 1] if i + 1 < len(members) else NONE
            return after + 2**32 * (members[i - 1] if i else NONE) if w == at + 1 else 0
        bytes_ = self.held[number][1]
        return number + 2**32 * len(bytes_) if w == at + 1 else int.from_bytes(bytes_[8 * (w - at - 2):][:8], "little")

    # The reply to `walk`, as lines.
    def walk(self):
        free = [size for size, number in self.blocks.values() if number is None]
        return [f"blocks used {len(self.held)} free {len(free)} largest {max(free, default=0)}"]

    # The reply to `frag`.
    def frag(self):
        asked = sum(len(bytes_) for _, bytes_ in self.held.values())
        taken = sum(8 * size for size, number in self.blocks.values() if number is not None)
        return f"frag asked {asked} taken {taken} held {8 * self.words}"

    # The reply to `steps`.
    def steps(self):
        return f"steps last {self.cost}"


KINDS = {
    "cf": lambda *settings: Pages(True, *settings),
    "nm": lambda *settings: Pages(False, *settings),
    "tlsf": lambda *settings: Blocks(True, *settings),
    "half": lambda *settings: Blocks(False, *settings),
}

# What the drawn scripts must make each manager with pages do.
MET = [
    "m live", "m refused size", "m refused proxy", "m refused space", "f unknown", "w unknown", "w range", "r unknown", "r range",
    "z in its slot", "z to another class", "z to another class with a move", "z unknown", "z refused size", "z refused space",
    "move at a bound 1", "move at a bound above 1", "move at a bound of the class", "two partly full pages of a class",
    "64 partly full pages of a class", "k none", "q unknown", "p range",
]
# And the non-moving one.
MET_BLOCKS = ["b unknown", "b range", "b of a moved block"]


def answer(heap, ids, words):
    """The reply to a command, as lines."""
    name, *rest = words
    if name in ("s", "t", "quota", "need", "admit"):
        return ["none"]
    if name in ("walk", "frag", "steps"):
        reply = getattr(heap, name)()
        return reply if isinstance(reply, list) else [reply]
    if name == "k":
        return [heap.set_bound(*map(int, rest))]
    if name == "p":
        return [f"{heap.word(int(rest[0])):016x}" if int(rest[0]) < heap.words else "range"]
    number = ids.get(int(rest[0]))
    if name == "m":
        if number is not None:
            return ["live"]
        given = heap.malloc(int(rest[1]))
        if isinstance(given, str):
            return [given]
        ids[int(rest[0])] = given
        return ["ok"]
    if number is None:
        return ["unknown"]
    place, bytes_ = heap.held[number]
    if name == "f":
        heap.free(ids.pop(int(rest[0])))
        return ["ok"]
    if name == "z":
        return [heap.resize(number, int(rest[1]))]
    if name == "q":
        return [f"at {place}"]
    if name == "b":
        return [heap.block(number, int(rest[1]))]
    return [accessed(bytes_, name, *rest[1:])]


def accessed(bytes_, name, at, text):
    """The reply to `w` or `r` for an object's bytes, from byte `at` on; `text` has the bytes, or how many."""
    count = len(text) // 2 if name == "w" else int(text)
    part = slice(int(at), int(at) + count)
    if part.stop > len(bytes_):
        return "range"
    if name == "r":
        return "=" + bytes_[part].hex()
    bytes_[part] = bytes.fromhex(text)
    return "ok"


class Counted:
    """Modes `large` and `quota`: each bound is 1, so the replies follow from how many objects of each class there are."""

    def __init__(self, pages, page_bytes, bound, proxies):
        self.pages, self.page_words, self.proxies = pages, page_bytes // 8, proxies
        self.sizes = Pages(True, 1, page_bytes, 1, 1).sizes
        self.objects = {}

    # The class of an object of n bytes.
    def class_for(self, n):
        return next(c for c, size in enumerate(self.sizes) if need(n) <= size)

    # How many slots of class c a page has.
    def slots(self, c):
        return self.page_words // self.sizes[c]

    # How many objects each class has, by class, if there are objects of these lengths.
    def counts(self, lengths):
        return sorted(Counter(map(self.class_for, lengths)).items())

    # How many pages these counts of objects need.
    def needed(self, counts):
        return sum(-(-n // self.slots(c)) for c, n in counts)

    def walk(self, lengths, pages):
        """The reply to `walk` for objects of these lengths on at most this many pages, as lines."""
        lines, counts = [], self.counts(lengths)
        for c, n in counts:
            slots = self.slots(c)
            lines.append(f"class {self.sizes[c]} slots {slots} live {n} pages {-(-n // slots)} notfull {int(n % slots > 0)}")
        used = self.needed(counts)
        return [*lines, f"total live {len(lengths)} pages {used} free {pages - used}"]

    # The reply to a malloc of n bytes, if it is not refused for size: `more` are the lengths that it adds.
    def malloc(self, some, n, lengths, more, pages):
        if len(lengths) + len(more) > self.proxies:
            return "refused proxy"
        if self.needed(self.counts([*lengths, *more])) > pages:
            return "refused space"
        self.objects[some] = bytearray(n)
        return "ok"

    # The reply to `m`, `f`, `w` or `r`.
    def change(self, name, some, *rest):
        if name == "m":
            return "live" if some in self.objects else self.make(some, int(rest[0]))
        if some not in self.objects:
            return "unknown"
        return self.free(some) if name == "f" else accessed(self.objects[some], name, *rest)

    # The reply to a free of a live object.
    def free(self, some):
        del self.objects[some]
        return "ok"


class Large(Counted):
    """Mode `large`."""

    # The lengths of the parts and the spine of an object of n bytes.
    def parts(self, n):
        part = 8 * self.page_words - 8
        count = -(-n // part)
        return [n] if count < 2 else [*[part] * (count - 1), n - part * (count - 1), 4 * count]

    # The reply to `m` for an id that is not live.
    def make(self, some, n):
        more = self.parts(n)
        if need(more[-1]) > self.page_words:
            return "refused size"
        return self.malloc(some, n, self.lengths(), more, self.pages)

    # The lengths of all parts and spines.
    def lengths(self):
        return [length for bytes_ in self.objects.values() for length in self.parts(len(bytes_))]

    def answer(self, name, *rest):
        if name == "walk":
            return self.walk(self.lengths(), self.pages)
        if name == "frag":
            lengths = self.lengths()
            taken = sum(8 * self.sizes[self.class_for(n)] for n in lengths)
            return [f"frag asked {sum(lengths)} taken {taken} held {8 * self.page_words * self.needed(self.counts(lengths))}"]
        return [self.change(name, *rest) if name in ("m", "f", "w", "r") else "none"]


class Tasks(Counted):
    """Mode `quota`: an object is named by its task and its id."""

    def __init__(self, *settings):
        super().__init__(*settings)
        self.task, self.quotas, self.needs = 0, [0] * 16, [[] for _ in range(16)]

    # The lengths of the objects of a task.
    def lengths(self, task):
        return [len(bytes_) for (owner, _), bytes_ in self.objects.items() if owner == task]

    # The reply to `m` for an id of the present task that is not live.
    def make(self, some, n):
        if need(n) > self.page_words:
            return "refused size"
        return self.malloc(some, n, self.lengths(self.task), [n], self.quotas[self.task])

    # The reply to `quota`.
    def quota(self, task, pages):
        if sum(self.quotas) - self.quotas[task] + pages > self.pages:
            return "refused sum"
        if self.needed(self.counts(self.lengths(task))) > pages:
            return "refused used"
        self.quotas[task] = pages
        return "ok"

    # The reply to `admit`.
    def admit(self, task):
        needs = self.needs[task]
        if any(need(n) > self.page_words for n, _ in needs):
            return "size"
        if sum(count for _, count in needs) > self.proxies:
            return "proxies"
        lengths = [n for n, count in needs for _ in range(count)]
        short = (nth for nth in range(len(lengths)) if self.needed(self.counts(lengths[:nth + 1])) > self.quotas[task])
        return next((f"no {nth + 1}" for nth in short), "yes")

    def answer(self, name, *rest):
        if name == "walk":
            return self.walk(self.lengths(self.task), self.quotas[self.task])
        if name in ("m", "f", "w", "r"):
            return [self.change(name, (self.task, rest[0]), *rest[1:])]
        if name not in ("t", "quota", "need", "admit"):
            return ["none"]
        task, *rest = map(int, rest)
        if name == "t":
            self.task = task
        elif name == "need":
            if len(self.needs[task]) == 64:
                return ["full"]
            self.needs[task].append(rest)
        return [getattr(self, name)(task, *rest) if name in ("quota", "admit") else "ok"]


class Sliced(Counted):
    """Mode `slice`. No more than two pages of a class are partly full, and two only during a job."""

    def __init__(self, quantum, *settings):
        super().__init__(*settings)
        self.quantum = quantum
        # The job's class, the words left, the objects beside its slot, and those on the other partly full page.
        self.job = None

    # The class of each object.
    def classes(self):
        return Counter(self.class_for(len(bytes_)) for bytes_ in self.objects.values())

    # How many pages are free. The job's page counts as one of its class.
    def free_pages(self):
        used = self.needed(self.classes().items())
        if self.job:
            c, _, beside, other = self.job
            n, slots = self.classes()[c], self.slots(c)
            used += (n - beside - other) // slots + 1 + (other > 0) - -(-n // slots)
        return self.pages - used

    # The reply to `m` for an id that is not live.
    def make(self, some, n):
        if need(n) > self.page_words:
            return "refused size"
        c, classes, free = self.class_for(n), self.classes(), self.free_pages()
        slots = self.slots(c)
        if self.job and self.job[0] == c:
            _, _, beside, other = self.job
            usable = beside + 1 < slots or other > 0
        else:
            usable = classes[c] % slots > 0
        reply = self.malloc(some, n, [len(bytes_) for bytes_ in self.objects.values()], [n], self.pages)
        if reply == "ok" and not usable and not free:
            del self.objects[some]
            return "busy"
        if reply == "ok" and self.job and self.job[0] == c:
            if beside + 1 < slots:
                self.job[2] += 1
            else:
                self.job[3] = (other + 1) % slots
        return reply

    # The reply to a free of a live object, with the first slice of its job.
    def free(self, some):
        if self.job:
            return "busy"
        c = self.class_for(len(self.objects.pop(some)))
        self.job = [c, self.sizes[c], self.classes()[c] % self.slots(c), 0]
        self.slice()
        return "ok"

    # Does a slice of the job. If two pages are partly full at its end, an object of one moves to the other.
    def slice(self):
        if self.job:
            self.job[1] -= self.quantum
            if self.job[1] <= 0:
                c, _, _, other = self.job
                self.job = [c, self.sizes[c], other - 1, 0] if other else None

    def answer(self, name, *rest):
        if name == "s":
            self.slice()
            return [f"left {self.job[1] if self.job else 0}"]
        return [self.change(name, *rest) if name in ("m", "f", "w", "r") else "none"]


# Each mode with a heap of its own, by the most words of a slice.
MODES = {"large": lambda quantum: Large, "quota": lambda quantum: Tasks, "slice": lambda quantum: partial(Sliced, quantum)}

# What the drawn scripts of these modes must be answered.
MET_MODES = [
    "large m live", "large m refused size", "large m refused proxy", "large m refused space", "large f unknown", "large w range",
    "large r range", "large walk class", "quota m refused size", "quota m refused proxy", "quota m refused space", "quota r range",
    "quota quota refused sum", "quota quota refused used", "quota admit yes", "quota admit no", "quota admit size",
    "quota admit proxies", "slice m busy", "slice m refused size", "slice m refused proxy", "slice m refused space",
    "slice f busy", "slice s left", "slice r range",
]


def mode_replies(mode, quantum, lines):
    """What must be printed in this mode for the script, by its lines, each a list of lines; and how often each reply is."""
    heap, replies, seen = None, [["ok"]], Counter()
    for line in lines:
        words = line.split()
        if words[0] == "heap":
            heap = MODES[mode](quantum)(*map(int, words[1:]))
            continue
        replies.append(heap.answer(*words))
        reply = replies[-1][0].split()
        seen[" ".join([mode, words[0], reply[0][:9], *(reply[1:] if reply[0] == "refused" else [])])] += 1
    return replies, seen


def mode_lines(draw, mode):
    """Draws a script for one of the modes `large`, `quota` and `slice`, line by line."""
    page_bytes = 512 << draw.choice((0, 0, 0, 0, 1, 2))
    pages, ids, live, task = draw.choice((3, 5, 8, 14, 30)), draw.choice((8, 20, 30)), set(), 0
    yield f"heap {pages} {page_bytes} {draw.randint(1, 3)} {draw.choice((6, 30, 200))}"
    half, part = page_bytes // 2 - 8, page_bytes - 8
    sizes = [half, half, half - 7, draw.choice((part, 20, 0, page_bytes // 3 - 9)), draw.choice((half, part, part + 1))]
    if mode == "large":
        sizes += [part + 1, 2 * part, 2 * part + 1, 5 * part + half, part * (part // 4), part * (part // 4) + 1]
    if mode == "quota":
        yield from (f"quota {owner} {draw.randint(1, 4)}" for owner in range(3))
    others = {
        "large": ("walk", "frag", "walk", "q 1", "z 1 8", "p 0", "steps", "s"),
        "slice": ("s", "s", "s", "s", "s", "s", "walk", "frag", "steps", "t 1"),
        "quota": ("walk", "t", "t", "quota", "need", "need", "admit", "frag", "p 0", "s"),
    }[mode]
    for _ in range(draw.randint(60, 250)):
        name = draw.choice((*"mmmffwr", *draw.choices(others, k=3)))
        some = draw.choice(sorted(live)) if live and name != "m" and draw.random() < 0.8 else draw.randrange(ids)
        live = live | {some} if name == "m" else live - {some} if name == "f" else live
        size, task = draw.choice(sizes), draw.choice((0, 1, 2, draw.randrange(16)))
        at = max(0, draw.choice((0, size, part, 2 * part)) - draw.randrange(9))
        yield {
            "m": f"m {some} {size}",
            "f": f"f {some}",
            "w": f"w {some} {at} {draw.randbytes(draw.randint(1, 12)).hex()}",
            "r": f"r {some} {at} {draw.randint(1, 20)}",
            "t": f"t {task}",
            "quota": f"quota {task} {draw.randrange(pages // 2 + 2)}",
            "need": f"need {task} {size} {draw.randrange(4)}",
            "admit": f"admit {task}",
        }.get(name, name)


def drawn_lines(draw, calls):
    """
    Draws a script, line by line. Phases that fill the heap and that drain it alternate. After each call that changes the
    heap it asks for an address, a block, a word and steps, and at the end for the words and all that the ids have.
    """
    page_bytes = 512 << draw.choice((0, 0, 0, 0, 1, 1, 2, 3, 4, 5, 6, 7, 8))
    pages, bound, proxies = draw.randint(2, 14), draw.choice((1, 1, 2, 3, 64)), draw.choice((5, 20, 60, 60, 60))
    yield f"heap {pages} {page_bytes} {bound} {proxies}"
    # Few sizes with several slots to a page, so that pages fill, and frees move objects from pages that hold some.
    sizes = [max(0, page_bytes // draw.choice((2, 2, 3, 3, 4, 6)) - 8 - draw.randint(0, 7)) for _ in range(2)]
    for _ in range(draw.randint(0, 3)):
        slots = Pages(draw.random() < 0.5, 1, page_bytes, 1, 1)
        own = slots.sizes[slots.class_for(draw.choice(sizes))]
        yield f"k {draw.choice((own, own, own, draw.choice(slots.sizes), 10, 20000))} {draw.randint(1, 3)}"
    sizes += [draw.choice((0, 16, 40, 90)), page_bytes - 8 + draw.choice((0, 1, 300))]
    ids, live, fills, left = draw.choice((6, 20, 45)), set(), False, 0
    for _ in range(calls):
        if not left:
            fills, left = not fills, draw.randint(10, 60)
        left -= 1
        name = draw.choice("mmmmmzzwf" if fills else "ffffmzzw")
        size = draw.choice(sizes[:2] if draw.random() < 0.85 else sizes)
        # Mostly an id for which the call is not refused, as far as it is known without the heap.
        free = sorted(set(range(ids)) - live) if name == "m" else sorted(live)
        some = draw.choice(free) if free and draw.random() < 0.9 else draw.randrange(ids)
        live = live | {some} if name == "m" else live - {some} if name == "f" else live
        yield {
            "m": f"m {some} {size}",
            "f": f"f {some}",
            "z": f"z {some} {size - draw.choice((0, 0, size // 9))}",
            "w": f"w {some} {max(0, size - draw.randrange(20))} {draw.randbytes(draw.randint(1, 12)).hex()}",
        }[name]
        yield f"q {draw.randrange(ids)}"
        yield f"b {draw.randrange(ids)} {draw.randrange(4)}"
        yield f"p {draw.randrange(pages * page_bytes // 8 + 3)}"
        yield "steps"
        if draw.random() < 0.15:
            yield draw.choice(("walk", "frag", f"r {draw.randrange(ids)} {draw.randrange(9)} {draw.randrange(20)}"))
    words = pages * page_bytes // 8
    for word in range(words + 1) if words < 1000 else draw.sample(range(words), 200):
        yield f"p {word}"
    for some in range(ids):
        yield f"q {some}"
        yield from (f"r {some} 0 {min(size, 4096)}" for size in sizes)
        yield from (f"b {some} {i}" for i in range(17))


def largest_lines(draw, pages, proxies, bound):
    """Draws a script that makes an object for each id on pages of 512 bytes, as far as the heap serves, then goes on."""
    yield f"heap {pages} 512 {bound} {proxies}"
    for some in range(65_536):
        yield f"m {some} {draw.choice((24, 24, 24, 56))}"
    yield from ("steps", "walk", "frag")
    for turn in range(24_000):
        some, size = draw.randrange(65_536), draw.choice((24, 24, 24, 56, 176))
        calls = (f"m {some} {size}", f"f {some}", f"f {some}", f"z {some} {size}")
        yield draw.choice(calls if turn % 8000 < 5000 else calls[:1])
        yield "steps"
        yield f"q {draw.randrange(65_536)}"
    yield from ("walk", "frag")


def played(kind, lines):
    """The manager and the ids that a script leaves, what it must print by its lines, each a list of lines, and how often it did what."""
    heap, ids, replies, seen = None, {}, [], Counter()
    for line in lines:
        words = line.split()
        if words[0] == "heap":
            heap = KINDS[kind](*map(int, words[1:]))
            replies.append(["ok"])
        else:
            replies.append(answer(heap, ids, words))
            seen[f"{words[0]} {replies[-1][0]}"] += replies[-1][0].split()[0] in ("live", "unknown", "range", "none", "refused")
    if heap:
        seen += heap.seen
    return heap, ids, replies, Counter({f"{kind}: {what}": n for what, n in seen.items()})


# The last two of these.
def wanted(kind, lines):
    return played(kind, lines)[2:]


def image_of(lines):
    """The heap image of what a script leaves on the moving manager, and the script that makes its objects."""
    heap, ids, *_ = played("cf", lines)
    settings, objects = (heap.pages, 8 * heap.page_words, heap.proxies), [(some, heap.held[number][1]) for some, number in sorted(ids.items())]
    image = b"".join(struct.pack("<HI", some, len(bytes_)) + bytes_ for some, bytes_ in objects)
    script = ["heap {} {} 1 {}".format(*settings)]
    for some, bytes_ in objects:
        script += [f"m {some} {len(bytes_)}", *(f"w {some} {at} {bytes_[at:at + 4096].hex()}" for at in range(0, len(bytes_), 4096))]
    return b"CFI1" + struct.pack("<4I", *settings, len(objects)) + image, "".join(f"{line}\n" for line in script).encode()


# The most that each number of a command may be.
MOST = {
    "heap": (4096, 131_072, 64, 65_536), "k": (NONE, 64), "m": (65_535, NONE), "f": (65_535,), "w": (65_535, NONE),
    "r": (65_535, NONE, 4096), "z": (65_535, NONE), "q": (65_535,), "b": (65_535, NONE), "p": (NONE,), "walk": (), "frag": (),
    "steps": (), "s": (), "t": (15,), "quota": (15, NONE), "need": (15, NONE, NONE), "admit": (15,),
}


def is_command(name, texts):
    """Whether these tokens may follow that first token of a line."""
    count = len(MOST.get(name, ())) + (name == "w")
    if name not in MOST or len(texts) != count:
        return False
    if name == "w" and not re.fullmatch(r"([0-9a-fA-F]{2}){1,4096}", texts.pop()):
        return False
    if not all(re.fullmatch(r"0*[0-9]{1,10}", text) and int(text[-10:]) <= most for text, most in zip(texts, MOST[name])):
        return False
    if name == "heap":
        pages, page_bytes, k, proxies = (int(text[-10:]) for text in texts)
        return page_bytes in {512 << i for i in range(9)} and 0 < pages <= 67_108_864 // page_bytes and k > 0 and proxies > 0
    return name != "k" or int(texts[1][-10:]) > 0


def commands_of(script):
    """The command of each line of a script, `None` for a line without one, up to the first bad line; and its number, or `None`."""
    lines, commands, stage = script.split(b"\n"), [], 0  # 0: before `heap`; 1: `k` may follow; 2: after another command
    for number, line in enumerate(lines if lines[-1] else lines[:-1], 1):
        tokens = [it for it in re.split("[ \t]", line.removesuffix(b"\r").decode("latin-1")) if it]
        is_silent = not tokens or tokens[0].startswith("#")
        is_due = is_silent or {"heap": stage == 0, "k": stage == 1}.get(tokens[0], stage > 0)
        if len(line) > 8999 or not is_due or not (is_silent or is_command(tokens[0], tokens[1:])):
            return commands, number
        commands.append(None if is_silent else " ".join(tokens))
        if not is_silent:
            stage = 1 if tokens[0] in ("heap", "k") else 2
    return commands, None


HEADS = (b"heap 2 512 1 4\n", b"heap 1 512 2 8\r\n", b"heap 3 1024 1 3\n", b"\theap 4 512 64  08\n")

# A line for each command, the last one without its line feed.
EACH_COMMAND = (
    b"heap 2 512 1 4\nk 23 1\nm 0 176\nm 1 176\r\nm 2 176\nw 1 2 a1B2c3\nr 1 0 6\nf 0\n\tq 1\n# note\n\nb 1 0\np 64\nz 1 200\n"
    b"z 2 24\nwalk\nfrag\nsteps\ns\nt 3\nquota 3 1\nneed 3 8 1\nadmit 3\nf 1\nr 2 0 24\nwalk"
)
LINES = (
    b"m 0 24", b"m 0 176", b"m 1 0", b"m 2 504", b"m 3 505", b"m 3 4294967296", b"m 65535 8\r", b"f 0", b"f 1", b"f 2", b"f 65536",
    b"w 0 0 00ff10EF", b"w 1 170 a1b2c3d4e5f6", b"w 2 7 616", b"r 0 0 24", b"r 1 168 8", b"r 3 4294967295 1", b"r 2 0 4097",
    b"q 1", b"b 2 3", b"p 64", b"z 0 176", b"z 2 1016", b"k 23 2", b"k 23 65", b"walk", b" frag ", b"steps", b"steps 1", b"t 16",
    b"quota 3 1", b"need 3 8", b"admit 3", b"# a comment\n", b"#" * 8999, b"#" * 9000, b"\r", b"\x0bf 0",
)


GOOD_LINES = [line for line in LINES if not commands_of(HEADS[0] + b"m 1 8\n" + line)[1]]


def damaged_script(draw):
    """Draws a few lines or random bytes. One line may be missing, come twice or stand elsewhere; bits may be flipped."""
    if draw.random() < 0.25:
        bytes_ = [draw.choice((draw.randrange(256), *b"heapmfwrqbzkst0123456789 \t\r\n\n#")) for _ in range(draw.randrange(200))]
        script = bytearray(draw.choice((b"", *HEADS)) + bytes(bytes_))
    else:
        lines = [draw.choice(HEADS), *(line + b"\n" for line in draw.choices(draw.choice((LINES, GOOD_LINES, GOOD_LINES)), k=draw.randint(1, 24)))]
        at, to, change = draw.randrange(len(lines)), draw.randrange(len(lines)), draw.choice(("none", "missing", "twice", "swapped"))
        if change == "missing":
            del lines[at]
        elif change == "twice":
            lines.insert(at, lines[to])
        elif change == "swapped":
            lines[at], lines[to] = lines[to], lines[at]
        script = bytearray(b"".join(lines))
    for _ in range(draw.randrange(3) if script else 0):
        script[draw.randrange(len(script))] ^= 1 << draw.randrange(8)
    return bytes(script)


def damage_differs(program, seed):
    """
    Runs a beginning of `EACH_COMMAND`, or a damaged script, in mode `compare`, and on one manager in chunks. Returns the first
    difference from what must be printed, `None` if there is none, and what was met: the first token of the bad line, if any.
    """
    draw = random.Random(seed)
    script = EACH_COMMAND[:seed] if seed <= len(EACH_COMMAND) else damaged_script(draw)
    commands, bad = commands_of(script)
    each = [wanted(kind, [it for it in commands if it])[0] for kind in KINDS]
    kind, lines, last = list(KINDS)[seed % 4], script.split(b"\n"), [b"bad line %d\n" % bad] if bad else []
    # What is printed after each line; after a line without a command nothing.
    both, one = ([next(texts) if it else b"" for it in commands] + last for texts in map(iter, (compare_text(each), run_text(each[seed % 4]))))
    ended = subprocess.run([program, "compare"], input=script, capture_output=True)
    read = b"\n".join(lines[:bad] + [b""] * (len(lines) > bad)) if bad else script
    seen = Counter(["bad " + (lines[bad - 1].decode("latin-1")[:8999].split() or [""])[0] if bad else "whole"])
    for name, right, printed in (("compare", both, ended.stdout), (kind, one, in_chunks([program, "--manager", kind], read, one, draw))):
        if printed != b"".join(right):
            return f"damaged script {seed}, {name}: {first_difference(b''.join(right), printed)}", seen
    wrong = ended.returncode != (3 if bad else 0) or ended.stderr != (b"cf_tool: bad script\n" if bad else b"")
    return f"damaged script {seed}: status {ended.returncode}, {ended.stderr}" if wrong else None, seen


# What must be met among the damaged scripts.
MET_DAMAGE = ["whole", "bad " + 8999 * "#", *(f"bad {name}" for name in MOST)]


# The bytes of the replies to each line.
def run_text(replies):
    return ["".join(f"{line}\n" for line in reply).encode() for reply in replies]


# The same in mode `compare`, from the replies of the four managers.
def compare_text(each):
    return [
        "".join(f"{kind} {line}\n" for kind, reply in zip(KINDS, replies) for line in reply).encode()
        for replies in zip(*each)
    ]


def in_chunks(command, text, replies, draw):
    """What the tool prints if the script comes in drawn chunks, each written when the whole lines before it are answered."""
    with subprocess.Popen(command, stdin=subprocess.PIPE, stdout=subprocess.PIPE, stderr=subprocess.DEVNULL) as child:
        printed, at, whole = b"", 0, 0
        ends = [0, *itertools.accumulate(map(len, replies))]
        while at < len(text):
            end = at + draw.choice((1, 2, 7, 40, 200, 200, 4000))
            with contextlib.suppress(BrokenPipeError):  # (a line that has grown too long is bad before its end)
                child.stdin.write(text[at:end])
                child.stdin.flush()
            whole += text[at:end].count(b"\n")
            due, at = ends[whole], end
            while len(printed) < due and select.select([child.stdout], [], [], 20)[0]:
                chunk = os.read(child.stdout.fileno(), due - len(printed))
                if not chunk:
                    return printed
                printed += chunk
            if len(printed) < due:
                child.kill()
                return printed
        with contextlib.suppress(BrokenPipeError):
            child.stdin.close()
        return printed + child.stdout.read()


# A text that names the first line in which two outputs differ.
def first_difference(right, printed):
    right, printed = right.decode("latin-1").split("\n"), printed.decode("latin-1").split("\n")
    line = next((i for i, (a, b) in enumerate(zip(right, printed)) if a != b), min(len(right), len(printed)) - 1)
    return f"line {line + 1} of the output is {printed[line]!r}, not {right[line]!r}"


def from_file(command, text):
    with tempfile.TemporaryFile() as file:
        file.write(text)
        file.seek(0)
        return subprocess.run(command, stdin=file, capture_output=True).stdout


def differs(program, seed):
    """
    Draws a script, and runs it in mode `compare` from a file, and on one of the managers through a pipe and in chunks. Saves and loads
    what it leaves. Then draws a script for mode `large`, `quota` or `slice`. Returns the first difference from what must be printed, `None` if there is none, and
    how often each manager did what.
    """
    draw = random.Random(seed)
    largest = {0: (4096, 50_000, 1), 1: (2500, 65_536, 64)}.get(seed)
    calls = 1000 if seed % 40 == 2 else draw.randint(40, 110)
    lines = list(largest_lines(draw, *largest) if largest else drawn_lines(draw, calls))
    text = "".join(f"{line}\n" for line in lines).encode()
    each, seen = zip(*(wanted(kind, lines) for kind in KINDS))
    seen = sum(seen, Counter(lines=len(lines), replies=sum(len(reply) for replies in each for reply in replies)))
    kind = list(KINDS)[seed % 4]
    by_line, one = compare_text(each), run_text(each[seed % 4])
    ways = [("compare", "a file", b"".join(by_line), from_file([program, "compare"], text))]
    if not largest:
        run = [program, "--manager", kind]
        ways += [
            (kind, "a pipe", b"".join(one), subprocess.run(run, input=text, capture_output=True).stdout),
            (kind, "chunks", b"".join(one), in_chunks(run, text, one, draw)),
        ]
        image, script = image_of(lines)
        ways += [("save", "a file", image, from_file([program, "save"], text)), ("load", "a file", script, from_file([program, "load"], image))]
        mode, quantum = draw.choice(list(MODES)), draw.choice((1, 8, 16, 64))
        lines = list(mode_lines(draw, mode))
        replies, more = mode_replies(mode, quantum, lines)
        seen += more + Counter(lines=len(lines), replies=sum(map(len, replies)))
        text = "".join(f"{line}\n" for line in lines).encode()
        printed = from_file([program, mode, "--quantum", str(quantum)], text)
        ways.append((f"{mode} --quantum {quantum}", "a file", b"".join(run_text(replies)), printed))
    for name, way, right, printed in ways:
        if printed != right:
            return f"seed {seed}, {name}, through {way}: {first_difference(right, printed)}", seen
    return None, seen


def example_differs(path):
    """The first difference of an example's `.out` from what must be printed; whether this program has its mode, with status 0."""
    lines = path.read_text().splitlines()
    arguments = next((line.split()[2:] for line in lines if line.startswith("# arguments:")), [])
    mode = arguments[0] if arguments else "--manager"
    if mode not in ("compare", "--manager", *MODES) or any(line.startswith("# status:") for line in lines):
        return None, False
    lines = [line for line in lines if line.strip() and not line.startswith("#")]
    if mode in MODES:
        text = run_text(mode_replies(mode, int(arguments[2]) if arguments[1:] else 16, lines)[0])
    elif mode == "compare":
        text = compare_text([wanted(kind, lines)[0] for kind in KINDS])
    else:
        text = run_text(wanted(arguments[1] if arguments else "cf", lines)[0])
    right, shown = b"".join(text), path.with_suffix(".out").read_bytes()
    return None if shown == right else f"{path}: {first_difference(right, shown)}", True


# Compares the examples, then this many drawn scripts, and prints the first five differences, or what was compared.
def main(program, count):
    with ProcessPoolExecutor(os.cpu_count()) as pool:
        drawn = [*pool.map(differs, [program] * count, range(count)), *pool.map(damage_differs, [program] * count * 5, range(count * 5))]
        wrong, counts = map(list, zip(*map(example_differs, sorted(Path("examples").glob("*.cf")))))
        seen = Counter()
        for difference, more in drawn:
            wrong.append(difference)
            seen += more
    wrong = [it for it in wrong if it]
    if count >= 200:
        met = [*itertools.product(("cf", "nm"), MET), *itertools.product(("nm",), MET_BLOCKS)]
        wrong += [f"no drawn script has with {kind}: {what}" for kind, what in met if not seen[f"{kind}: {what}"]]
        wrong += [f"no drawn script has {what}" for what in MET_MODES + MET_DAMAGE if not seen[what]]
    for it in wrong[:5]:
        print(f"checks/one_output: {it}", file=sys.stderr)
    if wrong:
        sys.exit(1)
    lines = f"{seen['lines']:,} lines, {seen['replies']:,} of replies"
    print(f"checks/one_output: {count} drawn scripts, {5 * count} damaged ones, and {sum(counts)} examples, {lines}; of them with cf and nm:")
    print(", ".join(f"{what} {seen['cf: ' + what]:,} {seen['nm: ' + what]:,}" for what in [*MET, *MET_BLOCKS]))
    print(", ".join(f"{what} {seen[what]:,}" for what in MET_MODES))


if __name__ == "__main__":
    main(sys.argv[1], int(sys.argv[2]))
