"""Compares the turns of loops and the bytes of memcpy, memmove and memset in counted calls with the notes of tools/worst_case:
part of checks/worst_case.py.

They are counted by the path of calls that leads from an export to the function, since the lengths of a function are those
that its caller's note gives.
"""
import collections
import copy
import functools
import typing
from fractions import Fraction

import worst_case as tool


class Path(typing.NamedTuple):
    """A function, and how a call of an export leads to it: the path to its caller and the number of the call there."""

    function: str
    before: int
    call: int


class Counter(typing.NamedTuple):
    """What is counted: the runs of the first block of a loop ("loop"), of a block that is rare ("rare"), or of one that never runs
    in a call ("inside") or is rare there ("within"); or the bytes of a call ("call"). `number` is that of the loop, block or call."""

    kind: str
    function: str
    number: int


class Turns:
    """The paths and counters of a library under its notes, and the most that was counted for each, by the lengths of the call."""

    def __init__(self, library, notes):
        self.library, self.notes = library, notes
        self.counters, self.paths, self.leads, self.sites = [], [Path("", 0, 0)], {}, {}
        for name, note in notes.functions.items():
            function = library.functions[name]
            left = function.cut({block for block in function.blocks if block.number in note["never"]})
            self.counters += [Counter("loop", name, loop.number) for loop in function.loops() if loop.head in left and loop.number in note["loop"]]
            self.counters += [Counter("rare", name, number) for number in note["rare"]]
            self.counters += [Counter("call", name, number) for number, (_, callee, _) in note["call"].items() if callee in tool.MOVERS]
            self.counters += [Counter(kind, other, number) for kind in ("inside", "within") for _, other, number in note[kind]]
        self.counters = list(dict.fromkeys(self.counters))
        self.exports = {export: self.path_to(export, 0, 0) for export in library.exports if self.is_watched(export)}
        firsts = [(path, self.first_of(path)) for path in range(1, len(self.paths))]
        self.sharing = {first: [path for path, other in firsts if other == first] for path, first in firsts if path != first}
        # By path and counter: the most by the lengths of a call. By path and counter, the first of those that share lengths: the same of their sum.
        self.most, self.sums = collections.defaultdict(dict), collections.defaultdict(dict)

    @functools.cache
    def is_watched(self, name):
        """Whether a path leads from the function to a counter."""
        function = self.library.functions.get(name)
        return function is not None and (any(counter.function == name for counter in self.counters)
                                         or any(self.is_watched(callee) for _, callee in function.calls))

    def path_to(self, name, before, call):
        """The number of a new path, and of all that go on from it."""
        at = len(self.paths)
        self.paths.append(Path(name, before, call))
        for number, (_, callee) in enumerate(self.library.functions[name].calls, 1):
            if self.is_watched(callee):
                site = self.sites.setdefault((name, number), len(self.sites) + 1)
                self.leads[at, site] = self.path_to(callee, at, number)
        return at

    def chain(self, path):
        """The path's own number and those before it."""
        while path:
            yield path
            path = self.paths[path].before

    @functools.cache
    def first_of(self, path):
        """The path with each call that shares its lengths replaced by the first one that does."""
        it = self.paths[path]
        if not it.before:
            return path
        before, caller = self.first_of(it.before), self.paths[it.before].function
        call = self.notes.functions.get(caller, {"shared": {}})["shared"].get(it.call, it.call)
        return self.leads[before, self.sites[caller, call]]

    def watched(self, place):
        """The lines of the plugin's file (checks/worst_case_count.c). `place` has the address of each instruction of a function."""
        events, order = collections.defaultdict(list), ["after", "entry", "reset", "count", "call", "tail", "bytes"]
        for name, function in self.library.functions.items():
            if not self.is_watched(name):
                continue
            if any(function.entry in block.next for block in function.blocks):
                raise tool.Fault(f"{name}: its first block is in a loop, so its calls can't be told from its turns")
            begin, next_of = function.entry.code[0], dict(zip(function.code, function.code[1:]))
            add = lambda kind, one, number: events[place(function, one)].append((order.index(kind), number))
            add("entry", begin, self.exports.get(name, 0))
            numbers = iter(range(1, len(function.calls) + 1))
            for block in function.blocks:
                calls = [(one, "call") for one in block.code if one.op in ("call", "bl")] + [(block.code[-1], "tail")] * len(block.tails)
                for one, kind in calls:
                    number = next(numbers)
                    if Counter("call", name, number) in self.counters:
                        add("bytes", one, self.counters.index(Counter("call", name, number)))
                    elif site := self.sites.get((name, number)):
                        add(kind, one, site)
                        if kind == "call" or block.next:
                            add("after", next_of[one], site)
            loops, blocks = {loop.number: loop for loop in function.loops()}, {block.number: block for block in function.blocks}
            for number, counter in enumerate(self.counters):
                if counter.kind == "within" and any(counter[1:] == (other, block) for _, other, block in self.notes.functions.get(name, {"within": ()})["within"]):
                    add("reset", begin, number)
                if counter.function != name or counter.kind == "call":
                    continue
                loop = loops[counter.number] if counter.kind == "loop" else None
                add("count", (loop.head if loop else blocks[counter.number]).code[0], number)
                if loop and not self.notes.functions[name]["loop"][counter.number][3]:
                    for block in function.blocks:
                        if loop.head in block.next and block not in loop.blocks:
                            add("reset", block.code[0], number)
                elif counter.kind != "within":
                    add("reset", begin, number)
        for at, found in events.items():
            yield from (f"{order[kind]} {at:x} {number:x}" for kind, number in sorted(set(found)))
        yield from (f"path {site:x} {before:x} {after:x}" for (before, site), after in self.leads.items())

    def take(self, lengths, counts):
        """Takes what was counted in a call with these lengths."""
        most, sums, key = collections.Counter(), collections.Counter(), tuple(lengths.items())
        for number, count in counts:
            at = number >> 16, number & 0xFFFF
            most[at] = max(most[at], count)
        for (path, counter), count in most.items():
            self.most[path, counter][key] = max(self.most[path, counter].get(key, 0), count)
            if path and self.first_of(path) in self.sharing:
                sums[self.first_of(path), counter] += count
        for at, count in sums.items():
            self.sums[at][key] = max(self.sums[at].get(key, 0), count)

    def values(self, path, notes, shares=True):
        """The lengths of the path's function as formulas in those of the export; for a call that shares its lengths, all of them."""
        it = self.paths[path]
        if not it.before:
            return {}
        note, above = notes.functions.get(self.paths[it.before].function, {"call": {}, "shared": {}}), self.values(it.before, notes, shares)
        call = note["shared"].get(it.call, it.call) if shares else it.call
        return {n: tool.replaced(poly, above) for n, poly in note["call"].get(call, ("", "", {}))[2].items()}

    def bound(self, path, counter, notes, shares=True):
        """The most of a counter on a path by the notes, as a formula in the lengths of the export."""
        note = notes.functions[counter.function]
        if counter.kind == "rare":
            formula = note["rare"][counter.number][1]
        elif counter.kind == "call":
            formula = note["call"][counter.number][2]
        else:
            _, stride, formula, _ = note["loop"][counter.number]
            formula = tool.times(formula, tool.constant(Fraction(1, stride or 1)))
        return tool.replaced(formula, self.values(path, notes, shares))

    def compared(self, notes, only=None):
        """By path and counter: what was counted, the most by the notes, and the lengths; of this counter, or of all."""
        for (path, number), found in self.most.items():
            counter = self.counters[number]
            if counter.kind not in ("inside", "within") and only in (None, counter):
                yield from self.each(path, counter, found, self.bound(path, counter, notes))
        for (path, number), found in self.sums.items():
            counter = self.counters[number]
            if counter.kind != "within" and only in (None, counter):
                total = functools.reduce(tool.plus, [self.bound(other, counter, notes, False) for other in self.sharing[path]])
                yield from self.each(path, counter, found, total)

    def each(self, path, counter, found, poly):
        names, most = sorted({n for names in poly for n in names}), {}
        for lengths, count in found.items():
            values = tuple((n, dict(lengths)[n]) for n in names) if names else ()
            most[values] = max(most.get(values, 0), count)
        for values, count in most.items():
            yield path, counter, count, tool.value_at(poly, dict(values)), dict(values)

    def text(self, path):
        return " > ".join(self.paths[at].function for at in reversed(list(self.chain(path))))

    def faults(self, notes):
        """What was counted more often than these notes say."""
        for path, counter, count, most, lengths in self.compared(notes):
            if not path:
                yield f"{counter.kind} {counter.number} of {counter.function} ran in a call that the graph doesn't show"
            elif count > most:
                yield f"{counter.kind} {counter.number} of {self.text(path)} runs {count} times, by its note at most {most} with {lengths}"
        for (path, number), found in self.most.items():
            counter = self.counters[number]
            for name, note in notes.functions.items() if counter.kind in ("inside", "within") else ():
                for (call, other, block), (_, what) in note[counter.kind].items():
                    callers = [self.paths[at].before for at in self.chain(path) if self.paths[at].call == call and self.paths[self.paths[at].before].function == name]
                    if counter[1:] != (other, block) or not callers:
                        continue
                    if counter.kind == "inside":
                        yield f"block {block} of {self.text(path)} ran, but never does by a note of {name}"
                        continue
                    for _, _, count, most, lengths in self.each(path, counter, found, tool.replaced(what, self.values(callers[0], notes))):
                        if count > most:
                            yield f"block {block} of {self.text(path)} runs {count} times, by a note of {name} at most {most} with {lengths}"

    def reached(self):
        """The counters that some call brings to the most of their note."""
        return {counter for _, counter, count, most, _ in self.compared(self.notes) if count == most // 1}

    def nearest(self, counter):
        """The call that is nearest to the counter's note, in words."""
        found = [(most - count, f"{count} of {most} with {lengths} by {self.text(path)}") for path, _, count, most, lengths in self.compared(self.notes, counter)]
        return min(found, key=lambda it: it[0])[1] if found else "it never ran"

    def is_found(self, counter):
        """Whether a call is above a note with a turn less, or a byte."""
        notes = copy.deepcopy(self.notes)
        kind = notes.functions[counter.function][counter.kind]
        place = {"loop": 2, "call": 2, "rare": 1}[counter.kind]
        less, note = (kind[counter.number][1] or 1) if counter.kind == "loop" else 1, list(kind[counter.number])
        note[place] = tool.plus(note[place], tool.constant(-less))
        kind[counter.number] = tuple(note)
        return any(count > most for _, _, count, most, _ in self.compared(notes, counter))
