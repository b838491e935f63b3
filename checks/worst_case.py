"""Compares the bounds of tools/worst_case with counted calls and with docs/BOUNDS.md: checks/worst_case.

    checks/worst_case.py ROOM COUNT ARCHIVES [--write]

ARCHIVES has NAME.PROCESSOR.a for each library and processor. --write writes docs/BOUNDS.md in place of comparing it.

 counted   checks/worst_case.c is linked with each library, and makes drawn calls and ones that are made to be long, with
           nine settings, under qemu. No call takes more instructions, more bytes of memcpy, memmove or memset, or more
           stack than its bound. The longest of each kind is within NEAR of its bound, and the deepest stack is the
           computed one, but for those of SHALLOW.
 turns     No loop has more turns, and no call of memcpy, memmove or memset more bytes than its note has for the call's lengths.
           With one less in a note that some call reaches, the calls are above it; the others are printed.
 left out  No block ran that the bounds leave out.
 refused   Wrong notes, and libraries that have no bound, are refused by a line that names what to look at.
 clauses   Each clause that a note trusts is one of the function it names, and the header has each duty of the caller.
 document  docs/BOUNDS.md has the steps of STEPS, the bounds, the longest calls that were seen, and the sums of the code.
"""
import collections
import concurrent.futures
import functools
import importlib.machinery
import importlib.util
import os
import re
import shutil
import subprocess
import sys
import tempfile
import typing
from fractions import Fraction
from pathlib import Path

sys.dont_write_bytecode = True
TOP = Path(__file__).resolve().parent.parent
os.chdir(TOP)
loader = importlib.machinery.SourceFileLoader("worst_case", str(TOP / "tools/worst_case"))
tool = importlib.util.module_from_spec(importlib.util.spec_from_loader("worst_case", loader))
loader.exec_module(tool)
sys.modules["worst_case"] = tool  # so that a Fault gets from one process to another
from worst_case_turns import Turns  # noqa: E402

# PAGES, PAGEBYTES, K, PROXIES, QUANTUM
SETTINGS = [(16, 512, 1, 64, 7), (8, 512, 3, 16, 64), (24, 2048, 2, 200, 30), (16, 4096, 1, 256, 1000), (4, 16384, 1, 64, 1), (3, 131072, 1, 32, 16384), (9, 512, 1, 4, 1),
            (2, 512, 1, 1, 1)]
# The setting of the column "longest seen".
SHOWN = (16, 16384, 1, 4096, 256)
NEAR = Fraction(11, 10)
# With each of the settings of eight proxies or more the bound of an opening is within this of what was seen: loops over lists
# take eight entries at a time.
NEAR_OPEN = Fraction(12, 10)
# A frame on ARM64 is a multiple of 16 bytes, the lowest of which may be unused.
UNUSED = {tool.X86: 0, tool.ARM: 8}
# Whole slots have no words outside of blocks; a resize writes one word; a list that has its memory doesn't grow; a handle in a spine is
# in one word.
SHALLOW = {("norphuen_nonmoving", tool.X86, "nph_free"), ("norphuen_nonmoving", tool.X86, "nph_resize"), ("norphuen_nonmoving", tool.ARM, "nph_resize"),
           ("norphuen_nonmoving", tool.ARM, "nph_open"),
           ("norphuen_tlsf", tool.X86, "nph_open"), ("norphuen_tlsf", tool.ARM, "nph_open"), ("norphuen_half", tool.X86, "nph_open"),
           ("norphuen_half", tool.ARM, "nph_open"), ("norphuen_sliced", tool.X86, "nph_free"),
           ("norphuen_sliced", tool.X86, "nph_open"), ("norphuen_sliced", tool.ARM, "nph_open"),
           ("norphuen_large", tool.X86, "nph_free"), ("norphuen_large", tool.X86, "nph_malloc"), ("norphuen_large", tool.ARM, "nph_malloc"),
           ("norphuen_large", tool.ARM, "nph_open"),
           ("norphuen_images", tool.ARM, "nph_open"), ("norphuen_images", tool.ARM, "nph_load")}


class About(typing.NamedTuple):
    """What the checks know of a library: its name in docs/BOUNDS.md; the program that makes its calls, with its flags; the unit of
    its slots in words and its smallest slot in units, if it has size classes; and the calls in which no loop runs."""

    short: str
    program: str
    flags: tuple
    slots: tuple
    no_loop: str


MOST = "most_malloc most_free most_resize most_access most_has_room most_totals most_length kind version counts slot_words"
LIBRARIES = {
    "norphuen": About("cf", "worst_case.c", (), (1, 4), f"{MOST} class_of malloc free length has_room place lend return"),
    "norphuen_nonmoving": About("nm", "worst_case.c", ("-DNPH_USE_NONMOVING",), (4, 1), f"{MOST} class_of malloc length has_room"),
    **{f"norphuen_{short}": About(short, "worst_case.c", (f"-DNPH_USE_{short.upper()}",), (), f"{MOST} malloc free length has_room bytes_needed place lend return")
       for short in ("tlsf", "half")},
    "norphuen_sliced": About("sliced", "worst_case_sliced.c", (), (1, 4),
                             "most_malloc most_free most_step most_access most_has_room most_length version malloc free step left moving length has_room "
                             "slot_words class_of figures totals place lend return"),
    "norphuen_tasks": About("tasks", "worst_case_tasks.c", (), (1, 4), "version malloc free length set_quota task unassigned"),
    "norphuen_large": About("large", "worst_case_large.c", (), (1, 4), "most_malloc most_free most_access version length figures totals"),
    "norphuen_images": About("images", "worst_case_images.c", (), (1, 4), "version make free length image_bytes"),
}
# The lengths that the notes may use (docs/BOUNDS.md).
NAMES = "smtcwbfpnqlPWQS"
failed = []


def fail(text):
    failed.append(text)
    print(f"checks/worst_case: {text}", file=sys.stderr)


# The compiler, the other tools' prefix, and the emulator of each processor.
MACHINES = {tool.X86: ("gcc", "", "qemu-x86_64"), tool.ARM: ("aarch64-linux-gnu-gcc", "aarch64-linux-gnu-", "qemu-aarch64")}


def build(room, name, library, turns):
    """The command that makes the calls, and where each function of the library stands behind its first one."""
    compiler, prefix, emulator = MACHINES[library.processor]
    begin = f"{room}/{name}.{library.processor}"
    outside = [f"--redefine-sym={n}=outside_{n}" for n in sorted(tool.MOVERS | tool.ALLOCATOR)]
    subprocess.run([f"{prefix}objcopy", *outside, library.path, f"{begin}.outside.a"], check=True)
    # All code of the library in one section, so that it stays together.
    Path(f"{room}/together").write_text("SECTIONS { .text : { *(.text .text.*) } }", encoding="utf-8")
    subprocess.run([f"{prefix}ld", "-r", "-T", f"{room}/together", "-o", f"{begin}.o", "--whole-archive", f"{begin}.outside.a"], check=True)
    strict = ["-std=c11", "-O2", "-Wall", "-Wextra", "-Werror", "-Iinclude"]
    has = [f"-DHAS_{export.removeprefix('nph_')}" for export in library.exports]
    subprocess.run([compiler, *strict, *LIBRARIES[name].flags, *has, "-static", "-no-pie", "-o", begin, f"checks/{LIBRARIES[name].program}", f"{begin}.o"], check=True)
    plugin = f"{room}/count.so"
    subprocess.run(["gcc", *strict, "-shared", "-fPIC", "-o", plugin, "checks/worst_case_count.c"], check=True)
    printed = subprocess.run([f"{prefix}nm", "-n", begin], capture_output=True, text=True, check=True).stdout
    places = {symbol: int(at, 16) for at, _, symbol in (line.split() for line in printed.splitlines() if len(line.split()) == 3)}
    code = [(at, symbol) for symbol, at in places.items() if not symbol.startswith((".", "$"))]
    symbols = {function.symbol for function in library.functions.values()}
    first, last = min(places[symbol] for symbol in symbols), max(places[symbol] for symbol in symbols)
    past = min([at for at, _ in code if at > last], default=last + 1)
    strangers = {symbol for at, symbol in code if first <= at < past} - symbols
    if strangers:
        raise tool.Fault(f"{name}: {sorted(strangers)[0]} stands within the library's code")
    watched = turns.watched(lambda function, one: places[function.symbol] + one.at - function.place[2])
    Path(f"{begin}.watched").write_text("".join(f"{line}\n" for line in watched), encoding="utf-8")
    words = {"first": f"{first:x}", "past": f"{past:x}", "watched": f"{begin}.watched", **{word: f"{places[word]:x}" for word in ("instructions", "ran", "turns")}}
    return [emulator, "-B", "0", "-cpu", "max", "-plugin", ",".join([plugin, *map("=".join, words.items())]), begin], {
        name: places[function.symbol] - first for name, function in library.functions.items()}


def never_ran(name, library, notes, starts, ran):
    """No block ran that the tool leaves out, because its end stops or because a note says so."""
    for function in library.functions.values():
        numbers = notes.functions.get(function.name, {"never": {}})["never"]
        left = function.cut({block for block in function.blocks if block.number in numbers})
        for block in function.blocks:
            at = starts[function.name] + block.code[0].at - function.place[2]
            if block not in left and at in ran:
                fail(f"{name}: block {block.key} of {function.name} ran, but is left out of the bounds")


def class_count(slots, page_words):
    """How many size classes a page has: each size is 9/8 of the one before, rounded up, the last one the page."""
    unit, size = slots
    count = 1
    while unit * size < page_words:
        count, size = count + 1, -(-9 * size // 8)
    return count


def parts_of(fields, part):
    """Of a long object the number of parts, or for a read or a write of those that hold one of the bytes, and the most words in one
    part that hold one. An object that fits a page, of `part` bytes at most, has no parts."""
    long = fields["bytes"] > part
    if "n" not in fields:
        return -(-fields["bytes"] // part) * long, 0
    if not fields["n"]:
        return 0, 0
    cuts = range(fields["at"] // part + 1, (fields["at"] + fields["n"] - 1) // part + 1) if long else ()
    ends = [fields["at"], *(i * part for i in cuts), fields["at"] + fields["n"]]
    return (len(ends) - 1) * long, max((end - 1) // 8 - begin // 8 + 1 for begin, end in zip(ends, ends[1:]))


def lengths(about, kind, done, fields, steps):
    """The lengths of a call, by the names of the notes. A refused call returns before it works on any word."""
    at = dict.fromkeys(NAMES, 0)
    at.update({n: v for n, v in fields.items() if n in "PWQq"})
    at["p"] = 1 << (at["Q"] - 1).bit_length() if at["Q"] else 0
    at["S"] = class_count(about.slots, at["W"]) if about.slots and at["W"] else 0
    if kind in ("pages_needed", "admit", "least_quota"):
        at["n"] = fields["n"]
    if kind == "load" or kind == "save" and done:
        at.update({n: fields[n] for n in "nlw"})
    if not done:
        return at
    if kind == "free" and "s" in fields:
        at["s"], at["m"] = fields["s"], fields["s"] if fields["moved"] else 0
    if kind == "resize":
        at["s"], at["t"] = fields["s"], min(fields["s"], fields["n"])
        at["m"] = fields["s"] if fields["moved"] else 0
        at["c"] = max(0, (fields["old"] + 7) // 8 - fields["bytes"] // 8)
    if about.short == "large" and kind in ("malloc", "free", "read", "write"):
        at["l"], at["w"] = parts_of(fields, 8 * at["W"] - 8)
    elif kind in ("read", "write") and fields["n"]:
        at["w"] = (fields["at"] + fields["n"] - 1) // 8 - fields["at"] // 8 + 1
        at["b"] = max(0, steps - 3 - at["w"])
    if kind == "totals":
        at["f"] = max(0, (steps - 3) // 2)
    return at


def case_of(kind, fields):
    """The case of a call, if it has one."""
    if kind == "free" and "bytes" in fields:
        return "long" if fields["bytes"] > 8 * fields["W"] - 8 else "short"
    if kind == "free" and "moved" in fields:
        return "move" if fields["moved"] else "alone"
    if kind == "free":
        return "move" if fields["memmoves"] else "clear"
    if kind == "step":
        return "next" if fields["next"] else "last"
    if kind == "resize":
        return "same" if fields["s"] == fields["n"] else "move" if fields["moved"] else "alone"
    return ""


class Seen:
    """Of each kind of call the one that is nearest to its bound, the longest one, the deepest stack, and the number of calls."""

    def __init__(self, about, bounds, turns=None):
        self.about, self.bounds, self.turns, self.nearest, self.longest, self.opened = about, bounds, turns, {}, {}, {}
        self.deepest, self.count, self.known = collections.Counter(), 0, {}

    def most(self, row, at):
        """The most instructions of a call with these lengths, and the most calls and bytes of each function outside."""
        key = (row, *at.values())
        if key not in self.known:
            own, outside = self.bounds[row]
            self.known[key] = max((int(tool.value_at(poly, at)) for poly in own), default=0), [
                (what, int(tool.value_at(outside.get(what, {}), at))) for name in ("memcpy", "memmove", "memset") for what in (name, f"{name} bytes")]
        return self.known[key]

    def take(self, line, times=1):
        """What is above its bound in this call, which was made so many times."""
        kind, code, counted, stack, steps, *rest = line.split()
        counted, steps, moved, words = int(counted), int(steps), list(map(int, rest[:6])), list(zip(rest[6::2], map(int, rest[7::2])))
        fields = {"memmoves": moved[2], **{word: number for word, number in words if word[0] != "#"}}
        if self.about.short == "images":
            fields["moved"] = moved[2]  # the call doesn't say whether it moved an object
        call, done = f"nph_{kind}", code == "0"
        row = f"{call} {case_of(kind, fields)}"
        row = row if done and row in self.bounds else call
        self.count += times
        self.deepest[call] = max(self.deepest[call], int(stack))
        at = lengths(self.about, kind, done, fields, steps)
        if self.turns:
            self.turns.take(at, [(int(word[1:]), number) for word, number in words if word[0] == "#"])
        most, outside = self.most(row, at)
        if row not in self.nearest or most * self.nearest[row][1] < self.nearest[row][0] * counted:
            self.nearest[row] = (most, counted, line.strip())
        self.longest[row] = max(self.longest.get(row, (0, 0)), (counted, most))
        if kind == "open" and fields["Q"]:
            settings = (fields["P"], fields["W"], fields["Q"])
            self.opened[settings] = max(self.opened.get(settings, (0, 0)), (counted, most))
        if counted > most:
            yield f"{line.strip()} takes more than its bound {most} = {tool.formula_of(self.bounds[row][0])}"
        for (what, limit), number in zip(outside, moved):
            if number > limit:
                yield f"{line.strip()}: {what} {number} is more than {limit}"


def run(command, settings, count, seed=1):
    """The lines that the program prints."""
    words = [*command, str(seed), str(count), *map(str, settings)]
    done = subprocess.run(words, capture_output=True, text=True, check=False)
    if done.returncode:
        raise tool.Fault(f"{command[-1]} {settings} ended with status {done.returncode}: {done.stderr}")
    return done.stdout.splitlines()


def counted(name, library, notes, bounds, stacks, room, count):
    """What was seen in all calls, and the calls of the shown setting, each once."""
    turns = Turns(library, notes)
    command, starts = build(room, name, library, turns)
    seen, ran, name = Seen(LIBRARIES[name], bounds, turns), set(), f"{name}, {library.processor}"
    with concurrent.futures.ThreadPoolExecutor(4) as pool:
        shown = pool.submit(run, command, SHOWN, count)
        runs = [pool.submit(run, command, settings, count, seed) for seed, settings in enumerate(SETTINGS, 1)]
        for done in [shown, *runs]:
            for line, times in collections.Counter(done.result()).items():
                if line.startswith("ran "):
                    ran.add(int(line[4:], 16))
                    continue
                for text in seen.take(line, times):
                    fail(f"{name}: {text}")
    never_ran(name, library, notes, starts, ran)
    for text in turns.faults(notes):
        fail(f"{name}: {text}")
    for row in bounds:
        most, number, line = seen.nearest.get(row, (0, 0, ""))
        if any(other.startswith(row + " ") for other in bounds):
            continue  # its cases are compared
        if not line:
            fail(f"{name}: no call of {row} was made")
        elif most > NEAR * number:
            fail(f"{name}: no call of {row} is near its bound; the nearest has {most}: {line}")
        if "SHOW" in os.environ:
            print(f"{name} {row}: {most / number if number else 0:.3f} {most} {line}")
    for (pages, words, proxies), (number, most) in seen.opened.items():
        if "SHOW" in os.environ:
            print(f"{name} opening {pages} pages of {words} words with {proxies} proxies: {most / number:.3f}")
        if proxies >= 8 and most > NEAR_OPEN * number:
            fail(f"{name}: the longest opening of {pages} pages of {words} words with {proxies} proxies takes {number}, its bound is {most}")
    for export, stack in stacks.items():
        less = stack - seen.deepest[export]
        if less < 0 or less > UNUSED[library.processor] and (library.name, library.processor, export) not in SHALLOW:
            fail(f"{name}: {export} used {seen.deepest[export]} bytes of stack, not {stack}")
    return seen, sorted({line for line in shown.result() if not line.startswith("ran ")})


def refuses(what, words, archive, notes):
    """The tool refuses these notes or this library, by a line with the words."""
    done = subprocess.run(["tools/worst_case", archive, "--notes", notes], capture_output=True, text=True, check=False)
    if done.returncode != 2 or not re.search(words, done.stderr):
        fail(f"{what} is not refused by a line with '{words}', but by '{done.stderr.strip()[:200]}'")
    return 1


def mutations(name, library, room, lines, turns):
    """Notes that are wrong, each in one way: the tool refuses them, or a counted call is above their bound."""
    column, file = tool.PROCESSORS.index(library.processor), Path(room) / f"{name}.wrong"
    text, count = Path(f"{tool.NOTES}/{name}").read_text(encoding="utf-8"), 0
    read = lambda: [tool.Line(line) for line in text.splitlines()]
    notes = [(n, line) for n, line in enumerate(read()) if line.columns[column]]
    first = lambda kind, words="": next((n for n, line in notes if line.kind == kind and words in line.columns[column][0]), None)

    def write(number, change):
        """Changes the line with this number, and writes the notes."""
        wrong = read()
        change(wrong[number])
        file.write_text("".join(line.written() + "\n" for line in wrong), encoding="utf-8")

    def try_one(what, words, number, change):
        nonlocal count
        if number is not None:
            write(number, change)
            count += refuses(f"{name}, {library.processor}: {what}", words, library.path, str(file))

    def found(number, change):
        """The changed notes, and their bounds."""
        write(number, change)
        wrong = tool.Notes(str(file), library.processor)
        return wrong, tool.Bounds(library, wrong)

    def function_of(number):
        """The function that the line with this number is of."""
        return next(line.name for line in reversed(read()[:number]) if line.kind == "function")

    def is_found(number, change):
        """Whether a counted call is above the bound of the changed notes of a function: one of those that lead to it."""
        _, wrong = found(number, change)
        seen = Seen(LIBRARIES[name], {row: tool.split_cost(cost) for row, cost in wrong.bounds(function_of(number)).items()})
        return not wrong.problems and any(text for line in lines if f"nph_{line.split()[0]}" in seen.bounds for text in seen.take(line))

    def put(place):
        return lambda line: line.columns[column].__setitem__(0, place)

    def less(times):
        def change(line):
            by = re.search(r" by (\d+)$", line.columns[column][0])
            line.formula += f" - {times * int(by[1] if by else 1)}"
        return change

    lengths = [(n, line) for n, line in notes if line.kind in ("loop", "call") and re.search(r"\b[a-z]\b", line.formula) and "=" not in line.formula]
    small = 0
    # Those of reads and writes first, which are found at once.
    for number, line in sorted(lengths, key=lambda it: not re.search(r"\b[bw]\b", it[1].formula)):
        small += small < 2 and is_found(number, less(6 if line.kind == "loop" else 1))
    if not small:
        fail(f"{name}, {library.processor}: no length can be made too small so that a counted call is above the bound")
    count += small
    # A block that never runs in a call, in another call of the function.
    for number, line in notes:
        for call, (block, _) in enumerate(library.functions[function_of(number)].calls if line.kind == "never" and line.name else (), 1):
            right = line.columns[column][0]
            moved = re.sub(r"in call .*", f"in call {call}.{block.sum}", right)
            wrong, bounds = found(number, put(moved))
            if moved != right and not bounds.problems and not any(turns.faults(wrong)):
                fail(f"{name}, {library.processor}: in place of '{right}' the notes may have '{moved}'")
            count += moved != right
    # A block that is rare in a call, as one that never runs there.
    for number, line in notes:
        if line.kind == "rare" and line.name:
            wrong, _ = found(number, lambda line: setattr(line, "formula", "0"))
            if not any(turns.faults(wrong)):
                fail(f"{name}, {library.processor}: the notes may have '{wrong.lines[number].text}'")
            count += 1
    loop, call, never = first("loop"), first("call"), first("never")
    place = lambda number: read()[number].columns[column][0]
    try_one("a loop without a note", "has no note", loop, lambda line: line.columns[column].pop(0))
    try_one("a call without a length", "needs its (bytes|length)", call, lambda line: line.columns[column].pop(0))
    try_one("a place in doubt", "is in doubt: look at --show", loop, put("?" + place(loop)))
    try_one("the print of another function", r"changed .*look at --show", first("function"), put("000000"))
    try_one("a note for a loop that isn't there", "stale note: no loop 99", loop, lambda line: line.columns[column].append("99.0000"))
    try_one("a note for a function that isn't there", "stale note: no function", first("function"), lambda line: setattr(line, "name", "no_such_function"))
    try_one("a wrong stride", "changes no register by 4711", strided := first("loop", " by "), lambda line: put(re.sub(r"by .*", "by 4711", place(strided)))(line))
    try_one("a fact on another block", "stale note: no (block|jump)", never, lambda line: put(re.sub(r"\.\w+$", ".0000", place(never)))(line))
    return count


def lower_notes(name, library, turns):
    """With a turn or a byte less in a note, counted calls are above it. Returns the number of such notes, and those that no call
    reaches."""
    reached, far = turns.reached(), []
    for counter in turns.counters:
        text = f"{name}, {library.processor}: {counter.kind} {counter.number} of {counter.function}"
        if counter in reached and not turns.is_found(counter):
            fail(f"{text}: with one less in its note no counted call is above it")
        if counter not in reached and counter.kind not in ("inside", "within"):
            far.append(f"{text}: {turns.nearest(counter)}")
    return len(reached), far


# Libraries that have no bound, in C, and words of the line that says so.
UNBOUNDED = [
    ("int nph_malloc(int (*f)(void)) { return f() + 1; }", "nph_malloc: a jump or call through a pointer"),
    ("int nph_malloc(int (*f)(void)) { return f(); }", "nph_malloc: a jump or call through a pointer"),
    ("int nph_malloc(int n) { return n < 2 ? n : n * nph_malloc(n - 1) + nph_malloc(n - 2); }", "recursion: nph_malloc calls nph_malloc"),
    ("void take(char *); int nph_malloc(int n) { char a[n]; take(a); return a[0]; }", "nph_malloc: the frame isn't fixed"),
    ("void *rattle_alloc(long, long); void *nph_malloc(int n) { return rattle_alloc(n, 8); }", "nph_malloc leads to rattle_alloc: only nph_close and nph_load and nph_open may"),
    ("void take(int); int nph_malloc(int n) { take(n); return n; }", "call 1 of take, which is outside and isn't known"),
    ("int nph_malloc(volatile int *n) { while (*n) ; return 1; }", "loop 1\\.\\w+ has no note: how often"),
    ("int nph_malloc(volatile int *n) { if (*n) for (;;) ; return 1; }", "nph_malloc: an endless loop"),
    ("int nph_malloc(volatile int *n) { if (*n) goto b; a: ++*n; b: *n += 2; if (*n < 9) goto a; return 1; }", "nph_malloc: a loop with two entries|has no note"),
]


def unbounded(room):
    """A library that has no bound is refused."""
    notes = Path(room) / "no.notes"
    notes.write_text("", encoding="utf-8")
    for number, (text, words) in enumerate(UNBOUNDED):
        for compiler, prefix, _ in MACHINES.values():
            file = f"{room}/unbounded{number}"
            Path(f"{file}.c").write_text(text, encoding="utf-8")
            calls = "-fno-optimize-sibling-calls" if "nph_malloc(n - 1)" in text else "-foptimize-sibling-calls"
            subprocess.run([compiler, "-O1", calls, "-w", "-c", "-o", f"{file}.o", f"{file}.c"], check=True)
            subprocess.run([f"{prefix}ar", "rc", f"{file}.a", f"{file}.o"], check=True)
            refuses(f"{text} by {compiler}", words, f"{file}.a", str(notes))
            os.remove(f"{file}.a")
    return len(UNBOUNDED) * len(MACHINES)


@functools.cache
def sources_of(crate):
    """The text of a crate of the repository, or of the kit; None if it is the kit's and there is no kit."""
    folder = Path(f"crates/{crate}/src")
    if not folder.is_dir():
        if not shutil.which("rt"):
            return None
        kit = Path(subprocess.run(["rt", "doc"], capture_output=True, text=True, check=True).stdout.split("\n")[0]).parent
        folder = kit / "rattle" / crate / "src"
    return "\n".join(path.read_text(encoding="utf-8") for path in folder.glob("**/*.rt"))


def clauses(name, notes):
    """Each clause that a note trusts is one of the function that it names, and the header has the words of a duty. Without a kit
    its clauses are not looked up."""
    for function, note in notes.functions.items():
        for place, (_, (where, *words)) in [*note["never"].items(), *note["jump"].items(), *note["inside"].items()]:
            if "/" in where:
                text = Path(where).read_text(encoding="utf-8")
                found = all(word in text for word in words)
            else:
                trusted, label = words
                sources = sources_of(where)
                found = sources is None or any(re.search(rf"^ *(requires|ensures) {label} ", part.partition("fn ")[0], re.M) for part in re.split(rf"fn {trusted}\b", sources)[1:])
            if not found:
                fail(f"{name}: a note of {function}, block {place}, trusts {' '.join(words)} of {where}, which is not there")


# The steps of docs/BOUNDS.md, by the contracts: of a call in each library, or in one. The other calls count none.
STEPS = {
    "class_of": "1", "figures": "0", "last_steps": "0", "lend": "0", "place": "1", "return": "0",
    "counts": "0", "next": "p", "set_bound": "0",
    **{("cf", call): steps for call, steps in {
        "malloc": "17", "free, alone": "20 + s", "free, move": "20 + s", "read": "2 + w", "write": "2 + w", "length": "2", "has_room": "1",
        "slot_words": "3", "totals": "0", "resize, same": "6 + r", "resize, alone": "34 + s + t", "resize, move": "34 + s + t"}.items()},
    **{("nm", call): steps for call, steps in {
        "malloc": "18", "free, alone": "22 + s + s/2", "free, move": "22 + s + s/2", "read": "3 + w + b", "write": "3 + w + b", "length": "3",
        "has_room": "1", "slot_words": "4", "totals": "0", "resize, same": "9 + r + b", "resize, alone": "38 + 3(s + t)/2",
        "resize, move": "38 + 3(s + t)/2"}.items()},
    **{(short, call): steps for short in ("tlsf", "half") for call, steps in {
        "malloc": "25", "free": "41 + s", "resize": "1", "read": "2 + w", "write": "2 + w", "length": "2", "has_room": "4",
        "slot_words": "2", "totals": "3 + 2f"}.items()},
    **{("sliced", call): steps for call, steps in {
        "malloc": "17", "free, clear": "23 + q", "free, move": "23 + q", "step, last": "15 + q", "step, next": "15 + q", "left": "0", "moving": "0", "read": "2 + w", "write": "2 + w", "length": "2",
        "has_room": "1", "slot_words": "3", "totals": "0"}.items()},
    **{("tasks", call): steps for call, steps in {
        "malloc": "17", "free, alone": "20 + s", "free, move": "20 + s", "read": "2 + w", "write": "2 + w", "length": "2"}.items()},
    **{("large", call): steps for call, steps in {
        "malloc": "17, 19 + 18l", "free, short": "20 + s", "free, long": "24 + 19l + s", "read": "2 + w, 5l + w", "write": "2 + w, 5l + w", "length": "0", "totals": "0"}.items()},
}


def cells_of(name, bounds, stacks, lines):
    """Of each call its cells in docs/BOUNDS.md: instructions, the longest call seen with its bound if that varies, stack."""
    seen, cells = Seen(LIBRARIES[name], bounds), {}
    for line in lines:
        for _ in seen.take(line):
            pass
    for row, (own, _) in bounds.items():
        if row in seen.longest and not any(other.startswith(row + " ") for other in bounds):
            number, most = seen.longest[row]
            call = row.removeprefix("nph_").replace(" ", ", ")
            bound = tool.formula_of(own).replace("*", "")
            longest = f"{number:,}" if bound.isdigit() else f"{number:,} of {most:,}"
            cells[call] = (bound, longest, f"{stacks[row.split()[0]]:,}")
            if most > NEAR * number:
                fail(f"{name}: with the shown setting the longest {call} takes {number}, its bound is {most}")
    return cells


# docs/BOUNDS.md in front of its tables, and between the two.
HEAD = """`checks/worst_case --write` writes this page, and `checks/worst_case` compares it.

# The most steps, instructions and stack of each call from C

[SPEED](SPEED.md#the-most-instructions-of-a-call-from-c) shows how to compute time from these bounds. The steps are proved. The instructions and the stack are computed from the machine code, without those of `memcpy`, `memmove`, `memset` and the allocator. Calls of a library with equal entries share a row; for those with no entry under "steps" no step bound is proved. If a cell has bounds with "or" between them, the greatest holds.

- "Longest": the instructions of the longest call counted on 16 pages of 16 KiB with k = 1 and 4,096 proxies; if the bound has letters, also its value for that call.
- "Stack": bytes, with return addresses.
- `cf` is `libnorphuen.a`, `nm` `libnorphuen_nonmoving.a`; `half` is `libnorphuen_half.a`, and so on.
- A free or resize moves no other object ("alone"), or one ("move"). A resize keeps its slot ("same"), or takes another.
- With `large` a free is of an object that fits a page ("short"), or of one in parts ("long"). Of two step bounds the first is for objects that fit a page.
- With `sliced` a free clears a slot ("clear"), or begins to move an object ("move"). A `step` that ends a job leaves none pending ("last"), or begins one that moves an object ("next"). For other calls of `step` both bounds hold.

| letter | counts |
|---|---|
| s | words of the slot or block that is freed; in a resize, of the old slot |
| t | words of the smaller slot of a resize |
| m | words of the slot of the object that moves |
| r | words of the slot after the word with the first byte past the new length |
| c | those of r that are cleared |
| w | words that contain one of the bytes read or written |
| b | blocks of four words that contain the r or w words |
| f | free blocks |
| n | needs that the call is passed, or objects of an image |
| q | words of the quantum |
| l | with `large` the parts of a long object; in a read or write, those that contain one of the bytes. s then counts the words of all its slots; under instructions, w counts only the words in one part, the one with the most of them |
| l | with `images` chunks of at most 4,096 bytes in which objects are copied; w then counts the words of the longest chunk |
| P, W, S | pages; words of a page; size classes |
| Q, p | proxies, with `tasks` those of a task; Q rounded up to a power of two |

| library | call | steps | instructions, x86-64 | longest | stack | instructions, ARM64 | longest | stack |
|---|---|---|---|---|---|---|---|---|
"""
SUMS = """
Checksums of each library's code, which `tools/worst_case` prints too:

| archive | x86-64 | ARM64 |
|---|---|---|
"""


def steps_of(name, call):
    """The steps of a call, by its contract: those of its own library, or those of each."""
    return STEPS.get((LIBRARIES[name].short, call), STEPS.get(call, ""))


def rows_of(name, cells):
    """The rows of a library. Calls without kinds of their own that have equal cells share the row of the first."""
    rows = {}
    for call in cells[name, tool.PROCESSORS[0]]:
        found = [it for processor in tool.PROCESSORS for it in cells[name, processor].get(call, ("",) * 3)]
        rows.setdefault((steps_of(name, call), *found, call if "," in call else ""), []).append(call)
    for (*found, _), calls in rows.items():
        yield " | ".join([f"| `{LIBRARIES[name].short}`", ", ".join(calls), *found]) + " |\n"


def document(cells, codes, writes):
    """Compares docs/BOUNDS.md, or writes it."""
    path = Path("docs/BOUNDS.md")
    sums = [" | ".join([f"| `lib{name}.a`", *(codes[name, processor] for processor in tool.PROCESSORS)]) + " |\n" for name in LIBRARIES]
    whole = "".join([HEAD, *(row for name in LIBRARIES for row in rows_of(name, cells)), SUMS, *sums])
    if writes:
        path.write_text(whole, encoding="utf-8")
        subprocess.run(["tools/index", "--write"], check=True)  # docs/CALLS.md has the steps too
        return
    here = path.read_text(encoding="utf-8")
    for row in sorted(set(whole.splitlines()) ^ set(here.splitlines())):
        fail(f"docs/BOUNDS.md {'has' if row in here.splitlines() else 'lacks'} the line {row}")
    if here != whole and not failed:
        fail("docs/BOUNDS.md has its lines in another order")


def checked(name, processor, count, archives, room):
    """Checks a library for a processor. Returns the sum of its code, its cells of docs/BOUNDS.md, the number of counted calls, the lengths
    in the notes that some call reaches and those that none does, and the number of wrong notes."""
    library = tool.Library(f"{archives}/{name}.{processor}.a", name)
    notes = tool.Notes(f"{tool.NOTES}/{name}", processor)
    found = tool.Bounds(library, notes)
    table = found.table()
    bounds = {row: tool.split_cost(cost) for row, cost in found.bounds().items()}
    for text in found.problems:
        fail(f"{name}, {processor}: {text}")
    allocator = {export for export, row in table.items() if row["allocator"]}
    if allocator != tool.MAY_ALLOCATE & set(library.exports):
        fail(f"{name}, {processor}: a path leads to the allocator from {sorted(allocator)}")
    for call in LIBRARIES[name].no_loop.split():
        if table.get(f"nph_{call}", {"running loops": 1})["running loops"]:
            fail(f"{name}, {processor}: {call} has a loop, or is not there")
    stacks = {export: row["stack"] for export, row in table.items()}
    seen, lines = counted(name, library, notes, bounds, stacks, room, count)
    cells = cells_of(name, bounds, stacks, lines)
    clauses(name, notes)
    return library.code, cells, seen.count, *lower_notes(name, library, seen.turns), mutations(name, library, room, lines, seen.turns)


def alone(room, work, *words):
    """Does the work in a process and a folder of its own. Returns its result, and what failed."""
    failed.clear()
    with tempfile.TemporaryDirectory(dir=room) as folder:
        return work(*words, folder), list(failed)


def main():
    room, count, archives, *rest = sys.argv[1:]
    known = re.findall(r"^(norphuen\w*) staticlib:", Path("crates.txt").read_text(encoding="utf-8"), re.M)
    for name in sorted(set(known) ^ {*LIBRARIES}):
        fail(f"{name} is a library of crates.txt, or of LIBRARIES, but not of both")
    with concurrent.futures.ProcessPoolExecutor(4) as pool:
        jobs = {(name, processor): pool.submit(alone, room, checked, name, processor, int(count), archives)
                for name in LIBRARIES for processor in tool.PROCESSORS}
        jobs["unbounded"] = pool.submit(alone, room, unbounded)
        done = {job: future.result() for job, future in jobs.items()}
    failed.extend(text for _, texts in done.values() for text in texts)
    wrong, _ = done.pop("unbounded")
    codes, cells, total, reached, unreached = {}, {}, 0, 0, []
    for job, ((codes[job], cells[job], calls, met, unmet, refused), _) in done.items():
        total, reached, unreached, wrong = total + calls, reached + met, unreached + unmet, wrong + met + refused
    for text in unreached:
        print(f"checks/worst_case: no call reaches the length of {text}", file=sys.stderr)
    document(cells, codes, bool(rest))
    if failed:
        sys.exit(1)
    print(f"checks/worst_case: of {total:,} counted calls none is above its bound, nor above one of {reached + len(unreached)} lengths in the notes, of which "
          f"{reached} are reached; {wrong} wrong notes and libraries are refused", file=sys.stderr)


try:
    main()
except tool.Fault as fault:
    fail(str(fault))
    sys.exit(1)
