"""The cases of checks/page: what the page shows, read off its elements, against what the tool prints when asked here.

 recordings  page/recordings.js is what tools/heap_picture makes of the examples.
 replies     Beside each example the page shows the replies of its `.out`, in mode compare those of each manager.
 facts       At twenty places of each example, or at all if there are fewer: the place and the slot of every object by `q`,
             the figures by `walk`, `frag` and `steps`; in mode slice the words by `p`; the pages of tasks, spines and parts.
 moves       At twenty moves of each: the arrow's ends and the sentence, by `q` of each object before and after.
 claims      Each sentence that the page quotes is in README.md or docs/GUARANTEES.md.
 scripts     A script with a bad line, an empty one, and one of 2,000 commands, made by tools/heap_picture replay.
 shapes      What must be there in modes compare, slice, quota and large, at both widths, in dark and light: within the page, with
             no text cut off, and with names for screen readers.
 use         Keys, the link, what is said without a module; no error on the console, and nothing loaded but the page's files.
 refused     Bad input of tools/heap_picture ends with status 2 and one line.
"""
import base64
import gzip
import html
import json
import os
import re
import subprocess
import sys
import tempfile
from collections import Counter
from pathlib import Path

from browser import Browser

PROGRAM, TOOL = sys.argv[1], "tools/heap_picture"
PAGE = Path("page/index.html").resolve().as_uri()
MANAGERS = ("cf", "nm", "tlsf", "half")
failed, cases = [], 0
room = tempfile.TemporaryDirectory()


def case(name, good, found=""):
    """Counts a case; if it is not good, prints its name and what was found."""
    global cases
    cases += 1
    if not good:
        failed.append(name)
        if len(failed) <= 12:
            print(f"{Path(sys.argv[0]).stem}: {name}: {str(found)[:300]}", file=sys.stderr)


def ask(arguments, lines):
    """What the tool prints for these lines: a reply each, of several lines for `walk`."""
    done = subprocess.run([PROGRAM, *arguments], input="".join(f"{it}\n" for it in lines), capture_output=True, text=True, timeout=120)
    replies, some = [], []
    for line in done.stdout.splitlines():
        some.append(line)
        if not line.startswith("class "):
            replies.append("\n".join(some))
            some = []
    return replies


class Example:
    """An example that is on the page: its arguments and its commands."""

    def __init__(self, name, text, out=None):
        self.name, self.text, self.out = name, text, out
        words = re.search(r"^# arguments: (.*)$", text, re.M)
        self.arguments = words[1].split() if words else []
        self.mode = self.arguments[0] if self.arguments and self.arguments[0][0] != "-" else "run"
        self.own = self.arguments[-1] if "--manager" in self.arguments else "cf"
        lines = [line for line in text.splitlines() if line.split() and line.split()[0][0] != "#"]
        self.commands = lines[: len(ask(self.words(self.own), lines))]
        self.replies = {}

    def words(self, manager):
        return ["run", "--manager", manager] if self.mode in ("run", "compare") else self.arguments

    def answered(self, manager):
        """The reply to each command."""
        if manager not in self.replies:
            self.replies[manager] = ask(self.words(manager), self.commands)
        return self.replies[manager]

    def refused(self, manager, i):
        return sum(it.startswith(("refused", "busy")) for it in self.answered(manager)[: i + 1])

    def bad(self):
        return bool(self.out) and self.out.splitlines()[-1].startswith("bad line")

    def good(self):
        """The commands at which nothing that follows forbids a question."""
        commands = self.commands[:-1] if self.bad() else self.commands
        return [i for i in range(len(commands)) if i + 1 == len(commands) or commands[i + 1].split()[0] != "k"]

    def places(self):
        """Twenty of them."""
        good = self.good()
        return sorted({good[i * (len(good) - 1) // 19] for i in range(20)}) if len(good) > 20 else good

    def asked(self, manager, questions, places=None):
        """For each place the replies to the questions there: questions(i, live) with the ids that live after command i."""
        lines, at, live, spots = [], {}, [], set(self.places() if places is None else places)
        for i, (command, reply) in enumerate(zip(self.commands, self.answered(manager))):
            lines.append(command)
            verb, *rest = command.split()
            ok = reply == "ok"
            if ok and verb == "m":
                live.append(rest[0])
            if ok and verb == "f":
                live.remove(rest[0])
            if i in spots:
                more = questions(i, list(live))
                at[i] = (more, len(lines))
                lines += more
        replies = ask(self.words(manager), lines)
        return {i: dict(zip(more, replies[start:])) for i, (more, start) in at.items()}


def examples():
    """The examples with a picture, by the list in their document."""
    rows = re.findall(r"^- \[(\w+)\]\(\1\.cf\), `(\w+)", Path("examples/README.md").read_text(), re.M)
    return [Example(name, Path(f"examples/{name}.cf").read_text(), Path(f"examples/{name}.out").read_text())
            for name, mode in rows if mode in ("run", "compare", "slice", "quota", "large")]


def number(text):
    return int(text.split()[-1])


def numbers(text):
    return [int(it) for it in text.split() if it.isdecimal()]


# ---- what the page shows

SHOWN = """(n => { const card = document.querySelectorAll('.heap')[n]; return {
  pieces: [...card.querySelectorAll('.pages i[data-id]')].map(it => [it.dataset.id, +it.dataset.at, +it.dataset.words, it.title, it.style.left, it.style.width]),
  facts: Object.fromEntries([...card.querySelectorAll('[data-fact]')].map(it => [it.dataset.fact, it.textContent])),
  tasks: [...card.querySelectorAll('[data-task]')].map(it => [+it.dataset.task, +it.dataset.pages, +it.dataset.free, [...it.querySelectorAll('[data-used]')].map(box => [+box.dataset.words, +box.dataset.used])]),
  parts: [...card.querySelectorAll('[data-object]')].map(it => [it.dataset.object, +it.dataset.inner, it.querySelectorAll('.chip').length]),
  boxes: [...card.querySelectorAll('[data-used]')].map(box => [+box.dataset.words, +box.dataset.used]),
  costs: [...document.querySelectorAll('[data-steps]')].map(it => [it.dataset.steps, it.textContent, it.parentElement.querySelector('q').textContent, it.parentElement.querySelector('[data-words]')?.textContent ?? '']),
  bound: document.querySelector('[data-bound]')?.textContent ?? '', free: card.querySelectorAll('.page.free').length, arrow: card.querySelectorAll('.arrow path').length, said: card.querySelector('.said').textContent }; })"""


# Both ends of the arrow: its page, how far it is along it, and a pixel and a half in words.
ARROW = """(() => { const card = document.querySelector('.heap'), svg = card.querySelector('.arrow'), off = svg.getBoundingClientRect(), boxes = [...card.querySelectorAll('.page .box')].map(it => it.getBoundingClientRect());
  const at = (x, y) => { const n = boxes.findIndex(it => x >= it.left && x <= it.right && y >= it.top && y <= it.bottom); return n < 0 ? null : [n, (x - boxes[n].left) / boxes[n].width, 1.5 * settings().words / boxes[n].width]; };
  const from = svg.querySelector('circle'), to = svg.querySelector('polygon')?.points[0];
  return from && [at(off.left + from.cx.baseVal.value, off.top + from.cy.baseVal.value), at(off.left + to.x, off.top + to.y)]; })()"""


def said_number(text):
    return int(re.sub(r"[^\d]", "", text) or 0)


def check_replies(browser, example):
    names = MANAGERS if example.mode == "compare" else [example.own]
    for manager in names:
        browser.do(f"beside(['{manager}'])")
        printed = "\n".join(browser.do("[...document.querySelectorAll('[data-reply]')].map(it => it.textContent)"))
        wanted = [line.removeprefix(f"{manager} ") for line in example.out.splitlines() if example.mode != "compare" or line.startswith(f"{manager} ")]
        case(f"{example.name}, {manager}: the replies beside the script", printed.splitlines() == wanted, printed[-200:])


def check_places(browser, example, manager):
    """The picture of a manager that has `q`: against `q` of each object, `walk`, `frag` and `steps`."""
    browser.do(f"beside(['{manager}'])")
    found = example.asked(manager, lambda i, live: [f"q {it}" for it in live] + ["walk", "frag", "steps"])
    page_words = numbers(example.commands[0])[1] // 8
    for i, replies in found.items():
        browser.do(f"show({i})")
        it, where = browser.do(f"{SHOWN}(0)"), f"{example.name}, {manager}, command {i + 1}"
        wanted = {line.split()[1]: int(reply.split()[1]) for line, reply in replies.items() if line.startswith("q ")}
        place, words = {}, Counter()
        for name, at, count, *_ in it["pieces"]:
            place[name] = min(at, place.get(name, at))
            words[name] += count
        case(f"{where}: places as `q` prints them", place == wanted, [(k, place.get(k), wanted.get(k)) for k in {*place, *wanted} if place.get(k) != wanted.get(k)][:4])
        off = [one for one in it["pieces"] if abs(float(one[4][:-1]) - 100 * (one[1] % page_words) / page_words) > 0.01 or abs(float(one[5][:-1]) - 100 * one[2] / page_words) > 0.01]
        case(f"{where}: drawn where they are", not off, off[:3])
        asked, taken, held = numbers(replies["frag"])
        case(f"{where}: slots as `frag` counts them", 8 * sum(words.values()) == taken, (8 * sum(words.values()), taken))
        facts, walk = it["facts"], replies["walk"].split("\n")
        live = {"live": len(wanted), "moves": numbers(replies["steps"])[2] if manager in ("cf", "nm") else 0}
        if manager in ("cf", "nm"):
            _, used, free = numbers(walk[-1])
            live |= {"pages": used, "free": free, "largest": 8 * page_words if free else 0}
            classes = {(size, numbers(line)[2], numbers(line)[3]) for line in walk[:-1] for size in [numbers(line)[0]]}
            drawn = {(size, sum(1 for name in words if words[name] == size), len({place[name] // page_words for name in words if words[name] == size})) for size in set(words.values())}
            case(f"{where}: classes as `walk` prints them", drawn == classes and it["free"] == free, (drawn, classes, it["free"]))
        else:
            _, gaps, largest = numbers(walk[-1])
            live |= {"gaps": gaps, "largest": 8 * largest, "left": held - taken}
        live["refused"] = example.refused(manager, i)
        shown = {name: said_number(facts[name]) for name in live}
        case(f"{where}: the figures", shown == live, (shown, live))
        verb, reply = example.commands[i].split()[0], example.answered(manager)[i]
        if verb in "mfz" and (reply == "ok" or reply.startswith("refused")):
            check_cost(where, manager, it, numbers(replies["steps"]))


def check_cost(where, manager, it, steps):
    """The steps that are shown are those that `steps` prints; none are more than the bound that is quoted, if its s is shown."""
    of, said, most, words = (it["costs"] + [["", "", "0", ""]])[0]
    case(f"{where}: the steps", of == manager and said_number(said) == steps[0] and (manager not in ("cf", "nm") or said_number(it["bound"]) == steps[1]), (it["costs"], it["bound"], steps))
    case(f"{where}: within the quoted bound", not (words or most.isdigit()) or steps[0] <= eval(most.replace("s", words)), (most, words, steps))


def check_moves(browser, example, manager):
    """At up to twenty moves: the arrow runs from the slot where `q` found the object before to the one where it finds it now, and
    the sentence says so."""
    moved = {i: numbers(it["steps"])[2] for i, it in example.asked(manager, lambda i, live: ["steps"], example.good()).items()}
    moves = [i for i in moved if moved[i] > moved.get(i - 1, 0)]
    moves = sorted({moves[i * (len(moves) - 1) // 19] for i in range(20)}) if len(moves) > 20 else moves
    found = example.asked(manager, lambda i, live: [f"q {it}" for it in live] + ["walk"], {j for i in moves for j in (i - 1, i)})
    page_words = numbers(example.commands[0])[1] // 8
    browser.do(f"beside(['{manager}'])")
    for i in moves:
        own, (before, now) = f"q {example.commands[i].split()[1]}", (found[j] for j in (i - 1, i))
        (name, start, end), = [(it[2:], number(before[it]), number(now[it])) for it in now if it[0] == "q" and it in before and before[it] != now[it] and it != own]
        browser.do(f"show({i})")
        where, seen, it = f"{example.name}, {manager}, move at command {i + 1}", browser.do(ARROW), browser.do(f"{SHOWN}(0)")
        words = next((count for one, _, count, *_ in it["pieces"] if one == name), 0)
        case(f"{where}: the arrow", seen and all(one and low - one[2] <= page_words * (one[0] + one[1]) <= low + words + one[2] for one, low in zip(seen, (start, end))), (seen, start, end, words))
        freed = number(now["walk"]) > number(before["walk"])
        wanted = f"Object {name} moves from page {start // page_words} into the gap on page {end // page_words}" + (f", and page {start // page_words} is free again." if freed else ".")
        case(f"{where}: the sentence", wanted in it["said"], (wanted, it["said"]))


def check_refused_count(it, example, i):
    case(f"{example.name}, command {i + 1}: how many were refused", said_number(it["facts"]["refused"]) == example.refused("cf", i), it["facts"])


def check_slices(browser, example):
    """In mode slice: each object has all its words, once; its header's place has its length; and what was written is there."""
    size = numbers(example.commands[0])
    browser.do("beside(['cf'])")
    found = example.asked("cf", lambda i, live: [f"p {word}" for word in range(size[0] * size[1] // 8)])
    lengths, bytes_ = {}, {}
    for i, command in enumerate(example.commands):
        verb, *rest = command.split()
        if verb == "m":
            lengths.setdefault(rest[0], int(rest[1]))
            bytes_.setdefault(rest[0], {})
        if verb == "w":
            bytes_[rest[0]] |= {int(rest[1]) + j: one for j, one in enumerate(bytes.fromhex(rest[2]))}
        if i not in found:
            continue
        browser.do(f"show({i})")
        it, words = browser.do(f"{SHOWN}(0)"), [int(word, 16) for word in found[i].values()]
        check_refused_count(it, example, i)
        at = {}
        for name, first, count, title, *_ in it["pieces"]:
            low, high = numbers(title.split(":")[1])[:2]
            at.setdefault(name, {}).update({j: first + j - low for j in range(low, high + 1)})
        for name, places in at.items():
            where, n = f"{example.name}, command {i + 1}, object {name}", lengths[name]
            case(f"{where}: all its words", sorted(places) == list(range(1 + -(-n // 8))) and len(set(places.values())) == len(places), places)
            word = lambda index: words[places[index]] if index in places else 0
            case(f"{where}: its header", word(0) >> 32 == n, hex(word(0)))
            wrong = [j for j, one in bytes_[name].items() if word(1 + j // 8) >> 8 * (j % 8) & 255 != one]
            case(f"{where}: what was written", not wrong, wrong)
    # By hand: object 2 has 23 words, and a slice moves eight of them from word 23 on to word 64 on.
    if example.name == "slice":
        for i, wanted in ((10, [[23, 23]]), (11, [[31, 15], [64, 8]]), (15, [[39, 7], [64, 16]]), (16, [[64, 23]])):
            browser.do(f"show({i})")
            halves = [one[1:3] for one in browser.do(f"{SHOWN}(0)")["pieces"] if one[0] == "2"]
            case(f"slice, command {i + 1}: the halves of object 2", halves == wanted, halves)


def check_tasks(browser, example):
    browser.do("beside(['cf'])")
    names = sorted({0} | {int(line.split()[1]) for line in example.commands if line.split()[0] in ("t", "quota", "need", "admit")})
    lines, spots, present, count = [], {}, 0, 0
    for i, command in enumerate(example.commands):
        present = int(command.split()[1]) if command.startswith("t ") else present
        lines.append(command)
        spots[i] = len(lines)
        lines += [line for name in names for line in (f"t {name}", "walk")] + [f"t {present}"]
    replies = ask(example.arguments, lines)
    for i in example.places():
        browser.do(f"show({i})")
        it, wanted = browser.do(f"{SHOWN}(0)"), []
        for j, name in enumerate(names):
            walk = replies[spots[i] + 2 * j + 1].split("\n")
            _, pages, free = numbers(walk[-1])
            wanted.append((name, pages, free, Counter({numbers(line)[0]: numbers(line)[2] for line in walk[:-1]})))
        shown = [(name, pages, free, sum((Counter({words: used}) for words, used in boxes), Counter())) for name, pages, free, boxes in it["tasks"]]
        case(f"{example.name}, command {i + 1}: the pages of the tasks", shown == wanted, (shown, wanted))
        case(f"{example.name}, command {i + 1}: the pages in use", said_number(it["facts"]["pages"]) == sum(pages for _, pages, *_ in wanted), it["facts"])
        check_refused_count(it, example, i)


def check_parts(browser, example):
    browser.do("beside(['cf'])")
    found, full = example.asked("cf", lambda i, live: ["walk"]), numbers(example.commands[0])[1] - 8
    live, replies = {}, iter(ask(example.arguments, example.commands))
    for i, command in enumerate(example.commands):
        verb, *rest = command.split()
        if next(replies) == "ok" and verb in "mf":
            live.pop(rest[0], None)
            if verb == "m":
                live[rest[0]] = int(rest[1])
        if i in found:
            browser.do(f"show({i})")
            it, walk = browser.do(f"{SHOWN}(0)"), found[i]["walk"].split("\n")
            parts = {name: -(-n // full) for name, n in live.items()}
            wanted = sorted([name, 1 if n == 1 else n + 1, 1 if n == 1 else n + 1] for name, n in parts.items())
            case(f"{example.name}, command {i + 1}: spines and parts", sorted(it["parts"]) == wanted, (it["parts"], wanted))
            check_refused_count(it, example, i)
            drawn = sum((Counter({words: used}) for words, used in it["boxes"]), Counter())
            case(f"{example.name}, command {i + 1}: slots as `walk` counts them", drawn == Counter({numbers(line)[0]: numbers(line)[2] for line in walk[:-1]}) and it["free"] == numbers(walk[-1])[2], drawn)


# ---- the rest


def check_recordings():
    def read(text):
        found = [json.loads(it) for it in re.findall(r"^RECORDINGS\.push\((.*)\);$", text, re.M)]
        return [(name, about, gzip.decompress(base64.b64decode(data))) for name, about, data in found]
    made = subprocess.run([TOOL, "recordings", "--tool", PROGRAM], capture_output=True, text=True)
    kept = read(Path("page/recordings.js").read_text())
    new = read(made.stdout)
    case("page/recordings.js is what `tools/heap_picture recordings` makes", made.returncode == 0 and kept == new, made.stderr or [one[0] for one, other in zip(kept, new) if one != other] or (len(kept), len(new)))


# The condition before a claim that begins within a sentence: the page shows such a claim only where that holds.
CONDITIONS = {
    "classes": "In MovingHeap and NonMovingHeap ", "partly": "With pages (PagedHeap: MovingHeap, NonMovingHeap), ",
    "blocks": "With blocks (TagHeap: TLSF, Half-Fit), ", "pending": "In mode slice the last two laws hold too, and ",
}


def check_claims(browser):
    """A quote is in one line of the two documents with the names that carry it; without a name it is a sentence or cells. It begins
    and ends where a sentence, a cell or a part of equal rank does, so that no condition is dropped."""
    text = Path("README.md").read_text() + Path("docs/GUARANTEES.md").read_text()
    lines = [re.sub(r"\[(.*?)\]\(.*?\)|[`*]", r"\1", line).replace(" | ", " · ") for line in text.splitlines()]

    def is_there(quote, names, condition):
        for before, found, after in (line.partition(quote) for line in lines):
            begins = before.endswith(condition or ("| ", " · ", ": ", ". ")) or not before
            ends = quote.endswith(".") or after.startswith((" ·", " |", "; ", ". ", " (", ", and "))
            if found and begins and ends and all(name in before + after for name in names):
                return True
        return False

    quotes = [(text, [it for one in (who.values() if isinstance(who, dict) else [who]) for it in one.split(", ") if it], CONDITIONS.get(name)) for name, (text, who) in browser.do("Object.entries(CLAIM)")]
    quotes += [(text, [], None) for text in browser.do("[...document.querySelectorAll('footer q')].map(it => it.textContent)")]
    missing = [quote for quote, *where in quotes if not is_there(quote, *where)]
    case("each quoted claim is in README.md or docs/GUARANTEES.md, with what carries it", len(quotes) > 20 and not missing, missing)
    used = browser.do("(answers + moveAnswer + costAnswer + claimsFor + String(claim)).match(/'[a-z]+'/g).map(it => it.slice(1, -1))")
    unused = [it for it in browser.do("Object.keys(CLAIM)") if it not in used]
    case("each claim is used", not unused, unused)


def churn(count):
    """A script of this many commands on objects of several sizes, by a fixed rule."""
    state, lines, live, spare = 2026, ["heap 64 1024 1 1024"], [], list(range(1000))
    for i in range(count - 1):
        state = (state * 6364136223846793005 + 1442695040888963407) % 2**64
        draw = state >> 33
        if live and draw % 10 < (3 if i // 400 % 2 == 0 else 7):
            lines.append(f"f {live.pop(draw // 10 % len(live))}")
        else:
            live.append(spare.pop(0))
            spare.append(live[-1] + 1000)
            lines.append(f"m {live[-1]} {(16, 40, 100, 100, 200, 480, 24, 1000)[draw // 10 % 8]}")
    return "\n".join(lines) + "\n"


def replay(name, script):
    path = Path(room.name, name)
    path.write_text(script)
    done = subprocess.run([TOOL, "replay", str(path), "--tool", PROGRAM], capture_output=True, text=True)
    case(f"replay {name} ends with 0", done.returncode == 0 and not done.stderr, done.stderr)
    page = Path(room.name, f"{name}.html")
    page.write_text(done.stdout)
    return page.as_uri()


def check_scripts(browser):
    """Each odd form of a line, too: carriage returns, tabs, ids with leading zeros."""
    browser.open(replay("odd.cf", "heap 2 512 1 8\nm 007 176\r\n\n\tm  8\t176\nm 9 176\nm 10 176\nf 7\nf 009\nw 10 0 0012\nz 10 400\n"))
    browser.do("show(99)")
    case("odd lines", sorted(one[:3] for one in browser.do(f"{SHOWN}(0)")["pieces"]) == [["10", 0, 57], ["8", 64, 23]], browser.do(f"{SHOWN}(0)")["pieces"])
    browser.open(replay("bad.cf", "heap 2 512 1 8\nm 1 8\nfree 1\nm 2 8\n"))
    case("a bad line: the replies before it and its number", browser.do("[...document.querySelectorAll('[data-reply]')].map(it => it.textContent)") == ["ok", "ok", "bad line 3"])
    browser.do("show(9)")
    case("a bad line: the object before it is drawn", [one[:2] for one in browser.do(f"{SHOWN}(0)")["pieces"]] == [["1", 0]])
    browser.open(replay("at_once.cf", "nothing\n"))
    case("a bad first line", browser.do("document.querySelector('[data-reply]').textContent") == "bad line 1" and "no command" in browser.do("document.body.innerText"))
    browser.open(replay("empty.cf", ""))
    case("an empty script", "The script is empty." in browser.do("document.body.innerText") and browser.do("length()") == 0)
    text = churn(2000)
    browser.open(replay("churn.cf", text))
    example = Example("churn", text)
    case("2,000 commands are shown", browser.do("length()") == 2000 == browser.do("document.querySelectorAll('[data-reply]').length"))
    for manager in ("cf", "tlsf"):
        check_places(browser, example, manager)
    # Told, and not tested, since the machine may have other work; the best of three.
    waits = browser.do("""(() => { beside(['cf', 'tlsf']); return [0, 1999, 300, 1700, 301, 900, 899].map(i => Math.min(...[0, 1, 2].map(() => {
      show(i ? 0 : 5); document.body.offsetHeight; const began = performance.now(); show(i); document.body.offsetHeight; return performance.now() - began; }))); })()""")
    print(f"checks/page: of 2,000 commands the slowest is shown in {max(waits):.0f} ms", file=sys.stderr)


# What must be there: how many elements of each kind, and a sentence.
SHAPES = {
    "gaps": (40, {".heap": 2, ".page": 16, ".page.free": 2, ".box i": 48, ".box u": 3, ".arrow path": 1, ".box i.new": 1}, "Object 5 moves from page 1 into the gap on page 2, and page 1 is free again."),
    "slice": (11, {".heap": 1, ".page": 2, ".box i": 3, ".box i.half": 2, ".box u.left": 1}, "Object 2 moves from page 0 into the gap on page 1, a slice at a time: 8 of the 23 words of its slot so far."),
    "quota": (14, {".heap": 1, "[data-task]": 3, ".group": 4, ".group.present": 1, ".page": 3, ".chip": 2}, "Task 0 may use 1 page now."),
    "large": (6, {".heap": 1, "[data-object]": 1, ".group": 2, ".page": 4, ".page.free": 2, ".chip.spine": 1, ".chip": 3}, "Object 1 is freed. Its spine and its 2 parts are freed."),
}
CUT = """[...document.querySelectorAll('body *')].filter(it => it.offsetParent && !it.closest('.box, .arrow') && (it.getBoundingClientRect().right > innerWidth + 1
  || it.scrollWidth > it.clientWidth + 1 && getComputedStyle(it).overflowX === 'hidden')).map(it => it.textContent.slice(0, 60))"""


def check_shapes(browser):
    for name, (at, shape, sentence) in SHAPES.items():
        for width, dark in ((1280, False), (1280, True), (390, False), (390, True)):
            browser.open(f"{PAGE}#example={name}&at={at}", width, 900, dark)
            where = f"{name}, {width} wide, {'dark' if dark else 'light'}"
            seen = browser.do(f"({json.dumps(list(shape))}).map(it => document.querySelectorAll(it).length)")
            case(f"{where}: what must be there", dict(zip(shape, seen)) == shape, dict(zip(shape, seen)))
            said = browser.do(f"{SHOWN}(0)")["said"]
            case(f"{where}: the sentence", sentence in said, said)
            cut = browser.do(CUT)
            case(f"{where}: it fits, and no text is cut off", not cut and browser.do("document.documentElement.scrollWidth") <= width, cut[:3])
            asked = browser.do("[...document.querySelectorAll('#asked div')].map(it => it.textContent.length)")
            case(f"{where}: four questions with answers", len(asked) == 4 and min(asked) > 60, asked)
            light = [sum(map(int, re.findall(r"\d+", browser.do(f"getComputedStyle(document.body).{it}"))[:3])) for it in ("color", "backgroundColor")]
            case(f"{where}: its colours", (light[0] > light[1]) == dark, light)
            case(f"{where}: says what is trusted", "x86-64 to wasm64" in browser.do("document.getElementById('live').textContent"))
        names = {}
        for node in browser.call("Accessibility.getFullAXTree")["nodes"]:
            if not node.get("ignored"):
                names.setdefault(node["role"]["value"], []).append(node.get("name", {}).get("value", ""))
        nameless = [role for role in ("button", "combobox", "slider", "image", "list") if not all(names.get(role, []))]
        case(f"{name}: names for screen readers", not nameless and any("live objects" in it or "spines" in it for it in names["group"]), nameless)
        objects = [it for it in names.get("image", []) if it.startswith("object ")]
        case(f"{name}: each object has a name", len(objects) == (shape[".box i"] if ".box i" in shape else 0), objects[:3])


def check_use(browser):
    browser.open(PAGE)
    case("opened without a link, it plays", browser.do("row[0] === 'gaps' && !!playing && at > 30"), browser.do("[row[0], at]"))
    browser.open(f"{PAGE}#example=gaps&at=40")
    for key, wanted in (("ArrowRight", 41), ("ArrowRight", 42), ("ArrowLeft", 41), ("Home", 0), ("End", 62), ("Home", 0)):
        browser.press(key)
        case(f"the key {key}", browser.do("at") == wanted, browser.do("at"))
    browser.press(" ")
    browser.until("at > 0")
    case("space plays", browser.do("!!playing"))
    browser.press(" ")
    case("space stops", browser.do("!playing"))
    browser.do("choose('move', 8)")
    browser.until("location.hash.startsWith('#example=move&at=8')")
    hash_ = browser.do("location.hash")
    browser.open(PAGE + hash_)
    case("the link holds the example and the command", browser.do("row[0] + at") == "move8", hash_)


def check_module(browser):
    """Without a module no script of one's own runs, and the page says what is missing. The page for one script has no button."""
    browser.open(f"{PAGE}#example=move&at=3")
    said = browser.do("(async () => { await document.getElementById('change').onclick(); return [document.getElementById('edit').hidden, document.getElementById('fault').textContent]; })()")
    case("no module", said[0] and "norphuen.wasm" in said[1] and browser.do("row[0] + at") == "move3", said)
    link = browser.do("packText('heap 2 512 1 8\\n')")
    browser.open(f"{PAGE}#script={link}")
    case("no module: a link that holds a script", "norphuen.wasm" in browser.do("document.getElementById('fault').textContent"))
    browser.open(replay("one.cf", "heap 2 512 1 8\n"))
    case("the page for one script", browser.do("document.getElementById('change').hidden && document.getElementById('live').hidden"))


def check_refused():
    for words, *arguments in (("mode save has no picture", "replay", "examples/save.cf"), ("No such file", "replay", "nothing"), ("takes a script", "replay"), ("invalid choice", "draw"), ("recordings none", "recordings", "examples/move.cf")):
        done = subprocess.run([TOOL, *arguments, "--tool", PROGRAM], capture_output=True, text=True)
        case(f"refused: {words}", done.returncode == 2 and not done.stdout and done.stderr.count("\n") == 1 and words in done.stderr, done)
    done = subprocess.run([TOOL, "replay", "examples/move.cf", "--tool", "/nothing"], capture_output=True, text=True)
    case("refused: no tool", done.returncode == 2 and "/nothing: No such file" in done.stderr, done)
    for sink in ("/dev/full",):
        done = subprocess.run(["bash", "-c", f"{TOOL} replay examples/move.cf --tool {PROGRAM} >{sink}"], capture_output=True, text=True)
        case("a full disk", done.returncode == 2 and done.stderr == "heap_picture: standard output: No space left on device\n", done)
    done = subprocess.run(["bash", "-c", f"{TOOL} replay examples/scattered.cf --tool {PROGRAM} | true; echo ${{PIPESTATUS[0]}}"], capture_output=True, text=True)
    case("a closed pipe", done.stderr == "" and done.stdout.strip() in ("0", "2"), done)


def main():
    browser = Browser()
    try:
        check_shapes(browser)
        check_use(browser)
        check_claims(browser)
        found = examples()
        case("the examples on the page", browser.do("RECORDINGS.map(it => it[0])") == [it.name for it in found])
        for example in found:
            browser.open(f"{PAGE}#example={example.name}")
            check_replies(browser, example)
            if example.mode in ("run", "compare"):
                for manager in MANAGERS if example.name == "gaps" else {example.own, "tlsf"}:
                    check_places(browser, example, manager)
                    if manager in ("cf", "nm"):
                        check_moves(browser, example, manager)
            else:
                {"slice": check_slices, "quota": check_tasks, "large": check_parts}[example.mode](browser, example)
        check_scripts(browser)
        check_module(browser)
        check_refused()
        check_recordings()
        case("no error on the console", not browser.errors, browser.errors[:2])
        far = [it for it in browser.loaded if not it.startswith(("file:", "data:", "about:"))]
        case("nothing is loaded but files", len(browser.loaded) > 4 and not far, far[:3] or browser.loaded)
    finally:
        browser.close()
    if not failed:
        print(f"checks/page: {cases} cases", file=sys.stderr)
    return 1 if failed else 0


if __name__ == "__main__":
    sys.exit(main())
