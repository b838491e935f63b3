"""Checks tools/index: what it prints of a small repository, that its pages in docs/ are what it prints of this one, and its
error lines."""
import difflib
import shutil
import subprocess
import tempfile
from pathlib import Path

SOURCES = {
    "crates.txt": "# Parts: what is low. It is said here.\nlow:\n\n# Not a group.\nhigh: low arrayvec\n",
    "crates/low/src/lib.rt": """//! Things that are counted: one
//! by one | two. It holds no lists.
#![tactic(auto)]

mod hidden;
mod laws;
pub mod open;

pub use laws::{Things, counts, is_none, nothing_is_none, rests, things_add_up};

/// Here too is a law.
pub fn here()
    ensures { 0 ≡ 0 }
{}
""",
    "crates/low/src/hidden.rt": "/// Not handed on.\npub fn hidden_law()\n    ensures { 0 ≡ 0 }\n{}\n",
    "crates/low/src/laws.rt": """//! Its own comment.

/// Two counts `a < b` add up,
/// and a<b.
#[inline]
pub fn things_add_up()
    ensures { 0 ≡ 0 }
{}

/// No law: it has a result.
pub fn is_none() -> bool
    ensures { 0 ≡ 0 }
{}

/// No law: it changes a count.
pub fn counts(n: &mut u64)
    ensures { 0 ≡ 0 }
{}

/// No law: it ensures nothing.
pub fn rests() {}

impl<T> Things<T> {
    /// A law of one thing.
    pub fn is_added(&self)
        ensures { 0 ≡ 0 }
    {}
}

impl Inside {
    /// Its type is not public.
    pub fn is_inside(&self)
        ensures { 0 ≡ 0 }
    {}
}

/// It cites another law.
pub fn nothing_is_none(
    _n: &u64,
)
    ensures { 0 ≡ 0 }
{}
""",
    "crates/low/src/open.rt": "// No comment of a function.\n\npub fn silent()\n    ensures { 0 ≡ 0 }\n{}\n\npub trait Counted {\n    fn counted(&self) -> bool;\n}\n\nfn own() {}\n",
    "crates/low/must-fail/counts_twice.edit": "file: src/laws.rt\n",
    "checks/few": "#!/bin/sh\n# Counts the things, of which\n# there are few. Then it ends.\nset -e\n",
    "checks/sum.py": '"""Adds."""\ndef total(a):\n    return a\n',
    "examples/c/one.c": "/* One thing. It has\n * no comment. */\nint one;\n",
    "tools/all": '#!/usr/bin/env python3\n"""Prints all things.\n\n  tools/all\n"""\n',
    "crates/low/specs/Lib.antt": "pub mod Things\npub mod Alone\n",
    "crates/low/specs/Alone.antt": "-- What is alone.\nuse Rattle.std.specs.Prelude.{ℕ}\n\nunfoldable pub ◌+++◌ : ℕ → ℕ → ℕ\na +++ b = a\n",
    "crates/low/specs/Things.antt": """-- What things are.
-- There are few.
use Rattle.std.specs.Prelude.{ℕ}
pub use Rattle.std.specs.Prelude.{ℕ}

-- how many things there are,
-- at most 8 * 8
abbrev pub count_of : ℕ → ℕ
count_of n = n

abbrev pub silent : ℕ
silent = 0

-- a thing
pub record Thing (n : ℕ) : Type 0 where
  -- its size
  pub size : ℕ

-- is this | that
pub data Kind : Type 0 where
  pub This : Kind

-- not public
abbrev own : ℕ
own = 1
""",
    "crates/high/src/main.rt": "//! The program.\n\nfn main() {}\n",
}

PAGE = """
| crate | what it is |
|---|---|
| **Parts** | **what is low.** |
| [low](../crates/low) | Things that are counted: one by one \\| two. |
| [high](../crates/high) | The program. |

## Files

Those in src of each crate beside `lib.rt`, without tests.

**low**

- `hidden.rt`
- `laws.rt`: Its own comment.
- `open.rt`
"""
FILES = """
## low

- `src/lib.rt`: Things that are counted: one by one | two. Functions: `here`.
- `src/hidden.rt` Functions: `hidden_law`.
- `src/laws.rt`: Its own comment. Functions: `things_add_up`, `is_none`, `counts`, `rests`, `is_added`, `is_inside`, `nothing_is_none`.
- `src/open.rt` Functions: `silent`, `counted`, `own`.
- `specs/Alone.antt`: What is alone.
- `specs/Things.antt`: What things are.
- `must-fail`: `counts_twice`.

## high

- `src/main.rt`: The program. Functions: `main`.

## Outside of the crates

- `checks/few`: Counts the things, of which there are few.
- `checks/sum.py`: Adds.
- `examples/c/one.c`: One thing.
- `tools/all`: Prints all things.
"""
LAWS = """
## low

- `here`: Here too is a law.
- `things_add_up`: Two counts `a &lt; b` add up, and a&lt;b.
- `Things::is_added`: A law of one thing.
- `nothing_is_none`: It cites another law.
- `silent`
"""
CRATE = """low: Things that are counted: one by one | two. It holds no lists.

crates/low/src/lib.rt: Things that are counted: one by one | two. It holds no lists.
  here: Here too is a law.

crates/low/src/laws.rt: Its own comment.
  things_add_up: Two counts `a < b` add up, and a<b.
  Things::is_added: A law of one thing.
  nothing_is_none: It cites another law.

crates/low/src/open.rt
  silent

crates/low/specs/Things.antt: What things are. There are few.
  count_of: how many things there are, at most 8 * 8
  silent
  Thing: a thing
  Kind: is this | that

crates/low/specs/Alone.antt: What is alone.
  ◌+++◌
"""
NAMED = {
    ("silent",): "crates/low/src/open.rt: silent\ncrates/low/specs/Things.antt: silent\n",
    ("is_added",): "crates/low/src/laws.rt: Things::is_added: A law of one thing.\n",
    ("counted",): "crates/low/src/open.rt: Counted::counted\n",
    ("open",): "crates/low/src/open.rt\n",
    ("few",): "checks/few: Counts the things, of which there are few.\n",
    ("total",): "checks/sum.py: total\n",
    ("own", "comment"): "crates/low/src/laws.rt: Its own comment.\n",
}


def differ(wanted, found):
    """The first lines in which two texts differ."""
    lines = difflib.unified_diff(wanted.split("\n"), found.split("\n"), "here", "made", lineterm="", n=0)
    return "\n".join(list(lines)[:20])


def check_index(fail):
    with tempfile.TemporaryDirectory() as folder:
        for name, text in SOURCES.items():
            path = Path(folder) / name
            path.parent.mkdir(parents=True, exist_ok=True)
            path.write_text(text, encoding="utf-8")
        program = shutil.copy("tools/index", Path(folder, "crates"))
        for arguments, wanted in (([], PAGE), (["--files"], FILES), (["--laws"], LAWS), (["low"], CRATE), *((list(words), lines) for words, lines in NAMED.items())):
            made = subprocess.run([program, *arguments], capture_output=True, text=True).stdout
            made = made if arguments and arguments[0] != "--laws" else made[made.find("\n\n", made.find("tools/index")) + 1 :]
            if made != wanted:
                fail(f"tools/index {' '.join(arguments)} prints something else of worked sources:\n{differ(wanted, made)}")
        for arguments, cause in ((["no", "where"], "no where"), ([], "crates.txt")):
            bad = subprocess.run([program, *arguments], capture_output=True, text=True)
            if bad.returncode != 2 or bad.stdout or bad.stderr.count("\n") != 1 or cause not in bad.stderr:
                fail(f"tools/index: status {bad.returncode}, {bad.stderr} in place of status 2 and a line with {cause}")
            Path(folder, "crates.txt").unlink(missing_ok=True)
    for option, name in (([], "INDEX"), (["--laws"], "LAWS"), (["--calls"], "CALLS")):
        made = subprocess.run(["tools/index", *option], capture_output=True, text=True).stdout
        here = Path(f"docs/{name}.md").read_text(encoding="utf-8")
        if made != here:
            fail(f"docs/{name}.md is not made of these sources: run tools/index --write\n{differ(here, made)}")
