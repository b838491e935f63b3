#!/usr/bin/env python3
"""Proves and builds a static library as `rt lib` does, but over what `rt ci` has just proved, where that stands.

  tools/build.py CRATE [FLAG..]    makes crates/CRATE/out/libCRATE.a
  tools/build.py --sum             prints the sum of the kit and of all sources of the repository

What `rt ci` proves it leaves without a stamp, so `rt lib` proves all crates below once more, one after the other. .ci/run
names in CF_PROVED the sum of the sources that it saw `rt ci` prove. While that is the sum of the sources as they are, only
CRATE itself is proved here, over the others' statements: the kit's own way, in `rt ci` and `rt verdict`.
"""
import contextlib
import hashlib
import io
import os
import re
import subprocess
import sys
from pathlib import Path

TOP = Path(__file__).resolve().parent.parent


class Fault(Exception):
    """What is wrong, in a line."""


def run(*words, **how):
    done = subprocess.run(list(map(str, words)), stdout=subprocess.PIPE, stderr=subprocess.STDOUT, text=True, cwd=how.pop("cwd", TOP), **how)
    if done.returncode:
        raise Fault(f"{' '.join(map(str, words))[:300]} ended with status {done.returncode}:\n{done.stdout[-2000:]}")
    return done.stdout


def crates(name=None):
    """Each crate of the repository, or the crate and those below it, with its line of crates.txt."""
    lines = {line.split()[0].rstrip(":"): line for line in (TOP / "crates.txt").read_text().split("\n") if line and line[0] != "#"}
    found, more = {}, [name] if name else list(lines)
    while more:
        crate = more.pop()
        if crate in lines and crate not in found:
            found[crate] = lines[crate]
            more += lines[crate].partition(":")[2].split()
    return found


def sources(name=None):
    """One sum of the kit and of the sources of the crate and those below it, or of all crates."""
    total = hashlib.sha256(run("rt", "version").encode() + (TOP / "HANDLES").read_bytes())
    for crate, line in sorted(crates(name).items()):
        total.update(f"{line}\n".encode())
        for path in sorted(it for part in ("src", "specs", "proofs") for it in (TOP / "crates" / crate / part).rglob("*") if it.is_file()):
            total.update(f"{path.relative_to(TOP)} ".encode() + hashlib.sha256(path.read_bytes()).digest())
    return total.hexdigest()


def kit():
    return Path(run("rt", "doc").split("\n")[0]).parent


def is_proved_by_ci():
    return os.environ.get("CF_PROVED") == sources()


def rattle_builds(name, to, toolchain, flags=(), keeps=False):
    """Has the kit's prover prove the crate and compile it to an archive, over the libraries below as they stand; returns what it says."""
    sys.path.insert(0, str(kit() / "bin"))
    import rtlib
    folder = TOP / "crates" / name
    with contextlib.redirect_stdout(io.StringIO()):
        words = rtlib.Crate(str(folder), str(TOP), {}).words(list(flags), keeps=keeps)
    if "--backend" not in flags:
        words += ["--backend", "llvm"]
    if keeps:
        words += ["--incremental", "out/incremental"]
    (folder / "out").mkdir(exist_ok=True)
    return run(kit() / "bin/rattle", "build", *words, "--toolchain", toolchain, "-o", to, cwd=folder)


def build(name, flags=()):
    """Proves and builds the library, and returns the line of its verdict."""
    if is_proved_by_ci():
        said = rattle_builds(name, f"out/lib{name}.a", kit() / "toolchain", flags)
    else:
        said = run("rt", "lib", *flags, cwd=TOP / "crates" / name)
    verdict = re.findall(r"^logic=proved .*$", said, re.M)
    if not verdict:
        raise Fault(f"the crate {name} is not proved: {said[-2000:]}")
    return verdict[-1]


def main():
    if len(sys.argv) < 2 or sys.argv[1] == "--help":
        print(__doc__, file=sys.stdout if sys.argv[1:] else sys.stderr)
        return 0 if sys.argv[1:] else 2
    try:
        print(sources() if sys.argv[1] == "--sum" else build(sys.argv[1], sys.argv[2:]))
    except (Fault, OSError) as fault:
        print(f"build: {fault}", file=sys.stderr)
        return 2
    return 0


if __name__ == "__main__":
    sys.exit(main())
