#!/usr/bin/env python3
"""cost.py CRATE [MOST]: proves a crate from nothing in one process, and prints its dearest modules.

The crates below must have been checked here (`rt check` in the crate's folder leaves them in out/). A module's time is the
clock's between the file that the prover wrote before and its own, so nothing else should run beside it: of a function `Lts`
is the borrow checker's part and `Proof` the proof, one for a whole cycle; `Answers` are those that are written by hand."""

import os
import subprocess
import sys
import tempfile
import time

TOP = os.path.dirname(os.path.dirname(os.path.abspath(__file__)))
ENDING = ".oantt"


def depends():
    """The crates of the repository, each with those that its line names."""
    with open(os.path.join(TOP, "crates.txt"), encoding="utf-8") as file:
        lines = [line.split("#")[0].split(":") for line in file]
    return {line[0].split()[0]: line[1].split() for line in lines if len(line) == 2}


def below(crate, lines):
    """The crates of the repository that a crate stands on, lowest first."""
    found = {}
    for name in lines[crate]:
        if name in lines:
            found.update(dict.fromkeys(below(name, lines)))
            found[name] = None
    return list(found)


def command(crate, kit, into):
    """The prover's words."""
    lines = depends()
    built = os.path.join(kit, "rlibs")
    words = [os.path.join(kit, "bin", "rattle"), "check", "--crate-name", crate, "src/lib.rt"]
    words += ["--extern", f"std={built}/std.rlib", "-L", f"dependency={built}"]
    for name in lines[crate]:
        folder = os.path.join(TOP, "crates", name, "out", "rlib") if name in lines else built
        words += ["--extern", f"{name}={folder}/{name}.rlib"]
    for name in below(crate, lines):
        words += ["-L", "dependency=" + os.path.join(TOP, "crates", name, "out", "rlib")]
    words += ["--antt-project", os.path.join(kit, "rattle", "logic", "antt-project.json")]
    words += ["--logic-built", os.path.join(kit, "logic_built"), "--jobs", "1", "--incremental", into]
    return words + ["--links", f"{crate}="]


def times(folder, start):
    """How long each module took, the dearest first."""
    written = []
    for place, _, names in os.walk(folder):
        if "records" not in place.split(os.sep):
            written += [(os.stat(os.path.join(place, it)).st_mtime, it) for it in names if it.endswith(ENDING)]
    written.sort()
    before = [start] + [at for at, _ in written]
    return sorted(((at - last, name) for (at, name), last in zip(written, before)), reverse=True)


def main():
    if not sys.argv[1:] or sys.argv[1] not in depends():
        sys.exit(__doc__)
    crate, most = sys.argv[1], int(sys.argv[2]) if sys.argv[2:] else 40
    page = subprocess.run(["rt", "doc"], stdout=subprocess.PIPE, text=True, check=True).stdout.strip()
    with tempfile.TemporaryDirectory() as into:
        start = time.time()
        place = os.path.join(TOP, "crates", crate)
        words = command(crate, os.path.dirname(page), into)
        ran = subprocess.run(words, cwd=place, stdout=subprocess.PIPE, stderr=subprocess.STDOUT, text=True, check=False)
        if ran.returncode:
            print(ran.stdout)
        print(f"{crate}: {time.time() - start:.0f} s, status {ran.returncode}")
        for took, name in times(into, start)[:most]:
            print(f"{took:7.1f} {name.removesuffix(ENDING)}")
    sys.exit(ran.returncode)


if __name__ == "__main__":
    main()
