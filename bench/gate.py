#!/usr/bin/env python3
"""gate.py [--anew] [NAME..]: runs `rt ci` with these words and prints what each crate cost it.

Shows the gate's own output as it comes, and then a table: a crate's functions, and the processor minutes of its proof, of
its tests' proof, of its must-fail edits (their seed, which proves the crate once more, counts with them) and of its
builds. What an earlier run on this machine passed is kept and costs nothing here, so the whole table is told by a run
with nothing kept: on a new machine, or with --anew. Times are read from the system's count of each process of the prover, twice a second: what a
process used after its last look is lost, below one percent of a check. Ends with the status of `rt ci`."""

import os
import re
import subprocess
import sys
import threading
import time

TOP = os.path.dirname(os.path.dirname(os.path.abspath(__file__)))
TICKS = os.sysconf("SC_CLK_TCK")
EVERY = 0.5
KINDS = ["proof", "tests", "edits", "builds"]


def words_of(pid):
    """The words of a process, none of one that has ended."""
    try:
        with open(f"/proc/{pid}/cmdline", "rb") as file:
            return file.read().decode(errors="replace").split("\0")[:-1]
    except OSError:
        return []


def ticks_of(pid):
    """When a process began and what it used itself, in ticks, none of one that has ended."""
    try:
        with open(f"/proc/{pid}/stat", encoding="utf-8", errors="replace") as file:
            fields = file.read().rpartition(")")[2].split()
    except OSError:
        return None
    return int(fields[19]), int(fields[11]) + int(fields[12])


def parent_of(pid):
    """The process that started this one, 0 where there is none to be seen."""
    try:
        with open(f"/proc/{pid}/stat", encoding="utf-8", errors="replace") as file:
            return int(file.read().rpartition(")")[2].split()[1])
    except OSError:
        return 0


def folder_of(pid):
    """The folder that a process runs in."""
    try:
        return os.readlink(f"/proc/{pid}/cwd")
    except OSError:
        return ""


def kind_of(words, folder):
    """What a process of the prover does. Edits are tried on copies, in folders of their own."""
    if "--crate-checked" in words:
        return "builds"
    if os.path.basename(os.path.dirname(folder)) != "crates":
        return "edits"
    return "tests" if "--test" in words else "proof"


class Watch:
    """Counts what the prover's processes below one process use."""

    def __init__(self, root):
        self.root = root
        self.known = {}
        self.used = {}
        self.ended = False

    def is_below(self, pid):
        """Whether the watched process started this one, itself or through others."""
        while pid > 1:
            if pid == self.root:
                return True
            pid = parent_of(pid)
        return False

    def look(self):
        """Takes down what each process has used by now."""
        for name in os.listdir("/proc"):
            if not name.isdigit():
                continue
            ticks = ticks_of(name)
            if not ticks:
                continue
            key = (name, ticks[0])
            if key not in self.known and not self.is_below(int(name)):
                self.known[key] = None
            elif key not in self.known:
                words = words_of(name)
                # (a process that has not yet become the prover is looked at again)
                if words and os.path.basename(words[0]) == "rattle" and "--crate-name" in words:
                    crate = words[words.index("--crate-name") + 1]
                    self.known[key] = (crate, kind_of(words, folder_of(name)))
            if self.known.get(key):
                self.used[key] = ticks[1]

    def run(self):
        while not self.ended:
            self.look()
            time.sleep(EVERY)

    def minutes(self):
        """For each crate and kind what its processes used, in processor minutes."""
        sums = {}
        for key, ticks in self.used.items():
            crate, kind = self.known[key]
            row = sums.setdefault(crate, dict.fromkeys(KINDS, 0.0))
            row[kind] += ticks / TICKS / 60
        return sums


def run_gate(words):
    """Runs the gate, shows what it says, and gives its status, its functions by crate, and the watch."""
    functions, crate = {}, ""
    with subprocess.Popen(["rt", "ci", *words], cwd=TOP, stdout=subprocess.PIPE, text=True, errors="replace") as gate:
        watch = Watch(gate.pid)
        watcher = threading.Thread(target=watch.run)
        watcher.start()
        for line in gate.stdout:
            print(line, end="", flush=True)
            head = re.match(r"== (\w+)$", line)
            crate = head[1] if head else crate if not line.startswith("== ") else ""
            found = re.match(r"logic=\S+ functions=(\d+)", line)
            if found and crate:
                functions[crate] = int(found[1])
        gate.wait()
        watch.ended = True
        watcher.join()
    return gate.returncode, functions, watch


def show(functions, sums, wall):
    """Prints the table, the dearest crate first."""
    print(f"\n| Crate | Functions | {' | '.join(it.capitalize() for it in KINDS)} | Sum |")
    print("|---" * (len(KINDS) + 3) + "|")
    whole = dict.fromkeys(KINDS, 0.0)
    for crate, row in sorted(sums.items(), key=lambda it: -sum(it[1].values())):
        for kind in KINDS:
            whole[kind] += row[kind]
        cells = [f"{row[kind]:.1f}" if row[kind] else "" for kind in KINDS]
        print(f"| `{crate}` | {functions.get(crate, '')} | {' | '.join(cells)} | {sum(row.values()):.1f} |")
    cells = [f"{whole[kind]:.1f}" for kind in KINDS]
    print(f"| all | {sum(functions.values())} | {' | '.join(cells)} | {sum(whole.values()):.1f} |")
    print(f"\nProcessor minutes; the run took {wall / 60:.1f} minutes on {len(os.sched_getaffinity(0))} processors.")


def main():
    start = time.monotonic()
    status, functions, watch = run_gate(sys.argv[1:])
    show(functions, watch.minutes(), time.monotonic() - start)
    sys.exit(status)


if __name__ == "__main__":
    main()
