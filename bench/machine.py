#!/usr/bin/env python3
"""Times `repliss replay` beside a program in C. Build the program first: ./repliss verify examples/tautology.rpl

A schedule is read whole before its first step is done. So what reading takes is timed on the same schedule with a fault in a
line behind its last, which both programs refuse."""

import os
import subprocess
import tempfile

from run import PEAK, PROGRAM, TOP, c_program, least_ms

BASELINE = os.path.join(TOP, "bench", "baseline", "machine.c")
HEAD = "repliss-schedule 1\nuniverse 1\n"
EMPTY = "crdt s: SetAw[Int];\n"
ADDS = 127
PROCS = (
    "proc add(x: Int) { atomic { s.add(x); } }\nproc remove(x: Int) { atomic { s.remove(x); } }\n"
    "proc many(x: Int) { atomic { " + "s.add(x); " * ADDS + "} }\n"
)
# 0 to 3 are added first and never removed, and no procedure is called with 1000 or more: all of these hold at full views.
INVARIANTS = "".join(
    f"invariant in{n}: s.contains({n});\n" if n < 4 else f"invariant out{n}: !s.contains({996 + n});\n" for n in range(8)
)
BARE = EMPTY + PROCS
WHOLE = EMPTY + INVARIANTS + PROCS
RUNS = 5


def numbers(count):
    return "".join(f" {n}" for n in range(count))


def transactions(count, seen):
    """Transactions of one operation, each of an invocation of its own, that see the first `seen` of those before."""
    lines = []
    for n in range(count):
        name = "remove" if n % 10 == 9 else "add"
        element = 500 + n % 500 if n % 10 == 9 else n % 1_000
        lines.append(f"invoke {name} {element}\nbegin {n} stamp {2 * n} sees{numbers(min(n, seen))}\n")
        lines.append(f"op {n} stamp {2 * n + 1}\ncommit {n}\nreturn {n}\n")
    return "".join(lines)


def large_transactions(count):
    """Transactions of many operations that see all before. So each call has all calls before in its past."""
    lines = []
    for n in range(count):
        stamp = n * (ADDS + 1)
        lines.append(f"invoke many {n}\nbegin {n} stamp {stamp} sees{numbers(n)}\n")
        lines.extend(f"op {n} stamp {stamp + m}\n" for m in range(1, ADDS + 1))
        lines.append(f"commit {n}\nreturn {n}\n")
    return "".join(lines)


def rows():
    """What a row is called, its program, its steps, and the line that tells how they end."""
    yield "100,000 checks of an empty program", EMPTY, "check\n" * 100_000, "clean: 100000 steps"
    yield "16,384 calls, each sees 100 transactions", BARE, transactions(8_192, 100), "clean: 40960 steps"
    yield "16,384 calls, each sees none", BARE, transactions(8_192, 0), "clean: 40960 steps"
    one_more = transactions(8_192, 0) + "invoke add 1\nbegin 8192 stamp 16384 sees\n"
    yield "the same, and a call too many", BARE, one_more, "refused: limit calls 16384 at step 40962"
    yield "16,384 calls in 128 transactions, each sees all before", BARE, large_transactions(128), "clean: 16768 steps"
    made = transactions(2_048, 100)
    checks = f"check{numbers(2_048)}\n" * 200
    yield "4,096 calls", WHOLE, made, "clean: 10240 steps"
    yield "the same, and 200 checks of 8 invariants", WHOLE, made + checks, "clean: 10440 steps"
    yield "the same, the last of nothing", WHOLE, made + "check\n", "violated: step 10241 invariant in0"


def least(words, wanted):
    """The least time of some runs in milliseconds. They have to print the line that is wanted."""
    took, printed = least_ms(words, RUNS)
    if printed != [wanted]:
        raise SystemExit(f"{words[0]} prints {printed}, and '{wanted}' is wanted")
    return took


def times_of(words, peak, whole, faulty, wanted, lines):
    """The time for reading, that for the steps, and the memory."""
    read = least(words(faulty), f"refused: schedule line {lines + 1}")
    took = least(words(whole), wanted) - read
    memory = subprocess.run([peak, *words(whole)], stdout=subprocess.PIPE, check=True).stdout
    return read, took, int(memory) / 1024


def written(folder, name, text):
    path = os.path.join(folder, name)
    with open(path, "w", encoding="ascii") as file:
        file.write(text)
    return path


def main():
    print("| Schedule | Bytes | Read | Replayed | Memory | C: read | C: replayed | C: memory | Times C |")
    print("|---" * 9 + "|")
    with tempfile.TemporaryDirectory() as folder:
        peak = c_program(folder, "peak", PEAK)
        with open(BASELINE, encoding="ascii") as source:
            baseline = c_program(folder, "machine", source.read())
        for title, program, steps, wanted in rows():
            text = HEAD + steps
            rules, lines = written(folder, "rules", program), text.count("\n")
            whole, faulty = written(folder, "whole", text), written(folder, "faulty", text + "x\n")
            ours = [PROGRAM, "replay", rules]
            bare = [] if program == WHOLE else ["bare"]
            read, took, memory = times_of(lambda it: [*ours, it], peak, whole, faulty, wanted, lines)
            read_c, took_c, memory_c = times_of(lambda it: [baseline, it, *bare], peak, whole, faulty, wanted, lines)
            times = f"{read:.1f} ms | {took:.1f} ms | {memory:.0f} MiB"
            times_c = f"{read_c:.1f} ms | {took_c:.1f} ms | {memory_c:.0f} MiB"
            print(f"| {title} | {len(text):,} | {times} | {times_c} | {took / max(took_c, 0.1):.1f} |", flush=True)


if __name__ == "__main__":
    main()
