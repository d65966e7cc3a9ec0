#!/usr/bin/env python3
"""Times the store's calls with the proved program store_bench. Build it first: (cd crates/store_bench && rt run)"""

import os
import subprocess
import time

TOP = os.path.dirname(os.path.dirname(os.path.abspath(__file__)))
PROGRAM = os.path.join(TOP, "crates", "store_bench", "out", "store_bench")
CALLS = (100, 1_000, 16_384)
# What is asked, how often at each number of calls, and what it is called in the table.
ROWS = (
    ("adds", (2_000, 400, 10), "`contains` of a set with adds alone"),
    ("removes", (2_000, 400, 3), "`contains` of a set, a tenth of the calls removes"),
    ("counter", (2_000, 400, 10), "`get` of a counter"),
    ("nested", (2_000, 400, 10), "`get` of a register under six keys"),
    ("deletes", (2_000, 400, 3), "the same, a tenth of the calls deletes of the outermost key"),
    ("snapshot", (2_000, 400, 10), "`is_snapshot` of all calls"),
)


def least_seconds(words):
    """The least time of five runs."""
    times = []
    for _ in range(5):
        start = time.perf_counter()
        subprocess.run(words, stdout=subprocess.DEVNULL, check=True)
        times.append(time.perf_counter() - start)
    return min(times)


def asked_ms(shape, calls, repeats):
    """Milliseconds for one question: what the repeats take beyond a run that makes the history and asks once."""
    words = [PROGRAM, shape, str(calls)]
    once = least_seconds(words + ["1"])
    often = least_seconds(words + [str(repeats + 1)])
    return (often - once) * 1000 / repeats


def pushed_ns(calls):
    """Nanoseconds for one number of a past: so many calls are tested and pushed, each with a past of all before it."""
    once = least_seconds([PROGRAM, "push", "0", "0"])
    often = least_seconds([PROGRAM, "push", "0", str(calls)])
    return (often - once) * 1e9 / (calls * (calls - 1) / 2)


def main():
    print("| Asked | " + " | ".join(f"{calls:,} calls" for calls in CALLS) + " |")
    print("|---" * (len(CALLS) + 1) + "|")
    for shape, repeats, title in ROWS:
        times = [f"{asked_ms(shape, calls, often):.4f} ms" for calls, often in zip(CALLS, repeats)]
        print(f"| {title} | " + " | ".join(times) + " |")
    times = [f"{pushed_ns(calls):.1f} ns" for calls in CALLS]
    print("| `accepts` and `push`, a number of the past | " + " | ".join(times) + " |")


if __name__ == "__main__":
    main()
