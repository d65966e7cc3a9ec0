#!/usr/bin/env python3
"""Times the checker of refutations with the proved program check_bench. Build it first: (cd crates/check_bench && rt run)"""

import os
import subprocess
import time

TOP = os.path.dirname(os.path.dirname(os.path.abspath(__file__)))
PROGRAM = os.path.join(TOP, "crates", "check_bench", "out", "check_bench")
# About how many nodes a tree has, and how often it is checked.
SIZES = ((1_000, 2_000), (10_000, 200), (100_000, 20))


def run(nodes, repeats):
    """The number of nodes, where each repeat accepts the tree."""
    words = [PROGRAM, str(nodes), str(repeats)]
    answer = subprocess.run(words, stdout=subprocess.PIPE, check=True, text=True).stdout.split()
    assert int(answer[1]) == repeats, "the tree isn't accepted"
    return int(answer[0])


def least_seconds(nodes, repeats):
    """The least time of five runs."""
    times = []
    for _ in range(5):
        start = time.perf_counter()
        run(nodes, repeats)
        times.append(time.perf_counter() - start)
    return min(times)


def checked_ms(nodes, repeats):
    """Milliseconds for one check: what the repeats take beyond a run that makes the tree and checks it once."""
    once = least_seconds(nodes, 1)
    often = least_seconds(nodes, repeats + 1)
    return (often - once) * 1000 / repeats


def main():
    print("| Nodes | one check | a node |")
    print("|---|---|---|")
    for nodes, repeats in SIZES:
        made = run(nodes, 1)
        ms = checked_ms(nodes, repeats)
        print(f"| {made:,} | {ms:.3f} ms | {ms * 1e6 / made:.0f} ns |")


if __name__ == "__main__":
    main()
