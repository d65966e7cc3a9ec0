#!/usr/bin/env python3
"""Times the reading of schedules of 4 MB by `repliss replay`. Build the program first: ./repliss verify examples/tautology.rpl

The last line of each schedule is faulty, so all of it is read and no step is done."""

import os
import tempfile

from run import PROGRAM, least_ms

MOST = 4_194_304
RUNS = 9
HEAD = "repliss-schedule 1\nuniverse 1\n"
FAULT = "x\n"
RULES = "proc p() { }\n"
WORKED = (
    "invoke p\nbegin 0 stamp 0 sees\nnew 0 7\nop 0 stamp 1\ncommit 0\nreturn 0\ninvoke p true\nbegin 1 stamp 2 sees 0\n"
    "local 1\nop 1 stamp 4\ncommit 1\ncheck 0 1\n"
)
SEES = " ".join(str(n) for n in range(1_000))
# What the text is made of, over and over, and what it is called in the table.
ROWS = (
    (WORKED, "steps of all kinds"),
    ("check\n", "the shortest steps"),
    (f"check {SEES}\n", "lists of 1,000 transactions"),
    ('invoke p true(7,"a name",false(true(-5)))\n', "values in values"),
    ("invoke p 1 -20 300\n", "three integers a line"),
    ('invoke p "' + "a" * 4_000 + '" "\\n"\n', "strings of 4,000 bytes"),
)
ROOM = MOST - len(HEAD) - len(FAULT)


def repeated(part):
    return HEAD + part * (ROOM // len(part)) + FAULT


def one_line(begin, part, end="\n"):
    """One line that goes on to the fault."""
    return HEAD + begin + part * ((ROOM - len(begin) - len(end)) // len(part)) + end + FAULT


def texts():
    for part, title in ROWS:
        yield title, repeated(part)
    yield "one line of integers", one_line("invoke p", " 7")
    yield "one line of constructors", one_line("invoke p", " true")
    yield "one line of one string", one_line('invoke p "', "a", '"\n')


def read_ms(rules, schedule, text):
    """The least time of some runs. They have to name the last line."""
    with open(schedule, "w", encoding="ascii") as file:
        file.write(text)
    took, printed = least_ms([PROGRAM, "replay", rules, schedule], RUNS)
    lines = text.count("\n")
    if printed != [f"refused: schedule line {lines}"]:
        raise SystemExit(f"it prints {printed} of a text of {lines} lines")
    return took


def main():
    print("| Text | Bytes | Time | A second |")
    print("|---|---|---|---|")
    with tempfile.TemporaryDirectory() as folder:
        rules, schedule = os.path.join(folder, "rules"), os.path.join(folder, "schedule")
        with open(rules, "w", encoding="ascii") as file:
            file.write(RULES)
        start = read_ms(rules, schedule, HEAD + FAULT)
        for title, text in texts():
            took = read_ms(rules, schedule, text) - start
            print(f"| {title} | {len(text):,} | {took:.1f} ms | {len(text) / took / 1000:.0f} MB |", flush=True)


if __name__ == "__main__":
    main()
