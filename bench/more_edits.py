#!/usr/bin/env python3
"""more_edits.py NAME..: tries the wrong bodies of these crates that stand aside from the gate.

A crate's wrong bodies that the gate tries stand in must-fail/*.edit. The others stand in must-fail/more/*.edit.md, which the
gate only leaves alone, with the day on which each was last tried, and what came of it, in must-fail/more/RUNS.md. Run this
when the contracts of a crate have changed: it puts them into must-fail/, runs `rt must-fail`, puts them back, and writes
RUNS.md. Ends with 1 where one of them is not refused."""

import datetime
import os
import re
import subprocess
import sys

TOP = os.path.dirname(os.path.dirname(os.path.abspath(__file__)))
HEAD = """# When these wrong bodies were last tried

`bench/more_edits.py NAME` tries them and writes this list.

| Wrong body | Last tried | Outcome |
|---|---|---|
"""


def folder_of(crate):
    return os.path.join(TOP, "crates", crate, "must-fail")


def waiting(crate):
    """The names of a crate's wrong bodies that stand aside."""
    more = os.path.join(folder_of(crate), "more")
    return sorted(it.removesuffix(".edit.md") for it in os.listdir(more) if it.endswith(".edit.md"))


def move(crate, names, into_gate):
    """Moves wrong bodies into the folder that is tried, or back."""
    for name in names:
        aside = os.path.join(folder_of(crate), "more", f"{name}.edit.md")
        tried = os.path.join(folder_of(crate), f"{name}.edit")
        os.rename(*(aside, tried) if into_gate else (tried, aside))


# Words of a refusal that tell of a name or a type that is gone, and nothing of the contract.
EMPTY = r"only because a proof file|expected type Unit|`?Unit \{0\}`? \(expected\)|has no field|that can be named"


def outcome_of(crate, name, said):
    """What the run said of a wrong body, in a word or two."""
    found = re.search(rf"must-fail {crate}/{name}\.edit: ([A-Z ]+|refused)(.*)", said)
    if not found:
        return "not tried"
    outcome = found[1].strip().lower()
    return f"{outcome}, for a reason that says little of the contract" if re.search(EMPTY, found[2]) else outcome


def known_runs(crate):
    """The rows of the list as it stands, by wrong body."""
    try:
        with open(os.path.join(folder_of(crate), "more", "RUNS.md"), encoding="utf-8") as file:
            rows = re.findall(r"^\| `(\S+)` \| (.*) \|$", file.read(), re.M)
    except OSError:
        rows = []
    return dict(rows)


def write_runs(crate, names, said):
    """Writes what came of each, and gives those that were not refused. One that was not tried keeps its row."""
    today, runs = datetime.date.today().isoformat(), known_runs(crate)
    for name in names:
        outcome = outcome_of(crate, name, said)
        if outcome != "not tried":
            runs[name] = f"{today} | {outcome}"
    with open(os.path.join(folder_of(crate), "more", "RUNS.md"), "w", encoding="utf-8") as file:
        file.write(HEAD)
        for name in sorted(names):
            file.write(f"| `{name}` | {runs.get(name, 'never | ')} |\n")
    return [it for it in names if not outcome_of(crate, it, said).startswith("refused")]


def try_all(crate):
    """Tries a crate's wrong bodies that stand aside, and gives those that were not refused."""
    names = waiting(crate)
    move(crate, names, True)
    try:
        ran = subprocess.run(["rt", "must-fail", crate], cwd=TOP, stdout=subprocess.PIPE, stderr=subprocess.STDOUT, text=True, errors="replace", check=False)
    finally:
        move(crate, names, False)
    print(ran.stdout, end="", flush=True)
    return write_runs(crate, names, ran.stdout)


def main():
    if not sys.argv[1:]:
        sys.exit(__doc__)
    passed = [f"{crate}/{name}" for crate in sys.argv[1:] for name in try_all(crate)]
    for it in passed:
        print(f"not refused: {it}")
    sys.exit(1 if passed else 0)


if __name__ == "__main__":
    main()
