#!/usr/bin/env python3
"""Times the proved program. Build it first: ./repliss verify examples/tautology.rpl"""

import os
import subprocess
import sys
import tempfile

TOP = os.path.dirname(os.path.dirname(os.path.abspath(__file__)))
PROGRAM = os.path.join(TOP, "crates", "repliss", "out", "repliss")
LIMIT = 262_144


def least_ms(words, runs):
    """The least processor time of so many runs, in milliseconds, and what one of them printed."""
    printed = subprocess.run(words, stdout=subprocess.PIPE, check=False).stdout.decode().splitlines()
    times = []
    with open(os.devnull, "wb") as nowhere:
        for _ in range(runs):
            to_nowhere = [(os.POSIX_SPAWN_DUP2, nowhere.fileno(), 1)]
            pid = os.posix_spawn(words[0], words, os.environ, file_actions=to_nowhere)
            used = os.wait4(pid, 0)[2]
            times.append((used.ru_utime + used.ru_stime) * 1000)
    return min(times), printed


def long_expressions():
    """Up to 262,144 bytes of procedures with three parameters and long expressions, at most 64 procedures."""
    part = "(a ==> b || c) && !(a && !b && !c) || "
    head = "proc p{}(a: Bool, b: Bool, c: Bool) {{ assert "
    tail = "true; }\n"
    each = LIMIT // 64
    text = ""
    for number in range(64):
        line = head.format(number)
        line += part * ((each - len(line) - len(tail)) // len(part)) + tail
        text += line
    return text


def many_assertions():
    """One procedure with 8 parameters and 200 assertions."""
    names = "abcdefgh"
    params = ", ".join(f"{n}: Bool" for n in names)
    claim = " || ".join(names) + " || !(" + " && ".join(names) + ")"
    return f"proc p({params}) {{\n" + f"  assert {claim};\n" * 200 + "}\n"


def filled(part, tail=""):
    """As many of the part as fit into 262,144 bytes, and then the tail."""
    return part * ((LIMIT - len(tail)) // len(part)) + tail


def flat():
    """Many short declarations and statements."""
    return filled("invariant a: u.name == \"x\";\nproc p(n: Int) { var m: Int; m = n + 1; }\n")


def nested():
    """Invariants behind 60 parentheses."""
    return filled("invariant " + "(" * 60 + "true" + ")" * 60 + ";\n")


def names():
    """Names alone: the first is the fault, and all are tokens."""
    return filled("a ")


def numbered(part, head=""):
    """The head, and then as many of the part as fit into 262,144 bytes, each with its number in place of {0}."""
    parts, size = [head], len(head)
    while True:
        parts.append(part.format(len(parts)))
        size += len(parts[-1])
        if size > LIMIT:
            return "".join(parts[:-1])


def declarations():
    """Many short declarations, each with a name of its own, of which each uses the type of the first."""
    return numbered("crdt s{0}: SetAw[U];\n", "idtype U;\n")


def long_names():
    """Names of 1,000 bytes that differ in their last, each of a type and of the set over it."""
    long = "n" * 990
    return numbered("idtype t" + long + "{0:06};\ncrdt s{0}: SetAw[t" + long + "{0:06}];\n")


def conditions():
    """One procedure of 200 statements, each with a condition of some 60 levels."""
    deep = "a"
    for level in range(58):
        deep = f"({deep} && b || !c)" if level % 2 else f"({deep} || !b && c)"
    each = f"  if ({deep}) {{ assert a ==> {deep}; }}\n"
    count = min(100, LIMIT // len(each))
    return "proc p(a: Bool, b: Bool, c: Bool) {\n" + each * count + "}\n"


def invariants():
    """64 invariants over a set, each a long chain under two quantifiers."""
    head = "idtype U;\ncrdt s: SetAw[U];\n"
    part = "s.contains(u) && u == v || "
    start, end = "invariant forall u: U, v: U :: ", "true;\n"
    many = ((LIMIT - len(head)) // 64 - len(start) - len(end)) // len(part)
    return head + (start + part * many + end) * 64


def doublings():
    """Queries, each of which uses the one before twice."""
    lines, size = ["query q0(x: Int): Int = x + x;\n"], 0
    while size <= LIMIT:
        last = len(lines) - 1
        lines.append(f"query q{last + 1}(x: Int): Int = q{last}(x) + q{last}(x);\n")
        size += len(lines[-2])
    return "".join(lines[:-2])


def dropped():
    """Uses of a query that drops its second argument, each with a long one there."""
    long = " + ".join(["x"] * 60)
    return numbered("query q{0}(x: Int): Int = first(x, " + long + ");\n", "query first(x: Int, y: Int): Int = x;\n")


def uses():
    """Uses of a query in one another, 58 deep."""
    return numbered("query q{0}(x: Int): Int = " + "f(" * 58 + "x" + ")" * 58 + ";\n", "query f(x: Int): Int = x;\n")


# Runs a command with its output thrown away, and prints the greatest memory that the system counted, in KiB.
# A program of its own, since a process starts with the count of the one that began it.
PEAK = """
#include <fcntl.h>
#include <stdio.h>
#include <sys/resource.h>
#include <sys/wait.h>
#include <unistd.h>
int main(int count, char **words) {
  struct rusage used;
  int status;
  pid_t child = fork();
  if (child == 0) {
    dup2(open("/dev/null", O_WRONLY), 1);
    execv(words[1], words + 1);
    _exit(127);
  }
  wait4(child, &status, 0, &used);
  printf("%ld\\n", used.ru_maxrss);
  return count == 0;
}
"""


def c_program(folder, name, text):
    source = os.path.join(folder, f"{name}.c")
    program = os.path.join(folder, name)
    with open(source, "w", encoding="ascii") as file:
        file.write(text)
    subprocess.run(["cc", "-O2", "-o", program, source], check=True)
    return program


def main():
    if not os.path.exists(PROGRAM):
        sys.exit("build the program first: ./repliss verify examples/tautology.rpl")
    with tempfile.TemporaryDirectory() as folder:
        rows = [("an empty C program", [c_program(folder, "empty", "int main(void) { return 0; }\n")], 0)]
        peak = c_program(folder, "peak", PEAK)
        texts = [
            ("the first example", "proc p(b: Bool) { assert b || !b; }\n"),
            ("long expressions", long_expressions()),
            ("8 parameters, 200 assertions", many_assertions()),
            ("a flat text", flat()),
            ("a deeply nested text", nested()),
            ("a text of names", names()),
            ("short declarations", declarations()),
            ("long names", long_names()),
            ("deep conditions", conditions()),
            ("64 invariants", invariants()),
            ("queries that double", doublings()),
            ("a dropped argument", dropped()),
            ("uses in uses", uses()),
        ]
        for number, (what, text) in enumerate(texts):
            name = os.path.join(folder, f"{number}.rpl")
            with open(name, "w", encoding="ascii") as file:
                file.write(text)
            rows.append((what, [PROGRAM, "verify", name], len(text)))
        for what, words, size in rows:
            ms, printed = least_ms(words, 41)
            speed = f"{size / ms / 1000:.1f} MB/s" if size else "-"
            memory = subprocess.run([peak, *words], stdout=subprocess.PIPE, check=True).stdout.decode().strip()
            print(f"{what}: {ms:.2f} ms, {size} bytes, {speed}, {memory} KiB, {printed[0] if printed else '-'}")


if __name__ == "__main__":
    main()
