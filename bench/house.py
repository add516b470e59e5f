#!/usr/bin/env python3
"""Prints the figures of the house: what the sources have that makes them long to read or to change, a figure a line.

They are counted line by line, in the layout of `rt fmt`, and without building anything. With a folder as its argument it counts
the copy of the repository there, so that a change can be compared with what was there before:

    git worktree add ../before COMMIT
    bench/house.py ../before
    bench/house.py

Its status is always 0: it allows anything.
"""
import os
import re
import sys

TOP = os.path.dirname(os.path.dirname(os.path.abspath(__file__)))
COLUMNS = 100
# A variant of an error with the count as its field, and not a parameter.
VARIANT = re.compile(r"^ +\w+ \{.*\},?$")
CLAUSE = re.compile(r"^ +(?:requires|ensures) ")


def files_under(*folder, suffix):
    """The files under a folder of the repository whose names end so, without what the toolchain makes."""
    for path, folders, files in os.walk(os.path.join(TOP, *folder)):
        folders[:] = sorted(it for it in folders if it != "out")
        yield from (os.path.join(path, it) for it in sorted(files) if it.endswith(suffix))


def lines_of(paths):
    for path in paths:
        with open(path, encoding="utf-8") as file:
            yield from file.read().splitlines()


def crates():
    return sorted(it for it in os.listdir(os.path.join(TOP, "crates")) if os.path.isdir(os.path.join(TOP, "crates", it)))


def sources():
    """The lines of all sources in Rattle."""
    for crate in crates():
        yield from lines_of(files_under("crates", crate, "src", suffix=".rt"))


def length_of(part, *names):
    """How many lines the specs or the proofs of these crates have."""
    return sum(1 for crate in names for _ in lines_of(files_under("crates", crate, part, suffix=".antt")))


def is_parameter(line):
    """Whether a function is handed a count of the bytes that are written; errors have such a count as a field."""
    return "written: u64" in line and not VARIANT.match(line)


def asks_for_room(line):
    """Whether a function asks that a count of the bytes that are written fits in 64 bits."""
    return line.lstrip().startswith("requires") and re.search(r"\bwritten\b.*< 2 \^ 64", line)


def main():
    global TOP
    if len(sys.argv) > 1:
        TOP = os.path.abspath(sys.argv[1])
    lines = list(sources())
    clauses = [line for line in lines if CLAUSE.match(line)]
    print(f"parameters written: u64: {sum(1 for it in lines if is_parameter(it))}")
    print(f"requires that a count fits: {sum(1 for it in lines if asks_for_room(it))}")
    print(f"lines of proofs: {length_of('proofs', *crates())}")
    print(f"lines of specs and proofs of amihunk: {length_of('specs', 'amihunk') + length_of('proofs', 'amihunk')}")
    long = sum(1 for it in clauses if len(it) > COLUMNS)
    print(f"clauses that begin with a line over {COLUMNS} columns: {long} of {len(clauses)}")


if __name__ == "__main__":
    main()
