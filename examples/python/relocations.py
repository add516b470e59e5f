#!/usr/bin/env python3
"""Prints the relocations of a hunk file, grouped by what they add: the address of a hunk, or what a name stands for.

    relocations.py FILE

FILE is an object file or a load file. It needs the module amihunk: docs/CALLING.md says where it is.
"""
import sys

import amihunk


def parts_of(contents):
    """Each unit of an object file, with the words that its hunks are told with; of a load file, all its hunks."""
    if isinstance(contents, amihunk.LoadFile):
        return [("", contents.hunks)]
    return [(f"unit {number} ", unit.hunks) for number, unit in enumerate(contents.units)]


def relocations(contents):
    """What is added, and where: for each target, in the order in which they first occur, the lines of its sites."""
    groups = {}
    for front, hunks in parts_of(contents):
        for number, hunk in enumerate(hunks):
            for site in hunk.sites:
                if isinstance(site.target, amihunk.HunkBase):
                    target = f"{front}hunk {site.target.number}"
                else:
                    target = f'"{site.target.name.decode("latin-1")}"'
                groups.setdefault(target, []).append(f"{front}hunk {number} at {site.offset:08x}")
    return groups


def main(path):
    try:
        with open(path, "rb") as file:
            contents = amihunk.read_file(file, name=path)
    except amihunk.AmihunkError as error:
        print(error.line, file=sys.stderr)
        return 1
    for target, lines in relocations(contents).items():
        print(target)
        for line in lines:
            print(f"  {line}")
    return 0


if __name__ == "__main__":
    if len(sys.argv) != 2:
        sys.exit("usage: relocations.py FILE")
    sys.exit(main(sys.argv[1]))
