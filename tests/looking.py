#!/usr/bin/env python3
"""Compares what the C library tells of files with what the program prints of them.

    tests/looking.py [--program PATH] [--library FOLDER]

It builds capi/tests/tell.c over the library of FOLDER, which is capi/out if none is given, and runs it and `show --json` of the
program on the files of examples/, on those of the tests, on random object files, and on the load files that the program links of
them. The bytes and the longwords that are in no document are compared with the units that the random files are made of. Files that
are refused give the same line. Each file counts as one test. The last line is 'N passed, M failed', and the status is 0 if M is 0.
It needs a C compiler ($CC, or cc).
"""
import argparse
import json
import os
import random
import subprocess
import sys
import tempfile
import traceback

sys.dont_write_bytecode = True
import model
import runs
from harness import DONE, REFUSED, Program, equals
from json_documents import NAMES, name_value
from model import ABS, BSS, CODE, DATA, DEBUG, DEF, END, HEADER, RELOC32, RELOC32SHORT, SYMBOL, UNIT, Hunk, Unit, words
from sources import TOP

SEEDS = 300
KINDS, MEMORIES = ("code", "data", "bss"), ("any", "chip", "fast")


class Told:
    """A hunk as the library tells it."""

    def __init__(self, kind, memory, size, name, stored, *counts):
        self.kind, self.memory, self.size = KINDS[int(kind)], MEMORIES[int(memory)], int(size)
        self.name, self.stored, self.counts = bytes_of(name), bytes_of(stored), [int(it) for it in counts]
        self.sites, self.symbols, self.definitions, self.references, self.debugs = [], [], [], [], []

    def add(self, what, *rest):
        if what == "site":
            self.sites.append((int(rest[0]), rest[1], int(rest[2])))
        elif what == "reference":
            self.references.append(bytes_of(rest[0]))
        elif what == "definition":
            self.definitions.append((bytes_of(rest[0]), int(rest[1]), {"0": False, "1": True}[rest[2]]))
        elif what == "symbol":
            self.symbols.append((bytes_of(rest[0]), int(rest[1])))
        else:
            equals(what, "debug")
            self.debugs.append([int(it) for it in rest[1:]])
            equals(len(self.debugs[-1]), int(rest[0]))

    def site_value(self, offset, kind, target):
        return {"offset": offset} | ({"hunk": target} if kind == "hunk" else {"name": name_value(self.references[target])})

    def value(self, load):
        """What a document has of it."""
        parts = (self.sites, self.symbols, self.definitions, self.references, self.debugs)
        equals([len(it) for it in parts], self.counts)
        value = {"kind": self.kind, "memory": self.memory, "size": self.size, "debugs": [len(it) for it in self.debugs]}
        value["sites"] = [self.site_value(*it) for it in self.sites]
        value["symbols"] = [{"name": name_value(name), "value": number} for name, number in self.symbols]
        if load:
            equals((self.name, self.definitions, self.references, len(self.stored) % 4), (b"", [], [], 0))
            return value | {"stored": len(self.stored) // 4}
        equals(len(self.stored), 0 if self.kind == "bss" else 4 * self.size)
        definitions = [{"absolute": absolute, "name": name_value(name), "value": number} for name, number, absolute in self.definitions]
        return value | {"name": name_value(self.name), "definitions": definitions}


def bytes_of(word):
    equals(word[0], "x")
    return bytes.fromhex(word[1:])


def read_told(text):
    """Whether it is a load file, and its units: the name of each, and its hunks."""
    lines = [line.split(" ") for line in text.splitlines()]
    (front, kind, count), units, hunks = lines[0], [], []
    equals(front, "file")
    for what, *rest in lines[1:]:
        if what == "unit":
            units.append((bytes_of(rest[0]), []))
            hunks.append(int(rest[1]))
        elif what == "hunk":
            units[-1][1].append(Told(*rest))
        else:
            units[-1][1][-1].add(what, *rest)
    equals((len(units), [len(it) for _, it in units]), (int(count), hunks))
    return kind == "1", units


def told_value(load, units):
    """The document of what is told."""
    if load:
        (name, hunks), = units
        equals(name, b"")
        return {"hunks": [hunk.value(True) for hunk in hunks], "kind": "load file"}
    parts = [{"hunks": [hunk.value(False) for hunk in hunks], "name": name_value(name)} for name, hunks in units]
    return {"kind": "object file", "units": parts}


class Comparison:
    """Runs both programs in one folder, and counts the files of which they tell the same."""

    def __init__(self, program, tell):
        self.program, self.tell = program, tell
        self.passed = self.failed = 0

    def compare(self, name, further=None):
        """Both tell the same of a file; and what the library tells agrees with `further`, which is called with its units."""
        try:
            told, printed = self.tell.run(name), self.program.run("show", "--json", name)
            equals(told[0] in (DONE, REFUSED), True, told)
            equals((told[0], told[2]), (printed[0], printed[2]), name)
            if told[0] == DONE:
                load, units = read_told(told[1])
                equals(told_value(load, units), json.loads(printed[1].encode("latin-1")), name)
                if further:
                    further(units)
            self.passed += 1
        except Exception:
            self.failed += 1
            print(f"FAILED: {name}\n{traceback.format_exc()}")

    def of_bytes(self, name, bytes_):
        self.program.write(name, bytes_)
        self.compare(name)


class Tell(Program):
    """The program that prints what the library tells."""

    def run(self, name):
        ran = subprocess.run([self.path, name], cwd=self.folder, capture_output=True, timeout=60)
        return ran.returncode, *(it.decode("latin-1") for it in (ran.stdout, ran.stderr))


def compare_examples(comparison):
    folder = os.path.join(TOP, "examples")
    for name in sorted(os.listdir(folder)):
        if os.path.isfile(os.path.join(folder, name)):
            with open(os.path.join(folder, name), "rb") as file:
                bytes_ = file.read()
            comparison.of_bytes(name, bytes_)
            # It may end anywhere, and have any longword.
            for size in range(0, len(bytes_), 3):
                comparison.of_bytes(f"{name} up to {size}", bytes_[:size])
            for place in range(0, len(bytes_), 4):
                for longword in (words(0), words(0x3F2), words(0x3F5), words(1 << 31)):
                    comparison.of_bytes(f"{name} changed at {place}", bytes_[:place] + longword + bytes_[place + 4:])


def compare_files_of_the_tests(comparison):
    short = words(0x00010001, 0x00080000)
    for name, bytes_ in (
        ("a load file", runs.LOAD_FILE),
        ("an object file", runs.OBJECT_FILE),
        ("zeros", runs.LARGE_FILE),
        ("none.o", model.object_file([[]])),
        ("most hunks", words(HEADER, 0, 65535, 0, 65534, *[0] * 65535) + words(DATA, 0, END) * 65535),
        ("short relocations", words(HEADER, 0, 2, 0, 1, 3, 0, CODE, 1, 7, RELOC32SHORT) + short + words(END, BSS, 0, END)),
        ("both relocations", words(HEADER, 0, 1, 0, 0, 3, DATA, 0, RELOC32, 1, 0, 4, 0, RELOC32SHORT, 0x00010000, 0, END)),
        ("debug blocks", words(HEADER, 0, 1, 0, 0, 0, CODE, 0, DEBUG, 0, DEBUG, 2, 1, 0xFFFFFFFF, SYMBOL, 1, 0, 9, 0, DEBUG, 0, END)),
        ("only a unit", words(UNIT, 0)),
        ("nothing", b""),
        ("no hunk file", b"no hunk file"),
        ("a byte more", runs.LOAD_FILE + b"\0"),
    ):
        comparison.of_bytes(name, bytes_)
    for number, (name, _) in enumerate(NAMES):
        hunk = Hunk(CODE, [0], name)
        hunk.sites, hunk.definitions, hunk.symbols = [(0, name)], [(ABS, name, 7), (DEF, name, 8)], [(name or b"x", 8)]
        comparison.of_bytes(f"name {number}", model.object_file([Unit([hunk], name)]))


def has_units(units):
    """Agrees with units of the model: the bytes, the debug blocks, and the names that are referred to."""
    def further(told):
        equals([name for name, _ in told], [model.name_of(unit) for unit in units])
        for (_, hunks), unit in zip(told, units):
            for hunk, wanted in zip(hunks, unit):
                equals(hunk.stored, b"" if wanted.kind == BSS else words(*wanted.words))
                equals(hunk.debugs, wanted.debugs)
                equals(hunk.references, list(dict.fromkeys(it for _, it in wanted.sites if isinstance(it, bytes))))
                equals([offset for offset, _, _ in hunk.sites], sorted(offset for offset, _ in wanted.sites))
    return further


def has_hunks(units, strip):
    """Agrees with the load file of units of the model: what is stored is the beginning of what is loaded at 0."""
    hunks = [hunk for unit in units for hunk in unit]

    def further(told):
        (_, told_hunks), = told
        for hunk, wanted, loaded in zip(told_hunks, hunks, model.memory_of(units, [0] * len(hunks))):
            equals(hunk.stored, loaded[:len(hunk.stored)])
            equals(any(loaded[len(hunk.stored):]), False)
            equals(hunk.debugs, [] if strip else wanted.debugs)
            equals(hunk.symbols, [] if strip else wanted.symbols)
    return further


def compare_random_files(comparison):
    for seed in range(SEEDS):
        dice = random.Random(seed)
        units = model.random_named_units(seed) if seed % 2 else model.random_units(seed)
        comparison.program.write(f"{seed}.o", model.object_file(units))
        comparison.compare(f"{seed}.o", has_units(units))
        options = model.random_options(dice)
        comparison.program.prints("", "link", "--out", f"{seed}", *options, f"{seed}.o")
        comparison.compare(f"{seed}", has_hunks(units, "--strip" in options))


def build_tell(folder, library):
    path = os.path.join(folder, "tell")
    command = [os.environ.get("CC") or "cc", "-std=c11", "-O2", "-Wall", "-Wextra", "-Werror", "-pedantic", f"-I{library}"]
    command += [f"-I{TOP}/capi", f"{TOP}/capi/tests/tell.c", "-o", path, os.path.join(library, "libamihunk.a")]
    subprocess.run(command, check=True)
    return path


def main():
    parser = argparse.ArgumentParser()
    parser.add_argument("--program", default=os.path.join(TOP, "crates", "amihunk", "out", "amihunk"))
    parser.add_argument("--library", default=os.path.join(TOP, "capi", "out"))
    given = parser.parse_args()
    with tempfile.TemporaryDirectory() as folder, tempfile.TemporaryDirectory() as built:
        comparison = Comparison(Program(given.program, folder), Tell(build_tell(built, given.library), folder))
        compare_examples(comparison)
        compare_files_of_the_tests(comparison)
        compare_random_files(comparison)
    print(f"{comparison.passed} passed, {comparison.failed} failed")
    return 1 if comparison.failed or not comparison.passed else 0


if __name__ == "__main__":
    sys.exit(main())
