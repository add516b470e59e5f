#!/usr/bin/env python3
"""Compares `amihunk show --names` with `m68k-linux-gnu-nm`, of ELF objects and of object files with the same in them.

    bench/names.py AMIHUNK ELF2HUNK

AMIHUNK is the program, and ELF2HUNK a script in Python that writes a relocatable ELF object for the m68k as an object file of one unit:
`ELF2HUNK [--symbols] IN OUT`, with a hunk for each section, `.text`, `.data` and `.bss` in this order. The package
binutils-m68k-linux-gnu has the assembler and `nm`. The last line is 'N passed, M failed', and the status is 0 if M is 0.
"""
import os
import random
import subprocess
import sys
import tempfile

LINKS, FILES, NAMES = 40, 3, 30
SECTIONS = {"T": ".text", "D": ".data", "B": ".bss"}


def source(dice, own, all_names):
    """The assembler's text of a file that defines its own names, and refers to any."""
    lines = []
    for letter, section in SECTIONS.items():
        lines += [section, ".long 0" if letter != "B" else ".skip 4"]
        for name in own[letter]:
            lines += [f".globl {name}"] * (not name.startswith("local")) + [f"{name}:"]
            skip = 2 * dice.randrange(1, 9)
            lines.append(f".skip {skip}" if letter == "B" or dice.random() < 0.5 else f".long {dice.choice(all_names)}")
    lines += [f".globl {name}\n.set {name}, {dice.randrange(1 << 24)}" for name in own["A"]]
    return "\n".join(lines) + "\n"


def nm(path):
    """What `nm` says of an object: for each name its value, if it has one, and its letter."""
    rows = subprocess.run(["m68k-linux-gnu-nm", path], stdout=subprocess.PIPE, check=True, text=True).stdout.splitlines()
    return [(name, value or None, letter) for value, letter, name in (row.rsplit(" ", 2) for row in rows) for value in [value.strip()]]


def wanted(objects, symbols):
    """The values, letters, names and units that are to be listed. The object files have global names as definitions; with `symbols`, all
    names of a section are symbols too."""
    told = [nm(path) for path in objects]
    defined = {name for rows in told for name, _, letter in rows if letter in "TDBA"}
    lines = []
    for unit, rows in enumerate(told):
        for name, value, letter in rows:
            if letter == "U":
                if name not in defined:
                    lines.append((name, " " * 8, "U", unit))
                continue
            if letter in "TDBA":
                lines.append((name, value, letter, unit))
            if symbols and letter in "TDBtdb":
                lines.append((name, value, letter.lower(), unit))
    return sorted(lines)


def listed(amihunk, files):
    """The same of what is listed, in the order of its lines and sorted: a name that is not defined once for each unit."""
    out = subprocess.run([amihunk, "show", "--names", *files], stdout=subprocess.PIPE, check=True, text=True).stdout
    lines = []
    for line in out.splitlines():
        value, letter, (name, place) = line[:8], line[9], line[11:].split(" unit ")
        lines.append((name.strip('"'), value, letter, int(place.split()[0])))
    names = [line[0] for line in lines]
    assert names == sorted(names), "the names are not sorted"
    return sorted(set(lines) if any(line[2] == "U" for line in lines) else lines)


def check(dice, amihunk, elf2hunk, folder):
    names = [f"name{number}" for number in range(NAMES)] + [f"absent{number}" for number in range(3)]
    objects, hunks, symbols = [], [], dice.random() < 0.5
    for number in range(FILES):
        own = {letter: [] for letter in (*SECTIONS, "A")}
        for name in names[number:NAMES:FILES]:
            own[dice.choice("TTDDBA")].append(name)
        for letter in SECTIONS:
            own[letter] += [f"local{number}{letter}"]
        path = os.path.join(folder, str(number))
        with open(f"{path}.s", "w", encoding="ascii") as file:
            file.write(source(dice, own, names))
        subprocess.run(["m68k-linux-gnu-as", "-o", f"{path}.o", f"{path}.s"], check=True)
        subprocess.run([sys.executable, elf2hunk, *["--symbols"] * symbols, f"{path}.o", f"{path}.hunk"], check=True)
        objects.append(f"{path}.o")
        hunks.append(f"{path}.hunk")
    for count in range(1, FILES + 1):
        told, right = listed(amihunk, hunks[:count]), wanted(objects[:count], symbols)
        assert told == right, f"told and not wanted {set(told) - set(right)}, wanted and not told {set(right) - set(told)}"


def main():
    amihunk, elf2hunk = map(os.path.abspath, sys.argv[1:])
    passed = failed = 0
    for seed in range(LINKS):
        with tempfile.TemporaryDirectory() as folder:
            try:
                check(random.Random(seed), amihunk, elf2hunk, folder)
                passed += 1
            except AssertionError as error:
                failed += 1
                print(f"FAILED: seed {seed}: {error}")
    print(f"{passed} passed, {failed} failed")
    return 1 if failed or not passed else 0


if __name__ == "__main__":
    sys.exit(main())
