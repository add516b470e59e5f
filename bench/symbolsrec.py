#!/usr/bin/env python3
"""Compares what `amihunk load --srec --symbols` prints of random load files with what GNU binutils reads of it.

    bench/symbolsrec.py AMIHUNK

AMIHUNK is the program. `nm` and `objdump` are to tell exactly the names and addresses that the files have, but for the names that the
form cannot hold, and `objcopy` exactly the bytes in memory. What the files have is read by tests/load_files.py. The package binutils has
all three. The last line is 'N passed, M failed', and the status is 0 if M is 0.
"""
import os
import random
import re
import subprocess
import sys
import tempfile

sys.dont_write_bytecode = True
sys.path.insert(0, os.path.join(os.path.dirname(os.path.dirname(os.path.abspath(__file__))), "tests"))
import load_files
import model
from random_load_files import random_bases, random_hunks, spelt

FILES = 200
# Names that a line of the form, or an S-record, could be taken for, and others that it can hold or not.
NAMES = (b"$$", b"$", b"$10000", b"0", b"00000000", b"S0", b"S70500000000FA", b"_main", b"a.b$c", b"@%f", b"\"'\\`", b"x" * 500, b"",
         b" ", b"a b", b" a", b"a ", b"\ta", b"a\n$$ ", b"a\r", b"a\x7f", b"\x01", b"\xe9", "\u20ac".encode(), b"\xa0", b"y" * 300 + b"\xff")
# `objcopy` writes what lies between two hunks, too.
MOST_BETWEEN = 1 << 20


def output(*command):
    return subprocess.run(command, stdout=subprocess.PIPE, stderr=subprocess.DEVNULL, check=True).stdout


def random_file(dice):
    """A load file with some more symbols, and as many bases as it has hunks."""
    hunks = random_hunks(dice)
    for hunk in hunks:
        for _ in range(dice.choice((0, 1, 2, 8))):
            visible = bytes(dice.choices(range(0x21, 0x7F), k=dice.randrange(1, 20)))
            name = dice.choice((visible, dice.choice(NAMES), model.random_name(dice)))
            hunk.symbols.append((name, dice.choice((0, 1, 0xFFFFFFFF, dice.randrange(64), dice.randrange(model.MODULUS)))))
    return spelt(dice, hunks), random_bases(dice, hunks)


def contents(records):
    """The bytes of the `S3` records, by their addresses, and the texts of the `S0` records."""
    memory, texts = {}, []
    for line in records.split():
        counted = bytes.fromhex(line[2:].decode("ascii"))
        assert counted[0] == len(counted) - 1 and sum(counted) % 256 == 255, f"no record: {line}"
        if line.startswith(b"S0"):
            texts.append(counted[3:-1].decode("ascii"))
        elif line.startswith(b"S3"):
            memory.update(enumerate(counted[5:-1], int.from_bytes(counted[1:5], "big")))
    return memory, texts


def names_by_nm(path, *options):
    rows = [line.split() for line in output("nm", "-p", *options, path).decode("ascii").splitlines()]
    assert all(letter == "A" for _, letter, _ in rows), rows
    return [(name, int(address, 16)) for address, letter, name in rows]


def names_by_objdump(path):
    rows = [line.split() for line in output("objdump", "-b", "symbolsrec", "-t", path).decode("ascii").splitlines()]
    return [(words[-1], int(words[0], 16)) for words in rows if words[2:3] == ["*ABS*"]]


def check_bytes(path, memory):
    """`objcopy` makes these bytes of the records."""
    output("objcopy", "-I", "symbolsrec", "-O", "srec", "--srec-forceS3", path, f"{path}.copy")
    with open(f"{path}.copy", "rb") as file:
        assert contents(file.read())[0] == memory, "objcopy writes other records"
    first, last = min(memory), max(memory)
    if last - first < MOST_BETWEEN:
        output("objcopy", "-I", "symbolsrec", "-O", "binary", path, f"{path}.binary")
        with open(f"{path}.binary", "rb") as file:
            assert file.read() == bytes(memory.get(it, 0) for it in range(first, last + 1)), "objcopy writes other bytes"


def check(dice, amihunk, path):
    """Checks a random file, and returns how many names it has that the form can hold, and how many others."""
    bytes_, bases = random_file(dice)
    with open(f"{path}.load", "wb") as file:
        file.write(bytes_)
    load = (amihunk, "load", "--at", model.addresses(bases), f"{path}.load", "--srec")
    records, printed = output(*load), output(*load, "--symbols")
    with open(path, "wb") as file:
        file.write(printed)

    hunks = load_files.read(bytes_)
    symbols = [(name, (base + value) % model.MODULUS) for base, hunk in zip(bases, hunks) for name, value in hunk.symbols]
    held = [(name.decode("ascii"), address) for name, address in symbols if re.fullmatch(rb"[\x21-\x7e]+", name)]
    # It is known by its first line.
    for told in (names_by_nm(path, "--target=symbolsrec"), names_by_nm(path), names_by_objdump(path)):
        assert told == held, f"told {told}, and not {held}"
    left_out = len(symbols) - len(held)
    _, texts = contents(printed.partition(b"\n$$ \n")[2])
    assert texts == [f"symbols left out: {left_out}"] * (left_out > 0) + ["amihunk"], texts

    memory, _ = contents(records)
    parts = zip(bases, load_files.memory_of(hunks, bases))
    assert memory == {base + at: byte for base, part in parts for at, byte in enumerate(part)}, "the records have other bytes"
    # `objcopy` takes no file without bytes.
    if memory:
        check_bytes(path, memory)
    return len(held), left_out


def main():
    [amihunk] = map(os.path.abspath, sys.argv[1:])
    passed = failed = held = left_out = 0
    for seed in range(FILES):
        with tempfile.TemporaryDirectory() as folder:
            try:
                counts = check(random.Random(seed), amihunk, os.path.join(folder, "x"))
                held, left_out, passed = held + counts[0], left_out + counts[1], passed + 1
            except (AssertionError, subprocess.CalledProcessError, ValueError) as error:
                failed += 1
                print(f"FAILED: seed {seed}: {error!r:.2000}")
    print(f"{held} names were told, and {left_out} left out")
    print(f"{passed} passed, {failed} failed")
    return 1 if failed or not passed else 0


if __name__ == "__main__":
    sys.exit(main())
