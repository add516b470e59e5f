#!/usr/bin/env python3
"""Searches for files that take much memory for their size: amplification.py PEAK PROGRAM SIZE

PEAK is bench/peak.c, compiled. Each file repeats one thing, such as an empty hunk or a symbol, up to about SIZE bytes. Every command
reads files of every shape, and then files that vary the two worst of them: longer names, larger groups, more hunks. What it takes for
the smallest file of the same kind is subtracted. A load file is placed at addresses one after another.

It prints a line for each command, with tabs between: its words; the memory for each byte of a file of content, of one of relocations
and of one of names; the worst that was found, and the file that has it.
"""
import itertools
import os
import random
import struct
import subprocess
import sys
import tempfile

sys.dont_write_bytecode = True
sys.path.insert(0, os.path.join(os.path.dirname(os.path.abspath(__file__)), "../tests"))
from model import BSS, CODE, DEBUG, DEF, END, EXT, HEADER, NAME, REF32, RELOC32, SYMBOL, UNIT, words

MOST_HUNKS = 65535
ROUNDS = 12


def name(number, longwords):
    """A name of so many longwords, another one for each number."""
    return b"%08x" % number + b"n" * (4 * longwords - 8) if longwords > 1 else words(number + (1 << 24))


def times(count, part):
    return b"".join(part(number) for number in range(count))


def entries(block, count, entry):
    return words(block) + times(count, entry) + words(0)


# ---- what a hunk has after its content, about so many bytes of it, and the bytes of content that it needs: SIZE LENGTH COUNT

def symbols(size, length, count):
    return entries(SYMBOL, size // (8 + 4 * length), lambda i: words(length) + name(i, length) + words(4 * i)), 0


def debugs(size, length, count):
    return times(size // (8 + 4 * length), lambda i: words(DEBUG, length) + bytes(4 * length)), 0


def definitions(size, length, count):
    return entries(EXT, size // (8 + 4 * length), lambda i: words(DEF << 24 | length) + name(i, length) + words(4 * i)), 0


def references(size, length, count):
    """Each has so many offsets, four bytes apart."""
    number, total = itertools.count(), size // (8 + 4 * length + 8 * count)

    def entry(i):
        return words(REF32 << 24 | length) + name(i, length) + words(count, *(4 * next(number) for _ in range(count)))
    return entries(EXT, total, entry), 4 * count * total


def unused_references(size, length, count):
    return entries(EXT, size // (8 + 4 * length), lambda i: words(REF32 << 24 | length) + name(i, length) + words(0)), 0


def relocations(size, length, count):
    """In groups of so many offsets, four bytes apart."""
    number, total = itertools.count(), size // (8 + 8 * count)
    return entries(RELOC32, total, lambda i: words(count, 0, *(4 * next(number) for _ in range(count)))), 4 * count * total


def sparse(size, length, count):
    """One for each of so many longwords of content."""
    total = size // (4 * count + 4)
    return words(RELOC32, total, 0, *(4 * count * i for i in range(total)), 0), 4 * count * total


def empty_blocks(size, length, count):
    """Blocks of relocations without any."""
    return times(size // 8, lambda i: words(RELOC32, 0)), 0


def content(size, length, count):
    return b"", size // 4 * 4


def load_file(hunks):
    """Of hunks, each its blocks and its size in longwords."""
    sizes = [size for _, size in hunks]
    return words(HEADER, 0, len(hunks), 0, len(hunks) - 1, *sizes) + b"".join(blocks for blocks, _ in hunks)


def object_file(hunks):
    return words(UNIT, 0) + b"".join(blocks for blocks, _ in hunks)


# ---- whole files: SIZE LENGTH COUNT HUNKS

def of_part(file_of, part):
    """A file of so many hunks that share the size."""
    def make(size, length, count, hunks):
        blocks, stored = part(size // hunks, length, count)
        return file_of([(words(CODE, stored // 4) + bytes(stored) + blocks + words(END), stored // 4)] * hunks)
    return make


def empty_hunks(kind):
    return lambda size, length, count, hunks: load_file([(words(kind, 0, END), 0)] * min(size // 16, MOST_HUNKS))


def empty_units(size, length, count, hunks):
    return times(size // (8 + 4 * length), lambda i: words(UNIT, length) + name(i, length))


def named_hunks(size, length, count, hunks):
    return words(UNIT, 0) + times(size // (20 + 4 * length), lambda i: words(NAME, length) + name(i, length) + words(CODE, 0, END))


OF_BOTH = [content, symbols, debugs, relocations, sparse, empty_blocks]
OF_UNITS = [*OF_BOTH, definitions, references, unused_references]
SHAPES = {f"{part.__name__} of a load file": of_part(load_file, part) for part in OF_BOTH}
SHAPES |= {f"{part.__name__} of an object file": of_part(object_file, part) for part in OF_UNITS}
SHAPES |= {"empty hunks": empty_hunks(CODE), "empty BSS hunks": empty_hunks(BSS), "units without hunks": empty_units, "hunks with names": named_hunks}


def addresses_of(data):
    """Of a load file, one after another."""
    _, _, count, _, _ = struct.unpack_from(">5I", data)
    base, bases = 0, []
    for size in struct.unpack_from(f">{count}I", data, 20):
        bases.append(base)
        base += 4 * (size & 0x3FFFFFFF) + 4
    return "".join(f"{base:x}\n" for base in bases)


# Each command by the words after the program, where FILE is the file, AT its addresses and OUT what it may write.
COMMANDS = {
    "check": "check FILE", "check --lint": "check --lint FILE", "show": "show FILE", "show --names": "show --names FILE",
    "show --json": "show --json FILE", "show --json --content": "show --json --content FILE", "show --html": "show --html FILE",
    "survey": "survey FILE", "survey --digest": "survey --digest FILE",
}
OF_LOAD_FILES = {
    "load": "load --at-file AT FILE", "load --srec --symbols": "load --srec --symbols --at-file AT FILE", "copy": "copy --out OUT FILE",
    "copy --short --trim": "copy --short --trim --out OUT FILE", "copy --normal": "copy --normal --out OUT FILE", "compare": "compare FILE FILE",
}
OF_OBJECT_FILES = {
    "link": "link --out OUT FILE", "link --map": "link --map MAP --out OUT FILE", "link --explain": "link --explain --out OUT FILE",
    "link --globals": "link --globals --out OUT FILE",
}
SMALLEST = {True: load_file([(words(CODE, 0, END), 0)]), False: object_file([(words(CODE, 0, END), 0)])}


def is_load_file(data):
    return data[:4] == words(HEADER)


class Measured:
    """What commands take of memory."""

    def __init__(self, peak_of, program, folder):
        self.peak_of, self.program, self.folder, self.least = peak_of, program, folder, {}

    def peak(self, command, data):
        """The most memory that it has, in bytes. A file that is refused counts, too."""
        at = {word: os.path.join(self.folder, word) for word in ("FILE", "AT", "OUT", "MAP")}
        with open(at["FILE"], "wb") as file:
            file.write(data)
        if "AT" in command.split():
            with open(at["AT"], "w") as file:
                file.write(addresses_of(data))
        words_ = [at.get(word, word) for word in command.split()]
        ended = subprocess.run([self.peak_of, self.program, *words_], capture_output=True, text=True, check=True)
        status, kib = ended.stdout.split()
        if int(status) > 2:
            sys.exit(f"amihunk {command}: ended with status {status}")
        return 1024 * int(kib)

    def ratio(self, command, data):
        is_load = is_load_file(data)
        if (command, is_load) not in self.least:
            self.least[command, is_load] = min(self.peak(command, SMALLEST[is_load]) for _ in range(3))
        return max(0, self.peak(command, data) - self.least[command, is_load]) / len(data)


def is_for(label, data):
    return label in COMMANDS or (label in OF_LOAD_FILES) == is_load_file(data)


def varied(chosen, given):
    """The same with one of its numbers changed."""
    numbers, which = list(given), chosen.randrange(3)
    numbers[which] = max(1, min(4096, int(numbers[which] * chosen.choice([0.25, 0.5, 2, 4]))))
    return tuple(numbers)


class Search:
    """The files that take the most memory of one command."""

    def __init__(self, measured, label, command, size):
        self.measured, self.label, self.command, self.size = measured, label, command, size

    def ratio(self, shape, given):
        data = SHAPES[shape](self.size, *given)
        return self.measured.ratio(self.command, data) if data and is_for(self.label, data) else None

    def worst(self, chosen):
        """The worst ratio, and the file that has it."""
        plain = (1, 1, 1)
        tried = [(self.ratio(shape, plain), shape, plain) for shape in SHAPES]
        found = sorted((each for each in tried if each[0] is not None), reverse=True)[:2]
        return max(self.climbed(chosen, *start) for start in found)

    def climbed(self, chosen, ratio, shape, given):
        for _ in range(ROUNDS):
            other = varied(chosen, given)
            again = self.ratio(shape, other)
            if again is not None and again > ratio:
                ratio, given = again, other
        return ratio, f"{shape}: names of {given[0]} longwords, groups of {given[1]}, hunks: {given[2]}"

    def of(self, *shapes):
        """The ratio of the first of these shapes that the command reads."""
        return next(ratio for ratio in (self.ratio(shape, (2, 64, 1)) for shape in shapes) if ratio is not None)


def main():
    peak_of, program, size = sys.argv[1], sys.argv[2], int(sys.argv[3])
    chosen = random.Random(1)
    with tempfile.TemporaryDirectory(dir="/dev/shm" if os.access("/dev/shm", os.W_OK) else None) as folder:
        measured = Measured(peak_of, program, folder)
        for label, command in {**COMMANDS, **OF_LOAD_FILES, **OF_OBJECT_FILES}.items():
            search = Search(measured, label, command, size)
            parts = [search.of(f"{part} of a load file", f"{part} of an object file") for part in ("content", "relocations", "symbols")]
            ratio, shape = search.worst(chosen)
            print(label, *(f"{part:.2f}" for part in parts), f"{ratio:.2f}", shape, sep="\t", flush=True)


main()
