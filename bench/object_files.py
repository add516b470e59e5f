#!/usr/bin/env python3
"""Writes the object files of a made program: object_files.py FOLDER KIND COUNT [--elf]

`many` is COUNT files of three hunks each. A file defines eight names, refers 24 times to names of others,
mostly of the files that follow it, and relocates 32 longwords.
`small` is COUNT files of one hunk of two longwords each. A file defines a name and refers to the name of
another.
`symbols` is COUNT files of one hunk each. A file defines 2,000 names and refers to 2,000 of others.
`big` is a file of one hunk of DATA with COUNT longwords and a relocation for every 62 bytes, and a small file
that refers to it.
`named` is two files of one hunk each, to be linked apart. The first defines COUNT names, which are lines of the
standard input, and the second as many ordinary names of the same length. They differ in nothing else.

The files are FOLDER/00000.o and so on. Their contents repeat in no short pattern, and sites stand at any offset.
The same arguments make the same files. With --elf they are ELF objects of the same program, for linkers that
read those: each hunk is a section, and what a site adds stands in its relocation.
"""
import argparse
import dataclasses
import pathlib
import random
import sys

import elf_object
from blocks import UNIT, NAME, CODE, DATA, BSS, RELOC32, EXT, END, longwords

DEFINITION, REFERENCE = 1 << 24, 129 << 24


def text(name):
    return name.encode() + bytes(-len(name) % 4)


def titled(first, name, *rest):
    """An entry or a block that is this number, with the length of a name, and the name."""
    padded = text(name)
    if first in (UNIT, NAME):
        head = [first, len(padded) // 4]
    else:
        head = [first | len(padded) // 4]
    return longwords(head) + padded + longwords(rest)


def relocations(groups):
    """For each hunk number the offsets at which its base is added."""
    parts = [longwords([len(offsets), number]) + longwords(offsets) for number, offsets in groups.items()]
    return longwords([RELOC32]) + b"".join(parts) + longwords([0])


def externals(definitions, references):
    parts = [titled(DEFINITION, name, offset) for name, offset in definitions]
    parts += [titled(REFERENCE, name, len(offsets), *offsets) for name, offsets in references.items()]
    return longwords([EXT]) + b"".join(parts) + longwords([0])


@dataclasses.dataclass
class Hunk:
    kind: int
    # The bytes of its content; of BSS those that its memory has.
    data: bytes
    name: str = ""
    # For each hunk number of the unit, the offsets at which its base is added.
    relocations: dict = dataclasses.field(default_factory=dict)
    # Names with offsets, and for each name the offsets at which it is referred to.
    definitions: list = dataclasses.field(default_factory=list)
    references: dict = dataclasses.field(default_factory=dict)

    def blocks(self):
        if self.name:
            yield titled(NAME, self.name)
        yield longwords([self.kind, len(self.data) // 4])
        if self.kind != BSS:
            yield self.data
        if self.relocations:
            yield relocations(self.relocations)
        if self.definitions or self.references:
            yield externals(self.definitions, self.references)
        yield longwords([END])


def hunk_object(name, hunks):
    return titled(UNIT, name) + b"".join(block for hunk in hunks for block in hunk.blocks())


def elf_of(_name, hunks):
    flags = {CODE: elf_object.CODE, DATA: elf_object.DATA, BSS: elf_object.BSS}
    return elf_object.elf_object([
        elf_object.Section(flags[it.kind], it.data, it.relocations, it.definitions, it.references) for it in hunks
    ])


def many(dice, count):
    for number in range(count):
        references, own, data = {}, {}, {}
        for place in range(48):
            offset = 24 * place + dice.randrange(4)
            if place % 2 == 1:
                own.setdefault(dice.randrange(3), []).append(offset)
                continue
            near = dice.random() < 0.7
            other = number + 1 + dice.randrange(min(50, count)) if near else dice.randrange(count)
            name = "module%d_function_%d" % (other % count, dice.randrange(8))
            references.setdefault(name, []).append(offset)
        for offset in range(0, 64, 8):
            data.setdefault(dice.randrange(3), []).append(offset)
        names = [("module%d_function_%d" % (number, place), 8 * place) for place in range(8)]
        yield "%d.o" % number, [
            Hunk(CODE, dice.randbytes(1200 + 4 * dice.randrange(400)), ".text", own, names[:6], references),
            Hunk(DATA, dice.randbytes(256), ".data", data, names[6:]),
            Hunk(BSS, bytes(128), ".bss"),
        ]


def symbols(dice, count):
    name = "a_rather_long_prefix_of_names_%d_%d"
    for number in range(count):
        names = [(name % (number, place), 4 * place) for place in range(2000)]
        others = [(number + 1 + dice.randrange(max(count - 1, 1))) % count for _ in names]
        references = {name % (other, place): [4 * place] for place, other in enumerate(others)}
        yield "%d.o" % number, [Hunk(CODE, dice.randbytes(8000), definitions=names, references=references)]


def small(dice, count):
    for number in range(count):
        other = "name%d" % dice.randrange(count)
        yield "", [Hunk(CODE, dice.randbytes(8), definitions=[("name%d" % number, 4)], references={other: [2]})]


def big(dice, count):
    sites = range(0, 4 * count - 3, 62)
    yield "table.o", [Hunk(DATA, dice.randbytes(4 * count), relocations={0: sites}, definitions=[("table", 0)])]
    yield "small.o", [Hunk(CODE, dice.randbytes(64), references={"table": [8]})]


def named(dice, count):
    names = sys.stdin.read().split()[:count]
    data = dice.randbytes(4 * count)
    for listed in names, ["n%0*d" % (len(name) - 1, place) for place, name in enumerate(names)]:
        yield "named.o", [Hunk(CODE, data, definitions=[(name, 4 * place) for place, name in enumerate(listed)])]


def main():
    makers = {"many": many, "small": small, "symbols": symbols, "big": big, "named": named}
    options = argparse.ArgumentParser()
    options.add_argument("folder", type=pathlib.Path)
    options.add_argument("kind", choices=makers)
    options.add_argument("count", type=int)
    options.add_argument("--elf", action="store_const", const=elf_of, default=hunk_object, dest="write")
    given = options.parse_args()
    given.folder.mkdir(parents=True)
    for number, (name, hunks) in enumerate(makers[given.kind](random.Random(7), given.count)):
        (given.folder / ("%05d.o" % number)).write_bytes(given.write(name, hunks))


main()
