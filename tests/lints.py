"""What `check --lint` tells of files: by hand, and of random files as lint_model.py reads them."""
import random

import model
from harness import DEVICE, DONE, REFUSED, equals, test
from lint_model import lint_of
from model import BSS, CODE, DATA, DEBUG, DEF, END, EXT, HEADER, MEMORIES, NAME, REF32, RELOC32, RELOC32SHORT, SYMBOL, UNIT, words
from random_load_files import any_bits, loose_name, loose_symbol, loose_title, random_groups, random_hunks, spelt
from runs import LOAD_FILE, OBJECT_FILE

# Bits that are ignored, above the 30 of a type or of a size.
UPPER = 1 << 31
LOADED, ASSEMBLED = "load file: 1 hunks\n", "object file: 1 units, 1 hunks\n"


def name(letters):
    return int.from_bytes(letters.ljust(4, b"\0"), "big")


# Files, each with the lines after the first one.
LOADS = (
    (LOAD_FILE, ""),
    # Types and sizes with bits that are ignored, and a name.
    (words(HEADER | UPPER, 0, 1, 0, 0, 1, NAME | UPPER, 1, name(b"ab"), CODE | UPPER, 1 | UPPER, 0x4E754E71, END | 1 << 30), (
        "longword 0: the upper bits of the type are ignored\n"
        "longword 6: the upper bits of the type are ignored\n"
        "longword 6: the name of a hunk of a load file is ignored\n"
        "longword 9: the upper bits of the type are ignored\n"
        "longword 10: the upper bits of the size are ignored\n"
        "longword 12: the upper bits of the type are ignored\n")),
    # The memory that the header asks for is none of these bits.
    (words(HEADER, 0, 1, 0, 0, 1 << 30 | 1, CODE, 1, 0x4E754E71, END), ""),
    # A BSS block of another size, and one that tells the size of the header.
    (words(HEADER, 0, 1, 0, 0, 3, BSS, 2, END), "longword 7: the size of the BSS block is not the one in the header, which counts\n"),
    (words(HEADER, 0, 1, 0, 0, 3, BSS, 3 | UPPER, END), "longword 7: the upper bits of the size are ignored\n"),
    # Sites at odd offsets, and what they point to: the end of a hunk is none, nor is what the header has of it and the file has not.
    (words(HEADER, 0, 1, 0, 0, 4, CODE, 4, 0x10000000, 0x10000000, 0, 0, RELOC32, 2, 0, 1, 9, 0, END), (
        "hunk 0: site 00000001 is at an odd offset\n"
        "hunk 0: site 00000009 is at an odd offset\n")),
    (words(HEADER, 0, 1, 0, 0, 4, CODE, 3, 16, 17, 0xFFFFFFFF, RELOC32, 3, 0, 8, 4, 0, 0, END), (
        "hunk 0: site 00000004 points to 00000011 of hunk 0, which has 16 bytes\n"
        "hunk 0: site 00000008 points to ffffffff of hunk 0, which has 16 bytes\n")),
    (words(HEADER, 0, 1, 0, 0, 4, CODE, 1, 0x00000001, RELOC32, 1, 0, 3, 0, END), (
        "hunk 0: site 00000003 is at an odd offset\n"
        "hunk 0: site 00000003 points to 01000000 of hunk 0, which has 16 bytes\n")),
    # Relocation blocks without offsets, and two groups for one hunk.
    (words(HEADER, 0, 1, 0, 0, 2, CODE, 2, 0, 0, RELOC32, 0, RELOC32SHORT, 0x0000BEEF, RELOC32, 1, 0, 0, 1, 0, 4, 0, END), (
        "longword 11: a relocation block without offsets\n"
        "longword 13: a relocation block without offsets\n"
        "longword 19: a second group of relocations for hunk 0\n")),
    # Names: what stands after a zero byte, but zeros.
    (words(HEADER, 0, 1, 0, 0, 0, CODE, 0, SYMBOL, 2, name(b"a\0b"), name(b"cd"), 0, 2, name(b"ab"), 0, 0, 2, name(b"abcd"), name(b"\0x"), 1, 0, END), (
        "longword 10: bytes after a zero byte of the name are ignored\n"
        "longword 19: bytes after a zero byte of the name are ignored\n"
        "hunk 0: symbol \"abcd\" 00000001 is past the hunk, which has 0 bytes\n")),
    # The end of a hunk is a place for a symbol.
    (words(HEADER, 0, 1, 0, 0, 1, DATA, 1, 0, SYMBOL, 1, name(b"end"), 4, 1, name(b"\"\n"), 5, 0, END),
     "hunk 0: symbol \"\\x22\\x0a\" 00000005 is past the hunk, which has 4 bytes\n"),
)
OBJECTS = (
    (OBJECT_FILE, ""),
    # Bits of the types of content are memory, and no others are.
    (words(UNIT, 0, CODE | UPPER, 1 | UPPER, 0x4E754E71, DEBUG | UPPER, 1, 0xFFFFFFFF, END), (
        "longword 3: the upper bits of the size are ignored\n"
        "longword 5: the upper bits of the type are ignored\n")),
    (words(UNIT, 1, name(b"u\0v"), NAME, 1, name(b"n"), CODE | 1 << 30, 0, END), (
        "longword 2: bytes after a zero byte of the name are ignored\n")),
    # References: without offsets, at odd offsets, and to hunks of the unit.
    (words(UNIT, 0, CODE, 2, 0xFF, 0, EXT, REF32 << 24 | 1, name(b"x"), 0, REF32 << 24 | 1, name(b"y"), 1, 1, DEF << 24 | 1, name(b"z"), 900, 0, END), (
        "longword 9: a reference without offsets is ignored\n"
        "unit 0 hunk 0: site 00000001 is at an odd offset\n")),
    (words(UNIT, 0, DATA, 2, 8, 9, RELOC32, 1, 0, 0, 1, 1, 4, 0, END), "unit 0 hunk 0: site 00000004 adds hunk 1, and the unit has 1 hunks\n"),
    (words(UNIT, 0, DATA, 2, 8, 9, RELOC32, 2, 0, 0, 4, 0, END),
     "unit 0 hunk 0: site 00000004 points to 00000009 of hunk 0, which has 8 bytes\n"),
)


@test
def what_is_odd_in_a_file_is_told(program):
    for rows, first in ((LOADS, LOADED), (OBJECTS, ASSEMBLED)):
        for bytes_, told in rows:
            program.write("x", bytes_)
            program.prints(first + told, "check", "--lint", "x")
            program.prints(first, "check", "x")
            # It is what the reader of these tests finds.
            equals(lint_of(bytes_), first + told)
            program.prints(first + told, "check", "-", "--lint", input=bytes_)
            program.prints(first + told, "check", "--explain", "--lint", "--", "x")


@test
def units_are_told_with_their_hunks(program):
    program.write("x", words(UNIT, 0, UNIT, 0, DATA, 1, 4, RELOC32, 1, 1, 0, 0, END, BSS, 0, SYMBOL, 1, name(b"s"), 1, 0, END, UNIT | UPPER, 0))
    program.prints(
        "object file: 3 units, 2 hunks\n"
        "longword 21: the upper bits of the type are ignored\n"
        "unit 0: no hunks\n"
        "unit 1 hunk 0: site 00000000 points to 00000004 of hunk 1, which has 0 bytes\n"
        "unit 1 hunk 1: symbol \"s\" 00000001 is past the hunk, which has 0 bytes\n"
        "unit 2: no hunks\n", "check", "--lint", "x")


def loose_units(dice, units):
    """An object file of these units, with what an object file may have and none needs."""
    parts = []
    for unit in units:
        parts.append(loose_title(dice, UNIT, model.name_of(unit)))
        parts += [loose_hunk(dice, hunk) for hunk in unit]
        if dice.random() < 0.1:
            parts.append(words(UNIT, 0))
    return b"".join(parts)


def loose_hunk(dice, hunk):
    parts = []
    if hunk.name:
        parts.append(loose_title(dice, NAME, hunk.name))
    content = b"" if hunk.kind == BSS else words(*hunk.words)
    parts.append(words(MEMORIES.index(hunk.memory) << 30 | hunk.kind, any_bits(dice, len(hunk.words))) + content)
    sites = [(offset, target) for offset, target in hunk.sites if isinstance(target, int)]
    if sites or dice.random() < 0.1:
        parts.append(words(any_bits(dice, RELOC32), *random_groups(dice, sites)))
    entries = [loose_entry(dice, kind, of, words(value)) for kind, of, value in hunk.definitions]
    for of in dict.fromkeys(target for _, target in hunk.sites if isinstance(target, bytes)):
        offsets = [offset for offset, it in hunk.sites if it == of]
        entries.append(loose_entry(dice, REF32, of, words(len(offsets), *offsets)))
    if dice.random() < 0.2:
        entries.append(loose_entry(dice, REF32, b"nobody", words(0)))
    parts.append(words(any_bits(dice, EXT)) + b"".join(entries) + words(0))
    if hunk.symbols:
        parts.append(words(any_bits(dice, SYMBOL)) + b"".join(loose_symbol(dice, *row) for row in hunk.symbols) + words(0))
    parts += [words(any_bits(dice, DEBUG), len(debug), *debug) for debug in hunk.debugs]
    return b"".join(parts) + words(any_bits(dice, END))


def loose_entry(dice, kind, of, rest):
    stored = loose_name(dice, of)
    return words(kind << 24 | len(stored) // 4) + stored + rest


@test
def random_files_are_told_as_another_reader_finds_them(program):
    for seed in range(200):
        dice = random.Random(seed)
        for bytes_ in (spelt(dice, random_hunks(dice)), loose_units(dice, model.random_named_units(seed))):
            program.write("x", bytes_)
            equals(program.run("check", "--lint", "x"), (DONE, lint_of(bytes_), ""), seed)
    # What the program writes itself has nothing that is ignored.
    for seed in range(40):
        program.write("x.o", model.object_file(model.random_named_units(seed)))
        program.prints("", "link", "--out", "out", "x.o")
        assert "longword" not in program.run("check", "--lint", "out")[1], seed


@test
def a_lint_of_no_file_is_a_refusal(program):
    program.write("x", LOAD_FILE[:-4])
    line = "x: longword 9: file ends too early"
    program.fails(REFUSED, line, "check", "--lint", "x")
    equals(program.run("check", "--lint", "--explain", "x"), program.run("check", "--explain", "x"))
    program.fails(DEVICE, "missing: cannot be opened", "check", "--lint", "missing")
    program.write("x", LOADS[1][0])
    with open("/dev/full", "wb") as full:
        program.fails(DEVICE, "output: write failed", "check", "--lint", "x", stdout=full)
