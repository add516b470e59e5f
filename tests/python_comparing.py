"""Comparing load files with the module for Python: rows that were worked out by hand, and random pairs against load_files.py."""
import copy
import os
import pickle
import random
import unittest

import load_files
from model import BSS, CODE, DATA, DEBUG, END, HEADER, KINDS, RELOC32, SYMBOL, UNIT, words
from python_setup import ONE_HUNK, THREE_HUNKS, TOP, Pieces, amihunk, ended, example
from random_load_files import altered, random_bases, random_hunks, spelt
from amihunk import Difference, DifferenceKind, HunkBase, HunkKind, LoadFile, MemoryKind, Reference, Site, compare

PAIRS = 2000


def as_told(difference):
    """How the module tells a difference of the model."""
    if difference is None:
        return None
    kind, hunk, place, *values = difference
    if kind == "kind":
        values = [HunkKind[KINDS[it].upper()] for it in values]
    elif kind == "memory":
        values = [MemoryKind[it.upper()] for it in values]
    elif kind in ("symbol", "debug"):
        values = None, None
    return Difference(DifferenceKind[kind.upper()], hunk, place, *values)


FRONT = HEADER, 0, 1, 0, 0
TWO = words(HEADER, 0, 2, 0, 1, 1 << 30, 2)
CODE_AND_DATA = TWO + words(CODE, 0, END, DATA, 1, 0x01020304, RELOC32, 1, 1, 3, 0, SYMBOL, 1, 0x61000000, 7, 0, DEBUG, 1, 5, END)
# A file, one that differs from it, and how: what differs, the hunk and the place in it, and both values.
ROWS = (
    (ONE_HUNK, THREE_HUNKS, "HUNK_COUNT", None, None, 1, 3),
    (ONE_HUNK, words(*FRONT, 1, DATA, 1, 0x4E754E71, END), "KIND", 0, None, HunkKind.CODE, HunkKind.DATA),
    (THREE_HUNKS, words(HEADER, 0, 3, 0, 2, 1, 2, 0, DATA, 0, END, BSS, 2, END, BSS, 0, END), "KIND", 2, None, HunkKind.DATA, HunkKind.BSS),
    (ONE_HUNK, words(*FRONT, 2 << 30 | 1, CODE, 1, 0x4E754E71, END), "MEMORY", 0, None, MemoryKind.ANY, MemoryKind.FAST),
    (CODE_AND_DATA, words(HEADER, 0, 2, 0, 1, 2 << 30, 2, CODE, 0, END, DATA, 0, END), "MEMORY", 0, None, MemoryKind.CHIP, MemoryKind.FAST),
    (ONE_HUNK, words(*FRONT, 0, CODE, 0, END), "SIZE", 0, None, 1, 0),
    (CODE_AND_DATA, words(HEADER, 0, 2, 0, 1, 1 << 30, 1 << 20, CODE, 0, END, DATA, 0, END), "SIZE", 1, None, 2, 1 << 20),
    (ONE_HUNK, words(*FRONT, 1, CODE, 1, 0xFF754E71, END), "BYTE", 0, 0, 0x4E, 0xFF),
    (ONE_HUNK, words(*FRONT, 1, CODE, 1, 0x4E754E70, END), "BYTE", 0, 3, 0x71, 0x70),
    (ONE_HUNK, words(*FRONT, 1, CODE, 0, END), "BYTE", 0, 0, 0x4E, 0),
    (CODE_AND_DATA, TWO + words(CODE, 0, END, DATA, 2, 0x01020304, 5, RELOC32, 1, 1, 3, 0, END), "BYTE", 1, 7, 0, 5),
    (ONE_HUNK, words(*FRONT, 1, CODE, 1, 0x4E754E71, RELOC32, 1, 0, 0, 0, END), "SITE", 0, 0, None, 0),
    (CODE_AND_DATA, TWO + words(CODE, 0, END, DATA, 1, 0x01020304, RELOC32, 1, 0, 3, 0, END), "SITE", 1, 3, 1, 0),
    (CODE_AND_DATA, TWO + words(CODE, 0, END, DATA, 1, 0x01020304, RELOC32, 1, 1, 4, 0, END), "SITE", 1, 3, 1, None),
    (CODE_AND_DATA, TWO + words(CODE, 0, END, DATA, 1, 0x01020204, END), "BYTE", 1, 2, 3, 2),
)
# The same where symbols or debug blocks alone differ: the blocks of the second hunk of another file.
INFO_ROWS = (
    ((SYMBOL, 1, 0x61000000, 7, 0), "DEBUG", 0),
    ((SYMBOL, 1, 0x61000000, 7, 0, DEBUG, 1, 6), "DEBUG", 0),
    ((SYMBOL, 1, 0x61000000, 7, 0, DEBUG, 1, 5, DEBUG, 0), "DEBUG", 1),
    ((SYMBOL, 1, 0x61000000, 8, 0, DEBUG, 0), "SYMBOL", 0),
    ((SYMBOL, 1, 0x61610000, 7, 0, DEBUG, 1, 5), "SYMBOL", 0),
    ((SYMBOL, 1, 0x61000000, 7, 1, 0, 0, 0, DEBUG, 1, 5), "SYMBOL", 1),
    ((DEBUG, 1, 5), "SYMBOL", 0),
)


def turned(told):
    """What is told of two files the other way round."""
    return told and Difference(told.kind, told.hunk, told.offset, told.second, told.first)


class Comparing(unittest.TestCase):
    def tells(self, first, second, wanted, symbols, note=None):
        """What is told of two files, in both directions and as values; and that each is the same as itself."""
        values = amihunk.read_file(first), amihunk.read_file(second)
        # Pieces that end inside longwords, and about a hundred of a large file.
        pieces = Pieces(second, len(second) // 100 | 3)
        for one, other in ((first, second), values, (first, values[1]), (values[0], pieces)):
            self.assertEqual(compare(one, other, symbols), wanted, note)
        self.assertEqual(compare(second, first, symbols), turned(wanted), note)
        for file in (first, second, *values):
            self.assertIsNone(compare(file, file, symbols), note)

    def test_each_kind_of_difference_is_told(self):
        for first, second, what, hunk, offset, *values in ROWS:
            for symbols in (False, True):
                self.tells(first, second, Difference(DifferenceKind[what], hunk, offset, *values), symbols)
        self.assertLessEqual({row[2] for row in ROWS + tuple((0, *row) for row in INFO_ROWS)}, {it.name for it in DifferenceKind})

    def test_symbols_and_debug_blocks_count_if_that_is_asked(self):
        for blocks, what, index in INFO_ROWS:
            other = TWO + words(CODE, 0, END, DATA, 1, 0x01020304, RELOC32, 1, 1, 3, 0, *blocks, END)
            self.tells(CODE_AND_DATA, other, None, False)
            self.tells(CODE_AND_DATA, other, Difference(DifferenceKind[what], 1, index, None, None), True)

    def loads_as_told(self, dice, files, hunks, told, seed):
        """Files that mean the same are the same memory, wherever they are; and bytes or sites that differ are another one somewhere."""
        if told is None:
            for bases in (random_bases(dice, *hunks) for _ in range(5)):
                self.assertEqual(*(amihunk.load(file, bases) for file in files), seed)
        elif told.kind in (DifferenceKind.BYTE, DifferenceKind.SITE):
            places = (random_bases(dice, *hunks) for _ in range(20))
            self.assertTrue(any(amihunk.load(files[0], bases) != amihunk.load(files[1], bases) for bases in places), seed)

    def test_random_pairs_are_compared_as_by_the_model(self):
        seen = {}
        for seed in range(PAIRS):
            dice = random.Random(seed)
            first = random_hunks(dice)
            second = altered(dice, first) if seed % 3 else first
            files = [spelt(dice, it) for it in (first, second)]
            told = {symbols: as_told(load_files.difference(first, second, symbols)) for symbols in (False, True)}
            for symbols, wanted in told.items():
                self.tells(*files, wanted, symbols, seed)
                seen[wanted and wanted.kind] = seen.get(wanted and wanted.kind, 0) + 1
            self.loads_as_told(dice, files, (first, second), told[False], seed)
            if second is first:
                self.assertIsNone(told[True], seed)
        self.assertEqual(seen.keys(), {None, *DifferenceKind})
        self.assertTrue(all(count > 20 for count in seen.values()), seen)

    def test_linked_files_mean_the_same_in_each_form(self):
        files = [example("main.o"), example("library.o"), words(UNIT, 0, DATA, 2, 1, 0, END)]
        plain, stripped, short, trimmed = (amihunk.link(files, *it) for it in ((), (True,), (False, True), (False, False, True)))
        for other in (stripped, short, trimmed):
            self.assertNotEqual(plain, other)
            self.assertIsNone(compare(plain, other))
        self.assertEqual(compare(plain, stripped, symbols=True), Difference(DifferenceKind.SYMBOL, 2, 0, None, None))
        self.assertIsNone(compare(plain, short, symbols=True))

    def test_a_difference_is_a_value(self):
        told = compare(ONE_HUNK, words(*FRONT, 1, CODE, 0, END))
        self.assertEqual((told, hash(told)), (pickle.loads(pickle.dumps(told)), hash(copy.copy(told))))
        self.assertRaises(AttributeError, setattr, told, "hunk", 1)

    def test_files_are_read_to_their_ends_or_to_the_first_offence(self):
        path = os.path.join(TOP, "examples", "two-hunks.load")
        for most in (1, 3, 5, 1 << 20):
            with open(path, "rb") as file:
                self.assertIsNone(compare(file, Pieces(example("two-hunks.load"), most), True))
        names = ("one", "other")
        for files, name, place in (
            ((ONE_HUNK[:-4], b""), "one", 9), ((ONE_HUNK, ONE_HUNK[:-4]), "other", 9), ((b"", ONE_HUNK[:-4]), "one", 0),
        ):
            told = ended(compare, *files, names=names)
            text_ = f"longword {place}: file ends too early"
            self.assertEqual(told, (amihunk.BadFile, (place, amihunk.Reason.UNEXPECTED_END, 0, 0, f"amihunk: {name}: {text_}")))
            self.assertEqual(ended(compare, *files)[1][-1], f"amihunk: : {text_}")

    def test_load_files_alone_are_compared(self):
        for file in (example("main.o"), words(UNIT, 0)):
            for pair in ((file, ONE_HUNK), (ONE_HUNK, file), (file, file)):
                self.assertRaisesRegex(ValueError, "this is an object file", compare, *pair)
            for pair in ((amihunk.read_file(file), ONE_HUNK), (ONE_HUNK, amihunk.read_file(file))):
                self.assertRaisesRegex(TypeError, "a file is an object like bytes .*, and not ObjectFile", compare, *pair)
        self.assertRaisesRegex(TypeError, "and not NoneType", compare, ONE_HUNK, None)

    def test_values_that_no_file_has_are_refused(self):
        (hunk,) = amihunk.read_file(ONE_HUNK).hunks

        def own(**fields):
            return LoadFile((amihunk.Hunk(**{**vars(hunk), **fields}),))

        for value in (LoadFile(()), own(size=0), own(sites=(Site(1, HunkBase(0)),)), own(sites=(Site(0, HunkBase(1)),)), own(content=b"odd")):
            self.assertRaises(amihunk.BadFile, compare, value, ONE_HUNK)
            self.assertRaises(amihunk.BadFile, compare, ONE_HUNK, value)
        self.assertRaises(TypeError, compare, ONE_HUNK, own(sites=(Site(0, Reference(0, b"x")),)))
        self.assertRaises(ValueError, compare, ONE_HUNK, own(size=1 << 32))
        self.assertEqual(compare(own(size=2), own(size=3, content=b"")), Difference(DifferenceKind.SIZE, 0, None, 2, 3))
