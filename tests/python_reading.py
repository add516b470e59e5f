"""Reading with the module for Python: values that were written down by hand, and what `show --json` tells of the same files."""
import ctypes
import json
import os
import random
import tempfile
import unittest

import model
from json_documents import name_value
from model import ABS, BSS, CODE, DATA, DEBUG, DEF, END, HEADER, RELOC32, SYMBOL, UNIT, Hunk, Unit, words
from python_setup import PROGRAM, TOP, Pieces, amihunk, ended, example, run
from amihunk import Definition, HunkBase, HunkKind, LoadFile, MemoryKind, ObjectFile, Reference, Site, Symbol, symbol_before

ANY, CHIP = MemoryKind.ANY, MemoryKind.CHIP
RTS = 0x4E75

# The files of examples/, from the tables in docs/FORMAT.md and, of the load files, from their longwords.
MAIN = ObjectFile((amihunk.Unit(b"main", (
    amihunk.Hunk(b"", HunkKind.CODE, ANY, 4, bytes.fromhex("41F9000000004EB9000000004E754E71"),
                 (Site(2, HunkBase(1)), Site(8, Reference(0, b"print"))), (), (Definition(b"main", 0, False),), (b"print",), ()),
    amihunk.Hunk(b"", HunkKind.DATA, ANY, 4, b"Hello, Amiga!\n\0\0", (), (), (), (), ()),
)),))
LIBRARY = ObjectFile((amihunk.Unit(b"library", (
    amihunk.Hunk(b"", HunkKind.CODE, ANY, 5, bytes.fromhex("4239000000004E7543F90000000012D866FC4E75"),
                 (Site(2, HunkBase(1)), Site(10, HunkBase(1))), (Symbol(b"loop", 14),),
                 (Definition(b"clear", 0, False), Definition(b"print", 8, False)), (), (b"\0\0\0\0LINE",)),
    amihunk.Hunk(b"", HunkKind.BSS, CHIP, 4, b"", (), (), (), (), ()),
)),))
ONE_HUNK = LoadFile((amihunk.Hunk(b"", HunkKind.CODE, ANY, 1, bytes.fromhex("4E754E71"), (), (), (), (), ()),))
TWO_HUNKS = LoadFile((
    amihunk.Hunk(b"", HunkKind.CODE, ANY, 4, bytes.fromhex("207C000000004EB90000000E4E754E75"), (Site(2, HunkBase(1)), Site(8, HunkBase(0))),
                 (Symbol(b"main", 0), Symbol(b"sub", 14)), (), (), (b"line\0\1\0\2",)),
    amihunk.Hunk(b"", HunkKind.DATA, CHIP, 2, b"hunk", (), (), (), (), (b"",)),
))
EXAMPLES = {"main.o": MAIN, "library.o": LIBRARY, "one-hunk.load": ONE_HUNK, "two-hunks.load": TWO_HUNKS}


def site_value(site):
    target = {"hunk": site.target.number} if isinstance(site.target, HunkBase) else {"name": name_value(site.target.name)}
    return {"offset": site.offset, **target}


def hunk_value(hunk, own):
    """A hunk as JSON tells it, with the members that only one kind of file has."""
    return {
        "debugs": [len(debug) // 4 for debug in hunk.debugs],
        "kind": hunk.kind.name.lower(),
        "memory": hunk.memory.name.lower(),
        "sites": [site_value(site) for site in hunk.sites],
        "size": hunk.size,
        "symbols": [{"name": name_value(it.name), "value": it.value} for it in hunk.symbols],
        **own,
    }


def unit_hunk_value(hunk):
    definitions = [{"absolute": it.absolute, "name": name_value(it.name), "value": it.value} for it in hunk.definitions]
    return hunk_value(hunk, {"definitions": definitions, "name": name_value(hunk.name)})


def document(told):
    """What `show --json` is to print of a file, as a value."""
    if isinstance(told, LoadFile):
        return {"hunks": [hunk_value(hunk, {"stored": len(hunk.content) // 4}) for hunk in told.hunks], "kind": "load file"}
    units = [{"hunks": [unit_hunk_value(hunk) for hunk in unit.hunks], "name": name_value(unit.name)} for unit in told.units]
    return {"kind": "object file", "units": units}


def changed(dice, file):
    """A file with a longword that is another one, left out or put in, or without its end."""
    place = 4 * dice.randrange(len(file) // 4)
    number = dice.choice((0, 1, 4, CODE, RELOC32, SYMBOL, END, 0x80000001, 0xFFFFFFFF, dice.randrange(0x400)))
    return dice.choice((
        file[:place] + words(number) + file[place + 4 :],
        file[:place] + words(number) + file[place:],
        file[:place] + file[place + 4 :],
        file[: place + dice.randrange(4)],
    ))


class Reading(unittest.TestCase):
    def agrees(self, file, path):
        """The module and the program tell the same of a file; whether it was accepted."""
        status, out, errors = run(PROGRAM, "show", "--json", path)
        told = ended(amihunk.read_file, file, name=path)
        if status == 0:
            self.assertEqual((document(told), errors), (json.loads(out), b""), path)
        else:
            self.assertEqual((told[0], told[1][-1]), (amihunk.BadFile, errors.decode().removesuffix("\n")), path)
        return status == 0

    def test_the_examples_are_read_as_their_values(self):
        for name, value in EXAMPLES.items():
            for most in (1, 3, 5, 1 << 20):
                self.assertEqual(amihunk.read_file(Pieces(example(name), most)), value, name)
            with open(os.path.join(TOP, "examples", name), "rb") as file:
                self.assertEqual(amihunk.read_file(file), value)
            self.assertEqual(hash(amihunk.read_file(example(name))), hash(value))

    def test_a_file_is_read_as_its_value(self):
        code, data = Hunk(CODE, [RTS, 0], b"CODE"), Hunk(DATA, [], b"\xff", "fast")
        code.sites, code.definitions = [(4, b"b"), (0, 7)], [(ABS, b"a", 0xFFFFFFFF), (DEF, b"", 8)]
        code.symbols, code.debugs = [(b"x", 0x80000000), (b"x", 1)], [[], [0x01020304]]
        file = model.object_file([Unit([code, data], b"test"), []])
        self.assertEqual(amihunk.read_file(file), ObjectFile((
            amihunk.Unit(b"test", (
                amihunk.Hunk(b"CODE", HunkKind.CODE, ANY, 2, words(RTS, 0), (Site(0, HunkBase(7)), Site(4, Reference(0, b"b"))),
                             (Symbol(b"x", 0x80000000), Symbol(b"x", 1)), (Definition(b"a", 0xFFFFFFFF, True), Definition(b"", 8, False)),
                             (b"b",), (b"", b"\1\2\3\4")),
                amihunk.Hunk(b"\xff", HunkKind.DATA, MemoryKind.FAST, 0, b"", (), (), (), (), ()),
            )),
            amihunk.Unit(b"", ()),
        )))
        # The names of a load file are dropped, and its content may be shorter than its hunk.
        file = words(HEADER, 0, 1, 0, 0, 2 << 30 | 3, 1000, 1) + b"CODE" + words(BSS, 1, RELOC32, 1, 0, 8, 0, DEBUG, 0, END)
        hunk = amihunk.Hunk(b"", HunkKind.BSS, MemoryKind.FAST, 3, b"", (Site(8, HunkBase(0)),), (), (), (), (b"",))
        self.assertEqual(amihunk.read_file(file), LoadFile((hunk,)))
        # The two upper bits of the first longword do not count, here either.
        self.assertEqual(amihunk.read_file(words(3 << 30 | HEADER) + file[4:]), LoadFile((hunk,)))
        self.assertEqual(amihunk.read_file(words(1 << 30 | UNIT, 0)), ObjectFile((amihunk.Unit(b"", ()),)))

    def test_every_file_of_the_examples_is_read_as_the_program_shows_it(self):
        accepted = []
        for folder, _, names in os.walk(os.path.join(TOP, "examples")):
            for path in (os.path.join(folder, name) for name in names if not name.endswith(".pyc")):
                with open(path, "rb") as file:
                    if self.agrees(file, path):
                        accepted.append(os.path.basename(path))
        self.assertEqual(sorted(accepted), sorted(EXAMPLES))

    def test_random_files_are_read_as_the_program_shows_them(self):
        refused = 0
        with tempfile.TemporaryDirectory() as folder:
            path = os.path.join(folder, "file")
            for seed in range(300):
                dice, units = random.Random(seed), model.random_named_units(seed)
                file = model.object_file(units)
                if seed % 2:
                    file = amihunk.link([file], *(dice.random() < 0.5 for _ in range(3)))
                if seed % 3 == 2:
                    file = changed(dice, file)
                with open(path, "wb") as writer:
                    writer.write(file)
                refused += not self.agrees(Pieces(file, dice.choice((1, 3, 5, 1 << 20))), path)
        self.assertTrue(40 < refused < 100, refused)

    def test_the_contents_of_random_files_are_those_of_their_units(self):
        """What no document has: contents, the bytes of debug blocks, and the references."""
        for seed in range(300):
            units = model.random_named_units(seed)
            told = [hunk for unit in amihunk.read_file(model.object_file(units)).units for hunk in unit.hunks]
            hunks = [hunk for unit in units for hunk in unit]
            linked = amihunk.read_file(amihunk.link([model.object_file(units)])).hunks
            for hunk, own, load in zip(hunks, told, linked):
                content = b"" if hunk.kind == BSS else words(*hunk.words)
                names = tuple(dict.fromkeys(target for _, target in hunk.sites if isinstance(target, bytes)))
                self.assertEqual((own.content, len(load.content)), (content, len(content)), seed)
                self.assertEqual(own.debugs, tuple(words(*debug) for debug in hunk.debugs), seed)
                self.assertEqual((load.debugs, load.references, load.definitions, load.name), (own.debugs, (), (), b""), seed)
                self.assertEqual(own.references, names, seed)
                for site in own.sites:
                    if isinstance(site.target, Reference):
                        self.assertEqual(own.references[site.target.index], site.target.name, seed)

    def test_the_symbol_before_an_offset_is_the_nearest(self):
        main, sub = TWO_HUNKS.hunks[0].symbols
        self.assertEqual([symbol_before(TWO_HUNKS.hunks[0], it) for it in (0, 13, 14, 15, 1 << 40)], [main, main, sub, sub, sub])
        self.assertIsNone(symbol_before(TWO_HUNKS.hunks[0], -1))
        self.assertIsNone(symbol_before(TWO_HUNKS.hunks[1], 0xFFFFFFFF))
        self.assertEqual(symbol_before(LIBRARY.units[0].hunks[0], 13), None)
        # Of several with one value it is the first.
        hunk = Hunk(CODE, [0])
        hunk.symbols = [(b"b", 4), (b"last", 0xFFFFFFFF), (b"a", 4), (b"zero", 0)]
        (hunk,) = amihunk.read_file(model.object_file([[hunk]])).units[0].hunks
        told = [symbol_before(hunk, it).name for it in (0, 3, 4, 5, 0xFFFFFFFE, 0xFFFFFFFF)]
        self.assertEqual(told, [b"zero", b"zero", b"b", b"b", b"b", b"last"])

    def test_the_symbol_before_an_offset_is_that_of_the_library(self):
        c, dice = amihunk._library, random.Random(0)
        c.C.amihunk_file_symbol_before.argtypes = [c.FILE, ctypes.c_size_t, ctypes.c_size_t, ctypes.c_uint32, ctypes.c_void_p]
        for _ in range(100):
            hunk = Hunk(CODE, [])
            hunk.symbols = [(b"%d" % number, dice.randrange(20)) for number in range(dice.randrange(8))]
            file = model.object_file([[hunk]])
            (value,) = amihunk.read_file(file).units[0].hunks
            with amihunk._handles.Handle("file", c.File, []) as reader:
                reader.check(reader.call("open", amihunk._handles.MEMORY))
                reader.feed([file])
                reader.finish()
                for offset in range(20):
                    told = c.Symbol()
                    status = reader.call("symbol_before", 0, 0, offset, ctypes.byref(told))
                    wanted = Symbol(amihunk._reading.bytes_of(told.name), told.value) if status == amihunk.Status.OK.value else None
                    self.assertEqual(symbol_before(value, offset), wanted, hunk.symbols)
