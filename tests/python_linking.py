"""Linking with the module for Python: load files and maps that were written down by hand, and why units do not link."""
import pathlib
import unittest

import model
from model import ABS, BSS, CODE, DATA, DEBUG, DEF, END, EXT, HEADER, REF32, RELOC32, RELOC32SHORT, SYMBOL, UNIT, Hunk, Unit, words
from python_setup import Pieces, amihunk, ended, example
from amihunk import BadLink, Status, UndefinedName

# examples/main.o and examples/library.o, linked, as docs/FORMAT.md has it.
HELLO = bytes.fromhex("""
    000003F3 00000000 00000004 00000000 00000003
    00000004 00000004 00000005 40000004
    000003E9 00000004 41F90000 00004EB9 00000008 4E754E71
    000003EC 00000001 00000001 00000002
    00000001 00000002 00000008 00000000
    000003F2
    000003EA 00000004 48656C6C 6F2C2041 6D696761 210A0000 000003F2
    000003E9 00000005 42390000 00004E75 43F90000 000012D8 66FC4E75
    000003EC 00000002 00000003 00000002 0000000A 00000000
    000003F0 00000001 6C6F6F70 0000000E 00000000
    000003F1 00000002 00000000 4C494E45 000003F2
    000003EB 00000004 000003F2
""")
# The map of them, as docs/OUTPUT.md says what it is.
HELLO_MAP = b"""\
hunk 0 code any 4 longwords main.o unit 0 "main" hunk 0 ""
  define "main" at 00000000
hunk 1 data any 4 longwords main.o unit 0 "main" hunk 1 ""
hunk 2 code any 5 longwords library.o unit 0 "library" hunk 0 ""
  define "clear" at 00000000
  define "print" at 00000008
hunk 3 bss chip 4 longwords library.o unit 0 "library" hunk 1 ""
"""


def not_linked(status, line, unit=0, input=0, hunk=0, other=0, name=b"", undefined=()):
    """How a call ends that refuses to link."""
    return BadLink, (status, unit, input, hunk, other, name, undefined, f"amihunk: link: {line}")


class Linking(unittest.TestCase):
    def test_files_are_linked_whatever_objects_they_are(self):
        files = [example("main.o"), example("library.o")]
        self.assertEqual(amihunk.link(files), HELLO)
        self.assertEqual(amihunk.link(iter(map(bytearray, files))), HELLO)
        self.assertEqual(amihunk.link((files[0], memoryview(files[1])), names=["x", "y", "z"]), HELLO)
        for most in (1, 3, 5, 1 << 20):
            self.assertEqual(amihunk.link([Pieces(file, most) for file in files]), HELLO)

    def test_options_change_how_the_load_file_is_written(self):
        code = Hunk(CODE, [0x10, 0x20, 0, 0])
        code.sites, code.symbols, code.debugs = [(4, 0)], [(b"loop", 6)], [[7]]
        head, content = words(HEADER, 0, 1, 0, 0, 4, CODE), words(4, 0x10, 0x20, 0, 0)
        long, short, trimmed = words(RELOC32, 1, 0, 4, 0), words(RELOC32SHORT, 1 << 16, 4 << 16), words(2, 0x10, 0x20)
        kept = words(SYMBOL, 1) + b"loop" + words(6, 0, DEBUG, 1, 7)
        file = model.object_file([[code]])
        for named, parts in (
            ({}, (head, content, long, kept)),
            ({"strip": True}, (head, content, long)),
            ({"short": True}, (head, content, short, kept)),
            ({"trim": True}, (head, trimmed, long, kept)),
            ({"strip": 1, "short": "yes", "trim": [0]}, (head, trimmed, short)),
            ({"strip": 0, "short": "", "trim": None}, (head, content, long, kept)),
        ):
            self.assertEqual(amihunk.link([file], **named), b"".join(parts) + words(END), named)

    def test_units_that_do_not_link_are_refused(self):
        refers, defines, far = Hunk(CODE, [0]), Hunk(CODE, [0]), Hunk(CODE, [0, 0])
        refers.sites, defines.definitions, far.sites = [(0, b'dr"aw\xff')], [(ABS, b'dr"aw\xff', 0)], [(4, 5)]
        none, plain = [], [Hunk(DATA, [])]
        one = model.object_file
        for files, wanted in (
            ([], not_linked(Status.NO_HUNKS, "no hunks")),
            ([one([none]), one([none, none])], not_linked(Status.NO_HUNKS, "no hunks")),
            ([one([none, plain]), one([plain * 2 + [refers]])],
             not_linked(Status.UNDEFINED_NAME, 'unit 2 hunk 2: "dr\\x22aw\\xff" not defined', 2, 1, 2, name=b'dr"aw\xff')),
            ([one([[defines]]), one([none]), one([none, none, plain + [defines]])],
             not_linked(Status.DUPLICATE_NAME, 'unit 4 hunk 1: "dr\\x22aw\\xff" defined again', 4, 2, 1, name=b'dr"aw\xff')),
            ([one([plain]), one([[far, *plain]])], not_linked(Status.NO_SUCH_HUNK, "unit 1 hunk 0: no hunk 5 in its unit", 1, 1, other=5)),
            ([words(UNIT, 0, BSS, 1 << 24, END), words(UNIT, 0, BSS, 1, END)], not_linked(Status.TOO_LARGE, "too large")),
            ([words(UNIT, 0) + words(BSS, 0, END) * 65536], not_linked(Status.TOO_MANY_HUNKS, "more than 65535 hunks")),
        ):
            self.assertEqual(ended(amihunk.link, files), wanted)
            self.assertEqual(ended(amihunk.link, [Pieces(file, 1 << 12) for file in files], True, True, True, names=["x"] * 3), wanted)
            # Only names that are not defined have more to tell.
            kind, values = wanted
            lacks = (UndefinedName(values[5], 1, 0, 2, 1),) if values[0] is Status.UNDEFINED_NAME else ()
            explained = kind, (*values[:6], lacks, values[7])
            self.assertEqual(ended(amihunk.link, files, explain=True), explained)
            self.assertEqual(ended(amihunk.link_with_map, files), explained)

    def test_all_names_that_are_not_defined_are_told(self):
        first, second, third = Hunk(CODE, [0] * 4), Hunk(DATA, [0]), Hunk(CODE, [0, 0])
        # A hunk that adds a name to two longwords refers to it once.
        first.sites = [(12, b"b"), (4, b'a"\xff'), (0, b"b"), (8, b"late")]
        second.sites = [(0, b'a"\xff')]
        third.sites, third.definitions = [(4, b""), (0, b"b")], [(ABS, b"late", 0)]
        # Each of these counts, but the one that is added nowhere.
        references = words(REF32 << 24, 1, 0, REF32 << 24 | 1, 0x78000000, 0, REF32 << 24, 1, 4)
        twice = words(UNIT, 0, DATA, 2, 0, 0, EXT) + references + words(0, END)
        files = [model.object_file([[], [Hunk(BSS, [0]), first], [second]]), model.object_file([[], [third]]), twice]
        undefined = (
            UndefinedName(b"b", 0, 1, 1, 2),
            UndefinedName(b'a"\xff', 0, 1, 1, 2),
            UndefinedName(b"", 1, 1, 0, 3),
        )
        line = 'unit 1 hunk 1: "b" not defined'
        plain = not_linked(Status.UNDEFINED_NAME, line, 1, 0, 1, name=b"b")
        explained = not_linked(Status.UNDEFINED_NAME, line, 1, 0, 1, name=b"b", undefined=undefined)
        for explain, wanted in ((False, plain), (0, plain), (True, explained), ("yes", explained)):
            self.assertEqual(ended(amihunk.link, files, explain=explain), wanted)
            self.assertEqual(ended(amihunk.link, map(bytearray, files), True, True, True, explain=explain), wanted)
        for most in (1, 3, 5, 1 << 20):
            # A file object is read once, and so it may be a pipe.
            self.assertEqual(ended(amihunk.link, (Pieces(file, most) for file in files), explain=True), explained)
            self.assertEqual(ended(amihunk.link_with_map, [Pieces(file, most) for file in files], names=["x"]), explained)
        self.assertEqual(ended(amihunk.link, files[:2], explain=True)[1][6], undefined[:2] + (UndefinedName(b"", 1, 1, 0, 1),))

    def test_many_names_that_are_not_defined_are_told(self):
        names = [b"name%d" % number for number in range(3000)]
        hunk = Hunk(CODE, [0] * len(names))
        hunk.sites = [(4 * number, name) for number, name in enumerate(names)]
        told = ended(amihunk.link, [words(UNIT, 0), model.object_file([[], [hunk]])], explain=True)
        self.assertEqual(told[1][6], tuple(UndefinedName(name, 1, 1, 0, 1) for name in names))

    def test_a_map_tells_where_each_hunk_is_from(self):
        files, names = [example("main.o"), example("library.o")], ["main.o", "library.o"]
        self.assertEqual(amihunk.link_with_map(files, names=names), (HELLO, HELLO_MAP))
        self.assertEqual(amihunk.link_with_map(iter(map(bytearray, files)), names=iter(names)), (HELLO, HELLO_MAP))
        for options in ((True,), (False, True), (False, False, True), (True, True, True)):
            told = amihunk.link_with_map([Pieces(file, 3) for file in files], *options, names=names)
            self.assertEqual(told, (amihunk.link(files, *options), HELLO_MAP))
        for given, wanted in (
            ([], [b"", b""]),
            (["a"], [b"a", b""]),
            (["", "b"], [b"", b"b"]),
            (["a", "b", "c"], [b"a", b"b"]),
            ([pathlib.Path("a/b \u00e9.o"), b'\xff"\n'], [b"a/b \xc3\xa9.o", b'\xff"\n']),
            ([pathlib.Path("a/b: c"), "a:b "], [b"a/b: c", b"a:b "]),
            (["\udce9", bytes(range(1, 256))], [b"\xe9", bytes(range(1, 256))]),
            (["x" * 100000, "%s"], [b"x" * 100000, b"%s"]),
        ):
            shown = [model.shown(name).encode() for name in wanted]
            text = HELLO_MAP.replace(b" main.o ", b" %b " % shown[0]).replace(b" library.o ", b" %b " % shown[1])
            self.assertEqual(amihunk.link_with_map(files, names=given), (HELLO, text))

    def test_a_map_has_all_kinds_of_hunks_and_names(self):
        code, zeros, fast = Hunk(CODE, [0, 0], b"CODE"), Hunk(BSS, [0, 0], memory="chip"), Hunk(DATA, [], b"\xc3\xa9", "fast")
        code.definitions = [(DEF, b"main", 0), (ABS, b'a"\\\n\xff', 0x80000000)]
        fast.definitions = [(DEF, b"", 0xFFFFFFFF)]
        files = [model.object_file([Unit([], b"none"), [], Unit([code, zeros], b"te st")]), model.object_file([[fast]])]
        text = (
            b'hunk 0 code any 2 longwords x unit 2 "te st" hunk 0 "CODE"\n'
            b'  define "main" at 00000000\n'
            b'  define "a\\x22\\x5c\\x0a\\xff" as 80000000\n'
            b'hunk 1 bss chip 2 longwords x unit 2 "te st" hunk 1 ""\n'
            b'hunk 2 data fast 0 longwords y unit 0 "" hunk 0 "\\xc3\\xa9"\n'
            b'  define "" at ffffffff\n'
        )
        self.assertEqual(amihunk.link_with_map(files, names=["x", "y"])[1], text)

    def test_a_name_may_be_empty_or_long(self):
        for name in (b"", b"x" * 2000):
            hunk = Hunk(CODE, [0])
            hunk.sites = [(0, name)]
            text = f'unit 0 hunk 0: "{name.decode()}" not defined'
            self.assertEqual(ended(amihunk.link, [model.object_file([[hunk]])]), not_linked(Status.UNDEFINED_NAME, text, name=name))
            hunk.definitions = [(DEF, name, 0)]
            wanted = words(HEADER, 0, 1, 0, 0, 1, CODE, 1, 0, RELOC32, 1, 0, 0, 0, END)
            self.assertEqual(amihunk.link([model.object_file([[hunk]])]), wanted)
