"""What the module for Python has of the header, how it finds its library, that it keeps nothing, and its examples."""
import ctypes
import gc
import os
import re
import resource
import shutil
import sys
import tempfile
import textwrap
import unittest

import model
from model import BSS, CODE, END, EXT, HEADER, REF32, RELOC32, UNIT, words
from python_setup import PYTHON, TOP, amihunk, ended, run, run_python
from amihunk import DifferenceKind, HunkKind, MemoryKind, Place, Reason, Status

c = amihunk._library
LIBRARY = os.environ["AMIHUNK_LIBRARY"]
# What the header has that the module does not call: it keeps no handle for later, and no buffer for a heap.
UNUSED = {"amihunk_version", "amihunk_in_buffer", "amihunk_loader_find", "amihunk_loader_read", "amihunk_linker_read",
          "amihunk_file_symbol_before", "amihunk_loader_load"}
NUMBERS = {"bool": ctypes.c_bool, "uint32_t": ctypes.c_uint32, "uint64_t": ctypes.c_uint64, "size_t": ctypes.c_size_t, "void": None,
           "amihunk_status": ctypes.c_uint}


def structure(name):
    """The class of a structure of the header, such as `FileHunk` for `amihunk_file_hunk`."""
    return getattr(c, "".join(part.title() for part in name.split("_")[1:]))


def type_of(text):
    """The type that stands for one of C: what points to plain bytes or longwords is not told apart, but texts are."""
    if text.rstrip().endswith("*const *"):
        return ctypes.POINTER(type_of(text.rstrip().removesuffix("const *")))
    name, star, _ = text.replace("const ", "").partition("*")
    name = name.strip()
    if star and name in ("void", "uint8_t", "uint32_t"):
        return ctypes.c_void_p
    if star and name == "char":
        return ctypes.c_char_p if "const " in text else ctypes.c_void_p
    of = NUMBERS[name] if name in NUMBERS else structure(name)
    return ctypes.POINTER(of) if star else of


def without_name(text):
    """A field or a parameter: its type, and its name."""
    front, name = re.fullmatch(r"(.*?)(\w+)", text.strip(), re.S).groups()
    return front, name


class Header(unittest.TestCase):
    def setUp(self):
        with open(os.path.join(TOP, "capi", "amihunk.h"), encoding="utf-8") as file:
            self.text = re.sub(r"/\*.*?\*/", "", file.read(), flags=re.S)

    def test_structures_are_those_of_the_header(self):
        found = {name: body for body, name in re.findall(r"typedef struct \w+ \{(.*?)\} (\w+);", self.text, re.S)}
        # Only a call that is not used tells a point.
        del found["amihunk_point"]
        own = {it for it in vars(c).values() if isinstance(it, type) and issubclass(it, ctypes.Structure)}
        self.assertEqual({structure(name) for name in found}, own)
        for name, body in found.items():
            fields = []
            for field in body.split(";")[:-1]:
                if function := re.search(r"\(\*(\w+)\)", field):
                    fields.append((function[1], ctypes.c_void_p))
                elif array := re.fullmatch(r"(.*)\[(\d+)\]", field.strip(), re.S):
                    type_, of = without_name(array[1])
                    fields.append((of, type_of(type_) * int(array[2])))
                else:
                    type_, of = without_name(field)
                    fields.append((of, type_of(type_)))
            self.assertEqual(structure(name)._fields_, fields, name)

    def test_numbers_are_those_of_the_header(self):
        found = {name: {key: int(value) for key, value in re.findall(r"(\w+) = (\d+)", body)}
                 for body, name in re.findall(r"typedef enum \w+ \{(.*?)\} (\w+);", self.text, re.S)}
        self.assertEqual(amihunk._comparing.SAME, found["amihunk_difference_kind"].pop("AMIHUNK_SAME"))
        for name, own, front, back in (
            ("amihunk_status", Status, "AMIHUNK_", ""), ("amihunk_reason", Reason, "AMIHUNK_REASON_", ""),
            ("amihunk_memory_kind", MemoryKind, "AMIHUNK_", "_MEMORY"), ("amihunk_hunk_kind", HunkKind, "AMIHUNK_", ""),
            ("amihunk_difference_kind", DifferenceKind, "AMIHUNK_", "_DIFFERS"),
        ):
            self.assertEqual({f"{front}{it.name}{back}": it.value for it in own}, found[name])
        self.assertEqual(amihunk._reading.OBJECT_FILE, found["amihunk_file_kind"]["AMIHUNK_OBJECT_FILE"])
        self.assertEqual(amihunk._reading.ADDS_HUNK, found["amihunk_site_kind"]["AMIHUNK_ADDS_HUNK"])
        self.assertIn("#define AMIHUNK_NO_SITE UINT64_MAX\n", self.text)
        self.assertEqual(amihunk._comparing.NO_SITE, ctypes.c_uint64(-1).value)
        self.assertEqual(re.search(r'#define AMIHUNK_VERSION "(.*)"', self.text)[1], amihunk.VERSION)

    def test_calls_are_those_of_the_header(self):
        found = {}
        for returned, name, taken in re.findall(r"^([\w ]+[ *])(amihunk_\w+)\(([^)]*)\);", self.text, re.M):
            found[name] = returned, [] if taken == "void" else taken.split(",")
        self.assertEqual(found.keys() - UNUSED, c.CALLS.keys())
        for name, types in c.CALLS.items():
            returned, taken = found[name]
            self.assertEqual(types, (type_of(returned), *(type_of(without_name(it)[0]) for it in taken)), name)


TELL = "import amihunk; print(amihunk.VERSION, amihunk._library.C._name)"


class Library(unittest.TestCase):
    def test_the_library_is_found_where_it_is_installed(self):
        for module, library in (
            ("lib/python3/site-packages", "lib/libamihunk.so.0"), ("lib/python3/site-packages", "lib/libamihunk.so"),
            ("python", "lib/libamihunk.so.0"), ("share/amihunk/python", "lib/libamihunk.so"), ("here", "here/libamihunk.so.0"),
            ("here", "here/amihunk/libamihunk.so"),
        ):
            with tempfile.TemporaryDirectory() as folder:
                prefix = os.path.realpath(folder)
                shutil.copytree(os.path.join(PYTHON, "amihunk"), os.path.join(prefix, module, "amihunk"))
                os.makedirs(os.path.join(prefix, os.path.dirname(library)), exist_ok=True)
                shutil.copy(LIBRARY, os.path.join(prefix, library))
                told = run_python(TELL, AMIHUNK_LIBRARY="", PYTHONPATH=os.path.join(prefix, module))
                self.assertEqual(told, (0, f"{amihunk.VERSION} {prefix}/{library}\n".encode(), b""))

    def test_the_system_finds_a_library_that_is_installed_elsewhere(self):
        with tempfile.TemporaryDirectory() as folder:
            shutil.copy(LIBRARY, os.path.join(folder, "libamihunk.so.0"))
            shutil.copytree(os.path.join(PYTHON, "amihunk"), os.path.join(folder, "a", "b", "c", "d", "amihunk"))
            where = {"AMIHUNK_LIBRARY": "", "PYTHONPATH": os.path.join(folder, "a", "b", "c", "d")}
            told = run_python(TELL, LD_LIBRARY_PATH=folder, **where)
            self.assertEqual(told, (0, f"{amihunk.VERSION} libamihunk.so.0\n".encode(), b""))

    def test_a_library_of_another_version_is_refused(self):
        with open(LIBRARY, "rb") as file:
            content = file.read()
        own, other = amihunk.VERSION.encode() + b"\0", b"9" * len(amihunk.VERSION) + b"\0"
        self.assertIn(own, content)
        with tempfile.TemporaryDirectory() as folder:
            path = os.path.join(folder, "libother.so")
            with open(path, "wb") as file:
                file.write(content.replace(own, other))
            status, _, errors = run_python(TELL, AMIHUNK_LIBRARY=path)
        text = f"has version {other[:-1].decode()}, and the module amihunk has version {amihunk.VERSION}"
        self.assertIn(f"ImportError: the library of amihunk, {path}, {text}\n".encode(), errors)
        self.assertEqual(status, 1)

    def test_what_is_no_library_of_amihunk_is_refused(self):
        for path, why in ((__file__, "invalid ELF header"), ("no/library.so", "no/library.so"), ("libc.so.6", "amihunk_version")):
            status, _, errors = run_python(TELL, AMIHUNK_LIBRARY=path)
            self.assertEqual(status, 1)
            self.assertRegex(errors.decode(), f"ImportError: the library of amihunk cannot be used: .*{why}")


def resident():
    """How many bytes of this process are in memory."""
    with open("/proc/self/statm", encoding="ascii") as file:
        return int(file.read().split()[1]) * resource.getpagesize()


class Leaks(unittest.TestCase):
    def test_nothing_is_kept_of_ten_thousand_loads(self):
        hunk = 1 << 12
        file = words(HEADER, 0, 2, 0, 1, hunk, 1, BSS, hunk, RELOC32, 1, 1, 0, 0, END, CODE, 1, 7, END)
        units = model.random_named_units(7)
        object_file, buffers = model.object_file(units), [bytearray(4 * hunk), bytearray(4)]
        lacking = words(UNIT, 0, CODE, 1, 7, EXT, REF32 << 24 | 1, 0x61626364, 1, 0, 0, END)
        calls = (
            lambda: amihunk.load(file, [0, 1 << 20]),
            lambda: amihunk.load(bytearray(file), lambda of: [0, 4 * of[0].size]),
            lambda: amihunk.load_into(file, lambda _: [Place(0, buffers[0]), Place(1 << 20, buffers[1])]),
            lambda: ended(amihunk.load, file[:-1], [0, 1 << 20]),
            lambda: ended(amihunk.load, file, [0, 0]),
            lambda: ended(amihunk.load, file, lambda _: [0, 0]),
            lambda: ended(amihunk.load_into, file, lambda _: [Place(0, buffers[0]), Place(0, buffers[1])]),
            lambda: ended(amihunk.load_into, file[:-1], lambda _: [Place(0, buffers[0]), Place(1 << 20, buffers[1])]),
        )
        others = (
            lambda: amihunk.link([object_file, bytearray(words(UNIT, 0))]),
            lambda: ended(amihunk.link, [object_file[:-1]]),
            lambda: ended(amihunk.link, [object_file, object_file]),
            lambda: ended(amihunk.link, [lacking, object_file, lacking], explain=True),
            lambda: amihunk.link_with_map([object_file, bytearray(words(UNIT, 0))], names=["x" * 1000]),
            lambda: amihunk.read_file(object_file),
            lambda: amihunk.read_file(file),
            lambda: ended(amihunk.read_file, file[:-1]),
            lambda: ended(amihunk.check_places, [1, 1], [0, 0]),
            lambda: amihunk.compare(file, amihunk.read_file(file), True),
            lambda: ended(amihunk.compare, file, file[:-1]),
        )

        def after(loads):
            for number in range(loads):
                calls[number % len(calls)]()
                if number % 4 == 0:
                    others[number // 4 % len(others)]()
            gc.collect()
            return resident(), len(gc.get_objects())

        bytes_then, objects_then = after(2000)
        bytes_now, objects_now = after(8000)
        self.assertLess(bytes_now - bytes_then, 256 << 10)
        self.assertLess(objects_now - objects_then, 20)


RELOCATIONS = {
    "main.o": 'unit 0 hunk 1\n  unit 0 hunk 0 at 00000002\n"print"\n  unit 0 hunk 0 at 00000008\n',
    "library.o": "unit 0 hunk 1\n  unit 0 hunk 0 at 00000002\n  unit 0 hunk 0 at 0000000a\n",
    "one-hunk.load": "",
    "two-hunks.load": "hunk 1\n  hunk 0 at 00000002\nhunk 0\n  hunk 0 at 00000008\n",
}
SECTIONS = """\
hunk 0 at 00010000: 16 bytes
  00010000 main
  0001000e sub
  00010002 -> 00020000
  00010008 -> 0001000e
hunk 1 at 00020000: 8 bytes
"""
# The examples of docs/CALLING.md, and what they print.
FIRST = """\
import amihunk

with open("examples/two-hunks.load", "rb") as file:
    image = amihunk.load(file, [0x10000, 0x20000])
for hunk in image.hunks:
    print(f"{hunk.base:08x} {hunk.content.hex()}")
print(image.find(0x20004))
"""
FIRST_PRINTS = """\
00010000 207c000200004eb90001000e4e754e75
00020000 68756e6b00000000
(1, 4)
"""
SECOND = """\
import amihunk

ram = bytearray(1 << 20)

def places(hunks):
    free = 0x1000
    for hunk in hunks:
        yield amihunk.Place(free, memoryview(ram)[free : free + 4 * hunk.size])
        free += 4 * hunk.size

with open("examples/two-hunks.load", "rb") as file:
    amihunk.load_into(file, places)
"""
THIRD = """\
import amihunk
from pathlib import Path

names = ["examples/main.o", "examples/library.o"]
load_file, text = amihunk.link_with_map([Path(name).read_bytes() for name in names], names=names)
print(text.decode(), end="")
"""
THIRD_PRINTS = """\
hunk 0 code any 4 longwords examples/main.o unit 0 "main" hunk 0 ""
  define "main" at 00000000
hunk 1 data any 4 longwords examples/main.o unit 0 "main" hunk 1 ""
hunk 2 code any 5 longwords examples/library.o unit 0 "library" hunk 0 ""
  define "clear" at 00000000
  define "print" at 00000008
hunk 3 bss chip 4 longwords examples/library.o unit 0 "library" hunk 1 ""
"""
FOURTH = """\
import amihunk

with open("examples/main.o", "rb") as file:
    try:
        amihunk.link([file], explain=True)
    except amihunk.BadLink as error:
        for it in error.undefined:
            print(f"{it.name.decode('latin-1')}: unit {it.unit} hunk {it.hunk}, references: {it.references}")
"""
FOURTH_PRINTS = "print: unit 0 hunk 0, references: 1\n"
FIFTH = """\
import amihunk

with open("examples/main.o", "rb") as first, open("examples/library.o", "rb") as second:
    files = [first.read(), second.read()]
whole, stripped = amihunk.link(files), amihunk.link(files, strip=True)
print(amihunk.compare(whole, stripped))
print(amihunk.compare(whole, stripped, symbols=True).kind)
difference = amihunk.compare(whole, amihunk.link(reversed(files)))
print(difference.kind, difference.hunk, difference.first, difference.second)
"""
FIFTH_PRINTS = """\
None
DifferenceKind.SYMBOL
DifferenceKind.SIZE 0 4 5
"""


class Examples(unittest.TestCase):
    def runs(self, wanted, name, *arguments):
        path = os.path.join(TOP, "examples", "python", name)
        with open(path, encoding="utf-8") as file:
            self.assertLess(len(file.readlines()), 80)
        told = run(sys.executable, path, *arguments, cwd=os.path.join(TOP, "examples"),
                   env={**os.environ, "PYTHONPATH": PYTHON, "PYTHONDONTWRITEBYTECODE": "1"})
        self.assertEqual(told, wanted)

    def test_relocations_are_grouped_by_what_they_add(self):
        for name, text in RELOCATIONS.items():
            self.runs((0, text.encode(), b""), "relocations.py", name)
        own = "python/relocations.py"
        self.runs((1, b"", f"amihunk: {own}: longword 0: wrong first longword\n".encode()), "relocations.py", own)
        self.runs((1, b"", b"usage: relocations.py FILE\n"), "relocations.py")

    def test_a_disassembler_is_told_sections_symbols_and_pointers(self):
        self.runs((0, SECTIONS.encode(), b""), "disassembler_plug.py", "two-hunks.load", "10000", "20000")
        self.runs((0, b"hunk 0 at 00000007: 4 bytes\n", b""), "disassembler_plug.py", "one-hunk.load", "7")
        self.runs((1, b"", b"amihunk: places: hunks 0 and 1 overlap\n"), "disassembler_plug.py", "two-hunks.load", "0", "f")
        self.runs((1, b"", b"amihunk: main.o: longword 0: wrong first longword\n"), "disassembler_plug.py", "main.o", "0")
        self.runs((1, b"", b"usage: disassembler_plug.py FILE BASE..\n"), "disassembler_plug.py", "main.o")

    def test_a_section_is_a_value(self):
        text = (
            "import sys; sys.path.append('examples/python'); import disassembler_plug as plug\n"
            "first, second = plug.sections(open('examples/two-hunks.load', 'rb').read(), [0xfffffff0, 0])\n"
            "print(first); print(second.content, second.symbols)\n"
        )
        # The symbol is at the last address but one.
        wanted = (
            r"Section(address=4294967280, content=b' |\x00\x00\x00\x00N\xb9\xff\xff\xff\xfeNuNu', "
            "symbols=[(4294967280, 'main'), (4294967294, 'sub')], pointers=[(4294967282, 0), (4294967288, 4294967294)])\n"
            r"b'hunk\x00\x00\x00\x00' []" "\n"
        )
        self.assertEqual(run_python(text), (0, wanted.encode(), b""))

    def test_the_examples_of_the_manual_do_what_it_says(self):
        with open(os.path.join(TOP, "docs/CALLING.md"), encoding="utf-8") as file:
            manual = file.read()
        self.assertIn(f"```python\n{FIRST}```\n\nprints\n\n{textwrap.indent(FIRST_PRINTS, '    ')}\n", manual)
        self.assertEqual(run_python(FIRST), (0, FIRST_PRINTS.encode(), b""))
        self.assertIn(f"```python\n{SECOND}```\n", manual)
        wanted = b"207c000010104eb90000100e4e754e75" b"68756e6b00000000" b"\nTrue\n"
        end = "print(ram[0x1000:0x1018].hex()); print(not any(ram[:0x1000] + ram[0x1018:]))"
        self.assertEqual(run_python(SECOND + end), (0, wanted, b""))
        self.assertIn(f"```python\n{THIRD}```\n\nprints the map that is shown [above](#all-missing-names-and-the-map).\n", manual)
        self.assertIn(f"\n\nprints\n\n{textwrap.indent(THIRD_PRINTS, '    ')}\n", manual)
        self.assertEqual(run_python(THIRD), (0, THIRD_PRINTS.encode(), b""))
        self.assertIn(f"```python\n{FOURTH}```\n\nprints\n\n{textwrap.indent(FOURTH_PRINTS, '    ')}\n", manual)
        self.assertEqual(run_python(FOURTH), (0, FOURTH_PRINTS.encode(), b""))
        self.assertIn(f"```python\n{FIFTH}```\n\nprints\n\n{textwrap.indent(FIFTH_PRINTS, '    ')}\n", manual)
        self.assertEqual(run_python(FIFTH), (0, FIFTH_PRINTS.encode(), b""))
