"""What the calls of the module for Python raise: each exception with all its fields, which were worked out by hand."""
import ctypes
import io
import pathlib
import pickle
import unittest
import unittest.mock

from model import BSS, CODE, DATA, END, EXT, HEADER, REF32, RELOC32, SYMBOL, UNIT, words
from python_setup import ONE_HUNK, THREE_HUNKS, Pieces, amihunk, ended, loaded, run_python
from amihunk import BadFile, BadLink, BadPlaces, Place, Reason, Status, UndefinedName

HEAD = (HEADER, 0, 1, 0, 0, 1)

# Load files that are refused, with the place, the reason and its number, and what the line says.
LOAD_ROWS = (
    (b"", 0, Reason.UNEXPECTED_END, 0, "file ends too early"),
    (ONE_HUNK[:-4], 9, Reason.UNEXPECTED_END, 0, "file ends too early"),
    (words(*HEAD[:-1]), 5, Reason.UNEXPECTED_END, 0, "file ends too early"),
    (words(*HEAD), 6, Reason.UNEXPECTED_END, 0, "file ends too early"),
    (ONE_HUNK[:-1], 9, Reason.PARTIAL_LONGWORD, 0, "file ends inside a longword"),
    (ONE_HUNK[:21], 5, Reason.PARTIAL_LONGWORD, 0, "file ends inside a longword"),
    (words(0x4E754E71), 0, Reason.WRONG_START, 0, "wrong first longword"),
    (words(*HEAD, 0x123), 6, Reason.UNKNOWN_TYPE, 0x123, "unknown block type 291"),
    (words(*HEAD, CODE, 0, CODE), 8, Reason.MISPLACED_TYPE, CODE, "block type 1001 not allowed here"),
    (words(*HEAD, CODE, 0, 0x3F7), 8, Reason.UNSUPPORTED_BLOCK, 0x3F7, "block type 1015 not supported"),
    (words(HEADER, 0, 2, 0, 1, 0, 0xC0000000), 6, Reason.BOTH_MEMORY_BITS, 0, "both memory bits set"),
    (words(HEADER, 1), 1, Reason.RESIDENT_NAMES, 0, "resident library names not supported"),
    (words(HEADER, 0, 0), 2, Reason.HUNK_TABLE, 0, "bad hunk table"),
    (words(HEADER, 0, 1, 0, 0, (1 << 24) + 1), 5, Reason.TOO_LARGE, 0, "too large"),
    (words(*HEAD, CODE, 2), 7, Reason.CONTENT_TOO_LONG, 0, "block longer than its hunk"),
    (words(*HEAD, CODE, 1, 0, RELOC32, 1, 7), 11, Reason.NO_SUCH_HUNK, 7, "no hunk 7"),
    (words(*HEAD, CODE, 1, 0, RELOC32, 1, 0, 0xFFFFFFFF), 12, Reason.SITE_OUTSIDE, 0xFFFFFFFF, "site ffffffff outside its hunk"),
    (words(HEADER, 0, 1, 0, 0, 2, CODE, 0, RELOC32, 2, 0, 1, 4), 12, Reason.SITE_OVERLAP, 4, "site 00000004 overlaps another"),
    (words(*HEAD, CODE, 0, SYMBOL, 5 << 24 | 1), 9, Reason.SYMBOL_KIND, 5, "symbol of kind 5"),
    (ONE_HUNK + words(0), 10, Reason.TRAILING_DATA, 0, "data after the last hunk"),
)
# The same of object files.
OBJECT_ROWS = (
    (b"", 0, Reason.UNEXPECTED_END, 0, "file ends too early"),
    (words(UNIT, 0, CODE), 3, Reason.UNEXPECTED_END, 0, "file ends too early"),
    (words(UNIT, 0) + b"\0\0\3", 2, Reason.PARTIAL_LONGWORD, 0, "file ends inside a longword"),
    (words(0x4E754E71), 0, Reason.WRONG_START, 0, "wrong first longword"),
    (words(UNIT, 0, 1020), 2, Reason.UNKNOWN_TYPE, 1020, "unknown block type 1020"),
    (words(UNIT, 0, END), 2, Reason.MISPLACED_TYPE, END, "block type 1010 not allowed here"),
    (words(UNIT, 0, CODE, 0, 1006), 4, Reason.UNSUPPORTED_BLOCK, 1006, "block type 1006 not supported"),
    (words(UNIT, 0, CODE, 0, EXT, 130 << 24 | 1), 5, Reason.UNSUPPORTED_EXT, 130, "external type 130 not supported"),
    (words(UNIT, 0, 3 << 30 | DATA), 2, Reason.BOTH_MEMORY_BITS, 0, "both memory bits set"),
    (words(UNIT, 0, BSS, 4, RELOC32, 1, 0, 8), 7, Reason.SITE_OUTSIDE, 8, "site 00000008 outside its hunk"),
    (words(UNIT, 0, CODE, 1, 0, EXT, 129 << 24, 2, 0, 0), 9, Reason.SITE_OVERLAP, 0, "site 00000000 overlaps another"),
    (words(UNIT, 0, CODE, 0, SYMBOL, 255 << 24 | 1), 5, Reason.SYMBOL_KIND, 255, "symbol of kind 255"),
)


def refused(place, reason, number, text, input=0, name=""):
    """How a call ends that refuses a file."""
    return BadFile, (place, reason, number, input, f"amihunk: {name}: longword {place}: {text}")


class Refusals(unittest.TestCase):
    def test_load_files_are_refused_at_their_first_offence(self):
        seen = set()
        for file, *row in LOAD_ROWS:
            wanted = refused(*row)
            for most in (1, 3, 5, 1 << 20):
                self.assertEqual(ended(amihunk.load, Pieces(file, most), [0]), wanted, row)
                self.assertEqual(ended(amihunk.load, Pieces(file, most), lambda of: [8 * it for it, _ in enumerate(of)]), wanted, row)
                self.assertEqual(ended(loaded, Pieces(file, most), [0]), wanted, row)
                self.assertEqual(ended(amihunk.read_file, Pieces(file, most)), wanted, row)
            self.assertEqual(ended(amihunk.load, file, [0], name="x"), refused(*row, name="x"))
            self.assertEqual(ended(amihunk.load, file, lambda _: [0], name=pathlib.Path("a \u00e9")), refused(*row, name="a \u00e9"))
            told = ended(amihunk.load_into, file, lambda _: [Place(0, bytearray(8))], name=b"\xe9")
            self.assertEqual(told, refused(*row, name="\udce9"))
            self.assertEqual(ended(amihunk.read_file, file, name="x" * 1000), refused(*row, name="x" * 1000))
            seen.add(row[1])
        self.assertEqual(seen, set(Reason) - {Reason.NONE, Reason.UNSUPPORTED_EXT})

    def test_object_files_are_refused_at_their_first_offence(self):
        good = words(UNIT, 0)
        for file, *row in OBJECT_ROWS:
            for most in (1, 3, 5, 1 << 20):
                self.assertEqual(ended(amihunk.read_file, Pieces(file, most)), refused(*row), row)
                self.assertEqual(ended(amihunk.link, [Pieces(file, most)]), refused(*row), row)
            names = ["one.o", "a \u00e9.o", "\udce9.o"]
            for input, name in enumerate(names):
                files = [good] * input + [file, good, b""]
                self.assertEqual(ended(amihunk.link, files, names=names), refused(*row, input, name), row)
            # One that has no name has an empty one.
            self.assertEqual(ended(amihunk.link, [good, file], names=["one.o"]), refused(*row, 1), row)

    def test_a_file_is_read_no_further_than_its_first_offence(self):
        bad = words(0) + bytes(1000)
        for call in (lambda file: amihunk.load(file, [0]), lambda file: amihunk.load(file, lambda _: [0]), amihunk.read_file,
                     lambda file: amihunk.load_into(file, lambda _: []), lambda file: amihunk.link([file, b""])):
            file = Pieces(bad, 3)
            self.assertEqual(ended(call, file), refused(0, Reason.WRONG_START, 0, "wrong first longword"))
            self.assertEqual(file.told, 6)
        # After a file that ends too early, the next one is not begun.
        file = Pieces(words(UNIT, 0), 3)
        self.assertEqual(ended(amihunk.link, [b"", file]), refused(0, Reason.UNEXPECTED_END, 0, "file ends too early"))
        self.assertEqual(file.told, 0)

    def test_hunks_that_cannot_be_placed_are_refused(self):
        # The sizes are 1, 2 and 0 longwords.
        for bases, status, hunk, other, text in (
            ([], Status.WRONG_COUNT, 0, 0, "wrong number of addresses"),
            ([0, 8], Status.WRONG_COUNT, 0, 0, "wrong number of addresses"),
            ([0, 8, 16, 24], Status.WRONG_COUNT, 0, 0, "wrong number of addresses"),
            ([0xFFFFFFFD, 0xFFFFFFF9, 0], Status.PAST_END, 0, 0, "hunk 0 passes the end of memory"),
            ([0, 0xFFFFFFF9, 0], Status.PAST_END, 1, 0, "hunk 1 passes the end of memory"),
            ([7, 0, 3], Status.OVERLAP, 0, 1, "hunks 0 and 1 overlap"),
        ):
            wanted = BadPlaces, (status, hunk, other, f"amihunk: places: {text}")
            places = [Place(base, bytearray(8)) for base in bases]
            self.assertEqual(ended(amihunk.load, THREE_HUNKS, bases), wanted)
            self.assertEqual(ended(amihunk.load, THREE_HUNKS, lambda _: bases, name="x"), wanted)
            self.assertEqual(ended(amihunk.load_into, THREE_HUNKS, lambda _: places), wanted)
            self.assertEqual(ended(amihunk.check_places, [1, 2, 0], bases), wanted)
        self.assertEqual(ended(amihunk.check_places, [2, 3, 1], [20, 4, 8])[1][:3], (Status.OVERLAP, 1, 2))

    def test_a_file_comes_before_its_places_unless_they_are_chosen_by_its_header(self):
        bad = THREE_HUNKS[:-1]
        self.assertIs(ended(amihunk.load, bad, [0])[0], BadFile)
        self.assertIs(ended(amihunk.load, bad, lambda _: [0])[0], BadPlaces)
        self.assertIs(ended(amihunk.load_into, bad, lambda _: [])[0], BadPlaces)

    def test_values_that_no_call_takes_are_refused(self):
        for base, kind in ((-1, ValueError), (1 << 32, ValueError), (1.0, TypeError), ("1", TypeError), (None, TypeError)):
            text = "a base is an int" if kind is TypeError else "a base is 0 to 2\\^32 - 1, and not "
            for call in (
                lambda: amihunk.load(ONE_HUNK, [base]),
                lambda: amihunk.load(ONE_HUNK, lambda _: [base]),
                lambda: amihunk.load_into(ONE_HUNK, lambda _: [Place(base, bytearray(4))]),
                lambda: amihunk.check_places([1], [base]),
            ):
                self.assertRaisesRegex(kind, text, call)
            self.assertRaisesRegex(kind, "a size is", amihunk.check_places, [base], [1])
        for file in (7, None, "text", ["text"], object()):
            self.assertRaisesRegex(TypeError, "a file is an object like bytes or a binary file object", amihunk.load, file, [0])
            self.assertRaisesRegex(TypeError, "a file is an object like bytes", amihunk.read_file, file)
            self.assertRaisesRegex(TypeError, "a file is an object like bytes", amihunk.compare, ONE_HUNK, file)
            self.assertRaisesRegex(TypeError, "a file is an object like bytes", amihunk.link, [file])
            self.assertRaisesRegex(TypeError, "a file is an object like bytes", amihunk.link_with_map, [file])
        self.assertRaisesRegex(TypeError, "and not str", amihunk.load, io.StringIO("text"), [0])
        self.assertRaisesRegex(TypeError, "a file is an object like bytes", amihunk.link, ONE_HUNK)
        for name, kind in (("a\0b", ValueError), (7, TypeError)):
            self.assertRaises(kind, amihunk.load, ONE_HUNK, [0], name=name)
            self.assertRaises(kind, amihunk.load_into, ONE_HUNK, lambda _: [], name=name)
            self.assertRaises(kind, amihunk.read_file, ONE_HUNK, name=name)
            self.assertRaises(kind, amihunk.compare, ONE_HUNK, ONE_HUNK, names=["x", name])
            self.assertRaises(kind, amihunk.link, [], names=[name])
            self.assertRaises(kind, amihunk.link_with_map, [], names=[name])
        for bases in (7, None):
            self.assertRaises(TypeError, amihunk.load, ONE_HUNK, bases)

    def test_what_files_and_callables_raise_is_handed_on(self):
        class Broken(Pieces):
            """Its second read fails, or returns what is not like bytes."""

            def __init__(self, error, content=ONE_HUNK):
                super().__init__(content, 30)
                self.error = error

            def read(self, size):
                if self.told:
                    if self.error:
                        raise self.error
                    return None
                return super().read(size)

        def fail(_):
            raise error

        for error in (OSError("the disk"), KeyboardInterrupt(), ValueError("closed")):
            for call in (
                lambda: amihunk.load(Broken(error), [0]),
                lambda: amihunk.load(Broken(error), lambda _: [0]),
                lambda: amihunk.load_into(Broken(error), lambda _: [Place(0, bytearray(4))]),
                lambda: amihunk.read_file(Broken(error)),
                lambda: amihunk.compare(ONE_HUNK, Broken(error)),
                lambda: amihunk.link([words(UNIT, 0), Broken(error, words(UNIT, 0))]),
                lambda: amihunk.link_with_map([words(UNIT, 0), Broken(error, words(UNIT, 0))]),
                lambda: amihunk.load(ONE_HUNK, fail),
                lambda: amihunk.load_into(ONE_HUNK, fail),
            ):
                with self.assertRaises(type(error)) as caught:
                    call()
                self.assertIs(caught.exception, error)
        self.assertRaisesRegex(TypeError, "a binary file returns bytes, and not NoneType", amihunk.load, Broken(None), [0])

    def test_exceptions_are_errors_that_can_be_sent_on(self):
        memory = amihunk.OutOfMemory("amihunk: out of memory")
        lacks = UndefinedName(b"draw", 2, 0, 3, 7), UndefinedName(b"\xff", 3, 1, 0, 1)
        link = BadLink(Status.UNDEFINED_NAME, 1, 2, 3, 0, b"draw", lacks, 'amihunk: link: unit 1 hunk 3: "draw" not defined')
        file = BadFile(9, Reason.TRAILING_DATA, 0, 0, "amihunk: x: longword 9: data after the last hunk")
        for error in (memory, link, file, BadPlaces(Status.OVERLAP, 0, 1, "amihunk: places: hunks 0 and 1 overlap")):
            again = pickle.loads(pickle.dumps(error))
            self.assertEqual((type(again), vars(again), str(again)), (type(error), vars(error), error.line))
            self.assertIsInstance(error, amihunk.AmihunkError)
            self.assertEqual(isinstance(error, MemoryError), error is memory)
        self.assertEqual((link.status, link.unit, link.input, link.hunk, link.other, link.name, link.undefined), link.args[:-1])
        self.assertEqual((file.place, file.reason, file.number, file.input, file.line), file.args)


# Under a limit of so much more memory than there is now, each call runs out of it; then each of them works.
LITTLE_MEMORY = """
import resource, amihunk
from model import BSS, CODE, END, HEADER, UNIT, words

def ended(call, *values):
    try:
        call(*values)
        return "done"
    except MemoryError as error:
        return type(error).__name__ + ": " + str(error)

load_file = words(HEADER, 0, 1, 0, 0, 1 << 24, BSS, 1 << 24, END)
object_file = words(UNIT, 0, CODE, 1 << 23) + bytes(4 << 23) + words(END)
buffer = bytearray(64 << 20)
calls = (
    lambda: amihunk.load(load_file, [0]),
    lambda: amihunk.load(load_file, lambda _: [0]),
    lambda: amihunk.link([object_file]),
    lambda: amihunk.read_file(object_file),
    lambda: amihunk.load_into(load_file, lambda _: [amihunk.Place(0, buffer)]),
)
with open("/proc/self/statm") as file:
    pages = int(file.read().split()[0])
for limit in (pages * resource.getpagesize() + (8 << 20), resource.RLIM_INFINITY):
    resource.setrlimit(resource.RLIMIT_AS, (limit, resource.RLIM_INFINITY))
    for call in calls:
        print(ended(call))
"""


class Heap:
    """A memory of the library that hands out so many blocks, and then none; and knows which are not released."""

    def __init__(self, most):
        self.left, self.blocks, libc = most, set(), ctypes.CDLL(None)
        libc.malloc.restype, libc.malloc.argtypes, libc.free.argtypes = ctypes.c_void_p, [ctypes.c_size_t], [ctypes.c_void_p]

        def allocate(_, size, align):
            self.left -= 1
            if self.left < 0:
                return None
            self.blocks.add(block := libc.malloc(size))
            return block

        def release(_, block):
            self.blocks.remove(block)
            libc.free(block)

        self.calls = (ctypes.CFUNCTYPE(ctypes.c_void_p, ctypes.c_void_p, ctypes.c_size_t, ctypes.c_size_t)(allocate),
                      ctypes.CFUNCTYPE(None, ctypes.c_void_p, ctypes.c_void_p)(release))
        allocate_at, release_at = (ctypes.cast(it, ctypes.c_void_p).value for it in self.calls)
        self.memory = amihunk._library.Memory(allocate_at, None, release_at, None)


class LittleMemory(unittest.TestCase):
    def test_each_allocation_is_refused_in_turn_and_all_blocks_are_released(self):
        object_file, buffer = words(UNIT, 0, CODE, 1, 7, RELOC32, 1, 0, 0, 0, SYMBOL, 1, 0x61626364, 0, 0, END), bytearray(4)
        lacking = words(UNIT, 0, CODE, 2, 7, 7, EXT, REF32 << 24 | 1, 0x61626364, 1, 0, REF32 << 24, 1, 4, 0, END)
        load_file = amihunk.link([object_file])
        refused = amihunk.OutOfMemory, ("amihunk: out of memory",)
        for module, call in (
            ("_loading", lambda: amihunk.load(load_file, [0])),
            ("_loading", lambda: amihunk.load(load_file, lambda _: [0])),
            ("_loading", lambda: amihunk.load_into(load_file, lambda _: [Place(0, buffer)])),
            ("_loading", lambda: amihunk.load(load_file[:-1], [0])),
            ("_loading", lambda: amihunk.load_into(load_file, lambda _: [Place(0, buffer)] * 2)),
            ("_linking", lambda: amihunk.link([object_file, object_file])),
            ("_linking", lambda: amihunk.link([object_file, load_file])),
            ("_linking", lambda: amihunk.link([object_file, lacking], explain=True)),
            ("_linking", lambda: amihunk.link_with_map([object_file], names=["x" * 100])),
            ("_reading", lambda: amihunk.read_file(object_file)),
            ("_reading", lambda: amihunk.read_file(load_file)),
            ("_reading", lambda: amihunk.read_file(load_file[:-1])),
            ("_comparing", lambda: amihunk.compare(load_file, load_file, True)),
            ("_comparing", lambda: amihunk.compare(load_file, load_file[:-1])),
        ):
            wanted, most, told = ended(call), 0, None
            while most == 0 or told == refused:
                heap = Heap(most)
                with unittest.mock.patch.object(getattr(amihunk, module), "MEMORY", heap.memory):
                    told = ended(call)
                self.assertEqual(heap.blocks, set())
                most += 1
            self.assertEqual(told, wanted)
            # At least one was refused before.
            self.assertGreater(most, 2)

    def test_no_memory_is_an_exception_and_nothing_more(self):
        refused = b"OutOfMemory: amihunk: out of memory\n"
        # What is loaded into a buffer needs no memory beside it.
        told = run_python(f"import sys; sys.path.append({__file__.rpartition('/')[0]!r})\n" + LITTLE_MEMORY)
        self.assertEqual(told, (0, refused * 4 + b"done\n" + b"done\n" * 5, b""))
