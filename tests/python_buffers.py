"""Loading into buffers of the caller: what is written there and nowhere else, and which buffers are refused."""
import random
import unittest
from array import array

import model
from model import CODE, END, HEADER, RELOC32, words
from python_setup import ONE_HUNK, THREE_HUNKS, Pieces, amihunk, ended, example
from amihunk import HeaderHunk, MemoryKind, Place

TWO_HUNKS = example("two-hunks.load")
GUARD = 0xA5


class Buffers(unittest.TestCase):
    def test_a_file_is_loaded_into_the_memory_of_a_machine(self):
        ram = bytearray([GUARD]) * 0x100
        told = []

        def places(hunks):
            told.append(hunks)
            view = memoryview(ram)
            # A buffer may go on after its hunk, also over another one.
            return [Place(0x11, view[0x11:]), Place(0x50, view[0x50:0x58])]

        self.assertIsNone(amihunk.load_into(TWO_HUNKS, places))
        self.assertEqual(told, [[HeaderHunk(4, MemoryKind.ANY), HeaderHunk(2, MemoryKind.CHIP)]])
        wanted = bytearray([GUARD]) * 0x100
        wanted[0x11:0x21] = bytes.fromhex("207c000000504eb90000001f4e754e75")
        wanted[0x50:0x58] = bytes.fromhex("68756e6b00000000")
        self.assertEqual(ram, wanted)

    def test_nothing_is_written_beside_the_hunks(self):
        """Whether a file is loaded or refused, and in whatever pieces it comes."""
        refused = 0
        for seed in range(300):
            dice, units = random.Random(seed), model.random_units(seed)
            bases = model.random_bases(seed, units)
            file = amihunk.link([model.object_file(units)])
            cut = file[: dice.randrange(len(file))] if dice.random() < 0.3 else file
            most = dice.choice((1, 3, 5, 1 << 20))
            sizes = [4 * len(hunk.words) for unit in units for hunk in unit]
            starts, free = [0] * len(sizes), 0
            for number in dice.sample(range(len(sizes)), len(sizes)):
                starts[number] = free + dice.randrange(1, 6)
                free = starts[number] + sizes[number]
            ram = bytearray([GUARD]) * (free + 5)
            places = [Place(base, memoryview(ram)[start : start + size]) for base, start, size in zip(bases, starts, sizes)]
            told = ended(amihunk.load_into, Pieces(cut, most), lambda _: places)
            held = [bytes(ram[start : start + size]) for start, size in zip(starts, sizes)]
            if cut == file:
                self.assertEqual((told, held), (None, model.memory_of(units, bases)), seed)
            else:
                self.assertIs(told[0], amihunk.BadFile, seed)
                refused += 1
            for start, size in zip(starts, sizes):
                ram[start : start + size] = bytes([GUARD]) * size
            self.assertEqual(ram, bytearray([GUARD]) * len(ram), seed)
        self.assertGreater(refused, 50)

    def test_a_buffer_may_be_of_any_kind(self):
        numbers = array("H", [7] * 4)
        amihunk.load_into(ONE_HUNK, lambda _: [Place(0, numbers)])
        self.assertEqual(numbers.tobytes(), words(0x4E754E71) + array("H", [7, 7]).tobytes())
        rows = bytearray(6)
        amihunk.load_into(ONE_HUNK, lambda _: [Place(0, memoryview(rows).cast("B", (2, 3)))])
        self.assertEqual(rows, words(0x4E754E71) + bytes(2))

    def test_a_hunk_of_no_longwords_needs_no_buffer(self):
        first, second = bytearray([GUARD]) * 5, bytearray([GUARD]) * 9
        for none in (None, b"", bytearray(), first):
            amihunk.load_into(THREE_HUNKS, lambda _: iter([Place(0, first), Place(4, second), Place(0, none)]))
            self.assertEqual((first, second), (bytes(4) + bytes([GUARD]), bytes(8) + bytes([GUARD])))

    def test_buffers_that_are_of_no_use_are_refused_before_anything_is_written(self):
        ram = bytearray([GUARD]) * 16
        view = memoryview(ram)
        good = view[:4]
        rows = [
            (good, None, TypeError, "memoryview"),
            (good, "eight by", TypeError, "memoryview"),
            (good, bytes(8), ValueError, "the memory of hunk 1 is read-only"),
            (good, view[4:12].toreadonly(), ValueError, "the memory of hunk 1 is read-only"),
            (good, view[::2], ValueError, "the memory of hunk 1 is not contiguous"),
            (good, view[4:11], ValueError, "the memory of hunk 1 has 7 bytes, and needs 8"),
            (bytearray(3), view[4:12], ValueError, "the memory of hunk 0 has 3 bytes, and needs 4"),
            (good, view[3:11], ValueError, "the memories of hunks 0 and 1 overlap"),
            (view[7:11], view[:8], ValueError, "the memories of hunks 0 and 1 overlap"),
            (ram, ram, ValueError, "the memories of hunks 0 and 1 overlap"),
        ]
        for first, second, kind, text in rows:
            with self.assertRaisesRegex(kind, text):
                amihunk.load_into(THREE_HUNKS, lambda _: [Place(0, first), Place(4, second), Place(0, None)])
            self.assertEqual(ram, bytearray([GUARD]) * 16, text)
        # These touch, and share no byte.
        amihunk.load_into(THREE_HUNKS, lambda _: [Place(0, view[8:12]), Place(4, view[:8]), Place(0, None)])
        self.assertEqual(ram, bytes(12) + bytes([GUARD]) * 4)

    def test_a_buffer_cannot_be_resized_until_the_call_ends(self):
        buffer, tried = bytearray(4), []

        class Resizing(Pieces):
            """Each of its reads tries to resize the buffer."""

            def read(self, size):
                try:
                    buffer.append(0)
                    tried.append("resized")
                except BufferError:
                    tried.append("kept")
                return super().read(size)

        file = words(HEADER, 0, 1, 0, 0, 1, CODE, 1, 0x4E754E71, RELOC32, 1, 0, 0, 0, END)
        amihunk.load_into(Resizing(file, 4), lambda _: [Place(0x100, buffer)])
        # Reading the header takes six reads of four bytes, and what follows nine, and one for the end.
        self.assertEqual(tried, ["resized"] * 6 + ["kept"] * 10)
        self.assertEqual(buffer[:4], words(0x4E754F71))
    def test_an_exception_that_is_kept_does_not_keep_the_buffers(self):
        buffer, kept = bytearray(4), []
        even = memoryview(bytearray(8))[::2]
        for file, bases, memories in (
            (TWO_HUNKS, [0, 0x100], [buffer, None]),
            (ONE_HUNK[:-1], [0], [buffer]),
            (ONE_HUNK + words(0), [0], [buffer]),
            (ONE_HUNK[:24] + words(CODE, 2), [0], [buffer]),
            (ONE_HUNK, [0, 4], [buffer, buffer]),
            (ONE_HUNK, [0xFFFFFFFF], [buffer]),
            (THREE_HUNKS, [0, 4, 0], [buffer, buffer, None]),
            (THREE_HUNKS, [0, 4, 0], [buffer, None, None]),
            (THREE_HUNKS, [0, 4, 0], [buffer, even, None]),
        ):
            try:
                amihunk.load_into(file, lambda _: [Place(base, memory) for base, memory in zip(bases, memories)])
            except (amihunk.AmihunkError, TypeError, ValueError) as error:
                kept.append(error)
            buffer.append(0)
        kinds = [ValueError] + [amihunk.BadFile] * 3 + [amihunk.BadPlaces] * 2 + [ValueError, TypeError, ValueError]
        self.assertEqual([type(error) for error in kept], kinds)
