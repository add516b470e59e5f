"""Loading with the module for Python: memory that was worked out by hand, in whatever way the file and the addresses are given."""
import ctypes
import io
import mmap
import random
import tempfile
import threading
import unittest
from array import array

import model
from model import CODE, END, HEADER, UNIT, words
from python_setup import ONE_HUNK, THREE_HUNKS, Pieces, amihunk, ended, example, loaded
from amihunk import HeaderHunk, Image, LoadedHunk, MemoryKind

TWO_HUNKS = example("two-hunks.load")
# Its memory with its hunks at 10000 and 20000: the first adds the second at offset 2, and itself at 8.
BASES = [0x10000, 0x20000]
IMAGE = Image([
    LoadedHunk(0x10000, bytes.fromhex("207c000200004eb90001000e4e754e75")),
    LoadedHunk(0x20000, bytes.fromhex("68756e6b00000000")),
])


class LongBytes(bytes):
    """Bytes that say that they are more than they are."""

    def __len__(self):
        return 1 << 20


class Loading(unittest.TestCase):
    def test_a_file_is_loaded_at_addresses_that_are_given(self):
        self.assertEqual(amihunk.load(TWO_HUNKS, BASES), IMAGE)
        self.assertEqual(amihunk.load(TWO_HUNKS, tuple(BASES)), IMAGE)
        self.assertEqual(amihunk.load(TWO_HUNKS, array("L", BASES)), IMAGE)
        # Addresses may be odd, the last ones, and in any order.
        high = amihunk.load(TWO_HUNKS, [0xFFFFFFF0, 3])
        self.assertEqual(high.hunks[0], LoadedHunk(0xFFFFFFF0, bytes.fromhex("207c000000034eb9fffffffe4e754e75")))
        self.assertEqual(high.hunks[1].base, 3)

    def test_addresses_may_be_chosen_by_the_sizes(self):
        told = []

        def choose(hunks):
            told.append(hunks)
            return BASES

        self.assertEqual(amihunk.load(TWO_HUNKS, choose), IMAGE)
        self.assertEqual(told, [[HeaderHunk(4, MemoryKind.ANY), HeaderHunk(2, MemoryKind.CHIP)]])
        fast = words(HEADER, 0, 1, 0, 0, 2 << 30 | 3, CODE, 0, END)
        amihunk.load(fast, lambda hunks: told.append(hunks) or [0])
        self.assertEqual(told[1], [HeaderHunk(3, MemoryKind.FAST)])

    def test_a_file_may_be_any_object_like_bytes(self):
        spread = bytearray(2 * len(TWO_HUNKS))
        spread[::2] = TWO_HUNKS
        files = [
            bytearray(TWO_HUNKS), memoryview(TWO_HUNKS), memoryview(spread)[::2], LongBytes(TWO_HUNKS),
            array("I", TWO_HUNKS), (ctypes.c_uint32 * (len(TWO_HUNKS) // 4)).from_buffer_copy(TWO_HUNKS),
            memoryview(TWO_HUNKS).cast("B", (len(TWO_HUNKS) // 4, 4)),
        ]
        for file in files:
            self.assertEqual(amihunk.load(file, BASES), IMAGE, file)
            self.assertEqual(amihunk.load(file, lambda _: BASES), IMAGE, file)
        # It may have no dimensions: this is a unit without hunks.
        number = ctypes.c_uint64.from_buffer_copy(words(UNIT, 0))
        self.assertEqual(amihunk.read_file(number), amihunk.ObjectFile((amihunk.Unit(b"", ()),)))

    def test_a_file_may_be_a_file_object(self):
        with tempfile.TemporaryFile() as file:
            file.write(TWO_HUNKS)
            file.flush()
            for _ in range(2):
                file.seek(0)
                self.assertEqual(amihunk.load(file, BASES), IMAGE)
            # It was read to its end.
            self.assertEqual(file.read(), b"")
            with mmap.mmap(file.fileno(), 0) as mapped:
                self.assertEqual(amihunk.load(mapped, BASES), IMAGE)

        class Other(Pieces):
            """Its reads return other objects than bytes."""

            def read(self, size):
                piece = super().read(size)
                return LongBytes(piece) if self.told % 2 else bytearray(piece)

        for most in (1, 3, 5, 1 << 20):
            for kind in (Pieces, Other):
                self.assertEqual(amihunk.load(kind(TWO_HUNKS, most), BASES), IMAGE, most)
                self.assertEqual(amihunk.load(kind(TWO_HUNKS, most), lambda _: BASES), IMAGE, most)
                self.assertEqual(loaded(kind(TWO_HUNKS, most), BASES), IMAGE, most)

    def test_a_file_of_many_pieces_is_loaded(self):
        hunk = model.Hunk(CODE, range(100_000))
        hunk.sites = [(offset, 0) for offset in range(0, 400_000, 8)]
        file = amihunk.link([model.object_file([[hunk]])])
        (memory,) = model.memory_of([[hunk]], [0x12345678])
        self.assertEqual(amihunk.load(file, [0x12345678]).hunks[0].content, memory)
        self.assertEqual(amihunk.load(io.BytesIO(file), lambda _: [0x12345678]).hunks[0].content, memory)

    def test_a_file_of_the_most_hunks_is_loaded(self):
        hunks = 65535
        file = words(HEADER, 0, hunks, 0, hunks - 1, *[0] * hunks) + words(CODE, 0, END) * hunks
        bases = list(range(0, 8 * hunks, 8))
        wanted = [LoadedHunk(base, b"") for base in bases]
        self.assertEqual(amihunk.load(file, bases).hunks, wanted)
        self.assertEqual(amihunk.load(file, lambda of: bases if of == [HeaderHunk(0, MemoryKind.ANY)] * hunks else []).hunks, wanted)

    def test_an_image_finds_its_bytes(self):
        self.assertEqual([IMAGE.find(it) for it in (0x10000, 0x1000F, 0x20007)], [(0, 0), (0, 15), (1, 7)])
        self.assertEqual([IMAGE.find(it) for it in (-1, 0, 0xFFFF, 0x10010, 0x20008, 1 << 32)], [None] * 6)
        self.assertEqual([IMAGE.byte(it) for it in (0x10001, 0x20000, 0x20007, 0x20008)], [0x7C, 0x68, 0, None])
        last = amihunk.load(THREE_HUNKS, [0xFFFFFFFC, 0, 0xFFFFFFFF])
        self.assertEqual([last.find(it) for it in (0xFFFFFFFB, 0xFFFFFFFF, 1 << 32, 7, 8)], [None, (0, 3), None, (1, 7), None])

    def test_an_image_finds_what_the_library_finds(self):
        c = amihunk._library
        c.C.amihunk_loader_find.argtypes = [c.LOADER, ctypes.c_uint32, ctypes.c_void_p]
        for seed in range(100):
            dice, units = random.Random(seed), model.random_units(seed)
            bases = model.random_bases(seed, units)
            file = amihunk.link([model.object_file(units)])
            image = amihunk.load(file, bases)
            ends = [end for hunk in image.hunks for end in (hunk.base, hunk.base + len(hunk.content))]
            with amihunk._handles.Handle("loader", c.Loader, []) as loader:
                loader.check(loader.call("begin", amihunk._handles.MEMORY))
                rest = amihunk._loading.feed_header(loader, [file])
                amihunk._loading.place(loader, bases)
                loader.feed([rest])
                loader.finish()
                for address in [max(0, min(dice.choice(ends) + dice.randrange(-2, 3), (1 << 32) - 1)) for _ in range(100)]:
                    point = (ctypes.c_uint64 * 2)()
                    status = loader.call("find", address, point)
                    told = (point[0], point[1] & 0xFFFFFFFF) if status == amihunk.Status.OK.value else None
                    self.assertEqual(image.find(address), told, (seed, address))

    def test_threads_and_files_that_load_do_not_disturb_each_other(self):
        units = [model.random_units(seed) for seed in range(8)]
        failed = []

        def work(number):
            try:
                file = amihunk.link([model.object_file(units[number])])
                for seed in range(100):
                    bases = model.random_bases(seed, units[number])
                    image = amihunk.load(Pieces(file, 7), bases)
                    assert [hunk.content for hunk in image.hunks] == model.memory_of(units[number], bases)
                    assert loaded(file, bases) == image
            except BaseException as error:
                failed.append(error)

        threads = [threading.Thread(target=work, args=[number]) for number in range(8)]
        for thread in threads:
            thread.start()
        for thread in threads:
            thread.join()
        self.assertEqual(failed, [])

        class Nested(Pieces):
            """Each of its reads loads another file first."""

            def read(self, size):
                assert amihunk.load(ONE_HUNK, [0]).hunks[0].content == words(0x4E754E71)
                assert ended(amihunk.load, ONE_HUNK, [0, 0])[0] is amihunk.BadPlaces
                return super().read(size)

        self.assertEqual(amihunk.load(Nested(TWO_HUNKS, 9), lambda _: BASES), IMAGE)

    def test_one_file_object_may_be_read_by_two_threads(self):
        """Each gets some of its pieces, and so is most likely refused; but neither ends in another way, or hangs."""
        file, told = Pieces(TWO_HUNKS, 1), []
        threads = [threading.Thread(target=lambda: told.append(ended(amihunk.load, file, BASES))) for _ in range(2)]
        for thread in threads:
            thread.start()
        for thread in threads:
            thread.join()
        self.assertEqual([it for it in told if it != IMAGE and it[0] is not amihunk.BadFile], [])
        self.assertEqual(len(told), 2)


class CheckingPlaces(unittest.TestCase):
    def test_places_are_checked_without_a_file(self):
        self.assertIsNone(amihunk.check_places([4, 2], BASES))
        self.assertIsNone(amihunk.check_places([], []))
        # They end at the last address, and touch.
        self.assertIsNone(amihunk.check_places([1, 2], [0xFFFFFFFC, 0xFFFFFFF4]))
        # A hunk of no longwords takes no address.
        self.assertIsNone(amihunk.check_places([1, 0, 0], [0, 2, 0xFFFFFFFF]))
        self.assertIsNone(amihunk.check_places(iter([1]), iter([7])))

    def test_random_places_are_judged_by_their_ranges(self):
        for seed in range(2000):
            dice = random.Random(seed)
            count = dice.randrange(1, 5)
            sizes = [dice.randrange(4) for _ in range(count)]
            bases = [dice.choice([0, 0xFFFFFFD0]) + dice.randrange(40) for _ in range(count)]
            ends = [base + 4 * size for base, size in zip(bases, sizes)]
            past = [number for number in range(count) if sizes[number] and ends[number] > 1 << 32]
            pairs = [(later, earlier) for later in range(count) for earlier in range(later)
                     if max(bases[later], bases[earlier]) < min(ends[later], ends[earlier])]
            wanted = None
            if past:
                wanted = (amihunk.Status.PAST_END, past[0], 0, f"amihunk: places: hunk {past[0]} passes the end of memory")
            elif pairs:
                later, earlier = min(pairs)
                wanted = (amihunk.Status.OVERLAP, earlier, later, f"amihunk: places: hunks {earlier} and {later} overlap")
            told = ended(amihunk.check_places, sizes, bases)
            self.assertEqual(told, wanted and (amihunk.BadPlaces, wanted), (seed, sizes, bases))
