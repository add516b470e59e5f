"""Loading: the memory of a load file, at addresses that are chosen before it is read or once its header is."""
from __future__ import annotations

import ctypes
from contextlib import closing
from itertools import chain
from typing import Callable, Iterable, Iterator, List, Optional, Sequence, Tuple, Union

from . import _library as c
from ._errors import Status, refusal
from ._handles import MEMORY, OK, File, Handle, Name, longword, longwords, pieces
from ._values import HeaderHunk, Image, LoadedHunk, MemoryKind, Place

Bases = Union[Sequence[int], Callable[[List[HeaderHunk]], Sequence[int]]]


def load(file: File, bases: Bases, *, name: Name = "") -> Image:
    """Loads a load file, with hunk number i at address bases[i]. Any number from 0 to 2^32 - 1 is an address, also an odd one.

    `bases` may be a callable. It is called once the header of the file has been read, with the list of what it tells of the
    hunks, and returns the addresses.

    Raises `BadFile` if it is no load file, `BadPlaces` if its hunks cannot stand at these addresses, and `OutOfMemory`. With a
    sequence, what is wrong with the file comes before what is wrong with the addresses; with a callable, only what is wrong
    with the header. A base that is no int raises `TypeError`, and one that is out of range `ValueError`.
    """
    with Handle("loader", c.Loader, [name]) as loader:
        if callable(bases):
            choose = bases
            feed_sized(loader, file, lambda hunks: place(loader, choose(hunks)))
        else:
            given = longwords(bases, "a base")
            loader.check(loader.call("open", MEMORY, given.buffer_info()[0], len(given)))
            loader.feed_file(file)
        loader.finish()
        return Image(list(loaded_hunks(loader)))


def load_into(file: File, places: Callable[[List[HeaderHunk]], Iterable[Place]], *, name: Name = "") -> None:
    """Loads a load file into buffers of yours. `places` is called once the header of the file has been read, with the list of what
    it tells of the hunks, and returns where each of them is to be, in the order of the file.

    A buffer is a `bytearray`, or anything else with a writable, contiguous buffer. A hunk takes its first 4 bytes for each longword
    of its size. Nothing is written after these, or anywhere else. Until the call returns or raises, the buffers cannot be
    resized, and nobody else may write there; so the file is in none of them. If it raises, these bytes may hold anything.

    Raises what `load` raises with a callable; and before anything is written, `TypeError` if a memory is no buffer, and
    `ValueError` if it is read-only, not contiguous or too short, or if two hunks would share a byte.
    """
    lent: List[ctypes.c_char] = []
    try:
        with Handle("loader", c.Loader, [name]) as loader:
            feed_sized(loader, file, lambda hunks: place_into(loader, hunks, list(places(hunks)), lent))
            loader.finish()
    finally:
        # An exception that is kept keeps this list, but not the buffers.
        lent.clear()


def check_places(sizes: Sequence[int], bases: Sequence[int]) -> None:
    """Returns if hunks of these sizes, in longwords, can stand at these addresses, and raises `BadPlaces` if not. A hunk of no
    longwords takes no address. Sizes and addresses are 0 to 2^32 - 1: others raise `TypeError` or `ValueError`."""
    answer = c.Answer()
    of, at = longwords(sizes, "a size"), longwords(bases, "a base")
    status = c.C.amihunk_check_places(of.buffer_info()[0], len(of), at.buffer_info()[0], len(at), answer)
    if status != OK:
        raise refusal(status, answer)


def feed_sized(loader: Handle, file: File, place_hunks: Callable[[List[HeaderHunk]], None]) -> None:
    """Feeds a file whose hunks are placed once its header is known."""
    loader.check(loader.call("begin", MEMORY))
    with closing(pieces(file)) as supply:
        rest = feed_header(loader, supply)
        if rest is not None:
            place_hunks(header_hunks(loader))
            loader.feed(chain([rest], supply))


def feed_header(loader: Handle, supply: Iterable[bytes]) -> Optional[bytes]:
    """Feeds pieces up to the end of the header, and returns what is left of the last one; None if the file ends before."""
    taken = ctypes.c_size_t()
    for piece in supply:
        status = loader.call("feed_header", piece, len(piece), taken, loader.answer)
        if status == Status.NEEDS_BASES.value:
            return piece[taken.value :]
        loader.check(status)
    return None


def header_hunks(loader: Handle) -> List[HeaderHunk]:
    """What a header that is whole tells of its hunks."""
    table = c.Table()
    loader.call("table", 0, table)
    hunks = []
    for number in range(table.hunks):
        loader.call("table", number, table)
        hunks.append(HeaderHunk(table.size, MemoryKind(table.memory)))
    return hunks


def place(loader: Handle, bases: Iterable[int]) -> None:
    """Chooses the addresses of hunks."""
    given = longwords(bases, "a base")
    loader.check(loader.call("place", given.buffer_info()[0], len(given), loader.answer))


def place_into(loader: Handle, hunks: List[HeaderHunk], places: List[Place], lent: List[ctypes.c_char]) -> None:
    """Chooses the addresses of hunks, and the buffers for their bytes, which `lent` keeps from then on."""
    table = (c.Place * len(places))()
    for number, given in enumerate(places):
        table[number].base = longword(given.base, "a base")
    ranges = []
    # If there are not as many places as hunks, the library refuses them.
    for number, (hunk, given) in enumerate(zip(hunks, places)):
        if hunk.size:
            table[number].bytes = lend(number, given.memory, 4 * hunk.size, lent)
            ranges.append((table[number].bytes, table[number].bytes + 4 * hunk.size, number))
    check_apart(ranges)
    loader.check(loader.call("place_into", table, len(places), loader.answer))


def lend(number: int, memory: Union[bytearray, memoryview, None], size: int, lent: List[ctypes.c_char]) -> int:
    """The address of a buffer that has room for a hunk. As long as `lent` has its first byte, it stays where it is."""
    with memoryview(memory) as view:  # type: ignore[arg-type]
        if view.readonly:
            raise ValueError(f"the memory of hunk {number} is read-only")
        if not view.c_contiguous:
            raise ValueError(f"the memory of hunk {number} is not contiguous")
        if view.nbytes < size:
            raise ValueError(f"the memory of hunk {number} has {view.nbytes} bytes, and needs {size}")
        lent.append(ctypes.c_char.from_buffer(view))
    return ctypes.addressof(lent[-1])


def check_apart(ranges: List[Tuple[int, int, int]]) -> None:
    """Raises if two of some hunks share a byte: each is the address of its buffer, the one after its last byte, and its number."""
    ranges.sort()
    for (_, end, number), (start, _, other) in zip(ranges, ranges[1:]):
        if start < end:
            raise ValueError(f"the memories of hunks {min(number, other)} and {max(number, other)} overlap")


def loaded_hunks(loader: Handle) -> Iterator[LoadedHunk]:
    """The hunks of a loader that is loaded."""
    told = c.Hunk()
    for number in range(loader.call("hunk_count")):
        loader.call("get_hunk", number, told)
        yield LoadedHunk(told.base, ctypes.string_at(told.bytes, told.size))
