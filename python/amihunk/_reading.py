"""Reading: what is in a file of either kind, as values."""
from __future__ import annotations

import ctypes
import sys
from array import array
from typing import Any, Iterator, Optional, Tuple, Union

from . import _library as c
from ._handles import MEMORY, File, Handle, Name, bytes_of
from ._values import Definition, Hunk, HunkBase, HunkKind, LoadFile, MemoryKind, ObjectFile, Reference, Site, Symbol, Unit

# Numbers of amihunk_file_kind and of amihunk_site_kind.
OBJECT_FILE, ADDS_HUNK = 0, 0


def read_file(file: File, *, name: Name = "") -> Union[ObjectFile, LoadFile]:
    """Tells what is in a file: a `LoadFile` if its first longword is that of one, and an `ObjectFile` otherwise.

    Raises `BadFile` if it is neither, and `OutOfMemory`. What a relocation of an object file adds is not looked up: its hunk need
    not be there, as the linker will say.
    """
    with Handle("file", c.File, [name]) as reader:
        reader.check(reader.call("open", MEMORY))
        reader.feed_file(file)
        reader.finish()
        contents = c.Contents()
        reader.call("get_contents", contents)
        units = tuple(unit_of(reader, number) for number in range(contents.units))
    return ObjectFile(units) if contents.kind == OBJECT_FILE else LoadFile(units[0].hunks)


def symbol_before(hunk: Hunk, offset: int) -> Optional[Symbol]:
    """The symbol of a hunk at this offset, in bytes, or before it: of those whose value is at most that, the one with the highest
    value, and of several with this value the first. None if there is none. With `Image.find` it names an address."""
    before = (symbol for symbol in hunk.symbols if symbol.value <= offset)
    return max(before, key=lambda symbol: symbol.value, default=None)


def unit_of(reader: Handle, number: int) -> Unit:
    told = c.Unit()
    reader.call("get_unit", number, told)
    return Unit(bytes_of(told.name), tuple(hunk_of(reader, number, hunk) for hunk in range(told.hunks)))


def hunk_of(reader: Handle, unit: int, hunk: int) -> Hunk:
    told = c.FileHunk()
    reader.call("get_hunk", unit, hunk, told)

    def each(what: str, count: int, item: Any) -> Iterator[Any]:
        """What the hunk has of this, one after another, each in the same structure."""
        for index in range(count):
            reader.call(f"get_{what}", unit, hunk, index, item)
            yield item

    references = tuple(bytes_of(it) for it in each("reference", told.references, c.Bytes()))
    return Hunk(
        name=bytes_of(told.name),
        kind=HunkKind(told.kind),
        memory=MemoryKind(told.memory),
        size=told.size,
        content=bytes_of(told.stored),
        sites=tuple(site_of(it, references) for it in each("site", told.sites, c.Site())),
        symbols=tuple(Symbol(bytes_of(it.name), it.value) for it in each("symbol", told.symbols, c.Symbol())),
        definitions=tuple(
            Definition(bytes_of(it.name), it.value, it.absolute != 0)
            for it in each("definition", told.definitions, c.Definition())
        ),
        references=references,
        debugs=tuple(debug_bytes(it) for it in each("debug", told.debug_blocks, c.Debug())),
    )


def site_of(told: c.Site, references: Tuple[bytes, ...]) -> Site:
    if told.kind == ADDS_HUNK:
        return Site(told.offset, HunkBase(told.target))
    return Site(told.offset, Reference(told.target, references[told.target]))


def debug_bytes(told: c.Debug) -> bytes:
    """The bytes of a debug block as the file has them. The library tells its longwords as numbers of this machine."""
    numbers = array("I", ctypes.string_at(told.longwords, 4 * told.size))
    if sys.byteorder == "little":
        numbers.byteswap()
    return numbers.tobytes()
