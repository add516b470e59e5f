"""Comparing: where two load files first differ, as a value."""
from __future__ import annotations

from typing import Any, Callable, Dict, Optional, Sequence, Union

from . import _library as c
from ._handles import MEMORY, File, Handle, Name
from ._reading import OBJECT_FILE
from ._values import Difference, DifferenceKind, HunkKind, LoadFile, MemoryKind
from ._writing import load_file_bytes

# A number of amihunk_difference_kind, and what is told in the place of a hunk where there is no site.
SAME, NO_SITE = 0, (1 << 64) - 1


def compare(
    first: Union[LoadFile, File], second: Union[LoadFile, File], symbols: bool = False, *, names: Sequence[Name] = ("", "")
) -> Optional[Difference]:
    """Tells where two load files first differ in what they mean: in their hunks as they are in memory before any base is added.
    None if they mean the same. Each is a `LoadFile`, as `read_file` returns it, or a file as `read_file` takes it.

    The number of hunks comes first; then, hunk by hunk, the kind, the memory and the size, and then the lowest offset with another
    byte or another site. Where both differ at one offset, it is the byte. Zeros at the end of a content make no difference, and
    neither does the form in which sites are written. With `symbols`, symbols and debug blocks count too, once all else is the same:
    hunk by hunk, the first symbol, and then the first debug block, that the files do not both have there.

    Raises `BadFile` if one is no file, or is a `LoadFile` that no file has, `ValueError` if one is an object file, and `OutOfMemory`.
    `names` says what the two are called.
    """
    with Handle("file", c.File, names[:1]) as one, Handle("file", c.File, names[1:2]) as other:
        read_load_file(one, first)
        read_load_file(other, second)
        told = c.Difference()
        one.check(one.call("compare", other.handle, bool(symbols), told))
    return difference_of(told)


def read_load_file(reader: Handle, file: Union[LoadFile, File]) -> None:
    """Reads a load file, so that it can be compared."""
    reader.check(reader.call("open", MEMORY))
    reader.feed_file(load_file_bytes(file) if isinstance(file, LoadFile) else file)
    reader.finish()
    contents = c.Contents()
    reader.call("get_contents", contents)
    if contents.kind == OBJECT_FILE:
        raise ValueError("load files are compared, and this is an object file")


def target_of(number: int) -> Optional[int]:
    """The hunk whose base is added at a site, if there is one."""
    return None if number == NO_SITE else number


def nothing(_: int) -> None:
    """What is told beside the place."""


# What the two values of a difference are, where they are no plain numbers.
VALUES: Dict[DifferenceKind, Callable[[int], Any]] = {
    DifferenceKind.KIND: HunkKind,
    DifferenceKind.MEMORY: MemoryKind,
    DifferenceKind.SITE: target_of,
    DifferenceKind.SYMBOL: nothing,
    DifferenceKind.DEBUG: nothing,
}
# Those that are at a place in a hunk.
PLACED = (DifferenceKind.BYTE, DifferenceKind.SITE, DifferenceKind.SYMBOL, DifferenceKind.DEBUG)


def difference_of(told: c.Difference) -> Optional[Difference]:
    if told.kind == SAME:
        return None
    kind = DifferenceKind(told.kind)
    value = VALUES.get(kind, int)
    return Difference(
        kind=kind,
        hunk=None if kind is DifferenceKind.HUNK_COUNT else told.hunk,
        offset=told.offset if kind in PLACED else None,
        first=value(told.first),
        second=value(told.second),
    )
