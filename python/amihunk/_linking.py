"""Linking: object files, one after another, become one load file."""
from __future__ import annotations

import ctypes
import os
from typing import Iterable, Tuple

from . import _library as c
from ._errors import Status, refusal
from ._handles import MEMORY, File, Handle, Name, bytes_of, written


def link(
    files: Iterable[File],
    strip: bool = False,
    short: bool = False,
    trim: bool = False,
    *,
    names: Iterable[Name] = (),
    explain: bool = False,
) -> bytes:
    """Links all units of object files, in their order, and returns the bytes of the load file.

    `strip` leaves out symbols and debug blocks; `short` writes relocations at offsets up to 65,535 in 16 bits; `trim` leaves out
    zero longwords at the end of contents. Whatever is chosen, the load file has the same bytes in memory.

    Raises `BadFile` for the first that is no object file, `BadLink` if the units do not link, and `OutOfMemory`. `names` says what
    the files are called, in their order; one that has none there has an empty one.

    With `explain`, a `BadLink` has all names that are not defined, and not the first alone. For that what is in the files is kept
    while they are linked, which takes more memory.
    """
    with Handle("linker", c.Linker, names) as linker:
        link_files(linker, files, options_of(strip, short, trim, explain))
        return linked_bytes(linker)


def link_with_map(
    files: Iterable[File], strip: bool = False, short: bool = False, trim: bool = False, *, names: Iterable[Name] = ()
) -> Tuple[bytes, bytes]:
    """Links as `link` does with `explain`, and returns the bytes of the load file, and its map: what `amihunk link --map` writes.

    The map has a line for each hunk of the load file, which says where it is from, and one for each name that this hunk defines.
    It has the `names` of the files as they are, but for one that is not printable ASCII or has `: ` in it: that one is quoted as all
    other names are.
    """
    with Handle("linker", c.Linker, names) as linker:
        link_files(linker, files, options_of(strip, short, trim, True))
        return linked_bytes(linker), map_of(linker)


def options_of(strip: bool, short: bool, trim: bool, keep: bool) -> c.Options:
    """How a linker links. It hashes names with a random key, so that nobody can make names that collide."""
    key = (ctypes.c_uint64 * 2).from_buffer_copy(os.urandom(16))
    return c.Options(bool(strip), bool(short), bool(trim), bool(keep), key)


def link_files(linker: Handle, files: Iterable[File], options: c.Options) -> None:
    """Opens a linker, and links the files."""
    linker.check(linker.call("open", MEMORY, options))
    for file in files:
        linker.feed_file(file)
        linker.check(linker.call("end_input", linker.answer))
    linker.finish()


def linked_bytes(linker: Handle) -> bytes:
    """The load file of a linker that has linked."""
    told = c.Bytes()
    linker.call("get_file", told)
    return bytes_of(told)


def map_of(linker: Handle) -> bytes:
    """The map of a linker that has linked, and has kept what was in the files. A load file has hunks, so it is not empty."""
    names = (ctypes.c_char_p * len(linker.names))(*linker.names)
    text = written(lambda into, size: linker.call("map", names, len(names), into, size))
    if not text:
        raise refusal(Status.OUT_OF_MEMORY.value, linker.answer)
    return text
