"""Loads Amiga load files into memory, links object files into load files, and tells what is in either.

    import amihunk

    with open("hello", "rb") as file:
        image = amihunk.load(file, [0x10000, 0x20000])
    print(image.hunks[0].content.hex(), image.find(0x20004))

`load` makes the memory of a load file at addresses that you choose; `load_into` makes it in buffers of yours, such as the RAM
of an emulator; `check_places` says whether hunks can stand at some addresses; `link` makes a load file of object files, and
`link_with_map` also tells where each of its hunks is from; `read_file` tells what is in a file of either kind; and `compare`
tells where two load files first differ. Each takes its files as objects like `bytes`, or as binary file objects, which are read
to their ends, or to the first offence, in pieces of at most 64 KiB.

Addresses are 0 to 2^32 - 1. Sizes of hunks are in longwords, which are four bytes, and offsets are in bytes. Everything is
counted from 0.

What is refused raises an `AmihunkError`, whose `line` is what the program `amihunk` prints of it: a `BadFile`, a `BadPlaces`, a
`BadLink`, or an `OutOfMemory`, which is also a `MemoryError`. The keyword `name` (of what links: `names`) says what a file is
called in that line, as a text, bytes or a path. A value that no call takes raises a `TypeError` or a `ValueError`. What a file
object or a callable raises is handed on.

No call keeps anything once it has returned or raised. Calls may run on any threads at the same time.
"""
from ._comparing import compare
from ._errors import AmihunkError, BadFile, BadLink, BadPlaces, OutOfMemory, Reason, Status
from ._handles import BytesLike, File, Name, Readable
from ._library import VERSION
from ._linking import link, link_with_map
from ._loading import check_places, load, load_into
from ._reading import read_file, symbol_before
from ._values import (
    Definition,
    Difference,
    DifferenceKind,
    HeaderHunk,
    Hunk,
    HunkBase,
    HunkKind,
    Image,
    LoadedHunk,
    LoadFile,
    MemoryKind,
    ObjectFile,
    Place,
    Reference,
    Site,
    Symbol,
    UndefinedName,
    Unit,
)

__version__ = VERSION
__all__ = [
    "AmihunkError",
    "BadFile",
    "BadLink",
    "BadPlaces",
    "BytesLike",
    "Definition",
    "Difference",
    "DifferenceKind",
    "File",
    "HeaderHunk",
    "Hunk",
    "HunkBase",
    "HunkKind",
    "Image",
    "LoadFile",
    "LoadedHunk",
    "MemoryKind",
    "Name",
    "ObjectFile",
    "OutOfMemory",
    "Place",
    "Readable",
    "Reason",
    "Reference",
    "Site",
    "Status",
    "Symbol",
    "UndefinedName",
    "Unit",
    "VERSION",
    "check_places",
    "compare",
    "link",
    "link_with_map",
    "load",
    "load_into",
    "read_file",
    "symbol_before",
]
