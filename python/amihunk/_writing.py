"""Writing: the bytes of a load file, from its value."""
from __future__ import annotations

import sys
from typing import Dict, Iterator, List

from ._handles import longwords
from ._values import Hunk, HunkBase, HunkKind, LoadFile, MemoryKind, Symbol

# The first longword of a load file, the types of its blocks, and what a size in its header has beside it.
HEADER, RELOC32, SYMBOL, DEBUG, END = 0x3F3, 0x3EC, 0x3F0, 0x3F1, 0x3F2
TYPES = {HunkKind.CODE: 0x3E9, HunkKind.DATA: 0x3EA, HunkKind.BSS: 0x3EB}
MEMORY_BITS = {MemoryKind.ANY: 0, MemoryKind.CHIP: 1 << 30, MemoryKind.FAST: 1 << 31}


def load_file_bytes(file: LoadFile) -> bytes:
    """A load file with these hunks. They are not checked: reading it does that."""
    sizes = [MEMORY_BITS[hunk.memory] | hunk.size for hunk in file.hunks]
    header = stored(HEADER, 0, len(sizes), 0, max(len(sizes) - 1, 0), *sizes)
    return header + b"".join(block for hunk in file.hunks for block in blocks(hunk))


def blocks(hunk: Hunk) -> Iterator[bytes]:
    """The blocks of a hunk, up to its end."""
    yield stored(TYPES[hunk.kind], hunk.size if hunk.kind is HunkKind.BSS else len(hunk.content) // 4)
    yield hunk.content
    if hunk.sites:
        yield site_block(hunk)
    if hunk.symbols:
        yield stored(SYMBOL) + b"".join(map(symbol_entry, hunk.symbols)) + stored(0)
    for debug in hunk.debugs:
        yield stored(DEBUG, len(debug) // 4) + debug
    yield stored(END)


def site_block(hunk: Hunk) -> bytes:
    """The sites of a hunk, together for each hunk whose base they add."""
    targets: Dict[int, List[int]] = {}
    for site in hunk.sites:
        if not isinstance(site.target, HunkBase):
            raise TypeError(f"a site of a load file adds the base of a hunk, and not {type(site.target).__name__}")
        targets.setdefault(site.target.number, []).append(site.offset)
    return stored(RELOC32) + b"".join(stored(len(of), target, *of) for target, of in targets.items()) + stored(0)


def symbol_entry(symbol: Symbol) -> bytes:
    """A symbol. Its name takes a longword at least, since no longwords would end the list."""
    size = max(1, (len(symbol.name) + 3) // 4)
    return stored(size) + symbol.name.ljust(4 * size, b"\0") + stored(symbol.value)


def stored(*numbers: int) -> bytes:
    """Longwords as a file has them."""
    told = longwords(numbers, "a number of a load file")
    if sys.byteorder == "little":
        told.byteswap()
    return told.tobytes()
