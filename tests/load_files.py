"""A plain model of load files: their hunks as Python values, the bytes that spell them, and where two of them first differ.

It follows docs/FORMAT.md, and knows nothing of how the program reads, writes and compares: it looks at one byte after another.
"""
import itertools
import struct
from typing import Any, NamedTuple, Optional

from model import BSS, DEBUG, END, HEADER, KINDS, MEMORIES, MODULUS, NAME, RELOC32, RELOC32SHORT, SYMBOL, quoted, text, words

# What a list of 16-bit numbers can hold.
FAR = 1 << 16


class LoadHunk:
    """A hunk of a load file: its size in longwords, the bytes that the file has of it, and for each offset with a site the number of
    the hunk whose base is added there."""

    def __init__(self, kind, size, content=b"", memory="any", sites=(), symbols=(), debugs=()):
        self.kind, self.size, self.content, self.memory = kind, size, content, memory
        self.sites, self.symbols, self.debugs = dict(sites), list(symbols), [list(it) for it in debugs]

    def copy(self):
        return LoadHunk(self.kind, self.size, self.content, self.memory, self.sites, self.symbols, self.debugs)

    def bytes(self):
        """What is in memory before any base is added."""
        return self.content + bytes(4 * self.size - len(self.content))


# ---- reading


class Reader:
    """The longwords of a load file, one after another."""

    def __init__(self, bytes_):
        self.numbers, self.at = struct.unpack(f">{len(bytes_) // 4}I", bytes_), 0

    def next(self):
        self.at += 1
        return self.numbers[self.at - 1]

    def several(self, count):
        return [self.next() for _ in range(count)]

    def name(self, length):
        return words(*self.several(length)).partition(b"\0")[0]

    def halves(self):
        """The 16-bit words from here on, up to the end of the longword in which the taker stops."""
        while True:
            number = self.next()
            yield number >> 16
            yield number % FAR


def read_sites(numbers):
    """The sites of the groups that these numbers begin with."""
    sites = []
    while count := next(numbers):
        target = next(numbers)
        sites += [(next(numbers), target) for _ in range(count)]
    return sites


def read_hunk(reader, size, memory):
    type_ = reader.next() % (1 << 30)
    if type_ == NAME:
        reader.several(reader.next())
        type_ = reader.next() % (1 << 30)
    longwords = reader.next() % (1 << 30)
    hunk = LoadHunk(type_, size, b"" if type_ == BSS else words(*reader.several(longwords)), memory)
    while (block := reader.next() % (1 << 30)) != END:
        if block == RELOC32:
            hunk.sites.update(read_sites(iter(reader.next, None)))
        elif block == RELOC32SHORT:
            hunk.sites.update(read_sites(reader.halves()))
        elif block == SYMBOL:
            while length := reader.next():
                name = reader.name(length)
                hunk.symbols.append((name, reader.next()))
        else:
            assert block == DEBUG, block
            hunk.debugs.append(reader.several(reader.next()))
    return hunk


def read(bytes_):
    """The hunks of a load file that has no fault."""
    reader = Reader(bytes_)
    reader.several(2)
    count = reader.next()
    reader.several(2)
    sizes = reader.several(count)
    hunks = [read_hunk(reader, size % (1 << 30), MEMORIES[size >> 30]) for size in sizes]
    assert 4 * reader.at == len(bytes_), "data after the last hunk"
    return hunks


# ---- the written form


def by_target(sites):
    """The sites as they are written: for each target, in rising order, the count, the target and the offsets in rising order."""
    numbers = []
    for target in sorted(set(sites.values())):
        offsets = sorted(offset for offset, it in sites.items() if it == target)
        numbers += [len(offsets), target, *offsets]
    return numbers


def halves(numbers):
    """These 16-bit numbers, and a pad of 0 if one is needed."""
    return struct.pack(f">{len(numbers)}H", *numbers) + bytes(len(numbers) % 2 * 2)


def symbol(name, value):
    """An entry of a list of symbols. An empty name is one longword, since a length of 0 would end the list."""
    stored = text(name) or bytes(4)
    return words(len(stored) // 4) + stored + words(value)


def written_hunk(hunk, short):
    parts = [words(hunk.kind, hunk.size)] if hunk.kind == BSS else [words(hunk.kind, len(hunk.content) // 4), hunk.content]
    near = {offset: target for offset, target in hunk.sites.items() if short and offset < FAR}
    far = {offset: target for offset, target in hunk.sites.items() if offset not in near}
    if near:
        parts += [words(RELOC32SHORT), halves(by_target(near) + [0])]
    if far:
        parts.append(words(RELOC32, *by_target(far), 0))
    if hunk.symbols:
        parts += [words(SYMBOL), *(symbol(*it) for it in hunk.symbols), words(0)]
    parts += [words(DEBUG, len(debug), *debug) for debug in hunk.debugs]
    return b"".join(parts) + words(END)


def header(hunks):
    sizes = [MEMORIES.index(hunk.memory) << 30 | hunk.size for hunk in hunks]
    return words(HEADER, 0, len(hunks), 0, len(hunks) - 1, *sizes)


def written(hunks, short=False):
    """The load file in written form."""
    return header(hunks) + b"".join(written_hunk(hunk, short) for hunk in hunks)


def cut(hunk, with_sites):
    """The hunk with the shortest content of whole longwords after which all bytes are 0; with sites, also such that no byte of the
    content after it lies in one."""
    kept = [at for at, byte in enumerate(hunk.content) if byte]
    if with_sites:
        kept += [at for offset in hunk.sites for at in range(offset, offset + 4) if at < len(hunk.content)]
    new = hunk.copy()
    new.content = hunk.content[: (max(kept, default=-1) + 4) // 4 * 4]
    return new


def stripped(hunk):
    new = hunk.copy()
    new.symbols, new.debugs = [], []
    return new


def copied(hunks, options):
    """What `copy` writes of a load file with these options."""
    if "--normal" in options:
        return written([stripped(cut(hunk, False)) for hunk in hunks])
    if "--trim" in options:
        hunks = [cut(hunk, True) for hunk in hunks]
    if "--strip" in options:
        hunks = [stripped(hunk) for hunk in hunks]
    return written(hunks, "--short" in options)


# ---- what load files mean


def memory_of(hunks, bases):
    """The bytes of each hunk in memory, with the hunks at the bases."""
    memory = []
    for hunk in hunks:
        bytes_ = bytearray(hunk.bytes())
        for offset, target in hunk.sites.items():
            (was,) = struct.unpack_from(">I", bytes_, offset)
            struct.pack_into(">I", bytes_, offset, (was + bases[target]) % MODULUS)
        memory.append(bytes(bytes_))
    return memory


class Difference(NamedTuple):
    """Where two load files first differ, and what the first and the second one have there."""

    kind: str  # as the module for Python and the header for C call it
    hunk: Optional[int]  # its number; None if the numbers of hunks differ
    place: Optional[int]  # the offset of a byte or a site, the index of a symbol or a debug block; else None
    first: Any  # as a LoadHunk has it; None for a site, a symbol or a debug block that is not there
    second: Any


def hunk_difference(number, one, other):
    """Where two hunks of this number first differ, or None."""
    for kind in ("kind", "memory", "size"):
        first, second = getattr(one, kind), getattr(other, kind)
        if first != second:
            return Difference(kind, number, None, first, second)
    for offset, (byte, another) in enumerate(zip(one.bytes(), other.bytes())):
        if byte != another:
            return Difference("byte", number, offset, byte, another)
        first, second = one.sites.get(offset), other.sites.get(offset)
        if first != second:
            return Difference("site", number, offset, first, second)
    return None


def info_difference(number, one, other):
    """Where two hunks of this number first differ in what only debuggers read, or None."""
    for kind, firsts, seconds in (("symbol", one.symbols, other.symbols), ("debug", one.debugs, other.debugs)):
        for index, (first, second) in enumerate(itertools.zip_longest(firsts, seconds)):
            if first != second:
                return Difference(kind, number, index, first, second)
    return None


def difference(first, second, symbols=False):
    """Where two load files first differ, or None."""
    if len(first) != len(second):
        return Difference("hunk_count", None, None, len(first), len(second))
    for differs in (hunk_difference, info_difference) if symbols else (hunk_difference,):
        for number, hunks in enumerate(zip(first, second)):
            if found := differs(number, *hunks):
                return found
    return None


def symbols_told(first, second):
    """Two symbols, of which one may be missing: their names, or their values if the name is the same."""
    if first and second and first[0] != second[0]:
        return f"{quoted(first[0])} and {quoted(second[0])}"
    name, _ = first or second
    values = [f"{it[1]:08x}" if it else "none" for it in (first, second)]
    return f"{quoted(name)} {' and '.join(values)}"


# How a difference is told whose line ends with both values: where it is, and each of them.
TOLD = {
    "hunk_count": ("hunks", str),
    "kind": ("hunk {hunk} kind", KINDS.get),
    "memory": ("hunk {hunk} memory", str),
    "size": ("hunk {hunk} size", lambda longwords: str(4 * longwords)),
    "byte": ("hunk {hunk} offset {place:08x}", "{:02x}".format),
    "site": ("hunk {hunk} site {place:08x}", lambda target: "none" if target is None else f"hunk {target}"),
}


def line_of(told):
    """What `compare` prints of a difference, or of none."""
    if told is None:
        return ""
    if told.kind == "symbol":
        return f"hunk {told.hunk} symbol {told.place}: {symbols_told(told.first, told.second)}\n"
    if told.kind == "debug":
        return f"hunk {told.hunk} debug {told.place}\n"
    place, value = TOLD[told.kind]
    return f"{place.format(**told._asdict())}: {value(told.first)} and {value(told.second)}\n"
