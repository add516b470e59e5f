"""What the calls take, return and raise beside bytes and numbers: plain values, which need no library."""
from __future__ import annotations

import enum
from dataclasses import dataclass
from typing import List, Optional, Tuple, Union


class HunkKind(enum.Enum):
    """What a hunk holds."""

    CODE = 0
    DATA = 1
    BSS = 2  # zeros, of which the file has none


class MemoryKind(enum.Enum):
    """Which memory a hunk asks for."""

    ANY = 0
    CHIP = 1  # memory that the custom chips can reach
    FAST = 2  # memory that only the processor can reach


@dataclass(frozen=True)
class HeaderHunk:
    """What the header of a load file tells of a hunk: its size in longwords, and the memory that it asks for."""

    size: int
    memory: MemoryKind


@dataclass(frozen=True)
class Place:
    """Where `load_into` puts a hunk: the address of its first byte, and a buffer of at least 4 bytes for each longword of its size.
    For a hunk of no longwords the buffer is not looked at, and may be None."""

    base: int
    memory: Union[bytearray, memoryview, None]


@dataclass(frozen=True)
class LoadedHunk:
    """A hunk in memory: the address of its first byte, and its bytes: its content and zeros after it, with the address of a hunk
    added at each relocation."""

    base: int
    content: bytes


@dataclass(frozen=True)
class Image:
    """The memory of a load file: its hunks, in the order of the file."""

    hunks: List[LoadedHunk]

    def find(self, address: int) -> Optional[Tuple[int, int]]:
        """The number of the hunk that has a byte at this address, and the offset of that byte in the hunk. None if no hunk has one.
        The time grows with the number of hunks."""
        for number, hunk in enumerate(self.hunks):
            if 0 <= address - hunk.base < len(hunk.content):
                return number, address - hunk.base
        return None

    def byte(self, address: int) -> Optional[int]:
        """The byte at this address, 0 to 255. None if no hunk has one there."""
        found = self.find(address)
        return None if found is None else self.hunks[found[0]].content[found[1]]


@dataclass(frozen=True)
class HunkBase:
    """Adds the address of the hunk with this number, in the unit or in the load file of the site."""

    number: int


@dataclass(frozen=True)
class Reference:
    """Adds what a name stands for: that of the reference with this index in the hunk of the site."""

    index: int
    name: bytes


@dataclass(frozen=True)
class Site:
    """A longword to which something is added when its hunk is linked or loaded, and the offset of its first byte in the hunk."""

    offset: int
    target: Union[HunkBase, Reference]


@dataclass(frozen=True)
class Symbol:
    """A symbol for a debugger. Its value is most often an offset in the hunk, in bytes, and may be any number from 0 to 2^32 - 1."""

    name: bytes
    value: int


@dataclass(frozen=True)
class Definition:
    """A name that a hunk defines: as a number if it is absolute, and else as an offset in the hunk, in bytes."""

    name: bytes
    value: int
    absolute: bool


@dataclass(frozen=True)
class Hunk:
    """A hunk as it is in a file. Its sites are by rising offset, and all else is in the order of the file.

    A hunk of a load file has no name, no definitions and no references: they are empty.
    """

    name: bytes
    kind: HunkKind
    memory: MemoryKind
    size: int  # in longwords, in memory
    content: bytes  # what the file has of it; zeros follow it in memory
    sites: Tuple[Site, ...]
    symbols: Tuple[Symbol, ...]
    definitions: Tuple[Definition, ...]
    references: Tuple[bytes, ...]  # the names that it refers to, each as often as the file says so
    debugs: Tuple[bytes, ...]  # the bytes of each debug block


@dataclass(frozen=True)
class Unit:
    """A program unit of an object file."""

    name: bytes
    hunks: Tuple[Hunk, ...]


@dataclass(frozen=True)
class ObjectFile:
    """What is in an object file."""

    units: Tuple[Unit, ...]


@dataclass(frozen=True)
class LoadFile:
    """What is in a load file."""

    hunks: Tuple[Hunk, ...]


@dataclass(frozen=True)
class UndefinedName:
    """A name that hunks refer to and no hunk of the object files defines: where the first reference to it is, and how many there
    are in all files."""

    name: bytes
    input: int  # the number of the file among those that are linked
    unit: int  # the number of the unit in that file
    hunk: int  # the number of the hunk in that unit
    references: int


class DifferenceKind(enum.Enum):
    """What differs between two load files."""

    HUNK_COUNT = 1  # the numbers of hunks
    KIND = 2  # what a hunk holds
    MEMORY = 3  # which memory a hunk asks for
    SIZE = 4  # the size of a hunk in memory
    BYTE = 5  # a byte of a hunk; after its content there are zeros
    SITE = 6  # a site of a hunk
    SYMBOL = 7  # a symbol of a hunk: its name, its value, or whether there is one
    DEBUG = 8  # a debug block of a hunk: its bytes, or whether there is one


@dataclass(frozen=True)
class Difference:
    """Where two load files first differ, and what the first and the second one have there: how many hunks, a `HunkKind`, a
    `MemoryKind`, a size in longwords, a byte from 0 to 255, or the number of the hunk whose base is added at a site, which is None
    where there is no site. Of a symbol and a debug block both are None."""

    kind: DifferenceKind
    hunk: Optional[int]  # its number; None if the numbers of hunks differ
    offset: Optional[int]  # of a byte and a site, in bytes; of a symbol and a debug block its index; else None
    first: Union[int, HunkKind, MemoryKind, None]
    second: Union[int, HunkKind, MemoryKind, None]
