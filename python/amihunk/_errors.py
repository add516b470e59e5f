"""What is raised, and how it is made of the answers of the library."""
from __future__ import annotations

import enum
from typing import Tuple

from ._library import Answer
from ._values import UndefinedName


class Status(enum.Enum):
    """What a call of the library returns. A `BadPlaces` has one of the three from WRONG_COUNT on, and a `BadLink` one of the six
    from NO_HUNKS on; an exception of another kind says the rest."""

    OK = 0
    BAD_FILE = 1
    WRONG_COUNT = 2
    PAST_END = 3
    OVERLAP = 4
    NO_HUNKS = 5
    TOO_MANY_HUNKS = 6
    TOO_LARGE = 7
    NO_SUCH_HUNK = 8
    DUPLICATE_NAME = 9
    UNDEFINED_NAME = 10
    OUT_OF_MEMORY = 11
    WRONG_STATE = 12
    OUT_OF_RANGE = 13
    NEEDS_BASES = 14


class Reason(enum.Enum):
    """Why a file is refused. The words after a colon say what the `number` of a `BadFile` is; without them it is 0."""

    NONE = 0  # no file is refused
    PARTIAL_LONGWORD = 1  # the file ends after one to three bytes of a longword
    UNEXPECTED_END = 2  # the file ends too early, at a whole longword
    WRONG_START = 3  # no file of this kind begins with this longword
    UNKNOWN_TYPE = 4  # a block of an unknown type: the type
    MISPLACED_TYPE = 5  # a block that is not allowed here: its type
    UNSUPPORTED_BLOCK = 6  # a block of a type that is left out, such as an overlay: the type
    UNSUPPORTED_EXT = 7  # an external symbol of a type that is left out, such as a common symbol: the type
    BOTH_MEMORY_BITS = 8  # a hunk asks for both chip memory and fast memory
    RESIDENT_NAMES = 9  # the header names resident libraries
    HUNK_TABLE = 10  # the header has no hunks, or not those from 0 to the last one
    TOO_LARGE = 11  # the sizes in the header add up to more than 2^24 longwords, or the file has over 2^28
    CONTENT_TOO_LONG = 12  # the content of a hunk is longer than its size in the header
    NO_SUCH_HUNK = 13  # a relocation adds the base of a hunk that the load file does not have: the hunk
    SITE_OUTSIDE = 14  # a relocation or a reference is not inside its hunk: its offset, in bytes
    SITE_OVERLAP = 15  # a relocation or a reference shares a byte with an earlier one: its offset, in bytes
    SYMBOL_KIND = 16  # a symbol of a kind other than 0: the kind
    TRAILING_DATA = 17  # something follows the last hunk


class AmihunkError(Exception):
    """What is wrong with what a call was given. `line` is what the program `amihunk` prints of it, without its newline."""

    line: str

    def __str__(self) -> str:
        return self.line


class BadFile(AmihunkError):
    """The bytes are not a file of their kind. The first offence is at the longword `place`, for this `reason`, which is about
    this `number`. After a file that ends too early, the place is that of the next longword. `input` is the number of the file
    among those that `link` was given, and else 0."""

    def __init__(self, place: int, reason: Reason, number: int, input: int, line: str) -> None:
        super().__init__(place, reason, number, input, line)
        self.place, self.reason, self.number, self.input, self.line = place, reason, number, input, line


class BadPlaces(AmihunkError):
    """The hunks cannot stand at the addresses, for the first of these reasons, which is the `status`:

    WRONG_COUNT: there is not one address for each hunk.
    PAST_END: the hunk number `hunk` ends after the last address.
    OVERLAP: the hunks number `hunk` and `other`, the later one, share an address.

    A number that the status does not need is 0.
    """

    def __init__(self, status: Status, hunk: int, other: int, line: str) -> None:
        super().__init__(status, hunk, other, line)
        self.status, self.hunk, self.other, self.line = status, hunk, other, line


class BadLink(AmihunkError):
    """The units do not link, for the first of these reasons, which is the `status`:

    NO_HUNKS, TOO_MANY_HUNKS, TOO_LARGE: there is nothing to link, or more than a load file may have.
    NO_SUCH_HUNK: a relocation adds the base of the hunk number `other`, which its unit does not have.
    DUPLICATE_NAME: a name is defined that was defined before.
    UNDEFINED_NAME: a name is referred to that no hunk defines.

    The last three are about the hunk number `hunk` of the unit number `unit`, counted over all files, which is in the file number
    `input`; and the last two about the `name`. What the status does not need is 0, or empty.

    With UNDEFINED_NAME, `undefined` has all such names, in the order of the first references to them, so that the first is the
    `name`. It is empty if `link` was not asked to explain.
    """

    def __init__(
        self,
        status: Status,
        unit: int,
        input: int,
        hunk: int,
        other: int,
        name: bytes,
        undefined: Tuple[UndefinedName, ...],
        line: str,
    ) -> None:
        super().__init__(status, unit, input, hunk, other, name, undefined, line)
        self.status, self.unit, self.input, self.hunk, self.other = status, unit, input, hunk, other
        self.name, self.undefined, self.line = name, undefined, line


class OutOfMemory(AmihunkError, MemoryError):
    """The library found no memory for what it was to do."""

    def __init__(self, line: str) -> None:
        super().__init__(line)
        self.line = line


def places_line(status: Status, answer: Answer) -> str:
    """The line of hunks that cannot be placed. The library has it only of addresses that came before the file."""
    if status is Status.WRONG_COUNT:
        return "amihunk: places: wrong number of addresses"
    if status is Status.PAST_END:
        return f"amihunk: places: hunk {answer.hunk} passes the end of memory"
    return f"amihunk: places: hunks {answer.hunk} and {answer.other} overlap"


def refusal(
    number: int, answer: Answer, line: str = "", name: bytes = b"", undefined: Tuple[UndefinedName, ...] = ()
) -> AmihunkError:
    """What stands for an answer of the library that is not OK, with its line, if the library has one, and its names."""
    status = Status(number)
    if status is Status.BAD_FILE:
        return BadFile(answer.place, Reason(answer.reason), answer.number, answer.input, line)
    if status in (Status.WRONG_COUNT, Status.PAST_END, Status.OVERLAP):
        return BadPlaces(status, answer.hunk, answer.other, line or places_line(status, answer))
    if status is Status.OUT_OF_MEMORY:
        # A handle that could not be opened has no line.
        return OutOfMemory(line or "amihunk: out of memory")
    return BadLink(status, answer.unit, answer.input, answer.hunk, answer.other, name, undefined, line)
