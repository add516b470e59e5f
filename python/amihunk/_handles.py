"""How the library is called: with a handle that is opened, used and closed within one call of this module.

A handle stays on the thread that opened it, and Python may release an object on any thread. So no object of this module keeps a
handle: what it would tell is copied, and it is closed before the call ends, however it ends.
"""
from __future__ import annotations

import ctypes
import operator
import os
from array import array
from contextlib import closing
from typing import Any, Callable, Generator, Iterable, List, Protocol, Tuple, Type, Union

from . import _library as c
from ._errors import Status, refusal
from ._values import UndefinedName

PIECE = 1 << 16
OK = Status.OK.value
MEMORY = c.C.amihunk_from_malloc()


class Readable(Protocol):
    """A binary file object, as `open(path, "rb")` returns it."""

    def read(self, size: int, /) -> Any:
        """The next bytes, at least one and best no more than `size`; none at the end of the file."""


BytesLike = Union[bytes, bytearray, memoryview]
File = Union[BytesLike, Readable]
# What a file is called.
Name = Union[str, bytes, os.PathLike[str]]


def pieces(file: File) -> Generator[bytes, None, None]:
    """The bytes of a file. A piece is copied out of memory that may change while the library reads it."""
    try:
        view = memoryview(file)  # type: ignore[arg-type]
    except TypeError:
        yield from read_pieces(file)
        return
    with view:
        plain = view if view.format == "B" and view.ndim == 1 else memoryview(view.tobytes())
        for start in range(0, len(plain), PIECE):
            yield plain[start : start + PIECE].tobytes()


def read_pieces(file: Any) -> Generator[bytes, None, None]:
    """The bytes of a file object, as it hands them over."""
    read = getattr(file, "read", None)
    if not callable(read):
        raise TypeError(f"a file is an object like bytes or a binary file object, and not {type(file).__name__}")
    while piece := plain_bytes(read(PIECE)):
        yield piece


def plain_bytes(piece: Any) -> bytes:
    """What a read returned, as bytes whose length is what it says: a class that is made of `bytes` may say another one."""
    if type(piece) is bytes:
        return piece
    try:
        return memoryview(piece).tobytes()
    except TypeError:
        raise TypeError(f"the read of a binary file returns bytes, and not {type(piece).__name__}") from None


def longword(number: Any, what: str) -> int:
    """A number that fits in a longword."""
    try:
        value = operator.index(number)
    except TypeError:
        raise TypeError(f"{what} is an int, and not {type(number).__name__}") from None
    if not 0 <= value < 1 << 32:
        raise ValueError(f"{what} is 0 to 2^32 - 1, and not {value}")
    return value


def longwords(numbers: Iterable[Any], what: str) -> array[int]:
    """Longwords as the library takes them, at `buffer_info()[0]`."""
    return array("I", [longword(number, what) for number in numbers])


def bytes_of(told: c.Bytes) -> bytes:
    """A copy of bytes that the library tells."""
    return ctypes.string_at(told.bytes, told.size)


def written(write: Callable[[Any, int], int]) -> bytes:
    """What a call of the library writes that returns how long it is, as snprintf does."""
    size = write(None, 0)
    into = ctypes.create_string_buffer(size + 1)
    write(into, size + 1)
    return into.value


def name_bytes(name: Name) -> bytes:
    """What a file is called, as the library takes it."""
    told = os.fsencode(name)
    if b"\0" in told:
        raise ValueError("the name of a file has no zero byte")
    return told


class Handle:
    """A handle, which is closed at the end of its `with`. `kind` is what the names of its calls have after `amihunk_`, and `names`
    is what the files are called that it is fed."""

    def __init__(self, kind: str, structure: Type[ctypes.Structure], names: Iterable[Name]) -> None:
        self.kind, self.handle, self.answer = kind, structure(), c.Answer()
        self.names = [name_bytes(name) for name in names]

    def __enter__(self) -> Handle:
        return self

    def __exit__(self, *_: object) -> None:
        self.call("close")

    def call(self, verb: str, *values: Any) -> Any:
        """What the call with this name returns of the handle and these values."""
        return getattr(c.C, f"amihunk_{self.kind}_{verb}")(self.handle, *values)

    def check(self, status: int) -> None:
        """Raises what stands for a status that is not OK."""
        if status != OK:
            raise refusal(status, self.answer, self.line(), self.linked_name(), self.undefined())

    def line(self) -> str:
        """Why the handle is refused, without a newline; empty if it is not."""
        number = self.answer.input
        name = self.names[number] if number < len(self.names) else b""
        return os.fsdecode(written(lambda into, size: self.call("line", name, into, size))).removesuffix("\n")

    def linked_name(self) -> bytes:
        """The name that the refusal of a linker is about; of other handles, and of other refusals, an empty one."""
        return written(lambda into, size: self.call("name", into, size)) if self.kind == "linker" else b""

    def undefined(self) -> Tuple[UndefinedName, ...]:
        """All names that a linker lacks, if that is why it is refused, and it was opened to keep them; else none."""
        names: List[UndefinedName] = []
        told = c.Undefined()
        while self.kind == "linker" and self.call("get_undefined", len(names), told) == OK:
            names.append(UndefinedName(bytes_of(told.name), told.input, told.unit, told.hunk, told.references))
        return tuple(names)

    def feed(self, supply: Iterable[bytes]) -> None:
        """Feeds pieces, up to the first that is refused."""
        for piece in supply:
            self.check(self.call("feed", piece, len(piece), self.answer))

    def feed_file(self, file: File) -> None:
        """Feeds all of a file. Its memory may be resized again afterwards, also if this raises."""
        with closing(pieces(file)) as supply:
            self.feed(supply)

    def finish(self) -> None:
        """Ends what is fed."""
        self.check(self.call("finish", self.answer))
