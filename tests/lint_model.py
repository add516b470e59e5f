"""What `check --lint` tells of files, by a reader of its own: it follows docs/FORMAT.md and docs/OUTPUT.md, one longword after another, and
knows nothing of how the program reads."""
import struct
from types import SimpleNamespace

from load_files import FAR
from model import ABS, BSS, CODE, DATA, DEBUG, DEF, END, EXT, HEADER, NAME, REF32, RELOC32, RELOC32SHORT, SYMBOL, UNIT, quoted, words

LOW = 1 << 30
CONTENT = (CODE, DATA, BSS)


class Notes:
    """The longwords of a file, as they are read, and what is told at their places."""

    def __init__(self, bytes_):
        self.numbers, self.at, self.told = struct.unpack(f">{len(bytes_) // 4}I", bytes_), 0, []

    def more(self):
        return self.at < len(self.numbers)

    def tell(self, text, place=None):
        """Tells it of the last longword, or of the one at this place."""
        self.told.append((self.at - 1 if place is None else place, text))

    def next(self):
        self.at += 1
        return self.numbers[self.at - 1]

    def several(self, count):
        return [self.next() for _ in range(count)]

    def type(self, memory=False):
        """The type of a block. Where its bits may be memory, they are so for content."""
        number = self.next()
        if number >= LOW and not (memory and number % LOW in CONTENT):
            self.tell("the upper bits of the type are ignored")
        return number % LOW

    def name(self, length):
        stored, told = b"", False
        for _ in range(length):
            stored += words(self.next())
            front, _, rest = stored.partition(b"\0")
            if rest.strip(b"\0") and not told:
                self.tell("bytes after a zero byte of the name are ignored")
                told = True
        return stored.partition(b"\0")[0]


def groups(notes, next_number):
    """The sites of a block of relocations."""
    sites, seen, first = {}, set(), True
    while count := next_number():
        first = False
        target = next_number()
        if target in seen:
            notes.tell(f"a second group of relocations for hunk {target}")
        seen.add(target)
        sites.update((next_number(), target) for _ in range(count))
    if first:
        notes.tell("a relocation block without offsets")
    return sites


def short_numbers(notes):
    """A reader of 16-bit numbers, the upper one of a longword before the lower one."""
    waiting = []

    def next_number():
        if not waiting:
            number = notes.next()
            waiting.extend((number % FAR, number >> 16))
        return waiting.pop()

    return next_number


def names(notes, hunk):
    """An EXT block."""
    while entry := notes.next():
        kind, name = entry >> 24, notes.name(entry % (1 << 24))
        if kind in (DEF, ABS):
            notes.next()
        else:
            assert kind == REF32, kind
            count = notes.next()
            if count == 0:
                notes.tell("a reference without offsets is ignored")
            hunk.sites.update((offset, name) for offset in notes.several(count))


def blocks(notes, hunk):
    """What follows the content, up to its end."""
    while (block := notes.type()) != END:
        if block == RELOC32:
            hunk.sites.update(groups(notes, notes.next))
        elif block == RELOC32SHORT:
            hunk.sites.update(groups(notes, short_numbers(notes)))
        elif block == EXT:
            names(notes, hunk)
        elif block == SYMBOL:
            while length := notes.next():
                name = notes.name(length)
                hunk.symbols.append((name, notes.next()))
        else:
            assert block == DEBUG, block
            notes.several(notes.next())


def body(notes, type_, header_size=None):
    """A hunk whose content has this type; in a load file with its size in the header."""
    number = notes.next()
    size = number % LOW
    if number >= LOW:
        notes.tell("the upper bits of the size are ignored")
    if type_ == BSS and header_size not in (None, size):
        notes.tell("the size of the BSS block is not the one in the header, which counts")
    content = b"" if type_ == BSS else words(*notes.several(size))
    hunk = SimpleNamespace(size=size if header_size is None else header_size, content=content, sites={}, symbols=[])
    blocks(notes, hunk)
    return hunk


def load_hunks(notes):
    notes.type()
    notes.next()
    count = notes.next()
    notes.several(2)
    hunks = []
    for size in [number % LOW for number in notes.several(count)]:
        type_ = notes.type()
        if type_ == NAME:
            notes.tell("the name of a hunk of a load file is ignored")
            notes.name(notes.next())
            type_ = notes.type()
        hunks.append(body(notes, type_, size))
    return hunks


def units_of(notes):
    units = []
    while notes.more():
        type_ = notes.type(memory=True)
        if type_ == UNIT:
            notes.name(notes.next())
            units.append([])
            continue
        if type_ == NAME:
            notes.name(notes.next())
            type_ = notes.type(memory=True)
        units[-1].append(body(notes, type_))
    return units


# ---- what is told of hunks


def pointed(content, offset):
    """The longword at an offset, where zeros follow what is stored."""
    return int.from_bytes((content + bytes(4 + offset))[offset : offset + 4], "big")


def hunk_lines(front, hunk, hunks):
    lines = []
    for offset, target in sorted(hunk.sites.items()):
        site = f"{front}: site {offset:08x}"
        if offset % 2:
            lines.append(f"{site} is at an odd offset")
        if isinstance(target, bytes):
            continue
        if target >= len(hunks):
            lines.append(f"{site} adds hunk {target}, and the unit has {len(hunks)} hunks")
        elif (to := pointed(hunk.content, offset)) > 4 * hunks[target].size:
            lines.append(f"{site} points to {to:08x} of hunk {target}, which has {4 * hunks[target].size} bytes")
    for name, value in hunk.symbols:
        if value > 4 * hunk.size:
            lines.append(f"{front}: symbol {quoted(name)} {value:08x} is past the hunk, which has {4 * hunk.size} bytes")
    return lines


def lint_of(bytes_):
    """What is printed of a file without a fault."""
    notes = Notes(bytes_)
    if notes.numbers[0] % LOW == HEADER:
        hunks = load_hunks(notes)
        first = f"load file: {len(hunks)} hunks"
        lines = [line for number, hunk in enumerate(hunks) for line in hunk_lines(f"hunk {number}", hunk, hunks)]
    else:
        units = units_of(notes)
        first, lines = f"object file: {len(units)} units, {sum(map(len, units))} hunks", []
        for place, unit in enumerate(units):
            lines += [] if unit else [f"unit {place}: no hunks"]
            lines += [line for number, hunk in enumerate(unit) for line in hunk_lines(f"unit {place} hunk {number}", hunk, unit)]
    assert not notes.more()
    told = [f"longword {place}: {text}" for place, text in notes.told]
    return "".join(f"{line}\n" for line in (first, *told, *lines))
