"""Relocatable ELF objects for the m68k, as its compilers write them."""
import dataclasses
import struct

HEADER, SECTION_HEADER, SYMBOL, RELOCATION = ">HHIIIIIHHHHHH", ">10I", ">IIIBBH", ">IIi"
PROGBITS, SYMBOL_TABLE, STRING_TABLE, RELOCATIONS, NOBITS = 1, 2, 3, 4, 8
WRITE, ALLOC, EXECUTE, INFO_LINK = 1, 2, 4, 0x40
GLOBAL, SECTION = 1 << 4, 3
ABSOLUTE_32 = 1
HEADER_SIZE, SECTION_HEADER_SIZE = 52, 40

# What a section holds: its name, its kind and its flags.
CODE = (b".text", PROGBITS, ALLOC | EXECUTE)
DATA = (b".data", PROGBITS, ALLOC | WRITE)
BSS = (b".bss", NOBITS, ALLOC | WRITE)


@dataclasses.dataclass
class Section:
    holds: tuple
    data: bytes
    # For each section number, counted from 0, the offsets at which its address is added.
    relocations: dict
    # Names with offsets, and for each name the offsets at which its address is added.
    definitions: list
    references: dict


class Names:
    """A table of names, each ended by a zero byte."""

    def __init__(self):
        self.bytes = bytearray(1)

    def add(self, name):
        place = len(self.bytes)
        self.bytes += name + b"\0"
        return place


class Symbols:
    """The table of symbols: first those of the sections, then those with names."""

    def __init__(self, sections):
        self.names, self.numbers, self.entries = Names(), {}, [bytes(16)]
        for number, _ in enumerate(sections, 1):
            self.entries.append(struct.pack(SYMBOL, 0, 0, 0, SECTION, 0, number))
        for number, section in enumerate(sections, 1):
            for name, value in section.definitions:
                self.add(name, value, number)

    def add(self, name, value, section):
        self.numbers[name] = len(self.entries)
        self.entries.append(struct.pack(SYMBOL, self.names.add(name.encode()), value, 0, GLOBAL, 0, section))

    def number(self, name):
        """The number of a name, which another object defines if none is known."""
        if name not in self.numbers:
            self.add(name, 0, 0)
        return self.numbers[name]


def relocations_of(section, symbols):
    found = [(offset, 1 + number) for number, offsets in section.relocations.items() for offset in offsets]
    found += [(offset, symbols.number(name)) for name, offsets in section.references.items() for offset in offsets]
    return b"".join(struct.pack(RELOCATION, offset, symbol << 8 | ABSOLUTE_32, 0) for offset, symbol in sorted(found))


def elf_object(sections):
    symbols, names = Symbols(sections), Names()
    relocations = [relocations_of(section, symbols) for section in sections]
    table = 1 + len(sections) + sum(map(bool, relocations))
    headers, parts, end = [bytes(SECTION_HEADER_SIZE)], [], HEADER_SIZE

    def put(name, kind, flags, data, link=0, info=0, entry=0):
        nonlocal end
        headers.append(struct.pack(SECTION_HEADER, names.add(name), kind, flags, 0, end, len(data), link, info, 4, entry))
        if kind != NOBITS:
            parts.append(data + bytes(-len(data) % 4))
            end += len(parts[-1])

    for section in sections:
        put(*section.holds, section.data)
    for number, (section, entries) in enumerate(zip(sections, relocations), 1):
        if entries:
            put(b".rela" + section.holds[0], RELOCATIONS, INFO_LINK, entries, table, number, struct.calcsize(RELOCATION))
    put(b".symtab", SYMBOL_TABLE, 0, b"".join(symbols.entries), table + 1, 1 + len(sections), struct.calcsize(SYMBOL))
    put(b".strtab", STRING_TABLE, 0, bytes(symbols.names.bytes))
    own = names.add(b".shstrtab")
    headers.append(struct.pack(SECTION_HEADER, own, STRING_TABLE, 0, 0, end, len(names.bytes), 0, 0, 1, 0))
    parts.append(bytes(names.bytes) + bytes(-len(names.bytes) % 4))
    end += len(parts[-1])
    first = b"\x7fELF\x01\x02\x01" + bytes(9) + struct.pack(
        HEADER, 1, 4, 1, 0, 0, end, 0, HEADER_SIZE, 0, 0, SECTION_HEADER_SIZE, len(headers), len(headers) - 1
    )
    return first + b"".join(parts) + b"".join(headers)
