#!/usr/bin/env python3
"""What the plug-in of a disassembler needs of a load file: sections, names, and what is an address.

    disassembler_plug.py FILE BASE..

prints a summary of FILE, with its hunks at the addresses BASE, in hexadecimal. It needs the module amihunk: docs/CALLING.md says
where it is.
"""
import sys
from dataclasses import dataclass
from typing import List, Tuple

import amihunk


@dataclass
class Section:
    """A hunk at its address, with its relocated bytes; its symbols with their addresses, by rising address; and the addresses of its
    relocated longwords, each with the address that it holds."""

    address: int
    content: bytes
    symbols: List[Tuple[int, str]]
    pointers: List[Tuple[int, int]]


def sections(file, bases, name=""):
    """The sections of a load file, which is given by its bytes, with a hunk at each of these addresses."""
    image = amihunk.load(file, bases, name=name)
    # It is a load file, or it would have been refused.
    hunks = amihunk.read_file(file, name=name).hunks
    return [section_of(loaded, hunk) for loaded, hunk in zip(image.hunks, hunks)]


def section_of(loaded, hunk):
    # The value of a symbol may be any number, so that its address may be past the hunk, or past the end of memory.
    symbols = sorted(((loaded.base + it.value) % 2**32, it.name.decode("latin-1")) for it in hunk.symbols)
    pointers = []
    for site in hunk.sites:
        held = loaded.content[site.offset : site.offset + 4]
        pointers.append((loaded.base + site.offset, int.from_bytes(held, "big")))
    return Section(loaded.base, loaded.content, symbols, pointers)


def main(path, *bases):
    with open(path, "rb") as file:
        content = file.read()
    try:
        found = sections(content, [int(base, 16) for base in bases], path)
    except amihunk.AmihunkError as error:
        print(error.line, file=sys.stderr)
        return 1
    for number, section in enumerate(found):
        print(f"hunk {number} at {section.address:08x}: {len(section.content)} bytes")
        for address, name in section.symbols:
            print(f"  {address:08x} {name}")
        for address, held in section.pointers:
            print(f"  {address:08x} -> {held:08x}")
    return 0


if __name__ == "__main__":
    if len(sys.argv) < 3:
        sys.exit("usage: disassembler_plug.py FILE BASE..")
    sys.exit(main(*sys.argv[1:]))
