#!/usr/bin/env python3
"""Writes a tree of small files, as an archive of programs has them: archive.py FOLDER COUNT LIST

By turns they are object files and load files, of one or two hunks of up to 200 longwords with some relocations. There are a thousand in
each folder, FOLDER/000/00000 and so on. LIST gets their names, each ended by a zero byte. The same arguments make the same files.
"""
import pathlib
import random
import sys

from blocks import UNIT, CODE, DATA, RELOC32, END, HEADER, longwords


def hunk(dice, kind, size, hunks):
    offsets = range(0, 4 * size - 3, 4 * dice.randrange(4, 20))
    sites = longwords([RELOC32, len(offsets), dice.randrange(hunks), *offsets, 0]) if offsets else b""
    return longwords([kind, size]) + dice.randbytes(4 * size) + sites + longwords([END])


def file(dice, is_object):
    sizes = [dice.randrange(200) for _ in range(dice.randrange(1, 3))]
    head = [UNIT, 0] if is_object else [HEADER, 0, len(sizes), 0, len(sizes) - 1, *sizes]
    return longwords(head) + b"".join(hunk(dice, kind, size, len(sizes)) for kind, size in zip((CODE, DATA), sizes))


def main():
    folder, count, names = pathlib.Path(sys.argv[1]), int(sys.argv[2]), []
    dice = random.Random(11)
    for number in range(count):
        path = folder / f"{number // 1000:03}" / f"{number:05}"
        path.parent.mkdir(parents=True, exist_ok=True)
        path.write_bytes(file(dice, number % 2 == 0))
        names.append(bytes(path) + b"\0")
    pathlib.Path(sys.argv[3]).write_bytes(b"".join(names))


main()
