#!/usr/bin/env python3
"""Writes a hunk file of one CODE hunk: hunk_file.py OUT [--kind object] [--longwords N] ..

The content is LONGWORDS longwords that repeat in no short pattern. SITES sites stand evenly in it, in
this ORDER: `rising`, `falling`, `random`, or `targets`, where three groups rise one after the other and
each has every third site. After them come SYMBOLS symbols, each with a name of eight bytes, and debug
blocks of DEBUG bytes in all, at most 100 MB each, as holes of the file where the file system has them.
OUT.content holds the content alone.
"""
import argparse
import random

from blocks import UNIT, CODE, RELOC32, SYMBOL, DEBUG, END, HEADER, longwords

MOST_DEBUG = 25_000_000


def arguments():
    parser = argparse.ArgumentParser()
    parser.add_argument("out")
    parser.add_argument("--kind", choices=["load", "object"], default="load")
    parser.add_argument("--longwords", type=int, default=1)
    parser.add_argument("--sites", type=int, default=0)
    parser.add_argument("--order", choices=["rising", "falling", "random", "targets"], default="rising")
    parser.add_argument("--symbols", type=int, default=0)
    parser.add_argument("--debug", type=int, default=0)
    return parser.parse_args()


def groups(offsets, order):
    if order == "targets":
        return [offsets[first::3] for first in range(3)]
    if order == "falling":
        return [offsets[::-1]]
    if order == "random":
        return [random.Random(1).sample(offsets, len(offsets))]
    return [offsets]


def start(kind, count):
    if kind == "object":
        return [UNIT, 0, CODE, count]
    return [HEADER, 0, 1, 0, 0, count, CODE, count]


def write_sites(file, count, sites, order):
    step = 4 * (count // sites)
    file.write(longwords([RELOC32]))
    for group in groups(range(0, step * sites, step), order):
        file.write(longwords([len(group), 0]))
        file.write(longwords(group))
    file.write(longwords([0]))


def write_symbols(file, symbols):
    file.write(longwords([SYMBOL]))
    for number in range(symbols):
        file.write(longwords([2]) + b"s%07x" % number + longwords([4 * number]))
    file.write(longwords([0]))


def write_debug(file, debug):
    left = debug // 4
    while left > 0:
        block = min(left, MOST_DEBUG)
        file.write(longwords([DEBUG, block]))
        file.seek(4 * block, 1)
        left -= block


def main():
    given = arguments()
    content = random.Random(given.longwords).randbytes(4 * given.longwords)
    with open(given.out + ".content", "wb") as file:
        file.write(content)
    with open(given.out, "wb") as file:
        file.write(longwords(start(given.kind, given.longwords)))
        file.write(content)
        if given.sites > 0:
            write_sites(file, given.longwords, given.sites, given.order)
        if given.symbols > 0:
            write_symbols(file, given.symbols)
        write_debug(file, given.debug)
        file.write(longwords([END]))


main()
