#!/usr/bin/env python3
"""Writes a load file of one hunk that is relocated at every longword: site_orders.py OUT WAY SLOTS [--sites N]

The hunk has no content, and N sites of four bytes, one after the other. The offsets of the 1,024 sites in each 4,096 bytes
stand in the order SLOTS. They stand page by page, from the first page on (WAY `pages`), or slot by slot, each of all pages
(WAY `slots`). WAY `all` has all offsets in the order SLOTS. `--list` prints the pairs of WAY and SLOTS.
"""
import argparse

from blocks import CODE, RELOC32, END, HEADER, longwords

PAGE = 1024


def rising(count):
    return range(count)


def falling(count):
    return range(count - 1, -1, -1)


def from_both_ends(count):
    """0, 999, 1, 998, .."""
    return [number // 2 if number % 2 == 0 else count - 1 - number // 2 for number in range(count)]


def from_the_middle(count):
    return from_both_ends(count)[::-1]


def bit_reversed(count):
    digits = count.bit_length() - 1
    return [int(format(number, f"0{digits}b")[::-1], 2) for number in range(count)]


def scattered(count):
    """Each number once, in an order that looks like none: COUNT is a power of 2, and the factor is odd."""
    return [number * 0x9E3779B1 % count for number in range(count)]


ORDERS = {order.__name__.replace("_", "-"): order for order in (rising, falling, from_both_ends, from_the_middle, bit_reversed, scattered)}
WAYS = {
    "pages": lambda count, slots: (page + slot for page in range(0, count, PAGE) for slot in slots(PAGE)),
    "slots": lambda count, slots: (page + slot for slot in slots(PAGE) for page in range(0, count, PAGE)),
    "all": lambda count, slots: slots(count),
}


def main():
    parser = argparse.ArgumentParser()
    parser.add_argument("--list", action="store_true")
    parser.add_argument("--sites", type=int, default=1 << 24)
    parser.add_argument("names", nargs="*")
    given = parser.parse_args()
    if given.list:
        print("\n".join(f"{way} {order}" for way in WAYS for order in ORDERS))
        return
    out, way, order = given.names
    count = given.sites
    with open(out, "wb") as file:
        file.write(longwords([HEADER, 0, 1, 0, 0, count, CODE, 0, RELOC32, count, 0]))
        file.write(longwords(4 * site for site in WAYS[way](count, ORDERS[order])))
        file.write(longwords([0, END]))


main()
