"""The types of blocks, and longwords as their bytes."""
import array
import sys

UNIT, NAME, CODE, DATA, BSS = 0x3E7, 0x3E8, 0x3E9, 0x3EA, 0x3EB
RELOC32, EXT, SYMBOL, DEBUG, END, HEADER = 0x3EC, 0x3EF, 0x3F0, 0x3F1, 0x3F2, 0x3F3


def longwords(numbers):
    words = array.array("I", numbers)
    if sys.byteorder == "little":
        words.byteswap()
    return words.tobytes()
