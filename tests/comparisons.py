"""What `compare` tells of two load files, against lines written by hand and against load_files.py, and what `load` prints of both."""
import os
import random
import threading

import load_files
import model
from harness import BAD_WORDS, DEVICE, DONE, equals, test
from memory import STEPS, falls, least_pages
from model import BSS, CODE, DATA, DEBUG, END, HEADER, NAME, RELOC32, RELOC32SHORT, SYMBOL, words
from random_load_files import altered, random_bases, random_hunks, spelt
from runs import LITTLE_MEMORY, LOAD_FILE, OBJECT_FILE

# What the status of a comparison means besides those that all commands have. A file that is refused has that of BAD_WORDS.
DIFFERENT = 1
CHIP, FAST = 1 << 30, 2 << 30


def load_file(*hunks):
    """A load file of hunks that are each the longword of the header, and those of the blocks before END."""
    sizes, blocks = [size for size, *_ in hunks], [words(*blocks, END) for _, *blocks in hunks]
    return words(HEADER, 0, len(hunks), 0, len(hunks) - 1, *sizes) + b"".join(blocks)


def symbols(*rows):
    """The longwords of a SYMBOL block, whose names have four letters or fewer."""
    return [SYMBOL, *(it for name, value in rows for it in (1, int.from_bytes(name.encode().ljust(4, b"\0"), "big"), value)), 0]


def tells(program, first, second, line, other_line, *options):
    """It tells the line of both files, and the other line of them in the other order."""
    program.write("a", first)
    program.write("b", second)
    for names, told in (("ab", line), ("ba", other_line)):
        equals(program.run("compare", *options, *names), (DIFFERENT, f"{told}\n", ""), (names, line))
    for name in "ab":
        program.prints("", "compare", *options, name, name)


def turned(line):
    """The line of the other order, of a difference whose last part is `X and Y`."""
    front, _, parts = line.rpartition(": ")
    return f"{front}: {' and '.join(reversed(parts.split(' and ')))}"


EMPTY, ONE, SITE = (0, CODE, 0), (1, CODE, 1, 7), (1, CODE, 1, 0, RELOC32, 1, 0, 0, 0)
# Two files, and the line of them in this order.
ROWS = (
    ("hunks: 3 and 4", [ONE] * 3, [ONE] * 4),
    ("hunks: 1 and 2", [EMPTY], [EMPTY, EMPTY]),
    ("hunk 0 kind: code and data", [ONE], [(1, DATA, 1, 7)]),
    ("hunk 0 kind: code and bss", [(1, CODE, 1, 0)], [(1, BSS, 1)]),
    ("hunk 1 kind: data and bss", [ONE, (0, DATA, 0)], [ONE, (0, BSS, 0)]),
    ("hunk 0 memory: any and chip", [ONE], [(CHIP | 1, CODE, 1, 7)]),
    ("hunk 0 memory: any and fast", [EMPTY], [(FAST, CODE, 0)]),
    ("hunk 1 memory: chip and fast", [ONE, (CHIP | 1, BSS, 1)], [ONE, (FAST | 1, BSS, 1)]),
    ("hunk 0 size: 12 and 16", [(3, CODE, 1, 7)], [(4, CODE, 1, 7)]),
    ("hunk 0 size: 0 and 4", [EMPTY], [(1, CODE, 0)]),
    ("hunk 0 size: 67108864 and 67108860", [(1 << 24, BSS, 0)], [((1 << 24) - 1, BSS, 0)]),
    # Bytes: the first and the last one, and one of several.
    ("hunk 0 offset 00000000: 00 and 80", [(1, CODE, 1, 7)], [(1, CODE, 1, 0x80000007)]),
    ("hunk 0 offset 00000003: 4e and 4f", [(1, CODE, 1, 0x4E)], [(1, CODE, 1, 0x4F)]),
    ("hunk 0 offset 0000000b: ff and 00", [(3, DATA, 3, 1, 2, 255)], [(3, DATA, 3, 1, 2, 0)]),
    ("hunk 0 offset 00000012: 4e and 4f", [(6, CODE, 6, 0, 1, 2, 3, 0x71714E71, 9)], [(6, CODE, 6, 0, 1, 2, 3, 0x71714F72, 8)]),
    ("hunk 2 offset 00000001: 01 and 02", [ONE, EMPTY, (1, DATA, 1, 0x10000)], [ONE, EMPTY, (1, DATA, 1, 0x20000)]),
    # Bytes in the zeros after the content: of one file, and at the end of the hunk.
    ("hunk 0 offset 00000004: 01 and 00", [(3, CODE, 2, 7, 0x01000000)], [(3, CODE, 1, 7)]),
    ("hunk 0 offset 0000000a: 00 and a0", [(3, CODE, 1, 7)], [(3, CODE, 3, 7, 0, 0xA000)]),
    ("hunk 0 offset 0000000b: 00 and 01", [(3, CODE, 0)], [(3, CODE, 3, 0, 0, 1)]),
    ("hunk 0 offset 00000007: 00 and 01", [(4, CODE, 3, 7, 0, 0)], [(4, CODE, 4, 7, 1, 0, 1)]),
    # Sites: one of the files has none, or both name others; also at odd offsets, in the zeros and in a hunk of kind BSS.
    ("hunk 0 site 00000000: hunk 0 and none", [SITE], [(1, CODE, 1, 0)]),
    ("hunk 0 site 00000000: hunk 1 and hunk 0", [(1, CODE, 1, 0, RELOC32, 1, 1, 0, 0), ONE], [SITE, ONE]),
    ("hunk 0 site 00000008: hunk 1 and none", [(3, CODE, 1, 7, RELOC32, 1, 1, 8, 0), EMPTY], [(3, CODE, 1, 7), EMPTY]),
    ("hunk 1 site 00000000: hunk 1 and hunk 2",
     [EMPTY, (1, BSS, 0, RELOC32, 1, 1, 0, 0), EMPTY], [EMPTY, (1, BSS, 1, RELOC32SHORT, 0x10002, 0), EMPTY]),
    ("hunk 0 site 00000001: none and hunk 0", [(2, CODE, 2, 7, 7)], [(2, CODE, 2, 7, 7, RELOC32, 1, 0, 1, 0)]),
    ("hunk 0 site 00000003: hunk 0 and none", [(2, DATA, 0, RELOC32, 1, 0, 3, 0)], [(2, DATA, 0, RELOC32, 1, 0, 4, 0)]),
    ("hunk 0 site 00000003: hunk 0 and hunk 1", [(2, DATA, 0, RELOC32, 1, 0, 3, 0), EMPTY], [(2, DATA, 0, RELOC32, 1, 1, 3, 0), EMPTY]),
    ("hunk 0 site 00000008: hunk 0 and none", [(3, DATA, 0, RELOC32, 2, 0, 0, 8, 0)], [(3, DATA, 0, RELOC32, 1, 0, 0, 0)]),
    ("hunk 0 site 00000000: hunk 0 and none", [(3, CODE, 1, 7, RELOC32, 2, 0, 0, 8, 0)], [(3, CODE, 1, 7, RELOC32, 1, 0, 8, 0)]),
    ("hunk 0 site 00010000: hunk 0 and none", [(16386, BSS, 0, RELOC32, 1, 0, 0x10000, 0)], [(16386, BSS, 0)]),
    # Of several differences it is the first: the number of hunks, a hunk before the next, and in it one after the other.
    ("hunks: 2 and 1", [(CHIP | 1, CODE, 1, 7), ONE], [(2, DATA, 0)]),
    ("hunk 0 kind: code and data", [(CHIP | 1, CODE, 1, 7)], [(2, DATA, 1, 8)]),
    ("hunk 0 memory: chip and any", [(CHIP | 1, CODE, 1, 7)], [(2, CODE, 1, 8)]),
    ("hunk 0 size: 4 and 8", [(1, CODE, 1, 7)], [(2, CODE, 1, 8, RELOC32, 1, 0, 0, 0)]),
    ("hunk 0 offset 00000003: 07 and 08", [(2, CODE, 1, 7), ONE], [(2, CODE, 1, 8, RELOC32, 1, 0, 4, 0), (1, DATA, 1, 7)]),
    ("hunk 0 site 00000000: none and hunk 0", [(2, CODE, 1, 7)], [(2, CODE, 1, 8, RELOC32, 1, 0, 0, 0)]),
    ("hunk 0 offset 00000000: 01 and 02", [(1, CODE, 1, 0x01000000)], [(1, CODE, 1, 0x02000000, RELOC32, 1, 0, 0, 0)]),
    ("hunk 0 site 00000002: hunk 0 and none", [(2, CODE, 0, RELOC32, 1, 0, 2, 0)], [(2, CODE, 1, 1)]),
    ("hunk 0 offset 00000005: 00 and 05", [(3, CODE, 0, RELOC32, 1, 0, 6, 0)], [(3, CODE, 2, 0, 0x00050000)]),
)


@test
def the_first_difference_is_told_in_a_line(program):
    for line, first, second in ROWS:
        tells(program, load_file(*first), load_file(*second), line, turned(line))
        tells(program, load_file(*first), load_file(*second), line, turned(line), "--symbols")


LOOP, NEXT = ("loop", 4), ("next", 8)
# The same, of files that mean the same: the blocks of each of their hunks, and the line of them with `--symbols` in both orders.
FURTHER_ROWS = (
    ('hunk 0 symbol 0: "loop" 00000004 and none', 'hunk 0 symbol 0: "loop" none and 00000004', [symbols(LOOP)], [[]]),
    ('hunk 0 symbol 1: "next" 00000008 and none', 'hunk 0 symbol 1: "next" none and 00000008', [symbols(LOOP, NEXT)], [symbols(LOOP)]),
    ('hunk 0 symbol 0: "loop" 00000004 and ffffffff', 'hunk 0 symbol 0: "loop" ffffffff and 00000004',
     [symbols(LOOP)], [symbols(("loop", 0xFFFFFFFF))]),
    ('hunk 0 symbol 0: "loop" and "next"', 'hunk 0 symbol 0: "next" and "loop"', [symbols(LOOP, NEXT)], [symbols(NEXT, LOOP)]),
    # Where the names are others, the values are not told.
    ('hunk 0 symbol 1: "next" and "last"', 'hunk 0 symbol 1: "last" and "next"', [symbols(LOOP, NEXT)], [symbols(LOOP, ("last", 8), NEXT)]),
    ('hunk 0 symbol 0: "" and "a\\x22\\x5c"', 'hunk 0 symbol 0: "a\\x22\\x5c" and ""', [symbols(("", 1))], [symbols(('a"\\', 1))]),
    ('hunk 0 symbol 0: "" 00000000 and none', 'hunk 0 symbol 0: "" none and 00000000', [symbols(("", 0))], [[]]),
    ("hunk 0 debug 0", "hunk 0 debug 0", [[DEBUG, 1, 7]], [[DEBUG, 1, 8]]),
    ("hunk 0 debug 0", "hunk 0 debug 0", [[DEBUG, 1, 0]], [[DEBUG, 2, 0, 0]]),
    ("hunk 0 debug 0", "hunk 0 debug 0", [[DEBUG, 0]], [[]]),
    ("hunk 0 debug 1", "hunk 0 debug 1", [[DEBUG, 1, 7, DEBUG, 1, 8]], [[DEBUG, 1, 7, DEBUG, 0, DEBUG, 1, 8]]),
    ("hunk 0 debug 2", "hunk 0 debug 2", [[DEBUG, 0, DEBUG, 0]], [[DEBUG, 0, DEBUG, 0, DEBUG, 0]]),
    # A hunk before the next one, and in it the symbols before the debug blocks, in whatever order the blocks are.
    ('hunk 0 symbol 0: "loop" 00000004 and none', 'hunk 0 symbol 0: "loop" none and 00000004',
     [[DEBUG, 1, 7, *symbols(LOOP)]], [[DEBUG, 1, 8]]),
    ("hunk 0 debug 0", "hunk 0 debug 0", [[DEBUG, 1, 7], symbols(LOOP)], [[], symbols(NEXT)]),
    ('hunk 1 symbol 0: "loop" and "next"', 'hunk 1 symbol 0: "next" and "loop"',
     [[DEBUG, 1, 7], [*symbols(LOOP), DEBUG, 0]], [[DEBUG, 1, 7], symbols(NEXT)]),
    ("hunk 2 debug 0", "hunk 2 debug 0", [[], symbols(LOOP), [DEBUG, 0]], [[], symbols(LOOP), []]),
)


@test
def with_symbols_what_only_debuggers_read_is_compared_too(program):
    for line, other_line, first, second in FURTHER_ROWS:
        # Also in hunks of no longwords.
        for hunk, changed in ((ONE, (1, CODE, 1, 8)), (EMPTY, (0, DATA, 0))):
            files = [load_file(*((*hunk, *blocks) for blocks in file)) for file in (first, second)]
            tells(program, *files, line, other_line, "--symbols")
            program.prints("", "compare", "a", "b")
            program.prints("", "compare", "b", "a")
            # First come the hunks themselves, all of them.
            files = [load_file(*((*hunk, *blocks) for blocks in file), it) for file, it in ((first, hunk), (second, changed))]
            told = f"hunk {len(first)} " + ("offset 00000003: 07 and 08" if hunk == ONE else "kind: code and data")
            tells(program, *files, told, turned(told))
            tells(program, *files, told, turned(told), "--symbols")


@test
def the_form_of_a_file_makes_no_difference(program):
    foo, further = int.from_bytes(b"foo\0", "big"), int.from_bytes(b"fo\0x", "big")
    files = (
        load_file((5, CODE, 2, 7, 8, RELOC32, 2, 0, 0, 5, 1, 1, 16, 0, SYMBOL, 1, foo, 4, 1, foo, 5, 0, DEBUG, 1, 9, DEBUG, 0),
                  (CHIP | 2, BSS, 2)),
        # Zeros that are stored; a block for each entry, the debug blocks first; short and long lists, with any number after them.
        load_file((5, CODE, 5, 7, 8, 0, 0, 0, DEBUG, 1, 9, SYMBOL, 1, foo, 4, 0, DEBUG, 0, RELOC32SHORT, 0x00010001, 0x00100000,
                   RELOC32, 1, 0, 5, 1, 0, 0, 0, SYMBOL, 1, foo, 5, 0), (CHIP | 2, BSS, 0)),
        load_file((5, CODE, 3, 7, 8, 0, RELOC32, 0, RELOC32SHORT, 0x00010000, 0x00050001, 0x00010010, 0x0000FFFF, RELOC32, 1, 0, 0,
                   0, SYMBOL, 2, foo, 0x12345678, 4, 0, SYMBOL, 0, SYMBOL, 2, foo, 0, 5, 0, DEBUG, 1, 9, DEBUG, 0), (CHIP | 2, BSS, 1)),
        # Bits that are ignored, and names of hunks.
        words(CHIP | FAST | HEADER, 0, 2, 0, 1, 5, CHIP | 2)
        + words(FAST | NAME, 1, foo, CHIP | CODE, FAST | 2, 7, 8, CHIP | RELOC32, 1, 1, 16, 2, 0, 5, 0, 0)
        + words(FAST | SYMBOL, 1, foo, 4, 1, foo, 5, 0, CHIP | DEBUG, 1, 9, FAST | DEBUG, 0, CHIP | FAST | END)
        + words(NAME, 0, CHIP | FAST | BSS, CHIP | FAST | 1, FAST | END),
    )
    for number, bytes_ in enumerate(files):
        program.write(f"{number}", bytes_)
    for one in range(len(files)):
        for another in range(len(files)):
            program.prints("", "compare", f"{one}", f"{another}")
            program.prints("", "compare", "--symbols", f"{one}", f"{another}")
    # What follows the first zero byte of a name is no part of it.
    program.write("x", load_file((*ONE, SYMBOL, 1, further, 4, 0)))
    program.write("y", load_file((*ONE, *symbols(("fo", 4)))))
    program.prints("", "compare", "--symbols", "x", "y")


@test
def a_file_is_compared_with_itself(program):
    program.write("x", LOAD_FILE)
    program.write("--symbols", LOAD_FILE)
    os.symlink("x", program.at("soft"))
    os.symlink("soft", program.at("softer"))
    os.link(program.at("x"), program.at("hard"))
    names = ("x", "./x", "soft", "softer", "hard", program.at("x"))
    for one in names:
        for another in names:
            program.prints("", "compare", one, another)
            program.prints("", "compare", one, "--symbols", another)
    program.prints("", "compare", "--", "--symbols", "x")
    program.prints("", "compare", "--symbols", "--", "--symbols", "--symbols")
    equals(sorted(os.listdir(program.folder)), sorted(("x", "--symbols", "soft", "softer", "hard")))
    # A file that standard input is from has its own place in each opening.
    with open(program.at("x"), "rb") as file:
        program.prints("", "compare", "/dev/stdin", "/dev/stdin", stdin=file)
    # A pipe has one: A takes all of it.
    twice = ("compare", "/dev/stdin", "/dev/stdin")
    program.fails(BAD_WORDS, "/dev/stdin: longword 0: file ends too early", *twice, input=LOAD_FILE)
    program.fails(BAD_WORDS, "/dev/stdin: longword 10: data after the last hunk", *twice, input=LOAD_FILE * 2)
    program.prints("", "compare", "/dev/stdin", "x", input=LOAD_FILE)
    program.prints("", "compare", "x", "/dev/stdin", input=LOAD_FILE)


@test
def the_words_of_a_comparison_come_in_any_order(program):
    program.write("x", load_file(ONE))
    program.write("y", load_file((*ONE, *symbols(LOOP))))
    program.write("--symbols", load_file((1, CODE, 1, 8)))
    told, byte = 'hunk 0 symbol 0: "loop" none and 00000004\n', "hunk 0 offset 00000003: 07 and 08\n"
    for line, wanted in (
        ("x y", ""),
        ("-- x y", ""),
        ("x -- y", ""),
        ("--symbols x y", told),
        ("x --symbols y", told),
        ("x y --symbols", told),
        ("--symbols x -- y", told),
        ("x -- --symbols", byte),
        ("-- y --symbols", byte),
        ("--symbols -- x --symbols", byte),
    ):
        equals(program.run("compare", *line.split()), (DIFFERENT if wanted else DONE, wanted, ""), line)


@test
def a_is_read_to_its_end_before_b(program):
    """Both come through pipes, which hold less than either file: what writes B does not begin before A has been taken."""
    content = random.Random(9).randbytes(400_000)
    one = load_file((100_000, CODE, 100_000))[:-4] + content + words(END)
    another = load_file((100_000, CODE, 100_000))[:-4] + content[:-1] + bytes([content[-1] ^ 1]) + words(END)
    for name in "ab":
        os.mkfifo(program.at(name))

    def write():
        with open(program.at("a"), "wb") as a, open(program.at("b"), "wb") as b:
            for file, bytes_ in ((a, one), (b, another)):
                file.write(bytes_)
                file.close()

    writer = threading.Thread(target=write, daemon=True)
    writer.start()
    told = f"hunk 0 offset {399_999:08x}: {content[-1]:02x} and {content[-1] ^ 1:02x}\n"
    equals(program.run("compare", "a", "b"), (DIFFERENT, told, ""))
    writer.join(60)
    assert not writer.is_alive()


@test
def a_file_that_is_no_load_file_is_told(program):
    program.write("x", LOAD_FILE)
    program.write("y", load_file(EMPTY, EMPTY))
    program.write("x.o", OBJECT_FILE)
    os.mkdir(program.at("folder"))
    rows = [("x.o", 0, "wrong first longword")]
    for number, (bytes_, place, reason) in enumerate((
        (b"", 0, "file ends too early"),
        (LOAD_FILE[:-4], 9, "file ends too early"),
        (LOAD_FILE[:-1], 9, "file ends inside a longword"),
        (LOAD_FILE + words(0), 10, "data after the last hunk"),
        (words(HEADER, 1), 1, "resident library names not supported"),
        (load_file((1, CODE, 2, 0, 0)), 7, "block longer than its hunk"),
        (load_file((1, CODE, 0, RELOC32, 1, 0, 1, 0)), 11, "site 00000001 outside its hunk"),
        (load_file((1, CODE, 0, SYMBOL, 1 << 24 | 1, 0, 0)), 9, "symbol of kind 1"),
    )):
        program.write(f"bad {number}", bytes_)
        rows.append((f"bad {number}", place, reason))
    for name, place, reason in rows:
        line = f"{name}: longword {place}: {reason}"
        # Nothing is told of a difference, such as that in the number of hunks, before both files have been read.
        for words_ in ((name, "x"), ("x", name), ("y", name), (name, name), ("--symbols", "y", name), (name, "folder")):
            program.fails(BAD_WORDS, line, "compare", *words_)
        # Both files are opened before one is read, and A is read before B.
        program.fails(DEVICE, "missing: cannot be opened", "compare", name, "missing")
        program.fails(DEVICE, "folder: read failed", "compare", "folder", name)
    program.fails(BAD_WORDS, "x.o: longword 0: wrong first longword", "compare", "x.o", "bad 0")
    program.fails(BAD_WORDS, "bad 0: longword 0: file ends too early", "compare", "bad 0", "x.o")
    equals(program.run("compare", "x", "caf\xe9")[2], "amihunk: caf\xc3\xa9: cannot be opened\n")


@test
def a_comparison_of_what_cannot_be_read_is_no_difference(program):
    program.write("x", LOAD_FILE)
    os.mkdir(program.at("folder"))
    os.symlink("folder", program.at("way"))
    os.symlink("loop", program.at("loop"))
    for name in ("missing", "no/missing", "x/missing", "loop", "", "n" * 300):
        for words_ in ((name, "x"), ("x", name), (name, name), (name, "folder"), ("folder", name), ("--symbols", name, "other")):
            program.fails(DEVICE, f"{name}: cannot be opened", "compare", *words_)
    for name in ("folder", "way", ".", "/"):
        for words_ in ((name, "x"), ("x", name), (name, name), ("--symbols", "x", name)):
            program.fails(DEVICE, f"{name}: read failed", "compare", *words_)


@test
def a_difference_that_cannot_be_printed_is_told(program):
    program.write("x", LOAD_FILE)
    program.write("y", load_file((1, CODE, 1, 0x4E754E72)))
    program.write("symbol", load_file((1, CODE, 1, 0x4E754E71, *symbols(LOOP))))
    with open("/dev/full", "wb") as full:
        for how in ({"stdout": full}, {"before": lambda: os.close(1)}):
            program.fails(DEVICE, "output: write failed", "compare", "x", "y", **how)
            program.fails(DEVICE, "output: write failed", "compare", "--symbols", "x", "symbol", **how)
            # Nothing is written of files that mean the same.
            program.prints("", "compare", "x", "symbol", **how)
            program.prints("", "compare", "--symbols", "x", "x", **how)
            program.fails(BAD_WORDS, "/dev/null: longword 0: file ends too early", "compare", "x", "/dev/null", **how)
        # A line on standard error that cannot be written changes no status.
        equals(program.run("compare", "x", "/dev/null", stderr=full), (BAD_WORDS, "", ""))
        equals(program.run("compare", "x", "missing", stderr=full), (DEVICE, "", ""))
        told = "hunk 0 offset 00000003: 71 and 72\n"
        equals(program.run("compare", "x", "y", stderr=full), (DIFFERENT, told, ""))


@test
def a_comparison_with_little_memory_tells_a_line_or_none(program):
    program.write("x", LOAD_FILE)
    program.write("y", load_file((1, CODE, 1, 0x4E754E72)))
    program.write("z", load_file((1, CODE, 1, 0x4E754E71, *symbols(LOOP))))
    least = least_pages(program)
    for words_, wanted in (
        (("x", "y"), (DIFFERENT, "hunk 0 offset 00000003: 71 and 72\n", "")),
        (("x", "z"), (DONE, "", "")),
        (("--symbols", "x", "z"), (DIFFERENT, 'hunk 0 symbol 0: "loop" none and 00000004\n', "")),
        (("x", "/dev/null"), (BAD_WORDS, "", "amihunk: /dev/null: longword 0: file ends too early\n")),
    ):
        falls(program, least, STEPS, wanted, ("compare", *words_))
    # The file asks for 64 MiB of memory where it is loaded, of which it holds none.
    program.write("large", load_file((1 << 24, CODE, 0)))
    program.write("larger", load_file((1 << 24, CODE, 0, RELOC32, 1, 0, 1 << 20, 0)))
    told = "hunk 0 site 00100000: none and hunk 0\n"
    equals(program.run("compare", "large", "larger", limit=LITTLE_MEMORY), (DIFFERENT, told, ""))


PAIRS = 500


def random_pair(seed):
    """The hunks of two load files, of which the second has some changes or none, and both files, in any form."""
    dice = random.Random(seed)
    first = random_hunks(dice)
    second = altered(dice, first) if dice.random() < 0.7 else first
    hunks = [first, second] if dice.randrange(2) else [second, first]
    return dice, hunks, [spelt(dice, it) for it in hunks]


@test
def random_files_are_the_same_exactly_if_their_memory_is(program):
    seen = set()
    for seed in range(PAIRS):
        dice, hunks, files = random_pair(seed)
        for name, bytes_ in zip("ab", files):
            program.write(name, bytes_)
        options, read = ["--symbols"] * dice.randrange(2), [load_files.read(bytes_) for bytes_ in files]
        told = load_files.difference(*read, options)
        equals(program.run("compare", *options, "a", "b"), (DIFFERENT if told else DONE, load_files.line_of(told), ""), seed)
        seen.add(told and told.kind)
        differs = load_files.difference(*hunks)
        if differs and differs.kind not in ("byte", "site"):
            continue
        # What differs in memory differs at some bases, though not at all: these are drawn until the memory of the model does.
        memory, bases = None, None
        while not memory or differs and memory[0] == memory[1]:
            bases = random_bases(dice, *hunks)
            memory = [load_files.memory_of(it, bases) for it in hunks]
        equals(memory[0] == memory[1], not differs, seed)
        for name, it in zip("ab", memory):
            program.prints(model.report_of(bases, it), "load", "--at", model.addresses(bases), name)
    # Each kind of difference was among them.
    equals(seen, {None, "hunk_count", "kind", "memory", "size", "byte", "site", "symbol", "debug"})
