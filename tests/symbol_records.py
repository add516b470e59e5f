"""The symbols of load files and of object files at addresses: what `--symbols` prints alone, and with `--srec`."""
import os
import random
import re

import load_files
import model
from comparisons import load_file, symbols
from harness import BAD_WORDS, DEVICE, REFUSED, test
from model import BSS, CODE, DATA, DEBUG, DEF, END, SYMBOL, Hunk, words
from random_load_files import random_bases, random_hunks, spelt
from runs import LOAD_FILE, OBJECT_FILE, RECORDS, write_parts

# Both flags, in either order.
BOTH = (("--srec", "--symbols"), ("--symbols", "--srec"))
SEEDS = 200
# The S-records of hunks without bytes.
NO_RECORDS = "S00A0000616D6968756E6B08\nS70500000000FA\n"


@test
def symbols_come_before_the_records(program):
    # Code with the symbols `loop` and `a"b\`, memory with none, and data with `~`, whose address is taken modulo 2^32.
    program.write("x", load_file((1, CODE, 1, 0x4E754E71, *symbols(("loop", 2), ('a"b\\', 0xFFFFFFFF))), (1, BSS, 0),
                                 (1, DATA, 1, 1, *symbols(("~", 16)))))
    told = (
        "$$ amihunk\n  loop $00010002\n  a\"b\\ $0000ffff\n  ~ $0000000c\n$$ \n"
        "S00A0000616D6968756E6B08\nS309000100004E754E7173\nS3090002000000000000F4\nS309FFFFFFFC00000001FC\nS70500000000FA\n"
    )
    program.write("list", b"10000 20000 fffffffc\n")
    for flags in BOTH:
        program.prints(told, "load", "--at", "10000,20000,fffffffc", *flags, "x")
        program.prints(told, "load", flags[0], "x", "--at-file=list", flags[1])
    # No symbols.
    program.write("x", LOAD_FILE)
    program.prints("$$ amihunk\n$$ \n" + RECORDS, "load", "--at", "10000", "--srec", "--symbols", "x")
    program.prints(f"$$ amihunk\n$$ \n{NO_RECORDS}", "load", "--at", "0", "--srec", "--symbols", "/dev/stdin", input=load_file((0, CODE, 0)))


@test
def names_that_no_line_holds_are_left_out_and_counted(program):
    held = [it for it in range(1, 256) if 0x21 <= it <= 0x7E]
    names = [bytes([it]) for it in range(1, 256)] + [b"", b"a b", b"ab\xff", b"\ta", "\u00e9".encode(), b"x" * 300 + b"\n"]
    program.write("x", load_files.written([load_files.LoadHunk(CODE, 0, symbols=[(name, 1) for name in names])]))
    lines = "".join(f"  {chr(it)} $00000001\n" for it in held)
    # 161 bytes are not visible, and 6 more names are left out.
    told = f"S018000073796D626F6C73206C656674206F75743A20313637A3\n{NO_RECORDS}"
    program.prints(f"$$ amihunk\n{lines}$$ \n{told}", "load", "--at", "0", "--srec", "--symbols", "x")
    # Counts of one to six digits, in hunks that hold few of them or many.
    for count, told in (
        (1, "S016000073796D626F6C73206C656674206F75743A203112\n"),
        (9, "S016000073796D626F6C73206C656674206F75743A20390A\n"),
        (10, "S017000073796D626F6C73206C656674206F75743A203130E1\n"),
        (255, "S018000073796D626F6C73206C656674206F75743A20323535A5\n"),
        (65536, "S01A000073796D626F6C73206C656674206F75743A20363535333636\n"),
        (100000, "S01B000073796D626F6C73206C656674206F75743A203130303030301D\n"),
    ):
        parts = [count // 3, 0, count - count // 3]
        program.write("x", load_file(*((0, CODE, 0, SYMBOL, *[1, 0x20000000, 0] * part, *[1, 0x61000000, 7] * (part > 1), 0)
                                       for part in parts)))
        line = "  a $00000007\n" * sum(part > 1 for part in parts)
        program.prints(f"$$ amihunk\n{line}$$ \n{told}{NO_RECORDS}", "load", "--at", "0,0,0", "--srec", "--symbols", "x")


@test
def the_symbols_of_object_files_are_those_of_their_load_file(program):
    main, room, rest = Hunk(CODE, [0x4E714E71]), Hunk(BSS, [0]), Hunk(DATA, [7])
    main.sites, main.symbols, main.debugs = [(0, b"there")], [(b"loop", 2), (b"a b", 3)], [[1, 2]]
    rest.definitions, rest.symbols = [(DEF, b"there", 4)], [(b"loop", 0xFFFFFFFF)]
    program.write("x.o", model.object_file([[main, room]]))
    program.write("y.o", model.object_file([[rest]]))
    lines = '00010002 hunk 0 "loop"\n00010003 hunk 0 "a b"\n0002ffff hunk 2 "loop"\n'
    program.prints(lines, "image", "--at", "10000,20000,30000", "--symbols", "x.o", "y.o")
    # 4E714E71 + 00030004 at the site.
    records = (
        "$$ amihunk\n  loop $00010002\n  loop $0002ffff\n$$ \nS016000073796D626F6C73206C656674206F75743A203112\n"
        "S00A0000616D6968756E6B08\nS309000100004E744E7570\nS3090002000000000000F4\nS3090003000000000007EC\nS70500000000FA\n"
    )
    program.write("list", b"10000\n20000\n30000\n")
    for flags in BOTH:
        program.prints(records, "image", "--at", "10000,20000,30000", *flags, "x.o", "y.o")
        program.prints(records, "image", flags[0], "x.o", "--at-file", "list", "y.o", flags[1])
    # The order of linking is that of the files.
    program.prints('00030fff hunk 0 "loop"\n00010002 hunk 1 "loop"\n00010003 hunk 1 "a b"\n',
                   "image", "--at", "31000,10000,20000", "--symbols", "y.o", "x.o")
    program.write("plain.o", OBJECT_FILE)
    program.prints("", "image", "--at", "0", "--symbols", "plain.o")
    program.prints("$$ amihunk\n$$ \n" + RECORDS, "image", "--at", "10000", "--srec", "--symbols", "/dev/stdin", input=OBJECT_FILE)


@test
def random_symbols_are_told_of_object_files_and_of_their_load_file(program):
    left_out = 0
    for seed in range(SEEDS):
        dice, units = random.Random(seed), model.random_named_units(seed)
        hunks, bases = [hunk for unit in units for hunk in unit], model.random_bases(seed, units)
        files, at = write_parts(program, seed, model.dealt_out(dice, units)), model.addresses(bases)
        lines = model.symbols_of(units, bases)
        records = model.symbol_records_of(hunks, bases, model.memory_of(units, bases))
        left_out += "S01" in records
        program.prints("", "link", "--out", "out", *files)
        for command, names in (("load", ["out"]), ("image", files)):
            program.prints(lines, command, "--at", at, "--symbols", *names)
            program.prints(records, command, "--at", at, *dice.choice(BOTH), *names)
    assert 0 < left_out < SEEDS, left_out


@test
def random_load_files_have_their_symbols_before_their_records(program):
    for seed in range(SEEDS):
        dice = random.Random(seed)
        hunks = random_hunks(dice)
        bases = random_bases(dice, hunks)
        program.write("x", spelt(dice, hunks))
        records = model.symbol_records_of(hunks, bases, load_files.memory_of(hunks, bases))
        program.prints(records, "load", "--at", model.addresses(bases), "--srec", "--symbols", "x")
        # What follows the symbols is what is printed without them.
        program.prints(re.sub(r"^\$\$ amihunk\n(  .*\n)*\$\$ \n(S01[^A].*\n)?", "", records),
                       "load", "--at", model.addresses(bases), "--srec", "x")


@test
def symbols_that_are_not_printed_are_told(program):
    code = Hunk(CODE, [0])
    code.sites, code.symbols = [(0, b"gone")], [(b"loop", 6)]
    program.write("gone.o", model.object_file([[code]]))
    program.write("x", load_file((2, CODE, 0, *symbols(("loop", 6))), (1, DATA, 1, 7)))
    program.write("x.o", model.object_file([[Hunk(CODE, [0, 0]), Hunk(DATA, [7])]]))
    program.write("cut", LOAD_FILE[:-4])
    program.write("cut.o", OBJECT_FILE[:-4])
    for flags in (("--symbols",), *BOTH):
        for command, file, other, cut, place in (("load", "x", "x.o", "cut", 9), ("image", "x.o", "x", "cut.o", 5)):
            program.fails(REFUSED, "places: wrong number of addresses", command, *flags, "--at", "0", file)
            program.fails(REFUSED, "places: hunk 1 passes the end of memory", command, *flags, "--at", "0,fffffffd", file)
            program.fails(REFUSED, "places: hunks 0 and 1 overlap", command, *flags, "--at", "0,4", file)
            program.fails(REFUSED, f"{other}: longword 0: wrong first longword", command, *flags, "--at", "0", other)
            # The file is read before the addresses are compared with its hunks.
            program.fails(REFUSED, f"{cut}: longword {place}: file ends too early", command, *flags, "--at", "0,1,2", cut)
            program.fails(BAD_WORDS, "--at: part 1 is not 1 to 8 hexadecimal digits", command, *flags, "--at", "0,", "missing")
            program.fails(DEVICE, "missing: cannot be opened", command, *flags, "--at", "0", "missing")
            program.fails(DEVICE, ".: read failed", command, *flags, "--at", "0", ".")
        program.fails(REFUSED, 'link: unit 0 hunk 0: "gone" not defined', "image", *flags, "--at", "0", "gone.o")


@test
def symbols_that_are_not_written_are_told(program):
    hunk = Hunk(CODE, [0])
    hunk.symbols = [(b"loop", 6)]
    program.write("x.o", model.object_file([[hunk]]))
    program.prints("", "link", "--out", "x", "x.o")
    with open("/dev/full", "wb") as full:
        for flags in (("--symbols",), *BOTH):
            for command, file in (("load", "x"), ("image", "x.o")):
                program.fails(DEVICE, "output: write failed", command, *flags, "--at", "0", file, stdout=full)
                program.fails(DEVICE, "output: write failed", command, *flags, "--at", "0", file, before=lambda: os.close(1))


@test
def units_that_link_only_without_debug_blocks_are_refused_for_their_symbols(program):
    # Two debug blocks that take 2^27 longwords and one more. Only their beginnings are on the disk.
    with open(program.at("x.o"), "wb") as file:
        file.write(OBJECT_FILE[:-4])
        for count in ((1 << 26) - 2, (1 << 26) - 1):
            file.write(words(DEBUG, count))
            file.seek(4 * count, os.SEEK_CUR)
        file.write(words(END))
    for flags in (("--symbols",), ("--srec", "--symbols")):
        program.fails(REFUSED, "link: too large", "image", *flags, "--at", "10000", "x.o")
    program.prints(RECORDS, "image", "--srec", "--at", "10000", "x.o")
