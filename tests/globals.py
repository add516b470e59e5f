"""The names that `link --globals` keeps as symbols."""
import os
import random

import load_files
import model
from comparisons import load_file, symbols
from harness import DONE, equals, test
from memory import OLD, STEPS, falls, least_pages
from model import ABS, BSS, CODE, DATA, DEBUG, DEF, Hunk
from runs import write_parts

SEEDS = 200
CHIP = 1 << 30


def written_units(program):
    """The files of two units: a hunk whose definitions are partly its symbols, one without symbols, and BSS."""
    code, bss, data = Hunk(CODE, [0x4E714E71, 0x4E754E71]), Hunk(BSS, [0, 0], memory="chip"), Hunk(DATA, [5, 0])
    code.symbols, code.debugs = [(b"foo", 2), (b"bar", 4)], [[13]]
    # The value of `foo` is another, `bar` is there, `chip` is no offset, and `far` is past the hunk.
    code.definitions = [(DEF, b"foo", 4), (DEF, b"bar", 4), (ABS, b"chip", 7), (DEF, b"far", 0x100)]
    bss.definitions, data.definitions = [(DEF, b"room", 0)], [(DEF, b"b", 0xFFFFFFFF), (DEF, b"a", 1)]
    program.write("x.o", model.object_file([[code, bss]]))
    program.write("y.o", model.object_file([[data]]))
    return ["x.o", "y.o"]


@test
def definitions_become_symbols_behind_those_of_the_hunk(program):
    files = written_units(program)
    own, added = [("foo", 2), ("bar", 4)], [("foo", 4), ("far", 0x100)]
    room, data = symbols(("room", 0)), symbols(("b", 0xFFFFFFFF), ("a", 1))
    linked = load_file((2, CODE, 2, 0x4E714E71, 0x4E754E71, *symbols(*own, *added), DEBUG, 1, 13), (CHIP | 2, BSS, 2, *room),
                       (2, DATA, 2, 5, 0, *data))
    trimmed = load_file((2, CODE, 2, 0x4E714E71, 0x4E754E71, *symbols(*own, *added), DEBUG, 1, 13), (CHIP | 2, BSS, 2, *room),
                        (2, DATA, 1, 5, *data))
    stripped = load_file((2, CODE, 2, 0x4E714E71, 0x4E754E71, *symbols(("foo", 4), ("bar", 4), ("far", 0x100))), (CHIP | 2, BSS, 2, *room),
                         (2, DATA, 2, 5, 0, *data))
    for options, wanted in (([], linked), (["--short"], linked), (["--trim"], trimmed), (["--strip"], stripped), (["-s", "--short"], stripped)):
        program.prints("", "link", "--out", "out", "--globals", *options, *files)
        equals(program.read("out"), wanted, options)
        program.prints("", "link", *options, "-o", "out", *files, "--globals", "--map", "map")
        equals(program.read("out"), wanted, options)
    # Without it no byte is another.
    program.prints("", "link", "--out", "out", *files)
    equals(program.read("out"), load_file((2, CODE, 2, 0x4E714E71, 0x4E754E71, *symbols(*own), DEBUG, 1, 13), (CHIP | 2, BSS, 2),
                                          (2, DATA, 2, 5, 0)))


@test
def a_map_is_the_same_with_globals(program):
    files = written_units(program)
    program.prints("", "link", "--out", "out", "--map", "plain", *files)
    program.prints("", "link", "--out", "out", "--map", "map", "--globals", "--strip", *files)
    equals(program.read("map"), program.read("plain"))


def with_globals(units, strip):
    """The symbols of each hunk of a load file that is linked with `--globals`."""
    told = []
    for hunk in (hunk for unit in units for hunk in unit):
        rows = [] if strip else list(hunk.symbols)
        told.append(rows + [(name, value) for kind, name, value in hunk.definitions if kind == DEF and (name, value) not in rows])
    return told


@test
def random_units_keep_their_definitions(program):
    kept = 0
    for seed in range(SEEDS):
        dice, units = random.Random(seed), model.random_named_units(seed)
        hunks, bases = [hunk for unit in units for hunk in unit], model.random_bases(seed, units)
        for hunk in hunks:
            hunk.symbols += [(name, value) for _, name, value in hunk.definitions if dice.random() < 0.3]
        files, options = write_parts(program, seed, model.dealt_out(dice, units)), model.random_options(dice)
        program.prints("", "link", "--out", "plain", *options, *files)
        program.prints("", "link", "--out", "out", "--globals", *options, *files)
        wanted = load_files.read(program.read("plain"))
        for hunk, rows in zip(wanted, with_globals(units, "--strip" in options)):
            kept += len(rows) - len(hunk.symbols)
            hunk.symbols = rows
        equals(program.read("out"), load_files.written(wanted, "--short" in options), seed)
        # Memory does not depend on it.
        at, report = model.addresses(bases), model.report_of(bases, model.memory_of(units, bases))
        program.prints(report, "load", "--at", at, "out")
        equals(program.run("compare", "plain", "out"), (DONE, "", ""), seed)
    assert SEEDS < kept, kept


@test
def with_little_memory_globals_are_kept_or_out_is_old(program):
    code, other = Hunk(CODE, [0x4E714E71]), Hunk(BSS, [0])
    code.definitions, other.definitions = [(DEF, b"main", 0)], [(DEF, b"room", 4)]
    program.write("x.o", model.object_file([[code], [other]]))
    program.write("out", OLD)
    kept = load_file((1, CODE, 1, 0x4E714E71, *symbols(("main", 0))), (1, BSS, 1, *symbols(("room", 4))))

    def compare(ended):
        equals((program.read("out"), sorted(os.listdir(program.folder))), (kept if ended[0] == DONE else OLD, ["out", "x.o"]))
        program.write("out", OLD)

    falls(program, least_pages(program), STEPS, (DONE, "", ""), ("link", "--globals", "--out", "out", "x.o"), after=compare)
