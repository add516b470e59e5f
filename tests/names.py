"""The names that `show --names` lists."""
import random

import model
from harness import DEVICE, DONE, REFUSED, equals, test
from model import ABS, BSS, CODE, DATA, DEF, END, Hunk, UNIT, words
from runs import LOAD_FILE, OBJECT_FILE

SEEDS = 200


@test
def the_names_of_an_object_file_are_sorted(program):
    code, data, bss = Hunk(CODE, [0, 0]), Hunk(DATA, [0]), Hunk(BSS, [0])
    code.sites = [(0, b"put"), (4, b"get")]
    code.definitions = [(DEF, b"main", 0), (ABS, b"chip", 0xDFF000)]
    code.symbols = [(b"loop", 4), (b"main", 2)]
    data.definitions = [(DEF, b"put", 0)]
    bss.symbols = [(b'a"', 0xFFFFFFFF)]
    program.write("x.o", model.object_file([[code], [data, bss]]))
    told = (
        'ffffffff b "a\\x22" unit 1 hunk 1\n'
        '00dff000 A "chip" unit 0 hunk 0\n'
        '         U "get" unit 0 hunk 0\n'
        '00000004 t "loop" unit 0 hunk 0\n'
        '00000002 t "main" unit 0 hunk 0\n'
        '00000000 T "main" unit 0 hunk 0\n'
        '00000000 D "put" unit 1 hunk 0\n'
    )
    program.prints(told, "show", "--names", "x.o")


@test
def a_name_that_another_file_defines_is_not_undefined(program):
    refers, defines = Hunk(CODE, [0]), Hunk(CODE, [0])
    refers.sites, defines.definitions = [(0, b"foo")], [(DEF, b"foo", 0)]
    program.write("refers.o", model.object_file([[refers]]))
    program.write("defines.o", model.object_file([[defines]]))
    undefined = '         U "foo" unit {} hunk 0\n'
    defined = '00000000 T "foo" unit {} hunk 0\n'
    program.prints(undefined.format(0), "show", "--names", "refers.o")
    program.prints(undefined.format(0) + undefined.format(1), "show", "--names", "refers.o", "refers.o")
    program.prints(defined.format(1), "show", "--names", "refers.o", "defines.o")
    program.prints(defined.format(0), "show", "--names", "defines.o", "refers.o")


@test
def the_names_of_random_units_are_listed(program):
    for seed in range(SEEDS):
        dice, units = random.Random(seed), model.random_named_units(seed)
        for unit in units:
            for hunk in unit:
                hunk.definitions = [it for it in hunk.definitions if dice.random() < 0.7]
        files = model.dealt_out(dice, units)
        for number, parts in enumerate(files):
            program.write(f"{number}.o", model.object_file(parts))
        program.prints(model.names_of(units), "show", "--names", *[f"{number}.o" for number in range(len(files))])


@test
def the_names_of_a_load_file_are_its_symbols(program):
    for seed in range(SEEDS):
        units = model.random_named_units(seed)
        hunks = [hunk for unit in units for hunk in unit]
        for hunk in hunks:
            hunk.definitions, hunk.sites = [], []
        program.write("x.o", model.object_file(units))
        program.prints("", "link", "--out", "x", "x.o")
        told = model.names_of([[hunk] for hunk in hunks]).splitlines()
        # Each hunk as a unit of its own: the number of the unit is that of the hunk in the load file.
        rows = [line.rpartition(" unit ")[0] + " hunk " + line.rpartition(" unit ")[2].split()[0] for line in told]
        program.prints("".join(f"{row}\n" for row in rows), "show", "--names", "x")


@test
def files_whose_names_are_not_listed_are_told(program):
    program.write("x", LOAD_FILE)
    program.write("x.o", OBJECT_FILE)
    program.write("bad.o", words(UNIT, 0, CODE, 1, 0x4E714E71, 0x3FF))
    program.fails(DEVICE, "missing: cannot be opened", "show", "--names", "bad.o", "missing")
    program.fails(REFUSED, "bad.o: longword 5: unknown block type 1023", "show", "--names", "x.o", "bad.o")
    program.fails(REFUSED, "bad.o: longword 5: unknown block type 1023", "show", "--names", "bad.o")
    program.fails(REFUSED, "x: longword 0: wrong first longword", "show", "--names", "x.o", "x")
    program.fails(REFUSED, "x: longword 0: wrong first longword", "show", "--names", "x", "x.o")
    with open("/dev/full", "wb") as full:
        program.write("y.o", words(UNIT, 0, CODE, 0, model.SYMBOL, 1, 0x61000000, 0, 0, END))
        equals(program.run("show", "--names", "y.o", stdout=full), (DEVICE, "", "amihunk: output: write failed\n"))


@test
def other_arguments_than_names_are_refused(program):
    program.write("x.o", OBJECT_FILE)
    for words_ in (
        ("--names",),
        ("--names", "x.o", "--json"),
        ("--names", "x.o", "--html"),
        ("--names", "x.o", "--content"),
        ("--names", "x.o", "--explain"),
        ("--json", "--names", "x.o"),
    ):
        status, out, errors = program.run("show", *words_)
        equals((status, out), (2, ""), words_)
        assert errors.startswith("error: ") and "--names" in errors, (words_, errors)
    equals(program.run("show", "--names", "x.o")[0], DONE)
