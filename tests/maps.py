"""The maps of links: what they tell, and what is written when one of OUT and MAP cannot be."""
import os
import random
import resource

import model
from harness import BAD_WORDS, DEVICE, NO_MEMORY, REFUSED, equals, test
from model import ABS, BSS, CODE, DATA, DEF, END, UNIT, Hunk, Unit, words
from runs import LITTLE_MEMORY, LOAD_FILE, OBJECT_FILE, write_parts

# The map of OBJECT_FILE as the file x.o.
MAP = 'hunk 0 code any 1 longwords x.o unit 0 "" hunk 0 ""\n'


@test
def a_map_tells_where_each_hunk_is_from(program):
    for seed in range(100):
        dice, units = random.Random(seed), model.random_named_units(seed)
        parts = model.dealt_out(dice, units)
        files = list(zip(write_parts(program, seed, parts), parts))
        dice.shuffle(files)
        names, options = [name for name, _ in files], model.random_options(dice)
        program.prints("", "link", "--out", "plain", *options, *names)
        program.prints("", "link", "--out", "out", "--map", "map", *options, *names)
        equals(program.read("out"), program.read("plain"), seed)
        equals(program.read("map"), model.map_of(files).encode(), seed)


@test
def a_map_has_the_names_of_the_files(program):
    code, zeros = Hunk(CODE, [0, 0], b"CODE"), Hunk(BSS, [0, 0], memory="chip")
    code.definitions = [(DEF, b"main", 0), (ABS, b'a"\\\n\xff', 0x80000000)]
    data = Hunk(DATA, [], b"\xc3\xa9", "fast")
    data.definitions = [(DEF, b"", 0xFFFFFFFF)]
    program.write("x.o", model.object_file([Unit([code, zeros], b"test")]))
    program.write("a lib\xe9.o", model.object_file([Unit([], b"none"), [Hunk(CODE, [])], [], [data]]))
    text = (
        'hunk 0 code any 0 longwords "a lib\\xc3\\xa9.o" unit 1 "" hunk 0 ""\n'
        'hunk 1 data fast 0 longwords "a lib\\xc3\\xa9.o" unit 3 "" hunk 0 "\\xc3\\xa9"\n'
        '  define "" at ffffffff\n'
        'hunk 2 code any 2 longwords ./x.o unit 0 "test" hunk 0 "CODE"\n'
        '  define "main" at 00000000\n'
        '  define "a\\x22\\x5c\\x0a\\xff" as 80000000\n'
        'hunk 3 bss chip 2 longwords ./x.o unit 0 "test" hunk 1 ""\n'
    )
    program.write("map", b"x" * 1000)
    program.prints("", "link", "--out", "out", "--map", "map", "a lib\xe9.o", "./x.o")
    equals(program.read("map"), text.encode())


@test
def a_map_does_not_replace_the_load_file_or_one_of_the_files(program):
    program.write("x.o", OBJECT_FILE)
    for file in ("x.o", "missing"):
        program.fails(BAD_WORDS, "out: given for both --out and --map", "link", "--out", "out", "--map", "out", file)
        assert not os.path.exists(program.at("out"))
    program.fails(BAD_WORDS, "x.o: given for both --out and --map", "link", "-o", "x.o", "--map", "x.o", "x.o")
    program.fails(BAD_WORDS, "x.o: given for both --map and FILE", "link", "--map", "x.o", "--out", "out", "x.o")
    equals(program.tree(), {"x.o": OBJECT_FILE})


@test
def many_files_have_a_map_with_few_open_at_once(program):
    program.write("x.o", OBJECT_FILE)
    line = MAP.partition("hunk 0 ")[2]
    program.prints("", "link", "--out", "out", "--map", "map", *["x.o"] * 200, limit=(resource.RLIMIT_NOFILE, 48))
    equals(program.read("map"), "".join(f"hunk {number} {line}" for number in range(200)).encode())
    program.prints("load file: 200 hunks\n", "check", "out")


@test
def out_is_whole_where_a_map_cannot_be_written(program):
    program.write("x.o", OBJECT_FILE)
    program.write("long.o", model.object_file([[Hunk(CODE, [])] * 5000]))
    program.prints("", "link", "--out", "long", "long.o")
    os.mkdir(program.at("folder"))
    for map_, told in (("folder", "cannot be opened"), ("no/map", "cannot be opened"), ("/dev/full", "write failed")):
        for name, load_file in (("x.o", LOAD_FILE), ("long.o", program.read("long"))):
            program.write("out", b"was here")
            program.fails(DEVICE, f"{map_}: {told}", "link", "--out", "out", "--map", map_, name)
            equals(program.read("out"), load_file)


@test
def a_map_is_not_touched_where_out_is_not_written(program):
    refers = Hunk(CODE, [0])
    refers.sites = [(0, b"draw")]
    program.write("x.o", OBJECT_FILE)
    program.write("bad.o", b"abc")
    program.write("refers.o", model.object_file([[refers]]))
    # An object file that is larger than the memory.
    program.write("large.o", words(UNIT, 0, CODE, 10 << 20) + bytes(40 << 20) + words(END))
    os.mkdir(program.at("folder"))
    for out, file, status, line, limit in (
        ("out", "missing", DEVICE, "missing: cannot be opened", None),
        ("out", "folder", DEVICE, "folder: read failed", None),
        ("out", "bad.o", REFUSED, "bad.o: longword 0: file ends inside a longword", None),
        ("out", "refers.o", REFUSED, 'link: unit 0 hunk 0: "draw" not defined', None),
        ("out", "large.o", NO_MEMORY, "out of memory", LITTLE_MEMORY),
        ("no/out", "x.o", DEVICE, "no/out: cannot be opened", None),
        ("/dev/full", "x.o", DEVICE, "output: write failed", None),
    ):
        command = ("link", "--out", out, "--map", "map", file)
        program.fails(status, line, *command, limit=limit)
        assert not os.path.exists(program.at("out")) and not os.path.exists(program.at("map")), line
        program.write("out", b"was here")
        program.write("map", b"was here")
        program.fails(status, line, *command, limit=limit)
        equals((program.read("out"), program.read("map")), (b"was here", b"was here"), line)
        os.remove(program.at("out"))
        os.remove(program.at("map"))
