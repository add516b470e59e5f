"""The commands over real files: what they print and write, how they end, and what they leave as it was."""
import os
import random
import resource
import subprocess

import model
from harness import BAD_WORDS, DEVICE, NO_MEMORY, REFUSED, equals, test
from model import ABS, CODE, DATA, DEF, END, HEADER, Hunk, words

# A load file of one hunk of one longword, and an object file of one.
LOAD_FILE = words(HEADER, 0, 1, 0, 0, 1, CODE, 1, 0x4E754E71, END)
OBJECT_FILE = model.object_file([[Hunk(CODE, [0x4E754E71])]])
REPORT = "hunk 0 at 00010000 size 4\n00010000 4e754e71\n"
# A load file of 64 MiB of zeros, of which it holds none, and less memory than that.
LARGE_FILE = words(HEADER, 0, 1, 0, 0, 1 << 24, CODE, 0, END)
LITTLE_MEMORY = (resource.RLIMIT_AS, 40 << 20)
RECORDS = "S00A0000616D6968756E6B08\nS309000100004E754E7173\nS70500000000FA\n"


def write_parts(program, seed, parts):
    """Writes the object file of each of some lists of units, and returns the names of the files."""
    files = [f"{seed}-{number}.o" for number in range(len(parts))]
    for file, part in zip(files, parts):
        program.write(file, model.object_file(part))
    return files


@test
def random_units_are_linked_and_loaded_as_their_memory(program):
    for seed in range(400):
        dice, units = random.Random(seed), model.random_units(seed)
        bases = model.random_bases(seed, units)
        memory = model.memory_of(units, bases)
        report, records, at = model.report_of(bases, memory), model.records_of(bases, memory), model.addresses(bases)
        parts = model.dealt_out(dice, units)
        files, options = write_parts(program, seed, parts), model.random_options(dice)
        program.prints("", "link", "--out", "out", *options, *files)
        program.prints(report, "load", "--at", at, "out")
        program.prints(report, "image", "--at", at, *files)
        between = [dice.choice((",", " ", "\n", "\r\n", ", ", "\n\n")) for _ in bases]
        program.write("addresses", "".join(f"{base:X}{it}" for base, it in zip(bases, between)).encode())
        program.prints(report, "load", "--at-file", "addresses", "out")
        program.prints(report, "image", "--at-file", "addresses", *files)
        program.prints(f"load file: {len(bases)} hunks\n", "check", "out")
        program.prints(f"object file: {len(parts[0])} units, {sum(map(len, parts[0]))} hunks\n", "check", files[0])
        program.prints(records, "load", "--at", at, "--srec", "out")
        symbols = model.symbols_of(units, bases)
        program.prints("" if "--strip" in options else symbols, "load", "--at", at, "--symbols", "out")
        program.prints(symbols, "image", "--at", at, "--symbols", *files)
        program.prints(records, "image", "--srec", "--at", at, *files)


@test
def relocations_in_any_order_are_linked_and_loaded_as_their_memory(program):
    longwords = 4 << 10
    for order in ("rising", "falling", "random"):
        dice = random.Random(order)
        code = Hunk(CODE, [dice.randrange(model.MODULUS) for _ in range(longwords)])
        table = Hunk(DATA, [1, 2])
        table.definitions = [(DEF, b"table", 4), (ABS, b"number", 0xFFFFFFF0)]
        # Three of four longwords, so that most pages have more sites than are kept in a list.
        offsets = [4 * place for place in range(longwords) if place % 4]
        if order == "random":
            dice.shuffle(offsets)
        sites = [(offset, dice.choice((0, 1, b"table", b"number"))) for offset in offsets]
        code.sites = sites[::-1] if order == "falling" else sites
        units, bases = [[Hunk(model.BSS, [0, 0, 0])], [code, table]], [0x2000, 0x100000, 0x10]
        report, at = model.report_of(bases, model.memory_of(units, bases)), model.addresses(bases)
        files = write_parts(program, order, [[unit] for unit in units])
        for options in ([], ["--short", "--trim"]):
            program.prints("", "link", "--out", "out", *options, *files)
            program.prints(report, "load", "--at", at, "out")
        program.prints(report, "image", "--at", at, *files)


@test
def a_listing_tells_what_is_in_a_file(program):
    code, zeros = Hunk(CODE, [0, 0]), Hunk(model.BSS, [0, 0])
    code.sites, code.definitions = [(2, 1)], [(DEF, b"main", 0), (ABS, b'a"b', 0x80000000)]
    code.symbols, code.debugs = [(b"loop", 6)], [[7]]
    program.write("x.o", model.object_file([[code, zeros]]))
    listing = (
        'object file: 1 units, 2 hunks\nunit 0 ""\nhunk 0 code any 2 longwords ""\n  00000002 adds hunk 1\n'
        '  define "main" at 00000000\n  define "a\\x22b" as 80000000\n  symbol "loop" 00000006\n  debug 1\n'
        'hunk 1 bss any 2 longwords ""\n'
    )
    program.prints(listing, "show", "x.o")
    program.prints("", "link", "--out", "x", "x.o")
    listing = (
        "load file: 2 hunks\nhunk 0 code any 2 longwords, 2 stored\n  00000002 adds hunk 1\n"
        '  symbol "loop" 00000006\n  debug 1\nhunk 1 bss any 2 longwords, 0 stored\n'
    )
    program.prints(listing, "show", "x")
    program.prints("", "link", "--strip", "--trim", "--out", "x", "x.o")
    listing = (
        "load file: 2 hunks\nhunk 0 code any 2 longwords, 2 stored\n  00000002 adds hunk 1\n"
        "hunk 1 bss any 2 longwords, 0 stored\n"
    )
    program.prints(listing, "show", "x")


@test
def symbols_are_printed_with_their_addresses(program):
    code, data = Hunk(CODE, [0, 0]), Hunk(DATA, [0])
    code.symbols, data.symbols = [(b"loop", 6), (b'a"\xff', 0xFFFFFFFF)], [(b"loop", 4)]
    program.write("x.o", model.object_file([[code, Hunk(model.BSS, [0])], [data]]))
    program.prints("", "link", "--out", "x", "x.o")
    lines = '00010006 hunk 0 "loop"\n0000ffff hunk 0 "a\\x22\\xff"\n00000000 hunk 2 "loop"\n'
    program.prints(lines, "load", "--at", "10000,20000,fffffffc", "--symbols", "x")
    program.fails(REFUSED, "places: wrong number of addresses", "load", "--symbols", "--at", "10000", "x")
    program.fails(REFUSED, "places: hunk 2 passes the end of memory", "load", "--symbols", "--at", "0,8,fffffffd", "x")
    program.fails(REFUSED, "places: hunks 0 and 2 overlap", "load", "--symbols", "--at", "0,8,4", "x")
    program.fails(REFUSED, "x.o: longword 0: wrong first longword", "load", "--symbols", "--at", "0", "x.o")
    program.fails(BAD_WORDS, "--at: part 1 is not 1 to 8 hexadecimal digits", "load", "--symbols", "--at", "0,", "missing")
    program.fails(DEVICE, "missing: cannot be opened", "load", "--symbols", "--at", "0", "missing")
    program.write("plain", LOAD_FILE)
    program.prints("", "load", "--at", "0", "--symbols", "plain")
    with open("/dev/full", "wb") as full:
        program.fails(DEVICE, "output: write failed", "load", "--at", "0,8,10", "--symbols", "x", stdout=full)


@test
def a_survey_tells_what_each_file_is(program):
    program.write("a.o", OBJECT_FILE)
    program.write("a", LOAD_FILE)
    program.write("text", b"no hunk file")
    program.write("cut", LOAD_FILE[:-1])
    os.mkdir(program.at("folder"))
    hunks = "a.o: object file: 1 units, 1 hunks\na: load file: 1 hunks\n"
    none = "0 refused, of which 0 are no hunk files\n"
    program.prints(f"{hunks}2 files: 1 object files, 1 load files, 0 refused, 0 unreadable\n{none}", "survey", "a.o", "a")
    refused = "text: longword 0: wrong first longword\ncut: longword 9: file ends inside a longword\n"
    strangers = "2 refused, of which 1 are no hunk files\n"
    totals = f"4 files: 1 object files, 1 load files, 2 refused, 0 unreadable\n{strangers}"
    equals(program.run("survey", "text", "cut", "a.o", "a"), (REFUSED, refused + hunks + totals, ""))
    unread = "folder: is a directory\nmissing: cannot be opened\n/dev/null: not a regular file\n"
    totals = f"7 files: 1 object files, 1 load files, 2 refused, 3 unreadable\n{strangers}"
    words_ = ("survey", "folder", "missing", "/dev/null", "text", "cut", "a.o", "--", "a")
    equals(program.run(*words_), (DEVICE, unread + refused + hunks + totals, ""))
    for name, shown in (("a\nb: load file", '"a\\x0ab: load file"'), ("caf\xe9", '"caf\\xc3\\xa9"'), ('"a:b" \\', '"a:b" \\'), ("\x1b[2J", '"\\x1b[2J"')):
        program.write(name, LOAD_FILE)
        totals = f"1 files: 0 object files, 1 load files, 0 refused, 0 unreadable\n{none}"
        program.prints(f"{shown}: load file: 1 hunks\n{totals}", "survey", name)
    files, limit = ["a"] * 200, (resource.RLIMIT_NOFILE, 16)
    totals = f"200 files: 0 object files, 200 load files, 0 refused, 0 unreadable\n{none}"
    program.prints("a: load file: 1 hunks\n" * 200 + totals, "survey", *files, limit=limit)


@test
def files_that_are_refused_are_named_with_the_place(program):
    rows = (
        (b"", 0, "file ends too early"),
        (LOAD_FILE[:-4], 9, "file ends too early"),
        (LOAD_FILE[:-1], 9, "file ends inside a longword"),
        (LOAD_FILE + words(0), 10, "data after the last hunk"),
        (words(HEADER, 1), 1, "resident library names not supported"),
        (words(HEADER, 0, 1, 0, 0, 1, CODE, 2, 0, 0, END), 7, "block longer than its hunk"),
    )
    name = "a file\xe9"
    for bytes_, place, reason in rows:
        program.write(name, bytes_)
        for command in (["load", "--at", "0"], ["load", "--srec", "--at", "0"], ["check"], ["show"], ["show", "--json"], ["show", "--html"]):
            program.fails(REFUSED, f"{name.encode().decode('latin-1')}: longword {place}: {reason}", *command, name)


@test
def hunks_that_cannot_be_placed_are_refused(program):
    program.write("x.o", model.object_file([[Hunk(CODE, [0]), Hunk(DATA, [0, 0])]]))
    program.prints("", "link", "--out", "x", "x.o")
    for list_, reason in (
        ("0", "wrong number of addresses"),
        ("0,4,8", "wrong number of addresses"),
        ("fffffffd,0", "hunk 0 passes the end of memory"),
        ("3,0", "hunks 0 and 1 overlap"),
    ):
        program.write("list", list_.encode())
        for options in (["--at", list_], ["--at", list_, "--srec"], ["--at-file", "list"]):
            program.fails(REFUSED, f"places: {reason}", "load", *options, "x")
            program.fails(REFUSED, f"places: {reason}", "image", *options, "x.o")
    program.prints("hunk 0 at fffffffc size 4\nfffffffc 00000000\nhunk 1 at fffffff4 size 8\nfffffff4 0000000000000000\n",
                   "load", "--at", "FFFFFFFC,fffffff4", "x")


@test
def addresses_come_from_a_file(program):
    hunks = 65535
    program.write("most", words(HEADER, 0, hunks, 0, hunks - 1, *[0] * hunks) + words(CODE, 0, END) * hunks)
    program.write("addresses", b"".join(b"%x\n" % (8 * hunk) for hunk in range(hunks)))
    report = "".join(f"hunk {hunk} at {8 * hunk:08x} size 0\n" for hunk in range(hunks))
    program.prints(report, "load", "--at-file", "addresses", "most")
    program.write("x", LOAD_FILE)
    program.prints(REPORT, "load", "--at-file", "/dev/stdin", "x", input=b", 00010000\r\n")
    program.prints(REPORT, "load", "--at-file", "/dev/stdin", "x", input=b"\t10000\t")
    program.write("none", b" \n,\r")
    program.fails(REFUSED, "places: wrong number of addresses", "load", "--at-file", "none", "x")
    # They are known before FILE is opened, and their file may be FILE.
    os.mkdir(program.at("folder"))
    program.fails(DEVICE, "no file: cannot be opened", "load", "--at-file", "no file", "missing")
    program.fails(DEVICE, "folder: read failed", "image", "--at-file", "folder", "missing")
    program.fails(BAD_WORDS, "x: part 0 is not 1 to 8 hexadecimal digits", "load", "--at-file", "x", "x")
    program.fails(DEVICE, "missing: cannot be opened", "load", "--at-file", "addresses", "missing")


@test
def a_file_of_addresses_has_its_limits(program):
    program.write("x", LOAD_FILE)
    most = 16 << 20
    many, long = "more than 65535 addresses", "more than 16777216 bytes"
    program.prints(REPORT, "load", "--at-file", "/dev/stdin", "x", input=b"\n" * (most - 5) + b"10000")
    for told, input in ((many, b"8\n" * 65536), (many, b"8," * 65535 + b"8"), (long, b"\n" * (most - 4) + b"10000")):
        program.fails(BAD_WORDS, f"/dev/stdin: {told}", "load", "--at-file", "/dev/stdin", "x", input=input)
        program.fails(BAD_WORDS, f"/dev/stdin: {told}", "image", "--explain", "--at-file", "/dev/stdin", "missing", input=input)
    # What never ends is refused too, in little memory.
    for told, line in ((many, "1000"), (long, ""), (long, "\t")):
        for command in (("load", "x"), ("image", "x.o")):
            with subprocess.Popen(("yes", line), stdout=subprocess.PIPE) as yes:
                try:
                    program.fails(BAD_WORDS, f"/dev/stdin: {told}", *command, "--at-file", "/dev/stdin", stdin=yes.stdout, limit=LITTLE_MEMORY)
                finally:
                    yes.kill()


@test
def units_that_do_not_link_are_refused_and_out_is_not_touched(program):
    refers, defines = Hunk(CODE, [0]), Hunk(CODE, [0])
    refers.sites, defines.definitions = [(0, b"draw")], [(DEF, b"draw", 0)]
    far = Hunk(CODE, [0])
    far.sites = [(0, 1)]
    program.write("refers.o", model.object_file([[refers]]))
    program.write("defines.o", model.object_file([[Hunk(DATA, []), defines]]))
    program.write("far.o", model.object_file([[far]]))
    program.write("none.o", model.object_file([[]]))
    for files, reason in (
        (["none.o"], "no hunks"),
        (["none.o", "refers.o"], 'unit 1 hunk 0: "draw" not defined'),
        (["defines.o", "refers.o", "defines.o"], 'unit 2 hunk 1: "draw" defined again'),
        (["far.o"], "unit 0 hunk 0: no hunk 1 in its unit"),
    ):
        program.write("out", b"was here")
        program.fails(REFUSED, f"link: {reason}", "link", "--out", "out", *files)
        program.fails(REFUSED, f"link: {reason}", "image", "--at", "0", *files)
        program.fails(REFUSED, f"link: {reason}", "image", "--srec", "--at", "0", *files)
        program.fails(REFUSED, f"link: {reason}", "link", "--out", "new", *files)
        equals(program.read("out"), b"was here")
        assert not os.path.exists(program.at("new"))


@test
def out_may_be_one_of_the_files_and_is_shortened(program):
    program.write("x.o", OBJECT_FILE)
    program.write("y", OBJECT_FILE + b"")
    program.write("long", b"x" * 1000)
    program.prints("", "link", "--out", "y", "y")
    program.prints("", "link", "--out", "long", "x.o")
    equals(program.read("y"), LOAD_FILE)
    equals(program.read("long"), LOAD_FILE)


@test
def what_cannot_be_opened_or_created_is_named(program):
    program.write("x.o", OBJECT_FILE)
    program.write("bad.o", b"abc")
    for command in (["check"], ["show"], ["show", "--json"], ["show", "--html"], ["load", "--at", "0"]):
        program.fails(DEVICE, "missing: cannot be opened", *command, "missing")
    # All files are opened, in order, before the first is read.
    many = ["bad.o"] * 40
    program.fails(DEVICE, "missing: cannot be opened", "image", "--at", "0", *many, "missing")
    program.fails(DEVICE, "missing: cannot be opened", "link", "--out", "out", *many, "missing", "none")
    program.fails(DEVICE, "no/out: cannot be opened", "link", "--out", "no/out", "x.o")
    program.fails(REFUSED, "bad.o: longword 0: file ends inside a longword", "link", "--out", "no/out", "x.o", "bad.o")


@test
def a_failed_read_is_named(program):
    os.mkdir(program.at("folder"))
    for command in (["check"], ["show"], ["show", "--json"], ["show", "--html"], ["load", "--at", "0"], ["image", "--at", "0"],
                    ["link", "--out", "out"]):
        program.fails(DEVICE, "folder: read failed", *command, "folder")
    assert not os.path.exists(program.at("out"))


@test
def a_failed_write_is_told(program):
    program.write("x.o", OBJECT_FILE)
    program.write("x", LOAD_FILE)
    program.write("list", b"0")
    program.fails(DEVICE, "output: write failed", "link", "--out", "/dev/full", "x.o")
    program.fails(DEVICE, "output: write failed", "link", "-s", "-o", "/dev/full", "x.o")
    with open("/dev/full", "wb") as full:
        for command in (["check", "x"], ["show", "x"], ["show", "--json", "x"], ["show", "--json", "x.o"], ["show", "--json", "--content", "x"],
                        ["show", "--html", "x.o"], ["load", "--at", "0", "x"], ["load", "--srec", "--at", "0", "x"],
                        ["load", "--at-file", "list", "x"], ["image", "--at", "0", "x.o"], ["image", "--srec", "--at", "0", "x.o"],
                        ["image", "--at-file", "list", "x.o"], ["survey", "x", "x.o"], ["--version"], ["-V"], ["--help"]):
            program.fails(DEVICE, "output: write failed", *command, stdout=full)
    # Where standard output is closed, FILE may get its number.
    for command in (["check", "x"], ["show", "x"], ["show", "--json", "--content", "x"], ["show", "--html", "x"], ["load", "--at", "0", "x"]):
        program.fails(DEVICE, "output: write failed", *command, before=lambda: os.close(1))


@test
def a_line_that_cannot_be_written_changes_no_status(program):
    program.write("x", LOAD_FILE[:-1])
    program.write("large", LARGE_FILE)
    with open("/dev/full", "wb") as full:
        equals(program.run("check", "x", stderr=full), (REFUSED, "", ""))
        equals(program.run("check", "missing", stderr=full), (DEVICE, "", ""))
        equals(program.run("load", "--at", "-", "x", stderr=full)[0], BAD_WORDS)
        equals(program.run("load", "--at", "0", "large", stderr=full, limit=LITTLE_MEMORY), (NO_MEMORY, "", ""))


@test
def a_file_that_asks_for_too_much_memory_is_told(program):
    program.write("large", LARGE_FILE)
    program.fails(NO_MEMORY, "out of memory", "load", "--at", "0", "large", limit=LITTLE_MEMORY)
    # No image is made where none can be placed, and none to check a file.
    program.fails(REFUSED, "places: hunk 0 passes the end of memory", "load", "--at", "fffffff0", "large", limit=LITTLE_MEMORY)
    program.prints("load file: 1 hunks\n", "check", "large", limit=LITTLE_MEMORY)


@test
def nothing_is_printed_of_a_file_with_a_bad_end(program):
    long = Hunk(CODE, list(range(5000)))
    program.write("x.o", model.object_file([[long]]))
    program.prints("", "link", "--out", "x", "x.o")
    program.write("x", program.read("x")[:-1])
    program.write("x.o", program.read("x.o") + b"\0")
    for command, name, place in (
        (["load", "--at", "0"], "x", 5008), (["show"], "x", 5008), (["show", "--json"], "x", 5008), (["show", "--json"], "x.o", 5005),
        (["show", "--json", "--content"], "x", 5008), (["show", "--html"], "x", 5008), (["show", "--html"], "x.o", 5005),
        (["image", "--at", "0"], "x.o", 5005),
    ):
        program.fails(REFUSED, f"{name}: longword {place}: file ends inside a longword", *command, name)


@test
def a_file_may_come_through_a_pipe(program):
    program.prints(REPORT, "load", "--at", "10000", "/dev/stdin", input=LOAD_FILE)
    program.prints(RECORDS, "image", "--srec", "--at", "10000", "/dev/stdin", input=OBJECT_FILE)
    program.fails(REFUSED, "/dev/stdin: longword 9: file ends too early", "load", "--at", "0", "/dev/stdin", input=LOAD_FILE[:-4])


@test
def many_files_are_linked_with_few_open_at_once(program):
    for number in range(200):
        hunk = Hunk(CODE, [0, number])
        hunk.sites, hunk.definitions = [(0, b"%d" % ((number + 1) % 200))], [(DEF, b"%d" % number, 4)]
        program.write(f"{number}.o", model.object_file([[hunk]]))
    files, limit = [f"{number}.o" for number in range(200)], (resource.RLIMIT_NOFILE, 48)
    bases = list(range(0x1000, 0x1000 + 200 * 8, 8))
    memory = [words(bases[(number + 1) % 200] + 4, number) for number in range(200)]
    program.prints(model.report_of(bases, memory), "image", "--at", model.addresses(bases), *files, limit=limit)
    program.prints("", "link", "--out", "out", *files, limit=limit)
    program.prints(model.report_of(bases, memory), "load", "--at", model.addresses(bases), "out")
