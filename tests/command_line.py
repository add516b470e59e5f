"""What the words of a command line mean, and what is told of those that mean nothing."""
import base64
import os
import re

import model
from harness import BAD_WORDS, DEVICE, DONE, REFUSED, equals, test
from model import CODE, END, HEADER, RELOC32, RELOC32SHORT, SYMBOL, Hunk, words

HERE = os.path.dirname(os.path.abspath(__file__))
# Files, some of which are named as an option or as a command, and the first longword of each one's hunk.
FILES = {"x": 1, "y": 2, "z": 3, "link": 4, "strip": 5, "--strip": 6, "--short": 7, "--trim": 8, "--at": 9, "--srec": 10,
         "--at-file": 11, "--map": 12, "--json": 13, "--content": 14, "--html": 15, "--symbols": 16, "--globals": 17}


def write_files(program):
    """Each file has one hunk of two longwords, with a site for itself and a symbol."""
    for name, number in FILES.items():
        hunk = Hunk(CODE, [number, 0])
        hunk.sites, hunk.symbols = [(0, 0)], [(b"s", 0)]
        program.write(name, model.object_file([[hunk]]))


def load_file(names, options):
    """The load file of the files with these names, in which the options leave out or shorten what they are for."""
    parts = [words(HEADER, 0, len(names), 0, len(names) - 1, *[2] * len(names))]
    for hunk, name in enumerate(names):
        parts.append(words(CODE, 1, FILES[name]) if "trim" in options else words(CODE, 2, FILES[name], 0))
        parts.append(words(RELOC32SHORT, 1 << 16 | hunk, 0) if "short" in options else words(RELOC32, 1, hunk, 0, 0))
        if "strip" not in options:
            parts.append(words(SYMBOL, 1) + b"s\0\0\0" + words(0, 0))
        parts.append(words(END))
    return b"".join(parts)


def map_of(names):
    """The map of their link."""
    return "".join(f'hunk {hunk} code any 2 longwords {name} unit 0 "" hunk 0 ""\n' for hunk, name in enumerate(names))


# The words of a link into the file o, with a map in the file m, its options and its files.
LINKS = (
    ("--out o x", "", "x"),
    ("--out o x y x", "", "x y x"),
    ("--out o --strip x y", "strip", "x y"),
    ("--strip --out=o x", "strip", "x"),
    ("x --strip y --out o z", "strip", "x y z"),
    ("x y --out=o --strip", "strip", "x y"),
    ("--out o -- --strip x", "", "--strip x"),
    ("--out o link strip", "", "link strip"),
    ("--out o --short x y", "short", "x y"),
    ("--out o --trim x y", "trim", "x y"),
    ("x --short y --out=o", "short", "x y"),
    ("x y --out=o --trim", "trim", "x y"),
    ("--trim --short --out o x y", "short trim", "x y"),
    ("--short x y --strip --out=o", "strip short", "x y"),
    ("--out=o --strip --trim x y", "strip trim", "x y"),
    ("--trim x --out=o --strip y --short", "strip short trim", "x y"),
    ("--out o -- --short --trim", "", "--short --trim"),
    ("-o o x y", "", "x y"),
    ("-s -o o x y", "strip", "x y"),
    ("x -so o y", "strip", "x y"),
    ("-oo x y -s", "strip", "x y"),
    ("-o=o --strip x y", "strip", "x y"),
    ("x -s --out o y", "strip", "x y"),
    ("--out o --map m x y", "map", "x y"),
    ("--map=m x --out=o y x", "map", "x y x"),
    ("x y -so o --map m", "strip map", "x y"),
    ("--trim --map m -oo --short x y", "short trim map", "x y"),
    ("--out o --globals x y", "", "x y"),
    ("x --globals -so o y", "strip", "x y"),
    ("--trim --globals --short --out=o x", "short trim", "x"),
    ("--out o -- --globals x", "", "--globals x"),
    ("--out o -- --map x", "", "--map x"),
    ("--map m --out o -- --json --map", "map", "--json --map"),
)


@test
def the_words_of_a_link_come_in_any_order(program):
    write_files(program)
    for line, options, names in LINKS:
        program.write("o", b"")
        program.write("m", b"")
        program.prints("", "link", *line.split())
        equals(program.read("o"), load_file(names.split(), options.split()), line)
        equals(program.read("m"), map_of(names.split()).encode() if "map" in options else b"", line)


# The words of `image` at the addresses 0, 100 and 200, as many as there are files: the addresses are put in for LIST, and into
# the file `list`.
IMAGES = (
    ("--at LIST x", "x"),
    ("--at LIST x y x", "x y x"),
    ("x --at=LIST y", "x y"),
    ("x y --at LIST -- --at", "x y --at"),
    ("--at=LIST x -- --srec", "x --srec"),
    ("--at LIST --srec x", "x"),
    ("x y --srec --at=LIST", "x y"),
    ("--at-file list x y", "x y"),
    ("x --at-file=list y x", "x y x"),
    ("x --srec y --at-file list", "x y"),
    ("--at LIST --symbols x y", "x y"),
    ("x --symbols --at-file=list y", "x y"),
    ("--symbols --at=LIST --srec x", "x"),
    ("x --srec y --at-file list --symbols x", "x y x"),
    ("--srec --at LIST x -- --symbols", "x --symbols"),
    ("--at LIST x -- --at-file", "x --at-file"),
    ("--at-file list -- --at-file --at x", "--at-file --at x"),
)


def memory(names):
    bases = [0, 0x100, 0x200][: len(names)]
    return bases, [words(FILES[name] + base, 0) for name, base in zip(names, bases)]


def text_of(options, bases, contents):
    """What is printed of hunks with these bytes at these bases, each with the symbol `s`, with these options."""
    hunks = [Hunk(CODE, []) for _ in bases]
    for hunk in hunks:
        hunk.symbols = [(b"s", 0)]
    if "--symbols" not in options:
        return (model.records_of if "--srec" in options else model.report_of)(bases, contents)
    if "--srec" in options:
        return model.symbol_records_of(hunks, bases, contents)
    return model.symbols_of([hunks], bases)


@test
def the_words_of_an_image_come_in_any_order(program):
    write_files(program)
    for line, names in IMAGES:
        bases, contents = memory(names.split())
        told = text_of(line.split(" -- ")[0], bases, contents)
        program.write("list", model.addresses(bases).encode())
        program.prints(told, "image", *line.replace("LIST", model.addresses(bases)).split())


@test
def the_words_of_a_load_come_in_any_order(program):
    write_files(program)
    program.write("x", load_file(["x"], []))
    program.write("--at-file", load_file(["x"], []))
    program.write("list", b"10000\n")
    bases, contents = [0x10000], [words(0x10001, 0)]
    for line in ("--at 10000 x", "x --at=10000", "--at 10000 -- x", "--at 10000 -- --at-file",
                 "--at-file list x", "x --at-file=list", "--at-file list -- --at-file",
                 "--at 10000 --srec x", "--srec x --at=00010000", "--srec --at-file list x",
                 "--at 10000 --symbols x", "--symbols x --at=00010000", "x --symbols --at 10000",
                 "--at-file list --symbols x", "--at 10000 --srec --symbols x", "--symbols x --at=00010000 --srec",
                 "x --srec --at-file list --symbols"):
        program.prints(text_of(line.split(" -- ")[0], bases, contents), "load", *line.split())


@test
def the_words_of_a_show_come_in_any_order(program):
    write_files(program)
    listing = 'object file: 1 units, 1 hunks\nunit 0 ""\nhunk 0 code any 2 longwords ""\n  00000000 adds hunk 0\n  symbol "s" 00000000\n'
    for line in ("x", "-- x", "-- --json"):
        program.prints(listing, "show", *line.split())
    document = (
        '{"kind":"object file","units":[{"hunks":[{"debugs":[],"definitions":[],"kind":"code","memory":"any","name":"",'
        '"sites":[{"hunk":0,"offset":0}],"size":2,"symbols":[{"name":"s","value":0}]}],"name":""}]}\n'
    )
    for line in ("--json x", "x --json", "--json -- x", "--json -- --json", "--json -- --content"):
        program.prints(document, "show", *line.split())
    for line, number in (("--json --content x", 1), ("--content x --json", 1), ("y --json --content", 2), ("--content --json -- --html", 15)):
        content = base64.b64encode(words(number, 0)).decode()
        program.prints(document.replace('"size":2', f'"size":2,"content":"{content}","content_offset":16'), "show", *line.split())
    page = program.run("show", "--html", "x")
    assert page[1].startswith("<!doctype html>") and document[:-1] not in page[1], page
    for line in ("x --html", "--html -- x"):
        equals(program.run("show", *line.split()), page, line)
    assert program.run("show", "--html", "--", "--html")[1] not in ("", page[1])


def lines_of(name):
    """The command lines of a file, and the text below each."""
    with open(f"{HERE}/{name}", encoding="utf-8") as file:
        rows = [row.split("\n", 1) for row in file.read().split("\n$ amihunk")[1:]]
    assert rows, name
    return [(line.split(), text) for line, text in rows]


@test
def what_is_no_command_line_is_refused(program):
    for line, text in lines_of("refused.txt"):
        equals(program.run(*line), (BAD_WORDS, "", text), line)


@test
def words_that_are_no_text_are_refused(program):
    write_files(program)
    program.write("list", b"x\0")
    for words_ in (
        [b"check", b"\xff"], [b"show", b"--names", b"x", b"caf\xe9"], [b"link", b"--out", b"caf\xe9", b"x"], [b"image", b"--at", b"\x80", b"x"],
        [b"survey", b"--files-from", b"caf\xe9"], [b"survey", b"--files-from=caf\xe9"], [b"survey", b"--j\xe9"], [b"survey", b"x", b"--", b"-\xff"],
        [b"survey", b"--lines", b"\xff"], [b"survey", b"--help", b"\xff"], [b"--version", b"\xff"], [b"s\xff", b"x"], [b"\xff"],
    ):
        status, out, errors = program.run(*words_)
        equals((status, out), (BAD_WORDS, ""), words_)
        assert "invalid UTF-8 was detected in one or more arguments" in errors, errors


@test
def words_that_are_no_text_are_files_of_a_survey(program):
    write_files(program)
    program.write("list", b"z\0")
    names = [b"caf\xe9", b"x", b"\xff", b"\xc3\xa9", b"caf\xe9", *(b"\xff%d" % number for number in range(20)), b"y"]
    found = "object file: 1 units, 1 hunks"
    lines = [f"{model.shown(name)}: {found if name in (b'x', b'y', b'z') else 'cannot be opened'}" for name in [*names, b"z"]]
    for options in ([b"--files-from", b"list"], [b"--files-from=list", b"--"]):
        status, out, errors = program.run(b"survey", *options, *names)
        equals((status, out.splitlines()[: len(lines)], errors), (DEVICE, lines, ""), options)


@test
def a_hyphen_is_standard_input(program):
    write_files(program)
    program.write("x.load", load_file(["x"], []))
    program.write("-", b"no hunk file")
    given = program.read("x")
    for line in ("show x", "show --json --content x", "show --names x", "check x", "image --at 0 x", "image --at 0,100 y x"):
        wanted = program.run(*line.split())
        equals(wanted[0], DONE, line)
        equals(program.run(*line.removesuffix("x").split(), "-", input=given), wanted, line)
        equals(program.run(*line.removesuffix("x").split(), "--", "-", input=given), wanted, line)
    loaded = program.run("load", "--at", "10000", "x.load")
    equals(program.run("load", "--at", "10000", "-", input=program.read("x.load")), loaded)
    equals(program.run("load", "--at-file", "-", "x.load", input=b"10000\n"), loaded)
    equals(program.run("load", "--at-file=-", "x.load", input=b"10000"), loaded)
    program.prints("", "compare", "-", "x.load", input=program.read("x.load"))
    program.prints("", "compare", "x.load", "-", input=program.read("x.load"))
    program.prints("", "copy", "-oo", "--strip", "-", input=program.read("x.load"))
    equals(program.read("o"), load_file(["x"], ["strip"]))
    program.prints("", "link", "-oo", "y", "-", "z", input=given)
    equals(program.read("o"), load_file(["y", "x", "z"], []))
    program.prints("", "link", "-oo", "--files-from", "-", "--lines", "y", input=b"x\nz")
    equals(program.read("o"), load_file(["y", "x", "z"], []))
    equals(program.run("survey", "-", input=given)[1].splitlines()[0], "/dev/stdin: object file: 1 units, 1 hunks")
    equals(program.run("survey", "--files-from", "-", input=b"x\0y\0")[1].splitlines()[:2], [f"{it}: object file: 1 units, 1 hunks" for it in "xy"])
    program.fails(REFUSED, "./-: longword 0: wrong first longword", "check", "./-")


@test
def help_is_printed(program):
    for line, text in lines_of("help.txt"):
        program.prints(text, *line)
        program.prints(text, *line[:-1], "-h")


@test
def the_version_is_that_of_the_changelog(program):
    with open(f"{HERE}/../CHANGELOG.md", encoding="utf-8") as file:
        newest = re.search(r"^## ([0-9.]+)", file.read(), re.M)[1]
    for word in ("--version", "-V"):
        program.prints(f"amihunk {newest}\n", word)


@test
def a_list_that_is_none_is_refused(program):
    write_files(program)
    program.write("loaded", load_file(["x"], []))
    for list_, part in (("", 0), ("x", 0), ("0,", 1), ("0,,1", 1), ("123456789", 0), ("0x1", 0), ("1 ", 0), ("0,1,-2", 2)):
        line = f"--at: part {part} is not 1 to 8 hexadecimal digits"
        program.fails(BAD_WORDS, line, "load", f"--at={list_}", "loaded")
        program.fails(BAD_WORDS, line, "image", f"--at={list_}", "x")


@test
def a_file_that_has_no_addresses_alone_is_refused(program):
    write_files(program)
    program.write("loaded", load_file(["x"], []))
    for bytes_, part in (
        (b"x", 0), (b"0 1 x 2", 2), (b"0,\n\n12345678,123456789", 2), (b"\r\n0x1\n", 0), (b"0\x0b1", 0), (b"0;1", 0), (b"0 -1", 1), (b"0 1\0", 1),
    ):
        program.write("a list", bytes_)
        line = f"a list: part {part} is not 1 to 8 hexadecimal digits"
        program.fails(BAD_WORDS, line, "load", "--at-file", "a list", "loaded")
        program.fails(BAD_WORDS, line, "image", "--at-file=a list", "x")
