"""What `--explain` tells after the line of a refusal, and that it changes nothing else."""
import contextlib
import itertools
import os
import random
import resource
import socket
import subprocess

import model
from harness import BAD_WORDS, DEVICE, DONE, REFUSED, as_nobody, equals, test
from model import ABS, BSS, CODE, DATA, DEF, END, HEADER, Hunk, UNIT, Unit, words
from runs import LOAD_FILE, OBJECT_FILE, write_parts


def tells(program, line, more, *words_, status=REFUSED, **how):
    """With the flag it tells the line and more, and without it the line alone."""
    program.fails(status, line, *words_, **how)
    equals(program.run(words_[0], "--explain", *words_[1:], **how), (status, "", f"amihunk: {line}\n{more}"), words_)


@test
def a_refused_file_is_explained(program):
    load_file = LOAD_FILE + words(0x1234)
    more = "  at byte 40 (00000028)\n  found 00001234\n  path: hunk 0, after HUNK_END\n  due: the end of the file\n"
    program.write("x", load_file)
    for command in (["load", "--at", "0"], ["load", "--at", "0,1"], ["check"], ["show"], ["show", "--json"]):
        tells(program, "x: longword 10: data after the last hunk", more, *command, "x")
    program.write("x.o", words(UNIT, 0, CODE, 1, 0x4E714E71, END, UNIT, 0, CODE, 1, 0x4E714E71, 0x3FF))
    program.write("y.o", OBJECT_FILE)
    line = "x.o: longword 11: unknown block type 1023"
    more = (
        "  at byte 44 (0000002c)\n  found 000003ff\n  path: unit 1, hunk 0, after HUNK_CODE\n"
        "  due: the type of a block\n"
    )
    for command in (["check"], ["show"], ["link", "--out", "out", "y.o"], ["image", "--at", "0,0", "y.o"]):
        tells(program, line, more, *command, "x.o")
    program.write("cut", LOAD_FILE[:-1])
    more = (
        "  at byte 36 (00000024)\n  found the end of the file, after 3 of the 4 bytes of a longword\n"
        "  path: hunk 0, after HUNK_CODE\n  due: the type of a block\n"
    )
    tells(program, "cut: longword 9: file ends inside a longword", more, "check", "cut")


@test
def a_file_of_the_other_kind_is_told_as_one(program):
    front = "  at byte 0 (00000000)\n  found {}\n  path: start of the file\n  due: {}\n"
    load_file_due, object_file_due = "HUNK_HEADER, which begins a load file", "HUNK_UNIT, which begins an object file"
    program.write("x", LOAD_FILE)
    program.write("x.o", OBJECT_FILE)
    program.write("text", b"no hunk file")
    for command, file, found, due, kind in (
        (("load", "--at", "0"), "x.o", "000003e7", load_file_due, "  kind: object file\n"),
        (("load", "--srec", "--at", "0,1"), "x.o", "000003e7", load_file_due, "  kind: object file\n"),
        (("load", "--symbols", "--at", "0"), "x.o", "000003e7", load_file_due, "  kind: object file\n"),
        (("load", "--srec", "--symbols", "--at", "0"), "x.o", "000003e7", load_file_due, "  kind: object file\n"),
        (("link", "--out", "out", "x.o"), "x", "000003f3", object_file_due, "  kind: load file\n"),
        (("link", "--out", "out", "--map", "map"), "x", "000003f3", object_file_due, "  kind: load file\n"),
        (("image", "--at", "0", "x.o", "x.o"), "x", "000003f3", object_file_due, "  kind: load file\n"),
        (("image", "--symbols", "--at", "0", "x.o"), "x", "000003f3", object_file_due, "  kind: load file\n"),
        # It is of neither kind, and these commands take files of both.
        (("load", "--at", "0"), "text", "6e6f2068", load_file_due, ""),
        (("image", "--at", "0"), "text", "6e6f2068", object_file_due, ""),
        (("check",), "text", "6e6f2068", object_file_due, ""),
        (("show",), "text", "6e6f2068", object_file_due, ""),
    ):
        tells(program, f"{file}: longword 0: wrong first longword", front.format(found, due) + kind, *command, file)
    equals(program.tree(), {"x": LOAD_FILE, "x.o": OBJECT_FILE, "text": b"no hunk file"})


@test
def hunks_that_cannot_be_placed_are_told_beside_the_addresses(program):
    program.write("x.o", model.object_file([[Hunk(CODE, [0]), Hunk(DATA, [0, 0])]]))
    program.prints("", "link", "--out", "x", "x.o")
    program.write("addresses", b"0 fffffffc")
    two = "  hunks: 2, addresses: 2\n  hunk 0: 4 bytes at 00000000\n  hunk 1: 8 bytes at fffffffc\n"
    for command, file in (("load", "x"), ("image", "x.o")):
        one = "  hunks: 2, addresses: 1\n  hunk 0: 4 bytes at 00001000\n  hunk 1: 8 bytes, no address\n"
        tells(program, "places: wrong number of addresses", one, command, "--at", "1000", file)
        tells(program, "places: hunk 1 passes the end of memory", two, command, "--at", "0,fffffffc", file)
        tells(program, "places: hunk 1 passes the end of memory", two, command, "--at-file", "addresses", file)
        tells(program, "places: hunk 1 passes the end of memory", two, command, "--symbols", "--at", "0,fffffffc", file)
        tells(program, "places: hunk 1 passes the end of memory", two, command, "--srec", "--symbols", "--at", "0,fffffffc", file)


@test
def units_that_do_not_link_are_explained(program):
    text, data = Hunk(CODE, [0, 0], b"text"), Hunk(DATA, [0], b"d")
    text.sites, data.sites = [(0, b"go"), (4, b"run")], [(0, b"go")]
    text.definitions = [(DEF, b"main", 0)]
    program.write("one.o", model.object_file([Unit([text], b"one"), Unit([Hunk(BSS, [0]), data], b"two")]))
    again, far = Hunk(CODE, []), Hunk(DATA, [0])
    again.definitions, far.sites = [(ABS, b"go", 1), (ABS, b"run", 2), (ABS, b"main", 7)], [(0, 5)]
    program.write("again.o", model.object_file([Unit([again], b"dup")]))
    program.write("far.o", model.object_file([Unit([Hunk(BSS, [0]), far], b"far")]))
    program.write("none.o", model.object_file([[]]))
    for files, line, more in (
        (["none.o"], "no hunks", ""),
        (
            ["none.o", "one.o"],
            'unit 1 hunk 0: "go" not defined',
            '  unit 1 hunk 0: one.o unit 0 "one" hunk 0 "text"\n'
            '  "go", references: 2, first in one.o unit 0 "one" hunk 0 "text"\n'
            '  "run", references: 1, first in one.o unit 0 "one" hunk 0 "text"\n',
        ),
        (
            ["one.o", "again.o"],
            'unit 2 hunk 0: "main" defined again',
            '  unit 2 hunk 0: again.o unit 0 "dup" hunk 0 ""\n  first defined in one.o unit 0 "one" hunk 0 "text"\n',
        ),
        (["one.o", "far.o"], "unit 2 hunk 1: no hunk 5 in its unit", '  unit 2 hunk 1: far.o unit 0 "far" hunk 1 ""\n'),
    ):
        tells(program, f"link: {line}", more, "link", "--out", "out", *files)
        tells(program, f"link: {line}", more, "link", "--out", "out", "--map", "map", "--strip", *files)
        tells(program, f"link: {line}", more, "image", "--at", "0", *files)
        tells(program, f"link: {line}", more, "image", "--srec", "--symbols", "--at", "0", *files)


@test
def an_explanation_quotes_a_name_that_forges_lines(program):
    hunk, name = Hunk(CODE, [0]), "b: c\n  kind: load file"
    hunk.sites = [(0, b"go")]
    program.write(name, model.object_file([Unit([hunk], b"one")]))
    origin = '"b: c\\x0a  kind: load file" unit 0 "one" hunk 0 ""\n'
    more = f'  unit 0 hunk 0: {origin}  "go", references: 1, first in {origin}'
    tells(program, 'link: unit 0 hunk 0: "go" not defined', more, "link", "--out", "out", name)


def origin_text(files, parts, place):
    """Where a hunk is from, by the numbers of its file, of the unit in it and of the hunk."""
    file, unit, hunk = place
    names = [model.quoted(it) for it in (model.name_of(parts[file][unit]), parts[file][unit][hunk].name)]
    return f"{model.shown(files[file].encode())} unit {unit} {names[0]} hunk {hunk} {names[1]}\n"


def undefined_text(files, parts, uses):
    """What is told of the names that these units lack."""
    first = next(iter(uses.values()))[1]
    number = sum(map(len, parts[: first[0]])) + first[1]
    lines = [f"  {model.quoted(name)}, references: {count}, first in {origin_text(files, parts, place)}"
             for name, (count, place) in uses.items()]
    rest = f"  and {len(lines) - 100} more\n" if len(lines) > 100 else ""
    return f"  unit {number} hunk {first[2]}: {origin_text(files, parts, first)}" + "".join(lines[:100]) + rest


@test
def undefined_names_of_random_units_are_all_told(program):
    compared = 0
    for seed in itertools.count():
        dice, units = random.Random(seed), model.random_named_units(seed)
        hunks = [hunk for unit in units for hunk in unit]
        for hunk in hunks:
            hunk.definitions = [it for it in hunk.definitions if dice.randrange(2)]
        parts = model.dealt_out(dice, units)
        files = write_parts(program, seed, parts)
        uses = model.undefined_names(parts)
        if not uses:
            continue
        told = undefined_text(files, parts, uses)
        status, out, errors = program.run("link", "--out", "out", "--explain", *files)
        equals((status, out, errors.partition("\n")[2]), (REFUSED, "", told), seed)
        compared += 1
        if compared == 50:
            break


def cannot_be_opened(program, name, why, *words_, **how):
    """It ends with the line that this cannot be opened, and with why if it is asked to explain."""
    tells(program, f"{name}: cannot be opened", f"  reason: {why}\n", *words_, status=DEVICE, **how)


def each_file_read(name):
    """The words of the commands that read this, as FILE or as the file of addresses."""
    yield from (("check", name), ("show", name), ("show", "--json", name), ("load", "--at", "0", name), ("image", "--at", "0", "x.o", name))
    yield from (("link", "--out", "out", "x.o", name), ("load", "--at-file", name, "x.o"), ("image", "--at-file", name, "missing too"))
    yield ("copy", "--out", "out", name)


def each_file_written(name):
    """The words of the commands that write this, as OUT or as MAP."""
    yield from (("link", "--out", name, "x.o"), ("link", "--out", name, "--map", "/dev/null", "x.o"))
    yield from (("link", "--out", "/dev/null", "--map", name, "x.o"), ("copy", "--out", name, "x"))


@contextlib.contextmanager
def read_only(program):
    """Names of files on a file system that is read-only: one that root mounts, or else one that is there. A system may have none."""
    folder = program.inside("read-only")
    mount = ("mount", "-t", "tmpfs", "-o", "size=1m,mode=755", "amihunk-test", folder.folder)
    if os.geteuid() == 0 and subprocess.run(mount, stderr=subprocess.DEVNULL).returncode == 0:
        try:
            folder.write("old", OBJECT_FILE)
            subprocess.run(("mount", "-o", "remount,ro", folder.folder), check=True)
            yield ["read-only/old", "read-only/new"]
            equals(folder.tree(), {"old": OBJECT_FILE})
        finally:
            subprocess.run(("umount", "-l", folder.folder), check=True)
    else:
        with open("/proc/self/mounts", encoding="utf-8") as mounts:
            rows = [row.split() for row in mounts]
        yield [f"{row[1]}/new" for row in rows if "ro" in row[3].split(",") and os.path.isdir(row[1])][:1]


@test
def why_a_file_cannot_be_opened_is_told(program):
    program.write("x.o", OBJECT_FILE)
    program.write("x", LOAD_FILE)
    for name, to in (("loop", "pool"), ("pool", "loop"), ("dangling", "nowhere")):
        os.symlink(to, program.at(name))
    os.mkdir(program.at("folder"))
    with socket.socket(socket.AF_UNIX) as server:
        # Its own path may be too long for the name of a socket.
        here = os.open(program.folder, os.O_RDONLY)
        server.bind(f"/proc/self/fd/{here}/socket")
        os.close(here)
    before, long = program.tree(), "n" * 300
    for name, why in (
        ("missing", "no such file or directory"),
        ("no/missing", "no such file or directory"),
        ("dangling", "no such file or directory"),
        ("x.o/missing", "a part of its path is no directory"),
        ("loop", "too many symbolic links"),
        ("loop/missing", "too many symbolic links"),
        (long, "system error 36"),
        ("socket", "system error 6"),
    ):
        for words_ in each_file_read(name):
            cannot_be_opened(program, name, why, *words_)
    for name, why in (
        ("no/new", "no such file or directory"),
        ("x.o/new", "a part of its path is no directory"),
        ("folder", "it is a directory"),
        (".", "it is a directory"),
        ("loop", "too many symbolic links"),
        (long, "system error 36"),
        ("socket", "system error 6"),
    ):
        for words_ in each_file_written(name):
            cannot_be_opened(program, name, why, *words_)
    equals(program.tree(), before)
    with read_only(program) as names:
        for name in names:
            for words_ in each_file_written(name):
                cannot_be_opened(program, name, "the file system is read-only", *words_)
    # One more file may be open than standard input, output and error.
    for words_ in (("image", "--at", "0", "x.o", "x.o"), ("link", "--out", "out", "x.o", "x.o")):
        cannot_be_opened(program, "x.o", "too many open files", *words_, limit=(resource.RLIMIT_NOFILE, 4))
    program.prints("object file: 1 units, 1 hunks\n", "check", "--explain", "x.o", limit=(resource.RLIMIT_NOFILE, 4))


@test
def what_is_not_allowed_is_told(program):
    program = program.for_all()
    for name, mode in (("x.o", 0o644), ("x", 0o644), ("hidden", 0o000), ("locked", 0o444)):
        program.write(name, LOAD_FILE if name == "x" else OBJECT_FILE)
        os.chmod(program.at(name), mode)
    os.mkdir(program.at("closed"))
    os.chmod(program.at("closed"), 0o600)
    names = os.listdir(program.folder)
    os.chmod(program.folder, 0o777)
    for name in ("hidden", "closed/missing"):
        for words_ in each_file_read(name):
            cannot_be_opened(program, name, "not allowed", *words_, before=as_nobody)
    for name in ("hidden", "locked", "closed/new"):
        for words_ in each_file_written(name):
            cannot_be_opened(program, name, "not allowed", *words_, before=as_nobody)
    os.chmod(program.folder, 0o555)
    for words_ in each_file_written("new"):
        cannot_be_opened(program, "new", "not allowed", *words_, before=as_nobody)
    os.chmod(program.folder, 0o755)
    equals(sorted(os.listdir(program.folder)), sorted(names))


@test
def a_directory_is_told_as_one(program):
    program.write("x.o", OBJECT_FILE)
    os.mkdir(program.at("folder"))
    os.symlink("folder", program.at("way"))
    for name in ("folder", "way", ".", "/"):
        for words_ in each_file_read(name):
            tells(program, f"{name}: read failed", "  reason: it is a directory\n", *words_, status=DEVICE)


@test
def what_is_no_refusal_of_a_file_is_told_in_a_line(program):
    program.write("x", LOAD_FILE)
    program.write("y.o", OBJECT_FILE)
    program.prints("load file: 1 hunks\n", "check", "--explain", "x")
    program.fails(DEVICE, "output: write failed", "link", "--explain", "--out", "/dev/full", "y.o")
    program.fails(DEVICE, "/dev/full: write failed", "link", "--explain", "--out", "/dev/null", "--map", "/dev/full", "y.o")
    program.fails(BAD_WORDS, "--at: part 0 is not 1 to 8 hexadecimal digits", "load", "--explain", "--at", "x", "x")
    program.write("x.o", OBJECT_FILE)
    program.fails(BAD_WORDS, "o: given for both --out and --map", "link", "--explain", "--out", "o", "--map", "o", "x.o")
    program.fails(BAD_WORDS, "./x.o: given for both --map and FILE", "link", "--explain", "--out", "o", "--map", "./x.o", "x.o")


@test
def that_a_pipe_cannot_be_explained_is_told(program):
    line = "/dev/stdin: longword 9: file ends too early"
    tells(program, line, "  not explained: only regular files can be read again\n", "load", "--at", "0", "/dev/stdin", input=LOAD_FILE[:-4])


@test
def lines_that_cannot_be_written_change_no_status(program):
    program.write("x", LOAD_FILE + words(0))
    with open("/dev/full", "wb") as full:
        equals(program.run("check", "--explain", "x", stderr=full), (REFUSED, "", ""))
    equals(program.run("check", "x")[0], REFUSED)
    program.write("x", LOAD_FILE)
    equals(program.run("check", "--explain", "x"), (DONE, "load file: 1 hunks\n", ""))
