"""`-` for standard input and standard output, and lists of the files to link."""
import os
import random
import socket
import subprocess

import model
from harness import BAD_WORDS, DEVICE, DONE, REFUSED, equals, test
from maps import MAP
from model import CODE, DEF, END, Hunk, words
from runs import LOAD_FILE, OBJECT_FILE, RECORDS, REPORT

OLD = b"was here" * 500


def write_both(program):
    program.write("x", LOAD_FILE)
    program.write("x.o", OBJECT_FILE)
    program.write("cut", LOAD_FILE[:-1])


def is_refused(program, told, *words_, **how):
    """It is refused as a command line, with this in what it tells."""
    status, out, errors = program.run(*words_, **how)
    equals((status, out), (BAD_WORDS, ""), words_)
    assert errors.startswith("error: ") and told in errors, (words_, errors)


# ---- standard input


@test
def a_dash_is_standard_input(program):
    write_both(program)
    listing = "load file: 1 hunks\nhunk 0 code any 1 longwords, 1 stored\n"
    document, page = (program.run("show", option, "x")[1] for option in ("--json", "--html"))
    objects = program.run("show", "--names", "x.o")[1]
    rows = (
        (LOAD_FILE, "load file: 1 hunks\n", ("check", "-")),
        (OBJECT_FILE, "object file: 1 units, 1 hunks\n", ("check", "--", "-")),
        (LOAD_FILE, listing, ("show", "-")),
        (LOAD_FILE, document, ("show", "--json", "-")),
        (LOAD_FILE, page, ("show", "-", "--html")),
        (OBJECT_FILE, objects, ("show", "--names", "-")),
        (LOAD_FILE, REPORT, ("load", "--at", "10000", "-")),
        (b"10000\n", REPORT, ("load", "--at-file", "-", "x")),
        (LOAD_FILE, RECORDS, ("load", "-", "--srec", "--at=10000")),
        (OBJECT_FILE, REPORT, ("image", "--at", "10000", "-")),
        (b"10000\n", REPORT, ("image", "--at-file=-", "x.o")),
        (LOAD_FILE, "", ("compare", "-", "x")),
        (LOAD_FILE, "", ("compare", "--symbols", "x", "-")),
    )
    for bytes_, told, words_ in rows:
        program.prints(told, *words_, input=bytes_)
        program.write("input", bytes_)
        with open(program.at("input"), "rb", buffering=0) as file:
            # It is opened anew, so others may have read in it.
            file.seek(len(bytes_) // 2)
            program.prints(told, *words_, stdin=file)
    equals(program.run("image", "--at", "0,100", "x.o", "-", input=OBJECT_FILE), program.run("image", "--at", "0,100", "x.o", "x.o"))
    equals(program.run("compare", "-", "x", input=words(model.HEADER, 0, 1, 0, 0, 1, CODE, 0, END)), (1, "hunk 0 offset 00000000: 00 and 4e\n", ""))
    for words_ in (("link", "--out", "out", "-"), ("link", "-o", "out", "--map", "map", "-")):
        program.prints("", *words_, input=OBJECT_FILE)
        equals(program.read("out"), LOAD_FILE)
    equals(program.read("map"), MAP.replace("x.o", "/dev/stdin").encode())
    program.prints("", "copy", "--out", "out", "--normal", "-", input=program.read("x"))
    equals(program.read("out"), LOAD_FILE)


@test
def what_is_wrong_with_standard_input_is_told(program):
    write_both(program)
    line = "/dev/stdin: longword 9: file ends inside a longword"
    for words_ in (("check",), ("show",), ("show", "--names"), ("load", "--at", "0"), ("copy", "--out", "out")):
        program.fails(REFUSED, line, *words_, "-", input=LOAD_FILE[:-1])
    program.fails(REFUSED, "/dev/stdin: longword 5: file ends too early", "link", "--out", "out", "x.o", "-", input=OBJECT_FILE[:-4])
    program.fails(BAD_WORDS, line, "compare", "x", "-", input=LOAD_FILE[:-1])
    program.fails(BAD_WORDS, "/dev/stdin: part 0 is not 1 to 8 hexadecimal digits", "load", "--at-file", "-", "x", input=b"x")
    more = "  not explained: only regular files can be read again\n"
    equals(program.run("check", "--explain", "-", input=LOAD_FILE[:-1]), (REFUSED, "", f"amihunk: {line}\n{more}"))
    # A file that is standard input can be read again.
    with open(program.at("cut"), "rb") as file:
        ended = program.run("check", "--explain", "-", stdin=file)
    equals(ended[:2], (REFUSED, ""))
    assert ended[2].startswith(f"amihunk: {line}\n  at byte 36 (00000024)\n"), ended
    one, other = socket.socketpair()
    with one, other:
        # No other file is read in the place of a standard input that is closed.
        for told, how in (("read failed", {"before": lambda: os.close(0)}), ("cannot be opened", {"stdin": one})):
            for words_ in (("check", "-"), ("copy", "--out", "out", "-"), ("link", "--out", "out", "-"), ("link", "--out", "out", "x.o", "-"), ("compare", "x", "-")):
                program.fails(DEVICE, f"/dev/stdin: {told}", *words_, **how)
    assert not os.path.exists(program.at("out"))


@test
def standard_input_is_named_once(program):
    write_both(program)
    told = "the argument '-' cannot be used multiple times"
    for words_ in (
        ("link", "--out", "o", "-", "-"), ("link", "--out", "o", "-", "x.o", "-"), ("link", "--out", "o", "--files-from", "-", "-"),
        ("survey", "-", "x", "-"), ("survey", "--files-from", "-", "-"), ("compare", "-", "-"), ("compare", "--symbols", "-", "-"),
        ("image", "--at", "0", "-", "-"), ("image", "--at-file", "-", "-"), ("load", "--at-file", "-", "-"), ("show", "--names", "-", "x.o", "-"),
    ):
        is_refused(program, told, *words_, input=OBJECT_FILE)
    assert not os.path.exists(program.at("o"))
    # What is written is another matter.
    equals(program.run("link", "--out", "-", "-", input=OBJECT_FILE), (DONE, LOAD_FILE.decode("latin-1"), ""))


@test
def a_file_of_that_name_is_named_otherwise(program):
    write_both(program)
    program.write("-", LOAD_FILE)
    program.prints("load file: 1 hunks\n", "check", "./-", input=b"")
    program.prints("", "compare", "./-", "x", input=b"")
    program.write("-", OBJECT_FILE)
    for words_ in (("link", "--out", "out", "./-"), ("link", "--out", "./out", "--files-from", "list")):
        program.write("list", b"-\0")
        program.prints("", *words_, input=b"")
        equals(program.read("out"), LOAD_FILE)
    for words_ in (("link", "--out", "./-", "x.o"), ("copy", "--out", "./-", "x")):
        program.write("-", OLD)
        program.prints("", *words_)
        equals(program.read("-"), LOAD_FILE)
    program.prints("", "link", "--out", "out", "--map", "./-", "x.o")
    equals(program.read("-"), MAP.encode())


# ---- standard output


@test
def a_dash_is_standard_output_where_a_file_is_written(program):
    write_both(program)
    program.write("-", OLD)
    before, text = program.tree(), LOAD_FILE.decode("latin-1")
    for words_ in (("link", "--out", "-", "x.o"), ("link", "-o-", "x.o"), ("link", "--strip", "--out=-", "x.o"),
                   ("copy", "--out", "-", "x"), ("copy", "--out", "-", "--normal", "x"), ("copy", "--out", "/dev/stdout", "x")):
        program.prints(text, *words_)
        # A file that is standard output is written where the shell would write.
        for mode, wanted in (("wb", LOAD_FILE), ("ab", OLD + LOAD_FILE)):
            if "/dev/stdout" not in words_:
                program.write("out", OLD)
                with open(program.at("out"), mode) as file:
                    equals(program.run(*words_, stdout=file), (DONE, "", ""))
                equals(program.read("out"), wanted, words_)
                os.remove(program.at("out"))
    equals(program.tree(), before)
    program.prints(MAP, "link", "--out", "out", "--map", "-", "x.o")
    equals(program.read("out"), LOAD_FILE)
    program.prints(text, "link", "--out", "-", "--map", "map", "x.o")
    equals(program.read("map"), MAP.encode())
    program.prints(text, "copy", "--out", "-", "-", input=words(model.HEADER | 1 << 30) + LOAD_FILE[4:])
    program.write("log", b"")
    for _ in range(3):
        with open(program.at("log"), "ab") as log:
            equals(program.run("link", "--out", "-", "x.o", stdout=log), (DONE, "", ""))
    equals(program.read("log"), 3 * LOAD_FILE)
    equals(program.tree(), before | {"out": LOAD_FILE, "map": MAP.encode(), "log": 3 * LOAD_FILE})


@test
def nothing_is_printed_of_what_is_not_made(program):
    write_both(program)
    refers = Hunk(CODE, [0])
    refers.sites = [(0, b"draw")]
    program.write("refers.o", model.object_file([[refers]]))
    program.fails(REFUSED, 'link: unit 0 hunk 0: "draw" not defined', "link", "--out", "-", "refers.o")
    program.fails(REFUSED, 'link: unit 1 hunk 0: "draw" not defined', "link", "--out", "o", "--map", "-", "x.o", "refers.o")
    program.fails(DEVICE, "missing: cannot be opened", "link", "--out", "-", "x.o", "missing")
    program.fails(REFUSED, "cut: longword 9: file ends inside a longword", "copy", "--out", "-", "cut")
    program.fails(DEVICE, "no/map: cannot be opened", "link", "--out", "o", "--map", "no/map", "x.o")
    program.fails(BAD_WORDS, "-: given for both --out and --map", "link", "--out", "-", "--map", "-", "x.o")
    program.fails(BAD_WORDS, "/dev/stdout: given for both --out and --map", "link", "--out", "-", "--map", "/dev/stdout", "x.o")


@test
def a_standard_output_that_takes_nothing_is_told(program):
    write_both(program)
    for words_ in (("link", "--out", "-", "x.o"), ("link", "--out", "-", "--map", "map", "x.o"), ("copy", "--out", "-", "x")):
        with open("/dev/full", "wb") as full:
            program.fails(DEVICE, "output: write failed", *words_, stdout=full)
        program.fails(DEVICE, "output: write failed", *words_, before=lambda: os.close(1))
    assert not os.path.exists(program.at("map"))
    for how in ({"before": lambda: os.close(1)}, {"stdout": "/dev/full"}):
        program.write("out", OLD)
        with open("/dev/full", "wb") as full:
            how = {"stdout": full} if "stdout" in how else how
            program.fails(DEVICE, "-: write failed", "link", "--out", "out", "--map", "-", "x.o", **how)
        equals(program.read("out"), LOAD_FILE)


# ---- lists of the files to link


@test
def files_that_are_listed_are_linked_as_if_they_were_given(program):
    for seed in range(40):
        dice, units = random.Random(seed), model.random_named_units(seed)
        parts, names = model.dealt_out(dice, units), []
        for number, part in enumerate(parts):
            names.append(f"{seed} {number}{dice.choice(('', ' x', chr(0xE9), chr(10)))}.o")
            program.write(names[-1], model.object_file(part))
        options = model.random_options(dice)
        program.prints("", "link", "--out", "wanted", "--map", "map wanted", *options, *names)
        for given in {0, len(names) // 2, len(names) - 1}:
            program.write("list", b"".join(name.encode() + b"\0" for name in names[given:]))
            words_ = ("--out", "out", "--map", "map", *options, "--files-from", "list")
            program.prints("", "link", *names[:given], *words_)
            equals((program.read("out"), program.read("map")), (program.read("wanted"), program.read("map wanted")), seed)


@test
def thousands_of_files_are_listed(program):
    count = 3000
    os.mkdir(program.at("many"))
    for number in range(count):
        hunk = Hunk(CODE, [0, number])
        hunk.sites, hunk.definitions = [(0, b"%d" % ((number + 1) % count))], [(DEF, b"%d" % number, 4)]
        program.write(f"many/{number}.o", model.object_file([[hunk]]))
    names = [f"many/{number}.o" for number in range(count)]
    program.prints("", "link", "--out", "wanted", *names)
    for end, options in ((b"\0", ()), (b"\n", ("--lines",))):
        program.write("list", end.join(map(str.encode, names)))
        program.prints("", "link", "--out", "out", "--files-from", "list", *options)
        equals(program.read("out"), program.read("wanted"))
        program.prints("", "link", "--out", "out", *options, "--files-from", "-", input=program.read("list"))
        equals(program.read("out"), program.read("wanted"))
    with subprocess.Popen(("printf", r"%s\0", *names), stdout=subprocess.PIPE) as printf:
        equals(program.run("link", "--out", "-", "--files-from", "-", stdin=printf.stdout)[1].encode("latin-1"), program.read("wanted"))


@test
def a_list_that_cannot_be_linked_is_told(program):
    write_both(program)
    program.write("out", OLD)
    os.mkdir(program.at("folder"))
    for bytes_, number in ((b"\xff", 0), (b"x.o\0\0\0a\xe9\0missing", 1), (b"x.o\0" * 700 + b"\xed\xa0\x80\0", 700)):
        program.write("list", bytes_)
        line = f"name {number} is not UTF-8"
        program.fails(BAD_WORDS, f"list: {line}", "link", "--out", "out", "--files-from", "list")
        program.fails(BAD_WORDS, f"list: {line}", "link", "--explain", "missing", "--out", "out", "--files-from", "list")
        program.fails(BAD_WORDS, f"/dev/stdin: {line}", "link", "--out", "out", "--files-from", "-", input=bytes_)
        lines = bytes_.replace(b"\0", b"\n")
        program.fails(BAD_WORDS, f"/dev/stdin: {line}", "link", "--out", "out", "--lines", "--files-from", "/dev/stdin", input=lines)
    for list_, told in (("folder", "read failed"), ("missing", "cannot be opened"), ("x/list", "cannot be opened")):
        program.fails(DEVICE, f"{list_}: {told}", "link", "--out", "out", "x.o", "--files-from", list_)
    for bytes_ in (b"", b"\0", b"\0\0\0"):
        program.write("list", bytes_)
        program.fails(REFUSED, "link: no hunks", "link", "--out", "out", "--files-from", "list")
    for bytes_, status, line in (
        (b"x.o\0missing", DEVICE, "missing: cannot be opened"),
        (b"x.o\0cut\0", REFUSED, "cut: longword 0: wrong first longword"),
        (b"cut\0x.o\0missing", DEVICE, "missing: cannot be opened"),
        (b"x.o\nx.o", DEVICE, "x.o\nx.o: cannot be opened"),
        (b"x.o\0" * 50 + b"cut", REFUSED, "cut: longword 0: wrong first longword"),
    ):
        program.write("list", bytes_)
        program.fails(status, line, "link", "--out", "out", "x.o", "--files-from", "list")
    # What explains a failure knows the files of a list as well.
    program.write("list", b"x.o\0cut")
    ended = program.run("link", "--explain", "--out", "out", "--files-from", "list")
    equals(ended[:2], (REFUSED, ""))
    assert "amihunk: cut: longword 0: wrong first longword\n  at byte 0 (00000000)\n" in ended[2] and "kind: load file" in ended[2], ended
    equals(program.read("out"), OLD)
    # A map may not replace a file of the list, and OUT may be one.
    program.write("list", b"x.o")
    program.fails(BAD_WORDS, "x.o: given for both --map and FILE", "link", "--out", "out", "--map", "x.o", "--files-from", "list")
    program.prints("", "link", "--out", "x.o", "--files-from", "list")
    equals(program.read("x.o"), LOAD_FILE)
    program.write("list", LOAD_FILE)
    program.prints("", "copy", "--out", "list", "list")


@test
def lists_that_are_not_given_rightly_are_refused(program):
    write_both(program)
    is_refused(program, "<FILE>...", "survey")
    is_refused(program, "<FILE>...", "link", "--out", "out")
    is_refused(program, "--files-from <LIST>", "survey", "--lines", "x")
    is_refused(program, "--files-from <LIST>", "link", "--out", "out", "--lines", "x.o")
    for command in ("survey", "link"):
        is_refused(program, "'--files-from <LIST>' cannot be used multiple times", command, "--files-from", "a", "--files-from", "b")
    for words_ in (("check", "--files-from", "list", "x"), ("image", "--at", "0", "--files-from", "list"), ("show", "--names", "--files-from", "list")):
        is_refused(program, "--files-from", *words_)
