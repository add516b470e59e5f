"""What `copy` writes of a load file, against files written by hand and by load_files.py; that it means the same; and what stays as it
was."""
import itertools
import os
import random
import resource
import signal

import load_files
import model
from comparisons import CHIP, FAST, load_file, symbols
from explanations import tells
from harness import BAD_WORDS, DEVICE, DONE, REFUSED, equals, test
from limits import at_a_limit_of_size, megabyte
from memory import STEPS, falls, least_pages
from model import BSS, CODE, DATA, DEBUG, END, HEADER, NAME, RELOC32, RELOC32SHORT, SYMBOL, words
from random_load_files import altered, random_bases, random_hunks, spelt
from runs import LOAD_FILE, OBJECT_FILE

OLD = b"was here" * 500
# Every combination of the flags that go together.
FLAGS = [flags for count in range(4) for flags in itertools.combinations(("--strip", "--short", "--trim"), count)]
FORMS = [*FLAGS, ("--normal",)]
LOOP = int.from_bytes(b"loop", "big")


@test
def each_form_is_written_as_by_hand(program):
    # A file in which nothing is as it is written: bits that are ignored, names of hunks, blocks in another order, a name with more
    # longwords than it needs, and the number of a BSS that is less than its size.
    program.write("x", (
        words(CHIP | HEADER, 0, 3, 0, 2, 5, CHIP | 2, 16386)
        + words(NAME, 1, LOOP, FAST | CODE, CHIP | 5, 0x4E714E71, 0, 0, 0, 0)
        + words(DEBUG, 2, 7, 8, SYMBOL, 2, LOOP, 0, 4, 0, RELOC32, 1, 2, 10, 1, 1, 5, 0, RELOC32SHORT, 0x00010002, 0x00000000)
        + words(SYMBOL, 1, 0, 5, 0, FAST | END)
        + words(BSS, 0, RELOC32, 1, 0, 3, 0, DEBUG, 0, CHIP | END)
        + words(DATA, 3, 0, 1, 0, RELOC32SHORT, 0x00010001, 0x000A0000, RELOC32, 2, 0, 0x10000, 0, 0, CHIP | END)
    ))
    head = words(HEADER, 0, 3, 0, 2, 5, CHIP | 2, 16386)
    code = {
        # The site at 10 has bytes of the third and the fourth longword.
        False: words(CODE, 5, 0x4E714E71, 0, 0, 0, 0), True: words(CODE, 4, 0x4E714E71, 0, 0, 0), None: words(CODE, 1, 0x4E714E71),
    }
    data = {False: words(DATA, 3, 0, 1, 0), True: words(DATA, 3, 0, 1, 0), None: words(DATA, 2, 0, 1)}
    infos = [words(SYMBOL, 1, LOOP, 4, 1, 0, 5, 0, DEBUG, 2, 7, 8), words(DEBUG, 0), b""]
    long = [words(RELOC32, 1, 1, 5, 2, 2, 0, 10, 0), words(RELOC32, 1, 0, 3, 0), words(RELOC32, 2, 0, 0, 0x10000, 1, 1, 10, 0)]
    short = [
        words(RELOC32SHORT, 0x00010001, 0x00050002, 0x00020000, 0x000A0000),
        words(RELOC32SHORT, 0x00010000, 0x00030000),
        words(RELOC32SHORT, 0x00010000, 0x00000001, 0x0001000A, 0x00000000, RELOC32, 1, 0, 0x10000, 0),
    ]
    for form in FORMS:
        trim = None if "--normal" in form else "--trim" in form
        contents = [code[trim], words(BSS, 2), data[trim]]
        lists = short if "--short" in form else long
        kept = [b""] * 3 if "--strip" in form or trim is None else infos
        wanted = head + b"".join(content + list_ + info + words(END) for content, list_, info in zip(contents, lists, kept))
        program.prints("", "copy", "--out", "out", *form, "x")
        equals(program.read("out"), wanted, form)


def some_files():
    """Small load files with something of their own."""
    yield LOAD_FILE
    yield load_file((0, CODE, 0))
    yield load_file((0, BSS, 0, *symbols(("loop", 4)), DEBUG, 0), (FAST, DATA, 0, DEBUG, 1, 7))
    yield load_file((2, CODE, 2, 0, 0), (2, CODE, 1, 0), (2, CODE, 0))
    yield load_file((2, CODE, 2, 0, 0, RELOC32, 1, 0, 4, 0), (2, CODE, 1, 0, RELOC32, 1, 0, 4, 0), (2, CODE, 0, RELOC32, 1, 0, 2, 0))
    yield load_file((1 << 24, BSS, 1 << 24), (0, DATA, 0))
    hunks = 65535
    yield words(HEADER, 0, hunks, 0, hunks - 1, *[0] * hunks) + words(CODE, 0, END) * hunks


@test
def a_copy_has_the_memory_of_its_file(program):
    def compare(seed, bytes_):
        dice, hunks = random.Random(seed), load_files.read(bytes_)
        program.write("x", bytes_)
        for form in FORMS:
            wanted = load_files.copied(hunks, form)
            program.prints("", "copy", *form, "--out", "out", "x")
            equals(program.read("out"), wanted, (seed, form))
            # A copy of a copy is the same bytes, and replaces it.
            program.prints("", "copy", *form, "--out", "out", "out")
            equals(program.read("out"), wanted, (seed, form))
        # The forms differ in nothing that a loader or a debugger would see, but for what was left out.
        kept, plain = dice.choice(FLAGS), "--strip" in form
        program.prints("", "copy", *kept, "--out", "out", "x")
        program.prints("", "compare", *([] if plain or "--strip" in kept else ["--symbols"]), "x", "out")
        if len(hunks) < 10 and sum(hunk.size for hunk in hunks) < 1 << 16:
            bases = random_bases(dice, hunks)
            report = model.report_of(bases, load_files.memory_of(hunks, bases))
            for name in ("x", "out"):
                program.prints(report, "load", "--at", model.addresses(bases), name)

    for seed, bytes_ in enumerate(some_files()):
        compare(seed, bytes_)
    for seed in range(60):
        dice = random.Random(seed)
        compare(seed, spelt(dice, random_hunks(dice)))


@test
def a_linked_file_is_its_own_copy(program):
    for seed in range(25):
        dice, units = random.Random(seed), model.random_named_units(seed)
        program.write("x.o", model.object_file(units))
        program.prints("", "link", "--out", "full", "x.o")
        for options in FLAGS:
            program.prints("", "link", "--out", "linked", *options, "x.o")
            program.prints("", "copy", "--out", "out", *options, dice.choice(("full", "linked")))
            equals(program.read("out"), program.read("linked"), (seed, options))


@test
def files_that_mean_the_same_have_one_normal_form(program):
    seen = set()
    for seed in range(150):
        dice = random.Random(-seed)
        first = random_hunks(dice)
        second = altered(dice, first) if dice.random() < 0.6 else first
        for name, hunks in (("a", first), ("b", second)):
            program.write(name, spelt(dice, hunks))
            program.prints("", "copy", "--normal", "--out", f"{name} normal", name)
        same = not load_files.difference(first, second)
        equals(program.read("a normal") == program.read("b normal"), same, seed)
        equals(program.run("compare", "a", "b")[0], DONE if same else 1, seed)
        seen.add(same)
    equals(seen, {True, False})


@test
def the_words_of_a_copy_come_in_any_order(program):
    program.write("x", load_file((2, CODE, 2, 7, 0, RELOC32, 1, 0, 0, 0, *symbols(("s", 0)))))
    program.write("--trim", LOAD_FILE)
    hunks = load_files.read(program.read("x"))
    for line, form in (
        ("--out o x", ""),
        ("x --out=o", ""),
        ("-o o x", ""),
        ("-oo x", ""),
        ("x -so o", "--strip"),
        ("--strip x --out o", "--strip"),
        ("--out o --short x", "--short"),
        ("x --trim -o o", "--trim"),
        ("--trim --short -s --out=o x", "--strip --short --trim"),
        ("--out o x --normal", "--normal"),
        ("--normal -o=o -- x", "--normal"),
        ("--explain --out o x", ""),
        ("x --trim --explain --out o -s", "--strip --trim"),
    ):
        program.write("o", b"")
        program.prints("", "copy", *line.split())
        equals(program.read("o"), load_files.copied(hunks, form.split()), line)
    program.prints("", "copy", "--out", "o", "--", "--trim")
    equals(program.read("o"), LOAD_FILE)


@test
def out_may_be_the_file(program):
    file = load_file((3, CODE, 3, 7, 0, 0, *symbols(("loop", 4)), DEBUG, 1, 8))
    small = load_file((3, CODE, 1, 7))
    os.mkdir(program.at("folder"))
    for name, to in (("soft", "x"), ("softer", "soft"), ("folder/back", "../x")):
        os.symlink(to, program.at(name))
    links = {"soft": "-> x", "softer": "-> soft", "folder": "d", "folder/back": "-> ../x"}
    for names in (("x", "x"), ("./x", "x"), ("soft", "x"), ("x", "softer"), ("folder/back", "soft"), (program.at("x"), "x")):
        for form in (("--strip", "--short", "--trim"), ("--normal",)):
            program.write("x", file)
            os.chmod(program.at("x"), 0o755)
            program.prints("", "copy", "--out", names[0], *form, names[1])
            equals((program.tree(), os.stat(program.at("x")).st_mode & 0o777), (links | {"x": small}, 0o755), names)
    # Another name of the file keeps the old one.
    program.write("x", file)
    os.link(program.at("x"), program.at("hard"))
    program.prints("", "copy", "--out", "hard", "--normal", "x")
    equals(program.tree(), links | {"x": file, "hard": small})


@test
def a_copy_is_read_and_written_through_pipes(program):
    text = LOAD_FILE.decode("latin-1")
    program.write("x", LOAD_FILE)
    program.prints(text, "copy", "--out", "/dev/stdout", "x")
    program.prints(text, "copy", "--out", "/dev/stdout", "/dev/stdin", input=words(HEADER | CHIP) + LOAD_FILE[4:])
    program.prints(text, "copy", "--normal", "--out", "/dev/stdout", "/dev/stdin", input=LOAD_FILE)
    equals(program.run("copy", "--out", "/dev/stderr", "x"), (DONE, "", text))
    program.prints("", "copy", "--out", "/dev/null", "x")
    line = "/dev/stdin: longword 9: file ends too early"
    program.fails(REFUSED, line, "copy", "--out", "/dev/stdout", "/dev/stdin", input=LOAD_FILE[:-4])
    told = f"amihunk: {line}\n  not explained: only regular files can be read again\n"
    equals(program.run("copy", "--explain", "--out", "/dev/stdout", "/dev/stdin", input=LOAD_FILE[:-4]), (REFUSED, "", told))
    program.fails(REFUSED, "/dev/null: longword 0: file ends too early", "copy", "--out", "out", "/dev/null")
    for form in FORMS:
        program.fails(DEVICE, "output: write failed", "copy", *form, "--out", "/dev/full", "x")
    program.fails(DEVICE, "output: write failed", "copy", "--explain", "--out", "/dev/full", "x")
    equals(program.tree(), {"x": LOAD_FILE})


@test
def what_cannot_be_copied_leaves_out_as_it_was(program):
    program.write("x", LOAD_FILE)
    program.write("x.o", OBJECT_FILE)
    program.write("out", OLD)
    program.write("cut", LOAD_FILE[:-1])
    program.write("more", LOAD_FILE + words(0x1234))
    os.mkdir(program.at("folder"))
    before = program.tree()
    for name, status, line, more in (
        ("cut", REFUSED, "cut: longword 9: file ends inside a longword",
         "  at byte 36 (00000024)\n  found the end of the file, after 3 of the 4 bytes of a longword\n  path: hunk 0, after HUNK_CODE\n"
         "  due: the type of a block\n"),
        ("more", REFUSED, "more: longword 10: data after the last hunk",
         "  at byte 40 (00000028)\n  found 00001234\n  path: hunk 0, after HUNK_END\n  due: the end of the file\n"),
        ("x.o", REFUSED, "x.o: longword 0: wrong first longword",
         "  at byte 0 (00000000)\n  found 000003e7\n  path: start of the file\n"
         "  due: HUNK_HEADER, which begins a load file\n  kind: object file\n"),
        ("missing", DEVICE, "missing: cannot be opened", "  reason: no such file or directory\n"),
        ("x/missing", DEVICE, "x/missing: cannot be opened", "  reason: a part of its path is no directory\n"),
        ("folder", DEVICE, "folder: read failed", "  reason: it is a directory\n"),
    ):
        # OUT is begun only once the file has been read, so a failure of both is that of the file.
        for out in ("out", "fresh", name if status == REFUSED else "out", "no/out", "folder", "/dev/full"):
            for flags in FLAGS:
                tells(program, line, more, "copy", "--out", out, *flags, name, status=status)
            program.fails(status, line, "copy", "--out", out, "--normal", name)
            equals(program.tree(), before, (name, out))
    for out, why in (
        ("no/out", "no such file or directory"), ("x/out", "a part of its path is no directory"), ("folder", "it is a directory"),
    ):
        tells(program, f"{out}: cannot be opened", f"  reason: {why}\n", "copy", "--out", out, "x", status=DEVICE)
        program.fails(DEVICE, f"{out}: cannot be opened", "copy", "--normal", "--out", out, "x")
    equals(program.tree(), before)


@test
def flags_that_exclude_each_other_write_nothing(program):
    program.write("x", LOAD_FILE)
    program.write("out", OLD)
    before = program.tree()
    flags = ("--strip", "--short", "--trim", "--explain")
    for count in range(1, 5):
        for given in itertools.combinations(flags, count):
            for words_ in (("--normal", *given), (*given, "--normal"), (*given[::-1], "--normal")):
                status, out, errors = program.run("copy", "--out", "out", *words_, "x")
                line = f"error: the argument '--normal' cannot be used with '{given[0]}'\n"
                equals((status, out, errors.partition("\n\n")[0] + "\n"), (BAD_WORDS, "", line), words_)
                equals(program.tree(), before, words_)


@test
def more_symbols_and_debug_blocks_than_a_link_carries_are_refused(program):
    # Two debug blocks that take 2^27 longwords and one more. Only their beginnings are on the disk.
    counts = ((1 << 26) - 2, (1 << 26) - 1)
    with open(program.at("x"), "wb") as file:
        file.write(LOAD_FILE[:-4])
        for count in counts:
            file.write(words(DEBUG, count))
            file.seek(4 * count, os.SEEK_CUR)
        file.write(words(END))
    program.write("out", OLD)
    for words_ in ((), ("--short", "--trim"), ("--explain",)):
        program.fails(REFUSED, "link: too large", "copy", *words_, "--out", "out", "x")
    equals((program.read("out"), sorted(os.listdir(program.folder))), (OLD, ["out", "x"]))
    for form in (("--strip",), ("--normal",)):
        program.write("out", OLD)
        program.prints("", "copy", *form, "--out", "out", "x")
        equals(program.read("out"), LOAD_FILE)


@test
def a_full_disk_leaves_what_was_to_be_copied_over(program):
    dice = random.Random(46)
    small, large = (load_file((size, CODE, size))[:-4] + dice.randbytes(4 * size) + words(END) for size in (25_000, 175_000))
    program.write("small", small)
    program.write("large", large)
    with megabyte(program) as (place, how):
        old = dice.randbytes(500_000)
        place.write("out", old)
        for form in FORMS:
            for name in ("out", "fresh"):
                program.fails(DEVICE, "output: write failed", "copy", *form, "--out", f"megabyte/{name}", "large", **how)
                equals(place.tree(), {"out": old}, (form, name))
        program.prints("", "copy", "--out", "megabyte/out", "small", **how)
        equals(place.tree(), {"out": small})
    # A limit of a file's size, with the signal of that ignored and without.
    program.write("out", OLD)
    for bytes_ in (0, 1, 1024):
        for ignored, ended in at_a_limit_of_size(program, bytes_, "copy", "--out", "out", "small"):
            equals(ended, (DEVICE, "", "amihunk: output: write failed\n") if ignored else (-signal.SIGXFSZ, "", ""), bytes_)
            equals(program.read("out"), OLD)
    for _, ended in at_a_limit_of_size(program, len(small), "copy", "--out", "out", "small"):
        equals((ended, program.read("out")), ((DONE, "", ""), small))
    # No file can be opened beside the old one: it is no reason to write that.
    program.write("out", OLD)
    status, out, _ = program.run("copy", "--out", "out", "small", limit=(resource.RLIMIT_NOFILE, 4))
    equals((status in (DONE, DEVICE), out), (True, ""))
    equals(program.read("out"), small if status == DONE else OLD)


@test
def with_little_memory_a_copy_is_old_or_new(program):
    hunks = []
    for number in range(4):
        size = 2000 - 300 * number
        rows = [(f"n{it:03}", it) for it in range(500)]
        sites = [RELOC32, size, (number + 1) % 4, *range(0, 4 * size, 4), 0]
        hunks.append((size, CODE, size, *range(size), *sites, *symbols(*rows), DEBUG, 300, *range(300)))
    file = load_file(*hunks)
    program.write("x", file)
    program.write("out", OLD)
    least, names = least_pages(program), sorted(os.listdir(program.folder))
    for form in ((), ("--strip", "--short", "--trim"), ("--normal",)):
        new = load_files.copied(load_files.read(file), form)

        def compare(ended, new=new):
            equals((program.read("out"), sorted(os.listdir(program.folder))), (new if ended[0] == DONE else OLD, names), ended)
            program.write("out", OLD)

        falls(program, least, STEPS, (DONE, "", ""), ("copy", "--out", "out", *form, "x"), after=compare)
