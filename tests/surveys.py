"""Surveys of many files: what is told of each, in lines and in JSON, by arguments, by lists and through pipes."""
import contextlib
import hashlib
import json
import os
import random
import re
import stat
import subprocess
import threading

import trees
from harness import BAD_WORDS, DEVICE, DONE, REFUSED, as_nobody, equals, test
from load_files import read
from model import CODE, END, HEADER, words
from runs import LITTLE_MEMORY, LOAD_FILE, OBJECT_FILE
from trees import FOLDER, NOT_REGULAR, UNOPENED, an_object, json_line, line, survey_of, totals

FILES = 5000
# How many names one command line has.
BATCH = 800
OBJECT, LOADED = an_object(1, 1), trees.a_load_file(read(LOAD_FILE))


def ended_by(end, files):
    """A list of the names of these files."""
    return b"".join(name + end for name, _ in files)


def tells(program, files, *words_, **how):
    """A survey with these words tells what is found of these files."""
    equals(program.run("survey", *words_, **how), survey_of(files, words_), words_)


def write_both(program):
    """Writes the files `x` and `x.o`, and returns what is found of them."""
    program.write("x", LOAD_FILE)
    program.write("x.o", OBJECT_FILE)
    return [(b"x", LOADED), (b"x.o", OBJECT)]


# ---- a tree of files of all sorts


FORMS = ((), ("--json",), ("--digest",), ("--json", "--digest"))


def tells_by_arguments(program, files):
    for options in FORMS:
        for start in range(0, len(files), BATCH):
            batch = files[start : start + BATCH]
            equals(program.run("survey", *options, "--", *(name for name, _ in batch)), survey_of(batch, options), (options, start))


def tells_by_lists(program, files):
    lines = [file for file in files if b"\n" not in file[0]]
    program.write("list", ended_by(b"\0", files))
    program.write("lines", ended_by(b"\n", lines))
    for options in FORMS:
        tells(program, files, *options, "--files-from", "list")
        tells(program, lines, *options, "--files-from=lines", "--lines")
    with open(program.at("lines"), "rb") as list_:
        tells(program, lines, "--json", "--lines", "--files-from", "-", stdin=list_)


@test
def files_of_all_sorts_are_told(program):
    files = trees.make_tree(program.folder, FILES)
    tells_by_arguments(program, files)
    tells_by_lists(program, files)
    # Python's reader of JSON finds what the lines of text tell.
    told = program.run("survey", "--json", "--files-from", "list")[1].encode("latin-1").splitlines()
    for row, (name, finding) in zip(map(json.loads, told), files, strict=True):
        equals(row.pop("file"), trees.name_value(name))
        equals(row, finding.members, name)


@test
def what_find_finds_is_told_through_a_pipe(program):
    files = dict(trees.make_tree(program.folder, FILES // 5, 2))
    command = ("find", *sorted(os.listdir(program.folder)), "-mindepth", "1", "-print0")
    with subprocess.Popen(command, cwd=program.folder, stdout=subprocess.PIPE) as find:
        names = find.stdout.read().split(b"\0")[:-1]
    found = [(name, files[name]) for name in names]
    equals(len(found), sum(os.path.lexists(os.path.join(os.fsencode(program.folder), name)) for name in files))
    for options in ((), ("--json",)):
        tells(program, found, *options, "--files-from", "-", input=ended_by(b"\0", found))
        with subprocess.Popen(command, cwd=program.folder, stdout=subprocess.PIPE) as find:
            tells(program, found, *options, "--files-from", "/dev/stdin", stdin=find.stdout)


@test
def names_come_from_arguments_and_then_from_a_list(program):
    files = write_both(program)
    rows = (
        (b"x\0x.o", files), (b"x\0x.o\0", files), (b"\0\0x\0\0\0x.o\0\0", files), (b"", []), (b"\0\0", []), (b"\0", []),
        (b"x\nx.o\0", [(b"x\nx.o", UNOPENED)]), (b"-\0./x\0", [(b"-", UNOPENED), (b"./x", LOADED)]),
    )
    for bytes_, listed in rows:
        program.write("list", bytes_)
        for options in ((), ("--json",)):
            tells(program, listed, *options, "--files-from", "list")
            equals(program.run("survey", "x.o", *options, "--files-from", "list", "x"), survey_of([*files[::-1], *listed], options))
    for bytes_, listed in ((b"x\nx.o", files), (b"\n\nx\n\nx.o\n", files), (b"\n", []), (b"x\r\nx.o", [(b"x\r", UNOPENED), files[1]]),
                           (b"x\0x.o\n", [(b"x\0x.o", UNOPENED)])):
        program.write("list", bytes_)
        tells(program, listed, "--lines", "--files-from", "list")
    # A long name, and more names than a piece of the list has.
    long = b"no" * 40_000
    program.write("list", b"x\0" + long + b"\0" + b"x.o\0" * 20_000 + b"x")
    tells(program, [files[0], (long, UNOPENED), *[files[1]] * 20_000, files[0]], "--files-from", "list", limit=LITTLE_MEMORY)


@test
def a_list_that_cannot_be_read_is_told(program):
    files = write_both(program)
    os.mkdir(program.at("folder"))
    for words_ in ((), ("x",), ("x", "--json")):
        program.fails(DEVICE, "missing: cannot be opened", "survey", *words_, "--files-from", "missing")
        program.fails(DEVICE, "x/list: cannot be opened", "survey", "--lines", *words_, "--files-from", "x/list")
    # The files that are given were surveyed before the list was read.
    told = (DEVICE, line(*files[0]) + line(*files[1]), "amihunk: folder: read failed\n")
    equals(program.run("survey", "x", "--files-from", "folder", "x.o"), told)
    program.fails(DEVICE, "folder: read failed", "survey", "--files-from", "folder")
    status, out, errors = program.run("survey", "x", b"--files-from", b"\xff")
    equals((status, out), (BAD_WORDS, ""))
    assert "invalid UTF-8 was detected in one or more arguments" in errors, errors


# ---- names that are no UTF-8


@test
def names_that_are_not_utf_8_are_told_and_not_opened(program):
    files = write_both(program)
    odd = [b"\xff", b"a\xe9", b"\xed\xa0\x80", b"\xc0\xaf", b"\xf4\x90\x80\x80", b"caf\xe9: load file\n", bytes(range(128, 256))]
    for name in odd:
        with open(os.path.join(os.fsencode(program.folder), name), "wb") as file:
            file.write(LOAD_FILE)
    surveyed = [files[0], *((name, UNOPENED) for name in odd), files[1]]
    for options in ((), ("--json",), ("--digest",), ("--wait",)):
        equals(program.run("survey", *options, *(name for name, _ in surveyed)), survey_of(surveyed, options), options)
        equals(program.run("survey", odd[0], *options), survey_of(surveyed[1:2], options))
    equals(program.run("survey", "--json", b"\xff\x00"[:1])[1], '{"file":[255],"kind":"unreadable"}\n')
    # What is no survey takes none of them, and neither does a command line that is not understood.
    for words_ in (("check", odd[0]), ("link", "--out", "o", odd[0]), ("link", "--out", odd[0], "x.o"), ("show", "--names", "x.o", odd[1]),
                   ("survey", odd[0], "--srec"), ("survey", odd[0], "--help"), (odd[0],), ("survey", "x", b"--" + odd[0])):
        status, out, errors = program.run(*words_)
        equals((status, out), (BAD_WORDS, ""), words_)
        assert "invalid UTF-8 was detected in one or more arguments" in errors, (words_, errors)
    assert not os.path.exists(program.at("o"))


# ---- digests


@test
def a_digest_is_that_of_the_normal_form(program):
    loads = [(bytes_, found) for bytes_, found in trees.contents() if found.digest]
    names = [b"%d" % number for number in range(len(loads))]
    for name, (bytes_, _) in zip(names, loads):
        program.write(name.decode(), bytes_)
    rows = list(map(json.loads, program.run("survey", "--digest", "--json", *names)[1].splitlines()))
    equals([row["sha256"] for row in rows], [found.digest for _, found in loads])
    for row in rows[::3]:
        program.prints("", "copy", "--normal", "--out", "out", row["file"])
        equals(row["sha256"], hashlib.sha256(program.read("out")).hexdigest())
    # Files that mean the same have one digest, and others have not.
    dice, seen = random.Random(7), set()
    pairs = [(row, rows[(number ^ 1) % len(rows)]) for number, row in enumerate(rows)] + [dice.sample(rows, 2) for _ in range(60)]
    for one, other in pairs:
        same = program.run("compare", one["file"], other["file"])[0] == DONE
        equals(one["sha256"] == other["sha256"], same, (one, other))
        seen.add(same)
    equals(seen, {True, False})


@test
def a_digest_is_known_by_hand(program):
    # The normal form has no trailing zeros in its content, no symbols and no debug blocks.
    normal = words(HEADER, 0, 1, 0, 0, 3, CODE, 1, 0x4E754E71, END)
    program.write("x", words(HEADER, 0, 1, 0, 0, 3, CODE, 3, 0x4E754E71, 0, 0, 0x3F0, 1, 0x6C6F6F70, 4, 0, 0x3F1, 1, 8, END))
    program.write("y", normal)
    digest = hashlib.sha256(normal).hexdigest()
    told = f"load file: 1 hunks, SHA-256 {digest}\n"
    program.prints(f"x: {told}y: {told}" + totals([LOADED] * 2), "survey", "--digest", "x", "y")
    row = f'"kind":"load file","hunks":1,"sha256":"{digest}"}}\n'
    program.prints(f'{{"file":"x",{row}{{"file":"y",{row}', "survey", "x", "--json", "y", "--digest")


# ---- what is no regular file


@contextlib.contextmanager
def fed(program, name, bytes_):
    """Feeds a pipe, once it is opened for reading."""
    def feed():
        with open(program.at(name), "wb") as pipe:
            pipe.write(bytes_)

    feeder = threading.Thread(target=feed, daemon=True)
    feeder.start()
    yield
    feeder.join(60)
    assert not feeder.is_alive(), name


@test
def what_is_no_regular_file_is_not_waited_for(program):
    files = write_both(program)
    os.mkdir(program.at("folder"))
    for name, mode in (("pipe", stat.S_IFIFO), ("socket", stat.S_IFSOCK)):
        os.mknod(program.at(name), mode | 0o600)
        os.symlink(name, program.at(f"to {name}"))
    others = [(name, NOT_REGULAR) for name in (b"pipe", b"socket", b"to pipe", b"to socket", b"/dev/null", b"/dev/zero", b"/dev/stdin")]
    surveyed = [files[0], *others, (b"folder", FOLDER), files[1]]
    program.write("list", ended_by(b"\0", surveyed))
    for options in ((), ("--json",), ("--digest",)):
        equals(program.run("survey", *options, *(name for name, _ in surveyed)), survey_of(surveyed, options))
        tells(program, surveyed, *options, "--files-from", "list")
    # Also where it is the only one of a list.
    program.write("list", b"pipe")
    tells(program, others[:1], "--files-from", "list")
    # A directory is never read, and no socket can be opened.
    tells(program, [(b"folder", FOLDER)], "--wait", "folder")
    equals(program.run("survey", "folder", "--json"), survey_of([(b"folder", FOLDER)], ("--json",)))
    equals(program.run("survey", "socket"), survey_of([(b"socket", UNOPENED)]))
    equals(program.run("survey", "--wait", "x", "/dev/null", "socket"),
           survey_of([files[0], (b"/dev/null", trees.ended(b"")), (b"socket", UNOPENED)]))


@test
def a_pipe_is_waited_for_where_it_is_asked_for(program):
    files = write_both(program)
    os.mkfifo(program.at("pipe"))
    for bytes_, found in ((LOAD_FILE, LOADED), (OBJECT_FILE, OBJECT), (b"", trees.ended(b"")), (LOAD_FILE[:-1], trees.ended(LOAD_FILE[:-1]))):
        piped = (b"pipe", found)
        with fed(program, "pipe", bytes_):
            equals(program.run("survey", "pipe"), survey_of([piped]))
        with fed(program, "pipe", bytes_):
            equals(program.run("survey", "--digest", "x", "--wait", "pipe", "x.o"), survey_of([files[0], piped, files[1]], ("--digest",)))
        program.write("list", b"x\0pipe\0")
        with fed(program, "pipe", bytes_):
            equals(program.run("survey", "--wait", "--json", "--files-from", "list"), survey_of([files[0], piped], ("--json",)))
        # Standard input is such a file.
        told = (b"/dev/stdin", found)
        equals(program.run("survey", "-", input=bytes_), survey_of([told]))
        equals(program.run("survey", "--wait", "x", "-", input=bytes_), survey_of([files[0], told]))
        equals(program.run("survey", "x", "-", input=bytes_), survey_of([files[0], (b"/dev/stdin", NOT_REGULAR)]))
    with open(program.at("x"), "rb") as file:
        equals(program.run("survey", "-", "x", stdin=file), survey_of([(b"/dev/stdin", LOADED), files[0]]))


@contextlib.contextmanager
def running(program, *words_):
    """The program, as it runs, with pipes as its standard input and output."""
    pipes = {"stdin": subprocess.PIPE, "stdout": subprocess.PIPE, "stderr": subprocess.DEVNULL, "bufsize": 0}
    with subprocess.Popen(["amihunk", *words_], executable=program.path, cwd=program.folder, **pipes) as process:
        timer = threading.Timer(60, process.kill)
        timer.start()
        try:
            yield process
        finally:
            timer.cancel()
            process.kill()


def next_line(process):
    return process.stdout.readline().decode("latin-1")


@test
def each_line_comes_at_once(program):
    files = write_both(program)
    os.mkfifo(program.at("pipe"))
    for options, told in (((), line), (("--json",), json_line)):
        last = totals([LOADED, OBJECT, LOADED]) if told is line else ""
        with running(program, "survey", *options, "--wait", "x", "x.o", "pipe") as process:
            equals([next_line(process) for _ in files], [told(*file) for file in files])
            with fed(program, "pipe", LOAD_FILE):
                equals(process.stdout.read().decode(), told(b"pipe", LOADED) + last)
            equals(process.wait(), DONE)
        # The names of a list are taken as they come.
        with running(program, "survey", *options, "--files-from", "-", "x.o") as process:
            equals(next_line(process), told(*files[1]))
            for name, finding in [*files, files[0]]:
                process.stdin.write(name + b"\0")
                equals(next_line(process), told(name, finding))
            process.stdin.close()
            equals(process.stdout.read().decode(), totals([OBJECT, LOADED, OBJECT, LOADED]) if told is line else "")


@contextlib.contextmanager
def shrinking(program, name, whole):
    """A file whose end is cut off and written again, over and over."""
    stop, dice = threading.Event(), random.Random(6)

    def shrink():
        with open(program.at(name), "r+b", buffering=0) as file:
            while not stop.is_set():
                file.truncate(dice.randrange(len(whole)))
                file.seek(0)
                file.write(whole)

    program.write(name, whole)
    shrinker = threading.Thread(target=shrink)
    shrinker.start()
    try:
        yield
    finally:
        stop.set()
        shrinker.join()


# Where a file is cut off during a read, Linux may hand over zeros for the bytes that were there.
CUT = r"file ends too early|file ends inside a longword|wrong first longword|bad hunk table|unknown block type \d+"


@test
def a_file_that_shrinks_is_told_as_what_was_read(program):
    size, times, seen = 2000, 500, set()
    whole = words(HEADER, 0, 1, 0, 0, size, CODE, size) + random.Random(5).randbytes(4 * size) + words(END)
    program.write("list", b"x\0" * times)
    with shrinking(program, "x", whole):
        for _ in range(200):
            status, out, errors = program.run("survey", "--files-from", "list")
            *told, _, last = out.splitlines()
            cut = [re.fullmatch(f"x: longword (\\d+): (?:{CUT})", it) for it in told]
            assert all(it == "x: load file: 1 hunks" or found and 4 * int(found[1]) < len(whole) for it, found in zip(told, cut)), out
            refused = sum(map(bool, cut))
            equals((status, errors, len(told)), (REFUSED if refused else DONE, "", times))
            equals(last, f"{refused} refused, of which {sum(bool(it and it[1] == '0') for it in cut)} are no hunk files")
            seen |= set(map(bool, cut))
            if len(seen) == 2:
                break
    equals(seen, {True, False}, "whether the file was seen whole")


@test
def files_that_another_may_not_read_are_told(program):
    place = program.for_all()
    files = write_both(place)
    place.write("secret", LOAD_FILE)
    os.mkdir(place.at("closed"))
    place.write("closed/x", LOAD_FILE)
    for name in ("secret", "closed"):
        os.chmod(place.at(name), 0)
    place.write("list", b"secret\0closed\0closed/x\0x\0")
    for name in ("list", "x", "x.o"):
        os.chmod(place.at(name), 0o644)
    told = [(b"secret", UNOPENED), (b"closed", FOLDER), (b"closed/x", UNOPENED), files[0]]
    tells(place, told, "--files-from", "list", before=as_nobody)
    os.chmod(place.at("list"), 0)
    line_ = "list: cannot be opened"
    place.fails(DEVICE, line_, "survey", "x", "--files-from", "list", before=as_nobody)
    place.fails(DEVICE, line_, "link", "--out", "o", "x.o", "--files-from", "list", before=as_nobody)


@test
def a_survey_ends_where_its_lines_are_not_taken(program):
    write_both(program)
    program.write("list", b"x\0" * 3000)
    for words_ in (("x",), ("--json", "x"), ("--files-from", "list"), ("--files-from", "list", "--json", "x.o")):
        with open("/dev/full", "wb") as full:
            program.fails(DEVICE, "output: write failed", "survey", *words_, stdout=full)
        program.fails(DEVICE, "output: write failed", "survey", *words_, before=lambda: os.close(1))
    with running(program, "survey", "--files-from", "-") as process:
        process.stdin.write(b"x\0")
        equals(next_line(process), line(b"x", LOADED))
        process.stdout.close()
        with contextlib.suppress(BrokenPipeError):
            process.stdin.write(b"x\0" * 100_000)
        process.stdin.close()
        assert process.wait() != DONE
