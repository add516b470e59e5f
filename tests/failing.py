"""What the program does where calls of the system fail: each one, all from one on, and two kinds of them at once.

It is run with the library that failing.c makes between it and the C library. An allocation, or an open, a read, a write, a sync or a rename
of a file fails, and what was asked for is done all the same, or a line tells why it is not, and OUT and MAP are old or whole.
"""
import atexit
import functools
import itertools
import os
import shutil
import subprocess
import tempfile
from typing import NamedTuple

import memory
from harness import BAD_WORDS, DEVICE, DONE, NO_MEMORY, REFUSED, equals, test
from memory import OLD, TOLD, write_files, write_linked
from runs import LOAD_FILE
from sources import TOP
from surveys import LOADED, OBJECT
from trees import UNOPENED, UNREAD, survey_of

KINDS = ("alloc", "open", "read", "write", "sync", "rename")
UNWRITTEN = "amihunk: output: write failed\n"


class Command(NamedTuple):
    """What is asked for, and what is known of it."""

    words: tuple
    # How it ends where nothing fails: the status, and what is printed.
    end: tuple
    # The files that it reads.
    reads: tuple = ()
    # For OUT and MAP, what they are then. They have other bytes before.
    writes: dict = {}
    # How else it may end where calls of some kinds fail, besides the line of a file that could not be opened, read or written.
    also: dict = {}
    # Whether it prints what it knows before it goes on.
    goes_on: bool = False


@functools.cache
def library():
    """The library between the program and the C library, and the file that it makes where a call fails."""
    folder = tempfile.mkdtemp()
    atexit.register(shutil.rmtree, folder)
    made = os.path.join(folder, "failing.so")
    subprocess.run([os.environ.get("CC", "cc"), "-O1", "-shared", "-fPIC", "-o", made, os.path.join(TOP, "tests/failing.c")], check=True)
    return made, os.path.join(folder, "failed")


def run(program, faults, command):
    """Runs it with these faults, and returns how it ended, and whether there was such a call."""
    made, told = library()
    ended = program.run(*command.words, environment={"LD_PRELOAD": made, "FAIL": faults, "FAILED": told})
    was_called = os.path.exists(told)
    if was_called:
        os.remove(told)
    return ended, was_called


def whole_ends(command, kinds):
    """How it may end if all is printed that it has to say."""
    ends = [command.end] + [end for kind in kinds for end in command.also.get(kind, ())]
    if not command.goes_on:
        unopened = command.reads * ("open" in kinds) + tuple(command.writes) * bool({"open", "rename"} & kinds)
        ends += [(DEVICE, "", f"amihunk: {name}: cannot be opened\n") for name in unopened]
        ends += [(DEVICE, "", f"amihunk: {name}: read failed\n") for name in command.reads * ("read" in kinds)]
    if "sync" in kinds:
        ends += [(DEVICE, "", line) for line in lines_of_writes(command)]
    return ends


def lines_of_writes(command):
    """The lines of what it may have failed to write: to standard output or OUT, and to MAP."""
    return [UNWRITTEN] + [f"amihunk: {name}: write failed\n" for name in command.writes if name == "map"]


def may_end(command, kinds, ended):
    """Whether it may end so where calls of these kinds fail."""
    (status, out, errors), ends = ended, whole_ends(command, kinds)
    is_begun = out == "" or any(end[1].startswith(out) for end in ends)
    if "alloc" in kinds and (status, errors) == (NO_MEMORY, TOLD):
        return out == "" or command.goes_on and is_begun and out.endswith("\n")
    if "write" in kinds and (status == DEVICE and errors in (*lines_of_writes(command), "") or status == NO_MEMORY and errors == ""):
        return is_begun
    # Of what is told there is all, or the beginning if a write failed.
    return ended in ends or "write" in kinds and any(end[:2] == (status, out) and end[2].startswith(errors) for end in ends)


def is_done_or_told(program, command, kinds, faults, ended, names):
    """It ended as it may, and OUT and MAP are old or whole: first OUT becomes new, and then MAP."""
    assert may_end(command, kinds, ended), f"{command.words} with {faults}: {ended!r:.500}"
    now = [program.read(name) for name in command.writes]
    new = [number for number, bytes_ in enumerate(command.writes.values()) if now[number] == bytes_]
    wanted = [[*command.writes.values()][number] if number in new else OLD for number in range(len(now))]
    equals((now, new), (wanted, [*range(len(now) if ended[0] == DONE else len(new))]), (command.words, faults, ended))
    equals(sorted(os.listdir(program.folder)), names, (command.words, faults))
    for name in command.writes:
        program.write(name, OLD)


def fails_one_by_one(program, command):
    """Each call of each kind fails, alone and then with all later ones. Returns how many there are of each kind, as often as it is
    the only one that fails."""
    for name in command.writes:
        program.write(name, OLD)
    names, counts = sorted(os.listdir(program.folder)), {}
    for kind, later in itertools.product(KINDS, ("", "+")):
        for number in itertools.count(1):
            faults = f"{kind}:{number}{later}"
            ended, was_called = run(program, faults, command)
            is_done_or_told(program, command, {kind}, faults, ended, names)
            if not was_called:
                equals(ended, command.end, (command.words, faults))
                counts.setdefault(kind, number - 1)
                break
    return counts


def fail_together(program, command, counts):
    """An allocation fails, and beside it a call of another kind."""
    names = sorted(os.listdir(program.folder))
    for kind in KINDS[1:]:
        for number, allocation in itertools.product(range(1, counts[kind] + 1), range(1, counts["alloc"] + 1)):
            faults = f"alloc:{allocation} {kind}:{number}"
            ended, _ = run(program, faults, command)
            is_done_or_told(program, command, {"alloc", kind}, faults, ended, names)


def texts(program):
    """The commands that print a text, over files that are written here, and what is printed."""
    for words_, out in memory.texts(program):
        reads = tuple(word for word in words_ if os.path.exists(program.at(word)))
        yield Command(words_, (DONE, out, ""), reads)


@test
def a_text_is_printed_or_a_line_tells_why_not(program):
    for command in texts(program):
        counts = fails_one_by_one(program, command)
        assert counts["alloc"] and counts["write"] + (command.end[1] == ""), (command.words, counts)
        equals(counts["read"] > 0, command.reads != (), command.words)


def surveyed(options, *files):
    """A survey of these files, each a name and what is found of it."""
    others = {"open": UNOPENED, "read": UNREAD}
    also = {
        kind: [survey_of(list(found), options) for found in itertools.product(*(((name, it), (name, other)) for name, it in files))]
        for kind, other in others.items()
    }
    words_ = ("survey", *options, *(name.decode() for name, _ in files))
    return Command(words_, survey_of(list(files), options), also=also, goes_on=True)


@test
def a_survey_goes_on_after_a_file_that_cannot_be_read(program):
    write_files(program)
    for options in ((), ("--json",), ("--digest", "--json")):
        fails_one_by_one(program, surveyed(options, (b"one.o", OBJECT), (b"x", LOADED)))


def explained(words_, line, more, reads):
    """A refusal that is explained, or of which it is told why it is not."""
    ends = {why: (REFUSED, "", f"{line}  not explained: {why}\n") for why in ("out of memory", "a file has changed, or cannot be read again")}
    gone = [ends["a file has changed, or cannot be read again"]]
    unread = [(DEVICE, "", f"amihunk: {name}: cannot be opened\n  reason: system error 5\n") for name in reads]
    return Command(words_, (REFUSED, "", line + more), reads, also={"alloc": [ends["out of memory"]], "open": gone + unread, "read": gone})


@test
def a_refusal_is_explained_or_a_line_tells_why_not(program):
    write_files(program)
    for words_, line, more in memory.REFUSALS:
        reads = tuple(word for word in words_ if os.path.exists(program.at(word)))
        fails_one_by_one(program, explained(words_, line, more, reads))
        assert not os.path.lexists(program.at("out"))


def linked(program):
    """Links of x.o and y.o to OUT, with a map and without, and copies of x."""
    out, map_ = write_linked(program)
    program.write("list", b"x.o\0y.o\0")
    done = (DONE, "", "")
    yield Command(("link", "--out", "out", "x.o", "y.o"), done, ("x.o", "y.o"), {"out": out})
    yield Command(("link", "--out", "out", "--map", "map", "x.o", "y.o"), done, ("x.o", "y.o"), {"out": out, "map": map_})
    yield Command(("link", "--out", "out", "--files-from", "list"), done, ("list", "x.o", "y.o"), {"out": out})
    yield Command(("copy", "--out", "out", "x"), done, ("x",), {"out": LOAD_FILE})
    yield Command(("copy", "--out", "out", "--normal", "x"), done, ("x",), {"out": LOAD_FILE})


@test
def out_and_map_are_old_or_new_where_a_call_fails(program):
    for command in linked(program):
        counts = fails_one_by_one(program, command)
        equals([counts[kind] for kind in ("sync", "rename")], [len(command.writes)] * 2, command.words)
        if command.words[0] == "copy" or "--map" in command.words:
            fail_together(program, command, counts)


@test
def out_is_old_or_new_in_a_folder_whose_name_is_no_text(program):
    folder = os.path.join(os.fsencode(program.folder), b"caf\xe9")
    os.mkdir(folder)
    inside = type(program)(program.path, os.fsdecode(folder))
    for command in linked(inside):
        counts = fails_one_by_one(inside, command)
        equals(counts["rename"], len(command.writes), command.words)


@test
def a_map_never_takes_the_place_of_out_or_of_a_file(program):
    write_files(program)
    for name in ("folder", "other"):
        os.mkdir(program.at(name))
    os.symlink("folder/new", program.at("link"))
    os.symlink("x.o", program.at("second"))
    old = program.tree()
    for out, map_, line in (
        ("new", "./new", "given for both --out and --map"),
        ("link", "folder/new", "given for both --out and --map"),
        ("other/out", "second", "given for both --map and FILE"),
    ):
        end = (BAD_WORDS, "", f"amihunk: {map_}: {line}\n")
        fails_one_by_one(program, Command(("link", "--out", out, "--map", map_, "x.o", "y.o"), end, ("x.o", "y.o")))
        equals(program.tree(), old, (out, map_))
