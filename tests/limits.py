"""How the program ends where it is given little: of a disk, of a file's size, of memory, of time; and how it tells a line."""
import collections
import contextlib
import os
import random
import re
import resource
import signal
import socket
import subprocess
import time

import model
from harness import DEVICE, DONE, REFUSED, equals, test
from model import CODE, END, HEADER, UNIT, Hunk, words
from runs import LOAD_FILE, OBJECT_FILE

OLD = b"was here"
# The names under which an output is begun.
BEGUN = re.compile(r"\.amihunk-\d+")


def one_hunk(bytes_, name=b"", file="x.o"):
    """The object file of one hunk with this content, its load file, and the map of their link."""
    longwords = len(bytes_) // 4
    named = model.titled(model.NAME, name) if name else b""
    unit = words(UNIT, 0) + named + words(CODE, longwords) + bytes_ + words(END)
    load_file = words(HEADER, 0, 1, 0, 0, longwords, CODE, longwords) + bytes_ + words(END)
    return unit, load_file, f'hunk 0 code any {longwords} longwords {file} unit 0 "" hunk 0 {model.quoted(name)}\n'.encode()


def ignoring_sizes():
    """Lets a write fail that passes the limit of a file's size, which else ends the process."""
    signal.signal(signal.SIGXFSZ, signal.SIG_IGN)


@contextlib.contextmanager
def megabyte(program):
    """A folder in which there is room for one megabyte, and how the program is run with it.

    Root mounts a file system of that size. Who may not mount one has a limit of 600,000 bytes for each file instead.
    """
    folder = program.inside("megabyte")
    mount = ("mount", "-t", "tmpfs", "-o", "size=1m,mode=755", "amihunk-test", folder.folder)
    mounted = os.geteuid() == 0 and subprocess.run(mount, stderr=subprocess.DEVNULL).returncode == 0
    try:
        yield folder, {} if mounted else {"limit": (resource.RLIMIT_FSIZE, 600_000), "before": ignoring_sizes}
    finally:
        if mounted:
            subprocess.run(("umount", "-l", folder.folder), check=True)


@test
def a_full_disk_leaves_out_and_map_as_they_were(program):
    dice = random.Random(45)
    small, fits, map_of_small = one_hunk(dice.randbytes(100_000))
    large, _, _ = one_hunk(dice.randbytes(700_000))
    named, plain, _ = one_hunk(bytes(4), b"n" * 700_000)
    for name, bytes_ in (("x.o", small), ("large.o", large), ("named.o", named)):
        program.write(name, bytes_)
    with megabyte(program) as (place, how):
        out, map_, old = dice.randbytes(500_000), dice.randbytes(400_000), {}
        for name, bytes_ in (("out", out), ("map", map_)):
            place.write(name, bytes_)
            old[name] = bytes_
        for name in ("out", "fresh"):
            for more in ((), ("--map", "megabyte/map"), ("--strip", "--short", "--trim")):
                place_of_out = ("link", "--out", f"megabyte/{name}", *more)
                program.fails(DEVICE, "output: write failed", *place_of_out, "large.o", **how)
                equals(place.tree(), old, (name, more))
        program.fails(DEVICE, "megabyte/map: write failed", "link", "--out", "out", "--map", "megabyte/map", "named.o", **how)
        equals((place.tree(), program.read("out")), (old, plain))
        program.fails(DEVICE, "megabyte/map: write failed", "link", "--out", "megabyte/out", "--map", "megabyte/map", "named.o", **how)
        equals(place.tree(), old | {"out": plain})
        place.write("out", out)
        program.prints("", "link", "--out", "megabyte/out", "--map", "megabyte/map", "x.o", **how)
        equals(place.tree(), {"out": fits, "map": map_of_small})


def at_a_limit_of_size(program, bytes_, *words_, **how):
    """Runs it where no file may have more bytes: once with the signal of that ignored, and once with it."""
    for ignored in (True, False):
        yield ignored, program.run(*words_, limit=(resource.RLIMIT_FSIZE, bytes_), before=ignoring_sizes if ignored else None, **how)


# The output that passes a limit, as its line names it, and the words of the link after `--out`.
PASSED = (("output", "out"), ("output", "x.o"), ("output", "fresh", "--map", "map"), ("map", "/dev/null", "--map", "map"))


@test
def a_limit_of_a_files_size_leaves_out_and_map_as_they_were(program):
    unit, load_file, map_ = one_hunk(bytes(range(256)) * 20, b"n" * 2000)
    old = {"x.o": unit, "out": OLD, "map": OLD}
    for name, bytes_ in old.items():
        program.write(name, bytes_)
    for bytes_ in (0, 1, 1024):
        for told, out, *more in PASSED:
            for ignored, ended in at_a_limit_of_size(program, bytes_, "link", "--out", out, *more, "x.o"):
                tree, begun = program.tree(), [name for name in os.listdir(program.folder) if BEGUN.fullmatch(name)]
                if ignored:
                    equals((ended, begun), ((DEVICE, "", f"amihunk: {told}: write failed\n"), []), (out, bytes_))
                else:
                    equals(ended[0], -signal.SIGXFSZ, (out, bytes_))
                    assert len(begun) <= 1, begun
                for name in begun:
                    os.remove(program.at(name))
                equals({name: told for name, told in tree.items() if name not in begun}, old, (out, bytes_))
    # A limit that only MAP passes, and one that none does.
    program.write("x.o", one_hunk(bytes(4), b"n" * 2000)[0])
    for ignored, ended in at_a_limit_of_size(program, 1024, "link", "--out", "out", "--map", "map", "x.o"):
        equals(ended, (DEVICE, "", "amihunk: map: write failed\n") if ignored else (-signal.SIGXFSZ, "", ""))
        equals((program.read("out"), program.read("map")), (one_hunk(bytes(4))[1], OLD))
        program.write("out", OLD)
    program.write("x.o", unit)
    for _, ended in at_a_limit_of_size(program, len(load_file), "link", "--out", "out", "--map", "map", "x.o"):
        equals((ended, program.read("out"), program.read("map")), ((DONE, "", ""), load_file, map_))


@test
def where_no_other_file_may_be_open_out_and_map_stay_as_they_were(program):
    unit, _, _ = one_hunk(bytes(range(256)) * 20, b"n" * 2000)
    old = {"x.o": unit, "out": OLD, "map": OLD}
    for name, bytes_ in old.items():
        program.write(name, bytes_)

    def limited():
        # Only so many bytes can be written, and one more file be open than standard input, output and error.
        ignoring_sizes()
        resource.setrlimit(resource.RLIMIT_FSIZE, (1024, 1024))

    # No file can be opened beside the old one if that is open. It is no reason to write the old one, which would not hold all.
    for words_ in (("link", "--out", "out", "x.o"), ("link", "--out", "/dev/null", "--map", "map", "x.o")):
        status, out, _ = program.run(*words_, before=limited, limit=(resource.RLIMIT_NOFILE, 4))
        equals((status, out, program.tree()), (DEVICE, "", old), words_)


@test
def a_limit_of_a_files_size_is_a_failed_write_of_a_text(program):
    content = bytes(range(256)) * 4
    _, load_file, _ = one_hunk(content)
    report = model.report_of([0], [content]).encode()
    program.write("x", load_file)
    program.write("bad", LOAD_FILE + words(0))
    refused = b"amihunk: bad: longword 10: data after the last hunk\n"
    more = b"  at byte 40 (00000028)\n  found 00000000\n  path: hunk 0, after HUNK_END\n  due: the end of the file\n"
    for bytes_ in (0, 1, 1024):
        for ignored in (True, False):
            how = {"limit": (resource.RLIMIT_FSIZE, bytes_), "before": ignoring_sizes if ignored else None}
            with open(program.at("told"), "wb") as told:
                ended = program.run("load", "--at", "0", "x", stdout=told, **how)
            equals(ended, (DEVICE, "", "amihunk: output: write failed\n") if ignored else (-signal.SIGXFSZ, "", ""), bytes_)
            equals(program.read("told"), report[:bytes_])
            for words_, line in ((("check", "bad"), refused), (("check", "--explain", "bad"), refused + more)):
                with open(program.at("told"), "wb") as told:
                    status, out, _ = program.run(*words_, stderr=told, **how)
                fits = len(line) <= bytes_
                equals((status, out), (REFUSED if ignored or fits else -signal.SIGXFSZ, ""), (words_, bytes_))
                equals(program.read("told"), line[:bytes_])


@test
def a_signal_leaves_out_and_map_old_or_new(program):
    dice, states = random.Random(50), []
    for name in ("a.o", "b.o"):
        unit, load_file, map_ = one_hunk(dice.randbytes(4 << 20), b"n" * (4 << 20), name)
        program.write(name, unit)
        states.append((name, load_file, map_))
    program.write(".amihunk-0", OLD)
    (_, *old), (_, *new) = states
    program.write("out", old[0])
    program.write("map", old[1])
    command = ["amihunk", "link", "--out", "out", "--map", "map"]
    began = time.monotonic()
    program.prints("", *command[1:], "b.o")
    took = time.monotonic() - began
    old, ends = new, collections.Counter()
    for number in range(50):
        # OUT and MAP are those of one file, and it links the other.
        name, *new = states[old[0] == states[0][1]]
        with subprocess.Popen([*command, name], executable=program.path, cwd=program.folder, stderr=subprocess.PIPE) as process:
            # Half of the signals come when OUT has been begun.
            while number % 2 and process.poll() is None and not os.path.lexists(program.at(".amihunk-1")):
                pass
            time.sleep(dice.random() * took)
            process.send_signal(dice.choice((signal.SIGKILL, signal.SIGTERM)))
            errors = process.communicate(timeout=60)[1]
        assert process.returncode in (DONE, -signal.SIGKILL, -signal.SIGTERM) and errors == b"", (process.returncode, errors)
        now = [program.read("out"), program.read("map")]
        left = set(os.listdir(program.folder)) - {"a.o", "b.o", "out", "map", ".amihunk-0"}
        places = [old, [new[0], old[1]], new]
        assert now in places and (process.returncode or now == new), f"OUT and MAP have {[len(it) for it in now]} other bytes"
        assert left <= ({".amihunk-1"} if now != new else set()), left
        for begun in left:
            os.remove(program.at(begun))
        ends[places.index(now), len(left)] += 1
        if now == places[1]:
            program.write("map", new[1])
        old = old if now == old else new
    equals(program.read(".amihunk-0"), OLD)
    # Of what may be, most has been seen: the old files, a new OUT, both new ones, and the old files or a new OUT with one that is begun.
    assert len(ends) >= 3 and any(begun for _, begun in ends), ends


def writes(program, *words_):
    """What it writes to standard error, write by write."""
    here, there = socket.socketpair(socket.AF_UNIX, socket.SOCK_SEQPACKET)
    how = {"executable": program.path, "cwd": program.folder, "stdin": subprocess.DEVNULL, "stdout": subprocess.DEVNULL}
    with here, there, subprocess.Popen(["amihunk", *words_], stderr=there, **how) as process:
        there.close()
        told = list(iter(lambda: here.recv(1 << 20), b""))
        process.wait(60)
    return told


def undefined(name):
    """A unit that refers to a name."""
    hunk = Hunk(CODE, [0])
    hunk.sites = [(0, name)]
    return [hunk]


@test
def a_line_is_one_write(program):
    program.write("x.o", OBJECT_FILE)
    program.write("x", LOAD_FILE)
    program.write("bad", LOAD_FILE + words(0))
    front, end = 'amihunk: link: unit 0 hunk 0: "', '" not defined\n'
    explained = '  "', '", references: 1, first in long.o unit 0 "" hunk 0 ""\n'
    for words_, lines in (
        (("check", "--explain", "bad"), 5),
        (("load", "--explain", "--at", "0", "x.o"), 6),
        (("link", "--explain", "--out", "o", "x"), 6),
        (("load", "--explain", "--at", "0,1,2", "x"), 3),
        (("load", "--explain", "--at-file", "missing", "x"), 2),
        (("check", "--explain", "."), 2),
        (("load", "--at", "x", "x"), 1),
        (("link", "--out", "o", "--map", "o", "x.o"), 1),
        (("link", "--out", "/dev/full", "x.o"), 1),
        (("copy", "--explain", "--out", "o", "bad"), 5),
        (("copy", "--explain", "--out", "o", "x.o"), 6),
        (("copy", "--out", "/dev/full", "x"), 1),
        (("compare", "x", "bad"), 1),
    ):
        told = writes(program, *words_)
        equals((sum(it.count(b"\n") for it in told), {it[-1:] for it in told}), (lines, {b"\n"}), words_)
    # There are several lines in what is told of a rejected command line.
    for words_ in ((), ("link",), ("load", "x")):
        told = writes(program, *words_)
        assert told and all(it.endswith(b"\n") for it in told), told
    # The longest lines that are one write, of letters and of bytes that stand as four characters each.
    for front, end, words_ in ((front, end, ()), (*explained, ("--explain",))):
        for byte, shown in ((b"n", "n"), (b"\xff", "\\xff")):
            room = 8192 - len(front) - len(end)
            name = byte * (room // len(shown)) + b"n" * (room % len(shown))
            program.write("long.o", model.object_file([undefined(name)]))
            line = front + model.quoted(name)[1:-1] + end
            equals(len(line), 8192)
            told = writes(program, "link", *words_, "--out", "o", "long.o")
            assert sum(line.encode() in it for it in told) == 1 and all(it.endswith(b"\n") for it in told), [len(it) for it in told]


@test
def runs_that_share_a_log_tear_no_line(program):
    wanted, commands = collections.Counter(), []
    for run in range(4):
        hunks = 4000 + run
        program.write(f"{run}", words(HEADER, 0, hunks, 0, hunks - 1, *[run] * hunks) + words(CODE, 0, END) * hunks)
        lines = ["amihunk: places: wrong number of addresses", f"  hunks: {hunks}, addresses: 1", f"  hunk 0: {4 * run} bytes at 00001000"]
        lines += [f"  hunk {hunk}: {4 * run} bytes, no address" for hunk in range(1, hunks)]
        wanted.update(lines)
        commands.append(["load", "--explain", "--at", "1000", f"{run}"])
    with open(program.at("log"), "ab") as log, contextlib.ExitStack() as started:
        # Each waits for the end of what it reads, so that all begin at once.
        reads, gate = os.pipe()
        how = {"cwd": program.folder, "stdin": reads, "stderr": log}
        for command in commands:
            started.enter_context(subprocess.Popen(["sh", "-c", 'read _; exec "$0" "$@"', program.path, *command], **how))
        os.close(reads)
        os.close(gate)
    told = collections.Counter(program.read("log").decode("latin-1").splitlines())
    assert told == wanted, f"torn: {list((told - wanted).items())[:5]}, and missing: {list((wanted - told).items())[:5]}"
