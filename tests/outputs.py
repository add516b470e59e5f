"""What `link` does with OUT and MAP, and `copy` with OUT, whatever stands under their names: each becomes a new file in one step, or stays
what it was."""
import os
import stat
import subprocess

from harness import BAD_WORDS, DEVICE, DONE, REFUSED, as_nobody, equals, test
from maps import MAP
from runs import LOAD_FILE, OBJECT_FILE

# It is longer than what replaces it.
OLD = b"was here" * 500


def each_output(program):
    """For OUT and MAP of `link` and for OUT of `copy`: a folder, the words that come before its name, its bytes, and what else is in the
    folder. The file to link or to copy is x.o."""
    place = program.inside("out")
    place.write("x.o", OBJECT_FILE)
    yield place, ("link", "--out"), LOAD_FILE, {"x.o": OBJECT_FILE}
    place = program.inside("map")
    place.write("x.o", OBJECT_FILE)
    place.write("o", LOAD_FILE)
    yield place, ("link", "--out", "o", "--map"), MAP.encode(), {"x.o": OBJECT_FILE, "o": LOAD_FILE}
    place = program.inside("copy")
    place.write("x.o", LOAD_FILE)
    yield place, ("copy", "--out"), LOAD_FILE, {"x.o": LOAD_FILE}


def mode_of(program, name):
    return stat.S_IMODE(os.stat(program.at(name)).st_mode)


@test
def an_output_takes_its_place_when_it_is_whole(program):
    for place, link, new, files in each_output(program):
        place.write("out", OLD)
        with open(place.at("out"), "rb") as reader:
            was = os.fstat(reader.fileno()).st_ino
            place.prints("", *link, "out", "x.o")
            equals(reader.read(), OLD, "what an old reader reads")
            assert os.stat(place.at("out")).st_ino != was
        place.prints("", *link, "fresh", "x.o")
        place.prints("", *link, "./fresh too", "x.o")
        place.prints("", *link, place.at("absolute"), "x.o")
        equals(place.tree(), files | {"out": new, "fresh": new, "fresh too": new, "absolute": new})


@test
def an_output_has_the_permissions_of_the_old_file(program):
    for place, link, new, _ in each_output(program):
        for mask, fresh in ((0o022, 0o644), (0o077, 0o600), (0o000, 0o666), (0o027, 0o640)):
            for mode in (0o644, 0o600, 0o755, 0o664, 0o606, 0o777):
                place.write("out", OLD)
                os.chmod(place.at("out"), mode)
                place.prints("", *link, "out", "x.o", before=lambda: os.umask(mask))
                equals((mode_of(place, "out"), place.read("out")), (mode, new), (mask, mode))
            place.prints("", *link, "fresh", "x.o", before=lambda: os.umask(mask))
            equals((mode_of(place, "fresh"), place.read("fresh")), (fresh, new), mask)
            os.remove(place.at("fresh"))


@test
def another_name_of_the_old_file_keeps_it(program):
    for place, link, new, files in each_output(program):
        place.write("out", OLD)
        os.link(place.at("out"), place.at("other"))
        place.prints("", *link, "out", "x.o")
        equals(place.tree(), files | {"out": new, "other": OLD})


@test
def a_link_stays_and_its_file_is_replaced(program):
    for place, link, new, files in each_output(program):
        far = place.inside("far")
        os.symlink("far/file", place.at("near"))
        os.symlink("near", place.at("chain"))
        os.symlink(far.at("file"), far.at("absolute"))
        os.symlink("far", place.at("way"))
        links = {"near": "-> far/file", "chain": "-> near", "far/absolute": "-> " + far.at("file"), "way": "-> far", "far": "d"}
        for name in ("near", "chain", "far/absolute", "way/absolute", "way/file"):
            far.write("file", OLD)
            os.chmod(far.at("file"), 0o640)
            os.link(far.at("file"), far.at("other"))
            place.prints("", *link, name, "x.o")
            equals(place.tree(), files | links | {"far/file": new, "far/other": OLD}, name)
            equals(mode_of(far, "file"), 0o640, name)
            os.remove(far.at("other"))


@test
def a_file_is_created_where_a_dangling_link_leads(program):
    for place, link, new, files in each_output(program):
        far = place.inside("far")
        for name, to in (("near", "far/new"), ("chain", "near"), ("lost", "nowhere/new"), ("loop", "loop")):
            os.symlink(to, place.at(name))
        files |= {"far": "d", "near": "-> far/new", "chain": "-> near", "lost": "-> nowhere/new", "loop": "-> loop"}
        for name in ("lost", "loop"):
            place.fails(DEVICE, f"{name}: cannot be opened", *link, name, "x.o")
        equals(place.tree(), files)
        for name in ("near", "chain"):
            place.prints("", *link, name, "x.o", before=lambda: os.umask(0o027))
            equals(place.tree(), files | {"far/new": new}, name)
            equals(mode_of(far, "new"), 0o640)
            os.remove(far.at("new"))


def read_by_another(place, *words_):
    """Runs the program, which writes to `pipe`, and gives what is read there."""
    with subprocess.Popen(["cat", "pipe"], cwd=place.folder, stdout=subprocess.PIPE) as reader:
        try:
            place.prints("", *words_)
            return reader.communicate(timeout=60)[0]
        finally:
            reader.kill()


@test
def devices_and_pipes_are_written_where_they_are(program):
    for place, link, new, files in each_output(program):
        told = "output" if link[-1] == "--out" else "/dev/full"
        place.fails(DEVICE, f"{told}: write failed", *link, "/dev/full", "x.o")
        place.prints("", *link, "/dev/null", "x.o")
        assert all(stat.S_ISCHR(os.stat(name).st_mode) for name in ("/dev/full", "/dev/null"))
        place.prints(new.decode("latin-1"), *link, "/dev/stdout", "x.o")
        equals(place.run(*link, "/dev/stderr", "x.o"), (DONE, "", new.decode("latin-1")))
        os.mkfifo(place.at("pipe"))
        os.symlink("pipe", place.at("to the pipe"))
        for name in ("pipe", "to the pipe"):
            equals(read_by_another(place, *link, name, "x.o"), new, name)
        # Without a reader the pipe cannot be opened, so the program would wait for one.
        place.write("bad.o", b"abc")
        place.fails(REFUSED, "bad.o: longword 0: file ends inside a longword", *link, "pipe", "bad.o")
        place.fails(REFUSED, "bad.o: longword 0: file ends inside a longword", *link, "/dev/stdout", "bad.o")
        equals(place.tree(), files | {"pipe": "p", "to the pipe": "-> pipe", "bad.o": b"abc"})


@test
def a_folder_is_no_output(program):
    for place, link, _, files in each_output(program):
        os.mkdir(place.at("folder"))
        os.mkdir(place.at("folder/full"))
        os.symlink("folder", place.at("way"))
        place.write("file", OLD)
        files |= {"folder": "d", "folder/full": "d", "way": "-> folder", "file": OLD}
        for name in ("folder", "folder/full", "folder/", "way", "way/", ".", "..", "new/", "file/", "file/new", "no/new", ""):
            place.fails(DEVICE, f"{name}: cannot be opened", *link, name, "x.o")
            equals(place.tree(), files, name)


@test
def in_a_folder_that_cannot_be_written_an_output_is_written_in_place(program):
    for place, link, new, files in each_output(program.for_all()):
        far = place.inside("far")
        far.write("new", OLD)
        for name, mode in (("out", 0o666), ("locked", 0o444), ("one of the files", 0o666)):
            place.write(name, files["x.o"] if mode == 0o666 and name != "out" else OLD)
            os.chmod(place.at(name), mode)
        for name in ("o", "far/new"):
            if os.path.exists(place.at(name)):
                os.chmod(place.at(name), 0o666)
        os.symlink("far/new", place.at("to far"))
        os.symlink("../out", far.at("to near"))
        os.chmod(far.folder, 0o777)
        os.chmod(place.folder, 0o555)
        inodes = {name: os.stat(place.at(name)).st_ino for name in ("out", "far/new")}
        files |= {"out": OLD, "locked": OLD, "one of the files": files["x.o"], "far": "d", "far/new": OLD,
                  "to far": "-> far/new", "far/to near": "-> ../out"}
        try:
            place.prints("", *link, "out", "x.o", before=as_nobody)
            equals((place.tree(), os.stat(place.at("out")).st_ino), (files | {"out": new}, inodes["out"]))
            place.write("out", OLD)
            place.prints("", *link, "far/to near", "x.o", before=as_nobody)
            equals((place.tree(), os.stat(place.at("out")).st_ino), (files | {"out": new}, inodes["out"]))
            for name in ("fresh", "locked"):
                place.fails(DEVICE, f"{name}: cannot be opened", *link, name, "x.o", before=as_nobody)
                equals(place.tree(), files | {"out": new}, name)
            # The new file is made where the file is to which the link leads.
            place.prints("", *link, "to far", "x.o", before=as_nobody)
            equals(place.tree(), files | {"out": new, "far/new": new})
            assert os.stat(far.at("new")).st_ino != inodes["far/new"]
            if link[-1] == "--out":
                place.prints("", *link, "one of the files", "one of the files", before=as_nobody)
                equals(place.read("one of the files"), new)
        finally:
            os.chmod(place.folder, 0o755)


@test
def an_output_that_cannot_be_written_stays(program):
    for place, link, new, files in each_output(program.for_all()):
        for name, mode in (("locked", 0o444), ("hidden", 0o000), ("unread", 0o222)):
            place.write(name, OLD)
            os.chmod(place.at(name), mode)
        if "o" in files:
            os.chmod(place.at("o"), 0o666)
        os.chmod(place.folder, 0o777)
        for name in ("locked", "hidden"):
            place.fails(DEVICE, f"{name}: cannot be opened", *link, name, "x.o", before=as_nobody)
        if os.geteuid() == 0:
            equals(place.tree(), files | {"locked": OLD, "hidden": OLD, "unread": OLD})
        equals(sorted(os.listdir(place.folder)), sorted([*files, "locked", "hidden", "unread"]))
        place.prints("", *link, "unread", "x.o", before=as_nobody)
        equals(mode_of(place, "unread"), 0o222)
        os.chmod(place.at("unread"), 0o644)
        equals(place.read("unread"), new)


@test
def in_a_folder_where_no_other_users_files_are_renamed_nothing_is_left(program):
    for place, link, new, files in each_output(program.for_all()):
        place.write("out", OLD)
        os.chmod(place.at("out"), 0o666)
        if "o" in files:
            os.chmod(place.at("o"), 0o666)
        os.chmod(place.folder, 0o1777)
        # As in /tmp: a file may be made beside OUT, but not be given its name.
        status, out, errors = place.run(*link, "out", "x.o", before=as_nobody)
        assert (status, out) in ((DONE, ""), (DEVICE, "")) and (errors == "") == (status == DONE), (status, out, errors)
        equals(place.tree(), files | {"out": new if status == DONE else OLD})


@test
def the_new_file_has_a_name_of_its_own(program):
    for place, link, new, files in each_output(program):
        for number in range(4, 13):
            place.write(f".amihunk-{number}", b"%d" % number)
            files |= {f".amihunk-{number}": b"%d" % number}
        place.write(".amihunk-0", LOAD_FILE)
        os.mkdir(place.at(".amihunk-1"))
        os.symlink("victim", place.at(".amihunk-2"))
        os.mkfifo(place.at(".amihunk-3"))
        files |= {".amihunk-0": LOAD_FILE, ".amihunk-1": "d", ".amihunk-2": "-> victim", ".amihunk-3": "p"}
        place.write("out", OLD)
        longest = "n" * 255
        for name in ("out", longest):
            place.prints("", *link, name, "x.o")
        equals(place.tree(), files | {"out": new, longest: new})
        place.fails(DEVICE, f"{longest}n: cannot be opened", *link, longest + "n", "x.o")
        # An output may have such a name, too.
        place.prints("", *link, ".amihunk-0", "x.o")
        place.prints("", *link, ".amihunk-13", "x.o")
        equals(place.tree(), files | {"out": new, longest: new, ".amihunk-0": new, ".amihunk-13": new})


def one_file_twice(program):
    """Names in pairs, where both are of one file: one that is there, one that is not there yet, a device or a pipe."""
    os.mkdir(program.at("folder"))
    for name, to in (("soft", "a"), ("softer", "soft"), ("way", "folder"), ("null", "/dev/null"), ("to the pipe", "pipe")):
        os.symlink(to, program.at(name))
    program.write("a", OLD)
    os.link(program.at("a"), program.at("hard"))
    os.mkfifo(program.at("pipe"))
    for names in (
        ("a", "./a", "folder/../a", "way/../a", "hard", "soft", "softer", program.at("a"), program.at("way/../soft")),
        ("new", "./new", "folder/../new", ".//new", program.at("new")),
        ("folder/new", "way/new", "./folder/./new", program.at("folder/new")),
        ("/dev/null", "null"),
        ("pipe", "to the pipe", "./pipe"),
        ("/dev/stdout", "/dev/fd/1"),
    ):
        yield from ((one, other) for one in names for other in names)


@test
def out_and_map_are_two_files(program):
    program.write("x.o", OBJECT_FILE)
    pairs = list(one_file_twice(program))
    before = program.tree()
    for out, map_ in pairs:
        line = f"{map_}: given for both --out and --map"
        program.fails(BAD_WORDS, line, "link", "--out", out, "--map", map_, "x.o")
        program.fails(BAD_WORDS, line, "link", "--out", out, "--map", map_, "missing")
        equals(program.tree(), before, (out, map_))
    # These are two, though their names end alike, or what they hold is the same.
    program.write("same", OLD)
    os.mkdir(program.at("other"))
    pairs = (("a", "same"), ("folder/o", "other/o"), ("way/o", "other/o"), ("/dev/null", "o"), ("p", "/dev/null"), ("folder/o", "o"))
    for out, map_ in pairs:
        program.prints("", "link", "--out", out, "--map", map_, "x.o")
        for name, bytes_ in ((out, LOAD_FILE), (map_, MAP.encode())):
            if name != "/dev/null":
                equals(program.read(name), bytes_, (out, map_))


@test
def a_link_that_leads_to_no_file_and_what_it_leads_to_are_one_file(program):
    program.write("x.o", OBJECT_FILE)
    os.mkdir(program.at("folder"))
    for name, to in (("near", "new"), ("chain", "near"), ("far", "folder/new"), ("folder/back", "../new")):
        os.symlink(to, program.at(name))
    before = program.tree()
    for names in (("new", "near", "./near", "chain", "folder/back", program.at("near")), ("folder/new", "far", "./far")):
        for out, map_ in ((out, map_) for out in names for map_ in names):
            line = f"{map_}: given for both --out and --map"
            program.fails(BAD_WORDS, line, "link", "--out", out, "--map", map_, "x.o")
            equals(program.tree(), before, (out, map_))


@test
def a_map_is_none_of_the_files(program):
    program.write("x.o", OBJECT_FILE)
    program.write("y.o", OBJECT_FILE)
    os.link(program.at("x.o"), program.at("hard"))
    os.symlink("x.o", program.at("soft"))
    os.symlink(".", program.at("way"))
    names = ("x.o", "./x.o", "hard", "soft", "way/x.o", "way/soft", program.at("x.o"))
    program.write("out", OLD)
    before = program.tree()
    for map_ in names:
        for file in names:
            for out in ("out", "fresh", "y.o"):
                line = f"{map_}: given for both --map and FILE"
                program.fails(BAD_WORDS, line, "link", "--out", out, "--map", map_, *["y.o"] * 40, file, "y.o")
                equals(program.tree(), before, (map_, file, out))
    # What is said first is that it is OUT.
    program.fails(BAD_WORDS, "./x.o: given for both --out and --map", "link", "--out", "soft", "--map", "./x.o", "x.o")
    equals(program.tree(), before)


@test
def what_is_left_of_a_failure_is_what_was_there(program):
    for place, link, _, files in each_output(program):
        place.write("bad.o", b"abc")
        place.write("out", OLD)
        files |= {"bad.o": b"abc", "out": OLD}
        for name in ("out", "fresh", "bad.o"):
            if link[-1] == "--map" and name == "bad.o":
                continue
            # `link` takes many files, and `copy` one.
            before = () if link[0] == "copy" else ("x.o",)
            for words_, status, line in (
                (("bad.o",), REFUSED, "bad.o: longword 0: file ends inside a longword"),
                ((*before, "missing"), DEVICE, "missing: cannot be opened"),
                ((*before, "."), DEVICE, ".: read failed"),
            ):
                place.fails(status, line, *link, name, *words_)
                equals(place.tree(), files, (name, words_))
