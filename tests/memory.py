"""What the program does under falling limits of memory: all that it was asked for, or a line that says it is out of memory."""
import collections
import os
import resource
import subprocess

import model
import trees
from harness import DEVICE, DONE, NO_MEMORY, REFUSED, as_nobody, equals, test
from json_documents import page_ends
from model import CODE, DEF, END, HEADER, RELOC32, SYMBOL, Hunk, words
from runs import LOAD_FILE, OBJECT_FILE, RECORDS, REPORT
from surveys import LOADED

PAGE = resource.getpagesize()
TOLD = "amihunk: out of memory\n"
OLD = b"was here"
# How many pages more than `amihunk --version` a command may need to be started, whose words are longer.
MORE_WORDS = 8


def under(program, pages, *words_, before=None):
    """Runs it with so many pages of memory, and returns its status and what it wrote, or None if the system does not start it."""
    try:
        return program.run(*words_, limit=(resource.RLIMIT_AS, pages * PAGE), before=before)
    except (OSError, subprocess.SubprocessError) as error:
        if isinstance(error, subprocess.TimeoutExpired):
            raise
        return None


def halved(low, high, is_enough):
    """The least number above `low`, up to `high`, that is enough."""
    while high - low > 1:
        middle = (low + high) // 2
        low, high = (low, middle) if is_enough(middle) else (middle, high)
    return high


def least_pages(program):
    """The least number of pages with which the program itself is started.

    The dynamic linker ends with 127 where it and the libraries have no room. So with more pages than that it is the program that
    ends, also if it ends by a signal. Without a dynamic linker only `--version` can tell whether it is started.
    """
    def is_unlinked(pages):
        ended = under(program, pages, "--version")
        return ended is not None and ended[0] == 127

    def is_started(pages):
        ended = under(program, pages, "--version")
        return ended is not None and ended[0] in (DONE, NO_MEMORY)

    most = (64 << 20) // PAGE
    assert is_started(most)
    least = halved(0, most, is_started)
    unlinked = next(filter(is_unlinked, range(least - 1, 0, -8)), None)
    return halved(unlinked, least, lambda pages: not is_unlinked(pages)) if unlinked else least


def falls(program, least, steps, wanted, words_, also=(), before=None, after=lambda ended: None):
    """Runs it with less and less memory, by steps down to the least: it ends as wanted, or as `also` allows, or out of memory. The
    first and the last of these are seen."""
    seen = collections.Counter()
    for extra in steps:
        ended = under(program, least + extra, *words_, before=before)
        if extra < MORE_WORDS and (ended is None or ended[0] == 127):
            continue
        assert ended in (wanted, (NO_MEMORY, "", TOLD), *also), f"{words_} with {least} + {extra} pages: {ended!r:.500}"
        after(ended)
        seen[ended[0]] += 1
    assert seen[wanted[0]] and seen[NO_MEMORY], f"{words_}: {seen}"


def write_files(program):
    code = Hunk(CODE, [0x4E714E71])
    code.sites, code.definitions = [(0, b"other")], [(DEF, b"main", 0)]
    other = Hunk(CODE, [7, 8])
    other.sites, other.definitions = [(4, b"main")], [(DEF, b"other", 4)]
    program.write("x.o", model.object_file([[code]]))
    program.write("y.o", model.object_file([[other]]))
    program.write("one.o", OBJECT_FILE)
    program.write("x", LOAD_FILE)
    program.write("addresses", b"10000\n")
    program.write("bad", LOAD_FILE + words(0x1234))
    program.write("odd", LOAD_FILE.replace(words(CODE), words(CODE | 1 << 30)))
    symbol = words(SYMBOL, 1) + b"loop" + words(2, 0, END)
    for name, bytes_ in (("named.o", OBJECT_FILE), ("named", LOAD_FILE)):
        program.write(name, bytes_[:-4] + symbol)
    return [[code], [other]]


def page_of(document):
    """The page with this document, which has no less-than sign."""
    before, behind = page_ends()
    return (before + document.removesuffix("\n").encode() + behind).decode("latin-1")


# How many pages more than the least number there are, one run after another: from 4 MB down, and page by page from 1 MB.
STEPS = (*range(1024, 256, -64), *range(256, -1, -1))
# The same for a link that takes some MB.
LARGE_STEPS = (*range(4096, 1024, -256), *range(1024, -1, -8))


def texts(program):
    """Commands over files that are written here, each with the text that it prints, but surveys."""
    units, bases = write_files(program), [0x1000, 0x2000]
    listing = "load file: 1 hunks\nhunk 0 code any 1 longwords, 1 stored\n"
    document = ('{"hunks":[{"debugs":[],"kind":"code","memory":"any","sites":[],"size":1,"stored":1,"symbols":[]}],'
                '"kind":"load file"}\n')
    with_content = document.replace('"symbols"', '"content":"TnVOcQ==","content_offset":32,"symbols"')
    named = f"$$ amihunk\n  loop $00010002\n$$ \n{RECORDS}"
    return (
        (("load", "--at", "10000", "x"), REPORT),
        (("load", "--at-file", "addresses", "x"), REPORT),
        (("load", "--at", "10000", "--srec", "x"), RECORDS),
        (("load", "--at", "10000", "--symbols", "named"), '00010002 hunk 0 "loop"\n'),
        (("load", "--at", "10000", "--srec", "--symbols", "named"), named),
        (("image", "--at", "1000,2000", "x.o", "y.o"), model.report_of(bases, model.memory_of(units, bases))),
        (("image", "--at", "10000", "--symbols", "named.o"), '00010002 hunk 0 "loop"\n'),
        (("image", "--at", "10000", "--srec", "--symbols", "named.o"), named),
        (("check", "x"), "load file: 1 hunks\n"),
        (("check", "--lint", "odd"), "load file: 1 hunks\nlongword 6: the upper bits of the type are ignored\n"),
        (("show", "x"), listing),
        (("show", "--json", "x"), document),
        (("show", "--json", "--content", "x"), with_content),
        (("show", "--html", "x"), page_of(with_content)),
        (("show", "--names", "x.o", "y.o"), model.names_of(units)),
        (("compare", "x", "x"), ""),
    )


@test
def with_little_memory_a_text_is_printed_or_none_is(program):
    survey = ["one.o: object file: 1 units, 1 hunks\n", "x: load file: 1 hunks\n",
              "2 files: 1 object files, 1 load files, 0 refused, 0 unreadable\n0 refused, of which 0 are no hunk files\n"]
    # A survey prints what it knows of a file before it opens the next.
    parts_of_survey = [(NO_MEMORY, "".join(survey[:lines]), TOLD) for lines in range(1, 3)]
    commands = [(words_, told, ()) for words_, told in texts(program)]
    least = least_pages(program)
    for words_, told, also in (
        (("--version",), program.run("--version")[1], ()),
        *commands,
        (("survey", "one.o", "x"), "".join(survey), parts_of_survey),
        (("survey", "--digest", "--json", "x"), trees.survey_of([(b"x", LOADED)], ("--digest", "--json"))[1], ()),
    ):
        falls(program, least, STEPS, (DONE, told, ""), words_, also)


# Refusals over the files of `write_files`, each with its line and what is told with `--explain`.
REFUSALS = (
    (
        ("load", "--explain", "--at", "10000", "bad"),
        "amihunk: bad: longword 10: data after the last hunk\n",
        "  at byte 40 (00000028)\n  found 00001234\n  path: hunk 0, after HUNK_END\n  due: the end of the file\n",
    ),
    (
        ("load", "--explain", "--at", "10000,20000", "x"),
        "amihunk: places: wrong number of addresses\n",
        "  hunks: 1, addresses: 2\n  hunk 0: 4 bytes at 00010000\n",
    ),
    (
        ("link", "--explain", "--out", "out", "x.o"),
        'amihunk: link: unit 0 hunk 0: "other" not defined\n',
        '  unit 0 hunk 0: x.o unit 0 "" hunk 0 ""\n  "other", references: 1, first in x.o unit 0 "" hunk 0 ""\n',
    ),
)


@test
def with_little_memory_a_refusal_is_told_with_more_or_without(program):
    write_files(program)
    least = least_pages(program)
    for words_, line, more in REFUSALS:
        falls(program, least, STEPS, (REFUSED, "", line + more), words_, [(REFUSED, "", line + "  not explained: out of memory\n")])
        assert not os.path.lexists(program.at("out"))


def out_is_old_or_new(program, steps, new, map_, *files, before=None):
    """Links with less and less memory, without a map and with one, and looks at both after each run."""
    for name in ("out", "map"):
        program.write(name, OLD)
    least, names = least_pages(program), sorted(os.listdir(program.folder))
    for more, done, failed in (
        ((), [(new, OLD)], [(OLD, OLD)]),
        # OUT has taken its place before memory runs out for the map.
        (("--map", "map"), [(new, map_)], [(OLD, OLD), (new, OLD)]),
    ):
        def compare(ended):
            assert (program.read("out"), program.read("map")) in (done if ended[0] == DONE else failed), ended
            equals(sorted(os.listdir(program.folder)), names)
            program.write("out", OLD)
            program.write("map", OLD)

        falls(program, least, steps, (DONE, "", ""), ("link", "--out", "out", *more, *files), before=before, after=compare)


def write_linked(program):
    """Writes the files, and returns the load file of x.o and y.o, and its map."""
    units = write_files(program)
    # The first hunk adds 4 and the address of the second at its first byte, and the second that of the first at its last longword.
    out = words(HEADER, 0, 2, 0, 1, 1, 2, CODE, 1, 0x4E714E71 + 4, RELOC32, 1, 1, 0, 0, END, CODE, 2, 7, 8, RELOC32, 1, 0, 4, 0, END)
    return out, model.map_of([("x.o", units[:1]), ("y.o", units[1:])]).encode()


@test
def with_little_memory_out_is_old_or_new(program):
    new, map_ = write_linked(program)
    out_is_old_or_new(program, STEPS, new, map_, "x.o", "y.o")


@test
def with_little_memory_a_copy_is_old_or_new(program):
    program.write("x", LOAD_FILE)
    program.write("out", OLD)

    def compare(ended):
        equals((program.read("out"), sorted(os.listdir(program.folder))), (LOAD_FILE if ended[0] == DONE else OLD, ["out", "x"]))
        program.write("out", OLD)

    falls(program, least_pages(program), STEPS, (DONE, "", ""), ("copy", "--out", "out", "x"), after=compare)


def write_many_names(program):
    """Writes x.o, in which four hunks name 5,000 places, each hunk those of the next one, and returns its load file and the map."""
    sizes = (500, 1000, 1500, 2000)
    hunks = [Hunk(CODE, [0] * size) for size in sizes]
    load_file = [words(HEADER, 0, 4, 0, 3, *sizes)]
    for number, size in enumerate(sizes):
        names, other = [b"name%d" % (10000 * number + it) for it in range(size)], (number + 1) % 4
        hunks[number].sites = [(4 * it, name) for it, name in enumerate(names)]
        hunks[other].definitions = [(DEF, name, 3 * it) for it, name in enumerate(names)]
        load_file += [words(CODE, size, *(3 * it for it in range(size))), words(RELOC32, size, other, *range(0, 4 * size, 4), 0, END)]
    program.write("x.o", model.object_file([hunks]))
    return b"".join(load_file), model.map_of([("x.o", [hunks])]).encode()


@test
def with_little_memory_for_many_names_out_is_old_or_new(program):
    new, map_ = write_many_names(program)
    out_is_old_or_new(program, LARGE_STEPS, new, map_, "x.o")


@test
def with_little_memory_nothing_is_written_in_place(program):
    program = program.for_all()
    new, map_ = write_many_names(program)
    for name in ("out", "map"):
        program.write(name, OLD)
        os.chmod(program.at(name), 0o666)
    os.chmod(program.folder, 0o555)
    try:
        out_is_old_or_new(program, LARGE_STEPS, new, map_, "x.o", before=as_nobody)
    finally:
        os.chmod(program.folder, 0o755)


@test
def with_little_memory_names_that_are_no_text_are_surveyed(program):
    write_files(program)
    words_ = ("survey", b"\xff", b"caf\xe9", "x")
    wanted = program.run(*words_)
    lines = wanted[1].splitlines(True)
    equals((wanted[0], len(lines) > 3, wanted[2]), (DEVICE, True, ""))
    also = [(NO_MEMORY, "".join(lines[:number]), TOLD) for number in range(1, 4)]
    falls(program, least_pages(program), STEPS, wanted, words_, also)
