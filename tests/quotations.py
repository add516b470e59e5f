"""What docs/OUTPUT.md, docs/FORMAT.md, the help and the man page quote is what is printed and written, and the man page's commands are
understood."""
import os
import re
import shlex
import shutil

import model
from command_line import lines_of
from comparisons import CHIP, DIFFERENT, load_file, symbols
from harness import DONE, REFUSED, equals, test
from model import BSS, CODE, DATA, DEBUG, DEF, END, HEADER, RELOC32, UNIT, Hunk, Unit, words
from readme import blocks
from runs import LOAD_FILE
from sources import TOP, text_of


def write_examples(program):
    """The files of the examples: `main.o` has something of all that a unit may have, and `linked` is made of it; `call.o` calls
    what `put.o` defines; `rts`, `half` and `next` are load files; and `odd.o` and `odd` are no good ones."""
    code = Hunk(CODE, [0, 0], b"CODE")
    code.sites, code.definitions, code.symbols, code.debugs = [(2, 1)], [(DEF, b"main", 0)], [(b"loop", 6)], [[7]]
    program.write("main.o", model.object_file([Unit([code, Hunk(BSS, [0, 0], memory="chip")], b"test")]))
    program.prints("", "link", "--out", "linked", "--map", "map", "main.o")
    call, put = Hunk(CODE, [0]), Hunk(CODE, [0, 0])
    call.sites, call.definitions, put.definitions = [(0, b"put")], [(DEF, b"main", 0)], [(DEF, b"put", 4)]
    program.write("call.o", model.object_file([[call]]))
    program.write("put.o", model.object_file([[put]]))
    program.write("rts", LOAD_FILE)
    program.write("half", load_file((2, CODE, 1, 0x4E754E71)))
    program.write("next", load_file((1, CODE, 1, 0x4E754E71, *symbols(("loop", 2)))))
    program.write("odd.o", words(UNIT, 0, CODE, 1 << 31 | 2, 0xFF, 0, RELOC32, 1, 0, 1, 0, END))
    odd = (1 << 31 | 2, 0, 0, RELOC32, 1, 0, 3, 0, END)
    program.write("odd", words(HEADER, 0, 4, 0, 3, 2, 0, 0, 0, CODE, *odd, *(CODE, 0, END) * 3))
    os.mkdir(program.at("disk"))
    for name, file in (("main.o", "main.o"), ("program", "linked")):
        shutil.copy(program.at(file), program.at(f"disk/{name}"))
    program.write("disk/readme", b"no hunk file")


def printed(program, line, status=DONE):
    """The lines that a command prints."""
    told, out, errors = program.run(*shlex.split(line))
    equals((told, errors), (status, ""), line)
    return out.splitlines()


def recorded(program):
    """The lines of symbols before S-records. Quotations leave out the space at the end of one of them."""
    lines = printed(program, "load --at 10000 --srec --symbols next")
    assert "$$ " in lines, lines
    return [line.rstrip(" ") for line in lines]


def surveyed(program, options=""):
    return printed(program, f"survey {options}disk/main.o disk/program disk/readme", REFUSED)


def one(*rows):
    """A load file of one hunk that has symbols alone."""
    return load_file((0, CODE, 0, *symbols(*rows)))


A, B, C, EMPTY, ROOM, FAR = ("a", 0), ("b", 0), ("c", 0), (0, CODE, 0), (1, CODE, 0), (12, BSS, 0)
# Two load files for each line that is quoted of a comparison.
PAIRS = {
    "hunks: 3 and 4": (load_file(*[EMPTY] * 3), load_file(*[EMPTY] * 4)),
    "hunk 0 kind: code and data": (load_file(EMPTY), load_file((0, DATA, 0))),
    "hunk 0 memory: any and chip": (load_file(ROOM), load_file((CHIP | 1, CODE, 0))),
    "hunk 0 size: 12 and 16": (load_file((3, CODE, 0)), load_file((4, CODE, 0))),
    "hunk 1 offset 00000012: 4e and 4f": tuple(load_file(EMPTY, (5, CODE, 5, 0, 0, 0, 0, it)) for it in (0x4E00, 0x4F00)),
    "hunk 1 site 00000008: hunk 1 and none": (load_file(EMPTY, (*FAR, RELOC32, 1, 1, 8, 0)), load_file(EMPTY, FAR)),
    'hunk 0 symbol 2: "loop" none and 00000010': (one(A, B), one(A, B, ("loop", 16))),
    'hunk 0 symbol 2: "loop" 00000004 and 00000008': (one(A, B, ("loop", 4)), one(A, B, ("loop", 8))),
    'hunk 0 symbol 3: "loop" 00000010 and none': (one(A, B, C, ("loop", 16)), one(A, B, C)),
    'hunk 0 symbol 3: "loop" and "next"': (one(A, B, C, ("loop", 0)), one(A, B, C, ("next", 0))),
    "hunk 1 debug 0": (load_file(EMPTY, (*EMPTY, DEBUG, 0)), load_file(EMPTY, EMPTY)),
}


def compared(program, *lines):
    """What is printed of the two files of each of these lines."""
    told = []
    for line in lines:
        for name, file in zip("AB", PAIRS[line]):
            program.write(name, file)
        told += printed(program, "compare --symbols A B", DIFFERENT)
    return told


@test
def the_manual_quotes_what_is_printed(program):
    write_examples(program)
    quoted = blocks(text_of("docs/OUTPUT.md"))
    equals(quoted.pop(0), printed(program, "check --lint odd.o"))
    # Documents are quoted on several lines, and of one a hunk alone.
    for block in (quoted[4], quoted[5]):
        block[:] = ["".join(block)]
    commands = [block for block in quoted if re.match(r"(find|amihunk [a-z]+) ", block[0])]
    equals(commands, [["amihunk show --html hello > hello.html"], ["find disk -type f -print0 | amihunk survey --files-from -"],
                      ["amihunk link --out - main.o library.o | amihunk check -"]])
    quoted = [block for block in quoted if block not in commands]
    content = quoted.pop(6)
    [document] = printed(program, "show --json --content linked")
    assert len(content) == 1 and document.startswith('{"hunks":[' + content[0]), content
    equals(quoted, [
        printed(program, "show main.o"), printed(program, "show linked"),
        printed(program, "show --names call.o"), printed(program, "show --names call.o put.o"),
        printed(program, "show --json main.o"), printed(program, "show --json linked"),
        surveyed(program), printed(program, "survey --digest disk/program")[:1], surveyed(program, "--json "),
        program.read("map").decode().splitlines(),
        printed(program, "load --at 10000 rts"), printed(program, "load --at 10000 --srec rts"),
        printed(program, "load --at 10000,20000 --symbols linked"), recorded(program),
        compared(program, "hunk 1 offset 00000012: 4e and 4f", "hunk 1 site 00000008: hunk 1 and none",
                 'hunk 0 symbol 2: "loop" none and 00000010'),
        printed(program, "--version"),
    ])


@test
def the_format_shows_the_longwords_of_the_examples(program):
    _, _, section = text_of("docs/FORMAT.md").partition("### Two object files, linked\n")
    section, _, _ = section.partition("\n## ")
    tables = re.findall(r"^\| Longwords \|.*\n\|---\|---\|\n((?:\|.*\n)+)", section, re.M)
    main, library, linked = (bytes.fromhex("".join(re.findall(r"^\| `([^`]*)` \|", table, re.M))) for table in tables)
    for name, wanted in (("main.o", main), ("library.o", library)):
        shutil.copy(os.path.join(TOP, "examples", name), program.at(name))
        equals(program.read(name), wanted, name)
    program.prints("", "link", "--out", "linked", "main.o", "library.o")
    equals(program.read("linked"), linked)


@test
def the_format_tells_the_faults_of_its_example(program):
    _, _, section = text_of("docs/FORMAT.md").partition("### An example\n")
    section, _, _ = section.partition("\n## ")
    file = [int(it, 16) for it in re.findall(r"^\| \d+ \| `(\w{8})` \|", section, re.M)]
    program.write("x", words(*file))
    program.prints("load file: 1 hunks\n", "check", "x")
    program.prints("hunk 0 at 00000000 size 4\n00000000 4e754e71\n", "load", "--at", "0", "x")
    for bytes_, line in (
        (words(*file[:7], 2, *file[8:]), "longword 7: block longer than its hunk"),
        (words(*file[:9], 0x3E9), "longword 9: block type 1001 not allowed here"),
        (words(*file[:9], 0x3F7), "longword 9: block type 1015 not supported"),
        (words(*file[:9]), "longword 9: file ends too early"),
        (words(*file, 0), "longword 10: data after the last hunk"),
        (words(*file) + b"x", "longword 10: file ends inside a longword"),
    ):
        program.write("y", bytes_)
        program.fails(REFUSED, f"y: {line}", "check", "y")
    program.write("y", words(*file[:7], 0xC0000001, *file[8:]))
    program.prints("", "compare", "--symbols", "x", "y")


def examples_in(text):
    """The lines that are set in below the options of a help."""
    _, _, prose = text.partition("Print help\n")
    return re.findall(r"^  (.*)", prose, re.M)


@test
def the_help_quotes_what_is_printed(program):
    write_examples(program)
    [document] = printed(program, "show --json half")
    wanted = {
        "link": [*program.read("map").decode().splitlines()[:2], "amihunk link --out program --strip --short --trim startup.o main.o",
                 "amihunk link --out program --files-from names --lines startup.o"],
        "load": printed(program, "load --at 10000 rts") + printed(program, "load --at 10000 --srec rts")
        + printed(program, "load --at 10000 --symbols next") + recorded(program),
        "image": [f"amihunk image --at 10000,20000 {flags}startup.o main.o" for flags in ("", "--srec --symbols ")],
        "check": printed(program, "check main.o") + printed(program, "check linked") + printed(program, "check --lint odd")[1:],
        "show": [*printed(program, "show main.o"), *printed(program, "show half"), document, "amihunk show --html program > program.html",
                 *printed(program, "show --names call.o")],
        "survey": surveyed(program) + printed(program, "survey --json disk/main.o") + ["find disk -type f -print0 | amihunk survey --files-from -"],
        "copy": ["amihunk copy --out program --strip --short --trim program"],
        "compare": compared(program, *list(PAIRS)[:6], *list(PAIRS)[7:]),
    }
    texts = {line[0]: text for line, text in lines_of("help.txt") if len(line) == 2}
    equals({name: examples_in(text) for name, text in texts.items()}, wanted)
    members = re.search(r'"content":"[^"]*","content_offset":[0-9]+', printed(program, "show --json --content half")[0])[0]
    assert f"Here they are `{members}`, behind `\"stored\":1`." in texts["show"], members


@test
def the_man_page_quotes_what_is_printed(program):
    write_examples(program)
    program.write("x", load_file((0, CODE, 1)))
    page = text_of("docs/amihunk.1").replace("\\-", "-")
    front, _, examples = page.partition(".SH EXAMPLES\n")
    status, out, refused = program.run("check", "x")
    equals((status, out), (REFUSED, ""))
    equals(re.findall(r"^\.nf\n([^.][^\0]*?)\.fi$", front, re.M), ["\n".join(lines) + "\n" for lines in (
        printed(program, "check main.o") + printed(program, "check linked"),
        [line.removeprefix("disk/") for line in surveyed(program)],
        compared(program, *list(PAIRS)[:6]),
        refused.splitlines(),
    )])
    # Those that a shell would have to expand or to join are left out, up to what it would do.
    program.write("library.o", program.read("put.o"))
    program.write("addresses", b"10000\n20000\n")
    lines = [re.split(r" (?:\||>|&&) ", line)[0] for line in re.findall(r"^amihunk .*", examples, re.M) if "*" not in line]
    assert len(lines) > 10, lines
    for line in lines:
        for name in ("program", "program.old"):
            program.write(name, program.read("linked"))
        printed(program, line.removeprefix("amihunk ").replace("10000,20000,30000,40000", "10000,20000,30000"))
