"""What `show` prints with `--json` and `--html`, against Python's own writer of JSON, and against texts written by hand."""
import base64
import json
import os
import random
import re

import model
from content_offsets import content_offsets
from harness import DEVICE, DONE, equals, test
from model import ABS, BSS, CODE, DATA, DEF, END, HEADER, KINDS, Hunk, Unit, words
from runs import LITTLE_MEMORY, write_parts


def name_value(name):
    """A name: a text, or its bytes if they are not UTF-8."""
    try:
        return name.decode()
    except UnicodeDecodeError:
        return list(name)


def hunk_value(hunk, stored, strip=False):
    """What hunks of either kind of file have, but for their sites; these bytes are stored."""
    symbols = [{"name": name_value(name), "value": value} for name, value in hunk.symbols]
    debugs = [len(debug) for debug in hunk.debugs]
    kept = {"debugs": [], "symbols": []} if strip else {"debugs": debugs, "symbols": symbols}
    content = base64.b64encode(stored).decode()
    return kept | {"content": content, "kind": KINDS[hunk.kind], "memory": hunk.memory, "size": len(hunk.words)}


def unit_hunk_value(hunk):
    sites = [({"hunk": target} if isinstance(target, int) else {"name": name_value(target)}) | {"offset": offset}
             for offset, target in sorted(hunk.sites, key=lambda site: site[0])]
    definitions = [{"absolute": kind == ABS, "name": name_value(name), "value": value} for kind, name, value in hunk.definitions]
    stored = b"" if hunk.kind == BSS else words(*hunk.words)
    return hunk_value(hunk, stored) | {"definitions": definitions, "name": name_value(hunk.name), "sites": sites}


def object_value(units):
    """What is told of the object file of some units."""
    parts = [{"hunks": [unit_hunk_value(hunk) for hunk in unit], "name": name_value(model.name_of(unit))} for unit in units]
    return {"kind": "object file", "units": parts}


def load_sites(units):
    """The sites of each hunk of the load file of some units, by rising offset, with the number of the hunk that each adds."""
    numbers, first, own = {}, 0, []
    for unit in units:
        own.append(range(first, first + len(unit)))
        for number, hunk in zip(own[-1], unit):
            numbers |= {name: number for kind, name, _ in hunk.definitions if kind == DEF}
        first += len(unit)
    # A name that stands for a number is added by the linker, and leaves no site.
    return [sorted((offset, ranks[target] if isinstance(target, int) else numbers[target])
                   for offset, target in hunk.sites if isinstance(target, int) or target in numbers)
            for unit, ranks in zip(units, own) for hunk in unit]


def load_value(units, options=()):
    """What is told of the load file of some units, linked with these options."""
    hunks = [hunk for unit in units for hunk in unit]
    values = []
    for hunk, content, sites in zip(hunks, model.memory_of(units, [0] * len(hunks)), load_sites(units)):
        stored = 0 if hunk.kind == BSS else len(hunk.words)
        if "--trim" in options:
            ends = [len(content.rstrip(b"\0")), *(offset + 4 for offset, _ in sites)]
            stored = (max(ends) + 3) // 4
        told = [{"hunk": number, "offset": offset} for offset, number in sites]
        values.append(hunk_value(hunk, content[: 4 * stored], "--strip" in options) | {"sites": told, "stored": stored})
    return {"hunks": values, "kind": "load file"}


# The characters that a terminal obeys, although JSON lets them stand for themselves.
OBEYED = re.compile("[\x7f-\x9f\u061c\u200e\u200f\u202a-\u202e\u2066-\u2069]")


def without_obeyed(text):
    """The text with escapes for what a terminal obeys."""
    return OBEYED.sub(lambda found: f"\\u{ord(found[0]):04x}", text)


# The members about the content of a hunk.
STORED = ("content", "content_offset")


def in_order(value, with_content):
    """The value with the members of its objects in the order of their keys, but those about contents before symbols, or left out."""
    if isinstance(value, list):
        return [in_order(part, with_content) for part in value]
    if not isinstance(value, dict):
        return value
    keys = sorted(value, key=lambda key: (key == "symbols", key in STORED, key))
    return {key: in_order(value[key], with_content) for key in keys if with_content or key not in STORED}


def document(value):
    """The value as Python writes it, but for what a terminal obeys."""
    return without_obeyed(json.dumps(value, separators=(",", ":"), ensure_ascii=False)).encode()


def text_about(program, options, name, limit):
    status, out, errors = program.run("show", *options, name, limit=limit)
    equals((status, errors), (DONE, ""), (name, options))
    return out.encode("latin-1")


PAGE = os.path.join(os.path.dirname(os.path.abspath(__file__)), "../page")


def page_ends():
    """What begins a page, and what ends it."""
    with open(f"{PAGE}/head.html", "rb") as head, open(f"{PAGE}/tail.html", "rb") as tail:
        return head.read(), tail.read()


def prints_page(program, value, name, limit=None):
    """`show --html` prints what begins a page, the document without a less-than sign, and what ends a page."""
    page = text_about(program, ["--html"], name, limit)
    before, behind = page_ends()
    told = page.removeprefix(before).removesuffix(behind)
    equals(before + told + behind, page, name)
    assert b"<" not in told, name
    equals(json.loads(told), value, name)
    equals(told, document(value).replace(b"<", b"\\u003c"), name)


def prints_documents(program, value, name, limit=None):
    """`show` prints the value: without contents, with them and where they stand in the file, and in a page."""
    offsets = content_offsets(program.read(name))
    hunks = value["hunks"] if "hunks" in value else [hunk for unit in value["units"] for hunk in unit["hunks"]]
    for hunk, offset in zip(hunks, offsets, strict=True):
        hunk["content_offset"] = offset
    for options, with_content in ((["--json"], False), (["--json", "--content"], True)):
        told, bytes_ = in_order(value, with_content), text_about(program, options, name, limit)
        equals(json.loads(bytes_), told, name)
        equals(bytes_, document(told) + b"\n", name)
    prints_page(program, in_order(value, True), name, limit)


@test
def documents_tell_what_is_in_random_files(program):
    for seed in range(100):
        dice, units = random.Random(seed), model.random_named_units(seed)
        parts = model.dealt_out(dice, units)
        files, options = write_parts(program, seed, parts), model.random_options(dice)
        for file, part in zip(files, parts):
            prints_documents(program, object_value(part), file)
        program.prints("", "link", "--out", "out", *options, *files)
        prints_documents(program, load_value(units, options), "out")


@test
def documents_are_these_texts(program):
    code, zeros = Hunk(CODE, [0, 0], b"CODE"), Hunk(BSS, [0, 0], memory="chip")
    code.sites, code.definitions = [(2, 1)], [(DEF, b"main", 0)]
    code.symbols, code.debugs = [(b"loop", 6)], [[7]]
    program.write("x.o", model.object_file([Unit([code, zeros], b"test")]))
    program.prints("", "link", "--out", "x", "x.o")
    program.prints(
        '{"kind":"object file","units":[{"hunks":[{"debugs":[1],"definitions":[{"absolute":false,"name":"main","value":0}],'
        '"kind":"code","memory":"any","name":"CODE","sites":[{"hunk":1,"offset":2}],"size":2,"symbols":[{"name":"loop","value":6}]},'
        '{"debugs":[],"definitions":[],"kind":"bss","memory":"chip","name":"","sites":[],"size":2,"symbols":[]}],"name":"test"}]}\n',
        "show", "--json", "x.o",
    )
    program.prints(
        '{"hunks":[{"debugs":[1],"kind":"code","memory":"any","sites":[{"hunk":1,"offset":2}],"size":2,"stored":2,'
        '"symbols":[{"name":"loop","value":6}]},{"debugs":[],"kind":"bss","memory":"chip","sites":[],"size":2,"stored":0,"symbols":[]}],'
        '"kind":"load file"}\n',
        "show", "--json", "x",
    )
    # The load file of the help.
    program.write("x", words(HEADER, 0, 1, 0, 0, 2, CODE, 1, 0x4E754E71, END))
    program.prints(
        '{"hunks":[{"debugs":[],"kind":"code","memory":"any","sites":[],"size":2,"stored":1,"symbols":[]}],"kind":"load file"}\n',
        "show", "--json", "x",
    )
    program.prints(
        '{"hunks":[{"debugs":[],"kind":"code","memory":"any","sites":[],"size":2,"stored":1,"content":"TnVOcQ==","content_offset":32,'
        '"symbols":[]}],'
        '"kind":"load file"}\n',
        "show", "--json", "--content", "x",
    )
    program.write("none.o", model.object_file([[]]))
    program.prints('{"kind":"object file","units":[{"hunks":[],"name":""}]}\n', "show", "--json", "none.o")


# Names, and what stands for each.
NAMES = (
    (b"", '""'),
    (b'"\\/', '"\\"\\\\/"'),
    (bytes(range(1, 16)), '"\\u0001\\u0002\\u0003\\u0004\\u0005\\u0006\\u0007\\b\\t\\n\\u000b\\f\\r\\u000e\\u000f"'),
    (b"\x10\x1a\x1f ~\x7f", '"\\u0010\\u001a\\u001f ~\\u007f"'),
    ("\x80\x9f\xa0\xe9\u0800\u2028\uffff\U00010000\U0010ffff".encode(), '"\\u0080\\u009f\xa0\xe9\u0800\u2028\uffff\U00010000\U0010ffff"'),
    # What turns the direction of text, and the characters beside it.
    ("\u061b\u061c\u061d".encode(), '"\u061b\\u061c\u061d"'),
    ("\u200d\u200e\u200f\u2010".encode(), '"\u200d\\u200e\\u200f\u2010"'),
    ("\u2029\u202a\u202e\u202f".encode(), '"\u2029\\u202a\\u202e\u202f"'),
    ("\u2065\u2066\u2069\u206a".encode(), '"\u2065\\u2066\\u2069\u206a"'),
    (b"\xff", "[255]"),
    (b"caf\xe9", "[99,97,102,233]"),
    (b"a\xe2\x82", "[97,226,130]"),
    (b"\x80", "[128]"),
    # A character in more bytes than it needs, half of a surrogate pair, and one past the last character.
    (b"\xc0\xaf", "[192,175]"),
    (b"\xed\xa0\x80", "[237,160,128]"),
    (b"\xf4\x90\x80\x80", "[244,144,128,128]"),
)


@test
def names_are_texts_or_bytes(program):
    for name, told in NAMES:
        hunk = Hunk(CODE, [0], name)
        hunk.sites, hunk.definitions = [(0, name)], [(ABS, name, 7)]
        if name:
            hunk.symbols = [(name, 8)]
        program.write("x.o", model.object_file([Unit([hunk], name)]))
        symbols = f'{{"name":{told},"value":8}}' if name else ""
        text = (
            f'{{"kind":"object file","units":[{{"hunks":[{{"debugs":[],"definitions":[{{"absolute":true,"name":{told},"value":7}}],'
            f'"kind":"code","memory":"any","name":{told},"sites":[{{"name":{told},"offset":0}}],"size":1,"symbols":[{symbols}]}}],'
            f'"name":{told}}}]}}\n'
        )
        program.prints(text.encode().decode("latin-1"), "show", "--json", "x.o")


@test
def a_document_is_as_long_as_it_must_be(program):
    hunks = 65535
    program.write("most", words(HEADER, 0, hunks, 0, hunks - 1, *[0] * hunks) + words(DATA, 0, END) * hunks)
    prints_documents(program, load_value([[Hunk(DATA, [])] * hunks]), "most")
    with open("/dev/full", "wb") as full:
        for options in (["--json"], ["--json", "--content"], ["--html"]):
            program.fails(DEVICE, "output: write failed", "show", *options, "most", stdout=full)
    # It is printed piece by piece, so it may be longer than there is memory.
    name = b"n" * 16384
    hunk = Hunk(CODE, [0] * 4096)
    hunk.sites = [(4 * number, name) for number in range(4096)]
    program.write("long.o", model.object_file([[hunk]]))
    prints_documents(program, object_value([[hunk]]), "long.o", limit=LITTLE_MEMORY)
