"""Pages that show hunk files, and the model files that they show.

A document is made of the model's values, as `page_run` of hunk_json writes it of their files.
"""
import base64
import json
import os
import random
import sys

BENCHES = os.path.dirname(os.path.abspath(__file__))
TOP = os.path.dirname(BENCHES)
sys.dont_write_bytecode = True
sys.path.insert(0, os.path.join(TOP, "tests"))
import json_documents
import load_files
import model
from load_files import LoadHunk
from model import ABS, BSS, CODE, DATA, DEF, Hunk, Unit, words

ATTACK = b"</script><img src=x onerror=alert(1)>"
NAMES = [ATTACK, b"<!--<script>", b"", b"\xff\xfe name", b"a\nb\0c\\d", "grüße 日本".encode(), "\u202edrow".encode(), b"x" * 3000, b"'\"&amp;"]


def text_of(*path):
    with open(os.path.join(TOP, *path), encoding="utf-8") as file:
        return file.read()


def page_of(document):
    """The page of a document: what is between head and tail has no byte that could end it."""
    text = json.dumps(document, separators=(",", ":"), ensure_ascii=False)
    return text_of("page", "head.html") + text.replace("<", "\\u003c") + text_of("page", "tail.html")


def content_value(content, offset):
    return {"content": base64.b64encode(content).decode(), "content_offset": offset}


def document_of(hunks):
    """The document of the load file of some hunks, in its written form."""
    values, at = [], len(load_files.header(hunks))
    for hunk in hunks:
        names = [{"name": json_documents.name_value(name), "value": value} for name, value in hunk.symbols]
        sites = [{"hunk": target, "offset": offset} for offset, target in sorted(hunk.sites.items())]
        values.append({"debugs": [len(it) for it in hunk.debugs], "kind": model.KINDS[hunk.kind], "memory": hunk.memory, "sites": sites,
                       "size": hunk.size, "stored": len(hunk.content) // 4, "symbols": names} | content_value(hunk.content, at + 8))
        at += len(load_files.written_hunk(hunk, False))
    return {"hunks": values, "kind": "load file"}


def object_document_of(units):
    """The document of the object file of some units."""
    document, at = json_documents.object_value(units), 0
    for unit, value in zip(units, document["units"]):
        at += len(model.titled(model.UNIT, model.name_of(unit)))
        for hunk, hunk_value in zip(unit, value["hunks"]):
            title = model.titled(model.NAME, hunk.name) if hunk.name else b""
            hunk_value |= content_value(b"" if hunk.kind == BSS else words(*hunk.words), at + len(title) + 8)
            at += len(model.hunk_bytes(hunk))
    return document


def hunk_of(kind, content, memory="any", sites=(), definitions=(), symbols=(), debugs=()):
    hunk = Hunk(kind, [int.from_bytes(content[at : at + 4], "big") for at in range(0, len(content), 4)], memory=memory)
    hunk.sites, hunk.definitions = list(sites), list(definitions)
    hunk.symbols, hunk.debugs = list(symbols), list(debugs)
    return hunk


def example_units():
    """The units of examples/main.o and examples/library.o."""
    main = hunk_of(CODE, bytes.fromhex("41f9000000004eb9000000004e754e71"), sites=[(2, 1), (8, b"print")], definitions=[(DEF, b"main", 0)])
    greeting = hunk_of(DATA, b"Hello, Amiga!\n\0\0")
    routines = hunk_of(CODE, bytes.fromhex("4239000000004e7543f90000000012d866fc4e75"), sites=[(2, 1), (10, 1)],
                       definitions=[(DEF, b"clear", 0), (DEF, b"print", 8)], symbols=[(b"loop", 14)], debugs=[[0, 0x4C494E45]])
    units = [Unit([main, greeting], b"main"), Unit([routines, hunk_of(BSS, bytes(16), "chip")], b"library")]
    for unit, name in zip(units, ("main.o", "library.o")):
        with open(os.path.join(TOP, "examples", name), "rb") as file:
            assert file.read() == model.object_file([unit]), name
    return units


def linked(units):
    """The hunks of the load file that some units link to."""
    hunks = [hunk for unit in units for hunk in unit]
    memory, sites = model.memory_of(units, [0] * len(hunks)), json_documents.load_sites(units)
    return [LoadHunk(hunk.kind, len(hunk.words), b"" if hunk.kind == BSS else bytes_, hunk.memory, own, hunk.symbols, hunk.debugs)
            for hunk, bytes_, own in zip(hunks, memory, sites)]


def game():
    """A load file that looks like a game's: code that calls itself and its data, graphics for chip memory, and buffers."""
    dice = random.Random(7)
    code, sites = bytearray(), {}
    while len(code) < 6144:
        code += dice.choice([b"\x4e\x75", b"\x70\x01", b"\x22\x48", b"\x66\xf8", b"\x51\xc8\xff\xfa", b"\x4e\xb9", b"\x41\xf9", b"\x23\xc0"])
        if code[-2:] in (b"\x4e\xb9", b"\x41\xf9", b"\x23\xc0"):
            target = 0 if code[-2] == 0x4E else dice.choice([1, 2, 3])
            sites[len(code)] = target
            code += words(2 * dice.randrange((3000, 200, 4000, 8000)[target]))
    code += bytes(-len(code) % 4)
    names = b"start init open_screen load_copper main_loop draw_ship move_ship fire collide play_sound wait_blit vblank read_joy score".split()
    symbols = sorted(((name, 4 * dice.randrange(1500)) for name in names[1:]), key=lambda it: it[1])
    text = b"dos.library\0graphics.library\0GAME OVER\0PRESS FIRE\0\0"
    data = text + words(*(dice.randrange(1 << 12) for _ in range(90)))
    data += bytes(-len(data) % 4)
    picture = bytes(dice.choice([0, 0, 0, 0xFF, 0x0F, 0xF0, 0x3C, 0x18]) for _ in range(8192))
    return [LoadHunk(CODE, len(code) // 4, bytes(code), "any", sites, [(b"start", 0), *symbols]),
            LoadHunk(DATA, len(data) // 4, data, "fast", {}, [(b"dos_name", 0), (b"graphics_name", 12), (b"over_text", 29)]),
            LoadHunk(DATA, 3000, picture, "chip", {12: 1, 9001: 0}, [(b"ship_planes", 0), (b"copper_list", 4096)]),
            LoadHunk(BSS, 4096, b"", "chip", {}, [(b"screen", 0), (b"back_buffer", 8192)])]


def strange():
    """Units with all that a page could stumble over: names in any bytes, targets that are nowhere, and empty hunks and units."""
    content = bytes.fromhex("ffffffff") + bytes(range(60)) + b"</script>   "
    hunk = hunk_of(CODE, content, sites=[(0, 0), (5, 1), (13, 7), (20, ATTACK), (30, b"nobody"), (37, b"number"), (60, 2)],
                   definitions=[(DEF, ATTACK, 4), (ABS, b"number", 0xDFF000)], symbols=[(name, 3 * at) for at, name in enumerate(NAMES)])
    hunk.name = ATTACK
    rest = [hunk_of(DATA, b""), hunk_of(BSS, bytes(400), "fast", symbols=[(b"far", 0xFFFFFFFF)])]
    return [Unit([hunk, *rest], ATTACK), Unit([], b"nothing"), Unit([hunk_of(DATA, bytes(8))], b"")]


def large(longwords=2_500_000, sites=100_000):
    """A load file of so many longwords, with sites all over."""
    dice = random.Random(1)
    step = 4 * longwords // sites
    targets = {at * step + dice.randrange(step - 3): dice.randrange(2) for at in range(sites)}
    content = bytearray(dice.randbytes(4 * longwords))
    for offset, target in targets.items():
        content[offset : offset + 4] = words(dice.randrange(4 * longwords if target == 0 else 4000))
    return [LoadHunk(CODE, longwords, bytes(content), "any", targets, [(b"s%05d" % at, 400 * at) for at in range(20_000)]),
            LoadHunk(BSS, 1000, b"", "chip")]
