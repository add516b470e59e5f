"""Trees of files of all sorts, made of a number, and what a survey finds of each of their files.

A file is made so that it is known what is found: how many units and hunks it has, or which longword is its first offence. The digest of
a load file is that of the normal form that load_files.py writes.
"""
import functools
import hashlib
import os
import random
import stat
from typing import NamedTuple, Optional

import load_files
import model
from json_documents import document, name_value
from model import BSS, CODE, DATA, END, EXT, HEADER, NAME, RELOC32, SYMBOL, UNIT, Hunk, words
from random_load_files import random_hunks, spelt


class Finding(NamedTuple):
    """What a survey finds of a file."""

    counted: str  # the number of the totals that it adds to
    text: str  # what stands after its name in a line
    members: dict  # what stands after its name in a JSON object
    digest: Optional[str] = None  # of a load file
    is_stranger: bool = False  # a refused file that is no hunk file


def an_object(units, hunks):
    return Finding("object files", f"object file: {units} units, {hunks} hunks", {"kind": "object file", "units": units, "hunks": hunks})


def a_load_file(hunks):
    """What is found of these hunks, as load_files.py has them."""
    digest = hashlib.sha256(load_files.copied(hunks, ("--normal",))).hexdigest()
    return Finding("load files", f"load file: {len(hunks)} hunks", {"kind": "load file", "hunks": len(hunks)}, digest)


def refused(place, reason, number=None):
    """The reason has its number as it is printed."""
    members = {"kind": "refused", "place": place, "reason": reason, "number": number, "hunk file": place > 0}
    return Finding("refused", f"longword {place}: {reason}", members, None, place == 0)


def unreadable(text):
    return Finding("unreadable", text, {"kind": "unreadable"})


UNOPENED, UNREAD = unreadable("cannot be opened"), unreadable("read failed")
FOLDER, NOT_REGULAR = unreadable("is a directory"), unreadable("not a regular file")


def ended(bytes_):
    """What is found of bytes with which a file of their kind begins, but does not end."""
    return refused(len(bytes_) // 4, "file ends inside a longword" if len(bytes_) % 4 else "file ends too early")


# ---- what a survey prints


def line(name, finding, digest=False):
    told = f", SHA-256 {finding.digest}" if digest and finding.digest else ""
    return f"{model.shown(name)}: {finding.text}{told}\n"


def json_line(name, finding, digest=False):
    told = {"sha256": finding.digest} if digest and finding.digest else {}
    return document({"file": name_value(name), **finding.members, **told}).decode("latin-1") + "\n"


def totals(findings):
    counted = [finding.counted for finding in findings]
    kinds = ", ".join(f"{counted.count(kind)} {kind}" for kind in ("object files", "load files", "refused", "unreadable"))
    strangers = sum(finding.is_stranger for finding in findings)
    return f"{len(counted)} files: {kinds}\n{counted.count('refused')} refused, of which {strangers} are no hunk files\n"


def status(findings):
    counted = {finding.counted for finding in findings}
    return 3 if "unreadable" in counted else 1 if "refused" in counted else 0


def survey_of(files, options=()):
    """The status and the output of a survey of files, each a name and what is found of it."""
    findings, digest = [finding for _, finding in files], "--digest" in options
    if "--json" in options:
        return status(findings), "".join(json_line(*file, digest) for file in files), ""
    return status(findings), "".join(line(*file, digest) for file in files) + totals(findings), ""


# ---- contents


def ends_of_units(units):
    """The longwords of an object file after which it is complete."""
    ends, at = set(), 0
    for unit in units:
        at += len(model.titled(UNIT, model.name_of(unit))) // 4
        ends.add(at)
        for hunk in unit:
            at += len(model.hunk_bytes(hunk)) // 4
            ends.add(at)
    return ends


def object_contents(dice, seed):
    """An object file, and two beginnings of it that end within a block and within a longword."""
    units = model.random_named_units(seed)
    bytes_ = model.object_file(units)
    yield bytes_, an_object(len(units), sum(map(len, units)))
    cut = dice.choice([at for at in range(1, len(bytes_) // 4) if at not in ends_of_units(units)])
    yield bytes_[: 4 * cut], ended(bytes_[: 4 * cut])
    cut = 4 * dice.randrange(len(bytes_) // 4) + dice.randrange(1, 4)
    yield bytes_[:cut], ended(bytes_[:cut])


def load_contents(dice):
    """Two spellings of the hunks of a load file, a beginning of one, and the same with more at its end."""
    hunks = random_hunks(dice)
    for _ in range(2):
        bytes_ = spelt(dice, hunks)
        yield bytes_, a_load_file(hunks)
    cut = dice.randrange(len(bytes_))
    yield bytes_[:cut], ended(bytes_[:cut])
    yield bytes_ + words(0), refused(len(bytes_) // 4, "data after the last hunk")


def stranger_contents(dice):
    """Files that are no hunk files: texts, and bytes that begin none."""
    text = b"".join(dice.choices((b"disk ", b"library ", b"\xe9", b"\r\n", b"; ", b"#!/bin/sh\n"), k=dice.randrange(1, 40)))
    for bytes_ in (text, dice.randbytes(dice.randrange(4, 4000)), b"PK\3\4" + dice.randbytes(60), words(END, UNIT, HEADER)):
        if int.from_bytes(bytes_[:4], "big") % (1 << 30) not in (UNIT, HEADER):
            yield bytes_, ended(bytes_) if len(bytes_) < 4 else refused(0, "wrong first longword")
    short = dice.randbytes(dice.randrange(4))
    yield short, ended(short)


# Files that are refused for what stands in them, with the place and the reason.
FRONT, ONE_HUNK = (UNIT, 0), (HEADER, 0, 1, 0, 0, 2, CODE, 2, 0, 0)
FAULTS = (
    (words(HEADER, 1), refused(1, "resident library names not supported")),
    (words(HEADER, 0, 1, 0, 0, 1, CODE, 2, 0, 0, END), refused(7, "block longer than its hunk")),
    (words(*FRONT, CODE, 1, 0, 0x3FF), refused(5, "unknown block type 1023", 1023)),
    (words(*FRONT, 0x3F5), refused(2, "block type 1013 not supported", 1013)),
    (words(*FRONT, SYMBOL, 0), refused(2, "block type 1008 not allowed here", 1008)),
    (words(*FRONT, 3 << 30 | BSS, 0, END), refused(2, "both memory bits set")),
    (words(*FRONT, DATA, 0, EXT, 130 << 24, 0), refused(5, "external type 130 not supported", 130)),
    (words(*FRONT, DATA, 0, SYMBOL, 1 << 24 | 1, 0), refused(5, "symbol of kind 1", 1)),
    (words(*FRONT, CODE, 2, 0, 0, RELOC32, 1, 0, 5, 0), refused(9, "site 00000005 outside its hunk", 5)),
    (words(*ONE_HUNK, RELOC32, 2, 0, 0, 3, 0), refused(14, "site 00000003 overlaps another", 3)),
    (words(*ONE_HUNK, RELOC32, 1, 7, 0, 0), refused(12, "no hunk 7", 7)),
    (words(HEADER, 0, 0), refused(2, "bad hunk table")),
    (words(HEADER, 0, 1, 0, 0, (1 << 24) + 1), refused(5, "too large")),
    (words(UNIT, 0, NAME, 0, END), refused(4, "block type 1010 not allowed here", 1010)),
)


@functools.lru_cache
def contents():
    """Some hundreds of files of all sorts, each with what is found of it."""
    dice = random.Random(1)
    found = [*FAULTS, (words(UNIT, 0), an_object(1, 0)), (model.object_file([[Hunk(CODE, [1])]] * 20), an_object(20, 20))]
    for seed in range(60):
        found += [*object_contents(dice, seed), *load_contents(dice), *stranger_contents(dice)]
    return found


# ---- names


def random_name(dice):
    """The name of a file: of letters, of what could forge or end a line, of characters of any size, or of any bytes."""
    kind, size = dice.randrange(8), dice.choice([1, 2, 8, 30])
    if kind < 3:
        return bytes(dice.choices(b"abcxyzABC019_-. ", k=size)) + dice.choice((b"", b".o", b".library"))
    if kind < 5:
        return b"".join(dice.choices((b": ", b":", b" ", b'"', b"\\", b"\n", b"\r", b"\t", b"\x1b[2J", b"load file: 1 hunks", b"-", b"a"), k=size))[:255]
    if kind < 7:
        return "".join(dice.choices("\xe9\u20ac\U0001f600\x7f\x85\u202e\u2066\u061c\u2028a'", k=min(size, 60))).encode()
    return bytes(dice.choices([byte for byte in range(1, 256) if byte != ord("/")], k=dice.choice([1, 3, 20, 255])))


def is_text(name):
    return isinstance(name_value(name), str)


def new_path(dice, folder, taken):
    """A path in a folder under which nothing is yet."""
    while (path := folder + b"/" + random_name(dice)) in taken or path.endswith((b"/.", b"/..")):
        pass
    taken.add(path)
    return path


# ---- trees


def link_to(target):
    return lambda path: os.symlink(target, path)


def make_special(mode):
    return lambda path: os.mknod(path, mode | 0o600)


def unreadable_file(path):
    with open(path, "wb") as file:
        file.write(words(UNIT, 0))
    os.chmod(path, 0)


# What is no file with content of its own: how it is made, and what is found of it.
SPECIALS = (
    (make_special(stat.S_IFIFO), NOT_REGULAR),
    (make_special(stat.S_IFSOCK), NOT_REGULAR),
    (os.mkdir, FOLDER),
    (link_to(b"."), FOLDER),
    (link_to(b"/dev/null"), NOT_REGULAR),
    (link_to(b"no such file"), UNOPENED),
    (link_to(b"/dev/null/no file"), UNOPENED),
    (lambda path: os.symlink(os.path.basename(path), path), UNOPENED),
    (lambda path: None, UNOPENED),
    # The superuser reads every file.
    (unreadable_file, UNOPENED if os.geteuid() else an_object(1, 0)),
)


def make_tree(place, count, seed=0):
    """Makes a tree of so many files in a folder, and returns the path of each, from there, with what is found of it."""
    dice, taken, files = random.Random(seed), set(), []
    folders = [b"%d" % number for number in range(count // 100 + 1)]
    for folder in folders:
        os.mkdir(os.path.join(os.fsencode(place), folder))
    for _ in range(count):
        path = new_path(dice, dice.choice(folders), taken)
        whole = os.path.join(os.fsencode(place), path)
        if dice.random() < 0.9:
            bytes_, finding = dice.choice(contents())
            with open(whole, "wb") as file:
                file.write(bytes_)
        else:
            make, finding = dice.choice(SPECIALS)
            make(whole)
        files.append((path, finding if is_text(path) else UNOPENED))
    return files
