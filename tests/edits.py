#!/usr/bin/env python3
"""Tries the must-fail edits: with each of them, the prover has to refuse the function that the edit changes.

    tests/edits.py [--beside FOLDER] [CRATE | CRATE/EDIT]..

With no argument it tries those of every crate. It needs the toolchain, and the libraries below a crate in their folders `out/`, where
`rt ci` and `rt check` leave them. RT_JOBS says how many crates are worked on at a time. With --beside it waits for these libraries:
until a run of `rt ci` says in FOLDER/log that they are proved, or there is a file FOLDER/ended. Until then it works on one crate at a
time, or on two, and only while that leaves memory.

An edit is a file of the crate's `must-fail-edits/`: `file: PATH`, and pairs of `old: TEXT` and `new: TEXT`. Each TEXT of a line `old`
stands once in that file of the crate, in a function. One check tries many edits of a crate, each of which changes other functions: it
proves these and what they call, and nothing else. An edit is refused where a function that it changes is not proved although all that
the function calls is. If a callee is not proved either, because of another edit, the edit is tried again without that one. So each is
told of as if it were tried alone. That the crate is proved without an edit is for `rt ci` and `rt check` to say.

The last line is 'N passed, M failed', and the status is 0 if M is 0.
"""
import collections
import concurrent.futures
import contextlib
import functools
import os
import re
import shutil
import subprocess
import sys
import tempfile
import time

sys.dont_write_bytecode = True
from sources import EDITS, TOP, is_there, listed_crates, split_impl, text_of, without_generics

FUNCTION = re.compile(r"^( *)(?:pub(?:\(\w+\))? )?(?:const )?(?:unsafe )?(?:extern \"C\" )?fn (\w+)")
HEAD = re.compile(r"(?:unsafe )?(?=impl\b)|(?:pub(?:\(\w+\))? )?trait (\w+)")
# What a check says of a function that fails by itself. Of one that fails with a callee it says what the function calls.
FAILED = re.compile(r"fn (\S+): (?:not proved|no proof)(?![:;] it calls).*")
# A text that the compiler or the prover cannot read, so that no contract was tried.
UNREAD = re.compile(r"(?:\./)?(?:src|specs)/\S+: error|error\b")
# What says little of a contract: an answer names what the edit took away.
TAKEN_AWAY = re.compile(r"has no field|is not in scope|has no `|was not admitted")
TYPE = re.compile(r"^(?:pub(?:\(\w+\))? )?(?:struct|enum|trait) (\w+)", re.M)
# How many edits one check tries: each that is refused takes memory, of which 28 of hunk_commands took more than 5 GB.
TOGETHER = 12
# How much memory, in KiB, has to be free before a check beside the proofs begins: what it takes, and what the proofs may still take.
ROOM = 7 << 20
# How many crates are worked on at a time beside the proofs, which leave two processors idle in the first ten minutes and seldom later.
BESIDE = 2


class Proofs:
    """The run of `rt ci` that the edits are tried beside: what it tells, and whether it has ended. Without a folder there is none."""

    def __init__(self, folder):
        self.folder = folder

    def are_over(self):
        return not self.folder or os.path.exists(os.path.join(self.folder, "ended"))

    def wait_until(self, holds):
        while not self.are_over() and not holds():
            time.sleep(5)

    def tell_of(self, names):
        """Whether it tells that these libraries are proved, by this run or by one before it."""
        with open(os.path.join(self.folder, "log"), encoding="utf-8", errors="replace") as log:
            return set(names) <= set(re.findall(r"^rt: (\w+) (?:proved$|is kept:)", log.read(), re.M))

    def leave_room(self, checks):
        """Whether there is the memory for so many checks beside them."""
        with open("/proc/meminfo", encoding="utf-8") as file:
            return int(re.search(r"^MemAvailable: *(\d+)", file.read(), re.M)[1]) >= checks * ROOM


def rlib(name):
    """Where a library of the repository is built."""
    return os.path.join(TOP, "crates", name, "out/rlib", f"{name}.rlib")


def modules_of(path):
    """The names of the module that is a file of `src/`."""
    return [it for it in path.removeprefix("src/").removesuffix(".rt").split("/") if it not in ("lib", "main")]


class BadEdit(Exception):
    """An edit that cannot be tried, and why."""


class Edit:
    """A must-fail edit: the texts that it replaces, and the functions that these stand in."""

    def __init__(self, crate, name):
        self.crate, self.name, self.label = crate, name, f"{crate.name}/{name.removesuffix('.edit')}"
        self.changes = []
        path = old = None
        for line in text_of("crates", crate.name, EDITS, name).split("\n"):
            word, _, rest = line.partition(":")
            rest = rest.removeprefix(" ")
            if word == "file":
                path = rest
            elif word == "old":
                old = rest
            elif word == "new" and path and old:
                self.changes.append((path, old, rest))
        if not name.endswith(".edit") or not self.changes:
            raise self.bad("a file NAME.edit has lines 'file: ', 'old: ' and 'new: '")
        texts = {}
        self.functions = {self.function(change[0], self.replace(texts, *change)) for change in self.changes}

    def bad(self, why):
        return BadEdit(f"{self.label}: BAD EDIT: {why}")

    def replace(self, texts, path, old, new):
        """Makes a change in these texts of the crate, and returns what stands in the file up to the end of what it replaced."""
        if not path.startswith("src/") or not is_there("crates", self.crate.name, path):
            raise self.bad(f"there is no file {path} of the crate's code")
        text = texts.get(path) or text_of("crates", self.crate.name, path)
        if text.count(old) != 1:
            raise self.bad(f"a line 'old' stands in {path} {text.count(old)} times, and not once")
        front, _, rest = text.partition(old)
        texts[path] = front + new + rest
        return front + old

    def function(self, path, front):
        """The function that the end of this front of a file stands in."""
        function = self.crate.function_at(path, front.split("\n"))
        if not function:
            raise self.bad(f"a line 'old' stands in no function of {path}")
        return function

    def applied(self, texts):
        """The texts with the edit in place: those that other edits left, and of the crate where they left none."""
        texts = dict(texts)
        for change in self.changes:
            self.replace(texts, *change)
        return texts


class Crate:
    """A crate of crates.txt, and the words of a check of it over the libraries that are in `out/`."""

    def __init__(self, name, is_static, libraries, kit):
        self.name, self.is_static, self.libraries, self.kit = name, is_static, libraries, kit
        self.own = [it for it in libraries if is_there("crates", it)]
        folder = os.path.join(TOP, "crates", name, EDITS)
        self.files = sorted(os.listdir(folder)) if os.path.isdir(folder) else []
        self.root = "src/main.rt" if is_there("crates", name, "src/main.rt") else "src/lib.rt"

    def lacking(self):
        """The libraries below the crate that are not there."""
        return [it for it in self.own if not os.path.isdir(rlib(it))]

    def words(self):
        words = ["--crate-name", self.name, self.root, "--jobs", "1"] + ["--crate-type", "staticlib"] * self.is_static
        for name in dict.fromkeys(["std", *self.libraries]):
            words += ["--extern", f"{name}={rlib(name) if name in self.own else f'{self.kit}/rlibs/{name}.rlib'}"]
        for name in ["", *sorted(os.listdir(os.path.join(TOP, "crates")))]:
            folder = os.path.dirname(rlib(name)) if name else f"{self.kit}/rlibs"
            words += ["-L", f"dependency={folder}"] * os.path.isdir(folder)
        return words + ["--antt-project", f"{self.kit}/rattle/logic/antt-project.json", "--logic-built", f"{self.kit}/logic_built"]

    def function_at(self, path, lines):
        """The path of the function that the last of these lines of a file stands in, as the prover names it. None if it is in none."""
        at = max((number for number, line in enumerate(lines) if FUNCTION.match(line)), default=None)
        if at is None:
            return None
        indent, name = FUNCTION.match(lines[at]).groups()
        modules = modules_of(path)
        if not indent:
            return "::".join([self.name, *modules, name])
        head = max((number for number, line in enumerate(lines[:at]) if HEAD.match(line)), default=None)
        if head is None:
            return None
        whole, begins = " ".join(it.strip() for it in lines[head:at]), HEAD.match(lines[head])
        trait, of = (None, begins[1]) if begins[1] else split_impl(whole[begins.end():])
        of = without_generics(of)
        if not trait:
            # The prover names the methods of a type by the module that declares it, wherever their `impl` stands.
            return "::".join([self.name, *self.homes.get(of, modules), of, name])
        trait = trait if trait.startswith("From<") else without_generics(trait)
        return "::".join([self.name, *modules, re.sub(r"\W", "", of + trait), name])

    @functools.cached_property
    def homes(self):
        """The module of each type and trait that the crate declares."""
        top, found = os.path.join(TOP, "crates", self.name, "src"), {}
        for folder, _, files in os.walk(top):
            for path in [os.path.relpath(os.path.join(folder, it), top) for it in files]:
                for name in TYPE.findall(text_of(top, path)):
                    found.setdefault(name, modules_of(path))
        return found

    def check(self, edits, texts, kept):
        """What the prover says of the functions that these edits change, with these texts in place."""
        with tempfile.TemporaryDirectory(prefix="edits-") as room:
            for part in ("src", "specs", "proofs"):
                if is_there("crates", self.name, part):
                    shutil.copytree(os.path.join(TOP, "crates", self.name, part), os.path.join(room, part))
            for path, text in texts.items():
                with open(os.path.join(room, path), "w", encoding="utf-8") as file:
                    file.write(text)
            words = [f"{self.kit}/bin/rattle", "check", *self.words(), "--incremental", kept]
            for function in sorted({it for edit in edits for it in edit.functions}):
                words += ["--only", function]
            ran = subprocess.run(words, cwd=room, stdin=subprocess.DEVNULL, stdout=subprocess.PIPE, stderr=subprocess.STDOUT, errors="replace")
        return ran.stdout.rstrip("\n").split("\n")


def reason_refused(edit, lines):
    """Why a check refuses an edit: what it says of a function that the edit changes and that fails by itself. None if it does not."""
    if any(UNREAD.match(it) for it in lines):
        return None
    notes = []
    for line in lines:
        if (found := FAILED.fullmatch(line)) and found[1] in edit.functions:
            answers = f"./proofs/{'/'.join(found[1].split('::')[1:])}/"
            reasons = notes + [it for it in lines if it.startswith(answers) and ": error: " in it]
            return next((it for it in reasons if not TAKEN_AWAY.search(it)), None) or f"only a name is gone: {(reasons or [line])[0]}"
        if line.startswith("note: src/"):
            notes.append(line)
        elif re.match(r"[a-z]+ \S+: ", line):
            notes = []
    return None


def try_alone(edit, kept):
    """What is told of an edit, and whether it is refused, from a check of it alone."""
    lines = edit.crate.check([edit], edit.applied({}), kept)
    if reason := reason_refused(edit, lines):
        return True, f"{edit.label}: refused: {reason[:160]}"
    if all(f"fn {it}: proved" in lines for it in edit.functions):
        return False, f"{edit.label}: NOT REFUSED: {' and '.join(sorted(edit.functions))} still proved"
    said = next((it for it in lines if UNREAD.match(it)), lines[-1])
    return False, f"{edit.label}: BAD EDIT: no contract was tried: {said[:300]}"


def together(edits):
    """The first of these edits, and of the others those that one check can try with it: each changes functions that none before it
    changes. With them, the texts with all of them in place."""
    changed, found, texts = set(), [], {}
    for edit in edits:
        if len(found) < TOGETHER and not changed & edit.functions:
            # (an edit can write what another one replaces)
            with contextlib.suppress(BadEdit):
                texts = edit.applied(texts)
                changed |= edit.functions
                found.append(edit)
    return found, texts


def try_all(edits, await_room):
    """What is told of each edit of a crate, and whether it is refused. Those that a check refuses are done; the others are tried again."""
    crate, told, started = edits[0].crate, [], time.monotonic()
    with tempfile.TemporaryDirectory(prefix="edits-kept-") as kept:
        while edits:
            await_room()
            chosen, texts = together(edits)
            lines = crate.check(chosen, texts, kept) if len(chosen) > 1 else []
            refused = {edit: reason for edit in chosen if (reason := reason_refused(edit, lines))}
            told += [(True, f"{edit.label}: refused: {reason[:160]}") for edit, reason in refused.items()]
            if not refused:
                told += [try_alone(edit, kept) for edit in chosen]
                refused = chosen
            edits = [it for it in edits if it not in refused]
    for _, line in told:
        print(line, flush=True)
    print(f"{crate.name}: {len(told)} edits, {time.monotonic() - started:.0f} s", flush=True)
    return told


def next_of(tasks, proofs):
    """The edits of a crate that nobody has begun with: those of the lowest crates are ready first, and those of the highest take longest."""
    try:
        return tasks.pop() if proofs.are_over() else tasks.popleft()
    except IndexError:
        return None


def work(lane, tasks, proofs):
    """Tries the edits of one crate after another. All lanes but the first ones wait for `rt ci`."""
    told = []
    if lane >= BESIDE:
        proofs.wait_until(lambda: False)
    while edits := next_of(tasks, proofs):
        crate = edits[0].crate
        proofs.wait_until(lambda: proofs.tell_of(crate.own))
        if lacking := crate.lacking():
            told.append((False, f"{crate.name}: {lacking[0]} is not proved here: run rt check in crates/{crate.name}"))
        else:
            told += try_all(edits, lambda: proofs.wait_until(lambda: proofs.leave_room(lane + 1)))
    return told


def main():
    start = subprocess.run(["rt", "doc"], stdout=subprocess.PIPE, text=True, check=True).stdout.strip()
    asked, told, tasks = sys.argv[1:], [], collections.deque()
    proofs = Proofs(asked[1] if asked[:1] == ["--beside"] else None)
    asked = asked[2:] if proofs.folder else asked
    for name, (is_static, libraries) in listed_crates().items():
        crate, edits = Crate(name, is_static, libraries, os.path.dirname(start)), []
        for file in crate.files:
            if not asked or crate.name in asked or f"{crate.name}/{file.removesuffix('.edit')}" in asked:
                try:
                    edits.append(Edit(crate, file))
                except BadEdit as error:
                    told.append((False, str(error)))
        if edits:
            tasks.append(edits)
    lanes = int(os.environ.get("RT_JOBS") or os.cpu_count())
    with concurrent.futures.ThreadPoolExecutor(lanes) as pool:
        for ended in [pool.submit(work, lane, tasks, proofs) for lane in range(lanes)]:
            told += ended.result()
    for is_well, line in told:
        if not is_well:
            print(f"FAILED: {line}")
    failed = sum(not is_well for is_well, _ in told)
    print(f"{len(told) - failed} passed, {failed} failed")
    return 1 if failed or not told else 0


if __name__ == "__main__":
    sys.exit(main())
