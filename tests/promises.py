#!/usr/bin/env python3
"""Checks what docs/PROMISES.md, README.md and the other pages say of the sources, without building anything.

Each crate, call, clause, law, test, must-fail edit and file that docs/PROMISES.md and README.md name exists where they say, and each
public call of the libraries, each of its clauses, each law and each edit stands in docs/PROMISES.md. Of the other pages each test, each
file and each word of the sources that they name is there, and the code that they quote. The crates stand in the tables of
docs/ARCHITECTURE.md and CONTRIBUTING.md, and the scripts of bench/ in that of bench/README.md. No clause has longer lines than
CONTRIBUTING.md says. A row counts as one test, and so does a page.
The last line is 'N passed, M failed', and the status is 0 if M is 0. With a folder as its argument it checks the copy of the
repository there.
"""
import contextlib
import os
import re
import sys

sys.dont_write_bytecode = True
import sources
from sources import Crate, is_there, listed_crates, text_of

# Claims alone name their calls: nothing in Rattle can call a program, and capi/amihunk.h tells of the exports for C.
OTHERS = ["amihunk", "amihunk_c"]
PAGE, README, CRATES, GUIDE = "docs/PROMISES.md", "README.md", "docs/ARCHITECTURE.md", "CONTRIBUTING.md"
CALLERS, BENCHES = "docs/CALLING.md", "bench/README.md"
# The pages whose words are those of the sources. docs/OUTPUT.md and docs/FORMAT.md have letters and longwords instead.
WORDED = [PAGE, README, CRATES, GUIDE, CALLERS, BENCHES, "docs/DECISIONS.md", "page/README.md"]
README_LINES, ROW_LENGTH = 150, 340
IN_TESTS = re.compile(r"\b(hunk_\w*tests) (`\w+`(?:: `\w+`)?(?:(?:[,;]| and) `\w+`(?::(?= `))?(?: `\w+`)?)*)")
QUOTED = re.compile(r"`([^`]+)`")
passed, complaints = 0, []


def check(holds, complaint):
    if not holds:
        complaints.append(complaint)


@contextlib.contextmanager
def counted():
    """Counts what is checked in it as one test: a row, a paragraph, a page."""
    global passed
    before = len(complaints)
    yield
    passed += len(complaints) == before


def quoted(cell):
    return QUOTED.findall(cell)


class Row:
    """A row of a table, the heading and the columns that it stands under."""

    def __init__(self, line, heading, columns):
        self.line, self.heading, self.columns = line, heading, columns
        self.cells = cells_of(line)

    def cell(self, column):
        return self.cells[self.columns.index(column)]

    def __str__(self):
        return f"{PAGE}, {self.heading}: {self.cells[0]:.80}"


def cells_of(line):
    return [cell.strip() for cell in re.split(r"(?<!\\)\|", line)[1:-1]]


def rows_of(text):
    heading, columns = "", None
    lines = text.split("\n")
    for number, line in enumerate(lines):
        if found := re.match(r"^#+ (.*)", line):
            heading, columns = found[1], None
        elif not line.startswith("|"):
            columns = None
        elif columns is None:
            columns = cells_of(line)
        elif not line.startswith("|---"):
            yield Row(line, heading, columns)


def paragraphs_of(text):
    """The paragraphs, each with the heading that it stands under; a row of a table is one of its own."""
    heading = ""
    for block in re.split(r"\n\n|\n(?=[|])|\n(?=- )", text):
        if found := re.match(r"^#+ (.*)", block):
            heading = found[1]
        yield heading, " ".join(block.split())


class Sources:
    """The crates that the page tells of. `libraries` are those whose public calls have rows: all that are no programs, no
    libraries for C and no tests."""

    def __init__(self):
        listed = re.findall(r"^(\w+):", text_of("crates.txt"), re.M)
        self.libraries = [name for name in listed if is_there("crates", name, "src", "lib.rt")
                          and not name.endswith("tests") and name not in ("hunk_test_support", "hunk_fake_files")]
        self.crates = {name: Crate(name) for name in self.libraries + OTHERS}
        self.tests = {}

    def clauses_of(self, name):
        """The clauses of a call or a law; of a call that is named by the end of its path, if there is only one."""
        for kind in ("calls", "laws"):
            for crate in self.crates.values():
                if name in (known := getattr(crate, kind)):
                    return known[name] if kind == "laws" else known[name].clauses
        ends = [call for it in self.crates.values() for path, call in it.every.items() if f"::{path}".endswith(f"::{name}")]
        return ends[0].clauses if len(ends) == 1 else None

    def test_stands(self, crate, module, name):
        found = self.tests.setdefault(crate, sources.tests_in(crate) if is_there("crates", crate) else {})
        return name in found.get(module, ()) if name else bool(found.get(module))


def names_of(clauses):
    return {it or "ensures" for it in clauses}


# ---- what is proved


def check_claim(row, known):
    check(len(row.line) <= ROW_LENGTH, f"{row}: longer than {ROW_LENGTH} characters")
    told = set(quoted(row.cell("Clauses")))
    there = set()
    for name in quoted(row.cell("Calls")):
        clauses = known.clauses_of(name)
        check(clauses is not None, f"{row}: no call `{name}`")
        check(clauses is None or names_of(clauses) & told, f"{row}: none of these is a clause of `{name}`")
        there |= names_of(clauses or ())
    for clause in told - there:
        check(False, f"{row}: no clause `{clause}`")


def check_mistake(row, known):
    """The calls and clauses that refuse a known mistake: `CALL`: `CLAUSE`, and so on, apart by semicolons."""
    for part in row.cell("Refused by").split(";"):
        names = quoted(part)
        if not names:
            continue
        clauses = known.clauses_of(names[0])
        check(clauses is not None, f"{row}: no call `{names[0]}`")
        for clause in names[1:]:
            check(clause in names_of(clauses or ()), f"{row}: no clause `{clause}` of `{names[0]}`")


def check_call(row, rows, known):
    """A row of a library's table: its clauses, and nothing that looks like one."""
    name, crate = quoted(row.cells[0])[0], known.crates[row.heading]
    if name not in crate.calls:
        check(False, f"{row}: no such public call")
        return
    clauses = crate.calls[name].clauses
    told = [it for column in ("Result", "Errors", "After an error") for it in quoted(row.cell(column))]
    for other in re.findall(r"as of `([^`]+)`", row.line):
        check(other in rows, f"{row}: no row of `{other}`")
        told += [it for column in ("Errors", "After an error") if other in rows for it in quoted(rows[other].cell(column))]
    for clause in names_of(clauses) - set(told):
        check(False, f"{row}: its clause `{clause}` is not told")
    traits = [it for path in quoted(row.cell("Result")) for it in of_trait(path, known)]
    allowed = names_of(clauses) | getattr(crate.calls[name], "ghosts", set()) | set(traits)
    for word in quoted(row.cell("Result")):
        check(word in allowed or of_trait(word, known), f"{row}: no clause `{word}`")
    for column in ("Errors", "After an error"):
        for word in quoted(row.cell(column)):
            if word[0].islower():
                check(word in allowed | trait_clauses(name, known) or known.clauses_of(word) is not None,
                      f"{row}: no clause `{word}`")


def of_trait(word, known):
    return {clause for crate in known.crates.values() for clause in crate.traits.get(word, ())}


def trait_clauses(name, known):
    return names_of(of_trait(sources.without_generics(name.split(" for ")[0]), known))


def check_laws(heading, paragraph, known):
    told = {}
    for name, clauses in re.findall(r"`(\w+)`: ((?:`\w+`(?:, )?)+)", paragraph):
        told[name] = set(quoted(clauses))
    there = {name: names_of(clauses) for name, clauses in known.crates[heading].laws.items()}
    for name in told.keys() | there.keys():
        check(told.get(name) == there.get(name), f"{PAGE}, {heading}: of the law `{name}` it tells {sorted(told.get(name, []))}"
              f", and the crate has {sorted(there.get(name, []))}")


# ---- tests and edits


def check_tests(where, paragraph, known):
    """Each test that is named after its crate, its module and a colon, and each module of tests."""
    for crate, names in IN_TESTS.findall(paragraph):
        module = None
        for name, colon in re.findall(r"`(\w+)`(:)?", names):
            if colon:
                module = name
            elif module is None:
                check(known.test_stands(crate, name, None), f"{where}: no tests in {crate} `{name}`")
            else:
                check(known.test_stands(crate, module, name), f"{where}: no test {crate} `{module}`: `{name}`")
    for file, names in re.findall(r"tests/(\w+\.py)((?:,? `\w+`)*)", paragraph):
        check(is_there("tests", file), f"{where}: no tests/{file}")
        for name in quoted(names) if is_there("tests", file) else ():
            check(name in sources.python_tests(file), f"{where}: no test tests/{file} `{name}`")
    for file, names in re.findall(r"(?<![\w/])(\w+\.(?:cpp|c))\b((?:,? `\w+`)*)", paragraph):
        in_bench = where.startswith(BENCHES) and is_there("bench", file)
        check(in_bench or is_there("capi", "tests", file), f"{where}: no capi/tests/{file}")
        for name in quoted(names) if is_there("capi", "tests", file) else ():
            check(name in sources.c_tests(file), f"{where}: no test {file} `{name}`")


def check_edits(text, known):
    """Each edit that a row or a paragraph names exists, and each edit is named."""
    named = {}
    for heading, paragraph in paragraphs_of(text):
        for crate, edit in re.findall(r"`(hunk_\w+|amihunk\w*)/(\w+)`", paragraph):
            named.setdefault(crate, set()).add(edit)
        if heading in known.crates and (found := re.search(r"[Ee]dits are ([^.]*)\.", paragraph)):
            named.setdefault(heading, set()).update(quoted(found[1].split(":")[-1]))
    for row in rows_of(text):
        if "Edit" in row.columns and not row.cell("Edit").startswith("by that of"):
            named.setdefault(row.heading, set()).update(quoted(row.cell("Edit")))
    for name, crate in known.crates.items():
        for edit in named.get(name, set()) | crate.edits:
            check(edit in crate.edits, f"{PAGE}, {name}: no edit `{edit}`")
            check(edit in named.get(name, set()), f"{PAGE}, {name}: its edit `{edit}` is not told")
    for name in named.keys() - known.crates.keys():
        check(False, f"{PAGE}: no crate {name} with edits")


# ---- words, files and links


def vocabulary():
    """Every word of the sources, and of the names of their files: what may stand in back quotes."""
    words = set()
    for folder, folders, files in os.walk(sources.TOP):
        folders[:] = [it for it in folders if it not in ("out", ".git", "docs", "__pycache__")]
        for file in files:
            words.update(re.findall(r"\w+", file))
            if not file.endswith((".md", ".o", ".load")):
                words.update(re.findall(r"\w+", text_of(folder, file)))
        words.update(folders)
    return words


# Commands, files, macros and words of others, and words that stand for any, that no source here names.
FOREIGN = set("plant verdict version tidy spent incremental the_lemma ARGUMENTS vX ulimit ldconfig lld S5 conflicts_with include_str "
              "doshunks.h".split())
FILE = re.compile(r"[\w/]+\.(?:antt|c|cpp|css|edit|h|html|js|o|py|rt|sh)\b")


def without_code(text):
    """The text without its blocks of code."""
    return re.sub(r"^    .*$", "", re.sub(r"^```.*?^```$", "", text, flags=re.M | re.S), flags=re.M)


def check_words(file, text, words):
    for word in sorted({word for it in quoted(text) for word in re.findall(r"[A-Za-z_]\w+", it)} - words - FOREIGN):
        check(False, f"{file}: `{word}` is nowhere in the sources")


def names_of_files():
    """The paths of all files, with a slash before each."""
    found = []
    for folder, folders, files in os.walk(sources.TOP):
        folders[:] = [it for it in folders if it not in ("out", ".git", "__pycache__")]
        found += ["/" + os.path.relpath(os.path.join(folder, file), sources.TOP) for file in files]
    return found


def check_files(file, text, files):
    """Each file that stands in back quotes by the end of its path."""
    for name in sorted({it for it in quoted(text) if FILE.fullmatch(it)} - FOREIGN):
        check(any(it.endswith("/" + name) for it in files), f"{file}: no file `{name}`")


def check_links(file, text):
    folder = os.path.dirname(file)
    for to in re.findall(r"\]\(([^)]*)\)", text):
        path, _, anchor = to.partition("#")
        if path.startswith("http"):
            continue
        target = os.path.normpath(os.path.join(folder, path)) if path else file
        check(is_there(target), f"{file}: no file {to}")
        if anchor and is_there(target):
            heads = re.findall(r"^#+ (.*)", text_of(target), re.M)
            check(anchor in {re.sub(r"[^\w -]", "", it.lower()).replace(" ", "-") for it in heads}, f"{file}: no heading {to}")
    for path in set(re.findall(r"(?<![\w/.-])((?:crates|docs|tests|capi|examples|bench|completions)/[\w./-]*\w)", text)):
        check(is_there(path) or "/out" in path, f"{file}: no file {path}")


def pages():
    """The pages whose links are followed."""
    docs = sorted(os.listdir(os.path.join(sources.TOP, "docs")))
    return [README, "CHANGELOG.md", "CONTRIBUTING.md", "bench/README.md", "page/README.md"] + [f"docs/{it}" for it in docs if it.endswith(".md")]


# ---- code that is quoted, and tables of what there is


def check_code(file, text):
    """Each block of code in Rattle or C stands word for word in a source that is there to be quoted; what is in Python is run."""
    places = {"rust": ("crates/hunk_uses/src", ".rt"), "c": ("examples/c", ".c")}
    for language, block in re.findall(r"^```(\w+)\n(.*?)^```$", text, re.M | re.S):
        if language != "python":
            folder, suffix = places[language]
            stands = any(f"\n{block}" in f"\n{text_of(folder, it)}" for it in os.listdir(os.path.join(sources.TOP, folder))
                         if it.endswith(suffix))
            check(stands, f"{file}: not in {folder}: {block.splitlines()[0]}")


def check_crates():
    """docs/ARCHITECTURE.md has each crate with what it depends on, and CONTRIBUTING.md with what its proof takes."""
    listed = {name: set(libraries) for name, (_, libraries) in listed_crates().items()}
    told = {quoted(row.cells[0])[0]: row.cells[2] for row in rows_of(text_of(CRATES)) if row.columns == ["Crate", "Does", "Depends on"]}
    check(told.keys() == listed.keys(), f"{CRATES}: its crates are not those of crates.txt: {told.keys() ^ listed.keys()}")
    for name in told.keys() & listed.keys():
        check(set(quoted(told[name])) == listed[name], f"{CRATES}: what `{name}` depends on is not what crates.txt says")
    timed = {quoted(row.cells[0])[0] for row in rows_of(text_of(GUIDE)) if row.columns == ["Crate", "Its proof", "Its edits"]}
    check(timed == listed.keys() - {"hunk_test_support"}, f"{GUIDE}: its crates are not those of crates.txt: {timed ^ listed.keys()}")


def check_way(text):
    """Each call on the way of one relocation is in the file that stands behind it, or in the one before."""
    path = None
    for call, to in re.findall(r"^\d+\. `([\w:]+)`.*: (crates/\S+|the same)$", text, re.M):
        path = path if to == "the same" else to
        name = call.rpartition("::")[2]
        check(is_there(path) and f"fn {name}" in text_of(path), f"{CRATES}: no `{call}` in {path}")
    check(path, f"{CRATES}: the way of one relocation is not there")


def check_homes(text):
    """Each word that stands in front of `in` and a crate is in the sources of that crate."""
    for names, crate in re.findall(r"((?:`\w+`(?:,| and)? )+)in `(hunk_\w+|amihunk\w*)`", text):
        words = {it for folder, _, files in os.walk(os.path.join(sources.TOP, "crates", crate)) for file in files
                 if file.endswith((".rt", ".antt")) for it in re.findall(r"\w+", text_of(folder, file))}
        for name in quoted(names):
            check(name in words, f"{CRATES}: `{name}` is not in {crate}")


def check_version(text):
    """docs/CALLING.md names the shared library as it is called at the version of CHANGELOG.md."""
    version = re.search(r"^## ([\d.]+)", text_of("CHANGELOG.md"), re.M)[1]
    check(f"`libamihunk.so.{version}`" in text, f"{CALLERS}: the shared library is libamihunk.so.{version}")
    check(f"`libamihunk.so.{version.split('.')[0]}`" in text, f"{CALLERS}: it is found by another name")


def check_benches(text):
    """bench/README.md names each file of its folder."""
    for name in os.listdir(os.path.join(sources.TOP, "bench")):
        check(name == "README.md" or name.startswith("__") or f"`{name}`" in text, f"{BENCHES}: `bench/{name}` is not told")


def check_clauses():
    """Each line of a clause has at most as many columns as CONTRIBUTING.md says."""
    columns = int(re.search(r"A clause has lines of at most (\d+) columns", text_of(GUIDE))[1])
    for folder, folders, files in os.walk(os.path.join(sources.TOP, "crates")):
        folders[:] = [it for it in folders if it != "out"]
        for file in [os.path.join(folder, it) for it in files if it.endswith(".rt")]:
            long = [it for it in text_of(file).split("\n") if len(it) > columns and re.match(r" +(?:requires|ensures)\b", it)]
            check(not long, f"{os.path.relpath(file, sources.TOP)}: a clause with more than {columns} columns: {long[:1]}")


# ---- the README


def check_readme(text):
    check(len(text.split("\n")) - 1 <= README_LINES, f"{README}: more than {README_LINES} lines")
    headline = " ".join(text_of("crates/hunk_tool/specs/Headline.antt").split())
    quotation = re.search(r"^    LinkedIsReported =\n((?:        .*\n)+)", text, re.M)
    check(quotation and " ".join(quotation[0].split()) in headline, f"{README}: the headline is not that of Headline.antt")
    words = re.search(r"\*(whenever [^*]*)\*", text)
    check(words and " ".join(words[1].split()).lower() in headline.replace("-- ", "").lower(),
          f"{README}: the headline in words is not that of Headline.antt")


def main():
    if len(sys.argv) > 1:
        sources.TOP = os.path.abspath(sys.argv[1])
    known, page, readme = Sources(), text_of(PAGE), text_of(README)
    rows = list(rows_of(page))
    for row in rows:
        with counted():
            if row.columns == ["Claim", "Calls", "Clauses"]:
                check_claim(row, known)
            elif "Refused by" in row.columns:
                check_mistake(row, known)
            elif row.columns == ["What", "Where"]:
                check(len(row.line) <= ROW_LENGTH, f"{row}: longer than {ROW_LENGTH} characters")
    told = [row for row in rows if row.columns[0] == "Call" and row.heading in known.libraries]
    by_name = {quoted(row.cells[0])[0]: row for row in told}
    for row in told:
        with counted():
            check_call(row, by_name, known)
    for name in known.libraries:
        for call in known.crates[name].calls.keys() - {quoted(row.cells[0])[0] for row in told if row.heading == name}:
            check(False, f"{PAGE}, {name}: the public call `{call}` has no row")
    with counted():
        told = {heading: it for heading, it in paragraphs_of(page) if it.startswith("Laws: ")}
        for name in known.libraries:
            check_laws(name, told.get(name, ""), known)
    with counted():
        check_edits(page, known)
    words, files = vocabulary(), names_of_files()
    for file in pages():
        with counted():
            for heading, paragraph in paragraphs_of(without_code(text_of(file))):
                check_tests(f"{file}, {heading}", paragraph, known)
    for file in WORDED:
        with counted():
            text = without_code(text_of(file))
            check_words(file, text, words)
            check_files(file, text, files)
    for file in pages():
        with counted():
            check_links(file, text_of(file))
    for file in (README, CALLERS):
        with counted():
            check_code(file, text_of(file))
    with counted():
        check_crates()
    with counted():
        check_way(text_of(CRATES))
        check_homes(" ".join(text_of(CRATES).split()))
    with counted():
        check_clauses()
    with counted():
        check_benches(text_of(BENCHES))
    with counted():
        check_version(text_of(CALLERS))
    with counted():
        check_readme(readme)
    for complaint in complaints:
        print(f"FAILED: {complaint}")
    print(f"{passed} passed, {len(complaints)} failed")
    return 1 if complaints or not passed else 0


if __name__ == "__main__":
    sys.exit(main())
