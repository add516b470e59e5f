"""What stands in the sources: the public calls of a crate with the clauses of their contracts, its tests and its edits.

The sources are read line by line, in the layout that `rt fmt` gives them: an item begins at the first column, a function of
an `impl` or of a trait four columns in, and the body of a function with a line of its own.
"""
import os
import re

TOP = os.path.dirname(os.path.dirname(os.path.abspath(__file__)))
# The folder of a crate that has its must-fail edits.
EDITS = "must-fail-edits"
# What Rattle asks of a type so that contracts can speak of it. It is nothing that a program calls.
GHOST_TRAITS = {"Model"}

FUNCTION = re.compile(r"^( *)(pub )?(?:const )?(?:unsafe )?(?:extern \"C\" )?fn (\w+)")
ITEM = re.compile(r"^(pub )?(?:pub\(crate\) )?(struct|enum|type|const|static|trait) (\w+)")
CLAUSE = re.compile(r"^ +ensures (?:(\w+) )?\{")
GHOST = re.compile(r"^ +ghost (\w+) = ")


def text_of(*path):
    with open(os.path.join(TOP, *path), encoding="utf-8") as file:
        return file.read()


def is_there(*path):
    return os.path.exists(os.path.join(TOP, *path))


def listed_crates():
    """The crates of crates.txt, in its order: whether each is a static library, and the libraries that it uses."""
    lines = re.findall(r"^(\w+)( staticlib)?:(.*)", text_of("crates.txt"), re.M)
    return {name: (bool(static), libraries.split()) for name, static, libraries in lines}


def without_generics(name):
    """`Sites<T, A>` without what stands in angle brackets, which may be nested."""
    while (shorter := re.sub(r"<[^<>]*>", "", name)) != name:
        name = shorter
    return name.strip()


def split_impl(line):
    """The trait, or None, and the type of a line that begins an `impl`."""
    rest, depth = line[len("impl"):], 0
    if rest.startswith("<"):
        for index, letter in enumerate(rest):
            depth += {"<": 1, ">": -1}.get(letter, 0)
            if depth == 0:
                rest = rest[index + 1:]
                break
    rest = re.split(r"(?: where .*)?\s*\{", rest, maxsplit=1)[0].strip()
    trait, between, of = rest.partition(" for ")
    return (trait, of) if between else (None, trait)


def trait_as_named(trait):
    """A trait as docs/PROMISES.md names it: of its parameters, those of `From` stay, without their own."""
    if trait.startswith("From<"):
        return f"From<{without_generics(trait[len('From<'):-1])}>"
    return without_generics(trait)


def type_as_named(of):
    """A type as docs/PROMISES.md names it: a slice with what it is of."""
    return re.sub(r"\[(.*)\]", lambda found: f"[{without_generics(found[1])}]", without_generics(of))


class Call:
    """A function, a method or a method of a trait: of a type or a trait, or of itself."""

    def __init__(self, name, of, clauses):
        self.name, self.of, self.clauses = name, of, clauses


class Implementation:
    """An implementation of a trait, with all clauses that it has itself."""

    def __init__(self, trait, of):
        self.name = f"{trait_as_named(trait)} for {type_as_named(of)}"
        self.trait, self.of = without_generics(trait), without_generics(of).lstrip("&").strip("[]")
        self.clauses, self.ghosts = set(), set()


class Module:
    """A file of a crate: its modules, what it re-exports, its types, and its calls by their names in it."""

    def __init__(self, crate, path):
        self.children, self.types, self.private = {}, set(), set()
        self.traits, self.calls = {}, []
        # A module without its file is the compiler's to tell.
        there = is_there("crates", crate, "src", path)
        self.lines = text_of("crates", crate, "src", path).split("\n") if there else []
        self.exports, self.imports = self.names_of("pub use"), self.names_of("use")
        self.read_items()
        folder = "" if path in ("lib.rt", "main.rt") else path.removesuffix(".rt") + "/"
        for line in self.lines:
            if found := re.match(r"^(pub )?mod (\w+);", line):
                self.children[found[2]] = bool(found[1]), Module(crate, f"{folder}{found[2]}.rt")

    def names_of(self, keyword):
        """What `pub use` hands on, or `use` names: each name, and the path that it comes from."""
        found = {}
        for path in re.findall(rf"^{keyword} ([^;]*);", "\n".join(self.lines), re.M):
            front, braces, names = path.partition("{")
            for name in names.rstrip("} \n").split(",") if braces else [path]:
                if name := name.strip():
                    whole = (front + name if braces else name).replace("crate::", "").split("::")
                    found[whole[-1]] = whole
        return found

    def read_items(self):
        """Reads the items, one after another; `owner` is what the functions further in belong to."""
        owner, impl = None, None
        for number, line in enumerate(self.lines):
            if line and not line.startswith((" ", "}", ")")):
                owner, impl = None, None
            if found := ITEM.match(line):
                (self.types if found[1] else self.private).add(found[3])
                if found[2] == "trait":
                    owner = found[3]
                    self.traits[owner] = set()
            elif line.startswith("impl"):
                trait, of = split_impl(self.whole_line(number))
                owner = without_generics(of)
                if trait:
                    impl = Implementation(trait, of)
                    if impl.trait not in GHOST_TRAITS:
                        self.calls.append(impl)
            elif impl and (found := GHOST.match(line)):
                impl.ghosts.add(found[1])
            if found := FUNCTION.match(line):
                self.read_function(number, found, owner, impl)

    def whole_line(self, number):
        """A line with those that follow it, up to its opening brace."""
        whole = self.lines[number]
        while "{" not in whole:
            number += 1
            whole += " " + self.lines[number].strip()
        return whole

    def read_function(self, number, found, owner, impl):
        indent, public, name = found[1], bool(found[2]), found[3]
        clauses = self.contract(number, indent)
        if impl:
            impl.clauses |= clauses
        elif owner in self.traits and indent:
            self.traits[owner] |= clauses
            self.calls.append(Call(f"{owner}::{name}", owner, clauses))
        elif public:
            self.calls.append(Call(f"{owner}::{name}", owner, clauses) if indent else Call(name, name, clauses))

    def contract(self, number, indent):
        """The names of the clauses of the function in a line, '' for one without a name."""
        clauses = set()
        for line in self.lines[number:]:
            if found := CLAUSE.match(line):
                clauses.add(found[1] or "")
            in_contract = line.lstrip().startswith(("ensures", "requires", "ghost"))
            if line in (indent + "{", indent + "{}") or line.endswith(";") or (line.endswith(" {") and not in_contract):
                break
        return clauses


class Crate:
    """A crate: its public calls by the paths that a caller names them by, all of its calls, its laws and its edits."""

    def __init__(self, name):
        self.name = name
        self.root = Module(name, "lib.rt" if is_there("crates", name, "src", "lib.rt") else "main.rt")
        self.placed = {id(it[0]): it for it in self.modules()}
        self.calls, self.laws, self.every, self.types, self.traits = {}, {}, {}, set(), {}
        self.own = {it for module, _, _ in self.modules() for it in module.types | set(module.traits) | module.private}
        self.at_root = {(id(module), name) for module, name in self.exported()}
        for module, prefix, public in self.modules():
            self.types |= {it for it in module.types if public or (id(module), it) in self.at_root}
            self.traits |= module.traits
        for module, _, _ in self.modules():
            for call in module.calls:
                self.collect(call, module)
        folder = os.path.join(TOP, "crates", name, EDITS)
        self.edits = {it.removesuffix(".edit") for it in os.listdir(folder)} if os.path.isdir(folder) else set()

    def modules(self, module=None, prefix="", public=True):
        """Each module with the path to it, and whether a caller can name it."""
        module = module or self.root
        yield module, prefix, public
        for name, (visible, child) in module.children.items():
            yield from self.modules(child, f"{prefix}{name}::", public and visible)

    def exported(self):
        """What the root itself re-exports: the module that it comes from, and its name."""
        for name, path in self.root.exports.items():
            if module := self.module_at(path[:-1]):
                yield module, name

    def module_at(self, path):
        """The module that this path from the root leads to, or None if it leads out of the crate."""
        module = self.root
        for step in path:
            module = module.children[step][1] if module and step in module.children else None
        return module

    def home_of(self, call, module):
        """The module of the type that a call belongs to: where the type is declared, if its `impl` stands in another one."""
        if call.of in module.imports and call.of not in module.types | module.private:
            return self.module_at(module.imports[call.of][:-1]) or module
        return module

    def collect(self, call, module):
        """Adds a call under the shortest path: none, if the root re-exports the item that it belongs to."""
        module, prefix, public = self.placed[id(self.home_of(call, module))]
        self.every[prefix + call.name] = call
        if isinstance(call, Implementation):
            if all(it in self.types or it not in self.own for it in (call.trait, call.of)):
                self.calls[call.name] = call
        elif prefix == "laws::":
            self.laws[call.name] = call.clauses
        elif (id(module), call.of) in self.at_root or module is self.root:
            self.calls[call.name] = call
        elif public and (call.of == call.name or call.of in self.types):
            self.calls[prefix + call.name] = call


def tests_in(crate):
    """The tests of a crate by their modules: those of src/tests/MODULE.rt."""
    found = {}
    for folder, _, files in os.walk(os.path.join(TOP, "crates", crate, "src")):
        for file in files:
            if file.endswith(".rt"):
                names = re.findall(r"^ *#\[test\]\n *(?:pub )?fn (\w+)", text_of(folder, file), re.M)
                found[file.removesuffix(".rt")] = set(names)
    return found


def python_tests(file):
    """The tests of a module of tests/: those under `@test`."""
    return set(re.findall(r"^@test\ndef (\w+)", text_of("tests", file), re.M))


def c_tests(file):
    """The tests of a file of capi/tests: those in its list."""
    return set(re.findall(r"\bTEST\((\w+)\)", text_of("capi", "tests", file)))
