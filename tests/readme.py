"""The README as a reader follows it: what it quotes is what is printed, and its examples do what they say."""
import os
import re
import shlex
import shutil

from harness import DONE, Program, equals, test
from sources import TOP, text_of

BUILT = "crates/amihunk/out/amihunk"
# What `rt try` adds to what the program prints, where it ended well.
TRIED = ["checked: ended status=0", "run=ended status=0 runners=1 proved=no"]


def blocks(text):
    """The blocks of code that are set in by four spaces, each as its lines."""
    return [block.replace("\n    ", "\n")[4:].split("\n") for block in re.findall(r"(?:^    .*\n)+", text, re.M)
            for block in [block.rstrip("\n")]]


def quotations(text):
    """Each command that follows a `$`, with the lines that stand below it."""
    for lines in blocks(text):
        starts = [number for number, line in enumerate(lines) if line.startswith("$ ")] + [len(lines)]
        for start, end in zip(starts, starts[1:]):
            yield lines[start][2:], lines[start + 1:end]


def in_a_checkout(program):
    """The program in the folder of its crate, and in that of the examples, of something like a checkout."""
    os.makedirs(program.at("crates/amihunk/out"))
    shutil.copytree(os.path.join(TOP, "examples"), program.at("examples"))
    return Program(program.path, program.at("crates/amihunk")), Program(program.path, program.at("examples"))


@test
def the_readme_quotes_what_is_printed(program):
    text = text_of("README.md")
    crate, examples = in_a_checkout(program)
    made = re.search(r"^    \(cd crates/amihunk && rt run -- (.*)\)$", text, re.M)
    crate.prints("", *shlex.split(made[1]))
    told = []
    for command, lines in quotations(text):
        command, _, cut = command.partition(" | head -n ")
        if command.startswith("(cd crates/amihunk && rt try "):
            equals(lines[-len(TRIED):], TRIED, command)
            lines, words, where = lines[:-len(TRIED)], command.rstrip(")").split(" -- ")[1], examples
        else:
            path, _, words = command.partition(" ")
            equals(path, BUILT, command)
            where = program
        status, out, errors = where.run(*shlex.split(words))
        equals((status, errors), (DONE, ""), command)
        printed = out.splitlines()
        equals(lines, printed[:int(cut)] if cut else printed, command)
        told.append(command.split()[0])
    equals(told, ["(cd", BUILT, BUILT], "what the README quotes")


@test
def the_examples_of_the_readme_end_well(program):
    _, examples = in_a_checkout(program)
    rows = re.findall(r"^\| `(\w+) .*\| `amihunk (.*)` \|$", text_of("README.md"), re.M)
    equals([name for name, _ in rows], ["check", "show", "survey", "link", "load", "image", "copy", "compare"])
    for name, words in rows:
        status, _, errors = examples.run(*shlex.split(words))
        equals((status, errors), (DONE, ""), words)
