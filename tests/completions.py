"""What the shells offer to complete a command line: the options that the help lists, and files."""
import os
import re
import shutil
import subprocess

from command_line import lines_of
from harness import equals, test

FOLDER = os.path.join(os.path.dirname(os.path.abspath(__file__)), "..", "completions")
OPTION = re.compile(r"^ +(?:(-\w), )?(--[a-z-]+)( <\w+>)?", re.M)
BASH = """
source "$1"
shift
COMP_WORDS=("$@") COMP_CWORD=$(($# - 1))
_amihunk
printf '%s\\n' "${COMPREPLY[@]}"
"""
FILES = {"main.o", "library.o", "-strange"}


def helped():
    """The options of each command by its help, short and long, each with whether it takes a value; the program's are those of ''."""
    texts = {line[0] if len(line) == 2 else "": text for line, text in lines_of("help.txt")}
    return {command: {word: bool(value) for *pair, value in OPTION.findall(text) for word in pair if word} for command, text in texts.items()}


def offered(program, *words):
    """What bash offers for the last of the words."""
    ran = subprocess.run(["bash", "-c", BASH, "bash", f"{FOLDER}/amihunk.bash", "amihunk", *words], stdout=subprocess.PIPE,
                         stderr=subprocess.PIPE, cwd=program.folder, check=True, text=True, timeout=60)
    equals(ran.stderr, "", words)
    return set(ran.stdout.split())


@test
def bash_offers_the_options_of_the_help(program):
    options = helped()
    assert len(options) > 8, options
    equals(offered(program, ""), set(options) - {""})
    for command, words in options.items():
        given = [command] if command else []
        equals(offered(program, *given, "-"), set(words), command)
        equals(offered(program, *given, "--"), {word for word in words if word.startswith("--")}, command)
    equals(offered(program, "survey", "--files-from", "list", "--l"), {"--lines"})


@test
def bash_offers_files(program):
    for name in FILES:
        program.write(name, b"")
    for command, words in helped().items():
        if not command:
            continue
        equals(offered(program, command, ""), FILES, command)
        equals(offered(program, command, "--", ""), FILES, command)
        equals(offered(program, command, "--", "-"), {"-strange"}, command)
        equals(offered(program, command, "--", "x", "lib"), {"library.o"}, command)
        for word in (word for word, takes_value in words.items() if takes_value):
            equals(offered(program, command, word, ""), set() if word == "--at" else FILES, (command, word))


@test
def zsh_is_told_the_options_of_the_help(program):
    path = f"{FOLDER}/_amihunk"
    with open(path, encoding="utf-8") as file:
        text = file.read()
    shared = {name: set(re.findall(r"--[a-z-]+(?=[\[}])", body)) for name, body in re.findall(r"^    (\w+)=\(\n(.*?)^    \)", text, re.M | re.S)}
    for command, words in helped().items():
        if not command:
            continue
        [body] = re.findall(rf"^ +{command}\)\n(.*?)^ +;;", text, re.M | re.S)
        told = set(re.findall(r"--[a-z-]+(?=[\[}])", body)).union(*(shared[name] for name in re.findall(r"\$(\w+)", body)))
        short = {f"-{letter}" for letter in re.findall(r"\{-(\w),--", body)}
        equals(told | short, set(words), command)
    if shutil.which("zsh"):
        subprocess.run(["zsh", "-n", path], check=True, timeout=60)
