"""Compares the words of `amihunk --help` with those of the man page and the completions: PROGRAM REPOSITORY."""

import re
import subprocess
import sys
import tempfile

PROGRAM, REPOSITORY = sys.argv[1:]
COMPLETIONS = f"{REPOSITORY}/completions"
MAN_PAGE = f"{REPOSITORY}/docs/amihunk.1"
OPTION = re.compile(r"^ +(?:(-\w), )?(--[a-z-]+)", re.MULTILINE)

BASH = """
source "$1/amihunk.bash"
shift
COMP_WORDS=("$@") COMP_CWORD=$(($# - 1))
_amihunk
printf '%s\\n' "${COMPREPLY[@]}"
"""

# An interactive shell completes the line in a terminal of its own, and writes what it offers to a file. Where
# matches are only asked for (-A, -D, -O), it offers none.
ZSH = """
zmodload zsh/zpty
zpty shell zsh -f -i
zpty -w shell "fpath=($1 \\$fpath); autoload -Uz compinit; compinit -D -u
compadd() {
    if (( ! \\${argv[(I)-(A|D|O)]} )); then
        local -a offered
        builtin compadd -O offered \\"\\$@\\"
        print -rl -- \\$offered >> $3
    fi
    builtin compadd \\"\\$@\\"
}
print RE''ADY"
zpty -r shell out '*READY*'
zpty -w -n shell "$2"$'\\t'
repeat 50 { sleep 0.1; [[ -s $3 ]] && break }
sleep 0.2
"""


def output(*command):
    return subprocess.run(command, stdout=subprocess.PIPE, check=True, text=True).stdout


def options_of(text):
    """The options that a help lists, short and long."""
    return {word for pair in OPTION.findall(text) for word in pair if word}


def helped():
    """The options of each command by `--help`; those of the program have the command ''."""
    text = output(PROGRAM, "--help")
    listed = text.partition("Commands:\n")[2].partition("\n\n")[0]
    commands = re.findall(r"^  (\w+)", listed, re.MULTILINE)
    return {"": options_of(text), **{it: options_of(output(PROGRAM, it, "--help")) for it in commands}}


def section(page, name):
    return page.partition(f".SH {name}\n")[2].partition("\n.SH")[0]


def in_manual():
    """The same by the man page."""
    with open(MAN_PAGE, encoding="utf-8") as it:
        page = it.read().replace("\\-", "-")
    commands = re.findall(r'^\.BI (\w+) "', section(page, "COMMANDS"), re.MULTILINE)
    found = {"": set(), **{it: set() for it in commands}}
    for entry in section(page, "OPTIONS").split(".TP\n")[1:]:
        head, told = entry.split("\n")[:2]
        words = re.findall(r"(?<![\w-])--?[A-Za-z][a-z-]*", head)
        # An option of some commands begins with their names, and one of none is the program's.
        of = re.findall(r"\w+", told[len(".BR ") :]) if told.startswith(".BR ") else ["", *commands] if "--help" in words else [""]
        for command in of:
            found[command].update(words)
    return found


def in_bash(command, *before):
    """What bash offers after the command and these words: where a word begins with a dash, and of the program itself also where none
    has begun."""
    line = ["amihunk", *([command] if command else []), *before]
    options = set(output("bash", "-c", BASH, "bash", COMPLETIONS, *line, "-").split())
    offered = set(output("bash", "-c", BASH, "bash", COMPLETIONS, *line, "").split()) if not command else None
    return options, offered


def in_zsh(command, *before):
    """The same of zsh."""
    line = "".join(f"{word} " for word in ("amihunk", command, *before) if word)

    def offered(more):
        with tempfile.NamedTemporaryFile("r", encoding="utf-8") as file:
            output("zsh", "-f", "-c", ZSH, "zsh", COMPLETIONS, line + more, file.name)
            return set(file.read().split())

    return offered("-"), offered("") if not command else None


def main():
    wanted, missed = helped(), 0

    def compare(what, found, due):
        nonlocal missed
        if found == due:
            print(f"{what:<40} {len(due):3} words are the same")
        else:
            missed = 1
            print(f"{what:<40} lacks {sorted(due - found)}, and has {sorted(found - due)}  MISSED")

    manual = in_manual()
    compare("commands of the man page", set(manual), set(wanted))
    for command, options in wanted.items():
        name = command or "the program"
        compare(f"the man page on {name}", manual.get(command, set()), options)
        in_shell, offered = in_bash(command)
        compare(f"bash on {name}", in_shell, options)
        if offered is not None:
            compare("bash, commands", offered, set(wanted) - {""})
        in_shell, offered = in_zsh(command)
        compare(f"zsh on {name}", in_shell, options)
        if offered is not None:
            compare("zsh, commands", offered, set(wanted) - {""})
        else:
            compare(f"bash on {name}, after --", in_bash(command, "--")[0], set())
            compare(f"zsh on {name}, after --", in_zsh(command, "--")[0], set())

    subprocess.run(["bash", "-n", f"{COMPLETIONS}/amihunk.bash"], check=True)
    subprocess.run(["zsh", "-n", f"{COMPLETIONS}/_amihunk"], check=True)
    warnings = subprocess.run(["man", "--warnings", "-l", MAN_PAGE], stdout=subprocess.DEVNULL, stderr=subprocess.PIPE, check=True, text=True).stderr
    if warnings:
        missed = 1
        print(f"man warns  MISSED\n{warnings}", end="")
    sys.exit(missed)


main()
