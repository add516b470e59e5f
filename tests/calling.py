#!/usr/bin/env python3
"""docs/CALLING.md as somebody follows it: its commands are run one after another, from the top of something like a checkout, and what
it says that they print is what they print. So are the lines for C and Python in README.md. tests/promises.py compares the code of
docs/CALLING.md with the sources, and tests/python_module.py runs what is in Python.

The libraries are those that capi/check.sh leaves in capi/out. It needs a C compiler ($CC, or cc). What needs pkg-config or Unicorn is
left out where that is not installed. Each command counts as one test. The last line is 'N passed, M failed', and the status is 0 if M
is 0.
"""
import os
import re
import shutil
import subprocess
import sys
import tempfile

sys.dont_write_bytecode = True
from sources import TOP, text_of

COMMAND = re.compile(r"    (?:cc |printf |capi/out/|AMIHUNK_LIBRARY=)")
INSTALLED = {
    "pkg-config": "command -v pkg-config > /dev/null",
    "-lunicorn": 'cc -include unicorn/unicorn.h -x c /dev/null -fsyntax-only 2> /dev/null',
}


class Step:
    """A command, what it prints, and its status where the manual tells it."""

    def __init__(self, command):
        self.command, self.printed, self.status = command, "", 0


def steps_of(manual):
    """The commands of the manual, in their order."""
    steps, before, printed_by = [], "", None
    for text in manual.split("\n\n"):
        line = " ".join(text.split())
        if COMMAND.match(text):
            steps += [Step(it.strip()) for it in text.split("\n")]
        elif printed_by:
            printed_by.printed, printed_by.status = "".join(f"{it[4:]}\n" for it in text.rstrip("\n").split("\n")), None
        if found := re.search(r"`(capi/out/[^`]*)` prints$", line):
            steps.append(Step(found[1]))
        printed_by = None
        if re.match(r"prints\b", line) and not before.endswith("```"):
            if found := re.fullmatch(r"prints `([^`]*)`, and ends with status (\d)\.", line):
                steps[-1].printed, steps[-1].status = f"{found[1]}\n", int(found[2])
            else:
                printed_by = steps[-1]
        elif line.endswith("` prints"):
            printed_by = steps[-1]
        before = text
    return steps


def in_a_checkout(folder):
    """What the commands name, in a folder of their own; `program.c` is one of the examples."""
    os.makedirs(f"{folder}/capi")
    shutil.copytree(f"{TOP}/capi/out", f"{folder}/capi/out", symlinks=True)
    for name in ("examples", "python"):
        os.symlink(f"{TOP}/{name}", f"{folder}/{name}")
    shutil.copy(f"{TOP}/examples/c/assembler.c", f"{folder}/program.c")


def run(folder, command):
    """Its status, and all that it prints."""
    environment = {**os.environ, "CC": os.environ.get("CC", "cc"), "PYTHONDONTWRITEBYTECODE": "1"}
    ran = subprocess.run(["bash", "-c", 'cc() { command "$CC" "$@"; }; ' + command], cwd=folder, env=environment, stdout=subprocess.PIPE,
                         stderr=subprocess.STDOUT, text=True, timeout=60, check=False)
    return ran.returncode, ran.stdout


def quoted_in_readme(first):
    """The lines of the README that begin so, in a block of their own."""
    return re.search(rf"^    {re.escape(first)}.*\n(?:    .*\n)*", text_of("README.md"), re.M)[0].replace("\n    ", "\n")[4:]


def steps_of_the_readme(folder):
    """Its lines for C are compiled, and its line for Python loads what the steps before have linked."""
    with open(f"{folder}/readme.c", "w", encoding="utf-8") as file:
        file.write('#include "amihunk.h"\nvoid f(const uint32_t *bases, const unsigned char *bytes, size_t size)\n{\n'
                   f"amihunk_loader loader = {{0}};\namihunk_answer answer;\n{quoted_in_readme('amihunk_loader_open(')}}}\n")
    with open(f"{folder}/readme.py", "w", encoding="utf-8") as file:
        file.write(f"import amihunk\nfile = open('capi/out/hello', 'rb')\n{quoted_in_readme('image = amihunk.load(')}"
                   "print([hex(hunk.base) for hunk in image.hunks])\n")
    python = Step("AMIHUNK_LIBRARY=capi/out/libamihunk.so PYTHONPATH=python python3 readme.py")
    python.printed = "['0x10000', '0x20000', '0x30000', '0x40000']\n"
    return [Step("cc -std=c11 -Wall -Wextra -Werror -Icapi/out -c readme.c"), python]


def is_left_out(folder, command, left_out):
    """Whether it needs what is not installed, or was made by a command that was left out."""
    return command.split()[0] in left_out or any(word in command and run(folder, test)[0] for word, test in INSTALLED.items())


def main():
    passed = failed = 0
    left_out = set()
    with tempfile.TemporaryDirectory() as folder:
        in_a_checkout(folder)
        for step in steps_of(text_of("docs/CALLING.md")) + steps_of_the_readme(folder):
            if is_left_out(folder, step.command, left_out):
                left_out.update(re.findall(r"-o (\S+)", step.command))
                print(f"Left out, since it needs what is not installed: {step.command}")
                continue
            status, printed = run(folder, step.command)
            if printed == step.printed and step.status in (None, status):
                passed += 1
            else:
                failed += 1
                print(f"FAILED: {step.command}: it ends with status {status}, and prints\n{printed}")
    print(f"{passed} passed, {failed} failed")
    return 1 if failed or not passed else 0


if __name__ == "__main__":
    sys.exit(main())
