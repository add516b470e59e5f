"""What the tests of the module for Python share: the module, the program, files that come in pieces, and how a call ends."""
import io
import os
import subprocess
import sys

from model import BSS, CODE, DATA, END, HEADER, words

TOP = os.path.dirname(os.path.dirname(os.path.abspath(__file__)))
PYTHON = os.path.join(TOP, "python")
sys.path.insert(0, PYTHON)
import amihunk

PROGRAM = os.environ["AMIHUNK_PROGRAM"]

# A load file of one hunk of one longword.
ONE_HUNK = words(HEADER, 0, 1, 0, 0, 1, CODE, 1, 0x4E754E71, END)
# One of three hunks, of one, of two and of no longwords, which are zeros.
THREE_HUNKS = words(HEADER, 0, 3, 0, 2, 1, 2, 0, DATA, 0, END, BSS, 2, END, DATA, 0, END)


class Pieces:
    """A binary file object that returns at most so many bytes at a time, and counts how many it has returned."""

    def __init__(self, content, most):
        self.file, self.most, self.told = io.BytesIO(content), most, 0

    def read(self, size):
        piece = self.file.read(min(size, self.most))
        self.told += len(piece)
        return piece


def example(name):
    """The bytes of a file of examples/."""
    with open(os.path.join(TOP, "examples", name), "rb") as file:
        return file.read()


def ended(call, *values, **named):
    """How a call ends: what it returns, or the kind of what it raises, with all its fields."""
    try:
        return call(*values, **named)
    except amihunk.AmihunkError as error:
        return type(error), error.args


def loaded(file, bases):
    """What `load_into` makes of a file, as the image that `load` makes."""
    buffers = []

    def places(hunks):
        buffers[:] = [bytearray(4 * hunk.size) for hunk in hunks]
        return [amihunk.Place(base, buffer) for base, buffer in zip(bases, buffers)]

    amihunk.load_into(file, places)
    return amihunk.Image([amihunk.LoadedHunk(base, bytes(buffer)) for base, buffer in zip(bases, buffers)])


def run(*command, **how):
    """Runs a command, and returns its status and what it wrote, as bytes."""
    told = subprocess.run(command, stdin=subprocess.DEVNULL, capture_output=True, timeout=120, **how)
    return told.returncode, told.stdout, told.stderr


def run_python(text, *arguments, **environment):
    """Runs a text as a program in Python that finds the module, with more in its environment."""
    environment = {**os.environ, "PYTHONPATH": PYTHON, "PYTHONDONTWRITEBYTECODE": "1", **environment}
    return run(sys.executable, "-c", text, *arguments, cwd=TOP, env=environment)
