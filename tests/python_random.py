"""Random links and loads with the module for Python, against the program and against the model of the memory."""
import os
import random
import re
import shlex
import tempfile
import unittest

import model
from python_reading import changed
from python_setup import PROGRAM, Pieces, amihunk, ended, loaded, run
from amihunk import BadLink, Status, UndefinedName

CASES, BATCH = 2000, 100
# What the program tells of a name that is not defined, with `--explain`.
LACKS = re.compile(r'^  ("[^"]*"), references: (\d+), first in (\S+) unit (\d+) "[^"]*" hunk (\d+) "[^"]*"$', re.M)


class Case:
    """Some object files, how they are linked, and the addresses at which their load file is loaded. In a part of the cases a file
    is changed or there twice, definitions are lost, or the addresses are changed."""

    def __init__(self, seed):
        dice, self.seed, self.units = random.Random(seed), seed, model.random_named_units(seed)
        self.options, self.bases = model.random_options(dice), model.random_bases(seed, self.units)
        self.parts = model.dealt_out(dice, self.units)
        self.most = dice.choice((1, 3, 5, 1 << 20))
        self.plain = seed % 3 != 0
        mistake = None if self.plain else dice.choice(("object", "load", "load", "lost", "lost", "twice", "bases"))
        if mistake == "lost":
            for hunk in (hunk for unit in self.units for hunk in unit):
                hunk.definitions = [it for it in hunk.definitions if dice.random() < 0.5]
        if mistake == "twice":
            self.parts.append(self.parts[-1])
        files = [model.object_file(part) for part in self.parts]
        self.as_told = mistake != "object"
        if mistake == "object":
            number = dice.randrange(len(files))
            files[number] = changed(dice, files[number])
        if mistake == "bases":
            number = dice.randrange(len(self.bases))
            self.bases[number : number + 1] = dice.choice(([0xFFFFFFFF], [self.bases[0]], [self.bases[-1] + 1], [0, 0]))
        self.names, self.files = [f"{seed}-{number}.o" for number in range(len(files))], files
        flags = [f"--{it}" in self.options for it in ("strip", "short", "trim")]
        self.linked, self.explained, self.mapped = (
            ended(call, [Pieces(file, self.most) for file in files], *flags, names=self.names, **more)
            for call, more in ((amihunk.link, {}), (amihunk.link, {"explain": True}), (amihunk.link_with_map, {}))
        )
        self.load_file = self.linked if isinstance(self.linked, bytes) else b""
        if mistake == "load" and self.load_file:
            self.load_file = changed(dice, self.load_file)
        self.image = ended(amihunk.load, Pieces(self.load_file, self.most), self.bases, name=f"{seed}.load")

    def write(self, folder):
        """Writes its files, and returns the lines of a shell that link and load them."""
        for name, file in zip([*self.names, f"{self.seed}.load"], [*self.files, self.load_file]):
            with open(os.path.join(folder, name), "wb") as writer:
                writer.write(file)
        link = ["link", "--out", f"{self.seed}.out", "--map", f"{self.seed}.map", "--explain", *self.options, *self.names]
        load = ["load", "--at", model.addresses(self.bases), f"{self.seed}.load"]
        return "".join(f"{shlex.join([PROGRAM, *command])} > {self.seed}.{command[0]}.told 2>&1\n" for command in (link, load))


def text_in(folder, name):
    """What is in a file of a folder, or None if it is not there."""
    path = os.path.join(folder, name)
    if not os.path.exists(path):
        return None
    with open(path, "rb") as file:
        return file.read()


def without_names(refused):
    """How a link ends that was not asked to explain, of one that was."""
    kind, values = refused
    return kind, values[:6] + ((),) + values[7:] if kind is BadLink else values


class RandomFiles(unittest.TestCase):
    def test_random_files_are_linked_and_loaded_as_by_the_program(self):
        unlinked = unloaded = self.lacking = 0
        for first in range(0, CASES, BATCH):
            cases = [Case(seed) for seed in range(first, first + BATCH)]
            with tempfile.TemporaryDirectory() as folder:
                self.assertEqual(run("sh", "-c", "".join(case.write(folder) for case in cases) + "true", cwd=folder), (0, b"", b""))
                for case in cases:
                    made, linked, loads = (text_in(folder, f"{case.seed}.{it}") for it in ("out", "link.told", "load.told"))
                    unlinked += self.is_refused(case, made, linked)
                    self.keeps(case, text_in(folder, f"{case.seed}.map"), linked)
                    unloaded += self.loads_as(case, loads)
        # Both ends are seen often enough.
        self.assertTrue(CASES // 20 < unlinked < CASES // 3 and CASES // 10 < unloaded < CASES // 2, (unlinked, unloaded))
        self.assertGreater(self.lacking, CASES // 40)

    def is_refused(self, case, made, printed):
        """The bytes that the module made are those of the program, or the lines are; whether they are lines."""
        if isinstance(case.linked, bytes):
            self.assertEqual((case.linked, b""), (made, printed), case.seed)
            return False
        self.assertEqual((f"{case.linked[1][-1]}\n".encode(), None), (printed[: printed.index(b"\n") + 1], made), case.seed)
        return True

    def keeps(self, case, map_, printed):
        """The map, and the names that are not defined, are those of the program and of the model. All else is as of a plain link."""
        if isinstance(case.linked, bytes):
            self.assertEqual((case.explained, case.mapped), (case.linked, (case.linked, map_)), case.seed)
            if case.as_told:
                self.assertEqual(map_, model.map_of(zip(case.names, case.parts)).encode(), case.seed)
            return
        self.assertEqual((without_names(case.explained), case.mapped, map_), (case.linked, case.explained, None), case.seed)
        kind, values = case.explained
        if kind is not BadLink or values[0] is not Status.UNDEFINED_NAME:
            return
        told = [(model.quoted(it.name), *map(str, (it.references, case.names[it.input], it.unit, it.hunk))) for it in values[6]]
        self.assertEqual(told[:100], LACKS.findall(printed.decode()), case.seed)
        if case.as_told:
            uses = model.undefined_names(case.parts).items()
            self.assertEqual(values[6], tuple(UndefinedName(name, *place, count) for name, (count, place) in uses), case.seed)
        self.lacking += 1

    def loads_as(self, case, printed):
        """The image of the module is that of the program, and of the model; whether the file was refused."""
        if not isinstance(case.image, amihunk.Image):
            self.assertEqual(f"{case.image[1][-1]}\n".encode(), printed, case.seed)
            self.assertFalse(case.plain, case.seed)
            return True
        memory = [hunk.content for hunk in case.image.hunks]
        self.assertEqual([hunk.base for hunk in case.image.hunks], case.bases, case.seed)
        self.assertEqual(model.report_of(case.bases, memory).encode(), printed, case.seed)
        if case.plain:
            self.assertEqual(memory, model.memory_of(case.units, case.bases), case.seed)
        self.assertEqual(amihunk.load(Pieces(case.load_file, case.most), lambda _: case.bases), case.image, case.seed)
        self.assertEqual(loaded(Pieces(case.load_file, case.most), case.bases), case.image, case.seed)
        return False
