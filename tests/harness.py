"""What the tests share: a program that is run in a folder of its own, and how what it does is compared."""
import os
import resource
import shutil
import stat
import subprocess

DONE, REFUSED, BAD_WORDS, DEVICE, NO_MEMORY = range(5)
TESTS = []


def test(function):
    TESTS.append(function)
    return function


class Program:
    """A build of the program, run in a folder of its own."""

    def __init__(self, path, folder):
        self.path, self.folder = os.path.abspath(path), folder

    def write(self, name, bytes_):
        with open(self.at(name), "wb") as file:
            file.write(bytes_)

    def read(self, name):
        with open(self.at(name), "rb") as file:
            return file.read()

    def at(self, name):
        return os.path.join(self.folder, name)

    def run(self, *words_, stdout=subprocess.PIPE, stderr=subprocess.PIPE, stdin=subprocess.DEVNULL, limit=None, before=None, input=None,
            environment=None):
        """Runs it as `amihunk` with these words, and returns its status and what it wrote. The process calls `before` first, and
        is then put under a limit of a resource. Its environment has these variables too."""
        def begin():
            if before:
                before()
            if limit:
                resource.setrlimit(limit[0], (limit[1], limit[1]))

        how = {"input": input} if input is not None else {"stdin": stdin}
        how |= {"executable": self.path, "cwd": self.folder, "preexec_fn": begin if before or limit else None, "timeout": 60}
        how |= {"env": os.environ | environment} if environment else {}
        ran = subprocess.run(["amihunk", *words_], stdout=stdout, stderr=stderr, **how)
        return ran.returncode, *((it or b"").decode("latin-1") for it in (ran.stdout, ran.stderr))

    def tree(self):
        """What is in its folder, and in the folders there: the bytes of each file, and where each link leads."""
        told = {}
        for folder, folders, files in os.walk(self.folder):
            for path in (os.path.join(folder, name) for name in folders + files):
                mode = os.lstat(path).st_mode
                if stat.S_ISREG(mode):
                    told[os.path.relpath(path, self.folder)] = self.read(path)
                else:
                    told[os.path.relpath(path, self.folder)] = "-> " + os.readlink(path) if stat.S_ISLNK(mode) else stat.filemode(mode)[0]
        return told

    def inside(self, name):
        """The program in a new folder of its folder."""
        os.mkdir(self.at(name))
        return Program(self.path, self.at(name))

    def for_all(self):
        """A copy of the program that every user may run, in a new folder that every user may read."""
        os.chmod(self.folder, 0o755)
        copy = self.inside("for all")
        program = shutil.copy(self.path, self.at("copy"))
        os.chmod(program, 0o755)
        return Program(program, copy.folder)

    def prints(self, out, *words_, **how):
        equals(self.run(*words_, **how), (DONE, out, ""), words_)

    def fails(self, status, line, *words_, **how):
        """It ends with the status and the line, and prints nothing else."""
        equals(self.run(*words_, **how), (status, "", f"amihunk: {line}\n"), words_)


def as_nobody():
    """Gives up what root may do, if it is root."""
    if os.geteuid() == 0:
        os.setgroups([])
        os.setgid(65534)
        os.setuid(65534)


def equals(told, wanted, of=""):
    assert told == wanted, f"{of}: told {told!r:.2000}, and wanted {wanted!r:.2000}"
