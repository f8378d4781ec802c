"""What the checks of saved benches share: a room for files, and the program played on records with options."""
import atexit
import functools
import shutil
import subprocess
import tempfile
import unittest
from pathlib import Path

import machine
from player import TOP, run

LENGTH = 704
POWER_UP = b"BEN\2\0" + bytes(LENGTH - 5)


@functools.cache
def second():
    """The command that runs the second program, which is built once for a check."""
    out = tempfile.mkdtemp()
    atexit.register(shutil.rmtree, out)
    return machine.second(out)


@functools.cache
def stream():
    """Records of the second program's making, more than two blocks of them."""
    return subprocess.run([*second(), "generate", "23", "40000"], stdout=subprocess.PIPE, check=True).stdout


def records(count):
    return stream()[:4 * count]


def alone():
    """The program by itself, without what `bench` does around it."""
    return [*machine.run_by(machine.find_rt()), TOP / "target/bin/bench_main"]


class Saver(unittest.TestCase):
    def setUp(self):
        room = tempfile.TemporaryDirectory()
        self.addCleanup(room.cleanup)
        self.room = Path(room.name)
        self.count = 0

    def file(self, content=None):
        """A name in the room that nothing has yet, or a file of that content."""
        self.count += 1
        path = self.room / f"saved-{self.count}.ben"
        if content is not None:
            path.write_bytes(content)
        return path

    def play(self, made, *words, status=0, said=b"", **how):
        """The listing of records from standard input."""
        found = run(*words, stdin=None, input=made, **how)
        self.assertEqual((found[0], found[2]), (status, said), words)
        return found[1]

    def saved(self, made, when="end"):
        """The image that a run of these records leaves."""
        name = self.file()
        self.play(made, "--save-at", str(when), name)
        return name.read_bytes()

    def left(self, *files):
        """These files and no other are in the room."""
        self.assertEqual(sorted(path.name for path in self.room.iterdir()), sorted(path.name for path in files))
