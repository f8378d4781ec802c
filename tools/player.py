"""What the checks of lessons share: the program, played on texts that are put into files."""
import itertools
import os
import subprocess
import tempfile
import unittest
from concurrent.futures import ThreadPoolExecutor
from pathlib import Path

TOP = Path(__file__).resolve().parent.parent
BENCH = TOP / "bench"
LIMIT = 60

# A record, and the line that it prints where it has no fault.
RECORD = b"07000013"
LINE = b"0 0 000 0\n"

NO_DIGIT = "no digit here"
ONE_DIGIT = "one digit alone"


def build():
    """A first use builds the program, which no time limit of a test is meant for."""
    subprocess.run([BENCH], input=b"", check=True)


def run(*words, program=(BENCH,), **how):
    done = subprocess.run([*program, *words], stderr=subprocess.PIPE, timeout=LIMIT, check=False,
                          **{"stdout": subprocess.PIPE, "stdin": subprocess.DEVNULL, **how})
    return done.returncode, done.stdout, done.stderr


class Player(unittest.TestCase):
    """Texts are played side by side, since most of their time is the program's start; a test ends when all have passed."""

    def setUp(self):
        folder = tempfile.TemporaryDirectory()
        self.addCleanup(folder.cleanup)
        self.name = Path(folder.name) / "lesson.hex"
        self.names = (Path(folder.name) / f"lesson-{n}.hex" for n in itertools.count())
        self.pool = ThreadPoolExecutor(os.cpu_count())
        self.played = []
        self.addCleanup(self.all_played)

    def all_played(self):
        with self.pool:
            for played in self.played:
                played.result()

    def play(self, text, status, listing, said, options=()):
        """What it says is made from the name that the text is given."""
        name = next(self.names)
        name.write_bytes(text)
        expected = status, listing, said(name).encode()
        self.played.append(self.pool.submit(lambda: self.assertEqual(run(*options, name), expected, text)))

    def refused(self, text, line, column, words):
        self.play(text, 1, b"", lambda name: f"{name}:{line}:{column}: {words}; nothing was run\n")

    def beyond(self, text, limit):
        self.play(text, 1, b"", lambda name: f"{name}: a lesson has at most {limit}; nothing was run\n")

    def runs(self, text, listing, options=()):
        self.play(text, 0, listing, lambda name: "", options)
