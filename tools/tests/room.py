"""What the tests of the scripts share: a small repository in a temporary folder."""
import contextlib
import fcntl
import importlib.machinery
import importlib.util
import os
import shutil
import tempfile
import unittest
from pathlib import Path

TOP = Path(__file__).resolve().parents[2]
TOOLS = TOP / "tools"


def load(name):
    """A script of tools/ as a module."""
    loader = importlib.machinery.SourceFileLoader(name, str(TOOLS / name))
    module = importlib.util.module_from_spec(importlib.util.spec_from_loader(name, loader))
    loader.exec_module(module)
    return module


class Room(unittest.TestCase):
    def setUp(self):
        room = tempfile.TemporaryDirectory()
        self.addCleanup(room.cleanup)
        self.root = Path(room.name)

    def write(self, name, text):
        path = self.root / name
        path.parent.mkdir(parents=True, exist_ok=True)
        path.write_text(text, "utf-8")

    def script(self, name, text):
        self.write(name, text)
        (self.root / name).chmod(0o755)

    def copy(self, *names):
        """Files of the project's own repository, as they are."""
        for name in names:
            (self.root / name).parent.mkdir(parents=True, exist_ok=True)
            shutil.copy(TOP / name, self.root / name)

    def only(self, *commands):
        """A PATH that has these commands of the machine's and no other."""
        folder = self.root / "only"
        folder.mkdir(exist_ok=True)
        for command in commands:
            (folder / command).symlink_to(shutil.which(command))
        return str(folder)

    def no_toolchain(self):
        """The kit at its usual place is not seen."""
        self.script("tools/find-rt", (TOP / "tools/find-rt").read_text("utf-8").replace("/opt/rattle", f"{self.root}/none"))

    @contextlib.contextmanager
    def other_build(self):
        """Another build goes on in the tree meanwhile."""
        tree = os.open(self.root / "crates", os.O_RDONLY)
        try:
            fcntl.flock(tree, fcntl.LOCK_EX)
            yield
        finally:
            os.close(tree)
