"""The prover, asked by the gate for what `rt ci` does not keep of its words, over the libraries that stand in crates/*/out.

`rt`'s own module rtlib has the words by which a crate is checked, so they are taken from there. What the prover has once said of the
same files, with the same kit, is kept on the machine and not asked again, as rt ci keeps what it passed.
"""
import contextlib
import functools
import hashlib
import importlib.machinery
import importlib.util
import os
import subprocess
import sys
import tempfile
from pathlib import Path

from machine import ROOT, find_rt, stop

# What a crate is checked by.
PARTS = ("src", "specs", "proofs")

ONE_JOB = ["--jobs", "1"]

# The statuses of a check that came to its end.
JUDGED = (0, 1)

KEPT = Path(os.environ.get("XDG_CACHE_HOME") or Path.home() / ".cache", "hailstoat/prover")


@functools.cache
def rtlib():
    """The module of the kit that the rt of this machine belongs to."""
    loader = importlib.machinery.SourceFileLoader("rtlib", str(find_rt().resolve().parent / "rtlib.py"))
    module = importlib.util.module_from_spec(importlib.util.spec_from_loader("rtlib", loader))
    sys.modules["rtlib"] = module
    sys.dont_write_bytecode = True
    loader.exec_module(module)
    module.Crate.stamp = once(module.Crate.stamp)
    return module


def once(stamp):
    """rtlib's stamp of a crate asks for those below once for each way that leads there. No source changes while a script runs."""
    found = {}

    def asked(one):
        if one.folder not in found:
            found[one.folder] = stamp(one)
        return found[one.folder]

    return asked


def crate(name, root=ROOT):
    return rtlib().Crate(str(root / "crates" / name), str(root), {})


def are_of_ci(root=ROOT):
    """Whether the libraries of the tree are those that rt ci left: any other command of rt leaves a stamp beside what it builds."""
    return not [*root.glob("crates/*/out/rlib/stamp")]


def make_ready(one, root=ROOT):
    """The libraries below a crate stand, all of rt ci or none of it: what stands over one of rt ci's does not go with another."""
    if are_of_ci(root) and all(Path(library.rlib).is_dir() for library in one.below()):
        return
    held = rtlib().lock(one.below())
    for library in one.below():
        if library.build_rlib(ONE_JOB, anew=False):
            stop(f"{library.name} is not proved")
    for each in held:
        os.close(each)


def run(verb, one, folder, *words):
    command = [rtlib().RATTLE, verb, *one.words(ONE_JOB, keeps=False), *words]
    done = subprocess.run(command, cwd=folder, stdin=subprocess.DEVNULL, stdout=subprocess.PIPE, stderr=subprocess.STDOUT, encoding="utf-8",
                          errors="replace")
    return done.returncode, done.stdout


@functools.cache
def kit():
    return subprocess.run([find_rt(), "version"], stdout=subprocess.PIPE, check=True).stdout


def sum_of(one, folder, words):
    """A sum of all that a check goes by: the kit, the crate as it stands with those below it, and its files in the folder."""
    said = hashlib.sha256(repr((kit(), one.name, one.stamp(), words)).encode())
    for part in PARTS:
        for path in sorted(Path(folder, part).rglob("*")):
            if path.is_file():
                said.update(repr((path.relative_to(folder).as_posix(), path.read_bytes())).encode())
    return said.hexdigest()


def keep(said, one, folder, *words):
    """Keeps what the prover has said to this check; written apart and then renamed, so that no other run meets half of it."""
    with contextlib.suppress(OSError):
        KEPT.mkdir(parents=True, exist_ok=True)
        with tempfile.NamedTemporaryFile("w", dir=KEPT, delete=False, encoding="utf-8") as half:
            half.write(said)
        os.replace(half.name, KEPT / sum_of(one, folder, words))


def check(one, folder, *words):
    """What the prover says of a crate whose files are in a folder."""
    with contextlib.suppress(OSError, UnicodeDecodeError):
        return (KEPT / sum_of(one, folder, words)).read_text("utf-8")
    status, said = run("check", one, folder, *words)
    # Libraries that rt's other commands left are built over kept work, on which no verdict of rt ci rests.
    said = said if are_of_ci(Path(one.folder).parents[1]) else said.replace(" incremental=trusted", "")
    if status in JUDGED:
        keep(said, one, folder, *words)
    return said


def build(one, file):
    """The status, and what is said, of a crate that is proved and then built into a file."""
    return run("build", one, one.folder, "--toolchain", f"{rtlib().KIT}/toolchain", "--backend", "llvm", "-o", file)
