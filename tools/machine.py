"""What the scripts that run the programs share: the toolchain, and how its programs run on this machine."""
import os
import platform
import subprocess
import sys
from pathlib import Path

ROOT = Path(__file__).resolve().parent.parent


def stop(words):
    print(f"{Path(sys.argv[0]).name}: {words}", file=sys.stderr)
    sys.exit(2)


def find_rt():
    found = subprocess.run([ROOT / "tools/find-rt"], stdout=subprocess.PIPE, encoding="utf-8")
    if found.returncode:
        sys.exit(2)
    return Path(found.stdout.strip())


def build(words, root=ROOT):
    """Has a repository's own script prove and build what it makes, where that is not built of its sources."""
    script = root / "tools" / words[0]
    if not script.exists():
        stop(f"{root} has no {script.relative_to(root)}")
    if subprocess.run([script, *words[1:]], stdin=subprocess.DEVNULL, stdout=subprocess.DEVNULL).returncode:
        stop(f"tools/{' '.join(words)} failed")


def proved(name, root=ROOT):
    """The command that runs a program of a repository, which is proved and built first where it is not."""
    build(["program", name], root)
    return run_by(find_rt()) + [root / "target/bin" / name]


def run_by(rt):
    """What a program is run by, as find_runner of tools/shell.sh has it: nothing on x86-64; elsewhere the kit's emulator, and a
    loader behind it, which a program that is linked statically does not need."""
    if platform.machine() == "x86_64":
        return []
    kit = Path(os.environ.get("RATTLE_HOME", rt.resolve().parent.parent))
    toolchain = kit / "on" / platform.machine() / "toolchain"
    emulator = toolchain / "bin/qemu-x86_64"
    if not os.access(emulator, os.X_OK):
        stop(f"the toolchain has no emulator for this machine at {emulator.parent}")
    return [emulator, toolchain / "lib/ld-linux-x86-64.so.2", "--library-path", toolchain / "lib"]


def second(out):
    """The command that runs the second program, built in a folder."""
    if subprocess.run([ROOT / "second/build", out]).returncode:
        stop("second/build failed")
    return [Path(out) / "second"]
