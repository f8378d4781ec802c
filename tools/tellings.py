"""What the checks share that have the second program tell something of lessons (docs/TELLING.md)."""
import subprocess
import sys
import tempfile
from pathlib import Path

TOP = Path(__file__).resolve().parent.parent
LIMIT = 60


def records(lesson):
    """The bytes of a lesson. A line ends at a line feed alone, and so does its comment."""
    lines = lesson.read_bytes().split(b"\n")
    return bytes.fromhex(b"".join(line.split(b"#")[0] for line in lines).decode("ascii"))


def tell(program, *words, given=b"", status=0):
    """What the program writes; where it ends with another status, the words that say so."""
    done = subprocess.run([program, *words], input=given, stdout=subprocess.PIPE, stderr=subprocess.PIPE, timeout=LIMIT,
                          check=False)
    if done.returncode != status:
        return b"status %d: %s" % (done.returncode, done.stderr)
    return done.stdout


def differ(what, program, expected, told):
    """A sentence for the first line in which the two are not the same."""
    expected, told = expected.split(b"\n"), told.split(b"\n")
    for at in range(max(len(expected), len(told))):
        if expected[at:at + 1] != told[at:at + 1]:
            yield f"{what}, line {at + 1}: {expected[at:at + 1]}, {program.name} has {told[at:at + 1]}"
            return


def without_comments(page):
    return b"".join(line for line in page.splitlines(keepends=True) if not line.startswith(b" " * 12 + b"#"))


def builds(out):
    """Both builds of the second program."""
    subprocess.run([TOP / "second/build", out], check=True)
    return Path(out) / "second", Path(out) / "second-san"


def main(check, faults):
    """The status of a check that has these faults, which are looked for in a folder that goes away; each is told."""
    with tempfile.TemporaryDirectory() as out:
        found = list(faults(Path(out)))
    for fault in found:
        print(f"tools/before/{Path(check).name}: {fault}", file=sys.stderr)
    return 1 if found else 0
