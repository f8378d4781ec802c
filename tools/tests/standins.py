"""What the tests of bench and tools/install share: a small repository with stand-ins for the toolchain and for the program."""
import os
import platform
import select
import shutil
import signal
import subprocess
import time

from room import Room

LIMIT = 30
LESSON = "07 00 00 13  # ICW1\n"

# What it is given and, without a lesson, what it reads; or an end by a signal.
PROGRAM = """\
#!/bin/sh
[ -z "$SIGNAL" ] || kill -"$SIGNAL" $$
echo "given $*"
[ -z "$STACK" ] || ulimit -S -s
case $* in *lesson*) ;; *) cat ;; esac
"""
# As the toolchain it works in processes that no interrupt ends, and has a temporary folder for as long. It goes on when
# the file of the name in GATE is there.
RT = """\
#!/bin/sh
[ "$1" = version ] && { echo kit 9; exit; }
crate=${PWD##*/}
cd ../..
echo "$1 $crate" >>asked
room=$(mktemp -d)
echo "library base: modules loaded=9 checked=0"
echo "fn lamp::on: proved"
echo "crate lamp: modules loaded=0 checked=${CHECKED:-9}"
echo "logic=proved functions=1"
(while [ -n "$GATE" ] && [ ! -e "$GATE" ]; do sleep 0.1; done) & echo $! >worker
wait
[ -z "$UNPROVED" ] || { echo "fn $crate::on: no proof"; echo "logic=not-proved"; exit 1; }
mkdir -p "crates/$crate/out"
case $1 in
run) cp program "crates/$crate/out/$crate" ;;
lib) echo built >"crates/$crate/out/lib$crate.a" ;;
esac
echo "crate $crate: modules loaded=0 checked=9"
echo "logic=proved functions=3"
rm -r "$room"
"""


def end(running):
    try:
        os.killpg(running.pid, signal.SIGKILL)
    except ProcessLookupError:
        pass
    running.communicate(timeout=LIMIT)


def alive(process):
    """A process that has ended may wait for its parent to hear of it."""
    try:
        with open(f"/proc/{process}/stat", encoding="utf-8") as stat:
            return stat.read().rsplit(")", 1)[1].split()[0] != "Z"
    except FileNotFoundError:
        return False


class Start(Room):
    command = "bench"

    def setUp(self):
        super().setUp()
        self.root.chmod(0o755)
        self.copy("bench", "tools/shell.sh", "tools/build.sh", "tools/find-rt", "VERSION", "docs/kit")
        self.script("bin/rt", RT)
        self.script(f"on/{platform.machine()}/toolchain/bin/qemu-x86_64", '#!/bin/sh\nshift 3\nexec "$@"\n')
        self.write("crates.txt", "# a comment: none\nbase:\nlamp: base io\nbell: lamp\nbench_main: lamp io\nsheets_main: io\nembed_c staticlib: lamp\n")
        for room in ("lamp", "bench_main", "sheets_main", "embed_c"):
            self.write(f"crates/{room}/src/lib.rt", "")
        self.script("program", PROGRAM)
        self.write("lesson.hex", LESSON)
        (self.root / "temporary").mkdir()
        self.setting = {**os.environ, "PATH": f"{self.root / 'bin'}:{os.environ['PATH']}", "TMPDIR": str(self.root / "temporary")}
        self.setting.pop("RATTLE_HOME", None)

    def built(self, program="bench_main"):
        (self.root / "target/bin").mkdir(parents=True, exist_ok=True)
        shutil.copy(self.root / "program", self.root / "target/bin" / program)

    def started(self, *words, before=(), settings=None, **how):
        """What still runs when the test ends is ended then, with all that it has started."""
        running = subprocess.Popen([*before, self.root / self.command, *words], env={**self.setting, **(settings or {})},
                                   start_new_session=True, **{"cwd": self.root, "stdin": subprocess.DEVNULL,
                                                              "stdout": subprocess.PIPE, "stderr": subprocess.PIPE, **how})
        self.addCleanup(end, running)
        return running

    def run_it(self, *words, given=None, **how):
        """The status, and what is said on standard output and on standard error."""
        running = self.started(*words, **({} if given is None else {"stdin": subprocess.PIPE}), **how)
        said = running.communicate(given and given.encode(), LIMIT)
        return running.returncode, *(text.decode("latin-1") for text in said)

    def change(self, text):
        """A source is written after the program was built."""
        time.sleep(0.05)
        self.write("crates/lamp/src/lib.rt", text)

    def asked(self):
        """What was asked of the toolchain."""
        path = self.root / "asked"
        return path.read_text("utf-8").splitlines() if path.exists() else []

    def interrupted(self, number, *words):
        """What is started with these words is interrupted while it builds; all of it ends, and nothing temporary is left."""
        running = self.started(*words, settings={"GATE": "never"})
        self.until(lambda: (self.root / "worker").exists() and (self.root / "worker").read_text().endswith("\n"))
        worker = int((self.root / "worker").read_text())
        running.send_signal(number)
        self.assertEqual(running.communicate(timeout=LIMIT)[0], b"")
        self.assertEqual(running.returncode, 128 + number)
        self.assertEqual(os.listdir(self.root / "temporary"), [])
        self.until(lambda: not alive(worker))
        (self.root / "worker").unlink()

    def says(self, running, line):
        self.until(lambda: select.select([running.stderr], [], [], 0)[0])
        self.assertEqual(running.stderr.readline().decode("latin-1"), line)

    def until(self, true):
        end = time.monotonic() + LIMIT
        while not true():
            self.assertLess(time.monotonic(), end)
            time.sleep(0.05)
