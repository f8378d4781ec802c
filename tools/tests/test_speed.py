"""Tests of tools/speed, with stand-ins for the toolchain, the emulator and the programs: each is run on the records, and a fault stops it."""
import io
import os
import platform
import runpy
import shutil
import subprocess
import sys
import unittest
from unittest import mock

from room import TOOLS, Room


# Works for a while, so that its time can be told, and leaves a mark of what it was asked for.
SECOND = """\
#include <stdio.h>
#include <stdlib.h>
int main(int n, char **words) {
    FILE *marks = fopen(getenv("MARKS"), "a");
    for (volatile long i = 0; i < 3000000; i++) { }
    for (int i = 1; i < n; i++) fprintf(marks, "%s%c", words[i], i + 1 < n ? ' ' : '\\n');
    return fclose(marks);
}
"""
# As the proved programs, it has no status of its own, and says what failed.
PROGRAM = """\
#!/bin/sh
# costs {1};
i=0; while [ $i -lt 3000 ]; do i=$((i + 1)); done
echo proved {0} "$@" >>"$MARKS"
[ ! -s /dev/stdin ] || echo "$(od -An -tx1 -N4 -j32) of $(wc -c </dev/stdin)" >>"$MARKS"
[ -z "$FAULT" ] || echo "$FAULT" >&2
"""
# A library that gives the right words, works for a while, and says what it costs.
LIBRARY = """\
#include "hailstoat.h"
const char hailstoat_note[] = "costs COST;";
void hailstoat_power_up(struct hailstoat_bench *bench) { bench->none = 0; }
uint64_t hailstoat_event(struct hailstoat_bench *bench, uint32_t kind, uint32_t seat, uint32_t number, uint8_t value) {
    for (volatile int i = 0; i < 3 * COST; i++) { }
    switch (kind) {
    case 2: return 0x01000000;
    case 8: return 0x42;
    case 0: return number == 5 ? LSR : number == 2 ? 4 : 0x47;
    default: return bench->none & seat & value;
    }
}
"""
HEADER = """\
#include <stdint.h>
struct hailstoat_bench { uint8_t none; };
void hailstoat_power_up(struct hailstoat_bench *bench);
uint64_t hailstoat_event(struct hailstoat_bench *bench, uint32_t kind, uint32_t seat, uint32_t number, uint8_t value);
"""
# It builds in the folder of a crate, from what stands at the top.
RT = """\
#!/bin/sh
[ "$1" != version ] || { echo kit 9; exit; }
crate=${PWD##*/}
cd ../..
echo "rt $* in $(basename "$PWD")/$crate" >>"$MARKS"
mkdir -p "crates/$crate/out"
case $1 in
run) cp "$crate" "crates/$crate/out/" ;;
lib) gcc -O0 -Iinclude -c library.c -o library.o && ar rc "crates/$crate/out/lib$crate.a" library.o ;;
esac
"""
# What counts instructions: so many for each event as the program says, and some for its start. The events are told by a
# number of rounds, or are on standard input behind the eight records that set the bench up.
COUNT = """\
for word; do [ ! -f "$word" ] || program=$word; rounds=$word; done
case $rounds in *[!0-9]*) rounds=$((($(wc -c) - 32) / 24)) ;; esac
cost=$(grep -ao 'costs [0-9]*;' "$program" | tr -cd '0-9')
count=$((1000 + 6 * rounds * cost))
"""
VALGRIND = f"#!/bin/sh\n{COUNT}echo \"==1== Collected : $count\" >&2\n"
EMULATOR = f"""\
#!/bin/sh
case $1 in
-singlestep) {COUNT}yes 'Trace 0: 0x0' | head -n $count >&2; exit ;;
*ld-linux*) shift 3 ;;
esac
exec "$@"
"""


class Speed(Room):
    def setUp(self):
        super().setUp()
        self.script("bin/rt", RT)
        self.write("crates.txt", "bench_main:\ntrials:\nembed_c staticlib:\n")
        for source in ("bench_main/src/main.rt", "trials/src/main.rt", "embed_c/src/lib.rt"):
            self.write(f"crates/{source}", "")
        self.script("bin/valgrind", VALGRIND)
        self.script("bin/x86_64-linux-gnu-gcc", '#!/bin/sh\nexec gcc "$@"\n')
        self.script(f"kit/on/{platform.machine()}/toolchain/bin/qemu-x86_64", EMULATOR)
        self.write("second/main.c", SECOND)
        self.addCleanup(shutil.rmtree, self.root.with_name(f"{self.root.name}-before"), ignore_errors=True)
        for name in ("speed", "machine.py", "find-rt", "events.c", "shell.sh", "build.sh", "program", "library"):
            self.script(f"tools/{name}", (TOOLS / name).read_text("utf-8"))
        for name in ("bench_main", "trials"):
            self.script(name, PROGRAM.format("here", 60))
        self.write("include/hailstoat.h", HEADER)
        self.library(40)

    def library(self, cost, lsr="0x60"):
        self.write("library.c", LIBRARY.replace("COST", str(cost)).replace("LSR", lsr))

    def git(self, *words):
        subprocess.run(["git", "-c", "user.name=a", "-c", "user.email=a@b", *words], cwd=self.root, check=True)

    def run_it(self, *words, **settings):
        marks = self.root / "marks"
        marks.write_text("")
        setting = {**os.environ, "FAULT": "", "MARKS": str(marks), "RATTLE_HOME": str(self.root / "kit"),
                   "PATH": f"{self.root / 'bin'}:{os.environ['PATH']}", **settings}
        done = subprocess.run([self.root / "tools/speed", *words], env=setting, stdout=subprocess.PIPE,
                              stderr=subprocess.PIPE, encoding="utf-8")
        return done.returncode, done.stdout, marks.read_text().splitlines()

    def rows(self, said):
        """The cells of each row with figures, by its name."""
        found = (line.strip("| ").split(" | ") for line in said.splitlines() if line.startswith("| ") and not line.startswith("| |"))
        return {name: [float(cell) for cell in cells] for name, *cells in found}

    def test_both_programs_both_ways(self):
        status, said, asked = self.run_it("3", "6000")
        self.assertEqual(status, 0)
        rows = self.rows(said)
        self.assertEqual([*rows], ["with the listing", "with the listing, the mix", "without it (trials)",
                                   "the mix, ns", "the mix, instructions", "a read of LSR, ns", "a read of LSR, instructions",
                                   "with the listing, the mix, instructions"])
        for ours, theirs, ratio in [*rows.values()][:3]:
            self.assertAlmostEqual(ours / theirs, ratio, delta=0.05 * ratio + 0.01)
        for way in ("generate 3 6000", "proved here", "listing", "proved here 3 6000", "trials 3 6000"):
            self.assertIn(way, asked)
        # eight records that set the bench up, then the mix, which begins with an arrival
        self.assertEqual(asked.count(" 02 02 00 47 of 24032"), 9)

    def test_events_are_counted_and_timed(self):
        # so many that their time stands out from what a program's start takes, on a busy machine too
        rows = self.rows(self.run_it("3", "300000")[1])
        for way in ("the mix", "a read of LSR"):
            self.assertEqual(rows[f"{way}, instructions"], [40.0])
            # an event of this library is a loop of 120 steps, of which each takes a cycle at least
            self.assertGreater(rows[f"{way}, ns"][0], 10)
        self.assertEqual(rows["with the listing, the mix, instructions"], [60.0])

    def test_beside_an_earlier_commit(self):
        self.library(400)
        # each library has its own header
        self.write("include/hailstoat.h", "#define hailstoat_event hailstoat_earlier\n" + HEADER)
        for name in ("bench_main", "trials"):
            self.script(name, PROGRAM.format("before", 240))
        self.git("init", "--quiet")
        self.git("add", "--all")
        self.git("commit", "--quiet", "--message", "before")
        self.library(40)
        self.write("include/hailstoat.h", HEADER)
        for name in ("bench_main", "trials"):
            self.script(name, PROGRAM.format("here", 60))
        commit = subprocess.run(["git", "rev-parse", "HEAD"], cwd=self.root, stdout=subprocess.PIPE, encoding="utf-8").stdout.strip()
        status, said, asked = self.run_it("--before", "HEAD", "3", "60000")
        self.assertEqual(status, 0)
        self.assertIn("| | HEAD | bench | times | second program | ratio |\n", said)
        self.assertIn("| | HEAD | bench | times |\n", said)
        rows = self.rows(said)
        self.assertEqual(rows["the mix, instructions"], [400.0, 40.0, 10.0])
        self.assertEqual(rows["a read of LSR, instructions"], [400.0, 40.0, 10.0])
        self.assertEqual(rows["with the listing, the mix, instructions"], [240.0, 60.0, 4.0])
        self.assertGreater(rows["the mix, ns"][2], 3)
        for before, ours, times, theirs, ratio in [*rows.values()][:3]:
            self.assertAlmostEqual(ours / before, times, delta=0.2 * times + 0.05)
            self.assertAlmostEqual(ours / theirs, ratio, delta=0.2 * ratio + 0.05)
        self.assertEqual((asked.count("proved before"), asked.count("proved here")), (18, 18))
        self.assertIn(f"rt lib in {commit}/embed_c", asked)
        # another time it is not built again, and what is here only where it has changed
        self.write("crates/embed_c/src/lib.rt", "// changed")
        asked = self.run_it("--before", "HEAD", "3", "6000")[2]
        self.assertNotIn(f"rt lib in {commit}/embed_c", asked)
        self.assertIn(f"rt lib in {self.root.name}/embed_c", asked)

    def test_a_commit_that_is_not_there(self):
        self.git("init", "--quiet")
        self.assertEqual(self.run_it("--before", "nowhere", "3", "6000")[:2], (2, ""))

    def test_a_program_that_fails_gives_no_figure(self):
        status, said, _ = self.run_it("3", "1000", FAULT="standard input could not be read")
        self.assertEqual(status, 2)
        self.assertNotIn("with the listing", said)

    def test_a_library_that_errs_gives_no_figure(self):
        self.library(40, lsr="0x61")
        status, said, _ = self.run_it("3", "1000")
        self.assertEqual(status, 2)
        self.assertNotIn("the mix, ns", said)

    def test_wrong_words(self):
        for words in (["x"], ["3", "0"], ["3", "4", "5"], ["4294967296"], ["--before"], ["--before", "HEAD", "x"]):
            self.assertEqual(self.run_it(*words)[0], 2)


class Counting(Room):
    """Both ways to count instructions, whichever processor this is."""

    def setUp(self):
        super().setUp()
        self.script("bin/valgrind", VALGRIND)
        self.script("emulator", EMULATOR)
        self.write("program", "costs 7;")
        # the script has no .py to its name and cannot be imported
        with mock.patch.object(sys, "path", [str(TOOLS), *sys.path]):
            self.speed = runpy.run_path(str(TOOLS / "speed"))["instructions"].__globals__

    def on(self, native, **names):
        return mock.patch.dict(self.speed, NATIVE=native, **names)

    def test_by_valgrind(self):
        with self.on(True), mock.patch.dict(os.environ, PATH=f"{self.root / 'bin'}:{os.environ['PATH']}"):
            self.assertEqual(self.speed["instructions"]([self.root / "program"], "mix"), 7.0)

    def test_by_the_emulator(self):
        with self.on(False):
            self.assertEqual(self.speed["instructions"]([self.root / "emulator", self.root / "program"], "mix"), 7.0)

    def test_nothing_counted_or_a_fault_is_no_figure(self):
        for text in ("#!/bin/sh\necho 0 >&2\n", "#!/bin/sh\necho Trace 0 >&2\nexit 1\n"):
            self.script("emulator", text)
            with self.on(False), mock.patch.object(sys, "stderr", io.StringIO()), self.assertRaises(SystemExit):
                self.speed["instructions"]([self.root / "emulator", self.root / "program"], "mix")

    def test_without_valgrind_that_is_told(self):
        with self.on(True, nanoseconds=lambda *_: [1.0], shutil=mock.Mock(which=lambda _: None)):
            rows = [*self.speed["events_rows"]([["program"]], 6)]
        self.assertEqual(rows[1], "| the mix, instructions | not counted: there is no valgrind |")


if __name__ == "__main__":
    unittest.main()
