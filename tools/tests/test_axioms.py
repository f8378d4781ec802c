"""Tests of tools/after/10-axioms: what is linked assumes what the page has, no more and no less."""
import os
import subprocess
import unittest

from room import TOOLS, Room

SCRIPT = TOOLS / "after/10-axioms"
PROVED = "logic=proved functions=2 sum=9 native=nat logic-built=trusted libraries-built=trusted statements=trusted\n"
PAGE = "| Program | Assumes |\n|---|---|\n| `lamp_main` | libc 2, os 1 |\n| `lamp_c` | none |\n"
ASSUMED = ("axioms libc: libc::read, libc::write (2 of the 50 declared)\naxioms os: os::c::arg (1 of the 10 declared)\n"
           "axioms std: none reached of the 2 declared\n")
NONE = "axioms libc: none reached of the 50 declared\n"
CI = """== lamp
{proved}rt: lamp proved
== lamp_main: its tests
axioms std: std::abort (1 of the 2 declared)
{proved}rt: lamp_main: its tests are proved
== lamp_main
rt: note: a line of rt
{main}rt: lamp_main proved
== lamp_c
{c}rt: lamp_c proved
rt: must-fail lamp/dark.edit: refused, as it must be
"""
# The prover, and rt's module, which knows the words by which it is asked. What it says stands beside the crate's sources.
RTLIB = """\
from pathlib import Path
KIT, RATTLE = "kit", "{root}/kit/rattle"
class Crate:
    def __init__(self, folder, root, known):
        self.folder, self.name, self.rlib = folder, Path(folder).name, folder + "/out/rlib"
    def below(self):
        return []
    def words(self, flags, keeps):
        return ["--crate-name", self.name, *flags]
    def stamp(self):
        return "".join(path.read_text() for path in sorted(Path(self.folder, "src").glob("*.rt")))
"""


class Axioms(Room):
    def setUp(self):
        super().setUp()
        self.runs = 0
        self.copy("tools/after/10-axioms", "tools/prover.py", "tools/machine.py", "tools/find-rt")
        self.write("kit/bin/rtlib.py", RTLIB.format(root=self.root))
        self.script("kit/bin/rt", "#!/bin/sh\n[ $1 = version ] && echo kit 9\n")
        self.script("kit/rattle", '#!/bin/sh\necho "$*" >>../../asked; cat said\n')
        self.write("crates.txt", "# rooms\nlamp:\nlamp_main: lamp\nlamp_c staticlib: lamp\n")
        self.write("crates/lamp/src/lib.rt", "")
        self.write("crates/lamp_main/src/main.rt", "")
        self.write("crates/lamp_c/src/lib.rt", "")
        self.write("docs/TRUST.md", PAGE)
        self.said()

    def said(self, main=ASSUMED + PROVED, c=NONE + PROVED, ci=CI):
        """What the prover says where it is asked, and what rt ci has said."""
        self.write("crates/lamp_main/said", main)
        self.write("crates/lamp_c/said", c)
        self.write("ci", ci.format(proved=PROVED, main=main, c=c))

    def run_it(self, cache=None, **settings):
        """What is kept is kept in a folder of its own, or in the one that is named."""
        self.runs += 1
        setting = {**os.environ, "PATH": f"{self.root / 'kit/bin'}:{os.environ['PATH']}", **settings,
                   "XDG_CACHE_HOME": str(self.root / (cache or f"cache-{self.runs}"))}
        done = subprocess.run([self.root / "tools/after/10-axioms"], stderr=subprocess.PIPE, encoding="utf-8", env=setting)
        return done.returncode, done.stderr

    def asked(self):
        path = self.root / "asked"
        return path.read_text("utf-8") if path.exists() else ""

    def fails(self, words):
        for settings in ({}, {"HAILSTOAT_PROVED": str(self.root / "ci")}):
            status, said = self.run_it(**settings)
            self.assertEqual(status, 1)
            self.assertIn(words, said)

    def test_as_the_page_has_it(self):
        self.assertEqual(self.run_it(), (0, ""))
        self.assertEqual(self.asked(), "check --crate-name lamp_main --jobs 1\ncheck --crate-name lamp_c --jobs 1\n")

    def test_what_rt_ci_has_said_is_not_asked_again(self):
        self.assertEqual(self.run_it(HAILSTOAT_PROVED=str(self.root / "ci")), (0, ""))
        self.assertEqual(self.asked(), "")

    def test_what_an_earlier_run_proved_is_asked(self):
        self.said(ci="== lamp_main\n{main}rt: lamp_c is kept: an earlier run on this machine proved the same\n")
        self.assertEqual(self.run_it(HAILSTOAT_PROVED=str(self.root / "ci")), (0, ""))
        self.assertEqual(self.asked(), "check --crate-name lamp_c --jobs 1\n")

    def test_what_was_said_once_is_not_asked_again(self):
        for settings in ({}, {"HAILSTOAT_PROVED": str(self.root / "ci")}):
            cache = f"kept-{len(settings)}"
            self.assertEqual(self.run_it(cache, **settings), (0, ""))
            self.write("asked", "")
            self.assertEqual((self.run_it(cache), self.asked()), ((0, ""), ""))
        self.write("crates/lamp_c/src/lib.rt", "// changed")
        self.assertEqual(self.run_it(cache), (0, ""))
        self.assertEqual(self.asked(), "check --crate-name lamp_c --jobs 1\n")

    def test_what_another_kit_said_is_asked_again(self):
        self.assertEqual(self.run_it("kept"), (0, ""))
        self.script("kit/bin/rt", "#!/bin/sh\n[ $1 = version ] && echo kit 10\n")
        self.write("asked", "")
        self.assertEqual(self.run_it("kept"), (0, ""))
        self.assertEqual(self.asked().count("\n"), 2)

    def test_a_prover_that_breaks_off_is_not_kept(self):
        self.script("kit/rattle", "#!/bin/sh\necho killed; exit 3\n")
        self.assertEqual(self.run_it("kept")[0], 1)
        self.script("kit/rattle", '#!/bin/sh\ncat said\n')
        self.assertEqual(self.run_it("kept"), (0, ""))

    def test_one_more(self):
        self.said(main=ASSUMED.replace("2 of the 50", "3 of the 50") + PROVED)
        self.fails("lamp_main assumes libc 3, os 1, and docs/TRUST.md has libc 2, os 1")

    def test_an_archive_that_assumes(self):
        self.said(c=ASSUMED + PROVED)
        self.fails("lamp_c assumes libc 2, os 1, and docs/TRUST.md has none")

    def test_another_part_taken_as_built(self):
        self.said(main=ASSUMED + PROVED.replace("\n", " incremental=trusted\n"))
        self.fails("lamp_main is proved with incremental=trusted")

    def test_a_crate_that_is_not_proved(self):
        self.said(main="logic=not-proved\n")
        self.fails("the prover does not say that lamp_main is proved")

    def test_a_row_for_no_crate(self):
        for name in ("torch", "lamp"):
            self.write("docs/TRUST.md", PAGE + f"| `{name}` | libc 1 |\n")
            self.fails(f"docs/TRUST.md has a row for {name}")

    def test_a_crate_without_a_row(self):
        self.write("docs/TRUST.md", PAGE.replace("| `lamp_c` | none |\n", ""))
        self.fails("lamp_c assumes none, and docs/TRUST.md has no row for it")


if __name__ == "__main__":
    unittest.main()
