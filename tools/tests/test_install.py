"""Tests of tools/install, with a stand-in for the toolchain: what it puts where, when it builds, and what it refuses in one sentence."""
import os
import re
import signal
import subprocess
import unittest

from standins import LIMIT, Start

ASKED = "lib embed_c"
FIRST = "tools/install: the library is proved and built first: 3 crates, .*\n"
PROGRESS = r"2 of 3: lamp, 0:\d\d; the last takes longest\n3 of 3: embed_c, 0:\d\d\n"
WAITING = "tools/install: another build is going on in this tree; waiting for its end\n"


class Install(Start):
    command = "tools/install"

    def setUp(self):
        super().setUp()
        self.copy("tools/install")
        self.write("include/hailstoat.h", "header\n")
        self.write("VERSION", "3.2.1\n")
        self.elsewhere = self.root / "elsewhere"
        self.elsewhere.mkdir()

    def started(self, *words, **how):
        return super().started(*words, **{"cwd": self.elsewhere, **how})

    def installed(self, prefix):
        return {path.relative_to(prefix).as_posix(): path.read_text("utf-8") for path in prefix.rglob("*") if path.is_file()}

    def refused(self, said, *words, **how):
        """What it complains of; it leaves nothing."""
        status, told, complaint = self.run_it(*words, **how)
        self.assertEqual((status, told), (2, ""))
        self.assertRegex(complaint, rf"(?m)^{said}$")
        self.assertEqual([*self.elsewhere.iterdir()], [])
        self.assertEqual(os.listdir(self.root / "temporary"), [])
        return complaint

    def test_three_files(self):
        prefix = self.root / "there"
        status, told, said = self.run_it(str(prefix))
        self.assertEqual((status, told, self.asked()), (0, f"hailstoat 3.2.1 is installed under {prefix}\n", [ASKED]))
        self.assertRegex(said, f"^{FIRST}{PROGRESS}$")
        files = self.installed(prefix)
        self.assertEqual([*sorted(files)], ["include/hailstoat.h", "lib/libhailstoat.a", "lib/pkgconfig/hailstoat.pc"])
        self.assertEqual((files["include/hailstoat.h"], files["lib/libhailstoat.a"]), ("header\n", "built\n"))
        lines = files["lib/pkgconfig/hailstoat.pc"].splitlines()
        for line in (f"prefix={prefix}", "Version: 3.2.1", "Cflags: -I${includedir}", "Libs: -L${libdir} -lhailstoat"):
            self.assertIn(line, lines)

    def test_a_prefix_is_seen_from_the_caller(self):
        self.assertEqual(self.run_it("near/by")[0], 0)
        pc = self.installed(self.elsewhere / "near/by")["lib/pkgconfig/hailstoat.pc"]
        self.assertTrue(pc.startswith(f"prefix={self.elsewhere}/near/by\n"))

    def test_it_is_built_where_a_source_has_changed(self):
        for text, times in (("", 1), ("", 1), ("// changed", 2), ("// changed", 2)):
            self.change(text)
            self.assertEqual(self.run_it("a")[0], 0)
            self.assertEqual(self.asked(), times * [ASKED])

    def test_what_is_built_needs_no_toolchain(self):
        self.run_it("a")
        self.no_toolchain()
        (self.root / "bin/rt").unlink()
        self.assertEqual(self.run_it("b"), (0, f"hailstoat 3.2.1 is installed under {self.elsewhere}/b\n", ""))

    def test_no_toolchain(self):
        self.no_toolchain()
        (self.root / "bin/rt").unlink()
        path = self.only("bash", "dirname", "readlink", "find", "mkdir", "rmdir")
        self.assertEqual(self.refused("The Rattle toolchain is missing: .*", "a", settings={"PATH": path}).count("\n"), 1)

    def test_a_library_that_is_not_proved(self):
        complaint = self.refused("tools/install: the library could not be built; above are the last lines of "
                                 f"{re.escape(str(self.root))}/target/library-build.log", "a/b", settings={"UNPROVED": "1"})
        self.assertIn("\nlogic=not-proved\n", complaint)

    def test_a_bad_prefix_asks_nothing_of_rt(self):
        self.refused("tools/install: a pkg-config file cannot name a folder with a blank in its path: a b", "a b")
        self.write("file", "")
        for path in (self.root / "file", self.root / "file/below", self.elsewhere / "above" / (300 * "x")):
            self.refused(f"tools/install: the folders of {re.escape(str(path))} cannot be made", str(path))
        self.assertEqual(self.asked(), [])

    def test_an_interrupt_leaves_nothing(self):
        for number in (signal.SIGINT, signal.SIGTERM, signal.SIGHUP):
            self.interrupted(number, "near/by")
            self.assertEqual([*self.elsewhere.iterdir()], [])

    def test_an_interrupt_leaves_what_was_there(self):
        (self.elsewhere / "near/lib").mkdir(parents=True)
        self.interrupted(signal.SIGTERM, "near")
        self.assertEqual([*(self.elsewhere / "near").rglob("*")], [self.elsewhere / "near/lib"])

    def test_program_and_library_are_built_one_after_the_other(self):
        program = subprocess.Popen([self.root / "bench", "lesson.hex"], cwd=self.root, env={**self.setting, "GATE": "gate"},
                                   stdout=subprocess.PIPE, stderr=subprocess.DEVNULL)
        self.until(lambda: (self.root / "worker").exists())
        library = self.started("a")
        self.says(library, WAITING)
        self.assertEqual(self.asked(), ["run bench_main"])
        self.write("gate", "")
        self.assertEqual(program.communicate(timeout=LIMIT)[0], b"given lesson.hex\n")
        library.communicate(timeout=LIMIT)
        self.assertEqual((library.returncode, self.asked()), (0, ["run bench_main", ASKED]))

    def test_wrong_words(self):
        for words in ([], [""], ["--help"], ["a", "b"]):
            self.assertEqual(self.refused("tools/install: it is used with one word, .*", *words).count("\n"), 1)


if __name__ == "__main__":
    unittest.main()
