"""Tests of bench: how it has the program proved and built, and where it need not."""
import os
import shutil
import signal
import subprocess
import unittest

from standins import LIMIT, PROGRAM, Start

WAITING = "bench: another build is going on in this tree; waiting for its end\n"
FIRST = ("bench: the program is proved and built first: 3 crates, the better part of an hour where none is proved yet, "
         "and 4 GB of memory\n")
PROGRESS = r"2 of 3: lamp, 0:\d\d; the last takes longest\n3 of 3: bench_main, 0:\d\d\n"


class Building(Start):
    def test_line_for_each_crate(self):
        status, listing, said = self.run_it("lesson.hex")
        self.assertEqual((status, listing), (0, "given lesson.hex\n"))
        self.assertRegex(said, f"^{FIRST}{PROGRESS}$")
        log = (self.root / "target/bench-build.log").read_text("utf-8").splitlines()
        self.assertEqual((len(log), log[1]), (6, "fn lamp::on: proved"))

    def test_silence_before_the_last_crate_is_told_where_the_others_stand(self):
        said = self.run_it("lesson.hex", settings={"CHECKED": "0"})[2]
        self.assertRegex(said, f"^{FIRST}{PROGRESS}$")

    def test_input_is_the_programs(self):
        status, listing, _ = self.run_it(given="abc")
        self.assertEqual((status, listing), (0, "given \nabc"))

    def test_built_once_and_again_after_a_change(self):
        for text, times in (("", 1), ("", 1), ("// changed", 2), ("// changed", 2), ("", 3)):
            self.change(text)
            self.assertEqual(self.run_it("lesson.hex")[0], 0)
            self.assertEqual(self.asked(), times * ["run bench_main"])

    def test_program_that_was_built_by_other_means_is_not_taken_for_the_recorded(self):
        self.run_it("lesson.hex")
        self.script("target/bin/bench_main", PROGRAM.replace("given", "other"))
        self.change("")
        self.assertEqual(self.run_it("lesson.hex")[1], "given lesson.hex\n")

    def test_failure_names_the_log_and_leaves_nothing_behind(self):
        status, listing, said = self.run_it("lesson.hex", settings={"UNPROVED": "1"})
        self.assertEqual((status, listing), (2, ""))
        self.assertEqual(said.splitlines()[-2:], ["logic=not-proved", "bench: the program could not be built; above are "
                                                  f"the last lines of {self.root}/target/bench-build.log"])
        self.assertEqual(os.listdir(self.root / "temporary"), [])

    def test_interruption_ends_all_and_leaves_nothing_behind(self):
        for number in (signal.SIGINT, signal.SIGTERM, signal.SIGHUP):
            self.interrupted(number, "lesson.hex")

    def test_what_changes_during_a_build_is_newer(self):
        running = self.started("lesson.hex", settings={"GATE": "gate"})
        self.until(lambda: (self.root / "worker").exists())
        self.change("// changed")
        self.write("gate", "")
        self.assertEqual(running.communicate(timeout=LIMIT)[0], b"given lesson.hex\n")
        self.run_it("lesson.hex")
        self.assertEqual(self.asked(), 2 * ["run bench_main"])

    def test_build_waits_where_target_is_removed(self):
        """As rt ci does under the lock."""
        self.built()
        self.change("// changed")
        with self.other_build():
            running = self.started("lesson.hex")
            self.says(running, WAITING)
            shutil.rmtree(self.root / "target")
            self.assertEqual(self.asked(), [])
        listing, said = running.communicate(timeout=LIMIT)
        self.assertEqual(listing, b"given lesson.hex\n")
        self.assertRegex(said.decode(), f"^{FIRST}{PROGRESS}$")

    def test_two_at_once_build_once(self):
        first = self.started("lesson.hex", settings={"GATE": "gate"})
        self.until(lambda: (self.root / "worker").exists())
        second = self.started("lesson.hex", settings={"GATE": "gate"})
        self.says(second, WAITING)
        self.write("gate", "")
        for running, said in ((first, FIRST.encode()), (second, b"")):
            listing, told = running.communicate(timeout=LIMIT)
            self.assertEqual((running.returncode, listing, told[:len(FIRST)]), (0, b"given lesson.hex\n", said))
        self.assertEqual(self.asked(), ["run bench_main"])

    def test_waiting_one_builds_where_the_other_was_interrupted(self):
        first = self.started("lesson.hex", settings={"GATE": "never"})
        self.until(lambda: (self.root / "worker").exists())
        second = self.started("lesson.hex")
        self.says(second, WAITING)
        first.send_signal(signal.SIGTERM)
        self.assertEqual(second.communicate(timeout=LIMIT)[0], b"given lesson.hex\n")
        first.communicate(timeout=LIMIT)
        self.assertEqual(self.asked(), 2 * ["run bench_main"])

    def test_running_program_keeps_nobody_from_building(self):
        running = self.started(stdin=subprocess.PIPE)
        self.assertEqual(running.stdout.readline(), b"given \n")
        self.change("// changed")
        self.assertRegex(self.run_it("lesson.hex")[2], f"^{FIRST}{PROGRESS}$")
        self.assertEqual(running.communicate(b"abc", LIMIT)[0], b"abc")


class ReadOnly(Start):
    """A tree that whoever runs it cannot write."""

    def setUp(self):
        super().setUp()
        self.user = ()
        if os.getuid() == 0:
            if not shutil.which("setpriv"):
                self.skipTest("root can write anything, and there is no setpriv")
            self.user = ("setpriv", "--reuid=65534", "--regid=65534", "--clear-groups")

    def open(self):
        subprocess.run(["chmod", "-R", "u+w", self.root], check=True)

    def shut(self):
        subprocess.run(["chmod", "-R", "a-w,a+rX", self.root], check=True)
        self.addCleanup(self.open)
        writing = subprocess.run([*self.user, "touch", self.root / "target"], stderr=subprocess.DEVNULL, check=False)
        self.assertNotEqual(writing.returncode, 0)

    def test_built_program_runs(self):
        self.built()
        self.shut()
        self.assertEqual(self.run_it("lesson.hex", before=self.user), (0, "given lesson.hex\n", ""))

    def test_built_program_for_sheets_runs(self):
        """The other need not be built."""
        self.built("sheets_main")
        self.shut()
        self.assertEqual(self.run_it("--settings", "0", given="9600", before=self.user), (0, "given --settings 0\n9600", ""))
        self.assertEqual(self.run_it("lesson.hex", before=self.user)[:2], (2, ""))

    def test_copied_tree_runs(self):
        """What is copied may be older or newer than the program."""
        self.run_it("lesson.hex")
        self.change("")
        self.shut()
        self.assertEqual(self.run_it("lesson.hex", before=self.user), (0, "given lesson.hex\n", ""))

    def test_program_that_is_not_built_of_these_sources_is_told(self):
        told = f"bench: the program is not built of these sources, and {self.root}/target, where it would be, cannot be written\n"
        self.shut()
        self.assertEqual(self.run_it("lesson.hex", before=self.user), (2, "", told))
        self.open()
        self.run_it("lesson.hex")
        self.change("// changed")
        self.shut()
        self.assertEqual(self.run_it("lesson.hex", before=self.user), (2, "", told))


if __name__ == "__main__":
    unittest.main()
