"""Tests of tools/test, with a stand-in for the toolchain: what it runs, in which order, and where it stops; and of its first check."""
import os
import re
import shutil
import subprocess
import unittest

from room import TOOLS, Room

VERDICT = "7 passed, 0 failed"
OK = "rt: ok; handles allowed: none; must-fail edits: 9 refused; every proof and must-fail edit was done in this run"
RT = f"""#!/bin/sh
case $1 in
version) echo kit 9 ;;
ci)
    [ $# -eq 1 ] || exit 9
    echo proving; $SEEN
    for name in bench_main sheets_main; do mkdir -p crates/$name/out; echo $name >crates/$name/out/$name; done
    [ -z "$UNPROVED" ] || {{ echo "6 passed, 1 failed"; exit 1; }}
    [ -n "$UNSAID" ] || echo "${{OK:-{OK}}}"
    echo "{VERDICT}" ;;
esac
"""


class Gate(Room):
    def setUp(self):
        super().setUp()
        self.script("bin/rt", RT)
        self.script("tools/before/10-good", "#!/bin/sh\necho good\n")
        self.script("second/build", '#!/bin/sh\necho building; echo built >>"$1/second"\n')
        self.script("tools/after/10-run", "#!/bin/sh\necho ran\n")
        self.script("tools/reading", '#!/bin/sh\necho "reading $*"\n')
        self.script("tools/archive", '#!/bin/sh\n[ -z "$UNBUILT" ] && echo archive >"$1"\n')
        self.write("crates.txt", "lamp:\nbench_main: lamp\nsheets_main: lamp\nlamp_c staticlib: lamp\n")
        for source in ("lamp/src/lib.rt", "bench_main/src/main.rt", "sheets_main/src/main.rt", "lamp_c/src/lib.rt"):
            self.write(f"crates/{source}", "")
        self.copy("tools/shell.sh", "tools/find-rt", "tools/checks")
        self.gate("")

    def gate(self, landed):
        """The test command, with these tickets landed."""
        text, lists = re.subn(r"^landed=\(.*\)$", f"landed=({landed})", (TOOLS / "test").read_text("utf-8"), flags=re.M)
        self.assertEqual(lists, 1)
        self.script("tools/test", text)

    def started(self, **settings):
        setting = {**os.environ, "HAILSTOAT_DOCUMENT_01": "nowhere", "HAILSTOAT_DOCUMENT_02": "nowhere",
                   "PATH": f"{self.root / 'bin'}:{os.environ['PATH']}", **settings}
        return subprocess.Popen([self.root / "tools/test"], cwd="/", env=setting,
                                stdout=subprocess.PIPE, stderr=subprocess.STDOUT, encoding="utf-8")

    def run_it(self, **settings):
        """The status, and the lines written."""
        running = self.started(**settings)
        said = running.communicate()[0]
        return running.returncode, said.splitlines()

    def stops(self, reason, who="tools/test", **settings):
        status, said = self.run_it(**settings)
        self.assertEqual((status, said[-1]), (1, f"{who}: {reason}"))
        self.assertNotIn(VERDICT, said)

    def test_verdict_is_the_last_line(self):
        status, said = self.run_it()
        self.assertEqual((status, said[-1]), (0, VERDICT))
        order = [said.index(line) for line in ("reading --check", "good", "proving", "ran", VERDICT)]
        self.assertEqual(order, sorted(order))

    def test_second_program_is_built_once_for_every_check(self):
        for name in ("tools/before/20-second", "tools/after/20-second"):
            self.script(name, '#!/bin/sh\ncat "$HAILSTOAT_SECOND/second"\n')
        _, said = self.run_it()
        self.assertEqual([said.count(line) for line in ("building", "built")], [1, 2])

    def test_second_program_that_cannot_be_built_stops_it(self):
        self.script("second/build", "#!/bin/sh\nexit 1\n")
        status, said = self.run_it()
        self.assertEqual(status, 1)
        self.assertRegex(said[-1], "^tools/test: failed: second/build ")
        self.assertNotIn("good", said)

    def test_what_is_skipped_is_told_right_before_the_verdict(self):
        self.script("tools/after/20-half", '#!/bin/sh\necho "the lamp" >>"$HAILSTOAT_SKIPPED"\n')
        _, said = self.run_it()
        self.assertTrue(said[-4].startswith("skipped: the quotations against document 01"))
        self.assertTrue(said[-3].startswith("skipped: the quotations against document 02"))
        self.assertEqual(said[-2:], ["skipped: the lamp", VERDICT])
        self.write("paper.md", "")
        _, said = self.run_it(HAILSTOAT_DOCUMENT_01="paper.md", HAILSTOAT_DOCUMENT_02="paper.md")
        self.assertEqual([line for line in said if line.startswith("skipped: ")], ["skipped: the lamp"])

    def read_with(self, **settings):
        """The words that tools/reading was given."""
        return next(line for line in self.run_it(**settings)[1] if line.startswith("reading "))

    def test_a_document_is_used_where_it_is_at_hand(self):
        self.write("paper.md", "")
        self.assertEqual(self.read_with(), "reading --check")
        self.assertEqual(self.read_with(HAILSTOAT_DOCUMENT_02="paper.md"), "reading --check --and paper.md")
        first = self.read_with(HAILSTOAT_DOCUMENT_01="paper.md")
        self.assertEqual(first, "reading --check --against paper.md --complete")
        self.assertEqual(self.read_with(HAILSTOAT_DOCUMENT_01="paper.md", HAILSTOAT_DOCUMENT_02="paper.md"), f"{first} --and paper.md")

    def test_tickets_that_have_landed_are_named(self):
        self.gate("1 2")
        self.assertEqual(self.read_with(), "reading --check --landed 1 2")

    def test_kits_that_differ_are_told_and_fail_nothing(self):
        self.write("docs/kit", "kit 9\n")
        self.assertFalse(any("differ" in line for line in self.run_it()[1]))
        self.write("docs/kit", "kit 8\n")
        status, said = self.run_it()
        self.assertEqual(status, 0)
        self.assertTrue(any("differ" in line for line in said))

    def test_what_it_was_proved_with_stands_beside_what_is_built(self):
        self.run_it()
        for name, content in (("bin/bench_main", "bench_main"), ("bin/sheets_main", "sheets_main"), ("staticlib/libembed.a", "archive")):
            self.assertEqual((self.root / f"target/{name}").read_text("utf-8"), f"{content}\n")
            self.assertEqual((self.root / f"target/{name}.made").read_text("utf-8").splitlines()[0], "kit 9")

    def test_what_rt_ci_has_said_is_there_for_the_checks(self):
        self.script("tools/after/20-said", '#!/bin/sh\ntail -n 2 "$HAILSTOAT_PROVED" | sed "s/^/heard: /"\n')
        said = self.run_it()[1]
        self.assertEqual([line for line in said if line.startswith("heard: ")], [f"heard: {OK}", f"heard: {VERDICT}"])

    def test_an_edit_that_is_bad_fails_it(self):
        for number in ("1", "12"):
            bad = OK.replace("9 refused", f"8 refused, 1 of them only by a limit, {number} bad")
            self.stops(f"a must-fail edit is bad: {bad}", OK=bad)
        for well in (OK.replace("9 refused", "9 refused, 0 bad"), OK.replace("9 refused", "9 refused, 2 of them only by a limit")):
            self.assertEqual(self.run_it(OK=well)[0], 0)

    def test_a_passing_run_must_say_so(self):
        self.stops("rt ci passed and has no line 'rt: ok'", UNSAID="1")
        self.stops("rt ci passed and has no line 'rt: ok'", OK="rt: okay")

    def test_what_changes_while_it_is_proved_is_newer_than_the_program(self):
        self.script("bin/change", "#!/bin/sh\nsleep 0.05\necho >crates/lamp/src/lib.rt\nsleep 0.05\n")
        self.assertEqual(self.run_it(SEEN="change")[0], 0)
        changed = (self.root / "crates/lamp/src/lib.rt").stat().st_mtime_ns
        for name in ("bin/bench_main", "bin/sheets_main", "staticlib/libembed.a"):
            self.assertGreater(changed, (self.root / "target" / name).stat().st_mtime_ns)

    def test_nobody_builds_while_it_is_proved(self):
        """And what is tried afterwards may build."""
        self.script("bin/turn", "#!/bin/sh\nflock -n crates echo free || echo taken\n")
        for name in ("tools/before/20-turn", "tools/after/20-turn"):
            self.script(name, "#!/bin/sh\nturn\n")
        status, said = self.run_it(SEEN="turn")
        self.assertEqual((status, [line for line in said if line in ("free", "taken")]), (0, ["free", "taken", "free"]))

    def test_it_waits_for_another_build(self):
        with self.other_build():
            running = self.started()
            self.addCleanup(running.wait)
            said = [running.stdout.readline()]
            while said[-1] and not said[-1].startswith("tools/test: "):
                said.append(running.stdout.readline())
            self.assertEqual(said[-1], "tools/test: another build is going on in this tree; waiting for its end\n")
            self.assertNotIn("proving\n", said)
        rest = running.communicate(timeout=30)[0].splitlines()
        self.assertEqual((rest[1], rest[-1]), ("proving", VERDICT))

    def test_what_is_missing_is_told_first_a_sentence_each(self):
        path = self.only("bash", "dirname", "readlink")
        lacking = [f"tools/test: {command} is missing. README.md says what the tests need." for command in ("gcc", "python3")]
        self.assertEqual(self.run_it(PATH=f"{path}:{self.root / 'bin'}"), (1, lacking))
        self.no_toolchain()
        status, said = self.run_it(PATH=path)
        self.assertEqual((status, said[1:]), (1, lacking))
        self.assertRegex(said[0], r"^The Rattle toolchain is missing: .* README\.md says where it belongs\.$")

    def test_each_failure_stops_it(self):
        self.assertEqual(self.run_it(UNBUILT="1")[0], 1)
        self.script("tools/after/05-bad", "#!/bin/sh\nexit 3\n")
        self.stops("failed: tools/after/05-bad", "tools/checks")
        self.script("tools/before/05-bad", "#!/bin/sh\nexit 3\n")
        self.stops("failed: tools/before/05-bad", "tools/checks")
        for name in ("lost", "lamp_"):
            self.write(f"crates/{name}/src/lib.rt", "")
            self.stops(f"crates.txt does not list crates/{name}")
            shutil.rmtree(self.root / "crates" / name)
        self.script("tools/after/10-run", "#!/bin/sh\necho ran\n")
        self.script("tools/reading", "#!/bin/sh\nexit 1\n")
        self.stops("failed: tools/reading --check")

    def test_what_is_not_proved_is_the_verdict_and_no_program_is_tried(self):
        status, said = self.run_it(UNPROVED="1")
        self.assertEqual((status, said[-1]), (1, "6 passed, 1 failed"))
        self.assertNotIn("ran", said)


class Scripts(Room):
    """tools/before/00-tools, which runs the tests of the scripts."""

    def run_it(self):
        done = subprocess.run([self.root / "tools/before/00-tools"], stdout=subprocess.PIPE, stderr=subprocess.STDOUT, check=False,
                              env={**os.environ, "HAILSTOAT_SKIPPED": str(self.root / "skipped")}, encoding="utf-8")
        return done.returncode, done.stdout

    def setUp(self):
        super().setUp()
        self.copy("tools/before/00-tools", "tools/shell.sh")

    def lamp(self, line):
        self.write("tools/tests/test_lamp.py", f"import unittest\nclass Lamp(unittest.TestCase):\n    def test_on(self):\n        {line}\n")

    def test_there_must_be_tests(self):
        self.write("tools/tests/lamp.py", "")
        status, said = self.run_it()
        self.assertEqual(status, 1)
        self.assertIn("Ran 0 tests", said)

    def test_they_must_pass(self):
        self.lamp("self.assertTrue(False)")
        self.assertEqual(self.run_it()[0], 1)
        self.lamp("self.assertTrue(True)")
        self.assertEqual(self.run_it()[0], 0)

    def test_what_is_left_out_is_told(self):
        self.lamp("self.skipTest('no lamp')")
        self.assertEqual(self.run_it()[0], 0)
        self.assertEqual((self.root / "skipped").read_text("utf-8"), "1 tests of the scripts, which this machine cannot run\n")


if __name__ == "__main__":
    unittest.main()
