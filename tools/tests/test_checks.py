"""Tests of tools/checks: what it runs, and at once; in which order it shows what they say, and where it stops."""
import os
import subprocess
import unittest

from room import Room

PROCESSORS = len(os.sched_getaffinity(0))


class Checks(Room):
    def setUp(self):
        super().setUp()
        self.copy("tools/checks")

    def check(self, name, line):
        self.script(f"some/{name}", f"#!/bin/sh\n{line}\n")

    def run_it(self):
        """The status, and the lines written."""
        done = subprocess.run(["tools/checks", "some"], cwd=self.root, stdout=subprocess.PIPE, stderr=subprocess.STDOUT,
                              encoding="utf-8", timeout=30, check=False)
        return done.returncode, done.stdout.splitlines()

    def test_what_they_say_stands_under_their_names_in_order(self):
        self.check("10-slow", "sleep 0.3; echo slow; echo behind it >&2")
        self.check("20-fast", "echo fast")
        self.assertEqual(self.run_it(), (0, ["== some/10-slow", "slow", "behind it", "== some/20-fast", "fast"]))

    @unittest.skipIf(PROCESSORS < 2, "one processor runs one check at a time")
    def test_two_run_at_once(self):
        """Each ends when the other has begun."""
        for own, other in (("10-one", "20-two"), ("20-two", "10-one")):
            self.check(own, f"touch {own}; until [ -e {other} ]; do sleep 0.05; done")
        self.assertEqual(self.run_it()[0], 0)

    def test_behind_a_failure_none_is_begun(self):
        """It fails when as many others as there are processors are under way, which fail too."""
        others = [f"{20 + other}-under-way" for other in range(1, PROCESSORS)]
        self.check("10-bad", "".join(f"until [ -e {other} ]; do sleep 0.05; done; " for other in others) + "echo why; exit 3")
        for other in others:
            self.check(other, f"touch {other}; sleep 0.5; exit 4")
        self.check("90-not-begun", "touch begun")
        told = [f"some/{name}" for name in ("10-bad", *others)]
        said = ["== some/10-bad", "why", *(f"== {name}" for name in told[1:]), f"tools/checks: failed: {' '.join(told)}"]
        self.assertEqual(self.run_it(), (1, said))
        self.assertFalse((self.root / "begun").exists())

    def test_one_that_lost_its_execute_bit_is_told(self):
        self.check("10-good", "echo good")
        self.check("20-lost", "echo lost")
        (self.root / "some/20-lost").chmod(0o644)
        self.assertEqual(self.run_it(), (1, ["tools/checks: some/20-lost is not executable"]))

    def test_they_read_nothing(self):
        self.check("10-reads", "cat; echo read")
        self.assertEqual(self.run_it(), (0, ["== some/10-reads", "read"]))


if __name__ == "__main__":
    unittest.main()
