"""Tests of tools/before/33-readers, with stand-ins for the second program and for the readers: what a reader has otherwise is found."""
import os
import subprocess
import sys
import unittest

from room import Room

DUMP = """\
$scope module bench $end
$var wire 1 o output $end
$var wire 1 l0 level0 $end
$upscope $end
$enddefinitions $end
#0
0o
1l0
#1
1o
#2
"""
CSV = "; Channels (2/2): output, level0\nMETA samplerate: 1000000\nlogic,logic\n0,1\n1,1\n"
# As fst2vcd writes it: other short names, and the first values in a block.
BACK = DUMP.replace("1 o ", "1 ! ").replace("1 l0 ", '1 " ').replace("0o\n1l0\n", '$dumpvars\n0!\n1"\n$end\n').replace("1o", "1!")
LEFT_OUT = ["the timelines by sigrok-cli, which this machine does not have",
            "the timelines by vcd2fst and fst2vcd, which this machine does not have"]


class Readers(Room):
    def setUp(self):
        super().setUp()
        self.copy("tools/before/33-readers", "tools/tellings.py", "tools/lessons.py")
        self.path = self.only("cp", "cat", "sh")
        self.script("second/build", f'#!/bin/sh\ncp "{self.root}/program" "$1/second"\n')
        self.prints("program", DUMP)
        for name in ("lessons/01-lamp.hex", "tests/telling.hex"):
            self.write(name, "01 03 07 2A # a lamp\r\n")

    def prints(self, name, text):
        self.write(f"{name}.text", text)
        self.script(name, f'#!/bin/sh\ncat "{self.root}/{name}.text"\n')

    def readers(self, csv, back):
        self.prints("only/sigrok-cli", csv)
        self.prints("only/vcd2fst", "")
        self.prints("only/fst2vcd", back)

    def run_it(self):
        """The status, what was told, and what was left out."""
        self.write("skipped", "")
        setting = {**os.environ, "PATH": self.path, "HAILSTOAT_SKIPPED": str(self.root / "skipped")}
        done = subprocess.run([sys.executable, "-B", self.root / "tools/before/33-readers"], env=setting, stdout=subprocess.DEVNULL,
                              stderr=subprocess.PIPE, encoding="utf-8")
        return done.returncode, done.stderr, (self.root / "skipped").read_text("utf-8").splitlines()

    def found(self, sentence):
        status, said, _ = self.run_it()
        self.assertEqual(status, 1)
        self.assertIn(f"tools/before/33-readers: 01-lamp.hex: {sentence}", said)
        self.assertIn(f"tools/before/33-readers: telling.hex: {sentence}", said)

    def test_readers_that_agree(self):
        self.readers(CSV, BACK)
        self.assertEqual(self.run_it(), (0, "", []))

    def test_readers_that_are_not_there(self):
        self.assertEqual(self.run_it(), (0, "", LEFT_OUT))
        self.prints("only/vcd2fst", "")
        self.assertEqual(self.run_it(), (0, "", LEFT_OUT))
        self.prints("only/fst2vcd", BACK)
        self.assertEqual(self.run_it(), (0, "", LEFT_OUT[:1]))

    def test_sigrok_differs(self):
        for csv, sentence in ((CSV.replace("1,1\n", ""), "sigrok-cli has 1 steps, and there are 2"),
                              (CSV.replace("1,1", "0,1"), "sigrok-cli has other values at 1"),
                              (CSV.replace("level0", "level"), "sigrok-cli has the variables ['output', 'level'], and not"),
                              ("", "sigrok-cli has 0 steps")):
            self.readers(csv, BACK)
            self.found(sentence)

    def test_gtkwave_differs(self):
        for back, sentence in ((BACK.replace("#2\n", ""), "has 1 steps, and there are 2"), (BACK.replace("1!\n", ""), "has other values at 1"),
                               (BACK.replace('1"\n', ""), "has other values at 0"), ("", "has the variables []")):
            self.readers(CSV, back)
            self.found(f"vcd2fst and fst2vcd {sentence}")

    def test_a_record_without_a_step(self):
        self.prints("program", DUMP.replace("#2\n", ""))
        self.found("the timeline has not a step for each record")


if __name__ == "__main__":
    unittest.main()
