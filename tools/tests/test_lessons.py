"""Tests of tools/before/30-lessons, with a stand-in for the second program: a lesson that goes on from another is run behind it, the
template is run as a lesson is, and a control sheet is answered as its page says."""
import subprocess
import unittest

from room import Room

# A line for each record; its answer is how many records came before it, so that a lesson's place in the run shows. Of tallies
# it tells how many records there were. A line of a sheet is answered by the words that it was given with.
SECOND = """\
#!/usr/bin/env python3
import sys
if sys.argv[1] != "listing":
    for line in sys.stdin.read().splitlines():
        print(*sys.argv[1:], line)
    sys.exit()
records = len(sys.stdin.buffer.read()) // 4
for number in range(records):
    print(number, 0, f"{number:03X}", 0)
if "--tallies" in sys.argv:
    print("seat 0 arrived", records, file=sys.stderr)
"""
WHOLE = "07 00 00 13\n07 00 01 40\n"
LISTING = "0 0 000 0\n1 0 001 0\n"
FEWEST = 6
SHEET = "9600,N,8,1\n9600,E,7,2\n"
NUMBERS = "0 12 1E 10\n"
PAGE = """\
# A sheet

| Line | At clock 0 | At clock 2 | Why |
|---|---|---|---|
| `9600,N,8,1` | `settings 0 9600,N,8,1` | `settings 2 9600,N,8,1` | one |
| `9600,E,7,2` | `settings 0 9600,E,7,2` | `settings 2 9600,E,7,2` | two |

| Numbers | Answer | Why |
|---|---|---|
| `0 12 1E 10` | `settings-write 0 12 1E 10` | three |
"""


class Lessons(Room):
    def setUp(self):
        super().setUp()
        self.copy("tools/before/30-lessons", "tools/lessons.py", "tools/manual.py")
        self.script("program", SECOND)
        self.script("second/build", f'#!/bin/sh\ncp "{self.root}/program" "$1/second"\ncp "{self.root}/program" "$1/second-san"\n')
        for n in range(1, FEWEST + 1):
            self.lesson(f"0{n}-first", WHOLE, LISTING)
        self.lesson("template/NN-title", WHOLE, LISTING)

    def sheet(self, lines=SHEET, numbers=NUMBERS, page=PAGE):
        self.write("lessons/07-sheet.sheet", lines)
        self.write("lessons/07-sheet.numbers", numbers)
        self.write("lessons/07-sheet.md", page)

    def lesson(self, name, text, listing):
        self.write(f"lessons/{name}.hex", text)
        self.write(f"lessons/{name}.listing", listing)

    def run_it(self):
        done = subprocess.run(["python3", "-B", self.root / "tools/before/30-lessons"], stderr=subprocess.PIPE, encoding="utf-8")
        return done.returncode, done.stderr

    def test_lessons_from_power_up(self):
        self.assertEqual(self.run_it(), (0, ""))

    def test_lesson_that_goes_on_is_run_behind_the_other_and_numbered_from_0(self):
        self.lesson("07-then", "# goes on from: 02-first\n" + WHOLE, "0 0 002 0\n1 0 003 0\n")
        self.lesson("08-last", "# goes on from: 07-then\n" + WHOLE, "0 0 004 0\n1 0 005 0\n")
        self.assertEqual(self.run_it(), (0, ""))
        self.lesson("08-last", "# goes on from: 07-then\n" + WHOLE, LISTING)
        self.assertIn("08-last.hex, line 1 of the listing: ['0 0 000 0'], second has ['0 0 004 0']", self.run_it()[1])

    def test_tallies(self):
        self.lesson("07-then", "# goes on from: 02-first\n07 00 00 13\n# seat 0 arrived 3\n07 00 01 40\n# seat 0 arrived 4\n", "0 0 002 0\n1 0 003 0\n")
        self.write("lessons/07-then.tallies", "seat 0 arrived 4\n")
        self.assertEqual(self.run_it(), (0, ""))
        self.write("lessons/07-then.tallies", "seat 0 arrived 5\n")
        self.assertIn("07-then.tallies: second has other tallies", self.run_it()[1])
        self.write("lessons/07-then.hex", "# goes on from: 02-first\n# seat 0 arrived 3\n" + WHOLE)
        self.assertIn("07-then.hex: second does not tally so behind 0 records: seat 0 arrived 3", self.run_it()[1])
        self.write("lessons/09-none.tallies", "seat 0 arrived 4\n")
        self.assertIn("09-none.tallies has no lesson", self.run_it()[1])

    def test_lesson_that_cannot_go_on(self):
        self.lesson("05-first", WHOLE + "07 00\n", LISTING)
        for other, why in (("09-none", "no lesson before it"), ("07-then", "no lesson before it"), ("08-last", "no lesson before it"),
                           ("05-first", "ends within a record")):
            self.lesson("07-then", f"# goes on from: {other}\n" + WHOLE, LISTING)
            status, said = self.run_it()
            self.assertEqual(status, 1, other)
            self.assertIn(f"07-then.hex: it goes on from {other}.hex, which", said)
            self.assertIn(why, said)

    def test_template(self):
        self.lesson("template/NN-title", WHOLE, LISTING.replace("001", "002"))
        self.assertIn("NN-title.hex, line 2 of the listing: ['1 0 002 0'], second has ['1 0 001 0']", self.run_it()[1])
        self.lesson("template/NN-title", "07 00 00\n" + WHOLE, LISTING)
        self.assertIn("NN-title.hex: line 1 does not hold whole records", self.run_it()[1])
        (self.root / "lessons/template/NN-title.listing").unlink()
        self.assertIn("NN-title.hex has no listing", self.run_it()[1])

    def test_sheet(self):
        self.sheet()
        self.assertEqual(self.run_it(), (0, ""))

    def test_sheet_that_is_answered_otherwise(self):
        for cell, words, line in (("`settings 2 9600,E", "--settings 2", 2), ("`settings-write 0", "--settings-write", 1)):
            self.sheet(page=PAGE.replace(cell, cell + "x"))
            status, said = self.run_it()
            self.assertEqual(status, 1)
            for program in ("second", "second-san"):
                self.assertRegex(said, rf"07-sheet.sheet, {words}, line {line}: .*, {program} has ")

    def test_sheet_whose_page_has_other_lines(self):
        self.sheet(lines=SHEET + "300,N,8,1\n")
        self.assertIn("07-sheet.sheet: its table of Line has other lines than the file", self.run_it()[1])
        self.sheet(numbers="0 12 1E 9\n")
        self.assertIn("07-sheet.sheet: its table of Numbers has other lines than the file", self.run_it()[1])

    def test_sheet_without_a_page_or_a_table(self):
        self.sheet(page=PAGE.split("| Numbers")[0])
        self.assertIn("07-sheet.sheet: its page does not say how it is read, or not how lines are written", self.run_it()[1])
        (self.root / "lessons/07-sheet.md").unlink()
        self.assertIn("07-sheet.sheet: ", self.run_it()[1])


if __name__ == "__main__":
    unittest.main()
