"""Tests of tools/before/33-lesson-page: the page of the lessons and the lessons that are there fit, or what does not is told."""
import subprocess
import unittest

from room import Room

LESSON = "# Lesson {}: a title\n07 00 00 13\n"
PAGE = """\
# The lessons

| Option | What it does |
|---|---|
| `--lamp` | light |

| Lesson | What it shows | Belongs to |
|---|---|---|
| `03-sheet` | a sheet | ticket 2 |
| `01-one` | one | document 01 |
| `02-two` | two | ticket 1 |

The template:

    0 0 000 0
    1 0 000 0

The end.
"""


class LessonPage(Room):
    def setUp(self):
        super().setUp()
        self.copy("tools/before/33-lesson-page", "tools/lessons.py", "tools/manual.py")
        self.write("bench", "usage: --lamp --settings\n")
        self.write("tools/test", "landed=(1 2)\n")
        self.write("lessons/template/NN-title.hex", "07000013 07000140\n")
        self.write("lessons/template/NN-title.listing", "0 0 000 0\n1 0 000 0\n")
        self.write("lessons/01-one.hex", LESSON.format(1))
        self.write("lessons/02-two.hex", LESSON.format(2))
        self.write("lessons/03-sheet.sheet", "9600,E,7,2\n")
        self.write("lessons/03-sheet.md", "# Lesson 3: a sheet\n")
        self.write("lessons/README.md", PAGE)

    def run_it(self):
        done = subprocess.run(["python3", "-B", self.root / "tools/before/33-lesson-page"], stderr=subprocess.PIPE, encoding="utf-8")
        return done.returncode, done.stderr

    def tells(self, *faults):
        self.assertEqual(self.run_it(), (1, "".join(f"tools/before/33-lesson-page: {fault}\n" for fault in faults)))

    def page(self, old, new):
        self.assertIn(old, PAGE)
        self.write("lessons/README.md", PAGE.replace(old, new))

    def test_page_that_fits(self):
        self.assertEqual(self.run_it(), (0, ""))

    def test_lesson_that_the_table_has_not_once(self):
        self.page("| `01-one` | one | document 01 |\n", "")
        self.tells("lessons/README.md has 01-one 0 times in its table, and it should have it once")
        self.page("| `01-one` | one", "| `03-sheet` | again | ticket 2 |\n| `01-one` | one")
        self.tells("lessons/README.md has 03-sheet 2 times in its table, and it should have it once")

    def test_row_that_is_no_lesson(self):
        self.page("| `01-one` |", "| `04-four` | four | - |\n| `01-one` |")
        self.tells("lessons/README.md has 04-four in its table, which is no lesson")

    def test_lesson_before_the_one_it_needs(self):
        for line in ("# goes on from: 01-one", "# compare seat 2 with: 01-one"):
            self.write("lessons/02-two.hex", f"{LESSON.format(2)}{line}\n")
            self.write("lessons/README.md", PAGE)
            self.assertEqual(self.run_it(), (0, ""))
            self.write("lessons/README.md", PAGE.replace("`02-two`", "`x`").replace("`01-one`", "`02-two`").replace("`x`", "`01-one`"))
            self.tells("lessons/README.md has 02-two before 01-one, which it needs")

    def test_tickets(self):
        self.page("ticket 2", "ticket 3")
        self.tells("lessons/README.md has no lesson of ticket 2, which has landed",
                   "lessons/README.md has a lesson of ticket 3, which has not landed")
        self.write("lessons/README.md", PAGE)
        self.write("tools/test", "landed=()\n")
        self.assertIn("tools/test lists no tickets that have landed", self.run_it()[1])

    def test_option_that_bench_does_not_know(self):
        self.page("`--lamp`", "`--lamps`")
        self.tells("lessons/README.md speaks of --lamps, which bench does not know")

    def test_template(self):
        self.page("    1 0 000 0\n", "    1 0 001 0\n")
        self.tells("lessons/README.md does not show what the template prints")
        self.page("    1 0 000 0\n", "    1 0 000 0\n    2 0 000 0\n")
        self.tells("lessons/README.md does not show what the template prints")
        self.write("lessons/README.md", PAGE)
        (self.root / "lessons/template/NN-title.listing").unlink()
        self.tells("lessons/README.md does not show what the template prints")

    def test_first_line(self):
        self.write("lessons/02-two.hex", LESSON.format(1))
        self.tells("02-two.hex does not begin with '# Lesson 2: ' and a title")
        self.write("lessons/02-two.hex", LESSON.format(2))
        (self.root / "lessons/03-sheet.md").unlink()
        self.tells("03-sheet.sheet does not begin with '# Lesson 3: ' and a title")

    def test_name(self):
        self.write("lessons/03-Sheet.sheet", "")
        self.assertIn("03-Sheet.sheet is not named by the number 03 and a title in small letters", self.run_it()[1])

    def test_gap_in_the_numbers(self):
        (self.root / "lessons/01-one.hex").unlink()
        self.assertIn("02-two.hex is not named by the number 01", self.run_it()[1])

    def test_width(self):
        line = "# " + 122 * "x"
        self.write("lessons/01-one.hex", f"{LESSON.format(1)}{line}\n")
        self.assertEqual(self.run_it(), (0, ""))
        self.write("lessons/01-one.hex", f"{LESSON.format(1)}{line}x\n")
        self.tells("01-one.hex:3: more than 124 columns, or not plain ASCII")
        self.write("lessons/01-one.hex", LESSON.format(1))
        self.write("lessons/template/NN-title.hex", "# \u00e9\n")
        self.tells("template/NN-title.hex:1: more than 124 columns, or not plain ASCII")


if __name__ == "__main__":
    unittest.main()
