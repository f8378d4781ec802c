"""tools/before/04-edits on a small tree: an edit that fits passes, and each that does not is told."""
import unittest

from room import Room, load

check = load("before/04-edits")

NAME = "crates/lamp/must-fail/dark_2_twin.edit"

EDIT = """refuted: is_lit
A sentence about it.

file: src/lib.rt
old:     lit(1)
new:     lit(0)
old: b'\\n'
new:
file: specs/Lamp.antt
old: lit = 1
new: lit = 0
"""


class Fit(Room):
    def setUp(self):
        super().setUp()
        self.write("crates/lamp/src/lib.rt", "fn lamp() {\n    lit(1) + b'\\n' + lit(2)\n}\n")
        self.write("crates/lamp/specs/Lamp.antt", "lit = 1\n")

    def told(self, edit=EDIT, name=NAME):
        self.write(name, edit)
        return "\n".join(check.faults(self.root))

    def changed(self, old, new):
        self.assertIn(old, EDIT)
        return self.told(EDIT.replace(old, new))

    def test_an_edit_that_fits(self):
        self.assertEqual(self.told(), "")

    def test_a_text_that_is_not_there(self):
        self.assertEqual(self.changed("lit(1)", "lit(3)"), f"{NAME}: src/lib.rt has '    lit(3)' 0 times, and should have it once")

    def test_a_text_that_is_there_twice(self):
        self.assertEqual(self.changed("old:     lit(1)", "old: lit("), f"{NAME}: src/lib.rt has 'lit(' 2 times, and should have it once")

    def test_a_text_that_an_earlier_replacement_takes_away_or_doubles(self):
        self.assertIn("has 'lit(1)' 0 times", self.changed("old: b'\\n'", "old: lit(1)"))
        self.assertIn("has 'lit(2)' 2 times", self.changed("lit(0)\nold: b'\\n'", "lit(2)\nold: lit(2)"))

    def test_a_text_that_an_earlier_replacement_brings(self):
        self.assertEqual(self.changed("old: b'\\n'", "old: lit(0)"), "")

    def test_a_file_that_is_not_there(self):
        for file in ("src/main.rt", "../lamp/src/lib.rt", "src/../src/lib.rt", "must-fail/dark_2_twin.edit", "src"):
            self.assertEqual(self.changed("src/lib.rt", file), f"{NAME}: there is no {file!r} below src/, specs/ or proofs/ of lamp")

    def test_a_text_without_its_other_half(self):
        self.assertIn("'old:     lit(1)' is not read", self.changed("new:     lit(0)\n", ""))
        self.assertIn("no old text for '    lit(0)'", self.changed("old:     lit(1)\n", ""))
        self.assertIn("'old: lit = 1' is not read", self.changed("new: lit = 0\n", ""))

    def test_a_replacement_by_itself(self):
        self.assertIn("'lit = 1' is replaced by itself", self.changed("new: lit = 0", "new: lit = 1"))

    def test_a_line_that_is_passed_over(self):
        for line in ("old:lit = 1", " old: lit = 1", "Old: lit = 1", "old : lit = 1"):
            self.assertIn(f"{line!r} is not read", self.changed("old: lit = 1", line))

    def test_an_edit_of_nothing(self):
        self.assertEqual(self.told("refuted: is_lit\n"), f"{NAME}: it replaces nothing")

    def test_no_edits(self):
        self.assertEqual(list(check.faults(self.root)), ["there are no edits"])

    def test_a_name_of_another_form(self):
        for name in ("dark.edit", "Dark_twin.edit", "dark-2_twin.edit", "dark__twin.edit", "dark_twin.txt"):
            self.assertIn(f"{name}: its name is not", self.told(name=f"crates/lamp/must-fail/{name}"))
            (self.root / "crates/lamp/must-fail" / name).unlink()


if __name__ == "__main__":
    unittest.main()
