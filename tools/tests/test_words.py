"""Tests of tools/before/12-words: the list of bench and the room's table are the same, or what differs is told."""
import subprocess
import unittest

from room import TOOLS, Room

SCRIPT = TOOLS / "before/12-words"
LIST = "declare -A follow=([--lamp]=2 [--]=1)\n"
TABLE = 'abbrev pub table : List Row\ntable =\n    row "--lamp" (next moment) 2\n    ∷ row "--" (next lesson) 1\n    ∷ []\n'


class Words(Room):
    def run_it(self, own, table):
        self.script("tools/before/12-words", SCRIPT.read_text("utf-8"))
        self.write("bench", f"set -e\n{own}usage\n")
        self.write("crates/options/specs/Words.antt", f"-- a table\n{table}\n-- row \"--bell\" file 1\n")
        done = subprocess.run([self.root / "tools/before/12-words"], stderr=subprocess.PIPE, encoding="utf-8")
        return done.returncode, done.stderr

    def test_the_same(self):
        self.assertEqual(self.run_it(LIST, TABLE), (0, ""))
        self.assertEqual(self.run_it("declare -A follow=([--]=1 [--lamp]=2)\n", TABLE), (0, ""))

    def test_another_number(self):
        status, said = self.run_it(LIST.replace("2", "1"), TABLE)
        self.assertEqual(status, 1)
        self.assertIn("bench has --lamp followed by 1, and crates/options/specs/Words.antt has not", said)
        self.assertIn("crates/options/specs/Words.antt has --lamp followed by 2, and bench has not", said)

    def test_one_missing(self):
        self.assertIn("--lamp followed by 2, and bench has not", self.run_it("declare -A follow=([--]=1)\n", TABLE)[1])
        self.assertIn("--lamp followed by 2, and crates", self.run_it(LIST, TABLE.replace('    row "--lamp" (next moment) 2\n    ∷ ', "    "))[1])

    def test_one_that_no_word_follows(self):
        table = TABLE.replace("    ∷ []", '    ∷ row "--bell" withBell 0\n    ∷ []')
        self.assertEqual(self.run_it(LIST.replace("[--]=1", "[--]=1 [--bell]=0"), table), (0, ""))
        self.assertIn("--bell followed by 0, and bench has not", self.run_it(LIST, table)[1])

    def test_no_list(self):
        for own, table in (("", TABLE), (LIST, ""), (LIST + LIST, TABLE), (LIST.replace("[--]=1", "[--lamp]=2"), TABLE)):
            self.assertIn("has no list of options, or one of them twice", self.run_it(own, table)[1])


if __name__ == "__main__":
    unittest.main()
