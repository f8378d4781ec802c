"""Tests of tools/before/08-decisions: an entry without one of its parts fails, and so does a gap in the numbers."""
import subprocess
import unittest

from room import TOOLS, Room

SCRIPT = TOOLS / "before/08-decisions"
ENTRY = "**{}. Which lamp.** Two are at hand. *Choice:* the red one.\n*Why:* it burns. *Turned down:* the green one.\n\n"


class Decisions(Room):
    def run_it(self, *entries):
        self.script("tools/before/08-decisions", SCRIPT.read_text("utf-8"))
        self.write("docs/DECISIONS.md", "# Decisions\n\n## Lamps\n\n" + "".join(entries))
        done = subprocess.run([self.root / "tools/before/08-decisions"], stderr=subprocess.PIPE, encoding="utf-8")
        return done.returncode, done.stderr

    def test_whole_entries(self):
        self.assertEqual(self.run_it(ENTRY.format(1), "## More\n\n", ENTRY.format(2)), (0, ""))

    def test_a_part_that_is_missing(self):
        for part in ("*Choice:* the red one.", "*Why:* it burns.", "*Turned down:* the green one."):
            status, said = self.run_it(ENTRY.format(1).replace(part, ""), ENTRY.format(2))
            self.assertEqual(status, 1)
            self.assertIn("entry 1 (Which lamp.) has no " + part.split(":")[0], said)

    def test_a_gap(self):
        self.assertIn("not numbered from 1 to 2", self.run_it(ENTRY.format(1), ENTRY.format(3))[1])


if __name__ == "__main__":
    unittest.main()
