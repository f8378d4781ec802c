"""Tests of tools/moved, run on two commits of a small repository in a temporary folder."""
import contextlib
import io
import re
import runpy
import subprocess
import unittest

from room import TOOLS, Room

# the script has no .py to its name and cannot be imported
main = runpy.run_path(str(TOOLS / "moved"))["main"]

SPECS = """\
-- Lamps.
use Lib.{Bool}

-- what shines
unfoldable pub shining : Bool → Bool
shining up = up

pub record Lamp : Type 0 where
  pub colour : ℕ
  pub on : Bool

abbrev dark : Bool
dark = not (shining false)
"""

LAWS = """\
use Lib.{Bool}

pub lit : shining true ≡ true
lit = refl

module _ (l : Lamp) where
  pub steady : shining (l .on) ≡ l .on
  unfolding shining
  steady = refl

  own : l ≡ l
  own = refl
"""

SOURCE = """\
impl Lamp {
    // turns it
    pub fn turn(self, up: bool) -> Self
        ensures { result ≡ turned self up }
    {
        Lamp { on: up }
    }

    pub(crate) fn glow(self) -> bool
        ensures { result ≡ shining self.on }
    {
        self.on
    }
}

fn untold() {
}
"""

PROOF = """\
use Lib.{refl}
returns : Need
returns c = refl
"""

COSTS = """\
| Crate | Functions | Seconds | Megabytes |
|---|---:|---:|---:|
| lamp | 2 | {} | 300 |
| all | 2 | {} | 300 |

| | bench |
|---|---|
| lamp | 77 |
"""


class Moved(Room):
    def setUp(self):
        super().setUp()
        self.write("crates/lamp/specs/Lib.antt", "pub mod Lamp\n")
        self.write("crates/lamp/specs/Lamp.antt", SPECS)
        self.write("crates/lamp/specs/LampLaws.antt", LAWS)
        self.write("crates/lamp/proofs/Ends.antt", "pub ends : Lamp\nends = lamp\n")
        self.write("crates/lamp/proofs/Lamp/turn/Answers.antt", PROOF)
        self.write("crates/lamp/src/lib.rt", SOURCE)
        self.write("crates/bell/src/lib.rt", "")
        self.write("docs/COSTS.md", COSTS.format("5.0", "6.0"))
        self.git("init", "--quiet")
        self.commit("before")

    def git(self, *words):
        subprocess.run(["git", "-c", "user.name=a", "-c", "user.email=a@b", *words], cwd=self.root, check=True)

    def commit(self, name):
        self.git("add", "--all")
        self.git("commit", "--quiet", "--allow-empty", "--message", name)
        self.git("tag", name)

    def change(self, name, old, new):
        text = (self.root / name).read_text("utf-8")
        self.assertEqual(text.count(old), 1)
        self.write(name, text.replace(old, new))

    def said(self, *words):
        out = io.StringIO()
        with contextlib.redirect_stdout(out):
            self.assertEqual(main([*words] or ["before"], self.root), 0)
        return out.getvalue()

    def numbers(self, said):
        """By kind: moved, came, went, changed rooms, stayed."""
        rows = re.findall(r"(?m)^\| ([A-Z][\w ]+) \| (\d+) \| (\d+) \| (\d+) \| (\d+) \| (\d+) \|$", said)
        return {kind: tuple(map(int, cells)) for kind, *cells in rows}

    def landed(self):
        self.commit("after")
        said = self.said()
        return said, self.numbers(said)

    def test_nothing_moved(self):
        said, numbers = self.landed()
        self.assertEqual(numbers, {
            "Definitions": (0, 0, 0, 0, 3), "Contracts of public functions": (0, 0, 0, 0, 1), "Contracts of inner functions": (0, 0, 0, 0, 1),
            "Laws": (0, 0, 0, 0, 4), "Proofs of laws": (0, 0, 0, 0, 4), "Proofs of functions": (0, 0, 0, 0, 1)})
        self.assertNotIn("\n- ", said)

    def test_comments_layout_imports_visibility_and_files_do_not_count(self):
        (self.root / "crates/lamp/specs/Lamp.antt").unlink()
        self.write("crates/lamp/specs/Light.antt", SPECS.replace("-- what shines", "-- what glows").replace("use Lib.{Bool}", "use Lib.{Bool, not}")
                   .replace("shining up = up", "shining up\n    = up").replace("abbrev dark", "abbrev pub dark"))
        self.change("crates/lamp/src/lib.rt", "up: bool) -> Self", "up: bool) -> Self // up is on")
        self.change("crates/lamp/src/lib.rt", "Lamp { on: up }", "Lamp { on: up | false }")
        self.change("crates/lamp/proofs/Lamp/turn/Answers.antt", "use Lib.{refl}", "use Lib.{refl, ap}")
        self.assertNotIn("\n- ", self.landed()[0])

    def test_definition_and_field_that_moved(self):
        self.change("crates/lamp/specs/Lamp.antt", "shining up = up", "shining up = not up")
        self.change("crates/lamp/specs/Lamp.antt", "pub colour : ℕ", "pub colour : Bool")
        said, numbers = self.landed()
        self.assertIn("\n- Definitions that moved: lamp: `Lamp`, `shining`\n", said)
        self.assertEqual(numbers["Definitions"], (2, 0, 0, 0, 1))

    def test_what_is_not_public_is_counted_and_not_named(self):
        self.change("crates/lamp/specs/Lamp.antt", "dark = not (shining false)", "dark = shining false")
        self.change("crates/lamp/specs/LampLaws.antt", "own : l ≡ l", "own : (m : Lamp) → m ≡ m")
        said, _ = self.landed()
        self.assertIn("\n- Definitions that moved: 1 that are not `pub`\n", said)
        self.assertIn("\n- Laws that moved: 1 that are not `pub`\n", said)

    def test_law_moved_by_what_it_says_and_its_proof_by_the_rest(self):
        self.change("crates/lamp/specs/LampLaws.antt", "lit : shining true", "lit : shining (not false)")
        self.change("crates/lamp/specs/LampLaws.antt", "steady = refl", "steady = refl ∙ refl")
        said, numbers = self.landed()
        self.assertIn("\n- Laws that moved: lamp: `lit`\n", said)
        self.assertIn("\n- Proofs of laws that moved: lamp: `steady`\n", said)
        self.assertEqual((numbers["Laws"], numbers["Proofs of laws"]), ((1, 0, 0, 0, 3), (1, 0, 0, 0, 2)))

    def test_module_around_a_law_belongs_to_what_it_says(self):
        self.change("crates/lamp/specs/LampLaws.antt", "(l : Lamp) where", "(l : Lamp) (on : l .on) where")
        said, _ = self.landed()
        self.assertIn("\n- Laws that moved: lamp: `steady`; 1 that are not `pub`\n", said)

    def test_contracts_and_function_proofs(self):
        self.change("crates/lamp/src/lib.rt", "result ≡ turned self up", "result ≡ turned up self")
        self.change("crates/lamp/src/lib.rt", "result ≡ shining self.on", "result ≡ self.on")
        self.change("crates/lamp/proofs/Lamp/turn/Answers.antt", "returns c = refl", "returns c = c")
        said, _ = self.landed()
        self.assertIn("\n- Contracts of public functions that moved: lamp: `Lamp::turn`\n", said)
        self.assertIn("\n- Contracts of inner functions that moved: lamp: `Lamp::glow`\n", said)
        self.assertIn("\n- Proofs of functions that moved: lamp: `Lamp/turn`\n", said)

    def test_came_went_and_changed_rooms(self):
        self.change("crates/lamp/specs/LampLaws.antt", "pub lit : shining true ≡ true\nlit = refl\n", "")
        self.write("crates/bell/specs/BellLaws.antt", "pub lit : shining true ≡ true\nlit = refl\n\npub rings : Bell\nrings = bell\n")
        self.change("crates/lamp/proofs/Ends.antt", "pub ends : Lamp\nends = lamp\n", "")
        said, numbers = self.landed()
        self.assertIn("\n- Laws that came: bell: `rings`\n", said)
        self.assertIn("\n- Laws that went: lamp: `ends`\n", said)
        self.assertIn("\n- Laws that changed rooms, from lamp to bell: `lit`\n", said)
        self.assertEqual(numbers["Laws"], (0, 1, 1, 1, 2))

    def test_what_stayed_and_seconds_by_room(self):
        self.write("docs/COSTS.md", COSTS.format("7.5", "8.5"))
        said, _ = self.landed()
        self.assertIn("\n| bell | 0 | 0 | 0 | 0 | 0 | 0 | - | - |\n| lamp | 3 | 1 | 1 | 4 | 4 | 1 | 5.0 | 7.5 |\n| all | 3 | 1 | 1 | 4 | 4 | 1 | 6.0 | 8.5 |\n", said)

    def test_commits_are_read_and_not_the_folder(self):
        self.commit("after")
        self.write("crates/lamp/specs/Lamp.antt", "")
        self.assertNotIn("\n- ", self.said("before"))
        self.commit("later")
        self.assertIn("- Definitions that went: lamp: `Lamp`, `shining`; 1 that are not `pub`\n", self.said("before"))
        self.assertIn("From later to before:", self.said("later", "before"))
        self.assertIn("- Definitions that came: lamp: `Lamp`, `shining`; 1 that are not `pub`\n", self.said("later", "before"))

    def test_wrong_words(self):
        with contextlib.redirect_stderr(io.StringIO()):
            for words in ([], ["--all"], ["a", "b", "c"]):
                self.assertEqual(main(words, self.root), 2)
            with self.assertRaises(SystemExit) as stopped:
                main(["nowhere"], self.root)
        self.assertEqual(stopped.exception.code, 2)


if __name__ == "__main__":
    unittest.main()
