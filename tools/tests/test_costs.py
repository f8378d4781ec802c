"""Tests of tools/costs without the prover: what is counted, and that measured figures are kept."""
import subprocess
import unittest

from room import TOOLS, Room

COSTS = TOOLS / "costs"

FILES = {
    "crates.txt": "upper staticlib: lower io # an archive\nlower:\n",
    "crates/lower/src/lib.rt": "// A comment.\npub fn one() -> u8 {\n    1\n}\n\nfn two() -> u8 { 2 }\n",
    "crates/lower/specs/Lib.antt": "pub mod One\n",
    "crates/lower/specs/One.antt": "-- one\nabbrev pub one : ℕ\none = 1\n",
    "crates/lower/specs/OneLaws.antt": "pub same : one ≡ 1\nsame = refl\n",
    "crates/lower/proofs/TwoLaws.antt": "pub other : one ≡ 1\nother = refl\n\n",
    "crates/lower/proofs/one/Answers.antt": "a\nb\nc\nd\n",
    "crates/lower/must-fail/two.edit": "file: src/lib.rt\n",
    "crates/upper/src/lib.rt": "fn main() {}\n",
}


class Costs(Room):
    def setUp(self):
        super().setUp()
        for name, text in FILES.items():
            self.write(name, text)
        for name in ("costs", "machine.py", "prover.py"):
            self.script(f"tools/{name}", COSTS.with_name(name).read_text("utf-8"))

    def page(self):
        subprocess.run([self.root / "tools/costs", "--no-measure"], check=True)
        return (self.root / "docs/COSTS.md").read_text("utf-8")

    def test_counts_in_the_order_of_crates_txt(self):
        self.assertTrue(self.page().endswith(
            "| upper | 1 | 1 | 0 | 0 | 0 | 0 | - | - |\n"
            "| lower | 2 | 4 | 3 | 4 | 4 | 1 | - | - |\n"
            "| all | 3 | 5 | 3 | 4 | 4 | 1 | 0.0 | - |\n"))

    def test_measured_figures_and_their_kit_are_kept(self):
        measured = self.page().replace("| 1 | - | - |", "| 1 | 5.5 | 325 |")
        self.write("docs/COSTS.md", measured.replace("Measured with: -", "Measured with: kit 5"))
        page = self.page()
        self.assertIn("Measured with: kit 5\n", page)
        self.assertIn("| lower | 2 | 4 | 3 | 4 | 4 | 1 | 5.5 | 325 |\n| all | 3 | 5 | 3 | 4 | 4 | 1 | 5.5 | 325 |\n", page)

    def test_speed_is_kept(self):
        self.write("docs/COSTS.md", self.page() + "\n## Speed\n\nTwice as fast.\n")
        self.assertTrue(self.page().endswith(" 0.0 | - |\n\n## Speed\n\nTwice as fast.\n"))


if __name__ == "__main__":
    unittest.main()
