"""Tests of tools/after/20-edits: an edit counts where its closed statement is computed to be false, and nowhere else."""
import os
import subprocess
import unittest

from room import Room

LOG = "said"
AT = "./proofs/Slips.antt:9:8: error: `is_lit`: "

# The prover, which keeps what it was given, and rt's module, which knows the words by which it is asked.
RATTLE = """\
#!/bin/sh
echo "$*" >"{root}/asked"
cat src/lib.rt specs/Lamp.antt proofs/slips_are_read/Answers.antt >"{root}/given"
cat "{root}/said"
"""
RTLIB = """\
from pathlib import Path
KIT, RATTLE = "kit", "{root}/kit/rattle"
class Crate:
    def __init__(self, folder, root, known):
        self.folder, self.name, self.rlib = folder, Path(folder).name, folder + "/out/rlib"
    def below(self):
        return []
    def words(self, flags, keeps):
        return ["--crate-name", self.name, *flags]
    def stamp(self):
        return ""
"""

TWIN = "file: src/lib.rt\nold: 1\nnew: 0\nfile: specs/Lamp.antt\nold: 1\nnew: 0\n"

SLIPS = """-- "the lamp is lit"
is_lit : shown (on ∷ []) ≡ 0x200
unfolding shown
is_lit = refl
"""

FALSE = AT + """expected type `shown (on ∷ []) ≡ 512`, but this has type `shown (on ∷ []) ≡ shown (on ∷ [])`
  computed as far as they go, the two types are `Path Prim.Native.Nat.ℕ 768 512` (expected) and `Path Prim.Native.Nat.ℕ 768 768` (found)
"""
FALSE_TEST = AT + """expected type `lit ≡ true`, but this has type `lit ≡ lit`
  computed as far as they go, the two types are `Path Bool false true` (expected) and `Path Bool false false` (found)
"""
FALSE_LIST = AT + """as printed, the two types differ only where one has `256 ∷ 512 ∷ []` (expected)
  computed as far as they go, the two types differ only where one has `[]`
  (expected) and the other has `768 ∷ []` (found)
"""
FALSE_TEXT = AT + """as printed, the two types differ only where one has `quoted "lit"` (expected)
  computed as far as they go, the two types first differ where one has `108` (expected) and the other has `100` (found)
"""
BROKEN_SCRIPT = """specs/LampLaws.antt:9:1: error: `lamp_lit`: expected type `lit ≡ on`, but this has type `on ≡ lit`
fn lamp::shine: not proved
"""
NOT_COMPUTED = AT + """as printed, the two types differ only where one has `512` (expected)
  computed as far as they go, the two types differ only where one has `512` (expected) and the other has `shown on` (found)
"""
SYNTAX = """specs/Lamp.antt:3:9: error: Parse: expected a term
""" + AT + """`shown` was not admitted (it has holes or undetermined implicits, or was rejected), so this cannot be checked
"""


class Edits(Room):
    def setUp(self):
        super().setUp()
        self.runs = 0
        self.copy("tools/after/20-edits", "tools/edits.py", "tools/prover.py", "tools/machine.py", "tools/find-rt")
        self.write("kit/bin/rtlib.py", RTLIB.format(root=self.root))
        self.script("kit/bin/rt", "#!/bin/sh\n[ $1 = version ] && echo kit 9\n")
        self.script("kit/rattle", RATTLE.format(root=self.root))
        self.write("crates/lamp/src/lib.rt", "pub fn shine() -> u8 {\n    1\n}\n")
        self.write("crates/lamp/specs/Lamp.antt", "on = 1\n")
        self.write("crates/lamp/proofs/Lamp/shine/Answers.antt", "1\n")
        self.edit("refuted: is_lit\n")
        self.write("crates/lamp/proofs/Slips.antt", SLIPS)

    def edit(self, line):
        self.write("crates/lamp/must-fail/dark_twin.edit", line + TWIN)

    def run_it(self):
        """Each run keeps what it hears in a folder of its own."""
        self.runs += 1
        done = subprocess.run([self.root / "tools/after/20-edits"], stdout=subprocess.PIPE, stderr=subprocess.PIPE, encoding="utf-8",
                              env={**os.environ, "PATH": f"{self.root / 'kit/bin'}:{os.environ['PATH']}",
                                   "XDG_CACHE_HOME": str(self.root / f"cache-{self.runs}")})
        return done.returncode, done.stderr

    def fails(self, words):
        status, said = self.run_it()
        self.assertEqual(status, 1)
        self.assertIn(f"lamp/dark_twin {words}", said)

    def test_a_false_statement_counts(self):
        for log in (FALSE, FALSE_TEST, FALSE_LIST, FALSE_TEXT, BROKEN_SCRIPT + FALSE + BROKEN_SCRIPT):
            self.write(LOG, log)
            self.assertEqual(self.run_it(), (0, ""))

    def test_a_text_is_a_value(self):
        self.write(LOG, FALSE_LIST)
        self.write("crates/lamp/proofs/Slips.antt", SLIPS.replace("0x200", "quoted word ∷ []"))
        self.fails("names `is_lit`")
        self.write("crates/lamp/proofs/Slips.antt", SLIPS.replace("0x200", 'quoted "lit" ∷ quoted "on" ∷ []'))
        self.assertEqual(self.run_it(), (0, ""))

    def test_a_broken_proof_shows_nothing(self):
        self.write(LOG, BROKEN_SCRIPT)
        self.fails("is refused, but `is_lit` is not shown to be false")

    def test_a_statement_that_is_not_computed_shows_nothing(self):
        self.write(LOG, NOT_COMPUTED)
        self.fails("is refused, but `is_lit` is not shown to be false")

    def test_a_syntax_error_shows_nothing(self):
        self.write(LOG, SYNTAX)
        self.fails("is refused, but `is_lit` is not shown to be false")

    def test_another_statement_does_not_count(self):
        self.write(LOG, FALSE.replace("`is_lit`", "`is_dark`"))
        self.fails("is refused, but `is_lit` is not shown to be false")

    def test_an_edit_that_names_none(self):
        self.write(LOG, FALSE)
        self.edit("")
        self.fails("names no statement")

    def test_an_edit_of_one_side(self):
        self.write(LOG, FALSE)
        for lines in TWIN.split("file: ")[1:]:
            self.write("crates/lamp/must-fail/dark_twin.edit", "refuted: is_lit\nfile: " + lines)
            self.fails("is no slip in code and definition alike")

    def test_an_edit_of_the_statement(self):
        self.write(LOG, FALSE)
        for file in ("proofs/Slips.antt", "proofs/Runs.antt"):
            self.edit(f"refuted: is_lit\nfile: {file}\nold: 0x200\nnew: 0x300\n")
            self.fails("is no slip in code and definition alike")

    def test_an_edit_that_fits_the_proof_of_a_function(self):
        self.write(LOG, FALSE)
        for file in ("Proof", "Invariants", "Answers"):
            self.write(f"crates/lamp/proofs/Lamp/shine/{file}.antt", "1\n")
            self.edit(f"refuted: is_lit\nfile: proofs/Lamp/shine/{file}.antt\nold: 1\nnew: 0\n")
            self.assertEqual(self.run_it(), (0, ""))

    def test_what_the_prover_is_given(self):
        """The crate with the edit in it, and a function that knows the statements, which alone is asked for."""
        self.write(LOG, FALSE)
        self.assertEqual(self.run_it(), (0, ""))
        self.assertEqual((self.root / "asked").read_text("utf-8"), "check --crate-name lamp --jobs 1 --only slips_are_read\n")
        self.assertEqual((self.root / "given").read_text("utf-8"),
                         "pub fn shine() -> u8 {\n    0\n}\n\nfn slips_are_read() {\n}\non = 0\nuse Rattle.lamp.proofs.Slips\n")
        self.assertEqual((self.root / "crates/lamp/specs/Lamp.antt").read_text("utf-8"), "on = 1\n")

    def test_an_edit_that_does_not_fit(self):
        self.write(LOG, FALSE)
        self.write("crates/lamp/specs/Lamp.antt", "on = 2\n")
        self.fails("does not fit the tree")

    def test_a_statement_that_is_not_closed(self):
        self.write(LOG, FALSE)
        for other in (SLIPS.replace(": shown (on", ": (n : ℕ) → shown (n"), SLIPS.replace("0x200", "shown (on ∷ [])"),
                      SLIPS.replace("is_lit =", "-- is_lit ="), SLIPS.replace("refl", "by_hand"), ""):
            self.write("crates/lamp/proofs/Slips.antt", other)
            self.fails("names `is_lit`, which crates/lamp/proofs/Slips.antt does not have")

    def test_a_prover_that_says_nothing(self):
        self.write(LOG, "")
        self.fails("is refused, but `is_lit` is not shown to be false")


if __name__ == "__main__":
    unittest.main()
