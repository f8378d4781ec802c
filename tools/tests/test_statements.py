"""tools/before/06-statements on a small tree."""
import unittest
from unittest import mock

from room import Room, load

check = load("before/06-statements")
check.RECORDS = (("cups", "Statements"),)
check.OWED = {"cups": ("Cups.Full",)}
check.NO_STATEMENTS = {("cups", "Sip"): "a type"}

SPECS = "crates/cups/specs/"
PROOFS = "crates/cups/proofs/"

CUPS = """-- Cups.
abbrev pub Sip : Type 0
Sip = Cup → Cup

unfoldable pub Full : Type 0
Full = (c : Cup) → filled c ≡ true

abbrev pub Over : Cup → Type 0
Over c = ⊥
"""

STATEMENTS = """use Rattle.cups.specs.Cups.{Full}

pub record Statements : Type 0 where
  pub full : Full
"""

GIVEN = """use Rattle.cups.specs.Statements.{Statements}

pub statements : Statements
statements = record { full = full }
"""

PROMISES = """# Promises

### `sip`

`not-looked-at`: what it promises

- is half full
  Shut out by: law `full`, edit
  *half_full_twin*
- `nobody`
- `nothing`

Shut out by: `second/`

Nor is `this` looked at.
"""


class Statements(Room):
    def setUp(self):
        super().setUp()
        self.write(SPECS + "Lib.antt", "pub mod Cups\npub mod Statements\n")
        self.write(SPECS + "Cups.antt", CUPS)
        self.write(SPECS + "Statements.antt", STATEMENTS)
        self.write(PROOFS + "Lib.antt", "pub mod Statements\n")
        self.write(PROOFS + "Statements.antt", GIVEN)
        self.write("crates/cups/must-fail/half_full_twin.edit", "file: src/lib.rt\n")
        self.write("second/second.c", "")
        self.write("docs/PROMISES.md", PROMISES)

    def unproved(self):
        return list(check.unproved(self.root))

    def missing(self):
        return list(check.missing(self.root))

    def fails(self, reason, name, text):
        self.write(name, text)
        self.assertIn(reason, "\n".join(self.unproved()))

    def test_a_room_that_owes_has_a_record(self):
        with mock.patch.object(check, "RECORDS", ()):
            self.assertEqual(["Cups.Full of crates/cups/specs is in no record of statements",
                              "Statements.Statements of crates/cups/specs is in no record of statements"], self.unproved())

    def test_all_is_bound(self):
        self.assertEqual(self.unproved() + self.missing(), [])

    def test_a_statement_without_a_field(self):
        more = "\nabbrev pub Empty : Type 0\nEmpty = ⊥\n"
        self.fails("Cups.Empty of crates/cups/specs is in no record", SPECS + "Cups.antt", CUPS + more)

    def test_a_record_is_a_statement(self):
        more = "\npub record Dry : Type 0 where\n  pub dry : ⊥\n"
        self.fails("Cups.Dry of crates/cups/specs is in no record", SPECS + "Cups.antt", CUPS + more)

    def test_a_field_in_a_comment(self):
        less = STATEMENTS.replace("  pub full", "  -- pub full")
        self.fails("Cups.Full of crates/cups/specs is in no record", SPECS + "Statements.antt", less)

    def test_no_declaration(self):
        self.fails("0 declarations", PROOFS + "Statements.antt", "-- none\n")

    def test_a_declaration_in_a_comment(self):
        shut = GIVEN.replace("pub statements", "{- pub statements") + "-}\n"
        self.fails("0 declarations", PROOFS + "Statements.antt", shut)

    def test_a_declaration_in_a_comment_in_a_comment(self):
        shut = GIVEN.replace("pub statements", "{- {- -}\npub statements") + "-- -}\n"
        self.fails("proofs/Statements.antt has {-", PROOFS + "Statements.antt", shut)

    def test_a_declaration_of_a_record_brought_from_elsewhere(self):
        other = GIVEN.replace("{Statements}", "{Statements as Real}\nuse Rattle.cups.proofs.Fake.{Statements}")
        self.fails("0 declarations", PROOFS + "Statements.antt", other)

    def test_a_field_of_a_statement_brought_from_elsewhere(self):
        self.write(SPECS + "Fake.antt", CUPS)
        self.fails("Cups.Full of crates/cups/specs is in no record", SPECS + "Statements.antt", STATEMENTS.replace("specs.Cups.", "specs.Fake."))

    def test_a_statement_that_is_dropped_with_its_proof(self):
        self.write(SPECS + "Statements.antt", "pub record Statements : Type 0 where\n")
        self.fails("does not state Cups.Full", SPECS + "Cups.antt", CUPS.replace("Full : Type 0", "Full : Unit → Type 0"))
        self.fails("does not state Cups.Full", SPECS + "Cups.antt", "")

    def test_a_declaration_of_another_type(self):
        other = GIVEN.replace(": Statements", ": Statements → Statements")
        self.fails("0 declarations", PROOFS + "Statements.antt", other)

    def test_a_record_of_its_own(self):
        self.fails("0 declarations", PROOFS + "Statements.antt", "record Statements : Type 0 where\n\n" + GIVEN)

    def test_an_axiom(self):
        bare = GIVEN.replace("statements = record { full = full }\n", "")
        self.fails("0 declarations", PROOFS + "Statements.antt", bare)

    def test_a_file_that_is_not_declared(self):
        self.fails("0 declarations", PROOFS + "Lib.antt", "-- pub mod Statements\n")
        self.fails("has no record Statements", SPECS + "Lib.antt", "pub mod Cups\n")

    def test_a_law_an_edit_and_a_path_that_are_gone(self):
        for gone in ("full`", "half_full_twin*", "second/`"):
            self.write("docs/PROMISES.md", PROMISES.replace(gone, "x" + gone))
            self.assertEqual(len(self.missing()), 1)

    def test_all_the_words_behind_which_a_law_is_named(self):
        for words in check.SAYS:
            self.write("docs/PROMISES.md", PROMISES.replace("Shut out by: law `full`", f"{words} law `gone`"))
            self.assertEqual(self.missing(), ["docs/PROMISES.md:8: there is no gone"])

    def test_a_page_that_would_not_be_read(self):
        self.write("docs/PROMISES.md", PROMISES.replace("Shut out by", "By"))
        self.assertEqual(self.missing(), ["docs/PROMISES.md says nowhere by what a wrong program is shut out"])
        self.write("docs/PROMISES.md", PROMISES + "\n| Call | Shut out by |\n|---|---|\n| `sip` | law `gone` |\n")
        self.assertEqual(self.missing(), ["docs/PROMISES.md:17: a table, where there should be a list"])

    def test_a_function_is_no_law(self):
        self.write("crates/cups/src/lib.rt", "pub fn sip() {\n}\n")
        self.write("docs/PROMISES.md", PROMISES.replace("law `full`", "contract of `sip`, laws of `cups`"))
        self.assertEqual(self.missing(), [])
        self.write("docs/PROMISES.md", PROMISES.replace("law `full`", "law `sip`, law `cups`"))
        self.assertEqual(len(self.missing()), 2)

    def test_a_closed_statement_of_no_law(self):
        self.write(PROOFS + "Slips.antt", "-- `full`\nis-full : filled 1 ≡ true\nis-full = refl\n")
        self.assertEqual(self.missing(), [])
        self.write(PROOFS + "Slips.antt", "-- `half-full`\nis-full : filled 1 ≡ true\nis-full = refl\n")
        self.assertEqual(self.missing(), ["crates/cups/proofs/Slips.antt:1: there is no half-full"])

    def test_a_law_of_a_file_that_is_not_declared(self):
        self.write(SPECS + "Lib.antt", "pub mod Cups\n")
        self.assertEqual(self.missing(), ["docs/PROMISES.md:8: there is no full"])


if __name__ == "__main__":
    unittest.main()
