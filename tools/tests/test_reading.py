"""Tests of tools/reading, run on a small repository in a temporary folder."""
import contextlib
import io
import runpy
import unittest

from room import TOOLS, Room

# the script has no .py to its name and cannot be imported; within one process the tests take no time
main = runpy.run_path(str(TOOLS / "reading"))["main"]

DOCUMENT = """\
# A paper

## What is on the bench

Two lamps. Not built now: dimmers.

## Events and their numbers

| No. | Refused when |
|---|---|
| 1 | lamp above 1 |

## The channel

**Switch**. Turned up: the lamp is on; turned down: the
lamp is `off`.

## The controller

The bell rings once (none: 0).

## Divisor list (page 3)

No divisor at all.

## Tasting spoons

Lamp 1 is red.
"""

REQUESTS = """\
# Requests

One landing for each.

**Ticket 1. A dimmer.** Turned half: the lamp glows `dimly`; it hums.

**Ticket 2. Blue lamps.** Pupils see blue. Lamp 1 is blue from now on. Refusals: 2 for a third colour.
"""

# One quotation runs over a line break, one is a row of a table, one stands in the body of a definition.
SPECS = """\
-- Lamps.
use Lib.{Bool}

-- A lamp. "Turned up: the lamp is on; turned down:
-- the lamp is off": nothing else
unfoldable pub shining : Bool → Bool
shining up = up

-- "1 lamp above 1"
abbrev pub refused : ℕ → Bool
-- "Lamp 1 is red"
refused n = n > 1
"""

LAWS = """\
-- "The bell rings once (none: 0)."
pub rings : once
"""

TABLES = """\
## Events and their numbers

| Document 01 | Definition | File |
|---|---|---|
| 1 lamp above 1 | `refused` | crates/lamp/specs/Lamp.antt |

## The channel

| Document 01 | Definition | File |
|---|---|---|
| Turned up: the lamp is on; turned down: the lamp is off | `shining` | crates/lamp/specs/Lamp.antt |

## The controller

| Document 01 | Definition | File |
|---|---|---|
| The bell rings once (none: 0). | `rings` (law) | crates/lamp/specs/BellLaws.antt |

## Tasting spoons

| Document 01 | Definition | File |
|---|---|---|
| Lamp 1 is red | `refused` | crates/lamp/specs/Lamp.antt |
"""


# Ticket 1, quoted beside document 01; ticket 2, which amends document 01.
DIMMER = """\
-- "Two lamps." Ticket 1: "Turned half: the lamp
-- glows dimly; it hums." Document 01: "lamp above 1"
abbrev pub glow : Bool
glow = half
"""
BLUE = """\
-- Ticket 2: "Lamp 1 is blue", "Refusals: 2 for a third colour"
abbrev pub colour : ℕ
colour = blue
"""
AMENDED = 'Lamp 1 is red. -- ticket 2: it is another colour, "Lamp 1 is blue from now on"\n'
EXCUSED = "ticket 2: Pupils see blue. -- it says why\n"


class Reading(Room):
    def setUp(self):
        super().setUp()
        self.write("crates.txt", "# rooms\nlamp:\n")
        self.write("paper.md", DOCUMENT)
        self.write("requests.md", REQUESTS)
        self.write("crates/lamp/specs/Lib.antt", "pub mod Lamp\n")
        self.write("crates/lamp/specs/Lamp.antt", SPECS)
        self.write("crates/lamp/specs/BellLaws.antt", LAWS)

    def run_it(self, *words):
        """The status, and all that was written."""
        said = io.StringIO()
        with contextlib.redirect_stdout(said), contextlib.redirect_stderr(said):
            status = main(words, self.root)
        return status, said.getvalue()

    def fails(self, reason, *words):
        status, said = self.run_it(*words)
        self.assertEqual(status, 1, said)
        self.assertIn(reason, said)

    def passes(self, *words):
        status, said = self.run_it(*words)
        self.assertEqual(status, 0, said)
        return said

    def against(self, *words):
        return ("--against", str(self.root / "paper.md"), *words)

    def page(self):
        return (self.root / "docs/READING.md").read_text("utf-8")

    def test_page_has_each_quotation_with_its_definition_in_the_order_of_document_01(self):
        self.passes(*self.against())
        self.assertTrue(self.page().endswith(TABLES), self.page())

    def test_page_is_the_same_without_document_01(self):
        self.passes(*self.against())
        made = self.page()
        self.passes("--check")
        self.passes()
        self.assertEqual(self.page(), made)
        self.passes("--check", *self.against())

    def test_page_in_another_order_fails_where_document_01_is_at_hand(self):
        self.passes(*self.against())
        parts = self.page().split("## ")
        self.write("docs/READING.md", "## ".join([parts[0], *parts[2:4], parts[1], parts[4]]))
        self.passes("--check")
        self.fails("docs/READING.md is out of date", "--check", *self.against())

    def test_sentence_that_is_new_waits_at_the_end_for_document_01(self):
        self.passes(*self.against())
        self.write("crates/lamp/specs/Lamp.antt", SPECS + '\n-- "Two lamps."\nabbrev pub two : ℕ\n')
        self.fails("docs/READING.md is out of date", "--check")
        self.passes()
        self.assertTrue(self.page().endswith("|---|---|---|\n| Two lamps. | `two` | crates/lamp/specs/Lamp.antt |\n"))
        self.assertIn("\n## Not placed yet\n\nThese were quoted after", self.page())
        self.passes("--check")
        self.fails("docs/READING.md is out of date", "--check", *self.against())
        self.passes(*self.against())
        self.assertIn("\n\n## What is on the bench\n\n| Document 01 | Definition | File |\n|---|---|---|\n| Two lamps. | `two` |", self.page())
        self.assertNotIn("Not placed yet", self.page())

    def test_sentence_stays_where_it_is_when_another_definition_says_it(self):
        self.passes(*self.against())
        self.write("crates/lamp/specs/Lamp.antt", SPECS.replace("refused", "barred"))
        self.passes()
        made = self.page()
        self.assertTrue(made.endswith(TABLES.replace("refused", "barred")), made)
        self.passes("--check", *self.against())

    def test_few_words_stand_beside_the_longer_sentence_of_their_comment(self):
        self.write("crates/lamp/specs/Lamp.antt", SPECS.replace('"Lamp 1 is red"', '"Lamp 1 is red", "1"'))
        self.passes(*self.against())
        self.assertTrue(self.page().endswith("| Lamp 1 is red | `refused` | crates/lamp/specs/Lamp.antt |\n"
                                             "| 1 | `refused` | crates/lamp/specs/Lamp.antt |\n"), self.page())

    def test_definition_stands_before_a_law_and_a_sentence_before_its_part(self):
        self.write("crates/lamp/specs/BellLaws.antt", LAWS + '\n-- "Lamp 1 is red"\npub red : colour\n\n-- "Lamp 1"\npub one : lamp\n')
        self.passes(*self.against())
        rows = [line.split("|")[2].strip() for line in self.page().splitlines()[-3:]]
        self.assertEqual(rows, ["`refused`", "`red` (law)", "`one` (law)"])

    def test_missing_and_stale_pages_fail(self):
        self.fails("docs/READING.md is out of date", "--check")
        self.passes()
        self.passes("--check")
        self.write("crates/lamp/specs/Lamp.antt", SPECS.replace("shining", "burning"))
        self.fails("docs/READING.md is out of date", "--check")

    def test_quotation_that_does_not_occur_fails(self):
        self.write("crates/lamp/specs/Lamp.antt", SPECS.replace("above 1", "above 2"))
        self.fails('Lamp.antt:9: refused: document 01 does not say "1 lamp above 2"', *self.against())

    def test_quotation_occurs_as_whole_words_only(self):
        self.write("crates/lamp/specs/Lamp.antt", SPECS.replace("Lamp 1 is red", "amp 1 is red"))
        self.fails('does not say "amp 1 is red"', *self.against())

    def test_quotation_over_no_definition_fails(self):
        self.write("crates/lamp/specs/Lamp.antt", SPECS.replace('above 1"\n', 'above 1"\n\n'))
        self.fails("Lamp.antt:9: a quotation stands over no definition")

    def test_quotation_that_is_not_closed_fails(self):
        self.write("crates/lamp/specs/Lamp.antt", SPECS.replace('above 1"', "above 1"))
        self.fails("Lamp.antt:9: a quotation is not closed")

    def test_rooms_that_tell_a_lesson_quote_the_page_of_what_is_told(self):
        self.write("crates.txt", "# rooms\nlamp:\npage:\n")
        self.write("docs/TELLING.md", "A lamp is told by `its number`,\nand what it shows.\n")
        quoting = '-- "A lamp is told by its number, .. what it shows"\nabbrev pub lamp : N\n'
        self.write("crates/page/specs/Lamps.antt", quoting)
        self.passes()
        self.write("crates/page/specs/Lamps.antt", quoting.replace("what it shows", "what it hides"))
        self.fails("crates/page/specs/Lamps.antt:1: docs/TELLING.md does not say: A lamp is told by its number, .. what it hides")

    def test_clauses_that_nobody_quotes_are_listed(self):
        said = self.passes(*self.against())
        self.assertIn("What is on the bench: 3 of 3 clauses are quoted by nobody\n    Two lamps.\n", said)
        self.assertIn("Events and their numbers: 0 of 1 ", said)
        self.assertIn("The channel: 0 of 4 ", said)
        self.assertIn("Divisor list (page 3): 1 of 1 clauses are quoted by nobody\n    No divisor at all.\n", said)

    def test_half_a_clause_is_not_enough(self):
        self.write("crates/lamp/specs/BellLaws.antt", LAWS.replace(" once (none: 0).", ""))
        self.assertIn("    The bell rings once (none: 0).\n", self.passes(*self.against()))

    def test_chapter_that_is_to_be_complete(self):
        self.passes(*self.against("--complete", "The channel", "The controller"))
        self.fails('"Divisor list" is to be complete', *self.against("--complete", "Divisor list", "The channel"))

    def test_every_chapter_is_to_be_complete_where_none_is_named(self):
        self.fails('"What is on the bench" is to be complete', *self.against("--complete"))
        self.fails('"Divisor list" is to be complete', *self.against("--complete"))

    def test_excused_passages(self):
        self.write("docs/unquoted.txt", "# why not\nNot built now: dimmers. -- left out\n")
        self.assertIn("What is on the bench: 1 of 3 ", self.passes(*self.against()))

    def test_excuse_that_is_quoted_or_absent_or_has_no_reason_fails(self):
        self.write("docs/unquoted.txt", "lamp above 1 -- not needed\n")
        self.fails('quoted after all: "lamp above 1"', *self.against())
        self.write("docs/unquoted.txt", "Three lamps. -- not needed\n")
        self.fails('document 01 does not say "Three lamps."', *self.against())
        self.write("docs/unquoted.txt", "Two lamps.\n")
        self.fails("docs/unquoted.txt:1: expected PASSAGE -- REASON")

    # ---- document 02

    def beside(self, *words):
        return self.against("--and", str(self.root / "requests.md"), *words)

    def lands_two(self):
        """Ticket 2 as it lands: quoted, excused and amending, with the quotation of what it amends gone."""
        self.write("crates/lamp/specs/Lamp.antt", SPECS.replace('-- "Lamp 1 is red"\n', ""))
        self.write("crates/lamp/specs/Blue.antt", BLUE)
        self.write("docs/amended.txt", "# colours\n" + AMENDED)
        self.write("docs/unquoted.txt", EXCUSED)

    def test_page_tells_a_ticket_from_document_01(self):
        self.passes()
        before = self.page()
        self.assertTrue(before.startswith("# From document 01 to its definitions\n"))
        self.assertIn("| Document 01 | Definition | File |", before)
        self.write("crates/lamp/specs/Dimmer.antt", DIMMER)
        self.passes(*self.beside("--landed", "1"))
        after = self.page()
        self.assertTrue(after.startswith("# From documents 01 and 02 to their definitions\n"))
        for text in ("Two lamps.", "lamp above 1"):
            self.assertIn(f"\n| {text} | `glow` | crates/lamp/specs/Dimmer.antt |\n", after)
        self.assertTrue(after.endswith("\n## Ticket 1. A dimmer\n\n| A ticket | Definition | File |\n|---|---|---|\n"
                                       "| ticket 1: Turned half: the lamp glows dimly; it hums. | `glow` | crates/lamp/specs/Dimmer.antt |\n"), after)

    def test_page_is_the_same_without_document_02(self):
        self.write("crates/lamp/specs/Dimmer.antt", DIMMER)
        self.passes(*self.beside("--landed", "1"))
        made = self.page()
        for words in ((), self.against("--landed", "1"), ("--and", str(self.root / "requests.md"), "--landed", "1")):
            self.passes(*words)
            self.assertEqual(self.page(), made)

    def test_each_quotation_is_held_to_its_own_document(self):
        self.write("crates/lamp/specs/Dimmer.antt", DIMMER)
        self.passes(*self.beside("--landed", "1"))
        self.write("crates/lamp/specs/Dimmer.antt", DIMMER.replace("Ticket 1: ", ""))
        self.fails('Dimmer.antt:1: glow: document 01 does not say "Turned half: ', *self.beside("--landed", "1"))
        self.write("crates/lamp/specs/Dimmer.antt", DIMMER.replace("Document 01: ", ""))
        self.fails('Dimmer.antt:1: glow: ticket 1 does not say "lamp above 1"', *self.beside("--landed", "1"))
        self.write("crates/lamp/specs/Dimmer.antt", DIMMER.replace("Ticket 1: ", "Ticket 2: "))
        self.fails('glow: ticket 2 does not say "Turned half: ', *self.beside("--landed", "2"))

    def test_quotation_of_a_ticket_needs_no_document_02(self):
        self.write("crates/lamp/specs/Dimmer.antt", DIMMER)
        self.passes(*self.against("--landed", "1"))

    def test_no_ticket_has_landed_unless_named(self):
        self.passes(*self.beside())
        self.write("crates/lamp/specs/Dimmer.antt", DIMMER)
        self.fails("Dimmer.antt:1: glow: ticket 1 has not landed", *self.beside())
        self.fails("document 02 has no ticket 3", *self.beside("--landed", "1", "3"))

    def test_clause_of_a_landed_ticket_that_nobody_quotes_fails(self):
        self.write("crates/lamp/specs/Dimmer.antt", DIMMER.replace("; it hums.", ""))
        self.fails("ticket 1 has landed, and 1 of its clauses are quoted by nobody", *self.beside("--landed", "1"))
        self.assertIn("Ticket 1. A dimmer: 1 of 3 clauses are quoted by nobody\n    it hums.\n", self.run_it(*self.beside("--landed", "1"))[1])

    def test_ticket_that_is_quoted_excused_and_listed_passes(self):
        self.lands_two()
        said = self.passes(*self.beside("--landed", "2", "--complete", "Tasting spoons"))
        self.assertIn("Ticket 2. Blue lamps: 0 of 3 ", said)
        self.write("docs/unquoted.txt", "")
        self.fails("ticket 2 has landed, and 1 of its clauses", *self.beside("--landed", "2"))

    def test_words_of_the_ticket_in_the_list_of_amendments_count(self):
        self.lands_two()
        self.write("crates/lamp/specs/Blue.antt", BLUE.replace('"Lamp 1 is blue", ', ""))
        self.passes(*self.beside("--landed", "2"))
        self.write("docs/amended.txt", AMENDED.replace('"', ""))
        self.fails("ticket 2 has landed, and 1 of its clauses", *self.beside("--landed", "2"))
        self.write("docs/amended.txt", AMENDED.replace("is blue", "is green"))
        self.fails('docs/amended.txt: ticket 2 does not say "Lamp 1 is green from now on"', *self.beside("--landed", "2"))

    def test_page_tells_what_is_amended_where_document_01_says_it(self):
        row = '| Lamp 1 is red. | amended by ticket 2: it is another colour, "Lamp 1 is blue from now on" | docs/amended.txt |'
        self.passes(*self.beside())
        self.assertNotIn("amends", self.page())
        self.lands_two()
        self.passes(*self.beside("--landed", "2"))
        made = self.page()
        self.assertIn("A passage of document 01 that a ticket amends", made)
        chapter = next(part for part in made.split("\n## ") if part.startswith("Tasting spoons"))
        self.assertIn(f"| Document 01 | Definition | File |\n|---|---|---|\n{row}\n", chapter)
        # and it keeps its place where the document is not at hand
        self.passes()
        self.assertEqual(self.page(), made)
        self.write("docs/amended.txt", AMENDED.replace("another colour", "no longer red"))
        self.fails("docs/READING.md is out of date", "--check")

    def test_amended_passage_need_not_be_quoted(self):
        self.lands_two()
        self.write("docs/amended.txt", "")
        self.fails('"Tasting spoons" is to be complete', *self.beside("--landed", "2", "--complete", "Tasting spoons"))

    def test_quotation_of_an_amended_passage_fails(self):
        self.lands_two()
        self.write("crates/lamp/specs/Lamp.antt", SPECS)
        self.fails('Lamp.antt:11: refused: document 01 is amended where it says "Lamp 1 is red"', *self.beside("--landed", "2"))
        # the same words at another place, which is not amended
        self.write("paper.md", DOCUMENT + "\n## More\n\nLamp 1 is red at night.\n")
        self.passes(*self.beside("--landed", "2"))

    def test_amendment_that_cannot_be_fails(self):
        self.lands_two()
        self.write("docs/amended.txt", AMENDED.replace("is red", "is green"))
        self.fails('docs/amended.txt: document 01 does not say "Lamp 1 is green."', *self.beside("--landed", "2"))
        self.write("docs/amended.txt", AMENDED + "Two lamps. -- ticket 1: three\n")
        self.fails("docs/amended.txt: ticket 1 has not landed", *self.beside("--landed", "2"))
        self.write("docs/amended.txt", "Lamp 1 is red. -- it is blue\n")
        self.fails("docs/amended.txt:1: expected PASSAGE -- ticket N: WHAT")

    def test_excuse_of_a_ticket_that_is_quoted_or_absent_or_early_fails(self):
        self.lands_two()
        self.write("docs/unquoted.txt", EXCUSED + "ticket 2: Lamp 1 is blue -- not needed\n")
        self.fails('quoted after all: "Lamp 1 is blue"', *self.beside("--landed", "2"))
        self.write("docs/unquoted.txt", EXCUSED + "ticket 2: Pupils see red. -- not needed\n")
        self.fails('docs/unquoted.txt: ticket 2 does not say "Pupils see red."', *self.beside("--landed", "2"))
        self.write("docs/unquoted.txt", EXCUSED + "ticket 1: it hums. -- not needed\n")
        self.fails("docs/unquoted.txt: ticket 1 has not landed", *self.beside("--landed", "2"))


if __name__ == "__main__":
    unittest.main()
