"""tools/before/07-names on a small tree: what it holds together passes, and each thing that comes apart is told."""
import unittest

from room import Room, load
from small_manual import FILES, HELP, KINDS

check = load("before/07-names")

# The rows of the small tree's table of causes, each with its words.
LATE, LATE_ROW = '    // "0C time-out (IER bit 0)"\n', "    Row(LATE, Settings::IER_DATA, When::Late),\n"
MOVED, MOVED_ROW = '    // "00 a change (bit 3)"\n', "    Row(MOVED, Settings::IER_MODEM, When::Moved),\n"


class Names(Room):
    def setUp(self):
        super().setUp()
        for name, value in (("WHOLE", {"Kind": 2, "Command": 2}), ("BITS", {"Mark": 2, "LSR": 2, "MSR": 1, "Level": 1})):
            self.addCleanup(setattr, check, name, getattr(check, name))
            setattr(check, name, value)
        for name, text in FILES.items():
            self.write(name, text)
        self.script("bench", HELP)

    def told(self, name, old, new):
        """What is said once a text is another, in one file."""
        self.assertIn(old, FILES[name])
        self.write(name, FILES[name].replace(old, new))
        said = list(check.faults(self.root))
        self.write(name, FILES[name])
        return "\n".join(said)

    def assertTold(self, fault, *change):
        self.assertIn(fault, self.told(*change))

    def test_all_that_agrees_passes(self):
        self.assertEqual(list(check.faults(self.root)), [])

    def test_another_number_in_the_code(self):
        self.assertTold("LCR_BREAK is 6 here, and 5 in crates/base/src/lib.rt", "crates/base/src/lib.rt", "BREAK: u8 = 6", "BREAK: u8 = 5")
        self.assertTold("END is 1 here, and 2", "crates/base/src/lib.rt", "0b001", "0b010")

    def test_another_number_in_the_header(self):
        header = "include/hailstoat.h"
        self.assertTold("LCR_BREAK would be 0x40 in include/hailstoat.h, which has 0x6", header, "0x40u", "6")
        self.assertTold("FIFO would be 0x1 in include/hailstoat.h, which has 0x2", header, "1u << 0", "1u << 1")
        self.assertTold("END would be 0x20 in include/hailstoat.h, which has 0x1", header, "END 0x20", "END 1")
        self.assertTold("READ would be 0x0 in include/hailstoat.h, which has 0x5", header, "READ = 0", "READ = 5")
        self.assertTold("SEAT_ABOVE would be 0x1 in include/hailstoat.h, which has 0x2", header, "SEAT_ABOVE = 1", "SEAT_ABOVE = 2")

    def test_another_number_in_the_manual(self):
        self.assertTold("docs/MANUAL.md:30: LATE would be 0x4 in include/hailstoat.h, which has 0xc", "docs/MANUAL.md", "| 0C |", "| 04 |")

    def test_a_name_that_nobody_has(self):
        self.assertTold("neither the rooms nor include/hailstoat.h have LATER", "docs/MANUAL.md", "`LATE`", "`LATER`")

    def test_a_name_of_a_room(self):
        self.assertTold("base::BREAK is 1 here, and 4 in crates/base/src/lib.rt", "crates/base/src/lib.rt", "BREAK: u8 = 1", "BREAK: u8 = 4")
        self.assertTold("neither the rooms nor include/hailstoat.h have queue::BREAK", "docs/MANUAL.md", "base::BREAK", "queue::BREAK")
        self.assertTold("neither the rooms nor include/hailstoat.h have base::LATE", "docs/MANUAL.md", "base::BREAK", "base::LATE")

    def test_a_name_of_the_header_that_the_manual_has_not(self):
        self.assertTold("docs/MANUAL.md does not have MORE of include/hailstoat.h",
                        "include/hailstoat.h", "READ = 0,", "READ = 0, HAILSTOAT_MORE = 2,")

    def test_a_name_of_one_side_is_enough(self):
        self.assertEqual(self.told("include/hailstoat.h", "#define HAILSTOAT_END 0x20\n", ""), "")
        self.assertEqual(self.told("crates/base/src/lib.rt", "const END: u8 = 0b001;\n", ""), "")

    def test_a_table_of_names_without_a_kind_of_number(self):
        self.assertTold("no kind of number: Colour", "docs/MANUAL.md", "| IIR |", "| Colour |")

    def test_a_number_left_out_or_twice(self):
        for old, new in (("| 1 | `WRITE_PORT`", "| 2 | `WRITE_PORT`"), ("| 000 |", "| 010 |"), ("| 0 | `MARK_PARITY`", "| 1 | `MARK_PARITY`")):
            self.assertTold("the numbers of this table are not 0 to 1", "docs/MANUAL.md", old, new)
        for old, new in (("| 1-5 |", "| 1-4 |"), ("| 1-5 |", "| 1-6 |"), ("| 7 | - | nothing | `base/Refusals.order` |\n", "")):
            self.assertTold("the numbers of this table are not 0 to 7", "docs/MANUAL.md", old, new)

    def test_the_project_has_three_marks_and_four_levels(self):
        self.doCleanups()
        self.assertEqual(check.BITS, {"Mark": 3, "Level": 4})

    def test_names_that_are_not_those_of_the_definitions(self):
        for about, file, old, new in (
            ("Refusal", "crates/base/specs/Refusals.antt", "seat_above_number = 1", "seat_above_number = 2"),
            ("Refusal", "crates/base/specs/Refusals.antt", "unfoldable", "abbrev pub more_number : ℕ\nmore_number = 11\n\nunfoldable"),
            ("Refusal", "docs/MANUAL.md", "`NOT_LISTED`", "`SEAT_ABOVE`"),
            ("Kind", "crates/records/specs/Kinds.antt", "write_port_kind", "write_ports_kind"),
            ("Kind", "crates/records/specs/Kinds.antt", "write_port_kind = 1", "write_port_kind = 2"),
            ("Kind", "crates/records/specs/Kinds.antt", KINDS, ""),
            ("Mark", "crates/base/specs/Marks.antt", "mark_parity = 0", "mark_parity = 1"),
            ("Mark", "docs/MANUAL.md", "`MARK_BREAK`, `base::BREAK`", "`MARK_BREAK`"),
            ("Mark", "docs/MANUAL.md", "| Mark of", "| A mark of"),
        ):
            with self.subTest(file=file, new=new):
                self.assertTold(f"{about}: the names of docs/MANUAL.md and", file, old, new)

    def test_names_of_definitions_that_code_or_header_have_not(self):
        code = "crates/base/src/lib.rt"
        self.assertTold("crates/base does not have refusal NOT_LISTED once, as 10", code, "NotListed", "Unlisted")
        self.assertTold("crates/base does not have mark MARK_PARITY once, as 0", code, "MARK_PARITY", "PARITY")
        self.assertTold("crates/base does not have mark BREAK once, as 1", code, "const BREAK: u8 = 1", "const BREAK: u8 = 4")
        self.assertTold("crates/records does not have kind READ once, as 0", "crates/records/src/lib.rt", "READ", "TAKE")
        header = "include/hailstoat.h"
        self.assertTold("has no refusal 10, NOT_LISTED", header, "HAILSTOAT_NOT_LISTED = ", "HAILSTOAT_UNLISTED = ")
        self.assertTold("has no kind 0, READ", header, "HAILSTOAT_READ = ", "HAILSTOAT_TAKE = ")
        self.assertTold("has no mark 1, MARK_BREAK or base::BREAK", header, "#define HAILSTOAT_MARK_BREAK 0x02\n", "")

    def test_refusals_of_a_kind_that_are_not_those_of_its_definition(self):
        manual, specs = "docs/MANUAL.md", "crates/registers/specs/Refusals.antt"
        for told in ("1, 8", "8", "8, 1, 9", "none"):
            self.assertTold("docs/MANUAL.md:8: the refusals of this kind are [8, 1], by the definitions", manual, "| 8, 1 |", f"| {told} |")
        self.assertTold("docs/MANUAL.md:8: the refusals of this kind are [1]", specs, "number = not_ready_number", "number = seat_above_number")
        self.assertTold("docs/MANUAL.md:7: the refusals of this kind are [8, 1]", specs,
                        "(Read n) = []", "(Read n) = record { number = not_ready_number } ∷ []")
        self.assertTold("docs/MANUAL.md:8: the refusals of this kind are [1, 8]", "crates/base/specs/Refusals.antt",
                        "    not_ready_number\n    ∷ seat_above_number\n", "    seat_above_number\n    ∷ not_ready_number\n")

    def test_a_table_without_definitions(self):
        self.assertTold("docs/MANUAL.md:30: a table without a column Definition",
                        "docs/MANUAL.md", "| IIR | Name | Enabled by | Definition |", "| IIR | Name | Enabled by | What |")

    def test_other_words_of_a_refusal(self):
        self.assertTold("refusal 1: docs/MANUAL.md says 'seat above 7', include/hailstoat.h 'seat above 8'",
                        "include/hailstoat.h", '"seat above 7"', '"seat above 8"')
        self.assertTold("refusal 10: docs/MANUAL.md says 'not in the list', include/hailstoat.h None",
                        "include/hailstoat.h", "case HAILSTOAT_NOT_LISTED:", "default:")
        self.script("bench", HELP.replace("above 7", "above 8"))
        self.assertIn("refusal 1: docs/MANUAL.md says 'seat above 7', bench --help 'seat above 8'", "\n".join(check.faults(self.root)))
        self.script("bench", HELP.replace("  1  ", ""))
        self.assertIn("refusal 1: docs/MANUAL.md says 'seat above 7', bench --help None", "\n".join(check.faults(self.root)))

    def test_another_divisor(self):
        for old, new in (("| 1536 | -", "| 1537 | -"), ("| 1536 | - | -", "| 1536 | 2048 | -"), ("| 750 | 1536 | - | - |\n", "")):
            self.assertTold("the divisor list of docs/MANUAL.md is not that of crates/rates/src/lib.rt", "docs/MANUAL.md", old, new)
        self.assertTold("the divisor list of", "crates/rates/src/lib.rt", "3840", "3841")

    def test_a_table_of_causes_that_the_manual_does_not_show(self):
        manual, code = "docs/MANUAL.md", "crates/status/src/lib.rt"
        late, moved = LATE + LATE_ROW, MOVED + MOVED_ROW
        for file, old, new in (
            (code, late + moved, moved + late),
            (code, "When::Late", "When::Moved"),
            (manual, moved, ""),
            (manual, LATE, ""),
            (manual, "```rust crates", "```rust ./crates"),
        ):
            with self.subTest(file=file, new=new):
                self.assertTold(f"docs/MANUAL.md does not show the table of causes of {code} as it stands there", file, old, new)

    def test_a_table_of_causes_that_is_laid_out_otherwise(self):
        code = "crates/status/src/lib.rt"
        for old, new in (
            (MOVED + MOVED_ROW, ""),
            (MOVED_ROW, "    // " + MOVED_ROW.lstrip()),
            (MOVED, ""),
            (MOVED_ROW, MOVED_ROW.replace("Settings::IER_MODEM", "3")),
            (MOVED_ROW, MOVED_ROW.replace("\n", " // the last\n")),
            ("const CAUSES", "const ROWS"),
        ):
            with self.subTest(new=new):
                self.assertTold(f"{code}: the table of causes has not a row a line, each under its words", code, old, new)

    def test_a_cause_under_the_words_of_another(self):
        code, moved = "crates/status/src/lib.rt", "MOVED, enabled by IER_MODEM, stands under words that are not its own"
        for file, old, new in (
            (code, "00 a change (bit 3)", "00 a change (bit 2)"),
            (code, "00 a change (bit 3)", "02 a change (bit 3)"),
            (code, "00 a change (bit 3)", "00 another change (bit 3)"),
            (code, "00 a change (bit 3)", "00 a change"),
            ("crates/status/specs/Status.antt", "change (bit 3)", "move (bit 3)"),
            ("crates/registers/src/lib.rt", "MOVED: u8 = 0x00", "MOVED: u8 = 0x02"),
            ("crates/registers/src/lib.rt", "IER_MODEM: u8 = 3", "IER_MODEM: u8 = 2"),
        ):
            with self.subTest(file=file, new=new):
                self.assertTold(moved, file, old, new)

    def test_causes_that_are_told_otherwise_than_the_code_has_them(self):
        late = "| 0C | `LATE` | IER bit 0 | `base/Refusals.order` | time-out |\n"
        moved = "| 00 | `MOVED` | IER bit 3 | `base/Refusals.order` | a change |\n"
        for old, new in (
            (late + moved, moved + late), (moved, ""), (late, late + late), ("IER bit 3", "IER bit 2"), (late, late.replace("`LATE`", "-")),
        ):
            with self.subTest(new=new):
                self.assertTold("the causes of docs/MANUAL.md are", "docs/MANUAL.md", old, new)

    def test_a_definition_that_is_not_there(self):
        self.assertTold("crates/base/specs/Refusals.antt does not define gone",
                        "docs/MANUAL.md", "`LATE` | IER bit 0 | `base/Refusals.order`", "`LATE` | IER bit 0 | `base/Refusals.gone`")
        self.assertTold("crates/base/specs/Gone.antt does not define order", "docs/CHANGING.md", "base/Refusals.order", "base/Gone.order")
        self.assertTold("docs/MANUAL.md:30: no definition",
                        "docs/MANUAL.md", "`LATE` | IER bit 0 | `base/Refusals.order`", "`LATE` | IER bit 0 | order")

    def test_a_function_that_is_not_there(self):
        self.assertTold("docs/CHANGING.md:5: crates/rates/src/lib.rt has no function rows", "docs/CHANGING.md", "`row`", "`rows`")

    def test_a_quotation_that_is_not_there(self):
        self.assertTold("crates/base/specs/Refusals.antt does not have 'abbrev pub seat_above_number : ℕ'", "docs/NOTATION.md", "= 1\n", "= 2\n")
        self.assertTold("does not have", "docs/NOTATION.md", "abbrev pub", "pub")
        self.assertTold("docs/NOTATION.md quotes nothing", "docs/NOTATION.md", "```antt ", "```")
        self.assertTold("docs/MANUAL.md: crates/status/src/lib.rt does not have 'const CAUSES: [Row; 2] = ['",
                        "docs/MANUAL.md", "When::Late", "When::Now")
        self.assertTold("docs/MANUAL.md quotes nothing", "docs/MANUAL.md", "```rust ", "```")

    def test_a_page_that_is_not_there(self):
        for page in ("docs/MANUAL.md", "docs/CHANGING.md", "docs/NOTATION.md"):
            (self.root / page).unlink()
            self.assertIn(f"there is no {page}", "\n".join(check.faults(self.root)))


if __name__ == "__main__":
    unittest.main()
