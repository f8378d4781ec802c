"""tools/wording.py on the small tree of tools/before/07-names: manual, header and docs/TELLING.md follow the one table of words."""
from pathlib import Path

from room import Room
from small_manual import FILES
from wording import BITS, NAMES, rows, words, wrong_wording

HEADER = "include/hailstoat.h"
MANUAL = "docs/MANUAL.md"
TELLING = "docs/TELLING.md"


class Wording(Room):
    def setUp(self):
        super().setUp()
        for name, text in FILES.items():
            self.write(name, text)

    def assertTold(self, fault, name, old, new):
        """What is said once a text is another, in one file."""
        self.assertIn(old, FILES[name])
        self.write(name, FILES[name].replace(old, new))
        self.assertIn(fault, "\n".join(wrong_wording(self.root)))
        self.write(name, FILES[name])

    def test_all_that_follows_passes(self):
        self.assertEqual(list(wrong_wording(self.root)), [])

    def test_the_table_as_it_is_written(self):
        self.assertEqual(rows(self.root, "cause_words"), {12: "time-out", 0: "a change"})
        self.assertEqual(words(self.root, "lsr_words"), ["data", "holding-empty"])
        self.assertEqual((rows(self.root, "gone"), words(self.root, "gone")), ({}, []))
        self.write(NAMES, FILES[NAMES].replace("row 10", "row 1"))
        self.assertEqual(rows(self.root, "refusals_first", "refusals_later"), {1: "seat above 7 and not in the list", 8: "not ready"})

    def test_no_table_at_all(self):
        Path(self.root, NAMES).unlink()
        said = "\n".join(wrong_wording(self.root))
        for what in ("the refusals of docs/MANUAL.md", "the registers of", "the bits LSR_", "the words of the causes of docs/MANUAL.md"):
            self.assertIn(what, said)

    def test_other_words_of_a_refusal(self):
        for name, old, new in ((NAMES, "not ready", "unready"), (MANUAL, "| not ready |", "| unready |"), (NAMES, 'row 10 "', 'row 11 "')):
            self.assertTold("the refusals of docs/MANUAL.md are", name, old, new)
        self.assertTold("the refusals of docs/TELLING.md are", TELLING, "not ready", "unready")

    def test_telling_has_the_refusals_of_records_and_no_others(self):
        self.assertTold("the refusals of docs/TELLING.md are", TELLING, "| 8 | not ready |\n", "")
        self.assertTold("the refusals of docs/TELLING.md are", TELLING, "| 8 | not ready |", "| 8 | not ready |\n| 10 | not in the list |")

    def test_another_name_of_a_register(self):
        self.assertTold("the registers of docs/MANUAL.md are", MANUAL, "`THR`", "`THRU`")
        self.assertTold("the registers of docs/MANUAL.md are", NAMES, 'row 0 "RBR"', 'row 1 "RBR"')
        self.assertTold("has register 1 as DLM, which is 2 in include/hailstoat.h", HEADER, "DLM 1", "DLM 2")
        self.assertTold("has register 0 as THR, which is None in include/hailstoat.h", HEADER, "HAILSTOAT_THR", "HAILSTOAT_HOLD")

    def test_other_names_of_bits(self):
        for name, old, new in (
            (NAMES, '"holding-empty"', '"empty"'),
            (NAMES, '"data" ∷ "holding-empty"', '"holding-empty" ∷ "data"'),
            (HEADER, "LSR_DATA 0x01", "LSR_DATA 0x04"),
            (HEADER, "LSR_DATA 0x01", "LSR_DATA 0x01\n#define HAILSTOAT_LSR_MORE 0x04"),
        ):
            with self.subTest(name=name, new=new):
                self.assertTold("the bits LSR_ of include/hailstoat.h are", name, old, new)
        self.assertTold("the bits MSR_ of", HEADER, "MSR_CTS_CHANGED", "MSR_CTS_MOVED")
        self.assertTold("the bits MARK_ of", NAMES, '"parity" ∷ "break"', '"parity" ∷ "framing"')
        self.assertTold("the bits LEVEL_ of", HEADER, "LEVEL_CTS", "LEVEL_RTS")

    def test_other_words_of_bits(self):
        for _, _, of in BITS:
            with self.subTest(of=of):
                self.assertTold(f"of {of}, and crates/names/specs/Names.antt", TELLING, f"| {of} | `", f"| {of} | `more`, `")
                self.assertTold(f"docs/TELLING.md has the words None of {of}", TELLING, f"| {of} |", "| others |")

    def test_other_words_of_a_cause(self):
        for old, new in (("| time-out |", "| late |"), ("| no cause |", "| none |"), ("`base/Refusals.order` | - |", "`base/Refusals.order` | more |")):
            self.assertTold("the words of the causes of docs/MANUAL.md are", MANUAL, old, new)
        for old, new in (("C `time-out`", "C `late`"), ("0 `a change`", "2 `a change`"), ("any other `no cause`", "any other `none`"), ("IIR bits 3 to 0", "IIR")):
            self.assertTold("the words of the causes of docs/TELLING.md are", TELLING, old, new)
