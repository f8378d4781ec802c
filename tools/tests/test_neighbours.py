"""Tests of tools/before/31-neighbours: of two lessons the lines of one seat are the same, or what differs is told."""
import subprocess
import unittest

from room import Room

# Seat 1: a character, a master reset, a read.
ALONE = "02 01 00 47\n05 00 00 00\n00 01 05 00\n"
ALONE_LISTING = "0 0 000 0\n1 0 000 0\n2 0 060 0\n"
ALONE_WORDS = """\
0 0 000 0   47 'G' arrives at seat 1; line 1 rises
            # a G
1 0 000 0   master reset of all eight seats; line 1 falls
2 0 060 0   seat 1 reads LSR
            LSR 60: holding-empty empty
"""
# The same behind a write of the controller, and with a record of seat 2 in its midst.
SAID = "# compare seat 1 with: 01-alone\n"
FULL = SAID + "07 00 00 13\n02 01 00 47\n02 02 00 41\n05 00 00 00\n00 01 05 00\n"
FULL_LISTING = "0 0 000 0\n1 0 000 1\n2 0 000 1\n3 0 000 0\n4 0 060 0\n"
FULL_WORDS = """\
0 0 000 0   controller writes ICW1 13
1 0 000 1   47 'G' arrives at seat 1; line 1 rises; output rises
            # another comment
2 0 000 1   41 'A' arrives at seat 2
3 0 000 0   master reset of all eight seats; line 1 falls
            output falls
4 0 060 0   seat 1 reads LSR; LSR 60: holding-empty empty
"""
ALONE_TALLIES = "seat 1 arrived 1\nseat 2 arrived 0\n"
FULL_TALLIES = "seat 1 arrived 1\nseat 2 arrived 1\n"


class Neighbours(Room):
    def setUp(self):
        super().setUp()
        self.copy("tools/before/31-neighbours", "tools/lessons.py", "tools/manual.py")
        self.lesson("01-alone", ALONE, ALONE_LISTING, ALONE_WORDS, ALONE_TALLIES)
        self.full()

    def lesson(self, name, text, listing, words, tallies):
        for kind, content in ((".hex", text), (".listing", listing), (".explained", words), (".tallies", tallies)):
            self.write(f"lessons/{name}{kind}", content)

    def full(self, text=FULL, listing=FULL_LISTING, words=FULL_WORDS, tallies=FULL_TALLIES):
        self.lesson("02-full", text, listing, words, tallies)

    def run_it(self):
        done = subprocess.run(["python3", "-B", self.root / "tools/before/31-neighbours"], stderr=subprocess.PIPE, encoding="utf-8")
        return done.returncode, done.stderr

    def tells(self, words):
        status, said = self.run_it()
        self.assertEqual(status, 1)
        self.assertIn(f"02-full.hex, seat 1: {words}", said)

    def test_the_same(self):
        self.assertEqual(self.run_it(), (0, ""))

    def test_another_record(self):
        self.full(text=FULL.replace("00 01 05 00", "00 01 06 00"))
        self.tells("record 2 of the seat's own: [('00 01 06 00', '0', '060',")

    def test_one_record_more(self):
        self.full(FULL + "00 01 05 00\n", FULL_LISTING + "5 0 060 0\n", FULL_WORDS + "5 0 060 0   seat 1 reads LSR\n")
        self.tells("record 3 of the seat's own: [(")

    def test_another_master_reset(self):
        self.full(text=FULL.replace("05 00 00 00", "08 00 00 00"))
        self.tells("record 1 of the seat's own: [('00 01 05 00',")

    def test_another_refusal_or_answer(self):
        for other in ("4 0 061 0", "4 2 060 0"):
            self.full(listing=FULL_LISTING.replace("4 0 060 0", other))
            self.tells("record 2 of the seat's own: [('00 01 05 00', ")

    def test_other_words(self):
        self.full(words=FULL_WORDS.replace("line 1 rises", "queued 1"))
        self.tells("record 0 of the seat's own: [('02 01 00 47', '0', '000', [\"47 'G' arrives at seat 1\", 'queued 1'])]")

    def test_another_tally(self):
        self.full(tallies=FULL_TALLIES.replace("seat 1 arrived 1", "seat 1 arrived 2"))
        self.tells("['seat 1 arrived 2'], and 01-alone.hex has ['seat 1 arrived 1']")
        self.full(tallies="")
        self.tells("[], and")

    def test_nothing_to_compare(self):
        self.full(listing=FULL_LISTING.replace(" 1\n", " 0\n"))
        self.tells("at the seat's own records the output is that of 01-alone.hex")
        self.full(SAID + ALONE, ALONE_LISTING.replace("2 0 060 0", "2 0 060 1"), ALONE_WORDS, ALONE_TALLIES)
        self.tells("it has no records but the seat's own")

    def test_files_that_do_not_fit(self):
        self.full(words=FULL_WORDS + "5 0 060 0   seat 1 reads LSR\n")
        self.tells("02-full.hex has not as many records as lines of the listing, or as pages")
        for kind in (".explained", ".tallies", ".listing"):
            self.full()
            (self.root / f"lessons/01-alone{kind}").unlink()
            self.tells(f"01-alone{kind} is missing")
            self.lesson("01-alone", ALONE, ALONE_LISTING, ALONE_WORDS, ALONE_TALLIES)

    def test_lesson_that_is_not_before_it(self):
        for other in ("02-full", "03-none"):
            self.full(text=FULL.replace("01-alone", other))
            self.tells(f"it is compared with {other}.hex, which is no lesson before it")

    def test_no_pair(self):
        self.full(text=FULL.replace(SAID, ""))
        self.assertEqual(self.run_it(), (1, "tools/before/31-neighbours: there are no two lessons of which a seat is compared\n"))


if __name__ == "__main__":
    unittest.main()
