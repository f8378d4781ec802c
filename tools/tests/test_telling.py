"""Tests of tools/before/32-telling, with a stand-in for the second program: a page that is damaged or missing is found."""
import subprocess
import unittest

from room import Room

# Of a text it tells the comment and the seat that is named, of records on standard input no comment and all eight seats.
SECOND = """\
#!/bin/sh
case $* in
*.hex) comment='            # a lamp' seats=3 ;;
*) comment= seats='0 1 2 3 4 5 6 7' state= ;;
esac
case $1 in
explain) printf '%s\\n' '0 0 000 0   seat 3 writes SCRATCH 2A' ${comment:+"$comment"} ;;
show) printf '%s\\n' '0 0 000 0' '            seat 3: LSR 60' $state ;;
vcd)
    for seat in $seats; do
        printf '%s\\n' "\\$scope module seat$seat \\$end" "\\$var wire 1 L${seat}0 lsr$seat[0] \\$end" '$upscope $end'
    done
    printf '%s\\n' '$enddefinitions $end' '#0' 0o
    for seat in $seats; do echo 0L${seat}0; done
    printf '%s\\n' '#1' '#2' ;;
esac
"""
PAGES = {
    ".explained": "0 0 000 0   seat 3 writes SCRATCH 2A\n            # a lamp\n",
    ".state": "            seat 3: LSR 60\n",
    ".vcd": "$scope module seat3 $end\n$var wire 1 L30 lsr3[0] $end\n$upscope $end\n$enddefinitions $end\n#0\n0o\n0L30\n#1\n#2\n",
}
FEWEST = {".explained": 4, ".state": 3, ".vcd": 1}

# What is done to a page, and in which of its lines that is found, from the first or behind the last.
DAMAGES = [
    (lambda page: page.replace("3", "4", 1), 1),
    (lambda page: page[1:], 1),
    (lambda page: page[page.index("\n") + 1:], 1),
    (lambda page: "", 1),
    (lambda page: page[:-1], -1),
    (lambda page: page + "#9\n", -1),
]


class Telling(Room):
    def setUp(self):
        super().setUp()
        self.copy("tools/before/32-telling", "tools/tellings.py")
        self.programs(SECOND, SECOND)
        for kind, fewest in FEWEST.items():
            for n in range(1, fewest + 1):
                self.page(n, kind, PAGES[kind])

    def page(self, n, kind, page):
        self.write(f"lessons/{n}-lamp.hex", "01 03 07 2A # a lamp\n")
        self.write(f"lessons/{n}-lamp.listing", "0 0 000 0\n")
        self.write(f"lessons/{n}-lamp{kind}", page)

    def programs(self, second, sanitized):
        self.script("program", second)
        self.script("other", sanitized)
        self.script("second/build", f'#!/bin/sh\ncp "{self.root}/program" "$1/second"\ncp "{self.root}/other" "$1/second-san"\n')

    def run_it(self):
        done = subprocess.run(["python3", "-B", self.root / "tools/before/32-telling"], stderr=subprocess.PIPE, encoding="utf-8")
        return done.returncode, done.stderr

    def found(self, *sentences):
        status, said = self.run_it()
        self.assertEqual(status, 1)
        for sentence in sentences:
            self.assertIn(f"tools/before/32-telling: {sentence}", said)

    def test_pages_as_they_are_told(self):
        self.assertEqual(self.run_it(), (0, ""))

    def test_damaged_page(self):
        sentences = []
        for kind, page in PAGES.items():
            for n, (damage, line) in enumerate(DAMAGES, 1):
                self.page(n, kind, damage(page))
                at = line if line > 0 else page.count("\n") + 1
                sentences.append(f"{n}-lamp{kind}, line {at + (kind == '.state')}: ")
        self.found(*sentences)

    def test_missing_page(self):
        for kind in PAGES:
            (self.root / f"lessons/1-lamp{kind}").unlink()
        self.found(*(f"there are {fewest - 1} pages {kind}, and there should be {fewest} or more\n" for kind, fewest in FEWEST.items()))

    def test_page_without_a_lesson(self):
        for kind in PAGES:
            self.write(f"lessons/9-none{kind}", PAGES[kind])
        (self.root / "lessons/4-lamp.listing").unlink()
        pages = ["4-lamp.explained", *(f"9-none{kind}" for kind in PAGES)]
        self.found(*(f"{page} has no lesson, or its lesson no listing\n" for page in pages))

    def test_records_alone(self):
        self.programs(SECOND.replace("comment= ", "comment='            comment' ").replace(" 3 4", " 4").replace("state= ", "state=more "), SECOND)
        self.found("1-lamp.explained without its comments, line 2: ", "1-lamp.state, line 3: ", "1-lamp.vcd of all seats, line 1: ")

    def test_each_build_is_run(self):
        self.programs(SECOND, SECOND.replace("SCRATCH", "LCR"))
        self.found("1-lamp.explained, line 1: [b'0 0 000 0   seat 3 writes SCRATCH 2A'], second-san has ")

    def test_program_that_fails(self):
        self.programs(SECOND.replace("case $*", "echo dark >&2; exit 7\ncase $*"), SECOND)
        self.found("1-lamp.state, line 1: [b'0 0 000 0'], second has [b'status 7: dark']")


if __name__ == "__main__":
    unittest.main()
