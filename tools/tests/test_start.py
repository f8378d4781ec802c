"""Tests of bench: streams, words and input, which are looked at before anything is built, the version, the stack and
signals."""
import os
import pty
import resource
import unittest

from room import TOP
from standins import LESSON, LIMIT, Start

KIB = 1024
RECORD = b"\7\0\0\x13"

CLOSED_INPUT = "bench: standard input is closed; there are no records to read. For a lesson: bench LESSON\n"
CLOSED_OUTPUT = "bench: standard output is closed; there is nowhere for the listing\n"
TEXT = "bench: standard input begins like a lesson's text; it is read as records, byte for byte. For a lesson: bench LESSON\n"
CLOSED_SHEET = "bench: standard input is closed; there are no lines to read\n"
CLOSED_ANSWERS = "bench: standard output is closed; there is nowhere for the answers\n"
SHEETS = (("--settings", "0"), ("--settings-write",))
TERMINAL = "bench: waiting for records on standard input, four bytes each; Ctrl-D ends them. For a lesson: bench LESSON\n"


class Streams(Start):
    """Streams that are closed. Nothing is built for what cannot be run."""

    def closed(self, streams, *words):
        return self.run_it(*words, before=("bash", "-c", f'exec "$0" "$@" {streams}'))

    def test_input_that_is_closed(self):
        self.assertEqual(self.closed("<&-"), (1, "", CLOSED_INPUT))
        self.assertEqual(self.asked(), [])

    def test_lesson_needs_no_input(self):
        self.built()
        self.assertEqual(self.closed("<&-", "lesson.hex"), (0, "given lesson.hex\n", ""))

    def test_output_that_is_closed(self):
        for words in ((), ("lesson.hex",)):
            self.assertEqual(self.closed(">&-", *words), (1, "", CLOSED_OUTPUT))
        self.assertEqual(self.asked(), [])

    def test_sheet_needs_both(self):
        for words in SHEETS:
            self.assertEqual(self.closed("<&-", *words), (1, "", CLOSED_SHEET))
            self.assertEqual(self.closed(">&-", *words), (1, "", CLOSED_ANSWERS))
            self.assertEqual(self.closed("<&- >&-", *words), (1, "", CLOSED_ANSWERS))
        self.assertEqual(self.asked(), [])

    def test_standard_error_that_is_closed(self):
        self.assertEqual(self.closed("2>&-", "lesson.hex"), (0, "given lesson.hex\n", ""))
        self.assertEqual(self.asked(), ["run bench_main"])
        self.script("target/bin/bench_main", "#!/bin/sh\nprintf '\\001a fault\\n' >&2\n")
        self.assertEqual(self.closed("2>&-", "lesson.hex"), (1, "", ""))
        self.assertEqual(self.closed("<&- >&- 2>&-"), (1, "", ""))


class Names(Start):
    """A lesson may have any name."""

    def test_name_that_begins_like_an_option(self):
        self.built()
        self.write("-lesson.hex", LESSON)
        self.assertEqual(self.run_it("--", "-lesson.hex"), (0, "given -- -lesson.hex\n", ""))
        self.assertEqual(self.run_it("--", "-none"), (1, "", "-none: No such file or directory\n"))


class Words(Start):
    """They are looked at before anything is built."""

    def tearDown(self):
        self.assertEqual(self.asked(), [])

    def test_lesson_that_cannot_be_read(self):
        self.assertEqual(self.run_it("no: lesson"), (1, "", "no: lesson: No such file or directory\n"))
        self.assertEqual(self.run_it("bin"), (1, "", "bin: Is a directory\n"))
        self.assertEqual(self.run_it("lesson.hex/x"), (1, "", "lesson.hex/x: Not a directory\n"))
        name = 5000 * "x"
        self.assertEqual(self.run_it(name), (1, "", f"{name}: File name too long\n"))

    def test_wrong_words_are_answered_with_the_usage(self):
        for told, *wrong in (
                ("there is no option --lesson", ("--lesson",), ("--lesson", "lesson.hex")),
                ("there is no option -", ("-",)),
                ("too few words behind --", ("--",), ("lesson.hex", "--")),
                ("too few words behind --save-at", ("--save-at",), ("--save-at", "3"), ("lesson.hex", "--save-at", "end")),
                ("too few words behind --restore", ("--restore",), ("--save-at", "3", "a", "--restore")),
                ("a lesson's name is empty", ("",), ("--", ""), ("--save-at", "", "", "")),
                ("one lesson at a time", ("lesson.hex", "lesson.hex"), ("--", "lesson.hex", "lesson.hex"), ("lesson.hex", ""),
                 ("lesson.hex", "--save-at", "3", "a", "--", "lesson.hex")),
                ("--settings is followed by a clock, and by nothing else", ("--settings",), ("--settings", "0", "1"),
                 ("--settings", "0", "lesson.hex")),
                ("a clock is a decimal number", ("--settings", ""), ("--settings", "x"), ("--settings", "-1"), ("--settings", "+1"),
                 ("--settings", "1 "), ("--settings", "0x1"), ("--settings", "1.5"), ("--settings", "lesson.hex"),
                 ("--settings", "\u0661"), ("--settings", "1\n")),
                ("--settings-write stands alone", ("--settings-write", "0"), ("--settings-write", "")),
                ("there is no option --settings=0", ("--settings=0",)),
                ("--settings stands without a lesson and without options", ("lesson.hex", "--settings"), ("--save-at", "3", "a", "--settings", "0")),
                ("--help stands without a lesson and without options", ("lesson.hex", "--help")),
                ("there is no option --save-at=3", ("--save-at=3", "a")),
                ("--help stands alone", ("--help", "me"), ("--help", "--settings"))):
            for words in wrong:
                status, listing, said = self.run_it(*words)
                self.assertEqual((status, listing), (2, ""), words)
                self.assertTrue(said.startswith(f"bench: {told}\nusage: bench [OPTIONS] [--] LESSON >LISTING\n"), (words, said[:80]))

    def test_help(self):
        status, said, _ = self.run_it("--help")
        self.assertEqual((status, said.split("\n")[0]), (0, "usage: bench [OPTIONS] [--] LESSON >LISTING"))
        self.assertEqual(self.run_it("-h")[1], said)

    def test_missing_toolchain_is_told_first(self):
        self.no_toolchain()
        path = self.only("bash", "dirname", "readlink", "find", "uname")
        status, listing, said = self.run_it("lesson.hex", settings={"PATH": path})
        self.assertEqual((status, listing), (2, ""))
        self.assertRegex(said, r"^The Rattle toolchain is missing: [^\n]* README\.md says where it belongs\.\n$")


class Options(Start):
    """Which word is the lesson is known by how many words follow each option; all of them go to the program."""

    def setUp(self):
        super().setUp()
        self.built()
        self.write("image", "BEN")

    def goes(self, *words):
        self.assertEqual(self.run_it(*words), (0, f"given {' '.join(words)}\n", ""))

    def test_any_order(self):
        save, restore = ("--save-at", "3", "saved"), ("--restore", "image")
        for words in ((*save, "lesson.hex"), ("lesson.hex", *save), (*restore, "lesson.hex", *save, *save), ("lesson.hex", *restore),
                      (*save, "--", "lesson.hex"), ("--", "lesson.hex", *restore), ("--tallies", "lesson.hex"), ("lesson.hex", "--tallies", *save)):
            self.goes(*words)

    def test_words_behind_an_option_are_no_options_and_no_lessons(self):
        self.goes("--save-at", "--", "--restore", "lesson.hex")
        self.goes("--save-at", "none", "none", "lesson.hex")

    def test_records_without_a_lesson(self):
        self.assertEqual(self.run_it("--restore", "image", given="ab"), (0, "given --restore image\nab", ""))

    def test_saved_bench_that_cannot_be_read(self):
        for words in (("--restore", "none"), ("--restore", "none", "lesson.hex"), ("lesson.hex", "--save-at", "3", "a", "--restore", "none")):
            self.assertEqual(self.run_it(*words), (1, "", "none: No such file or directory\n"))
        self.assertEqual(self.run_it("--restore", "bin"), (1, "", "bin: Is a directory\n"))

    def test_nothing_is_built_for_it(self):
        (self.root / "target/bin/bench_main").unlink()
        self.test_saved_bench_that_cannot_be_read()
        self.test_target_that_would_be_lost()
        self.assertEqual(self.asked(), [])

    def test_target_that_would_be_lost(self):
        os.mkfifo(self.root / "pipe")
        for name in ("bin", "pipe", "/dev/null"):
            self.assertEqual(self.run_it("--save-at", "end", name, "lesson.hex"), (1, "", f"bench: {name} is no file that could be written anew\n"))
        os.unlink(self.root / "pipe")

    def test_saved_bench_through_a_pipe(self):
        os.mkfifo(self.root / "pipe")
        self.goes("--restore", "pipe", "lesson.hex")


class Marks(Start):
    """A byte before a line on standard error says what it is."""

    def says(self, text, status, told):
        for program, words in (("bench_main", ("lesson.hex",)), ("sheets_main", ("--settings-write",))):
            self.script(f"target/bin/{program}", f"#!/bin/sh\necho listed\nprintf '{text}' >&2\n")
            found = self.run_it(*words)
            self.assertEqual((*found[:2], found[2].split("usage: ")[0], "usage: " in found[2]), (status, "listed\n", told, status == 2), text)

    def test_fault(self):
        self.says(r"\001a fault\n", 1, "a fault\n")
        self.says(r"\001a fault\n\001another\n", 1, "a fault\nanother\n")

    def test_wrong_words(self):
        self.says(r"\002wrong\n", 2, "wrong\n")
        self.says(r"\001a fault\n\002wrong\n", 2, "a fault\nwrong\n")

    def test_report(self):
        self.says(r"a report\nof two lines\n", 0, "a report\nof two lines\n")
        self.says(r"a report\n\001a fault\n", 1, "a report\na fault\n")

    def test_mark_within_a_line_is_none(self):
        self.says(r"a \001name \002\n", 0, "a \1name \2\n")


class Sheets(Start):
    """Sheets have a program of their own. The clock goes to it as it is, and its input too."""

    def test_smaller_program_is_built(self):
        for words in SHEETS:
            status, answers, _ = self.run_it(*words, given="9600,E,7,2")
            self.assertEqual((status, answers), (0, f"given {' '.join(words)}\n9600,E,7,2"))
        self.assertEqual(self.asked(), ["run sheets_main"])
        self.run_it("lesson.hex")
        self.assertEqual(self.asked(), ["run sheets_main", "run bench_main"])

    def test_what_is_built_is_told(self):
        said = self.run_it("--settings", "0", given="")[2]
        self.assertTrue(said.startswith("bench: the program is proved and built first: 1 crates, "), said)
        self.assertEqual((self.root / "target/sheets-build.log").read_text("utf-8").splitlines()[-1], "logic=proved functions=3")

    def test_failure_names_its_log(self):
        status, answers, said = self.run_it("--settings-write", given="", settings={"UNPROVED": "1"})
        self.assertEqual((status, answers), (2, ""))
        self.assertEqual(said.splitlines()[-1], "bench: the program could not be built; above are the last lines of "
                                                f"{self.root}/target/sheets-build.log")

    def test_clock_of_any_length(self):
        self.built("sheets_main")
        for clock in ("0", "007", 20 * "9", 5000 * "0"):
            self.assertEqual(self.run_it("--settings", clock, given=""), (0, f"given --settings {clock}\n", ""))

    def test_word_on_standard_error_is_a_fault(self):
        self.script("target/bin/sheets_main", "#!/bin/sh\necho an answer\nprintf '\\001a fault\\n' >&2\n")
        self.assertEqual(self.run_it("--settings-write"), (1, "an answer\n", "a fault\n"))

    def test_signal_is_told_without_a_hint_on_lessons(self):
        self.built("sheets_main")
        self.assertEqual(self.run_it("--settings", "0", settings={"SIGNAL": "SEGV"}), (1, "", "bench: the program was ended by signal 11\n"))
        self.assertEqual(self.run_it("--settings", "0", settings={"SIGNAL": "PIPE"}), (141, "", ""))

    def test_clock_is_no_file(self):
        """A file of the clock's name is no long lesson, and nothing is said of the stack."""
        self.built("sheets_main")
        self.write("0", 65536 * "#")
        limit = lambda: resource.setrlimit(resource.RLIMIT_STACK, (8192 * KIB, 8192 * KIB))
        self.assertEqual(self.run_it("--settings", "0", preexec_fn=limit), (0, "given --settings 0\n", ""))

    def test_terminal_is_told_what_is_waited_for(self):
        self.built("sheets_main")
        for words, lines in zip(SHEETS, ("settings lines", "lines CLOCK DIVISOR LCR ROOM")):
            user, terminal = pty.openpty()
            self.addCleanup(os.close, user)
            running = self.started(*words, stdin=terminal)
            os.close(terminal)
            self.says(running, f"bench: waiting for {lines} on standard input; Ctrl-D ends them\n")
            os.write(user, b"ab\n\4")
            self.assertEqual(running.communicate(timeout=LIMIT), (f"given {' '.join(words)}\nab\n".encode(), b""))


class Version(Start):
    def told(self):
        status, said, faults = self.run_it("--version")
        self.assertEqual((status, faults, self.asked()), (0, "", []))
        first, *rest = said.splitlines()
        self.assertEqual(first, f"hailstoat {(TOP / 'VERSION').read_text('utf-8').strip()}")
        return rest

    def test_not_built(self):
        self.write("docs/kit", "kit 8\n")
        self.assertEqual(self.told(), ["not built yet; the tests were last passed with kit 8"])

    def test_built(self):
        self.run_it("lesson.hex")
        (self.root / "asked").unlink()
        self.assertEqual(self.told(), ["proved with kit 9"])
        self.change("// changed")
        self.assertEqual(self.told(), ["proved with kit 9", "the sources have changed since; the next use proves and builds them"])

    def test_built_by_other_means_since(self):
        for text in ("", "kit 7\n", "kit 7\n0  -\n0  -\n"):
            self.built()
            self.write("target/bin/bench_main.made", text)
            self.assertEqual(self.told(), ["proved and built; with which kit was not recorded"])


class Input(Start):
    """Remarks on the input, which change neither status nor listing."""

    def setUp(self):
        super().setUp()
        self.built()

    def from_file(self, content, skipped=0):
        (self.root / "input").write_bytes(content)
        with open(self.root / "input", "rb", buffering=0) as source:
            source.seek(skipped)
            status, listing, said = self.run_it(stdin=source)
        self.assertEqual((status, listing.encode("latin-1")), (0, b"given \n" + content[skipped:]))
        return said

    def test_text_is_told(self):
        for text in (LESSON.encode(), b"# a comment\n", b"\r\n07000013", b"\t07", b"07", b"\xef\xbb\xbf07 00",
                     "07 00".encode("utf-16"), b"\xfe\xff\x000"):
            self.assertEqual(self.from_file(text), TEXT, text)

    def test_records_are_not(self):
        for records in (b"", RECORD, b"0" + RECORD, b"000\x13", b"\x08  \n", b"~~~\x7f", b"\xef\xbb\x13\0", b"\xff\xff\xfe\0"):
            self.assertEqual(self.from_file(records), "", records)

    def test_only_what_will_be_read_counts(self):
        self.assertEqual(self.from_file(b"text" + RECORD, skipped=4), "")

    def test_pipe_is_left_alone(self):
        self.assertEqual(self.run_it(given=LESSON), (0, f"given \n{LESSON}", ""))

    def test_terminal_is_told_what_is_waited_for(self):
        user, terminal = pty.openpty()
        self.addCleanup(os.close, user)
        running = self.started(stdin=terminal)
        os.close(terminal)
        self.says(running, TERMINAL)
        os.write(user, b"ab\n\4")
        self.assertEqual(running.communicate(timeout=LIMIT), (b"given \nab\n", b""))

    def test_lesson_on_a_terminal_waits_for_nothing(self):
        user, terminal = pty.openpty()
        self.assertEqual(self.run_it("lesson.hex", stdin=terminal), (0, "given lesson.hex\n", ""))
        os.close(user)
        os.close(terminal)


class Stack(Start):
    """A lesson's text is held on the stack."""

    def setUp(self):
        super().setUp()
        self.built()

    def limited(self, soft, hard, *words):
        """The stack that the program is given, and what is said."""
        limit = lambda: resource.setrlimit(resource.RLIMIT_STACK, (soft * KIB if soft > 0 else soft, hard * KIB if hard > 0 else hard))
        status, listing, said = self.run_it(*words, settings={"STACK": "1"}, preexec_fn=limit)
        self.assertEqual(status, 0)
        return listing.splitlines()[1], said

    def test_limit_is_raised(self):
        most = resource.getrlimit(resource.RLIMIT_STACK)[1]
        if most != resource.RLIM_INFINITY:
            self.skipTest("the stack has a hard limit here")
        self.assertEqual(self.limited(8192, most, "lesson.hex"), ("65536", ""))
        self.assertEqual(self.limited(100000, most, "lesson.hex"), ("100000", ""))
        self.assertEqual(self.limited(resource.RLIM_INFINITY, most), ("65536", ""))

    def test_limit_is_raised_as_far_as_may_be(self):
        self.assertEqual(self.limited(8192, 16384, "lesson.hex"), ("16384", ""))
        self.assertEqual(self.limited(8192, 65535, "lesson.hex"), ("65535", ""))

    def test_too_small_a_stack_is_told_for_a_long_lesson(self):
        self.write("long.hex", 65536 * "#")
        self.write("usual.hex", 65535 * "#")
        told = "bench: the stack is limited to {} KiB here; a lesson of more than 65535 bytes needs 19456\n"
        self.assertEqual(self.limited(8192, 8192, "long.hex"), ("8192", told.format(8192)))
        self.assertEqual(self.limited(8192, 19455, "--", "long.hex"), ("19455", told.format(19455)))
        self.assertEqual(self.limited(8192, 19456, "long.hex"), ("19456", ""))
        self.assertEqual(self.limited(8192, 8192, "usual.hex"), ("8192", ""))
        self.assertEqual(self.limited(8192, 8192), ("8192", ""))


class Signal(Start):
    """A program that a signal ends."""

    def setUp(self):
        super().setUp()
        self.built()

    def test_signal_is_told(self):
        for name, number in (("SEGV", 11), ("KILL", 9)):
            told = f"bench: the program was ended by signal {number}; a long lesson needs a stack of 19456 KiB (ulimit -s)\n"
            self.assertEqual(self.run_it("lesson.hex", settings={"SIGNAL": name}), (1, "", told))

    def test_listing_without_a_reader_is_no_fault(self):
        self.assertEqual(self.run_it("lesson.hex", settings={"SIGNAL": "PIPE"}), (141, "", ""))


if __name__ == "__main__":
    unittest.main()
