"""The lessons and their template, which bench each starts from and which seat is compared in two; and the control sheets."""
import re
from pathlib import Path

from manual import quoted, tables

FOLDER = Path(__file__).resolve().parent.parent / "lessons"
LESSONS = sorted(FOLDER.glob("*.hex"))
SHEETS = sorted(FOLDER.glob("*.sheet"))
TEMPLATE = FOLDER / "template/NN-title.hex"


class Malformed(Exception):
    """A text that is no lesson, or a sheet's page that is none: what is wrong."""


def text_of(lesson):
    return lesson.read_text("latin-1")


def digits_of(line):
    return "".join(line.split("#")[0].split())


def records(text):
    """The bytes of a lesson, each line of which holds whole records; but the last may be cut off, for refusal 4."""
    lines = [(number, digits_of(line)) for number, line in enumerate(text.splitlines(), 1) if digits_of(line)]
    for number, digits in lines:
        size = 8 if number < lines[-1][0] else 2
        if len(digits) % size or not re.fullmatch(r"[0-9A-Fa-f]*", digits):
            raise Malformed(f"line {number} does not hold whole records")
    return bytes.fromhex("".join(digits for _, digits in lines))


def goes_on_from(lesson):
    """The lesson whose last bench this one starts from, as a line of its text says; None where it starts from power-up."""
    said = re.search(r"(?m)^# goes on from: (\S+)$", text_of(lesson))
    return lesson.with_name(f"{said[1]}.hex") if said else None


def compared_with(lesson):
    """The lesson that has the same happen to a seat, and that seat, as a line of this one's text says; None where none does."""
    said = re.search(r"(?m)^# compare seat ([0-7]) with: (\S+)$", text_of(lesson))
    return (lesson.with_name(f"{said[2]}.hex"), int(said[1])) if said else None


def lines_of(cells):
    """What stands in the cells in backquotes, a line each."""
    return "".join(f"{line}\n" for cell in cells for line in quoted(cell)).encode()


def sheet_runs(sheet):
    """What the page beside a sheet says, in its tables: the words that bench is given, the lines, and the answers to them.

    A table of lines has a column of answers for each clock; one of numbers has one column. The lines are those of the file
    that a class runs.
    """
    for _, titles, rows in tables(sheet.with_suffix(".md").read_text("utf-8")):
        columns = dict(zip(titles, zip(*rows)))
        if titles[0] not in ("Line", "Numbers"):
            continue
        given = (sheet if titles[0] == "Line" else sheet.with_suffix(".numbers")).read_bytes()
        if lines_of(columns[titles[0]]) != given:
            raise Malformed(f"its table of {titles[0]} has other lines than the file")
        for title, cells in columns.items():
            clock = re.fullmatch(r"At clock (\d)", title)
            if clock or title == "Answer":
                yield ("--settings", clock[1]) if clock else ("--settings-write",), given, lines_of(cells)
