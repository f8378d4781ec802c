"""What docs/MANUAL.md is held to: the tables of a page, the constants of the rooms, the numbers of the C header, and the names and
numbers of the definitions."""
import re

HEADER = "include/hailstoat.h"

# The rooms whose constants are the bench's own numbers.
ROOMS = ("base", "queue", "registers", "receiver", "transmitter", "status", "channel", "records", "rank", "controller")


def read(root, name):
    path = root / name
    return path.read_text("utf-8") if path.exists() else ""


# ---- tables

def tables(page):
    """The tables of a page: the number of the first row's line, the titles of the columns, and the rows as lists of cells."""
    rows, start = [], None
    for number, line in enumerate([*page.splitlines(), ""], 1):
        if line.startswith("|"):
            start = start or number + 2
            rows.append([cell.strip() for cell in line.strip().strip("|").split("|")])
        elif rows:
            yield start, rows[0], rows[2:]
            rows, start = [], None


def rows_of(root, name):
    """Each row of a page's tables, as what it has under each title, with its place."""
    for start, titles, rows in tables(read(root, name)):
        for number, cells in enumerate(rows, start):
            yield f"{name}:{number}", titles, dict(zip(titles, cells))


def quoted(cell):
    return re.findall(r"`([^`]+)`", cell)


# ---- numbers

def number_of(text):
    """A number as code and header write it, or None."""
    shift = re.fullmatch(r"\(?1u? << (\d+)\)?", text)
    if shift:
        return 1 << int(shift[1])
    plain = re.fullmatch(r"(0x[0-9A-Fa-f_]+|0b[01_]+|\d[\d_]*)u?", text)
    return plain and int(plain[1], 0)


CONSTANT = r"(?m)^\s*(?:pub(?:\(crate\))? )?const ([A-Z0-9_]+): u\w+ = ([^;\[]+);"
CASE = r"(?m)^\s+([A-Z][a-z]\w*) = (\d+),$"


def constants(root):
    """The constants of the rooms, and the cases of their enums that have a number, spelt as constants: of each name every file and
    number that it stands for."""
    found = {}
    for room in ROOMS:
        for path in sorted((root / "crates" / room / "src").rglob("*.rt")):
            code = path.read_text("utf-8")
            cases = [(re.sub(r"(?<=.)(?=[A-Z])", "_", name).upper(), text) for name, text in re.findall(CASE, code)]
            for name, text in re.findall(CONSTANT, code) + cases:
                found.setdefault(name, []).append((path.relative_to(root).as_posix(), number_of(text)))
    return found


def header_numbers(root):
    """The numbers of the header by their names without the prefix: of an enumeration, or defined."""
    found = re.findall(r"\bHAILSTOAT_([A-Z0-9_]+)(?: *= *| +)(\(?1u? << \d+\)?|0x[0-9A-Fa-f]+u?|\d+u?)", read(root, HEADER))
    return {name: number_of(text) for name, text in found}


# ---- definitions

def defined(root, file):
    """The numbers that a file of definitions gives names to, by the name that code has for each: seat_above_number is SEAT_ABOVE."""
    found = re.findall(r"(?m)^abbrev pub (\w+) : ℕ\n\1 = (\d+)$", read(root, file))
    return {spelt(name): int(number) for name, number in found}


def spelt(name):
    return re.sub(r"_(?:number|kind)$", "", name).upper()


def grounds(root, room, event):
    """The refusals that the definition `grounds` of a room lists for an event, by the names that code has."""
    clause = re.search(rf"(?m)^grounds \w+ \(?{event}\b.*(?:\n +.*)*", read(root, f"crates/{room}/specs/Refusals.antt"))
    return [spelt(name) for name in re.findall(r"\bnumber = (\w+)", clause[0])] if clause else []


def order(root, file):
    """The order in which the refusals are tried."""
    body = re.search(r"(?m)^refusal_order =((?:.*\n)(?: +.*\n)*)", read(root, file))
    return [spelt(name) for name in re.findall(r"\b[a-z]\w*", body[1])] if body else []
