"""The one table of words, crates/names/specs/Names.antt, and what follows it: the refusals, registers, bits and causes of docs/MANUAL.md, of
include/hailstoat.h and of docs/TELLING.md."""
import re

from manual import HEADER, defined, header_numbers, order, quoted, read, rows_of

NAMES = "crates/names/specs/Names.antt"
MANUAL = "docs/MANUAL.md"
TELLING = "docs/TELLING.md"
REFUSALS = "crates/base/specs/Refusals.antt"

# The lists of bits: the name of each list, what its names begin with in the header, and what docs/TELLING.md calls it.
BITS = (
    ("lsr_words", "LSR", "LSR bits 0 to 7"),
    ("msr_words", "MSR", "MSR bits 0 to 7"),
    ("mark_words", "MARK", "marks 0 to 2"),
    ("level_words", "LEVEL", "levels 0 to 3"),
)

REGISTERS = ("registers_read", "registers_written", "registers_divisor")

REFUSED = ("refusals_first", "refusals_later")


# ---- the table

def body(root, name):
    """What a definition of the table is, as text."""
    found = re.search(rf"(?m)^{name} =(.*(?:\n +.*)*)", read(root, NAMES))
    return found[1] if found else ""


def words(root, name):
    """The words of a list, in order."""
    return re.findall(r'"([^"]*)"', body(root, name))


def rows(root, *names):
    """The words of the rows of some tables, by number; a number that is there twice has both."""
    found = {}
    for number, told in re.findall(r'\brow (\w+) "([^"]*)"', "".join(body(root, name) for name in names)):
        found.setdefault(int(number, 0), []).append(told)
    return {number: " and ".join(told) for number, told in found.items()}


# ---- what follows it

def wrong_refusals(root):
    """A complaint where the refusals are told in other words than those of the table: all in the manual, and those of records in docs/TELLING.md."""
    table = rows(root, *REFUSED)
    told = {int(row["Refusal"]): row["Words"] for _, titles, row in rows_of(root, MANUAL) if titles[0] == "Refusal"}
    if told != table or not table:
        yield f"the refusals of {MANUAL} are {told}, and of {NAMES} {table}"
    numbers = defined(root, REFUSALS)
    owed = {numbers.get(name): table.get(numbers.get(name)) for name in order(root, REFUSALS)}
    told = {int(row["Refusal"]): row["Words"] for _, titles, row in rows_of(root, TELLING) if titles[0] == "Refusal"}
    if told != owed:
        yield f"the refusals of {TELLING} are {told}, and of {NAMES} {owed}"


def wrong_registers(root):
    """A complaint where the registers have other names in the manual or in the header."""
    table = sorted((number, name) for list_name in REGISTERS for number, name in rows(root, list_name).items())
    told = sorted((int(row["Register"]), name) for _, titles, row in rows_of(root, MANUAL) if titles[0] == "Register" for name in quoted(row["Name"]))
    if told != table or not table:
        yield f"the registers of {MANUAL} are {told}, and of {NAMES} {table}"
    header = header_numbers(root)
    for number, name in table:
        if header.get(name) != number:
            yield f"{NAMES} has register {number} as {name}, which is {header.get(name)} in {HEADER}"


def named(prefix, told):
    """A word as a name of the header."""
    return f"{prefix}_{told.upper().replace('-', '_')}"


def wrong_bits(root):
    """A complaint where the bits have other names in the header, or other words in docs/TELLING.md."""
    header = header_numbers(root)
    said = {row["Of"]: quoted(row["Words"]) for _, titles, row in rows_of(root, TELLING) if titles[0] == "Of"}
    for list_name, prefix, of in BITS:
        table = words(root, list_name)
        owed = {named(prefix, told): 1 << bit for bit, told in enumerate(table)}
        there = {name: number for name, number in header.items() if name.startswith(f"{prefix}_")}
        if there != owed or not table:
            yield f"the bits {prefix}_ of {HEADER} are {there}, and by {list_name} of {NAMES} {owed}"
        if said.get(of) != table:
            yield f"{TELLING} has the words {said.get(of)} of {of}, and {NAMES} {table}"


def wrong_cause_words(root):
    """A complaint where the causes have other words in the manual's table of causes or in docs/TELLING.md."""
    table, none = rows(root, "cause_words"), words(root, "no_cause")
    causes = {int(row["IIR"], 16): row.get("Words") for _, titles, row in rows_of(root, MANUAL) if titles[0] == "IIR"}
    told = {number: said for number, said in causes.items() if said != "-"}
    if told != {**table, 1: none[0] if none else None} or not table:
        yield f"the words of the causes of {MANUAL} are {told}, and of {NAMES} {table} and {none}"
    cell = next((row["Words"] for _, titles, row in rows_of(root, TELLING) if titles[0] == "Of" and row["Of"] == "IIR bits 3 to 0"), "")
    told = {int(number, 16): said for number, said in re.findall(r"\b([0-9A-F]) `([^`]*)`", cell)}
    if told != table or re.findall(r"any other `([^`]*)`", cell) != none:
        yield f"the words of the causes of {TELLING} are {told}, and of {NAMES} {table} and {none}"


CHECKS = (wrong_refusals, wrong_registers, wrong_bits, wrong_cause_words)


def wrong_wording(root):
    """What does not follow the table, a sentence each."""
    for check in CHECKS:
        yield from check(root)
