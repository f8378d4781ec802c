"""The quotations of documents 01 and 02 in crates/NAME/specs/, and in the laws that stand in proofs/: what a definition quotes, and which
paper it quotes."""
import re
from typing import NamedTuple

DOCUMENT_01 = 0  # the source of a quotation; a ticket of document 02 is its number

# The page that says every byte of what is told of a lesson, and who quotes it: rooms, and a file of another.
TELLING = "docs/TELLING.md"
TELLING_ROOMS = ("page", "names", "deeds", "answers", "moves", "account", "seat_page", "controller_page", "sight", "timeline")
TELLING_FILES = ("crates/lesson/specs/Comments.antt",)


class Fault(Exception):
    """Something in the repository that its author has to put right."""


COMMENT = re.compile(r"\s*--(?:\s|$)")
DEFINITION = re.compile(r"\s*(?:abbrev |unfoldable )?(?:pub )?(?:(?:record|data) ([^\s(){}]+)|([^\s(){}→λ]+) :)")
SOURCE = re.compile(r"\b(?:document 01|ticket (\d+)):", re.I)


class Quotation(NamedTuple):
    crate: str
    file: str  # from the root
    line: int  # where its comment starts
    name: str  # of the definition
    text: str
    source: int

    @property
    def law(self):
        return self.file.endswith("Laws.antt")


def called(source):
    return f"ticket {source}" if source else "document 01"


def crate_names(root):
    """The crates in the order of crates.txt."""
    lines = (line.split("#")[0] for line in (root / "crates.txt").read_text("utf-8").splitlines())
    return [line.split()[0].rstrip(":") for line in lines if ":" in line]


def comments(lines):
    """The comment blocks: the number of the first line, the words, and the number of the line under the block."""
    start = None
    for number, line in enumerate([*lines, ""], 1):
        if COMMENT.match(line):
            start = start or number
        elif start:
            yield start, " ".join(COMMENT.sub("", text) for text in lines[start - 1:number - 1]), number
            start = None


def defined_by(line):
    """The name that a line defines, or None."""
    found = DEFINITION.match(line)
    return found and (found[1] or found[2])


def owner(lines, start, under):
    """The definition of a block: the one right under it, or the one in whose body it stands; None for neither."""
    below = lines[under - 1] if under <= len(lines) else ""
    if not below.strip():
        return None
    above = (defined_by(line) for line in reversed(lines[:start - 1]))
    return defined_by(below) or next(filter(None, above), None)


def sourced(words, place):
    """What a comment quotes, each with its source: the one named last before it, and document 01 before any is named."""
    parts = words.split('"')
    if len(parts) % 2 == 0:
        raise Fault(f"{place}: a quotation is not closed in this comment")
    source = DOCUMENT_01
    for between, text in zip(parts[::2], parts[1::2]):
        for named in SOURCE.finditer(between):
            source = int(named[1] or DOCUMENT_01)
        yield " ".join(text.split()), source


def quotations_of(crate, path, root):
    lines = path.read_text("utf-8").splitlines()
    file = path.relative_to(root).as_posix()
    for start, words, under in comments(lines):
        name = owner(lines, start, under)
        for text, source in sourced(words, f"{file}:{start}"):
            if name is None:
                raise Fault(f"{file}:{start}: a quotation stands over no definition")
            yield Quotation(crate, file, start, name, text, source)


def spec_files(root, crate):
    """The files of a room's specs and its files of laws, definitions first: a reader who believes them needs no law."""
    room = root / "crates" / crate
    files = [f for f in [*(room / "specs").rglob("*.antt"), *(room / "proofs").glob("*Laws.antt")] if f.name != "Lib.antt"]
    return sorted(files, key=lambda f: (f.name.endswith("Laws.antt"), f.as_posix()))


def quotes_telling(root, crate, path):
    return crate in TELLING_ROOMS or path.relative_to(root).as_posix() in TELLING_FILES


def all_quotations(root):
    found = []
    for crate in crate_names(root):
        for path in spec_files(root, crate):
            if not quotes_telling(root, crate, path):
                found += quotations_of(crate, path, root)
    return found


def folded(text):
    """Without the marks of a table and of code, and with one blank between two words."""
    return " ".join(text.replace("|", " ").replace("`", "").split())


def stands_in(text, page):
    """Whether what is quoted stands there; of what `..` leaves out, the parts, in their order."""
    at = 0
    for part in folded(text).split(" .. "):
        at = page.find(part, at)
        if at < 0:
            return False
        at += len(part)
    return True


def misquoted(root):
    """What is quoted of the page that says what is told, and does not stand there: file, line and words."""
    page = root / TELLING
    told = folded(page.read_text("utf-8")) if page.is_file() else ""
    for crate in crate_names(root):
        for path in spec_files(root, crate):
            if quotes_telling(root, crate, path):
                file, lines = path.relative_to(root).as_posix(), path.read_text("utf-8").splitlines()
                for start, words, _ in comments(lines):
                    for text, _ in sourced(words, f"{file}:{start}"):
                        if not stands_in(text, told):
                            yield f"{file}:{start}: {TELLING} does not say: {text}"
