"""What the checks read of the tree: the functions of a source file, the rooms that a room knows, and the files of
definitions and proofs that a room declares."""
import re
from typing import NamedTuple

FUNCTION = re.compile(r'(?m)^( *)(pub(?:\(crate\))? )?((?:[\w"]+ )*)fn (\w+)')
OWNER = re.compile(r"(?m)^impl(?:<[^>]*>)? (?:\w+ for )?(\w+)|^(\})")


class Function(NamedTuple):
    """A function: the type that it is of or "", its name and where that stands, what is before the body, and the body."""

    owner: str
    name: str
    at: int
    head: str
    body: str
    public: bool
    for_c: bool

    @property
    def path(self):
        """As code has it: Queue::put, or output_digit."""
        return f"{self.owner}::{self.name}" if self.owner else self.name

    @property
    def takes_self(self):
        return bool(re.search(rf"\bfn {self.name}(?:<[^>]*>)?\(\s*&?(?:mut )?self\b", self.head))


def functions(source):
    """The functions of a source file. A body begins and ends at its function's own indent, as rt fmt writes it."""
    for found in FUNCTION.finditer(source):
        indent = found[1]
        opened = re.compile(rf"(?m)^{indent}(?:\S.* )?\{{$").search(source, found.start())
        start = opened.end() if opened else len(source)
        shut = re.compile(rf"(?m)^{indent}\}}$").search(source, start)
        owners = OWNER.findall(source[: found.start()]) if indent else []
        yield Function(
            owner=owners[-1][0] if owners else "",
            name=found[4],
            at=found.start(4),
            head=source[found.start() : start],
            body=source[start : shut.start() if shut else None],
            public=found[2] == "pub ",
            for_c='"C"' in found[3],
        )


def crates(root):
    """The folders of the rooms, by name."""
    return {path.name: path for path in sorted((root / "crates").iterdir()) if path.is_dir()}


def sources(crate):
    """The source files of a room, and the text of each."""
    return {path: path.read_text("utf-8") for path in sorted(crate.glob("src/**/*.rt"))}


def without_comments(source):
    """A source file, every line in its place."""
    return re.sub(r"//.*", "", source)


def known(root):
    """The rooms that each room knows, by crates.txt. What stands behind a name there says what the room is."""
    lines = re.findall(r"(?m)^[ \t]*(\w+)\b[^:#\n]*:([^#\n]*)", (root / "crates.txt").read_text("utf-8"))
    return {room: set(others.split()) for room, others in lines}


def archives(root):
    """The rooms that crates.txt has as archives, which no other room can know."""
    page = root / "crates.txt"
    return set(re.findall(r"(?m)^[ \t]*(\w+)[ \t]+staticlib[ \t]*:", page.read_text("utf-8") if page.exists() else ""))


def definitions(path):
    """A file of definitions or proofs without its comments."""
    return re.sub(r" *--.*", "", re.sub(r"(?s)\{-.*?-\}", "", path.read_text("utf-8")))


def declared(folder):
    """The files that a folder's Lib.antt declares, by name, without their comments."""
    lib = folder / "Lib.antt"
    names = re.findall(r"(?m)^(?:pub )?mod (\S+)\s*$", definitions(lib)) if lib.exists() else []
    return {name: definitions(path) for name in names for path in [folder / f"{name}.antt"] if path.exists()}
