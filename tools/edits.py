"""A must-fail edit, read as rt reads it: a line `file: PATH`, below the room's folder, holds for the pairs `old: TEXT` and
`new: TEXT` after it, and any other line is passed over. The project's own line is `refuted: NAME`."""
import re
from typing import NamedTuple


class Change(NamedTuple):
    """One replacement; its file or its old text is "" where the edit has none."""

    file: str
    old: str
    new: str


class Edit(NamedTuple):
    refuted: list
    changes: list
    odd: list

    @property
    def files(self):
        return {change.file for change in self.changes}


def read(path):
    """The statements that an edit names, its replacements, and the lines that look like one of its own and are not read so."""
    refuted, changes, odd, file, old = [], [], [], "", ""
    for line in path.read_text("utf-8").split("\n"):
        word, _, rest = line.partition(": ")
        if old and not line.startswith("new:"):
            odd.append(f"old: {old}")
            old = ""
        if line.startswith("new:"):
            changes.append(Change(file, old, re.sub("^new: ?", "", line)))
            old = ""
        elif word == "file" and rest:
            file = rest
        elif word == "old" and rest:
            old = rest
        elif word == "refuted" and rest:
            refuted.append(rest)
        elif re.match(r"\s*(?:file|old|new|refuted)\s*:", line, re.I):
            odd.append(line)
    return Edit(refuted, changes, odd)
