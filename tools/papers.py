"""Documents 01 and 02 as the quotations are held to them: chapters or tickets, and their clauses."""
import re

from quotations import Fault

# A clause counts as quoted from this share of its words on: a quotation may leave out "and", "then" or a heading.
ENOUGH = 0.6


def fold(text):
    """White space folded and marks of layout left out, so that a quotation need not repeat them."""
    return " ".join(re.sub(r"\*\*|`", "", text).replace("|", " ").split())


def words(text):
    return list(re.finditer(r"\w+", text))


def split_clauses(paragraph):
    """A paragraph at its full stops, semicolons and colons, but not inside parentheses. A single word, as a heading
    that runs into its text, is no clause: it goes with what follows."""
    clauses = [""]
    for piece in re.split(r"(?<=[.;:])\s+(?![^()]*\))", paragraph):
        if len(words(clauses[-1])) > 1:
            clauses.append(piece)
        else:
            clauses[-1] = f"{clauses[-1]} {piece}".strip()
    return clauses


def units(body):
    """A chapter in order, folded: each piece of text, and whether it is a clause that somebody is to quote."""
    for block in re.split(r"\n\s*\n", body.strip()):
        if not block.startswith("|"):
            yield from ((clause, True) for clause in split_clauses(fold(block)))
            continue
        head, _, *rows = block.splitlines()
        yield fold(head), False
        yield from ((fold(line), True) for line in rows)


class Chapter:
    """A chapter of document 01, or a ticket of document 02."""

    def __init__(self, title, body):
        self.title = title
        self.text, self.clauses = "", []
        for piece, is_clause in [(fold(title), False), *units(body)]:
            start = len(self.text)
            self.text += piece + " "
            if is_clause:
                self.clauses.append((start, start + len(piece)))

    def places(self, passage):
        """Where a passage occurs, as whole words."""
        return [m.span() for m in re.finditer(rf"(?<!\w){re.escape(passage)}(?!\w)", self.text)]

    def covered(self, passages):
        """A mark for each character that one of the passages covers."""
        marks = bytearray(len(self.text))
        for passage in passages:
            for start, end in self.places(passage):
                marks[start:end] = b"\1" * (end - start)
        return marks


def enough(chapter, marks, start, end):
    """Whether enough words between two places are marked."""
    hit = [all(marks[start + w.start():start + w.end()]) for w in words(chapter.text[start:end])]
    return sum(hit) >= ENOUGH * len(hit)


def unquoted(chapter, marks):
    return [chapter.text[a:b] for a, b in chapter.clauses if not enough(chapter, marks, a, b)]


def chapters_of(document):
    return [Chapter(*part.partition("\n")[::2]) for part in re.split(r"^## ", document, flags=re.M)[1:]]


def tickets_of(document):
    """The tickets of document 02 by number. Each begins a paragraph with its number and title in bold."""
    parts = re.split(r"^\*\*(Ticket (\d+)\. .*?)\.?\*\*", document, flags=re.M)[1:]
    return {int(number): Chapter(title, body) for title, number, body in zip(parts[::3], parts[1::3], parts[2::3])}


def chapter_named(chapters, name):
    for chapter in chapters:
        if chapter.title.startswith(name):
            return chapter
    raise Fault(f"document 01 has no chapter {name!r}")
