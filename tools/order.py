"""The order of docs/READING.md: where a sentence stands in the documents, or where a page that is there has it."""
import re
from typing import NamedTuple

from papers import fold
from quotations import DOCUMENT_01

NOWHERE = "Not placed yet"


class Place(NamedTuple):
    title: str  # of the chapter or ticket
    at: tuple  # there


def of_page(text):
    """The place of each row of a page, by the whole row and by its first cell, of which the first counts."""
    places, title = {}, NOWHERE
    for number, line in enumerate(text.splitlines()):
        found = re.match(r"## (.*)|\| (.*?) \| (?:`|amended)", line)
        if found and found[1]:
            title = found[1]
        elif found and title != NOWHERE:
            places[line] = Place(title, (number,))
            places.setdefault(found[2], Place(title, (number,)))
    return places


def found_in(chapters, text):
    """The places of a sentence in a document, in its order. Of two that begin together the longer comes first."""
    return [Place(c.title, (number, start, -end)) for number, c in enumerate(chapters) for start, end in c.places(fold(text))]


def nearest(places, anchor):
    """Of the places of a few words the one that is nearest to a longer sentence of the same comment."""
    return min(places, key=lambda place: (place.title != anchor.title, abs(place.at[1] - anchor.at[1])))


class Order:
    """Where a quotation goes, by the chapters of document 01 and the tickets, and by the page that is there where a document
    is not at hand, which then has no chapters here."""

    def __init__(self, quotations, chapters, tickets, kept):
        self.chapters, self.tickets, self.kept = chapters, tickets, kept
        self.longest = {}
        for q in quotations:
            self.longest[self.comment(q)] = max(self.longest.get(self.comment(q), ""), q.text, key=len)

    @staticmethod
    def comment(quotation):
        return quotation.file, quotation.line, quotation.source

    def papers(self, source):
        return self.chapters if source == DOCUMENT_01 else [self.tickets[n] for n in self.tickets if n == source]

    def place(self, quotation, row, cell):
        papers = self.papers(quotation.source)
        if not papers:
            return self.kept.get(row) or self.kept.get(cell) or Place(NOWHERE, (0,))
        places = found_in(papers, quotation.text)
        anchors = found_in(papers, self.longest[self.comment(quotation)])
        return nearest(places, anchors[0]) if places and anchors else Place(NOWHERE, ())


def parts(quotations, order, row, cell):
    """The headings in order, each with its quotations in order: document 01, then the tickets, then what has no place. Of those
    that have one place the definitions come before the laws, each as crates.txt has them."""
    placed = [(order.place(q, row(q), cell(q)), q) for q in quotations]
    placed.sort(key=lambda item: (item[0].title == NOWHERE, item[1].source, item[0].at, item[1].law))
    titles = dict.fromkeys(place.title for place, _ in placed)
    return [(title, [q for place, q in placed if place.title == title]) for title in titles]
