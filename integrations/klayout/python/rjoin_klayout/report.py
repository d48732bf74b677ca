"""The report database of a join, in the format of KLayout's marker browser."""
from __future__ import annotations

import re
import tempfile
from dataclasses import dataclass, field
from functools import lru_cache
from pathlib import Path
from typing import Dict, Iterator, List, NamedTuple, Sequence, TextIO, Tuple, Union
from xml.sax.saxutils import escape

import pya

WORD = re.compile(r"[A-Za-z_][A-Za-z0-9_]*")
STATE = "<visited>false</visited><multiplicity>1</multiplicity><image/>"


def quoted(text: str) -> str:
    """A text as KLayout writes it: a word as it is, any other in quotes."""
    if WORD.fullmatch(text):
        return text
    inner = text.replace("\\", "\\\\").replace("'", "\\'")
    return f"'{inner}'"


@lru_cache(maxsize=None)
def escaped(text: str) -> str:
    """A text in the file; of paths and cells there are few."""
    return escape(text)


def text_value(text: str) -> str:
    """A text as a value of an item."""
    return f"<value>{escape('text: ' + quoted(text))}</value>"


Mark = Union[pya.EdgePair, pya.Polygon]


def polygon_of(mark: Mark) -> pya.Polygon:
    """What lies between the two edges of an edge pair, at least a database unit wide, or the
    polygon."""
    if isinstance(mark, pya.Polygon):
        return mark
    between = mark.polygon(0)
    return between if between.area2() > 0 else mark.polygon(1)


class Place(NamedTuple):
    """A category of the report database, with its description."""

    name: str
    about: str


@dataclass
class Category:
    """A category and the number of its own items."""

    place: Place
    path: str
    items: int = 0
    below: Dict[str, Category] = field(default_factory=dict)

    def child(self, place: Place) -> Category:
        """The category of a name below this one, made where it isn't there."""
        if place.name not in self.below:
            path = f"{self.path}.{quoted(place.name)}" if self.path else quoted(place.name)
            self.below[place.name] = Category(place, path)
        return self.below[place.name]

    def counts(self) -> Iterator[Tuple[str, int]]:
        """The paths of this one and of those below it, if they have items, with their numbers."""
        if self.items:
            yield self.path, self.items
        for category in self.below.values():
            yield from category.counts()

    def write(self, file: TextIO) -> None:
        file.write(f"<category><name>{escape(self.place.name)}</name>"
                   f"<description>{escape(self.place.about)}</description><categories>\n")
        for category in self.below.values():
            category.write(file)
        file.write("</categories></category>\n")


class Report:
    """Items by category and cell, which are written as a file or become a database.

    `inexact` is the number of those that rest on a bounding box; `marks` has the result as shapes,
    by the cells that it is to be put into.
    """

    def __init__(self, title: str, tops: Sequence[str]) -> None:
        self.title = title
        self.top = tops[0]
        self.description = ""
        self.root = Category(Place("", ""), "")
        self.cells: Dict[str, str] = dict.fromkeys(tops, "")
        self.items: List[str] = []
        self.inexact = 0
        self.marks: Dict[str, List[Mark]] = {}

    def add_cell(self, name: str, top: str, trans: pya.DCplxTrans) -> None:
        """Adds a cell, with a place where it lies in a top cell."""
        self.cells.setdefault(name, f"<ref><parent>{escape(top)}</parent>"
                                    f"<trans>{escape(str(trans))}</trans></ref>")

    def category(self, *places: Place) -> Category:
        """The category below all of these but the last."""
        found = self.root
        for place in places:
            found = found.child(place)
        return found

    def add(self, category: Category, cell: str, values: str) -> None:
        """Adds an item with these values."""
        category.items += 1
        self.items.append(f" <item><tags/><category>{escaped(category.path)}</category>"
                          f"<cell>{escaped(cell)}</cell>{STATE}<values>{values}</values></item>\n")

    def counts(self) -> Iterator[Tuple[str, int]]:
        """The number of items of each category that has some."""
        return self.root.counts()

    def write(self, path: Path) -> None:
        """Writes the database as KLayout does."""
        with open(path, "w", encoding="utf-8", newline="\n") as file:
            file.write('<?xml version="1.0" encoding="utf-8"?>\n<report-database>\n'
                       f"<description>{escape(self.description)}</description>\n"
                       "<original-file/><generator>rjoin</generator>\n"
                       f"<top-cell>{escape(self.top)}</top-cell><tags></tags>\n<categories>\n")
            for category in self.root.below.values():
                category.write(file)
            file.write("</categories>\n<cells>\n")
            file.writelines(f"<cell><name>{escape(name)}</name><variant/>"
                            f"<references>{reference}</references></cell>\n"
                            for name, reference in self.cells.items())
            file.write("</cells>\n<items>\n")
            file.writelines(self.items)
            file.write("</items>\n</report-database>\n")

    def insert(self, layout: pya.Layout, layer: int) -> None:
        """Puts the result into a layer, as polygons."""
        for name, marks in self.marks.items():
            polygons = [polygon_of(mark) for mark in marks]
            layout.cell(name).shapes(layer).insert(pya.Region(polygons))

    def database(self) -> pya.ReportDatabase:
        """The database for a view."""
        with tempfile.TemporaryDirectory(prefix="rjoin-") as folder:
            path = Path(folder, "pairs.lyrdb")
            self.write(path)
            database = pya.ReportDatabase(self.title)
            database.load(str(path))
        return database
