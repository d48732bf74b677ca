"""Writes geometries as a layer file of rjoin, by columns of all their points.

Numbers are padded with zeros, which rjoin allows; ids are the numbers of the features from 0.
"""
from __future__ import annotations

from functools import lru_cache
from pathlib import Path
from typing import TYPE_CHECKING, Any, Iterator, NamedTuple, Tuple

import numpy as np

from . import columns
from . import decimals as units
from .columns import Columns
from .wkb import Kind

if TYPE_CHECKING:
    from numpy.typing import NDArray

    from .columns import Bytes, Places
    from .decimals import Numbers, Units

HEADER = b"id,wkt\n"
HEADS = {
    Kind.POINT: b',"POINT(',
    Kind.LINE: b',"LINESTRING(',
    Kind.POLYGON: b',"POLYGON((',
    Kind.MULTI_POINT: b',"MULTIPOINT((',
    Kind.MULTI_LINE: b',"MULTILINESTRING((',
    Kind.MULTI_POLYGON: b',"MULTIPOLYGON(((',
}
TAILS = {
    Kind.POINT: b')"\n',
    Kind.LINE: b')"\n',
    Kind.POLYGON: b'))"\n',
    Kind.MULTI_POINT: b'))"\n',
    Kind.MULTI_LINE: b'))"\n',
    Kind.MULTI_POLYGON: b')))"\n',
}
LEADS = {columns.NEXT: b",", columns.RUN: b"),(", columns.PART: b")),(("}
# A rectangle's corners, by the first point of a box or its second one.
CORNERS_X, CORNERS_Y = np.array([0, 1, 1, 0, 0]), np.array([0, 0, 1, 1, 0])
# The points of a box that is a point, a line or a rectangle.
BOX_POINTS = np.array([1, 2, 5])

BLOCK_POINTS = 1 << 16
GROUP = 4
# The digits that each number of 32 bits can have.
MOST_SHORT = 9


class Column(NamedTuple):
    """How the numbers of a column are written."""

    digits: int
    signed: bool = False
    decimals: int = 0

    @property
    def width(self) -> int:
        return self.digits + self.signed + (self.decimals > 0)


class Outlines(NamedTuple):
    """Geometries as they are written.

    form: the Kind of each; size: how many points it has; x, y: of all of them, in units; leads:
    what stands before each.
    """

    form: Bytes
    size: Places
    x: Units
    y: Units
    leads: Bytes


def id_digits(count: int) -> int:
    """The digits of each id of so many features."""
    return len(str(max(count - 1, 0)))


def write(path: Path, layer: Columns, decimals: int) -> None:
    """Writes geometries, rounded to the decimals."""
    ids = Column(id_digits(layer.form.size))
    with open(path, "wb") as file:
        file.write(HEADER)
        if layer.form.size:
            x, y = (_column_of(layer.points[:, axis], decimals) for axis in (0, 1))
            for first, part in _blocks(layer):
                outlines = _outlines_of(part, units.all_in_units(part.points, decimals))
                file.write(_lines(outlines, first, (ids, x, y)).tobytes())


def _column_of(numbers: Numbers, decimals: int) -> Column:
    """A column that is wide enough for some coordinates."""
    least, greatest = (units.in_units(float(number), decimals)
                       for number in (numbers.min(), numbers.max()))
    digits = max(len(str(max(-least, greatest))), decimals + 1)
    return Column(digits, least < 0, decimals)


def _blocks(layer: Columns) -> Iterator[Tuple[int, Columns]]:
    """Consecutive geometries with some thousand points, and the number of the first."""
    ends = np.cumsum(layer.size)
    borders = np.searchsorted(ends, np.arange(BLOCK_POINTS, ends[-1], BLOCK_POINTS)) + 1
    rows = np.unique(np.concatenate([[0], borders, [ends.size]])).tolist()
    for first, end in zip(rows, rows[1:]):
        theirs = slice(int(ends[first] - layer.size[first]), int(ends[end - 1]))
        yield first, Columns(layer.form[first:end], layer.size[first:end], layer.points[theirs],
                             layer.leads[theirs])


def _outlines_of(part: Columns, numbers: Units) -> Outlines:
    """Each box as a point, a line or a rectangle, as its rounded corners are; others as they are.
    """
    boxes = part.form == columns.BOX
    if not boxes.any():
        return Outlines(part.form, part.size, numbers[:, 0], numbers[:, 1], part.leads)
    begin = np.cumsum(part.size) - part.size
    least = begin[boxes]
    sides = (numbers[least] != numbers[least + 1]).sum(axis=1)
    form, size = part.form.copy(), part.size.copy()
    form[boxes], size[boxes] = sides + Kind.POINT, BOX_POINTS[sides]
    place = np.arange(int(size.sum())) - np.repeat(np.cumsum(size) - size, size)
    leads = np.where(place == 0, columns.FIRST, columns.NEXT).astype(np.uint8)
    leads[np.repeat(~boxes, size)] = part.leads[np.repeat(~boxes, part.size)]
    begin = np.repeat(begin, size)
    rectangles = np.repeat(boxes & (form == Kind.POLYGON), size)
    x, y = (begin + place for _ in (0, 1))
    for places, corners in ((x, CORNERS_X), (y, CORNERS_Y)):
        places[rectangles] = begin[rectangles] + corners[place[rectangles]]
    return Outlines(form, size, numbers[x, 0], numbers[y, 1], leads)


def _lines(outlines: Outlines, first: int, formats: Tuple[Column, Column, Column]) -> Bytes:
    """The bytes of the lines of geometries, whose ids begin with a number."""
    ids, x, y = formats
    size, leads = outlines.size, outlines.leads
    heads = np.array([0, *map(len, HEADS.values())])[outlines.form] + ids.width
    tails = np.array([0, *map(len, TAILS.values())])[outlines.form]
    widths = np.array([0, *map(len, LEADS.values())])[leads] + x.width + 1 + y.width
    starts = np.cumsum(size) - size
    widths[starts] += heads
    ends = np.cumsum(widths) + np.repeat(np.cumsum(tails) - tails, size)
    begins, last = ends - (x.width + 1 + y.width), starts + size - 1
    text = np.empty(int(ends[-1] + tails[-1]), np.uint8)
    _put(text, begins, _points(outlines, x, y))
    for lead, word in LEADS.items():
        _put_same(text, begins[leads == lead] - len(word), word)
    names = np.empty((size.size, ids.width), np.uint8)
    _fill(names, 0, np.arange(first, first + size.size), ids)
    _put(text, begins[starts] - heads, names)
    for kind, word in HEADS.items():
        rows = np.flatnonzero(outlines.form == kind)
        _put_same(text, begins[starts[rows]] - len(word), word)
        _put_same(text, ends[last[rows]], TAILS[kind])
    return text


def _points(outlines: Outlines, x: Column, y: Column) -> Bytes:
    """The points as they are written, a row of bytes each."""
    rows = np.empty((outlines.x.size, x.width + 1 + y.width), np.uint8)
    _fill(rows, 0, outlines.x, x)
    rows[:, x.width] = ord(" ")
    _fill(rows, x.width + 1, outlines.y, y)
    return rows


def _put(text: Bytes, places: Places, rows: Bytes) -> None:
    """Writes rows of bytes at some places of a text."""
    _words_in(text, rows.shape[1])[places] = _words_of(rows, 0, rows.shape[1])


def _put_same(text: Bytes, places: Places, word: bytes) -> None:
    """Writes a word at some places of a text."""
    if places.size:
        _words_in(text, len(word))[places] = np.frombuffer(word, f"V{len(word)}")


def _words_in(text: Bytes, width: int) -> NDArray[Any]:
    """The words of so many bytes that begin at each place of a text, each as one value."""
    return np.ndarray(text.size - width + 1, f"V{width}", text, 0, (1,))


def _words_of(rows: Bytes, place: int, width: int) -> NDArray[Any]:
    """Some bytes of each row as one value, which NumPy copies faster than one by one."""
    return np.ndarray(len(rows), f"V{width}", rows, place, rows.strides[:1])


def _fill(rows: Bytes, place: int, numbers: Units, column: Column) -> None:
    """Writes the numbers of a column into rows of bytes, from a place of each on."""
    digits = _digits_of(np.abs(numbers) if column.signed else numbers, column.digits)
    begin, whole = digits.shape[1] - column.digits, column.digits - column.decimals
    if column.signed:
        rows[:, place] = np.where(numbers < 0, ord("-"), ord("0"))
        place += 1
    _words_of(rows, place, whole)[:] = _words_of(digits, begin, whole)
    if column.decimals:
        rows[:, place + whole] = ord(".")
        _words_of(rows, place + whole + 1, column.decimals)[:] = _words_of(
            digits, begin + whole, column.decimals)


def _digits_of(numbers: Units, count: int) -> Bytes:
    """At least the last digits of numbers that aren't negative, taken from a table by four."""
    groups = -(-count // GROUP)
    text = np.empty((len(numbers), groups), np.uint32)
    rest = numbers.astype(np.uint32 if count <= MOST_SHORT else np.uint64)
    for group in reversed(range(groups)):
        high = rest // 10**GROUP
        text[:, group] = _digit_groups()[rest - high * 10**GROUP]
        rest = high
    return text.view(np.uint8).reshape(len(numbers), groups * GROUP)


@lru_cache(maxsize=None)
def _digit_groups() -> NDArray[np.uint32]:
    """The numbers of up to four digits, padded with zeros, four bytes each."""
    texts = np.array([b"%0*d" % (GROUP, number) for number in range(10**GROUP)])
    return texts.view(np.uint32)
