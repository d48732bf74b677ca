"""Writes boxes as a layer file, in lines of equal length that are made by columns.

Numbers are padded with zeros, which the program allows; ids are the rows' numbers from 0.
"""
from __future__ import annotations

from functools import lru_cache
from typing import IO, Any, List, NamedTuple, Sequence, Tuple, Union

import numpy as np
from numpy.typing import NDArray

Units = NDArray[np.int64]
Bytes = NDArray[np.uint8]

HEADER = b"id,wkt\n"
CHUNK = 1 << 14
GROUP = 4
# The digits that each number of 32 bits can have.
MOST_SHORT = 9


class Column(NamedTuple):
    """How the numbers of a column are written."""

    digits: int
    signed: bool = False
    decimals: int = 0

    @property
    def width(self) -> int:
        return self.digits + self.signed + (self.decimals > 0)


class Columns(NamedTuple):
    """The columns of a layer: ids, first and second coordinates."""

    id: Column
    x: Column
    y: Column


ID, X1, Y1, X2, Y2 = range(5)
Part = Union[bytes, int]

POINT: Tuple[Part, ...] = (ID, b",POINT(", X1, b" ", Y1, b")\n")
SEGMENT: Tuple[Part, ...] = (ID, b',"LINESTRING(', X1, b" ", Y1, b",", X2, b" ", Y2, b')"\n')
RECTANGLE: Tuple[Part, ...] = (
    ID, b',"POLYGON((', X1, b" ", Y1, b",", X2, b" ", Y1, b",", X2, b" ", Y2, b",",
    X1, b" ", Y2, b",", X1, b" ", Y1, b'))"\n')
FORMS = (POINT, SEGMENT, RECTANGLE)


def columns_of(units: Units, decimals: int, count: int, extra: int = 0) -> Columns:
    """Columns that are wide enough for some features, of which each row has x and y in turn.

    With decimals, numbers are written with a dot before them. extra: how many zeros are still to
    be added to the units.
    """
    last_id = np.array([max(count - 1, 0)])
    return Columns(column_of(last_id, 0), column_of(units[:, 0::2], decimals, extra),
                   column_of(units[:, 1::2], decimals, extra))


def column_of(numbers: Units, decimals: int, extra: int = 0) -> Column:
    least, greatest = int(numbers.min(initial=0)), int(numbers.max(initial=0))
    digits = max(len(str(max(-least, greatest))) + extra, decimals + 1)
    return Column(digits, least < 0, decimals)


def forms_of(corners: NDArray[Any]) -> Units:
    """The place in FORMS of each box, by its corners."""
    wide, high = corners[:, 0] != corners[:, 2], corners[:, 1] != corners[:, 3]
    forms: Units = wide.astype(np.int64) + high
    return forms


def width_of(form: Sequence[Part], columns: Columns) -> int:
    return sum(part_width(part, columns) for part in form)


def part_width(part: Part, columns: Columns) -> int:
    return len(part) if isinstance(part, bytes) else column_at(part, columns).width


def column_at(part: int, columns: Columns) -> Column:
    if part == ID:
        return columns.id
    return columns.x if part in (X1, X2) else columns.y


def size_of(forms: Units, columns: Columns) -> int:
    """The bytes of the lines of boxes of these forms."""
    counts = np.bincount(forms, minlength=len(FORMS))
    widths = [width_of(form, columns) for form in FORMS]
    return int(np.dot(counts, widths))


def write(file: IO[bytes], units: Units, forms: Units, columns: Columns) -> None:
    """Writes a line for each box."""
    for first in range(0, len(units), CHUNK):
        part = units[first:first + CHUNK]
        ids = np.arange(first, first + len(part), dtype=np.int64)
        file.write(lines(ids, part, forms[first:first + CHUNK], columns).tobytes())


def lines(ids: Units, units: Units, forms: Units, columns: Columns) -> Bytes:
    """The bytes of the lines of some boxes, one behind the other."""
    widths = np.array([width_of(form, columns) for form in FORMS])[forms]
    ends = np.cumsum(widths)
    text = np.empty(ends[-1], np.uint8)
    numbers = fields(ids, units, columns)
    for number, form in enumerate(FORMS):
        rows = np.flatnonzero(forms == number)
        if rows.size:
            width = width_of(form, columns)
            lines_of_form = filled(form, [field[rows] for field in numbers])
            words_in(text, width)[ends[rows] - width] = words_of(lines_of_form, 0, width)
    return text


def fields(ids: Units, units: Units, columns: Columns) -> List[Bytes]:
    """The written numbers: ids and the four coordinates."""
    return [written(ids, columns.id), *(written(units[:, corner - X1], column_at(corner, columns))
                                        for corner in (X1, Y1, X2, Y2))]


def filled(form: Sequence[Part], numbers: Sequence[Bytes]) -> Bytes:
    """The lines of boxes of one form."""
    widths = [len(part) if isinstance(part, bytes) else numbers[part].shape[1] for part in form]
    rows = np.empty((len(numbers[ID]), sum(widths)), np.uint8)
    place = 0
    for part, width in zip(form, widths):
        theirs = np.frombuffer(part, f"V{width}") if isinstance(part, bytes) else words_of(
            numbers[part], 0, width)
        words_of(rows, place, width)[:] = theirs
        place += width
    return rows


def written(numbers: Units, column: Column) -> Bytes:
    """The numbers of a column, a row of bytes each."""
    rows = np.empty((len(numbers), column.width), np.uint8)
    fill(rows, 0, numbers, column)
    return rows


def fill(rows: Bytes, place: int, numbers: Units, column: Column) -> None:
    """Writes the numbers of a column into rows of bytes, from a place of each on."""
    digits = digits_of(np.abs(numbers) if column.signed else numbers, column.digits)
    begin = digits.shape[1] - column.digits
    if column.signed:
        rows[:, place] = np.where(numbers < 0, ord("-"), ord("0"))
        place += 1
    whole = column.digits - column.decimals
    words_of(rows, place, whole)[:] = words_of(digits, begin, whole)
    if column.decimals:
        rows[:, place + whole] = ord(".")
        words_of(rows, place + whole + 1, column.decimals)[:] = words_of(digits, begin + whole,
                                                                         column.decimals)


def words_of(rows: Bytes, place: int, width: int) -> NDArray[Any]:
    """Some bytes of each row as one value, which NumPy copies faster than one by one."""
    return np.ndarray(len(rows), f"V{width}", rows, place, rows.strides[:1])


def words_in(text: Bytes, width: int) -> NDArray[Any]:
    """The words of so many bytes that begin at each place of a text, each as one value."""
    return np.ndarray(len(text) - width + 1, f"V{width}", text, 0, (1,))


def digits_of(numbers: Units, count: int) -> Bytes:
    """At least the last digits of numbers that are not negative, taken from a table by four.

    NumPy divides short numbers faster, and takes words faster than texts.
    """
    groups = -(-count // GROUP)
    text = np.empty((len(numbers), groups), np.uint32)
    rest = numbers.astype(np.uint32 if count <= MOST_SHORT else np.uint64)
    for group in reversed(range(groups)):
        high = rest // 10 ** GROUP
        text[:, group] = digit_groups()[rest - high * 10 ** GROUP]
        rest = high
    return text.view(np.uint8).reshape(len(numbers), groups * GROUP)


@lru_cache(maxsize=None)
def digit_groups() -> NDArray[np.uint32]:
    """The numbers of up to four digits, padded with zeros, four bytes each."""
    texts = np.array([b"%0*d" % (GROUP, number) for number in range(10 ** GROUP)])
    return texts.view(np.uint32)
