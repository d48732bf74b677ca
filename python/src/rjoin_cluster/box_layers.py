"""Layers of runs whose features are boxes, written from the corners.

All numbers have digits of one width, and ids are those of runs, so that rows are written without
looking at single ones.
"""
from __future__ import annotations

from dataclasses import dataclass
from typing import Iterator, Sequence

import numpy as np

from rjoin_cluster.answers import Boxes
from rjoin_cluster.digits import MOST_IN_WORD, Texts, digits_in, put, words_of, written
from rjoin_cluster.program import HEADER, MOST_BYTES, MOST_FEATURES
from rjoin_cluster.reading import BOXES
from rjoin_cluster.records import Bytes, Places
from rjoin_cluster.run_ids import ID_BYTES, letters_of
from rjoin_cluster.words import WORD, first_bytes

ROWS_AT_ONCE = 2**13  # which stay in the processor's cache
BOXES_ABREAST = 64  # of which NumPy finds the least and greatest numbers at once
MARKS = (ord(" "), ord(","))  # behind the two numbers of a point
LEAST_IN_WORD = 4  # digits of a number, so that two of them reach behind a word


@dataclass(frozen=True)
class Numerals:
    """How coordinates are written: in so many digits, with a sign where some are below 0."""

    digits: int
    signed: bool

    def of(self, numbers: Places) -> Texts:
        return written(numbers, self.digits, self.signed)

    @property
    def width(self) -> int:
        return self.digits + self.signed

    @property
    def most_features(self) -> int:
        """How many features a run takes at most."""
        row = len(template_of(RECTANGLE, "0" * self.width))
        return min(MOST_FEATURES, (MOST_BYTES - len(HEADER)) // row)


# The points of a text, each by its places among the corners x1, y1, x2, y2 of a box.
@dataclass(frozen=True)
class Form:
    """How the shape of a box is spelled."""

    begin: str
    points: tuple[tuple[int, int], ...]
    end: str


POINT = Form("POINT(", ((0, 1),), ")")
SEGMENT = Form("LINESTRING(", ((0, 1), (2, 3)), ")")
RECTANGLE = Form("POLYGON((", ((0, 1), (2, 1), (2, 3), (0, 3), (0, 1)), "))")


@dataclass(frozen=True)
class Spelling:
    """How the boxes of a run are written: moved by a vector, in these numerals."""

    numerals: Numerals
    low: tuple[int, int] = (0, 0)  # the point that becomes the origin

    def of(self, boxes: Boxes, corner: int) -> Texts:
        """The texts of one of the numbers x1, y1, x2, y2 of each box."""
        return self.numerals.of(self.moved(boxes, corner))

    def moved(self, boxes: Boxes, corner: int) -> Places:
        numbers: Places = boxes[:, corner] - self.low[corner % 2]
        return numbers

    @property
    def fits_words(self) -> bool:
        """Whether a number and the mark behind it are written as one word."""
        numerals = self.numerals
        return not numerals.signed and LEAST_IN_WORD <= numerals.digits <= MOST_IN_WORD


def spelling_of(layers: Sequence[Boxes], numerals: Numerals) -> Spelling:
    """How the boxes of a run are written: moved together towards the origin where their numbers get
    shorter by that. Boxes that are moved together stand in the same relations.
    """
    if not all(map(len, layers)):
        return Spelling(numerals)
    ends = [ends_of(boxes) for boxes in layers]
    low = np.min([least[:2] for least, _ in ends], axis=0)
    high = np.max([most[2:] for _, most in ends], axis=0)
    greatest = int((high - low).max())
    near = Numerals(digits_in(greatest), False)
    if near.width >= numerals.width or greatest > BOXES.coordinate:
        return Spelling(numerals)
    return Spelling(near, (int(low[0]), int(low[1])))


def ends_of(boxes: Boxes) -> tuple[Places, Places]:
    """The least and the greatest of each of the numbers x1, y1, x2, y2. NumPy finds those of many
    columns in a fraction of the time that four take.
    """
    abreast = len(boxes) // BOXES_ABREAST * BOXES_ABREAST
    wide = np.ascontiguousarray(boxes[:abreast]).reshape(-1, BOXES_ABREAST * 4)
    rest = boxes[abreast:]
    if not abreast:
        return rest.min(axis=0), rest.max(axis=0)
    low, high = wide.min(axis=0).reshape(-1, 4), wide.max(axis=0).reshape(-1, 4)
    return np.vstack([low, rest]).min(axis=0), np.vstack([high, rest]).max(axis=0)


def layer_texts(boxes: Boxes, spelling: Spelling) -> Iterator[Bytes]:
    """The rows of a layer of these boxes, some at a time, which have to be written before the next
    ones are made. Shorter texts are filled up with blanks, which a geometry may have.
    """
    longest = template_of(RECTANGLE, "0" * spelling.numerals.width)
    names = letters_of(len(boxes)).view(f"V{ID_BYTES}")
    text = np.empty((min(len(boxes), ROWS_AT_ONCE), len(longest)), dtype=np.uint8)
    for begin in range(0, len(boxes), ROWS_AT_ONCE):
        some = slice(begin, begin + ROWS_AT_ONCE)
        rows = text[:len(boxes[some])]
        write_rows(rows, names[some], boxes[some], spelling)
        yield rows.reshape(-1)


def write_rows(text: Bytes, names: Texts, boxes: Boxes, spelling: Spelling) -> None:
    """Writes rows of all forms."""
    is_thin, is_low = boxes[:, 0] == boxes[:, 2], boxes[:, 1] == boxes[:, 3]
    if not (is_thin | is_low).any():
        fill(text, RECTANGLE, names, boxes, spelling)
        return
    flat = is_thin.astype(np.int64) + is_low
    for form, dimensions_lost in ((RECTANGLE, 0), (SEGMENT, 1), (POINT, 2)):
        rows = np.flatnonzero(flat == dimensions_lost)
        if rows.size == len(boxes):
            fill(text, form, names, boxes, spelling)
        elif rows.size:
            part = np.empty((rows.size, text.shape[1]), dtype=np.uint8)
            fill(part, form, names[rows], boxes[rows], spelling)
            text[rows] = part


def template_of(form: Form, number: str) -> bytes:
    """A row, before its id and its numbers are written."""
    points = ",".join(f"{number} {number}" for _ in form.points)
    return f'{"0" * ID_BYTES},"{form.begin}{points}{form.end}"\n'.encode()


def fill(text: Bytes, form: Form, names: Texts, boxes: Boxes, spelling: Spelling) -> None:
    """Writes rows of one form."""
    template = template_of(form, "0" * spelling.numerals.width)
    blanks = text.shape[1] - len(template)
    row = template[:-2] + b" " * blanks + template[-2:]
    put(text, 0, np.frombuffer(row, dtype=f"V{len(row)}"))
    put(text, 0, names)
    at = ID_BYTES + len(f',"{form.begin}')
    if spelling.fits_words:
        put_numbers_as_words(text, at, form, boxes, spelling)
        return
    corners = [spelling.of(boxes, corner) for corner in range(4)]
    for point in form.points:
        for corner in point:
            put(text, at, corners[corner])
            at += spelling.numerals.width + 1


def put_numbers_as_words(
    text: Bytes, at: int, form: Form, boxes: Boxes, spelling: Spelling
) -> None:
    """Writes the numbers from the first to the last one. NumPy copies words in half of the time
    that other texts take; what a word has behind the mark is written over by the next one, and of
    the last one the digits alone are written.
    """
    digits = spelling.numerals.digits
    corners = [
        words_of(spelling.moved(boxes, corner), digits, MARKS[corner % 2]) for corner in range(4)
    ]
    numbers = [corner for point in form.points for corner in point]
    for corner in numbers[:-1]:
        put(text, at, corners[corner].view(f"V{WORD}"))
        at += digits + 1
    put(text, at, first_bytes(corners[numbers[-1]], digits))
