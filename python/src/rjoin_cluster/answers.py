"""What `rjoin bounds` answers, as arrays: a row is an id, which may be quoted, and four numbers."""
from __future__ import annotations

from dataclasses import dataclass

import numpy as np
from numpy.typing import NDArray

from rjoin_cluster.digits import MINUS, numbers_in
from rjoin_cluster.faults import RunFailed
from rjoin_cluster.ids import IdTable, id_table
from rjoin_cluster.records import COMMA, Bytes, Places, field_ends

Boxes = NDArray[np.int64]

HEADER = b"id,x1,y1,x2,y2\n"
FIELD_ENDS = b",,,,\n"  # behind the fields of a row
ROWS_AT_ONCE = 2**13  # whose numbers stay in the processor's cache
ENDS_OF_ROWS = np.frombuffer(FIELD_ENDS * ROWS_AT_ONCE, dtype=np.uint8)
OUTWARDS = (-1, -1, 1, 1)  # of the corners of a box


@dataclass(frozen=True)
class Features:
    """Ids and boxes, in the order of the file."""

    ids: IdTable
    boxes: Boxes


NO_FEATURES = Features(np.zeros((0, 1), dtype=np.uint8), np.zeros((0, 4), dtype=np.int64))


def read_answer(text: Bytes) -> Features:
    """The features of an answer."""
    try:
        ends = ends_by_row(text)
        boxes = boxes_of(text, ends[1:])
    except ValueError as cause:
        raise RunFailed(f"rjoin bounds: not an id and four numbers a row: {cause}") from cause
    begins = ends[:-1, -1] + 1
    return Features(id_table(text, begins, ends[1:, 0] - begins), boxes)


def ends_by_row(text: Bytes) -> Places:
    """Where the fields of each row end, those of the header too.

    No byte of a number is less than a comma, and those of most ids aren't. So these bytes mostly
    are the ends of fields, and where they are not, they aren't those of whole rows.
    """
    ends = np.flatnonzero(text <= COMMA)
    if not are_field_ends(text, ends):
        ends = field_ends(text)
        if not are_field_ends(text, ends):
            raise ValueError("fields are missing")
    if bytes(text[: len(HEADER)]) != HEADER or ends[-1] != text.size - 1:
        raise ValueError("fields are missing")
    return ends.reshape(-1, len(FIELD_ENDS))


def are_field_ends(text: Bytes, ends: Places) -> bool:
    """Whether the bytes at these places are those behind the fields of whole rows."""
    if not ends.size or ends.size % len(FIELD_ENDS):
        return False
    return all(
        np.array_equal(text.take(some), ENDS_OF_ROWS[: some.size])
        for begin in range(0, ends.size, ENDS_OF_ROWS.size)
        for some in [ends[begin:begin + ENDS_OF_ROWS.size]]
    )


def boxes_of(text: Bytes, ends: Places) -> Boxes:
    """The boxes of the rows whose fields end there."""
    boxes = np.empty((len(ends), 4), dtype=np.int64)
    signed = bool((text == MINUS).any())
    for begin in range(0, len(ends), ROWS_AT_ONCE):
        some = ends[begin:begin + ROWS_AT_ONCE]
        numbers = numbers_in(text, four_of(some, 0) + 1, four_of(some, 1), signed)
        boxes[begin:begin + ROWS_AT_ONCE] = numbers.reshape(-1, 4)
    return boxes


def four_of(rows: Places, first: int) -> Places:
    """Four numbers of each row, from this column on, one row behind the other. As one element each
    NumPy copies them faster.
    """
    size = rows.itemsize
    shape, strides = len(rows), rows.strides[:1]
    elements: NDArray[np.void] = np.ndarray(shape, f"V{4 * size}", rows, first * size, strides)
    return np.ascontiguousarray(elements).view(np.int64)


def grown(boxes: Boxes, growth: int) -> Boxes:
    """The boxes, grown by so many units on each side."""
    if growth == 0:
        return boxes
    wide: Boxes = boxes + np.multiply(OUTWARDS, growth)
    return wide
