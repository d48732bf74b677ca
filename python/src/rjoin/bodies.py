"""The geometries of a layer as they are written: boxes by their corners, others by their outlines.

Both have a matrix of numbers, which the caller turns into units.
"""
from __future__ import annotations

from typing import IO, Optional

import numpy as np

from rjoin import outlines, sheet
from rjoin.outlines import Outlines
from rjoin.shapes import Boxes, Flags, Numbers, Status
from rjoin.sheet import Units


class BoxBody:
    """Boxes by their corners.

    replaced: which are envelopes in place of shapes.
    """

    def __init__(self, corners: Numbers, replaced: Flags) -> None:
        self.numbers = corners
        self.replaced = replaced

    def __len__(self) -> int:
        return len(self.numbers)

    def owner(self, row: int) -> int:
        """The feature that a row of the numbers belongs to."""
        return row

    def chosen(self, flags: Flags) -> "BoxBody":
        return BoxBody(self.numbers[flags], self.replaced[flags])

    def dots(self, units: Units) -> Flags:
        """Which segments and rectangles are only a point."""
        is_dot = (units[:, 0] == units[:, 2]) & (units[:, 1] == units[:, 3])
        flat: Flags = (self.forms(units) > 0) & is_dot
        return flat

    def forms(self, units: Units) -> Units:
        """The forms as they were given, even if a rectangle is flat once it is rounded.

        An envelope has the form of its rounded corners.
        """
        forms = sheet.forms_of(self.numbers)
        forms[self.replaced] = sheet.forms_of(units[self.replaced])
        return forms

    def size(self, units: Units, columns: sheet.Columns) -> int:
        return sheet.size_of(self.forms(units), columns)

    def write(self, file: IO[bytes], units: Units, columns: sheet.Columns) -> None:
        sheet.write(file, units, self.forms(units), columns)


class AnyBody:
    """Geometries of any form by their outlines."""

    def __init__(self, shapes: Outlines) -> None:
        self.numbers = shapes.points
        self.shapes = shapes

    def __len__(self) -> int:
        return len(self.shapes.kind)

    def owner(self, row: int) -> int:
        """The feature that a row of the numbers belongs to."""
        return self.shapes.owner(row)

    def chosen(self, flags: Flags) -> "AnyBody":
        return AnyBody(self.shapes.chosen(flags))

    def dots(self, units: Units) -> Flags:
        """Which have a line that is only a point, or rings that all are."""
        return self.shapes.dots(units)

    def size(self, units: Units, columns: sheet.Columns) -> int:
        return outlines.Table(self.shapes, units, columns).bytes_of_lines

    def write(self, file: IO[bytes], units: Units, columns: sheet.Columns) -> None:
        outlines.Table(self.shapes, units, columns).write(file)


def shapes_of(boxes: Boxes) -> Optional[Outlines]:
    """The outlines of all geometries that the program reads, unless all of them are boxes.

    Those with a number that isn't finite get that status.
    """
    if not (boxes.status == Status.ANY).any():
        return None
    rows = np.flatnonzero(boxes.status <= Status.ANY)
    shapes = outlines.outlines_of(boxes.given, rows)
    finite = np.isfinite(shapes.points)
    if finite.all():
        return shapes
    wrong = ~finite.all(axis=1)
    owners = np.repeat(rows, shapes.size)[wrong]
    boxes.status[owners] = Status.NOT_FINITE
    return shapes.chosen(boxes.status[rows] <= Status.ANY)
