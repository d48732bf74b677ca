"""The box that a geometry in well-known binary (WKB) is, or the reason why it is none.

A box is a point, a segment parallel to an axis, or a rectangle with sides parallel to the axes,
as rjoin reads them: points may stand along a side, and a point may be repeated, but a line or ring
never goes back.
"""
from __future__ import annotations

import struct
from enum import IntEnum
from math import isfinite
from typing import List, NamedTuple

from .wkb import Kind, Point, Reader


class Box(NamedTuple):
    """The bounds of a box; a segment or a point has equal bounds on one axis or on both."""

    west: float
    south: float
    east: float
    north: float


class NotABox(ValueError):
    """The geometry isn't a box; the text says what it is instead."""


COLLECTIONS = (Kind.MULTI_POINT, Kind.MULTI_LINE, Kind.MULTI_POLYGON, Kind.COLLECTION)

# Nearly every box is a point, a line of two points or a ring of five, little-endian and with two
# dimensions. These are read without a walk.
POINT_HEAD = struct.pack("<BI", 1, Kind.POINT)
LINE_HEAD = struct.pack("<BII", 1, Kind.LINE, 2)
RING_HEAD = struct.pack("<BIII", 1, Kind.POLYGON, 1, 5)
POINT_BODY = struct.Struct("<5x2d")
LINE_BODY = struct.Struct("<9x4d")
RING_BODY = struct.Struct("<13x10d")


def box_of(wkb: bytes) -> Box:
    """The box that the geometry is; raises NotABox where it is none."""
    if wkb.startswith(RING_HEAD) and len(wkb) == RING_BODY.size:
        west, south, x1, y1, east, north, x3, y3, x4, y4 = RING_BODY.unpack(wkb)
        along_x = y1 == south and x1 == east and y3 == north and x3 == west
        along_y = x1 == west and y1 == north and x3 == east and y3 == south
        if (along_x or along_y) and x4 == west and y4 == south and west != east and south != north:
            return _box_between(west, south, east, north)
    elif wkb.startswith(POINT_HEAD) and len(wkb) == POINT_BODY.size:
        x, y = POINT_BODY.unpack(wkb)
        if x == x and y == y:
            return _box_between(x, y, x, y)
    elif wkb.startswith(LINE_HEAD) and len(wkb) == LINE_BODY.size:
        x1, y1, x2, y2 = LINE_BODY.unpack(wkb)
        if (x1 == x2) != (y1 == y2):
            return _box_between(x1, y1, x2, y2)
    return _read(Reader(wkb))


def _box_between(x1: float, y1: float, x2: float, y2: float) -> Box:
    if not isfinite(x1 + y1 + x2 + y2):
        raise NotABox("a coordinate isn't finite")
    west, east = (x1, x2) if x1 < x2 else (x2, x1)
    south, north = (y1, y2) if y1 < y2 else (y2, y1)
    return Box(west, south, east, north)


def _read(reader: Reader) -> Box:
    kind = reader.kind()
    if kind == Kind.POINT:
        return _point(reader.points(1))
    if kind == Kind.LINE:
        return _line(reader.points(reader.count()))
    if kind == Kind.POLYGON:
        return _polygon(reader)
    if kind in COLLECTIONS:
        return _only_part(reader)
    raise NotABox("a curve or surface")


def _only_part(reader: Reader) -> Box:
    parts = reader.count()
    if parts == 0:
        raise NotABox("an empty geometry")
    if parts > 1:
        raise NotABox("a geometry of several parts")
    return _read(reader)


def _point(points: List[Point]) -> Box:
    x, y = points[0]
    if x != x and y != y:
        raise NotABox("an empty geometry")
    return _box_between(x, y, x, y)


def _line(points: List[Point]) -> Box:
    if not points:
        raise NotABox("an empty geometry")
    headings = _headings(points, "a slanted line")
    if not headings:
        raise NotABox("a line without a length")
    if len(headings) > 1:
        raise NotABox("a line that turns")
    return _box_between(*points[0], *points[-1])


def _polygon(reader: Reader) -> Box:
    rings = reader.count()
    if rings == 0:
        raise NotABox("an empty geometry")
    points = reader.points(reader.count())
    if not points:
        raise NotABox("an empty geometry")
    if rings > 1:
        raise NotABox("a polygon with a hole")
    if points[0] != points[-1] or not _goes_round(_headings(points, "not a rectangle")):
        raise NotABox("not a rectangle")
    xs, ys = zip(*points)
    return _box_between(min(xs), min(ys), max(xs), max(ys))


class Heading(IntEnum):
    """The direction of a step, counted against the clock."""

    EAST = 0
    NORTH = 1
    WEST = 2
    SOUTH = 3


def _headings(points: List[Point], slanted: str) -> List[Heading]:
    """The directions in which a walk along the points goes; one that is kept counts once."""
    headings: List[Heading] = []
    for (x1, y1), (x2, y2) in zip(points, points[1:]):
        if x1 == x2 and y1 == y2:
            continue
        if x1 == x2:
            heading = Heading.NORTH if y1 < y2 else Heading.SOUTH
        elif y1 == y2:
            heading = Heading.EAST if x1 < x2 else Heading.WEST
        else:
            raise NotABox(slanted)
        if not headings or headings[-1] != heading:
            headings.append(heading)
    return headings


def _goes_round(headings: List[Heading]) -> bool:
    """Whether a closed walk has four sides and turns the same way at each corner."""
    if len(headings) == 5 and headings[0] == headings[-1]:
        headings = headings[:-1]
    turns = {(after - before) % 4 for before, after in zip(headings, headings[1:])}
    return len(headings) == 4 and turns in ({1}, {3})
