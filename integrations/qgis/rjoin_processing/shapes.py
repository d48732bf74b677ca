"""The geometry that well-known binary (WKB) holds, as `rjoin --geometry any` reads it.

Points, polylines and polygons, single or several of one kind. Empty parts are left out.
"""
from __future__ import annotations

from math import isfinite
from typing import List, NamedTuple, Tuple

from . import decimals as units
from .wkb import Kind, Point, Reader

Ring = List[Point]
Part = List[Ring]

SINGLE = {Kind.POINT: Kind.POINT, Kind.LINE: Kind.LINE, Kind.POLYGON: Kind.POLYGON,
          Kind.MULTI_POINT: Kind.POINT, Kind.MULTI_LINE: Kind.LINE,
          Kind.MULTI_POLYGON: Kind.POLYGON}


class NotRead(ValueError):
    """rjoin doesn't read the geometry; the text says why."""


class Form(NamedTuple):
    """A geometry without its coordinates: of each part the number of points of each ring.

    A point or a line has one ring, which is the list of its points.
    """

    kind: Kind
    parts: Tuple[Tuple[int, ...], ...]


class Shape(NamedTuple):
    """A form and its coordinates, x and y in turn."""

    form: Form
    coordinates: List[float]


def shape_of(wkb: bytes, decimals: int | None = None) -> Shape:
    """The shape that the geometry is; raises NotRead where rjoin doesn't read it.

    With a number of decimals, the coordinates will be rounded to it.
    """
    kind, parts = _read(Reader(wkb))
    parts = [rings for rings in parts if rings]
    if not parts:
        raise NotRead("an empty geometry")
    coordinates = [number for rings in parts for ring in rings for point in ring
                   for number in point]
    if not all(map(isfinite, coordinates)):
        raise NotRead("a coordinate isn't finite")
    if kind == Kind.LINE:
        _check_lines(parts, decimals)
    elif kind == Kind.POLYGON:
        _check_polygons(parts, decimals)
    form = Form(kind, tuple(tuple(map(len, rings)) for rings in parts))
    return Shape(form, coordinates)


def _read(reader: Reader) -> Tuple[Kind, List[Part]]:
    kind = reader.kind()
    if kind == Kind.COLLECTION:
        return _read_collection(reader)
    if kind not in SINGLE:
        raise NotRead("a curve or surface")
    single = SINGLE[Kind(kind)]
    if kind == single:
        return single, [_part(reader, single)]
    return single, [_next_part(reader, single) for _ in range(reader.count())]


def _read_collection(reader: Reader) -> Tuple[Kind, List[Part]]:
    count = reader.count()
    if count > 1:
        raise NotRead("a collection of several geometries")
    return _read(reader) if count == 1 else (Kind.POINT, [])


def _next_part(reader: Reader, single: Kind) -> Part:
    reader.kind()
    return _part(reader, single)


def _part(reader: Reader, single: Kind) -> Part:
    """A part without its empty rings; none where it is empty."""
    if single == Kind.POLYGON:
        rings = [reader.points(reader.count()) for _ in range(reader.count())]
    else:
        rings = [reader.points(1 if single == Kind.POINT else reader.count())]
    return [ring for ring in rings if ring and not _is_empty_point(ring)]


def _is_empty_point(ring: Ring) -> bool:
    """Whether it is the point that WKB has for an empty one, which has no numbers."""
    x, y = ring[0]
    return len(ring) == 1 and x != x and y != y


def _check_lines(parts: List[Part], decimals: int | None) -> None:
    for (line,) in parts:
        if _is_one_point(line):
            raise NotRead("a line without a length")
        if decimals is not None and _becomes_one_point(line, decimals):
            raise NotRead(f"a line that has no length once rounded to {decimals} decimals")


def _check_polygons(parts: List[Part], decimals: int | None) -> None:
    """By the even-odd rule a ring may be flat, and one that is a point is no part of the area."""
    rings = [ring for part in parts for ring in part]
    if any(ring[0] != ring[-1] for ring in rings):
        raise NotRead("a polygon with a ring that isn't closed")
    if all(map(_is_one_point, rings)):
        raise NotRead("a polygon that is a point")
    if decimals is not None and all(_becomes_one_point(ring, decimals) for ring in rings):
        raise NotRead(f"a polygon that is a point once rounded to {decimals} decimals")


def _is_one_point(ring: Ring) -> bool:
    return all(point == ring[0] for point in ring)


def _becomes_one_point(ring: Ring, decimals: int) -> bool:
    """Whether rounding makes one point of all."""
    return all(units.are_equal(first, number, decimals)
               for point in ring for first, number in zip(ring[0], point))
