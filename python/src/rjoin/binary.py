"""Geometries as hexadecimal well-known binary (OGC 06-103r4, 8.2), as PostGIS prints a column.

GEOS overlooks what follows a geometry; here a text is one geometry.
"""
from __future__ import annotations

import re
import struct
from typing import Any, NamedTuple

TEXT = re.compile(r"\s*0[01](?:[0-9A-F]{2}){4,}\s*", re.ASCII | re.IGNORECASE)
# The flags of the extended form, and the step of the standard's codes for heights and measures.
HAS_Z, HAS_M, HAS_SRID = 0x80000000, 0x40000000, 0x20000000
STEP = 1000
POINT, LINE, POLYGON, COLLECTION = 1, 2, 3, 7
NUMBER = 8


class Head(NamedTuple):
    """What stands before the numbers of a geometry, and where these begin."""

    order: str
    kind: int
    dimensions: int
    srid: int
    end: int


def is_binary(text: str) -> bool:
    """Whether a text may be a geometry of this form."""
    return TEXT.fullmatch(text) is not None


def srid_of(text: str) -> int:
    """The number of the reference system, 0 where there is none."""
    return head_at(bytes.fromhex(text.strip()), 0).srid


def geometry_of(text: str) -> Any:
    """The geometry; a ValueError or a fault of Shapely where there is none."""
    from shapely import wkb

    data = bytes.fromhex(text.strip())
    if end_of(data, 0) != len(data):
        raise ValueError("more follows the geometry, or something is missing")
    return wkb.loads(data)


def head_at(data: bytes, begin: int) -> Head:
    try:
        order = "<" if data[begin] else ">"
        (code,) = struct.unpack_from(f"{order}I", data, begin + 1)
        srid, end = 0, begin + 5
        if code & HAS_SRID:
            (srid,), end = struct.unpack_from(f"{order}I", data, end), end + 4
    except (IndexError, struct.error) as fault:
        raise ValueError("the geometry is cut off") from fault
    step, kind = divmod(code & ~(HAS_Z | HAS_M | HAS_SRID), STEP)
    more = (step in (1, 3) or bool(code & HAS_Z)) + (step in (2, 3) or bool(code & HAS_M))
    return Head(order, kind, 2 + more, srid, end)


def end_of(data: bytes, begin: int) -> int:
    """The place behind the geometry that begins there."""
    head = head_at(data, begin)
    if not POINT <= head.kind <= COLLECTION:
        raise ValueError("no point, line or polygon, nor several")
    size = NUMBER * head.dimensions
    if head.kind == POINT:
        return head.end + size
    (count,), place = count_at(data, head, head.end), head.end + 4
    if head.kind == LINE:
        return int(place + count * size)
    for _ in range(count):
        if head.kind == POLYGON:
            (points,) = count_at(data, head, place)
            place += 4 + points * size
        else:
            place = end_of(data, place)
    return int(place)


def count_at(data: bytes, head: Head, place: int) -> Any:
    try:
        return struct.unpack_from(f"{head.order}I", data, place)
    except struct.error as fault:
        raise ValueError("the geometry is cut off") from fault
