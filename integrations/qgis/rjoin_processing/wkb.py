"""Reads well-known binary (WKB), piece by piece.

WKB is that of OGC 06-103r4, section 8.2, with the type numbers of ISO 13249-3 or of the older
"2.5D" extension for heights and measures, which are dropped.
"""
from __future__ import annotations

import struct
from enum import IntEnum
from typing import List, Tuple

Point = Tuple[float, float]

HEIGHT_FLAG = 0x80000000


class Kind(IntEnum):
    """The types of geometry without curves or surfaces."""

    POINT = 1
    LINE = 2
    POLYGON = 3
    MULTI_POINT = 4
    MULTI_LINE = 5
    MULTI_POLYGON = 6
    COLLECTION = 7


class Reader:
    """A place in a WKB text, from which numbers are read."""

    def __init__(self, wkb: bytes) -> None:
        self.wkb = wkb
        self.place = 0
        self.order = "<"
        self.dimensions = 2

    def kind(self) -> int:
        """Reads the head of a geometry; the number may be none of `Kind`."""
        self.order = "<" if self.wkb[self.place] == 1 else ">"
        self.place += 1
        code = self.count()
        old_height = bool(code & HEIGHT_FLAG)
        family, kind = divmod(code & ~HEIGHT_FLAG, 1000)
        self.dimensions = 2 + (2 if family == 3 else 1 if family or old_height else 0)
        return kind

    def count(self) -> int:
        (number,) = struct.unpack_from(self.order + "I", self.wkb, self.place)
        self.place += 4
        return int(number)

    def points(self, count: int) -> List[Point]:
        """Reads points, without height and measure."""
        length = count * self.dimensions
        numbers = struct.unpack_from(f"{self.order}{length}d", self.wkb, self.place)
        self.place += 8 * length
        return list(zip(numbers[:: self.dimensions], numbers[1:: self.dimensions]))
