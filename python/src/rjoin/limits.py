"""How fine and how great numbers are that the program reads, and how long files and layers."""
from __future__ import annotations

from typing import NamedTuple


class Limits(NamedTuple):
    """The limits of one kind of geometry.

    decimals: the most of a coordinate. units: the greatest coordinate, in units of the last
    decimal. bytes: those of the longest file. features: the most of a layer.
    """

    decimals: int
    units: int
    bytes: int
    features: int

    def greatest(self, decimals: int) -> float:
        """The greatest coordinate of these decimals; a double holds the power of ten exactly."""
        return self.units / 10.0 ** decimals

    def in_range(self, greatest: float) -> int:
        """The most decimals with which numbers up to a greatest one are in range."""
        return next((decimals for decimals in range(self.decimals, 0, -1)
                     if greatest <= self.greatest(decimals)), 0)


# Points, axis-parallel segments and rectangles alone, and any geometry.
BOXES = Limits(decimals=6, units=10 ** 12, bytes=134_217_728, features=1_000_000)
ANY = Limits(decimals=15, units=10 ** 18, bytes=4_294_967_295, features=1_000_000)
