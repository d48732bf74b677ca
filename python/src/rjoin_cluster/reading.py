"""How the program reads the geometries of both layers."""
from __future__ import annotations

from dataclasses import dataclass
from typing import Optional

BOX = "box"


@dataclass(frozen=True)
class Limits:
    """What the program takes: units of a coordinate and of a distance, decimals of both, and bytes
    of a file.
    """

    coordinate: int
    distance: int
    decimals: int
    bytes: int


BOXES = Limits(10**12, 4 * 10**12, 6, 134_217_728)
ANY = Limits(10**18, 4 * 10**18, 15, 4_294_967_295)


@dataclass(frozen=True)
class Reading:
    """The options of the program that say how geometries are read, as they were given; the program
    checks them.
    """

    scale: str = "0"  # decimals of a coordinate
    rounds: bool = False
    geometry: Optional[str] = None
    rings: Optional[str] = None

    def words(self) -> list[str]:
        words = [f"--scale={self.scale}"]
        if self.rounds:
            words.append("--round")
        if self.geometry is not None:
            words.append(f"--geometry={self.geometry}")
        if self.rings is not None:
            words.append(f"--rings={self.rings}")
        return words

    @property
    def is_of_boxes(self) -> bool:
        """Whether a geometry is a point, a segment along an axis or a rectangle."""
        return self.geometry in (None, BOX)

    @property
    def limits(self) -> Limits:
        return BOXES if self.is_of_boxes else ANY


UNITS = Reading()  # whole numbers, of boxes
