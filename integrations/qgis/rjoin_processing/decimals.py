"""Coordinates as decimal numbers.

rjoin compares decimal numbers, and a layer in QGIS has binary ones (IEEE 754 double). A coordinate
counts as the shortest decimal number that is read back as it. Where that has more decimals than a
run, it is rounded half a unit away from zero, as rjoin does (`--round`).
"""
from __future__ import annotations

from decimal import ROUND_HALF_UP, Decimal
from typing import TYPE_CHECKING, NamedTuple, Sequence, Tuple, Union

import numpy as np

from . import shortest

if TYPE_CHECKING:
    from numpy.typing import NDArray

    Numbers = NDArray[np.float64]
    Units = NDArray[np.int64]
    Flags = NDArray[np.bool_]
    Coordinates = Union[Numbers, Sequence[float]]


class Limits(NamedTuple):
    """The most decimals of rjoin, and the greatest coordinate in units of the last one."""

    decimals: int
    units: int

    def in_range(self, coordinates: Coordinates) -> int:
        """The most decimals at which all coordinates are in range."""
        reach = greatest(np.asarray(coordinates, np.float64))
        return max((decimals for decimals in range(self.decimals + 1)
                    if reach <= self.units // 10**decimals), default=0)

    def fit(self, coordinates: Coordinates, decimals: int) -> bool:
        """Whether coordinates of so many decimals are in range."""
        reach = greatest(np.asarray(coordinates, np.float64))
        return decimals <= self.decimals and reach <= self.units // 10**decimals


# Of points, axis-parallel lines and rectangles alone, and of any geometry.
BOXES = Limits(6, 10**12)
ANY = Limits(15, 10**18)

# How many numbers are looked at together, so that they stay in the processor's cache.
BLOCK = 1 << 14
# Up to so many units one product of doubles tells whether they are the number.
SHORT = 10.0**shortest.DIFFERING
# Up to so many units it tells to which units a number is rounded, unless that is near a half.
CLEAR = 10.0**12


class CoordinateError(ValueError):
    """A coordinate that can't be written; `place` is its place in the list."""

    def __init__(self, place: int, text: str) -> None:
        super().__init__(text)
        self.place = place


def greatest(numbers: Numbers) -> float:
    """The greatest number without its sign; 0 of none."""
    return float(max(numbers.max(initial=0.0), -numbers.min(initial=0.0)))


def fewest_decimals(coordinates: Coordinates, least: int = 0) -> int:
    """The fewest decimals, from `least` on, that write every coordinate exactly, or else the most
    that there are."""
    numbers = np.asarray(coordinates, np.float64)
    decimals = least
    places = rounded_places(numbers, decimals)
    while places.size and decimals < ANY.decimals:
        decimals += 1
        places = places[rounded_places(numbers[places], decimals)]
    return decimals


def rounded_places(coordinates: Coordinates, decimals: int) -> Units:
    """The places of the coordinates that have more decimals."""
    numbers = np.asarray(coordinates, np.float64)
    exact = np.ones(numbers.size, np.bool_)
    for first in range(0, numbers.size, BLOCK):
        exact[first:first + BLOCK] = _are_exact(numbers[first:first + BLOCK], decimals)
    return np.flatnonzero(~exact)


def _are_exact(numbers: Numbers, decimals: int) -> Flags:
    power = 10.0**decimals
    exact: Flags = np.rint(numbers) == numbers
    if greatest(numbers) < SHORT / power:
        exact = np.rint(numbers * power) / power == numbers
    elif decimals and not exact.all():
        rest = np.flatnonzero(~exact & np.isfinite(numbers))
        exact[rest] = shortest.read_back(numbers[rest], decimals)
    return exact


def check_limit(coordinates: Coordinates, decimals: int) -> None:
    """Raises CoordinateError at the first coordinate out of rjoin's range at these decimals."""
    numbers = np.asarray(coordinates, np.float64)
    far = far_places(numbers, decimals)
    if far.size:
        raise _too_far(numbers, int(far[0]), decimals)


def far_places(numbers: Numbers, decimals: int) -> Units:
    """The places of the coordinates out of rjoin's range at these decimals."""
    if ANY.fit(numbers, decimals):
        return np.empty(0, np.int64)
    return np.flatnonzero(~(np.abs(numbers) <= ANY.units // 10**decimals))


def _too_far(numbers: Numbers, place: int, decimals: int) -> CoordinateError:
    return CoordinateError(
        place, far_text(float(numbers[place]), decimals, most_decimals(numbers)))


def far_text(number: float, decimals: int, most: int) -> str:
    """What to say of a number out of range; most: how many decimals all numbers may have."""
    if abs(number) > ANY.units:
        return f"{number!r} is out of range: the limit is {ANY.units:,}"
    return f"{number!r} is out of range with {decimals} decimals: at most {most} fit"


def most_decimals(coordinates: Coordinates) -> int:
    """The most decimals at which all coordinates are in rjoin's range."""
    return ANY.in_range(coordinates)


def text(value: float) -> str:
    """The shortest decimal number that is read back as the coordinate, perhaps with an exponent."""
    written = repr(value)
    return written[:-2] if written.endswith(".0") else written


def in_units(value: float, decimals: int) -> int:
    """The coordinate in units of the last decimal, half a unit away from zero, as rjoin rounds."""
    return int(Decimal(repr(value)).scaleb(decimals).to_integral_value(ROUND_HALF_UP))


def all_in_units(numbers: Numbers, decimals: int) -> Units:
    """Coordinates in rjoin's range in units of the last decimal, as `in_units` has each.

    The shortest decimal of a number lies up to half an ulp beside it; where half a unit is as near
    as that, the decimal itself is rounded.
    """
    units: Units = np.empty(numbers.shape, np.int64)
    flat, found = numbers.reshape(-1), units.reshape(-1)
    for first in range(0, flat.size, BLOCK):
        found[first:first + BLOCK] = _rounded(flat[first:first + BLOCK], decimals)
    return units


def _rounded(numbers: Numbers, decimals: int) -> Units:
    power = 10.0**decimals
    if greatest(numbers) <= CLEAR / power:
        units, unclear = _rounded_short(numbers, power)
    else:
        units, beyond, exact = shortest.in_units(numbers, decimals)
        near = shortest.half_ulps(numbers) * power * 1.5 + 2.0**-50
        unclear = ~exact & (0.5 - np.abs(beyond) <= near)
    if unclear.any():
        values, places = np.unique(numbers[unclear], return_inverse=True)
        units[unclear] = np.array([in_units(value, decimals) for value in values.tolist()],
                                  np.int64)[places]
    return units


def _rounded_short(numbers: Numbers, power: float) -> Tuple[Units, Flags]:
    """The units of numbers up to CLEAR, and those that aren't certain: half an ulp lies between a
    number and its shortest decimal, and another between their products with the power of ten."""
    scaled = np.abs(numbers) * power
    below = np.floor(scaled)
    part = scaled - below
    units: Units = (below + (part >= 0.5)).astype(np.int64)
    unclear: Flags = np.abs(part - 0.5) <= scaled * 2.0**-50
    return np.where(numbers < 0, -units, units), unclear


def are_equal(one: float, other: float, decimals: int) -> bool:
    """Whether two coordinates are equal once they are rounded."""
    if one == other:
        return True
    may_be = abs(one - other) * 10**decimals < 2
    return may_be and in_units(one, decimals) == in_units(other, decimals)
