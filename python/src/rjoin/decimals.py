"""How many decimals coordinates need, and coordinates as whole numbers of units of the last one,
exactly or rounded.

The program counts in units of 10^-K. A double v is written exactly by K decimals where its shortest
decimal, by which the program reads binary numbers too, has no more. Where n / 10^K has up to 15
digits and v is the double nearest to it, it is that decimal, since such decimals differ as doubles
(DBL_DIG in ISO C, 5.2.4.2.2); longer ones are those of rjoin.shortest.
"""
from __future__ import annotations

import re
from decimal import ROUND_HALF_UP, Decimal
from typing import Iterator, NamedTuple, Optional, Tuple

import numpy as np
from numpy.typing import NDArray

from rjoin import shortest
from rjoin.limits import ANY

Numbers = NDArray[np.float64]
Units = NDArray[np.int64]
Flags = NDArray[np.bool_]

# How many numbers are looked at together, so that they stay in the processor's cache.
BLOCK = 1 << 14
# Up to here units are known by one product of doubles, and are rounded by one where it is clear.
SHORT = 10.0 ** shortest.DIFFERING
CLEAR = 10.0 ** 12
COORDINATE = "coordinate"


class Scale(NamedTuple):
    """How coordinates are written: in units of 10^-decimals, and with a dot or as whole numbers.

    rounds: as the nearest unit; else all of them are whole numbers of units. extra: how many more
    decimals the whole numbers have that are written.
    """

    decimals: int
    dots: bool
    rounds: bool
    extra: int = 0

    @property
    def without_extra(self) -> "Scale":
        return self._replace(extra=0)

    @property
    def finer(self) -> int:
        """How many of the units that are written one of the decimals has."""
        return int(10 ** self.extra)

    @property
    def dots_before(self) -> int:
        """How many decimals are written behind a dot."""
        return self.decimals if self.dots else 0

    @property
    def words(self) -> Tuple[str, ...]:
        """The options of the program: where all numbers are whole, they have been rounded."""
        rounded = ("--round",) if self.rounds and self.dots else ()
        return ("--scale", str(self.dots_before), *rounded)

    def numbers(self, units: Units) -> Numbers:
        """What the program has counted in the units of the whole numbers that are written."""
        counted: Numbers = units / 10.0 ** (self.decimals + self.extra)
        return counted


class Unwritable(Exception):
    """A number that cannot be written; row counts from 0."""

    def __init__(self, row: int, reason: str) -> None:
        super().__init__(row, reason)
        self.row = row
        self.reason = reason


def is_exact(numbers: Numbers, decimals: int) -> Flags:
    """Which numbers have at most this many decimals; all whole numbers count, however great."""
    exact: Flags = np.rint(numbers) == numbers
    if decimals == 0 or exact.all():
        return exact
    if greatest(numbers) < SHORT / 10.0 ** decimals:
        return are_short(numbers, decimals)
    rest = np.flatnonzero(~exact)
    exact[rest] = shortest.read_back(numbers[rest], decimals)
    return exact


def are_short(numbers: Numbers, decimals: int) -> Flags:
    """The same of numbers with up to 15 digits in units."""
    power = 10.0 ** decimals
    exact: Flags = np.rint(numbers * power) / power == numbers
    return exact


def greatest(numbers: Numbers) -> float:
    """A number that none exceeds by its absolute value, and which one is; 0 of none."""
    return float(max(numbers.max(initial=0.0), -numbers.min(initial=0.0)))


def blocks(numbers: Numbers) -> Iterator[slice]:
    """The places of a column, a block at a time."""
    return (slice(first, first + BLOCK) for first in range(0, len(numbers), BLOCK))


def has_more(numbers: Numbers, decimals: int) -> bool:
    """Whether some number has more decimals."""
    column = numbers.ravel()
    return not all(is_exact(column[block], decimals).all() for block in blocks(column))


def fewest(corners: Numbers, name: str = COORDINATE) -> int:
    """The fewest decimals that write all numbers of a matrix, or Unwritable with the first row.

    name: what such a number is.
    """
    numbers = corners.ravel()
    found = 0
    for block in blocks(numbers):
        rest = block.start + np.flatnonzero(~is_exact(numbers[block], found))
        while rest.size and found < ANY.decimals:
            found += 1
            rest = rest[~is_exact(numbers[rest], found)]
        if rest.size:
            number = repr(float(numbers[rest[0]]))
            raise Unwritable(int(rest[0]) // corners.shape[1], too_fine(number, name))
    return found


def count_of(number: str) -> int:
    """The decimals of a number, which may have an exponent; zeros at the end don't count."""
    _, digits, exponent = Decimal(number).as_tuple()
    kept = "".join(map(str, digits)).rstrip("0")
    return max(0, -int(exponent) - len(digits) + len(kept)) if kept else 0


def too_fine(number: str, name: str = COORDINATE) -> str:
    """The fault of a number with more decimals than the program reads exactly."""
    return (f"{name} {number} has {count_of(number)} decimals, and {ANY.decimals} are the "
            f"most: decimals={ANY.decimals} rounds it")


def in_units(numbers: Numbers, scale: Scale, name: str = COORDINATE,
             exact_at: Optional[int] = None) -> Units:
    """The numbers of a matrix in units of the decimals, or Unwritable with the first row.

    exact_at: decimals that are known to write all of them.
    """
    if scale.rounds:
        return rounded(numbers, scale.decimals, name)
    is_known = exact_at is not None and exact_at <= scale.decimals
    return units(numbers, scale.decimals, name, is_known)


def units(corners: Numbers, decimals: int, name: str = COORDINATE,
          is_known: bool = False) -> Units:
    """The numbers of a matrix in units of the last decimal, or Unwritable with the first row.

    is_known: the decimals are known to write all numbers, and need not be looked at again.
    """
    refuse_great(corners, decimals, name)
    column = corners.ravel()
    whole: Units = np.empty(column.shape, np.int64)
    for block in blocks(column):
        whole[block], exact = in_units_of(column[block], decimals, is_known)
        if not exact.all():
            wrong = (block.start + int(exact.argmin())) // corners.shape[1]
            raise Unwritable(wrong, f"a {name} has more than {decimals} decimals")
    return whole.reshape(corners.shape)


def in_units_of(numbers: Numbers, decimals: int, is_known: bool) -> Tuple[Units, Flags]:
    """The numbers in units, and which have no more decimals."""
    power = 10.0 ** decimals
    if greatest(numbers) < SHORT / power:
        exact = np.ones(len(numbers), np.bool_) if is_known else is_exact(numbers, decimals)
        return np.rint(numbers * power).astype(np.int64), exact
    found, _, exact = shortest.in_units(numbers, decimals)
    return found, exact


def refuse_great(numbers: Numbers, decimals: int, name: str) -> None:
    """Raises Unwritable with the first row that has a number out of the program's range; the next
    double above its end is more than a unit above it.
    """
    most = ANY.greatest(decimals)
    if greatest(numbers) > most:
        wrong = int((np.abs(numbers) > most).any(axis=1).argmax())
        raise Unwritable(wrong, f"a {name} is above {ANY.units} units of 10^-{decimals}")


def rounded(numbers: Numbers, decimals: int, name: str = COORDINATE) -> Units:
    """The numbers of a matrix in units, each the nearest one, half a unit away from zero.

    A number counts as the shortest decimal that reads as it, as the program's --round reads that
    decimal.
    """
    refuse_great(numbers, decimals, name)
    column = numbers.ravel()
    whole: Units = np.empty(column.shape, np.int64)
    for block in blocks(column):
        whole[block] = rounded_units(column[block], decimals)
    return whole.reshape(numbers.shape)


def rounded_units(numbers: Numbers, decimals: int) -> Units:
    """The numbers in units, each the nearest one, half a unit away from zero.

    The shortest decimal lies up to half an ulp beside its double; where half a unit is as near as
    that, the decimal itself is rounded.
    """
    power = 10.0 ** decimals
    if greatest(numbers) <= CLEAR / power:
        scaled = np.abs(numbers) * power
        whole: Units = np.floor(scaled + 0.5).astype(np.int64)
        unclear = np.abs(scaled - np.floor(scaled) - 0.5) <= scaled * 2.0 ** -50
        whole = np.where(numbers < 0, -whole, whole)
    else:
        whole, beyond, exact = shortest.in_units(numbers, decimals)
        near = shortest.half_ulps(numbers) * power * 1.5 + 2.0 ** -50
        unclear = ~exact & (0.5 - np.abs(beyond) <= near)
    if unclear.any():
        values, places = np.unique(numbers[unclear], return_inverse=True)
        whole[unclear] = np.array([rounded_text(repr(value), decimals)
                                   for value in values.tolist()], np.int64)[places]
    return whole


def rounded_text(number: str, decimals: int) -> int:
    """The number of a decimal text in units, the nearest one, half a unit away from zero."""
    return int(Decimal(number).scaleb(decimals).to_integral_value(ROUND_HALF_UP))


def fewest_of_text(text: str) -> int:
    """The fewest decimals that write all numbers of a text; more than the program reads where that
    is not enough.

    Numbers before the first one with K decimals have fewer, so that the text is read once.
    """
    decimals, place = 0, 0
    while decimals <= ANY.decimals:
        found = re.compile(r"\.\d{%d,}[1-9]" % decimals).search(text, place)
        if not found:
            break
        decimals, place = decimals + 1, found.start()
    return decimals
