"""Distances that a call is given, which are read as coordinates are."""
from __future__ import annotations

from numbers import Real
from typing import Any, List, NamedTuple, Tuple, Union

import numpy as np
from numpy.typing import NDArray

from rjoin import decimals
from rjoin.decimals import Scale
from rjoin.errors import ArgumentError


class Length:
    """A distance, by the name of its argument; it is exact to a decimal, or rounded to one."""

    needs_any = False
    may_count_units = True

    def __init__(self, name: str, value: Any) -> None:
        is_number = isinstance(value, Real) and not isinstance(value, (bool, np.bool_))
        if not is_number or not 0 <= value < float("inf"):
            raise ArgumentError(f"{name} must be a finite number, not negative, and not {value!r}")
        self.name = name
        self.numbers = np.array([[value]], np.float64)

    def needed_decimals(self) -> int:
        try:
            return decimals.fewest(self.numbers, self.name)
        except decimals.Unwritable as number:
            raise ArgumentError(number.reason) from number

    def greatest(self) -> float:
        return float(self.numbers.max(initial=0.0))

    def has_more(self, number: int) -> bool:
        """Whether it has more decimals."""
        return decimals.has_more(self.numbers, number)

    def units(self, scale: Scale) -> NDArray[np.int64]:
        """The distance, or each of several, in the units that are written."""
        try:
            units = decimals.in_units(self.numbers, scale, self.name)
        except decimals.Unwritable as number:
            raise ArgumentError(number.reason) from number
        written: NDArray[np.int64] = units[:, 0] * scale.finer
        return written

    def words(self, scale: Scale) -> List[str]:
        """The option of the program, as a number of units."""
        return words_of(int(self.units(scale)[0]))


class Lengths(Length):
    """A distance for each feature of the left frame, in its order."""

    def __init__(self, name: str, values: Any, count: int) -> None:
        try:
            numbers = np.asarray(values, np.float64)
        except (TypeError, ValueError) as fault:
            raise ArgumentError(f"{name} has values that are no numbers") from fault
        if numbers.shape != (count,):
            raise ArgumentError(f"{name} must be one number, or one for each of the {count} left "
                                f"features, and not of the shape {numbers.shape}")
        wrong = np.flatnonzero(~(np.isfinite(numbers) & (numbers >= 0)))
        if wrong.size:
            raise ArgumentError(f"{name} must have finite numbers, not negative, and not "
                                f"{float(numbers[wrong[0]])!r} (row {wrong[0] + 1})")
        self.name = name
        self.numbers = numbers.reshape(-1, 1)


def words_of(units: int) -> List[str]:
    """The option of the program for a distance of so many units."""
    return ["--distance", str(units)]


def length_of(name: str, value: Any, left: Any) -> Union[Length, Lengths]:
    """A number, or the numbers of a sequence or of a column of the left frame."""
    if isinstance(value, str):
        if value not in left.columns:
            raise ArgumentError(f"{name} is {value!r}, which is no column of the left frame")
        value = left[value].to_numpy()
    return Lengths(name, value, len(left)) if np.ndim(value) else Length(name, value)


class Measure(NamedTuple):
    """The distances that the program is given, and how fine those of its report are.

    is_fine: whether distances are read from the report, and are to have as many decimals as the
    program's range, and the size of the files that it reads, allow.
    """

    lengths: Tuple[Length, ...] = ()
    is_fine: bool = False
