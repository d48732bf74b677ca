"""The shortest decimals of doubles, by columns.

A decimal n / 10^k reads back as a double where no other double is nearer to it. The shortest
decimal of a double is that with the least k, and of these the nearest, as `repr` writes it below
2^53. Decimals of 15 digits differ as doubles, and 17 digits tell all doubles apart (DBL_DIG and
DBL_DECIMAL_DIG in ISO C, 5.2.4.2.2).
"""
from __future__ import annotations

from decimal import Decimal
from typing import Tuple

import numpy as np
from numpy.typing import NDArray

Numbers = NDArray[np.float64]
Units = NDArray[np.int64]
Flags = NDArray[np.bool_]

DIFFERING, ENOUGH = 15, 17
# Whole numbers of up to so many digits have 64 bits.
MOST_DIGITS = 18
POWERS = np.array([float(10 ** power) for power in range(MOST_DIGITS + 1)])
WHOLE_POWERS = np.array([10 ** power for power in range(MOST_DIGITS + 1)], np.int64)
BORDERS = np.array([float(f"1e{power}") for power in range(-MOST_DIGITS, MOST_DIGITS + 1)])
# What splits a double into two of half as many bits (T. J. Dekker, 1971).
SPLITTER = 2.0 ** 27 + 1
# A residue that differs from half an ulp by less than this share of it may be either side of it.
UNCLEAR = 2.0 ** -30


def read_back(numbers: Numbers, decimals: int) -> Flags:
    """Which numbers have a shortest decimal of at most so many decimals."""
    exact = digits_before(numbers) + decimals >= ENOUGH
    rest = np.flatnonzero(~exact)
    _, _, exact[rest] = nearest(numbers[rest], np.full(rest.size, decimals))
    return exact


def in_units(numbers: Numbers, decimals: int) -> Tuple[Units, Numbers, Flags]:
    """Numbers in units of the last decimal, of which each has up to MOST_DIGITS digits.

    The nearest units of each, what it has beyond them, and which have no more decimals: of these
    they are the units of the shortest decimal.
    """
    units, beyond, exact = nearest(numbers, np.full(numbers.size, decimals))
    levels = np.clip(DIFFERING - digits_before(numbers), 0, decimals)
    rest = np.flatnonzero(exact & (levels < decimals))
    while rest.size:
        level = levels[rest]
        found, _, ends = nearest(numbers[rest], level)
        units[rest[ends]] = (found * WHOLE_POWERS[decimals - level])[ends]
        rest = rest[~ends & (level < decimals - 1)]
        levels[rest] += 1
    return units, beyond, exact


def digits_before(numbers: Numbers) -> Units:
    """How many digits numbers have before the point, or less than 0 where zeros follow the point.

    Of what is less than all BORDERS it is the least number.
    """
    digits: Units = np.searchsorted(BORDERS, np.abs(numbers), side="right") - MOST_DIGITS
    return digits


def nearest(numbers: Numbers, decimals: Units) -> Tuple[Units, Numbers, Flags]:
    """The nearest units of some decimals of each number, what it has beyond them, in units, and
    whether they read back as the number.
    """
    power = POWERS[decimals]
    high, low = product(numbers, power)
    whole = np.rint(high)
    rest = (high - whole) + low
    more = np.rint(rest)
    units: Units = whole.astype(np.int64) + more.astype(np.int64)
    beyond = rest - more
    half = half_ulps(numbers) * power
    reads_back: Flags = (np.abs(beyond) < half) | (numbers == 0)
    unclear = np.abs(np.abs(beyond) - half) <= half * UNCLEAR
    # below a power of two the next double is half as far away
    unclear |= reads_back & (np.abs(np.frexp(numbers)[0]) == 0.5) & (beyond != 0)
    for place in np.flatnonzero(unclear).tolist():
        scaled = Decimal(repr(float(numbers[place]))).scaleb(int(decimals[place]))
        reads_back[place] = scaled == scaled.to_integral_value()
        if reads_back[place]:
            units[place] = int(scaled)
    return units, beyond, reads_back


def half_ulps(numbers: Numbers) -> Numbers:
    """How far from each number those lie at most that read as it, but for powers of two."""
    half: Numbers = np.spacing(np.abs(numbers)) / 2
    return half


def product(numbers: Numbers, others: Numbers) -> Tuple[Numbers, Numbers]:
    """The products of numbers, each as two doubles whose sum it is exactly."""
    high = numbers * others
    (one, one_low), (two, two_low) = halves(numbers), halves(others)
    low: Numbers = one_low * two_low - (((high - one * two) - one_low * two) - one * two_low)
    return high, low


def halves(numbers: Numbers) -> Tuple[Numbers, Numbers]:
    """Each number as the sum of two of half as many bits, whose products are exact."""
    scaled = numbers * SPLITTER
    high = scaled - (scaled - numbers)
    return high, numbers - high
