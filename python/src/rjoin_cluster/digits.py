"""Whole numbers to and from decimal digits of one width, many at a time."""
from __future__ import annotations

from functools import cache

import numpy as np
from numpy.typing import NDArray

from rjoin_cluster.records import Bytes, Places
from rjoin_cluster.words import WORD, Words, last_bytes, words_at

Texts = NDArray[np.void]  # each text is one element

MOST_DIGITS = 19  # of a number of 64 bits with its sign
MINUS = ord("-")
GROUP = 4
ZEROS = np.uint64(0x3030303030303030)
MOST_IN_WORD = WORD - 1  # digits, so that there is room for a mark behind them
MOST_IN_TABLE = 5  # digits of a number whose text is looked up as a whole
GROUPS = np.array([f"{number:04}" for number in range(10**GROUP)], dtype="S4").view("<u4")
NO_TEXTS = np.zeros(0, dtype="V1")


def digits_in(greatest: int) -> int:
    return len(str(greatest))


def written(numbers: Places, width: int, signed: bool = False) -> Texts:
    """A text of so many digits for each number, with a sign before them where that is wanted; else
    none is below 0.
    """
    groups = -(-(width + signed) // GROUP)
    rows = np.empty((numbers.size, groups), dtype="<u4")
    rest = np.abs(numbers) if signed else numbers
    for group in reversed(range(groups)):
        above = rest // 10**GROUP
        rows[:, group] = GROUPS[rest - above * 10**GROUP]
        rest = above
    begin = groups * GROUP - width - signed
    if signed:
        rows.view(np.uint8)[:, begin] = np.where(numbers < 0, ord("-"), ord("+"))
    kind = f"V{width + signed}"
    return np.ndarray(numbers.size, kind, rows, begin, rows.strides[:1]) if rows.size else NO_TEXTS


def words_of(numbers: Places, width: int, mark: int) -> Words:
    """A word for each number, none of which is below 0: so many digits, and behind them a mark."""
    if width <= MOST_IN_TABLE:
        words: Words = words_table(width, 0, mark).take(numbers)
        return words
    above = numbers // 10**GROUP
    words = words_table(width - GROUP, 0, 0).take(above)
    words |= words_table(GROUP, width - GROUP, mark).take(numbers - above * 10**GROUP)
    return words


@cache
def words_table(digits: int, at: int, mark: int) -> Words:
    """The digits of each number that has no more of them, from this byte of a word on, and a mark
    behind them.
    """
    numbers = np.arange(10**digits)
    table = np.zeros((numbers.size, WORD), dtype=np.uint8)
    for place in reversed(range(at, at + digits)):
        table[:, place] = numbers % 10 + ord("0")
        numbers //= 10
    table[:, at + digits] = mark
    return table.view("<u8").reshape(-1)


def put(text: Bytes, at: int, texts: Texts) -> None:
    """Writes a text into each row, from this column on. To NumPy each is one element, so that it
    copies them several times as fast as single bytes.
    """
    if texts.size:
        np.ndarray(len(text), texts.dtype, text, at, text.strides[:1])[...] = texts


def numbers_in(text: Bytes, begins: Places, ends: Places, signed: bool = True) -> Places:
    """The numbers that stand between these places of a text: of at most 19 digits, with a minus
    sign where they are below 0, if signs are looked for. None ends within the first 16 bytes, and
    all are of 64 bits. Anything else is a ValueError.
    """
    digits = ends - begins
    below_zero = None
    if signed:
        below_zero = text.take(begins) == MINUS
        digits -= below_zero
    longest = int(digits.max(initial=1))
    if digits.min(initial=1) < 1 or longest > MOST_DIGITS:
        raise ValueError(f"not 1 to {MOST_DIGITS} digits")
    numbers = number_of_digits(last_bytes(digits_before(text, ends), digits))
    for low in range(WORD, longest, WORD):
        # before a number that is shorter, these bytes may lie before the text
        begins = np.maximum(ends - low, WORD)
        high = last_bytes(digits_before(text, begins), digits - low)
        numbers += 10**low * number_of_digits(high)
    return numbers if below_zero is None else np.negative(numbers, out=numbers, where=below_zero)


def digits_before(text: Bytes, ends: Places) -> Words:
    """The eight bytes before each place, each as the digit that it stands for, if it does."""
    return words_at(text, ends - WORD) ^ ZEROS


def number_of_digits(digits: Words) -> Places:
    """The numbers that eight digits stand for, the first of which is in the lowest byte.

    Each two neighbours are put together, which gives four numbers of two digits, then two of four,
    then one: times a factor, the upper half of a pair is what both come to.
    """
    if digits.view(np.uint8).max(initial=0) > 9:
        raise ValueError("not a digit")
    pairs = digits.view(np.uint16) * np.uint16(10 << 8 | 1) // np.uint16(1 << 8)
    fours = pairs.view(np.uint32) * np.uint32(100 << 16 | 1) // np.uint32(1 << 16)
    eights = fours.view(np.uint64) * np.uint64(10_000 << 32 | 1)
    return eights.view(np.uint32)[..., 1::2].astype(np.int64)
