"""Ids of the features of a run: a number in four letters, each of which stands for six of its bits,
the highest first. NumPy writes and reads them in fewer steps than decimal digits. They ascend, as
rjoin sorts the ids of a layer, and what is in order takes it less time.
"""
from __future__ import annotations

import numpy as np
from numpy.typing import NDArray

from rjoin_cluster.records import Bytes, Places

Letters = NDArray[np.uint32]  # four in each, the first in the lowest byte

ID_BYTES = 4
ZEROS = np.uint32(0x30303030)  # the letter "0" stands for 0, and those behind it, up to "o", follow
NO_DIGITS = np.uint32(0xC0C0C0C0)
FIRST_DIGITS = np.uint32(0x003F003F)  # of two halves, in each of which two digits lie in bytes
LOW = np.uint32(0xFFF)
BITS, BITS_OF_TWO, BYTE, HALF = np.uint32(6), np.uint32(12), np.uint32(8), np.uint32(16)


def letters_of(count: int) -> Letters:
    """The ids of the first features of a run."""
    numbers = np.arange(count, dtype=np.uint32)
    halves = (numbers >> BITS_OF_TWO) | ((numbers & LOW) << HALF)
    letters: Letters = ((halves >> BITS) & FIRST_DIGITS) | ((halves & FIRST_DIGITS) << BYTE)
    letters += ZEROS
    return letters


def numbers_of(letters: Letters) -> Places:
    """The numbers of ids. Other bytes than such letters are a ValueError."""
    digits = letters - ZEROS
    if (digits & NO_DIGITS).any():
        raise ValueError("not an id of a run")
    halves = ((digits & FIRST_DIGITS) << BITS) | ((digits >> BYTE) & FIRST_DIGITS)
    return (((halves & LOW) << BITS_OF_TWO) | (halves >> HALF)).astype(np.int64)


def ids_before(text: Bytes, ends: range) -> Letters:
    """The ids that end before these places."""
    begin = ends.start - ID_BYTES
    letters: Letters = np.ndarray(len(ends), "<u4", text, begin, (ends.step,))
    return letters


def ids_ending(text: Bytes, ends: Places) -> Letters:
    """The same, of places at any distance from each other."""
    overlapping: Letters = np.ndarray(text.size - ID_BYTES + 1, "<u4", text.data, strides=1)
    letters: Letters = overlapping[ends - ID_BYTES]
    return letters
