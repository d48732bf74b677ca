"""Bytes of a text, eight at a time, as numbers whose lowest byte is the first one."""
from __future__ import annotations

import numpy as np
from numpy.typing import NDArray

from rjoin_cluster.records import Bytes, Places

Words = NDArray[np.uint64]

WORD = 8
KEEPS_FIRST = np.array([(1 << 8 * count) - 1 for count in range(WORD + 1)], dtype=np.uint64)
KEEPS_LAST = ~KEEPS_FIRST[::-1]
FILLS_BEHIND = ~KEEPS_FIRST


def words_at(text: Bytes, places: Places) -> Words:
    """The eight bytes from each place on, all of which lie in the text."""
    overlapping: Words = np.ndarray(text.size - WORD + 1, "<u8", text.data, strides=1)
    return overlapping[places]


def put_words(text: Bytes, places: Places, words: Words) -> None:
    """Writes eight bytes at each place, all of which lie in the text."""
    if places.size:
        overlapping: Words = np.ndarray(text.size - WORD + 1, "<u8", text.data, strides=1)
        overlapping[places] = words


def filled_behind(words: Words, counts: Places) -> Words:
    """The words with 255 for all but so many of their first bytes: none below 0, all above 8."""
    return words | FILLS_BEHIND.take(counts, mode="clip")


def last_bytes(words: Words, counts: Places) -> Words:
    """The words with zeros for all but so many of their last bytes: none below 0, all above 8."""
    return words & KEEPS_LAST.take(counts, mode="clip")


def first_bytes(words: Words, count: int) -> NDArray[np.void]:
    """So many of the first bytes of each word, as one element."""
    elements: NDArray[np.void] = np.ndarray(words.size, f"V{count}", words, 0, (WORD,))
    return elements
