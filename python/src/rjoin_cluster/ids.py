"""Ids as tables of bytes: each row is an id as a field of CSV, filled up with a byte that no UTF-8
has.

Fields are written by rjoin, which quotes where it has to and nowhere else, so that two ids are one
exactly where their fields are.
"""
from __future__ import annotations

from typing import Optional, Sequence

import numpy as np
from numpy.typing import NDArray

from rjoin_cluster.layout import Name, load_rows, size_of
from rjoin_cluster.records import Bytes, Places
from rjoin_cluster.words import WORD, Words, filled_behind, words_at

IdTable = NDArray[np.uint8]
Hashes = NDArray[np.uint64]

FILL = 255
FAST_WIDTHS = (4, 8, 16, 32)

# Of SplitMix64 (Steele, Lea, Flood 2014).
STEP = np.uint64(0x9E3779B97F4A7C15)
MIXERS = ((30, np.uint64(0xBF58476D1CE4E5B9)), (27, np.uint64(0x94D049BB133111EB)))
LAST_SHIFT = np.uint64(31)

BUCKET_SHIFT = 48
SHARES = 2**12
SHARE_SHIFT = 52


def id_table(text: Bytes, begins: Places, lengths: Places) -> IdTable:
    """The table of ids that begin at these places of a text, each of them followed by eight bytes
    at least.
    """
    width = int(lengths.max(initial=1))
    words = np.empty((begins.size, words_in(width)), dtype="<u8")
    for word in range(words.shape[1]):
        rest = lengths - WORD * word
        places = begins + np.minimum(WORD * word, lengths)
        words[:, word] = filled_behind(words_at(text, places), rest)
    return np.ascontiguousarray(words.view(np.uint8)[:, :width])


def fast_width(width: int, most: int) -> int:
    """The least width from this one up to another of which NumPy copies elements in a fifth of the
    time that others take, if there is one.
    """
    return min((fast for fast in FAST_WIDTHS if width <= fast <= most), default=width)


def words_in(width: int) -> int:
    return -(-width // WORD)


def widened(table: IdTable, width: int) -> IdTable:
    """The same ids in a table of at least this width."""
    if table.shape[1] >= width:
        return table
    wide: IdTable = np.full((len(table), width), FILL, dtype=np.uint8)
    wide[:, : table.shape[1]] = table
    return wide


def stacked(tables: Sequence[IdTable]) -> IdTable:
    """The tables one below the other; one without rows where there are none."""
    if not tables:
        return np.zeros((0, 1), dtype=np.uint8)
    width = max(table.shape[1] for table in tables)
    return np.concatenate([widened(table, width) for table in tables])


def as_elements(table: IdTable) -> NDArray[np.void]:
    """The rows of a table as one element each, which NumPy copies in a fraction of the time."""
    return np.ascontiguousarray(table).view(f"V{table.shape[1]}").reshape(-1)


def hashes_of(table: IdTable) -> Hashes:
    """A hash of each id, which doesn't depend on the width of the table."""
    words = ~np.ascontiguousarray(widened(table, words_in(table.shape[1]) * WORD)).view("<u8")
    hashes = np.zeros(len(table), dtype=np.uint64)
    for word in words.T[::-1]:  # what fills up an id comes first, is zero here, and leaves zero
        hashes = hashes * STEP + mixed(word)
    return hashes


def mixed(words: Words) -> Hashes:
    """A hash of each word; that of zero is zero."""
    for shift, factor in MIXERS:
        words = (words ^ (words >> np.uint64(shift))) * factor
    return words ^ (words >> LAST_SHIFT)


def bucket_of(hashes: Hashes) -> NDArray[np.uint16]:
    """Which of 65,536 ranges each hash lies in. NumPy sorts 16 bits by their digits, in a fifth of
    the time that whole hashes take.
    """
    return (hashes >> np.uint64(BUCKET_SHIFT)).astype(np.uint16)


def share_ends(hashes: Hashes) -> NDArray[np.uint32]:
    """Where each of 4,096 ranges of hashes begins, and the last one ends, in hashes that are in the
    order of their buckets.
    """
    counts = np.bincount((hashes >> np.uint64(SHARE_SHIFT)).astype(np.int64), minlength=SHARES)
    return np.append(0, np.cumsum(counts)).astype(np.uint32)


def load_ids(path: Name, count: int, begin: int = 0, end: Optional[int] = None) -> IdTable:
    """These rows of a file that has the ids of so many features."""
    width = size_of(path) // count if count else 1
    table = np.empty(((count if end is None else end) - begin, width), dtype=np.uint8)
    load_rows(path, table, begin)
    return table
