"""Ids that stand twice in a layer, in whichever blocks their rows lie.

Ids are dealt by the range that their hash lies in. Equal ids have equal hashes; where hashes are
equal, the ids themselves are compared.
"""
from __future__ import annotations

from dataclasses import dataclass
from typing import Optional

import numpy as np
from numpy.typing import NDArray

from rjoin_cluster.ids import FILL, SHARES, Hashes, load_ids
from rjoin_cluster.layout import Layout, RowsFile, mapped
from rjoin_cluster.records import Places
from rjoin_cluster.sides import Side


@dataclass(frozen=True)
class DoublesJob:
    """Some ranges of hashes of a layer's ids."""

    layout: Layout
    side: Side
    part: int
    parts: int

    def __str__(self) -> str:
        return f"{self.side.value} ids, part {self.part} of {self.parts}"

    @property
    def shares(self) -> list[int]:
        """The first range of hashes of the part, and the one behind its last."""
        return [SHARES * part // self.parts for part in (self.part, self.part + 1)]


def first_double(job: DoublesJob) -> Optional[int]:
    """The number of the first feature whose id a feature before it has."""
    hashes, numbers = repeated(*hashed(job))
    again = np.flatnonzero(hashes[1:] == hashes[:-1]) + 1
    for place in again[np.argsort(numbers[again])].tolist():
        begin = int(np.searchsorted(hashes, hashes[place]))
        name = id_of(job, int(numbers[place]))
        if any(id_of(job, earlier) == name for earlier in numbers[begin:place].tolist()):
            return int(numbers[place])
    return None


def repeated(hashes: Hashes, numbers: Places) -> tuple[Hashes, Places]:
    """Those hashes that stand more than once, in order, and of one hash the numbers in order."""
    in_order = np.sort(hashes)
    places = np.flatnonzero(np.isin(hashes, in_order[1:][in_order[1:] == in_order[:-1]]))
    hashes, numbers = hashes.take(places), numbers.take(places)
    order = np.lexsort((numbers, hashes))
    return hashes.take(order), numbers.take(order)


def hashed(job: DoublesJob) -> tuple[Hashes, Places]:
    """The hashes of the part, with the numbers of their features."""
    hashes = [np.zeros(0, dtype=np.uint64)]
    numbers = [np.zeros(0, dtype=np.int64)]
    firsts = mapped(job.layout.firsts(job.side)).tolist()
    for block, (first, behind) in enumerate(zip(firsts, firsts[1:])):
        found, rows = hashed_in(job, block, behind - first)
        hashes.append(found)
        numbers.append(rows + np.int64(first))
    return np.concatenate(hashes), np.concatenate(numbers)


def hashed_in(job: DoublesJob, block: int, count: int) -> tuple[Hashes, NDArray[np.uint32]]:
    """The hashes of the part in a block of so many features, with their rows in the block."""
    ends = np.empty(SHARES + 1, dtype=np.uint32)
    with RowsFile(job.layout.hashes(job.side, block)) as file:
        low, high = job.shares
        file.fill(ends[low:high + 1], low * ends.itemsize)
        begin, end = int(ends[low]), int(ends[high])
        hashes = np.empty(end - begin, dtype=np.uint64)
        file.fill(hashes, ends.nbytes + begin * hashes.itemsize)
        rows = np.empty(end - begin, dtype=np.uint32)
        file.fill(rows, ends.nbytes + count * hashes.itemsize + begin * rows.itemsize)
    return hashes, rows


def id_of(job: DoublesJob, number: int) -> bytes:
    firsts = mapped(job.layout.firsts(job.side))
    block = int(np.searchsorted(firsts, number, side="right")) - 1
    first, behind = int(firsts[block]), int(firsts[block + 1])
    row = number - first
    table = load_ids(job.layout.ids(job.side, block), behind - first, row, row + 1)
    return bytes(table).rstrip(bytes([FILL]))
