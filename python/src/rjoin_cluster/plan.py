"""How a join is divided: how many tiles it has, which blocks are dealt together, and which parts of
a tile are too much for one run.
"""
from __future__ import annotations

from dataclasses import dataclass
from typing import Iterator, Optional

import numpy as np

from rjoin_cluster.layers import Layer, Layers
from rjoin_cluster.pieces import Range
from rjoin_cluster.program import HEADER, MOST_BYTES, MOST_FEATURES
from rjoin_cluster.records import Places
from rjoin_cluster.sides import SIDES, Side
from rjoin_cluster.tiles import Want
from rjoin_cluster.words import WORD

# Of a side in a tile, and of both.
TILE_FEATURES = 400_000
TILE_BYTES = 2**25
LEAST_TILE_FEATURES = 200_000
LEAST_TILE_RECORDS = 20_000
TILES_PER_WORKER = 4

MOST_GROUPS = 400
GROUP_FEATURES = 3_000_000
GROUP_BYTES = 2**27
GROUPS_PER_WORKER = 2

MOST_RECORDS_BYTES = MOST_BYTES - len(HEADER)

# How much smaller than a block of the left layer a right one is that each run takes whole, and of
# how many blocks the left one has to be, so that there is a run for each worker.
WHOLE_SHARE = 8
WHOLE_BLOCKS_PER_WORKER = 2


@dataclass(frozen=True)
class Plan:
    """The plan of a join of these layers by so many workers."""

    layers: Layers
    workers: int
    has_texts: bool  # whether geometries travel as the file has them

    @property
    def most_features(self) -> int:
        """How many features of a side a run takes at most."""
        return MOST_FEATURES if self.has_texts else self.layers.numerals.most_features

    def tiles(self, wanted: Optional[int]) -> Want:
        features = min(TILE_FEATURES, self.most_features // 2)
        least = LEAST_TILE_FEATURES
        if self.has_texts:
            features = min(features, *(self.features_in(side, TILE_BYTES) for side in SIDES))
            least = LEAST_TILE_RECORDS
        if wanted is not None:
            return Want(wanted, features)
        filled = (self.layers.left.rows + self.layers.right.rows) // least
        return Want(min(filled, self.workers * TILES_PER_WORKER), features)

    @property
    def takes_right_whole(self) -> bool:
        """Whether each run takes a block of the left layer, or a part of one, and all of the right
        one, which is so small that this costs less than tiles do.
        """
        left, right = self.layers.left, self.layers.right
        blocks = len(left.blocks)
        sizes = [block.bytes + WORD * block.rows for block in left.blocks]
        return (
            blocks >= WHOLE_BLOCKS_PER_WORKER * max(1, self.workers)
            and right.rows * WHOLE_SHARE <= left.rows // blocks
            and sum(block.bytes for block in right.blocks) * WHOLE_SHARE <= sum(sizes) // blocks
            and (not self.has_texts or max(sizes) <= MOST_RECORDS_BYTES)
        )

    def parts_of_blocks(self, layer: Layer) -> list[Range]:
        """The features of each block, in parts that a run takes."""
        firsts = layer.firsts.tolist()
        return [
            Range(first + part.begin, first + part.end)
            for first, behind in zip(firsts, firsts[1:])
            for part in ranges(behind - first, self.most_features)
        ]

    def features_in(self, side: Side, size: int) -> int:
        """How many features of a layer have about so many bytes; one at least."""
        return max(1, size * self.layers[side].rows // max(1, self.layers[side].bytes))

    def blocks_of_group(self, layer: Layer) -> int:
        """How many blocks are dealt together, as far as a worker's memory takes them. Each run
        reads of each group, so that there should be few, but enough for some workers.
        """
        blocks = len(layer.blocks)
        share = blocks // (GROUPS_PER_WORKER * max(1, self.workers))
        fitting = GROUP_FEATURES * blocks // max(1, layer.rows)
        if self.has_texts:
            fitting = min(fitting, GROUP_BYTES * blocks // max(1, layer.bytes))
        return max(1, min(max(1 + blocks // MOST_GROUPS, share), fitting))


def ranges(count: int, most: int) -> list[Range]:
    """The numbers below count in as few ranges of about one length as have at most so many."""
    parts = -(-count // most)
    return [Range(count * part // parts, count * (part + 1) // parts) for part in range(parts)]


def ranges_of_records(lengths: Places) -> Iterator[Range]:
    """Records in ranges that a run takes, by their number and their bytes."""
    ends = np.cumsum(lengths)
    begin = 0
    while begin < lengths.size:
        most = int(ends[begin]) - int(lengths[begin]) + MOST_RECORDS_BYTES
        fitting = int(np.searchsorted(ends, most, side="right"))
        behind = min(max(fitting, begin + 1), begin + MOST_FEATURES)
        yield Range(begin, behind)
        begin = behind
