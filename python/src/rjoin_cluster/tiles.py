"""Tiles: the plane cut by the data, so that each tile has about as much to join.

A tile is a rectangle without its upper sides, so that each point of the plane lies in one tile. A
feature is dealt to every tile that its box meets.
"""
from __future__ import annotations

import heapq
from dataclasses import dataclass
from typing import Iterator, NamedTuple, Optional

import numpy as np
from numpy.typing import NDArray

from rjoin_cluster.answers import Boxes
from rjoin_cluster.records import Flags, Places

LEAF = -1
NODE = np.dtype([("axis", "<i8"), ("cut", "<i8"), ("low", "<i8"), ("high", "<i8")])
LEAST_GAIN = 0.9
ROWS_AT_ONCE = 2**13  # which stay in the processor's cache
EVERYWHERE = (-(2**62), 2**62)


class Region(NamedTuple):
    """A tile: what lies at or above the low corner, and below the high one."""

    x1: int
    y1: int
    x2: int
    y2: int

    def below(self, axis: int, cut: int) -> Region:
        return self._replace(x2=cut) if axis == 0 else self._replace(y2=cut)

    def above(self, axis: int, cut: int) -> Region:
        return self._replace(x1=cut) if axis == 0 else self._replace(y1=cut)

    def holds(self, x: Places, y: Places) -> Flags:
        inside: Flags = (self.x1 <= x) & (x < self.x2) & (self.y1 <= y) & (y < self.y2)
        return inside

    def covers(self, boxes: Boxes) -> Flags:
        """Which boxes lie in the tile with all of their points."""
        inside = np.empty(len(boxes), dtype=np.bool_)
        for begin in range(0, len(boxes), ROWS_AT_ONCE):
            some = boxes[begin:begin + ROWS_AT_ONCE]
            low, high = self.holds(some[:, 0], some[:, 1]), self.holds(some[:, 2], some[:, 3])
            inside[begin:begin + ROWS_AT_ONCE] = low & high
        return inside


PLANE = Region(EVERYWHERE[0], EVERYWHERE[0], EVERYWHERE[1], EVERYWHERE[1])


def below(boxes: Boxes, axis: int, cut: int) -> Flags:
    """Which boxes have a point below the cut."""
    flags: Flags = boxes[:, axis] < cut
    return flags


def above(boxes: Boxes, axis: int, cut: int) -> Flags:
    """Which boxes have a point at or above the cut."""
    flags: Flags = boxes[:, axis + 2] >= cut
    return flags


@dataclass(frozen=True)
class Tiles:
    """A tree of cuts: a node has an axis, a cut and two nodes behind itself, or is a leaf whose low
    is its tile.
    """

    nodes: NDArray[np.void]

    @property
    def count(self) -> int:
        return int(np.count_nonzero(self.nodes["axis"] == LEAF))

    def regions(self) -> list[Region]:
        """The tiles, by number."""
        regions = [PLANE] * self.count
        waiting = [(0, PLANE)]
        while waiting:
            number, region = waiting.pop()
            axis, cut, low, high = self.nodes[number].tolist()
            if axis == LEAF:
                regions[low] = region
            else:
                waiting += [(low, region.below(axis, cut)), (high, region.above(axis, cut))]
        return regions

    def deal(self, boxes: Boxes, some: Places) -> Iterator[tuple[int, Places]]:
        """Each tile that one of some boxes meets, in any order, with the numbers of these boxes."""
        ends = np.ascontiguousarray(boxes.T)
        waiting = [(0, some)]
        while waiting:
            number, rows = waiting.pop()
            axis, cut, low, high = self.nodes[number].tolist()
            if not rows.size:
                continue
            if axis == LEAF:
                yield low, rows
            else:
                # NumPy takes what stands at places faster than what has a flag
                is_low, is_high = ends[axis].take(rows) < cut, ends[axis + 2].take(rows) >= cut
                waiting.append((low, rows.take(np.flatnonzero(is_low))))
                waiting.append((high, rows.take(np.flatnonzero(is_high))))


class Sample(NamedTuple):
    """Some boxes of a side, and for how many features each of them stands."""

    boxes: Boxes
    weight: float

    @property
    def load(self) -> float:
        return len(self.boxes) * self.weight


@dataclass(frozen=True)
class Want:
    """How many tiles there are to be at least, and how many features of a side a tile is to have at
    most.
    """

    tiles: int
    features: int


@dataclass(frozen=True)
class Split:
    """A cut of a tile, and what lies on either side of it."""

    axis: int
    cut: int
    low: tuple[Sample, Sample]
    high: tuple[Sample, Sample]


def load_of(samples: tuple[Sample, Sample]) -> float:
    return samples[0].load + samples[1].load


def greatest_load(samples: tuple[Sample, Sample], axis: int, cut: int) -> float:
    """The load of the fuller side of a cut."""
    return max(
        sum(np.count_nonzero(side(boxes, axis, cut)) * weight for boxes, weight in samples)
        for side in (below, above)
    )


def split_at(samples: tuple[Sample, Sample], axis: int, cut: int) -> Split:
    low = [
        Sample(sample.boxes[below(sample.boxes, axis, cut)], sample.weight) for sample in samples
    ]
    high = [
        Sample(sample.boxes[above(sample.boxes, axis, cut)], sample.weight) for sample in samples
    ]
    return Split(axis, cut, (low[0], low[1]), (high[0], high[1]))


def best_split(samples: tuple[Sample, Sample]) -> Optional[Split]:
    """The cut that leaves least on its fuller side; None where no cut helps, as where all features
    cover all.

    At the median of all ends of boxes along an axis, as many boxes reach below as above. Where many
    ends are one number, the cut behind it may be the better one.
    """
    cuts = []
    for axis in (0, 1):
        ends = np.concatenate([sample.boxes[:, axis::2].ravel() for sample in samples])
        if ends.size:
            median = int(np.partition(ends, ends.size // 2)[ends.size // 2])
            cuts += [(axis, median), (axis, median + 1)]
    loads = [greatest_load(samples, axis, cut) for axis, cut in cuts]
    least = min(loads, default=np.inf)
    if least > LEAST_GAIN * load_of(samples):
        return None
    return split_at(samples, *cuts[loads.index(least)])


def make_tiles(left: Sample, right: Sample, want: Want) -> Tiles:
    """Cuts the fullest tile in two until there are enough tiles and none is too full, as far as
    cuts help.
    """
    nodes = [(LEAF, 0, 0, 0)]
    leaves = 1
    fullest = [(-load_of((left, right)), 0, (left, right))]
    while fullest:
        _, number, samples = heapq.heappop(fullest)
        too_full = max(sample.load for sample in samples) > want.features
        split = best_split(samples) if too_full or leaves < want.tiles else None
        if split is None:
            continue
        nodes[number] = (split.axis, split.cut, len(nodes), len(nodes) + 1)
        for child in (split.low, split.high):
            heapq.heappush(fullest, (-load_of(child), len(nodes), child))
            nodes.append((LEAF, 0, 0, 0))
        leaves += 1
    return Tiles(numbered(np.array(nodes, dtype=NODE)))


def numbered(nodes: NDArray[np.void]) -> NDArray[np.void]:
    """The tree whose leaves have the numbers of tiles."""
    leaves = nodes["axis"] == LEAF
    nodes["low"][leaves] = np.arange(np.count_nonzero(leaves))
    return nodes
