"""Nearest features however far away: rounds with ever greater distances, each for the left features
that have not as many right ones within the one before as are sought.

A feature that has so many within a distance has its answer: the nearest ones, and those as far away
as the last of them, are no further than this. The last round has no distance.
"""
from __future__ import annotations

from dataclasses import dataclass, replace
from typing import Sequence

import numpy as np

from rjoin_cluster.answers import Boxes
from rjoin_cluster.choice import Choice, save_chosen
from rjoin_cluster.conditions import Condition, Reach
from rjoin_cluster.layout import Layout, mapped, save_array
from rjoin_cluster.merge import PartJob, pairs_of, save_ranges
from rjoin_cluster.records import Places
from rjoin_cluster.runs import RunDone
from rjoin_cluster.sides import Side
from rjoin_cluster.tiles import Sample

FEW = 100_000  # left features that are looked for in all of the right layer
WIDER = 4  # how much greater each distance is
SPACINGS = 2  # of right features, to which the first distance is set
LEFT_OF_SAMPLE = 500
RIGHT_OF_SAMPLE = 20_000
MOST_FEATURES_APART = 0.9  # the share of left features for which the first distance is to be enough


@dataclass(frozen=True)
class CountJob:
    """A block of the left layer whose pairs of a round are counted."""

    part: PartJob
    choice: Choice  # of the left layer in this round
    most: int  # how many nearest features are sought

    def __str__(self) -> str:
        return f"left block {self.part.number}"


def within(condition: Condition, units: int, scale: int) -> Condition:
    """A condition with a greatest distance."""
    whole, rest = divmod(units, 10**scale)
    text = f"{whole}.{rest:0{scale}}" if scale else str(whole)
    return replace(condition, words=(*condition.words, f"--distance={text}"))


def reach_within(reach: Reach, units: int) -> Reach:
    """The reach of a condition with this distance: by half of it boxes are grown."""
    return replace(reach, growth=(units + 1) // 2)


def count_found(job: CountJob) -> int:
    """Keeps which left features of a block have fewer pairs than are sought, and answers how many
    they are.
    """
    layout, block = job.part.layout, job.part.number
    first, behind = mapped(layout.firsts(Side.LEFT))[block:block + 2].tolist()
    pairs, _ = pairs_of(job.part)
    found = np.bincount(pairs["rank"] // job.part.right_features - first, minlength=behind - first)
    rows = job.choice.rows(layout, Side.LEFT, block, behind - first)
    lacking = rows.take(np.flatnonzero(found.take(rows) < job.most))
    save_chosen(layout, Side.LEFT, block, layout.round + 1, lacking)
    return int(lacking.size)


def save_blocks(layout: Layout, runs: Sequence[RunDone], firsts: Places, rights: int) -> None:
    """Keeps which pairs of a round are of each block of the left layer."""
    save_ranges(layout, runs, firsts * rights)


def save_last(layout: Layout, choice: Choice, firsts: Places) -> Places:
    """Keeps the numbers of the left features of the last round, and answers them."""
    blocks = range(firsts.size - 1)
    numbers = choice.rows_between(layout, Side.LEFT, 0, firsts.tolist()) if blocks else firsts[:0]
    save_array(layout.last_left(), numbers)
    return numbers


def first_distance(left: Sample, right: Sample, most: int, greatest: int) -> int:
    """A distance in units, up to a greatest one, within which most left features have enough right
    ones, as samples let expect; what it is changes nothing but the time that a search takes.
    """
    ones = left.boxes[:: 1 + len(left.boxes) // LEFT_OF_SAMPLE]
    others = right.boxes[:: 1 + len(right.boxes) // RIGHT_OF_SAMPLE]
    if not len(ones) or not len(others):
        return 1
    share = len(others) / max(right.load, 1)
    gaps = np.sort([least_gap(box, others) for box in ones])
    gap = float(gaps[int(MOST_FEATURES_APART * (gaps.size - 1))])
    wanted = SPACINGS * gap * np.sqrt(most * share)
    return int(min(max(wanted, 1), greatest))


def least_gap(box: Boxes, others: Boxes) -> float:
    """How far the nearest of other boxes is away."""
    gaps = np.maximum(others[:, :2] - box[2:], box[:2] - others[:, 2:]).clip(min=0).astype(float)
    return float(np.sqrt((gaps**2).sum(axis=1).min()))
