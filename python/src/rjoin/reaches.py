"""Joins by distance in which each left feature has a distance of its own."""
from __future__ import annotations

from typing import TYPE_CHECKING, Any

import numpy as np
import pandas

from rjoin import joining
from rjoin.joining import Job
from rjoin.lengths import Length, Lengths, words_of
from rjoin.sources import Flags, Rows

if TYPE_CHECKING:
    from rjoin.calls import Workers


def within_each(job: Job, lengths: Lengths, workers: Workers) -> Any:
    """The pairs of frames at most as far apart as the distance of the left feature says: a frame
    with the columns left and right, ids.

    Features whose distances are alike, up to twice as great, are asked for together: else one of
    them alone may make all pairs near.
    """
    reaches = lengths.units(job.scale)[job.frame(0).rows]
    alike = np.frexp(reaches.astype(np.float64))[1]
    parts = [within_about(job, reaches, alike == kind, workers) for kind in np.unique(alike)]
    if not parts:
        return joining.within(job, Length(lengths.name, 0), workers)
    return pandas.concat(parts, ignore_index=True).sort_values("left", kind="stable")


def within_about(job: Job, reaches: Rows, flags: Flags, workers: Workers) -> Any:
    """The pairs of some left features.

    The program rounds distances to units, by less than one: so of two that differ then, the less
    was less before, and where they are equal the program is asked again.
    """
    words = [*words_of(int(reaches[flags].max())), *joining.options(workers)]
    found = joining.reported(job.of_some(0, flags), ["near"], words, joining.DISTANCE,
                             wants_last=True)
    found["left"] = np.flatnonzero(flags)[found["left"]]
    allowed = reaches[found["left"]]
    distances = found.pop("distance").to_numpy()
    kept = distances < allowed
    equal = distances == allowed
    for reach in np.unique(allowed[equal]).tolist():
        these = np.flatnonzero(equal & (allowed == reach))
        kept[these] = are_within(job, found.iloc[these], reach, workers)
    return found[kept]


def are_within(job: Job, pairs: Any, reach: int, workers: Workers) -> Flags:
    """Which pairs of ids are at most so many units apart."""
    sides = [np.unique(pairs[column]) for column in ("left", "right")]
    some = job
    for place, ids in enumerate(sides):
        flags = np.zeros(job.frame(place).count, np.bool_)
        flags[ids] = True
        some = some.of_some(place, flags)
    words = [*words_of(reach), *joining.options(workers)]
    near = joining.reported(some, ["near"], words, joining.DISTANCE, wants_last=False)
    width = job.frame(1).count
    keys = sides[0][near["left"]] * width + sides[1][near["right"]]
    flags = np.isin(pairs["left"].to_numpy() * width + pairs["right"].to_numpy(), keys)
    return flags
