"""Nearest features, where several runs have found some of one left feature.

A run finds the nearest ones among its own right features, and keeps those whose reference point
lies in its tile. Where all that are kept of a left feature are of one run, they are its nearest
ones: each of these is found and kept by some run, and beside all of them a run finds no others.
Where they are of several runs, the nearest ones are among them, and another run finds these.
"""
from __future__ import annotations

from dataclasses import dataclass

import numpy as np
from numpy.typing import NDArray

from rjoin_cluster.conditions import Condition, Reach
from rjoin_cluster.layout import Layout, mapped
from rjoin_cluster.plan import MOST_RECORDS_BYTES
from rjoin_cluster.program import HEADER, Program, Text
from rjoin_cluster.records import Places
from rjoin_cluster.reports import rows_of
from rjoin_cluster.sides import Side
from rjoin_cluster.texts import ID_WIDTH, RecordPlaces, number_records, record_places

Pairs = NDArray[np.void]

PAIRS_OF_RUN = 200_000


@dataclass(frozen=True)
class Search:
    """How the nearest features of a left one are found among those of several runs."""

    layout: Layout
    program: Program
    condition: Condition
    reach: Reach
    right_features: int
    widens: bool = False  # in rounds, of which for each left feature its last one tells

    def settled(self, pairs: Pairs, runs: Places) -> Pairs:
        """The nearest features of each left one, of all pairs of these left features, in order of
        their ranks, and of the runs that found them.
        """
        if self.widens:
            pairs, runs = self.of_last_round(pairs, runs)
        begins = np.flatnonzero(np.diff(pairs["rank"], prepend=-1))
        several = np.minimum.reduceat(runs, begins) < np.maximum.reduceat(runs, begins)
        unsettled = np.repeat(several, np.diff(begins, append=len(pairs)))
        if not unsettled.any():
            return pairs
        found: Pairs = np.concatenate([pairs[~unsettled], self.nearest(pairs[unsettled])])
        return found.take(np.argsort(found["rank"], kind="stable"))

    def of_last_round(self, pairs: Pairs, runs: Places) -> tuple[Pairs, Places]:
        """The pairs of each left feature that the last round in which it was has found."""
        rounds = mapped(self.layout.run_rounds()).take(runs)
        begins = np.flatnonzero(np.diff(pairs["rank"], prepend=-1))
        if not begins.size:
            return pairs, runs
        counts = np.diff(begins, append=len(pairs))
        own = np.flatnonzero(rounds == np.repeat(np.maximum.reduceat(rounds, begins), counts))
        return pairs.take(own), runs.take(own)

    def nearest(self, pairs: Pairs) -> Pairs:
        """The nearest features of each left one among the right ones of all of these pairs."""
        ranks, begins = np.unique(pairs["rank"], return_index=True)
        rights, rows = np.unique(pairs["number"], return_index=True)
        left = record_places(self.layout, Side.LEFT, ranks // self.right_features)
        right = record_places(self.layout, Side.RIGHT, rights)
        if ranks.size > 1 and (len(pairs) > PAIRS_OF_RUN or are_too_long(left, right)):
            middle = begins[ranks.size // 2]
            return np.concatenate([self.nearest(pairs[:middle]), self.nearest(pairs[middle:])])
        words = [self.condition.command, *self.condition.words]
        report = self.program.report(words, layer(left), layer(right), self.program.reading)
        found = rows_of(report, self.reach, ID_WIDTH)
        ones, others, lasts = found.some(0, found.count)
        nearest: Pairs = pairs.take(rows.take(others))
        nearest["rank"] = ranks.take(ones)
        nearest["last"] = lasts
        return nearest


def layer(places: RecordPlaces) -> list[Text]:
    """The records at these places, as a layer of a run."""
    records = places.records()
    number_records(records, places.lengths())
    return [HEADER, records.data]


def are_too_long(*layers: RecordPlaces) -> bool:
    """Whether the records at these places are more than a run takes."""
    return any(places.lengths().sum() > MOST_RECORDS_BYTES for places in layers)
