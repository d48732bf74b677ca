"""Which features of a layer are joined: those that edits have left, and of the left layer those
that have not yet as many nearest ones as are sought.
"""
from __future__ import annotations

from dataclasses import dataclass

import numpy as np

from rjoin_cluster.layout import Layout, contents_of, save_rows
from rjoin_cluster.records import Places
from rjoin_cluster.sides import Side


@dataclass(frozen=True)
class Choice:
    """All features but those of some blocks, each of which has a file of the ones that are
    joined.
    """

    round: int = 0
    blocks: frozenset[int] = frozenset()

    def within(self, first: int, behind: int) -> Choice:
        """The same, for some blocks alone."""
        return Choice(self.round, self.blocks.intersection(range(first, behind)))

    def rows(self, layout: Layout, side: Side, block: int, count: int) -> Places:
        """The rows that are joined of a block of so many features."""
        if block not in self.blocks:
            return np.arange(count)
        return np.frombuffer(contents_of(layout.chosen(side, block, self.round)), dtype=np.int64)

    def rows_between(self, layout: Layout, side: Side, first: int, firsts: list[int]) -> Places:
        """The same of blocks that stand side by side, from this one on, which begin at these rows;
        the last of these is the end.
        """
        rows = [
            self.rows(layout, side, block, behind - begin) + (begin - firsts[0])
            for block, (begin, behind) in enumerate(zip(firsts, firsts[1:]), first)
        ]
        return np.concatenate([np.zeros(0, dtype=np.int64), *rows])


ALL = Choice()


def save_chosen(layout: Layout, side: Side, block: int, number: int, rows: Places) -> None:
    """Keeps the rows of a block that are joined in a round."""
    save_rows(layout.chosen(side, block, number), [rows])
