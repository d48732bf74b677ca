"""What is known of the layers once their files have been read."""
from __future__ import annotations

from dataclasses import dataclass, replace
from typing import Optional, Sequence

import numpy as np

from rjoin_cluster.answers import grown
from rjoin_cluster.blocks import BlockRead
from rjoin_cluster.box_layers import Numerals
from rjoin_cluster.choice import ALL, Choice
from rjoin_cluster.digits import digits_in
from rjoin_cluster.edits import Named
from rjoin_cluster.ids import fast_width
from rjoin_cluster.improper import Improper, all_improper
from rjoin_cluster.inputs import Input
from rjoin_cluster.program import RowFault
from rjoin_cluster.records import Places
from rjoin_cluster.sides import Side
from rjoin_cluster.skipping import Skipped, all_skipped
from rjoin_cluster.tiles import Sample


MOST_FILL = 2


@dataclass(frozen=True)
class Located:
    """A fault of a layer: what comes before it has a smaller order."""

    order: int
    fault: RowFault
    place: str  # where it is, if the layer has several files


@dataclass(frozen=True)
class Layer:
    """The blocks of a layer, and the file of each; where one has a fault, those up to this one.
    Behind them may be a block of features that edits have inserted.
    """

    side: Side
    blocks: Sequence[BlockRead]
    files: Sequence[Input]
    has_inserted: bool = False
    deleted: int = 0  # by edits, which are still numbered
    choice: Choice = ALL

    @property
    def read(self) -> Sequence[BlockRead]:
        """The blocks of its own files."""
        return self.blocks[:-1] if self.has_inserted else self.blocks

    @property
    def rows_of_blocks(self) -> Places:
        return np.array([block.rows for block in self.blocks], dtype=np.int64)

    @property
    def firsts(self) -> Places:
        """The number of each block's first feature, and how many features there are."""
        return np.append(0, np.cumsum(self.rows_of_blocks))

    @property
    def rows(self) -> int:
        return int(self.rows_of_blocks.sum())

    @property
    def bytes(self) -> int:
        return sum(block.bytes for block in self.blocks)

    @property
    def id_width(self) -> int:
        """How wide a table of all ids is. It is little wider than they are, if at all, where NumPy
        copies its rows faster then.
        """
        width = max((block.id_width for block in self.blocks), default=1)
        return fast_width(width, width + MOST_FILL)

    def sample(self, growth: int) -> Sample:
        """Some boxes, grown by so many units on each side."""
        boxes = np.concatenate([block.sample for block in self.blocks])
        return Sample(grown(boxes, growth), self.rows / max(len(boxes), 1))

    @property
    def skipped(self) -> Skipped:
        """The records that were left out, by their rows in the layer."""
        records = np.cumsum([0, *(block.records for block in self.read)])
        return all_skipped(
            [block.skipped.behind(row) for block, row in zip(self.read, records.tolist())]
        )

    @property
    def improper(self) -> Improper:
        """The features with improper rings."""
        parts = zip(self.read, self.firsts.tolist())
        return all_improper([block.improper.behind(first) for block, first in parts])

    @property
    def named(self) -> Named:
        """The features that edits name, by their numbers."""
        parts = list(zip(self.read, self.firsts.tolist()))
        rows = [block.named.rows + first for block, first in parts]
        names = [block.named.names for block, _ in parts]
        return Named(np.concatenate(rows), np.concatenate(names))

    @property
    def fault(self) -> Optional[Located]:
        """The fault that ended the reading. Rows are counted through all files of the layer."""
        last = self.blocks[-1].fault
        if last is None:
            return None
        before = sum(block.records for block in self.blocks[:-1])
        if last.row:
            return self.located(replace(last, row=last.row + before))
        return Located(2 * before + 1, last, place_in(self.files[-1]))

    def located(self, fault: RowFault) -> Located:
        """A fault in this row of the layer."""
        file = self.files[0]
        behind = first = 0  # the records up to a block, and those before its file
        for block, its_file in zip(self.read, self.files):
            if its_file != file:
                file, first = its_file, behind
            behind += block.records
            if fault.row <= behind:
                break
        return Located(2 * fault.row, fault, place_in(file, fault.row - first))

    def row_of(self, number: int) -> int:
        """The row of a feature in the layer; features are numbered from 0, without what was left
        out.
        """
        rows = self.skipped.rows
        features_before = rows - np.arange(1, rows.size + 1)
        return number + 1 + int(np.searchsorted(features_before, number, side="right"))


def place_in(file: Input, row: int = 0) -> str:
    """Names the file of a fault, where its layer has several."""
    if not file.has_others:
        return ""
    return f" (row {row} of {file.path})" if row else f" ({file.path})"


@dataclass(frozen=True)
class Layers:
    """Both layers. Of a left layer with a fault the right one has no blocks."""

    left: Layer
    right: Layer

    def __getitem__(self, side: Side) -> Layer:
        return self.left if side is Side.LEFT else self.right

    @property
    def by_side(self) -> dict[Side, Layer]:
        return {Side.LEFT: self.left, Side.RIGHT: self.right}

    @property
    def numerals(self) -> Numerals:
        blocks = [*self.left.blocks, *self.right.blocks]
        return Numerals(
            digits_in(max(block.greatest for block in blocks)),
            any(block.below_zero for block in blocks),
        )
