"""The second step of a join: each feature is dealt to the tiles that its box meets.

The features of a group of blocks, which stand side by side in a layer's file, are written into one
file, tile by tile, and where their geometries travel with them, these into another one. A run reads
its own part of each of these files.
"""
from __future__ import annotations

from dataclasses import dataclass
from typing import Any, NamedTuple, Optional, Sequence

import numpy as np
from numpy.typing import NDArray

from rjoin_cluster.answers import Boxes, grown
from rjoin_cluster.choice import Choice
from rjoin_cluster.ids import as_elements, load_ids, widened
from rjoin_cluster.inputs import Files
from rjoin_cluster.layout import Layout, load_rows, mapped, save_array, save_rows
from rjoin_cluster.records import Bytes, Places
from rjoin_cluster.sides import Side
from rjoin_cluster.texts import Texts, load_texts, parts_by_file, save_texts
from rjoin_cluster.tiles import Tiles

Rows = NDArray[np.void]
Counts = NDArray[np.int32]
NONE: Places = np.zeros(0, dtype=np.int64)
NO_BYTES: Bytes = np.zeros(0, dtype=np.uint8)


@dataclass(frozen=True)
class Cargo:
    """What travels with the features of a side, beside their numbers and boxes: ids in a table of
    this width, unless it is 0, and geometries as the layer's file has them.
    """

    id_width: int
    has_texts: bool

    @property
    def row(self) -> np.dtype[Any]:
        """A feature in a group's file; the place of its record is that in the file of texts."""
        fields = [("number", "<i8"), ("box", "V32")]
        if self.has_texts:
            fields += [("place", "<i8"), ("length", "<i8")]
        if self.id_width:
            fields.append(("id", f"V{self.id_width}"))
        return np.dtype(fields)


@dataclass(frozen=True)
class DealJob:
    """A group of blocks whose features are to be dealt."""

    layout: Layout
    side: Side
    files: Files  # of each of its blocks
    group: int
    first: int  # of its blocks
    behind: int
    cargo: Cargo
    growth: int  # of boxes, in units on each side
    choice: Choice

    def __str__(self) -> str:
        return f"{self.side.value} blocks {self.first} to {self.behind - 1}"


@dataclass(frozen=True)
class Range:
    """Some features of a tile, by their places among those of its side, in file order."""

    begin: int
    end: int


class Dealt(NamedTuple):
    """How many features each tile got, and how many bytes of records, where these travel."""

    features: Counts
    bytes: Places


@dataclass(frozen=True)
class Piece:
    """Features of one side: their numbers in the layer, ascending, their boxes, and where these
    travel with them, their ids, each as one element, and their records, one behind the other.
    """

    numbers: Places
    boxes: Boxes
    ids: Optional[NDArray[np.void]]
    records: Bytes
    lengths: Places  # of the records


def deal_blocks(job: DealJob) -> Dealt:
    """Writes the features of the blocks tile by tile, and answers what each tile got."""
    layout = job.layout
    firsts = mapped(layout.firsts(job.side))[job.first:job.behind + 1].tolist()
    boxes: Boxes = np.empty((firsts[-1] - firsts[0], 4), dtype=np.int64)
    for block, (first, behind) in enumerate(zip(firsts, firsts[1:]), job.first):
        load_rows(layout.boxes(job.side, block), boxes[first - firsts[0]:behind - firsts[0]])
    boxes = grown(boxes, job.growth)
    tiles = Tiles(mapped(layout.tiles()))
    dealt = dict(tiles.deal(boxes, job.choice.rows_between(layout, job.side, job.first, firsts)))
    counts = np.zeros(tiles.count, dtype=np.int32)
    for tile, rows in dealt.items():
        counts[tile] = rows.size
    order = np.concatenate([NONE, *(dealt[tile] for tile in sorted(dealt))])
    pieces = np.empty(order.size, dtype=job.cargo.row)
    pieces["number"] = order + firsts[0]
    pieces["box"] = boxes.view("V32").reshape(-1).take(order)
    if job.cargo.id_width:
        pieces["id"] = ids_of(job, firsts).take(order)
    sizes = NONE
    if job.cargo.has_texts:
        ends = np.append(0, deal_texts(job, firsts, order, pieces))
        sizes = np.diff(ends.take(counts.cumsum()), prepend=0)
    save_rows(layout.pieces(job.side, job.group), [pieces])
    return Dealt(counts, sizes)


def deal_texts(job: DealJob, firsts: list[int], order: Places, pieces: Rows) -> Places:
    """Writes the records of the features in the order of the pieces, which get the places; answers
    where each record ends.
    """
    fields = []
    for block, (first, behind) in enumerate(zip(firsts, firsts[1:]), job.first):
        fields.append(np.empty((behind - first, 2), dtype=np.int64))
        load_rows(job.layout.fields(job.side, block), fields[-1])
    texts = Texts(parts_by_file(job.files, fields))
    lengths = texts.lengths().take(order)
    ends: Places = lengths.cumsum()
    pieces["place"] = ends - lengths
    pieces["length"] = lengths
    save_texts(job.layout, job.side, job.group, texts.in_order(order))
    return ends


def ids_of(job: DealJob, firsts: list[int]) -> NDArray[np.void]:
    """The ids of the blocks. Only right ids travel with the pairs: left ones are read in the
    end.
    """
    width = job.cargo.id_width
    tables = [np.zeros((0, width), dtype=np.uint8)]
    for block, (first, behind) in enumerate(zip(firsts, firsts[1:]), job.first):
        table = load_ids(job.layout.ids(job.side, block), behind - first)
        tables.append(widened(table, width))
    return as_elements(np.concatenate(tables))


def save_ends(layout: Layout, side: Side, dealt: Sequence[Dealt]) -> Dealt:
    """Keeps, for each tile and group, where the tile's part ends in the group's file; answers what
    each tile got of all groups.
    """
    by_group = np.array([each.features for each in dealt])
    ends = by_group.cumsum(axis=1, dtype=np.int32)
    save_array(layout.piece_ends(side), np.ascontiguousarray(ends.T))
    sizes = np.sum([each.bytes for each in dealt], axis=0)
    return Dealt(by_group.sum(axis=0, dtype=np.int64), sizes)


class TileRows:
    """The features of a tile that lie in a range, group by group."""

    def __init__(
        self, layout: Layout, side: Side, tile: int, wanted: Range, cargo: Cargo
    ) -> None:
        """Reads them; nothing is read of files that have none."""
        self.layout = layout
        self.side = side
        ends = mapped(layout.piece_ends(side))
        begins = ends[tile - 1] if tile else np.zeros_like(ends[0])
        counts = (ends[tile] - begins).astype(np.int64)
        places = np.cumsum(counts) - counts
        low = np.maximum(wanted.begin - places, 0)
        high = np.minimum(wanted.end - places, counts)
        self.all: Rows = np.empty(wanted.end - wanted.begin, dtype=cargo.row)
        self.by_group: list[tuple[int, Rows]] = []
        done = 0
        for group in np.flatnonzero(low < high).tolist():
            rows = self.all[done:done + int(high[group] - low[group])]
            load_rows(layout.pieces(side, group), rows, int(begins[group] + low[group]))
            self.by_group.append((group, rows))
            done += len(rows)

    def records(self) -> Bytes:
        """The records of the features, one behind the other."""
        text = np.empty(int(self.all["length"].sum()), dtype=np.uint8)
        done = 0
        for group, rows in self.by_group:
            size = int(rows["length"].sum())
            load_texts(self.layout, self.side, group, text[done:done + size], int(rows["place"][0]))
            done += size
        return text


def load_piece(layout: Layout, side: Side, tile: int, wanted: Range, cargo: Cargo) -> Piece:
    """The features of a tile that lie in the range."""
    rows = TileRows(layout, side, tile, wanted, cargo)
    boxes = np.ascontiguousarray(rows.all["box"]).view(np.int64).reshape(-1, 4)
    ids = np.ascontiguousarray(rows.all["id"]) if cargo.id_width else None
    numbers = np.ascontiguousarray(rows.all["number"])
    if not cargo.has_texts:
        return Piece(numbers, boxes, ids, NO_BYTES, NONE)
    return Piece(numbers, boxes, ids, rows.records(), np.ascontiguousarray(rows.all["length"]))


def load_lengths(layout: Layout, side: Side, tile: int, features: int, cargo: Cargo) -> Places:
    """The lengths of the records of all features of a tile."""
    rows = TileRows(layout, side, tile, Range(0, features), cargo)
    return np.ascontiguousarray(rows.all["length"])
