"""The third step of a join: each tile is joined by a run of rjoin.

The ids of a run are numbers of one width, which are read without looking at single rows. Boxes that
are joined are written from their corners; all other features travel as the layer's file has them.

Of the pairs of a tile those are kept whose reference point lies in it: the low corner of what the
two boxes share (Dittrich and Seeger 2000), which are grown by half of the distance where pairs are
joined by it. The boxes of a pair meet, so that this point is in both; both features were dealt to
its tile, and it is in no other.
"""
from __future__ import annotations

import enum
import logging
import time
from dataclasses import dataclass
from itertools import chain
from typing import Any, Iterable, Iterator, NamedTuple, Optional

import numpy as np
from numpy.typing import NDArray

from rjoin_cluster.answers import Boxes
from rjoin_cluster.box_layers import Numerals, Spelling, layer_texts, spelling_of
from rjoin_cluster.choice import ALL, Choice
from rjoin_cluster.conditions import Condition, Reach
from rjoin_cluster.ids import fast_width
from rjoin_cluster.layout import Layout, mapped, new_file
from rjoin_cluster.pieces import Cargo, Piece, Range, load_piece
from rjoin_cluster.program import HEADER, Program, Text
from rjoin_cluster.reading import UNITS
from rjoin_cluster.records import Places
from rjoin_cluster.reports import ReportRows, rows_of
from rjoin_cluster.run_ids import ID_BYTES
from rjoin_cluster.sides import Side
from rjoin_cluster.texts import ID_WIDTH, number_records
from rjoin_cluster.tiles import Region
from rjoin_cluster.whole import load_some, load_whole

KEY_STEP = 256
ROWS_AT_ONCE = 2**13  # which stay in the processor's cache

log = logging.getLogger(__name__)


class Source(enum.Enum):
    """Where the features of a run come from."""

    TILES = "tiles"  # to which they were dealt
    LAYERS = "layers"  # as they stand there
    LAST = "last"  # right ones as they stand there, and left ones of a list


@dataclass(frozen=True)
class RunJob:
    """A run: a tile, or a part of one whose features are too many for a run."""

    layout: Layout
    program: Program
    condition: Condition
    reach: Reach
    numerals: Optional[Numerals]  # where boxes are written from their corners
    cargo: dict[Side, Cargo]
    number: int
    tile: int
    region: Region
    left: Range
    right: Range
    right_features: int  # of the whole layer
    source: Source = Source.TILES
    choices: Optional[dict[Side, Choice]] = None  # where features are taken as they stand

    def __str__(self) -> str:
        return f"tile {self.tile}, run {self.number}"

    @property
    def pair(self) -> np.dtype[Any]:
        id_width = self.cargo[Side.RIGHT].id_width
        return pair_type(self.reach.width, id_width, self.condition.is_nearest)


@dataclass(frozen=True)
class RunDone:
    """What a run came to: its pairs, and the rank of each 256th of them from the first on."""

    pairs: int
    keys: Places
    seconds: float


class RunLayer(NamedTuple):
    """A layer as a run reads it, in parts, and the width of its ids."""

    text: Iterable[Text]
    id_width: int


def pair_type(width: int, id_width: int, is_nearest: bool) -> np.dtype[Any]:
    """A pair by its rank, which is its place among all pairs of a left and a right feature in the
    order of a report. Nearest features are in the order of a run, have the rank of the first pair
    of their left feature, and the number of the right one beside it.
    """
    last = [("last", f"V{width}")] if width else []
    fields = [("rank", "<i8"), *last, ("right", f"V{id_width}")]
    return np.dtype([*fields, ("number", "<i8")] if is_nearest else fields)


def join_tile(job: RunJob) -> RunDone:
    """Joins a tile and keeps the pairs that are its own, in order."""
    started = time.perf_counter()
    left, right = features_of(job, Side.LEFT, job.left), features_of(job, Side.RIGHT, job.right)
    pairs, keys = keep_pairs(job, own_pairs(job, left, right, report_of(job, left, right)))
    seconds = time.perf_counter() - started
    log.info(
        "%s: %d and %d features, %d pairs, %.2f s",
        job,
        len(left.boxes),
        len(right.boxes),
        pairs,
        seconds,
    )
    return RunDone(pairs, keys, seconds)


def features_of(job: RunJob, side: Side, wanted: Range) -> Piece:
    """The features of a side: those of a tile, or of the layer itself."""
    cargo = job.cargo[side]
    if job.source is Source.TILES:
        return load_piece(job.layout, side, job.tile, wanted, cargo)
    if job.source is Source.LAST and side is Side.LEFT:
        numbers = np.array(mapped(job.layout.last_left())[wanted.begin:wanted.end])
        return load_some(job.layout, side, numbers)
    choice = ALL if job.choices is None else job.choices[side]
    return load_whole(job.layout, side, wanted, cargo, choice)


def report_of(job: RunJob, left: Piece, right: Piece) -> ReportRows:
    """The report of the proved program on the features of a tile."""
    if job.numerals is None:
        ones, others = (layer_of_records(piece) for piece in (left, right))
    else:
        spelling = spelling_of([left.boxes, right.boxes], job.numerals)
        ones, others = (layer_of_boxes(piece.boxes, spelling) for piece in (left, right))
    reading = job.program.reading if job.numerals is None else UNITS
    words = [job.condition.command, *job.condition.words]
    report = job.program.report(words, ones.text, others.text, reading)
    return rows_of(report, job.reach, ones.id_width)


def layer_of_boxes(boxes: Boxes, spelling: Spelling) -> RunLayer:
    rows = (text.data for text in layer_texts(boxes, spelling))
    return RunLayer(chain([HEADER], rows), ID_BYTES)


def layer_of_records(piece: Piece) -> RunLayer:
    number_records(piece.records, piece.lengths)
    return RunLayer([HEADER, piece.records.data], ID_WIDTH)


def own_pairs(
    job: RunJob, left: Piece, right: Piece, rows: ReportRows
) -> Iterator[NDArray[np.void]]:
    """The pairs of a report whose reference point lies in the tile, some at a time."""
    is_inside = job.region.covers(left.boxes)  # a box that is, with all of its reference points
    named = named_features(right)
    ranks = left.numbers * job.right_features
    for begin in range(0, rows.count, ROWS_AT_ONCE):
        ones, others, lasts = rows.some(begin, min(begin + ROWS_AT_ONCE, rows.count))
        is_own = is_inside.take(ones)
        looked = np.flatnonzero(~is_own)
        low = np.maximum(left.boxes[ones.take(looked), :2], right.boxes[others.take(looked), :2])
        is_own[looked] = job.region.holds(low[:, 0], low[:, 1])
        found = named.take(others)
        pairs = np.empty(ones.size, dtype=job.pair)
        if job.condition.is_nearest:
            pairs["rank"] = ranks.take(ones)
            pairs["number"] = found["number"]
        else:
            pairs["rank"] = ranks.take(ones) + found["number"]
        if lasts is not None:
            pairs["last"] = lasts
        if right.ids is not None:
            pairs["right"] = found["id"]
        yield pairs if is_own.all() else pairs.take(np.flatnonzero(is_own))


def named_features(piece: Piece) -> NDArray[np.void]:
    """The numbers of features with their ids, side by side. Pairs ask for them in any order, and
    what is far from the processor is then fetched once for each of them.
    """
    number = piece.numbers.itemsize
    ids = np.zeros(piece.numbers.size, "V1") if piece.ids is None else piece.ids
    width = number + ids.itemsize
    named = np.empty(
        piece.numbers.size,
        dtype={
            "names": ["number", "id"],
            "formats": ["<i8", ids.dtype],
            "offsets": [0, number],
            "itemsize": fast_width(width, 2 * width),
        },
    )
    named["number"] = piece.numbers
    named["id"] = ids
    return named


def keep_pairs(job: RunJob, parts: Iterator[NDArray[np.void]]) -> tuple[int, Places]:
    """Writes the pairs of a run, and answers how many there are and the ranks of each 256th."""
    count = 0
    keys = [np.zeros(0, dtype=np.int64)]
    with new_file(job.layout.pairs(job.number)) as file:
        for part in parts:
            keys.append(part["rank"][-count % KEY_STEP::KEY_STEP].copy())
            count += len(part)
            file.write(part.data)
    return count, np.concatenate(keys)
