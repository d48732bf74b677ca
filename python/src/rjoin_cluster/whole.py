"""Features that a run takes as they stand in their layer, without tiles: those of some blocks, or
all of a layer that is small, or some left ones that are looked for in all of the right layer.
"""
from __future__ import annotations

from typing import Iterator

import numpy as np

from rjoin_cluster.answers import Boxes
from rjoin_cluster.choice import Choice
from rjoin_cluster.ids import FILL, as_elements, load_ids
from rjoin_cluster.layout import Layout, load_rows, mapped
from rjoin_cluster.pieces import NO_BYTES, NONE, Cargo, Piece, Range
from rjoin_cluster.records import Bytes, Places
from rjoin_cluster.sides import Side
from rjoin_cluster.sources import load_files
from rjoin_cluster.texts import Texts, parts_by_file, record_places


def load_whole(layout: Layout, side: Side, wanted: Range, cargo: Cargo, choice: Choice) -> Piece:
    """The features of a layer that have these numbers and are joined."""
    count = wanted.end - wanted.begin
    boxes: Boxes = np.empty((count, 4), dtype=np.int64)
    ids: Bytes = np.full((count, cargo.id_width), FILL, dtype=np.uint8)
    files, fields, chosen = [], [], [NONE]
    sources = load_files(layout, side) if cargo.has_texts else ()
    for block, some, begin, rows in spans(layout, side, wanted):
        load_rows(layout.boxes(side, block), boxes[some], begin)
        end = begin + some.stop - some.start
        if cargo.has_texts:
            files.append(sources[block])
            fields.append(np.empty((end - begin, 2), dtype=np.int64))
            load_rows(layout.fields(side, block), fields[-1], begin)
        if cargo.id_width:
            table = load_ids(layout.ids(side, block), rows, begin, end)
            ids[some, : table.shape[1]] = table
        kept = choice.rows(layout, side, block, rows)
        chosen.append(kept[(begin <= kept) & (kept < end)] + (some.start - begin))
    order = np.concatenate(chosen)
    elements = as_elements(ids).take(order) if cargo.id_width else None
    numbers, boxes = wanted.begin + order, boxes.take(order, axis=0)
    if not cargo.has_texts:
        return Piece(numbers, boxes, elements, NO_BYTES, NONE)
    texts = Texts(parts_by_file(files, fields))
    records = np.concatenate([NO_BYTES, *texts.in_order(order)])
    return Piece(numbers, boxes, elements, records, texts.lengths().take(order))


def load_some(layout: Layout, side: Side, numbers: Places) -> Piece:
    """The features of these numbers, whose boxes don't count, as all lie in one tile."""
    places = record_places(layout, side, numbers)
    boxes: Boxes = np.zeros((numbers.size, 4), dtype=np.int64)
    return Piece(numbers, boxes, None, places.records(), places.lengths())


def spans(layout: Layout, side: Side, wanted: Range) -> Iterator[tuple[int, slice, int, int]]:
    """The blocks that have features of a range: where these lie in the range, the place of the
    first of them in the block, and how many features the block has.
    """
    firsts = mapped(layout.firsts(side)).tolist()
    for block, (first, behind) in enumerate(zip(firsts, firsts[1:])):
        begin, end = max(first, wanted.begin), min(behind, wanted.end)
        if begin < end:
            some = slice(begin - wanted.begin, end - wanted.begin)
            yield block, some, begin - first, behind - first
