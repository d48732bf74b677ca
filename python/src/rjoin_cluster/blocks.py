"""The first step of a join: files are cut into blocks of whole records, and rjoin reads the
features of each block.
"""
from __future__ import annotations

from dataclasses import dataclass, replace
from typing import BinaryIO, Optional

import numpy as np

from rjoin_cluster.answers import Boxes, Features
from rjoin_cluster.faults import RunFailed
from rjoin_cluster.edits import NOBODY, Named, named_among
from rjoin_cluster.ids import bucket_of, hashes_of, share_ends
from rjoin_cluster.improper import Improper
from rjoin_cluster.inputs import Input
from rjoin_cluster.layout import Layout, mapped, save_rows
from rjoin_cluster.parts import MOST_PART, features_of
from rjoin_cluster.program import HEADER, Program, RowFault
from rjoin_cluster.records import (
    BYTE_ORDER_MARK,
    WINDOW,
    Bytes,
    Places,
    Segment,
    scan,
    scan_ends,
    second_fields,
)
from rjoin_cluster.sides import Side
from rjoin_cluster.skipping import Skipped

MOST_GEOMETRY = MOST_PART - len("0000000,\n")
END_BYTES = 2**18
MOST_BEFORE = len(BYTE_ORDER_MARK) + 1


@dataclass(frozen=True)
class Extent:
    """Some bytes of a layer's file; blocks are numbered from 0."""

    file: Input
    number: int
    begin: int
    end: int
    has_header: bool = False  # of its file, before the first record

    def __str__(self) -> str:
        return f"{self.side.value} block {self.number}, bytes {self.begin} to {self.end}"

    @property
    def side(self) -> Side:
        return self.file.side

    @property
    def size(self) -> int:
        return self.end - self.begin

    def first(self, size: int) -> Extent:
        return replace(self, end=self.begin + size)

    def last(self, size: int) -> Extent:
        return replace(self, begin=self.end - size)

    def read(self) -> Bytes:
        text = np.empty(self.size, dtype=np.uint8)
        with self.file.opened() as file:
            file.seek(self.begin)
            if filled(file, text) < text.size:
                raise self.file.changed()
        return text

    def before(self) -> bytes:
        """What a run reads before the block: a header, or if the block has that of its file, the
        first bytes of the file, so that the run tells its first line.
        """
        if not self.has_header:
            return HEADER
        with self.file.opened() as file:
            return file.read(min(self.begin, MOST_BEFORE))


def filled(file: BinaryIO, text: Bytes) -> int:
    """Fills a text from a file, as far as this has bytes, and answers how many they are."""
    rest, done = text.data, 0
    while rest and (count := file.readinto(rest)):  # type: ignore[attr-defined]
        rest, done = rest[count:], done + count
    return done


@dataclass(frozen=True)
class ReadJob:
    """A block that is to be read."""

    layout: Layout
    program: Program
    block: Extent
    share: float  # which part of its features is wanted as a sample
    keeps_fields: bool  # the places of geometries, which are to travel as the file has them
    skips: bool  # records whose geometry can't be read
    has_edits: bool = False  # whose ids are looked for

    def __str__(self) -> str:
        return str(self.block)


@dataclass(frozen=True)
class BlockRead:
    """What the features of a block come to; those before its first fault, if there is one."""

    bytes: int  # of the block
    rows: int
    id_width: int
    greatest: int  # absolute value of a coordinate
    below_zero: bool
    sample: Boxes
    skipped: Skipped
    improper: Improper
    fault: Optional[RowFault]
    named: Named  # by edits

    @property
    def records(self) -> int:
        return self.rows + self.skipped.rows.size


def header_begin(layer: Input) -> int:
    """Where the first record of a file begins: behind a byte order mark and empty lines."""
    with layer.opened() as file:
        begin = len(BYTE_ORDER_MARK) if file.read(len(BYTE_ORDER_MARK)) == BYTE_ORDER_MARK else 0
        file.seek(begin)
        while window := file.read(WINDOW):
            left = window.lstrip(b"\r\n")
            begin += len(window) - len(left)
            if left:
                break
    return begin


def scan_segment(extent: Extent) -> Segment:
    """What the bytes do to a reader, for each state that it may come with."""
    if extent.size > 2 * END_BYTES:
        head, tail = extent.first(END_BYTES).read(), extent.last(END_BYTES).read()
        found = scan_ends(head, tail, extent.size)
        if found is not None:
            return found
    return scan(extent.read())


def read_block(job: ReadJob) -> BlockRead:
    """Reads the features of a block and keeps their boxes, ids and the hashes of these."""
    text = job.block.read()
    read = features_of(job.program, job.block.before(), text, job.skips)
    boxes, ids, fault = read.features.boxes, read.features.ids, read.fault
    keep(job.layout, job.block, Features(ids, boxes))
    if job.keeps_fields and fault is None:
        fields = np.delete(fields_of(job.block, text), read.skipped.rows - 1, axis=0)
        if len(fields) != len(boxes):
            raise RunFailed(f"rjoin bounds: {len(boxes)} features of {len(fields)} records")
        save_rows(job.layout.fields(job.block.side, job.block.number), [fields])
        fault = too_long(fields)
    least, greatest = int(boxes.min(initial=0)), int(boxes.max(initial=0))
    return BlockRead(
        job.block.size,
        len(boxes),
        ids.shape[1],
        max(-least, greatest),
        least < 0,
        sample_of(boxes, job.share, job.block.number),
        read.skipped,
        read.improper,
        fault,
        named_among(ids, mapped(job.layout.named(job.block.side))) if job.has_edits else NOBODY,
    )


def keep(layout: Layout, block: Extent, features: Features) -> None:
    save_rows(layout.boxes(block.side, block.number), [features.boxes])
    save_rows(layout.ids(block.side, block.number), [features.ids])
    hashes = hashes_of(features.ids)
    order = np.argsort(bucket_of(hashes), kind="stable")
    rows = order.astype(np.uint32)
    path = layout.hashes(block.side, block.number)
    save_rows(path, [share_ends(hashes), hashes.take(order), rows])


def fields_of(block: Extent, text: Bytes) -> Places:
    """Where the geometry of each feature begins and ends in the file."""
    fields = second_fields(text) + block.begin
    return fields[1:] if block.has_header else fields


def too_long(fields: Places) -> Optional[RowFault]:
    """The fault of the first geometry that doesn't fit in a run with the id that it gets there."""
    rows = np.flatnonzero(fields[:, 1] - fields[:, 0] > MOST_GEOMETRY)
    if not rows.size:
        return None
    text = f"a geometry of more than {MOST_GEOMETRY} bytes"
    return RowFault(int(rows[0]) + 1, text, "rjoin-cluster")


def sample_of(boxes: Boxes, share: float, seed: int) -> Boxes:
    if share >= 1 or not len(boxes):
        return boxes
    random = np.random.default_rng(seed)
    rows = random.integers(len(boxes), size=random.binomial(len(boxes), share))
    return boxes.take(rows, axis=0)
