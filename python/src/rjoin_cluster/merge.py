"""The last step of a join: the pairs of all runs are put into the order of one report.

The ranks of all pairs are cut into ranges of about as many pairs. Each range becomes a part of the
report.
"""
from __future__ import annotations

from dataclasses import dataclass
from typing import NamedTuple, Optional, Sequence

import numpy as np
from numpy.typing import NDArray

from rjoin_cluster.conditions import Reach
from rjoin_cluster.digits import put
from rjoin_cluster.ids import FILL, IdTable, as_elements, load_ids, widened
from rjoin_cluster.layout import Layout, load_rows, mapped, new_file, save_array
from rjoin_cluster.nearest import Search
from rjoin_cluster.records import Bytes, Places
from rjoin_cluster.runs import KEY_STEP, RunDone, pair_type
from rjoin_cluster.sides import Side

LEAST_PAIRS = 500_000
LEAST_PAIRS_OF_RUN = 400  # each part reads of each run
MOST_PAIRS = 4_000_000
PARTS_PER_WORKER = 4
ROWS_AT_ONCE = 2**13  # which stay in the processor's cache
NO_RUNS: Places = np.zeros(0, dtype=np.int64)


@dataclass(frozen=True)
class PartJob:
    """A part of the report, by its number."""

    layout: Layout
    reach: Reach
    search: Optional[Search]  # where nearest features are joined
    number: int
    right_features: int
    id_width: int  # of right ids
    header: bytes  # before its rows, where the part is a file of the report
    first_run: int = 0  # whose pairs are looked at

    def __str__(self) -> str:
        return f"part {self.number}"


class PartDone(NamedTuple):
    """What is in a part of the report."""

    pairs: int
    bytes: int


def plan_parts(layout: Layout, runs: Sequence[RunDone], workers: int) -> int:
    """Keeps which pairs make up each part of the report, and answers how many parts there are."""
    share = sum(run.pairs for run in runs) // max(1, workers * PARTS_PER_WORKER)
    least = max(LEAST_PAIRS, LEAST_PAIRS_OF_RUN * len(runs))
    borders = range_borders(runs, min(max(share, least), MOST_PAIRS))
    save_ranges(layout, runs, borders)
    return borders.size - 1


def save_ranges(layout: Layout, runs: Sequence[RunDone], borders: Places) -> None:
    """Keeps which pairs lie in each range of ranks.

    For each border between ranges and each run, the place of the border among the keys of the run
    tells which pairs have to be looked at.
    """
    places = np.empty((borders.size, len(runs)), dtype=np.int32)
    for number, run in enumerate(runs):
        places[:, number] = np.searchsorted(run.keys, borders)
    save_array(layout.part_borders(), borders)
    save_array(layout.part_places(), places)
    save_array(layout.run_sizes(), np.array([run.pairs for run in runs], dtype=np.int64))


def range_borders(runs: Sequence[RunDone], pairs: int) -> Places:
    """The first rank of each range of about so many pairs, and one behind all ranks."""
    keys = np.sort(np.concatenate([np.zeros(0, dtype=np.int64), *(run.keys for run in runs)]))
    inner = np.unique(keys[:: max(1, pairs // KEY_STEP)])[1:]
    behind = np.iinfo(np.int64).max
    return np.concatenate([[0], inner, [behind]]) if keys.size else np.zeros(1, dtype=np.int64)


def write_part(job: PartJob) -> PartDone:
    """Writes a part of the report, and answers what is in it."""
    pairs, runs = pairs_of(job)
    if job.search is not None:
        pairs = job.search.settled(pairs, runs)
    left = left_ids(job, pairs["rank"] // job.right_features)
    fields = [left, table_of(pairs["right"])]
    if job.reach.width:
        fields.append(table_of(pairs["last"]))
    chunks = [slice(begin, begin + ROWS_AT_ONCE) for begin in range(0, len(pairs), ROWS_AT_ONCE)]
    with new_file(job.layout.report_part(job.number)) as file:
        size = file.write(job.header)
        for some in chunks:
            size += file.write(rows_text([field[some] for field in fields]))
    return PartDone(len(pairs), size)


def pairs_of(job: PartJob) -> tuple[NDArray[np.void], Places]:
    """The pairs of the range, in order, and their runs. Pairs around its borders are read too, and
    left out.
    """
    layout = job.layout
    borders = mapped(layout.part_borders())[job.number:job.number + 2]
    before, behind = mapped(layout.part_places())[job.number:job.number + 2].astype(np.int64)
    begins = np.maximum(before - 1, 0) * KEY_STEP
    ends = np.minimum(behind * KEY_STEP, mapped(layout.run_sizes()))
    counts = np.maximum(ends - begins, 0)
    kind = pair_type(job.reach.width, job.id_width, job.search is not None)
    pairs = np.empty(counts.sum(), dtype=kind)
    done = 0
    for run in np.flatnonzero(counts).tolist():
        rows = pairs[done:done + counts[run]]
        load_rows(layout.pairs(job.first_run + run), rows, int(begins[run]))
        done += len(rows)
    ranks = np.ascontiguousarray(pairs["rank"])
    order = np.argsort(ranks, kind="stable")
    begin, end = np.searchsorted(ranks, borders, sorter=order)
    own = order[begin:end]
    runs = NO_RUNS
    if job.search is not None:
        runs = np.repeat(job.first_run + np.arange(counts.size), counts).take(own)
    return pairs.take(own), runs


def left_ids(job: PartJob, numbers: Places) -> IdTable:
    """The ids of left features, whose numbers ascend."""
    ids = np.full((numbers.size, 1), FILL, dtype=np.uint8)
    firsts = mapped(job.layout.firsts(Side.LEFT))
    borders = np.searchsorted(numbers, firsts)
    for block in np.flatnonzero(np.diff(borders)).tolist():
        rows = slice(borders[block], borders[block + 1])
        first, behind = firsts[block], firsts[block + 1]
        some = numbers[rows] - first
        path = job.layout.ids(Side.LEFT, block)
        table = load_ids(path, int(behind - first), int(some[0]), int(some[-1]) + 1)
        ids = widened(ids, table.shape[1])
        ids[rows, : table.shape[1]] = table.take(some - some[0], axis=0)
    return ids


def table_of(elements: NDArray[np.void]) -> IdTable:
    """Texts that are one element each, as a table of their bytes."""
    return np.ascontiguousarray(elements).view(np.uint8).reshape(len(elements), -1)


def rows_text(fields: Sequence[IdTable]) -> bytes:
    """Rows of CSV, of tables that have the fields of a column each. What fills up the tables is
    left out.
    """
    width = sum(table.shape[1] + 1 for table in fields)
    text = np.empty((len(fields[0]), width), dtype=np.uint8)
    at = 0
    for table in fields:
        put(text, at, as_elements(table))
        at += table.shape[1] + 1
        text[:, at - 1] = ord(",")
    text[:, -1] = ord("\n")
    return without_fill(text)


def without_fill(table: Bytes) -> bytes:
    """The text of a table, without what fills it up. A few bytes are taken out by Python, which
    copies what is between them at once.
    """
    is_kept = table != FILL
    if table.size - np.count_nonzero(is_kept) > len(table):
        return bytes(table[is_kept])
    return table.tobytes().replace(bytes([FILL]), b"")
