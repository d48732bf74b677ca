"""The features of a block, as runs of rjoin read them: all at once, or a part after the other where
a block is more than a run takes.
"""
from __future__ import annotations

from dataclasses import dataclass, replace
from typing import Iterator, Optional, Sequence

import numpy as np

from rjoin_cluster.answers import NO_FEATURES, Features, read_answer
from rjoin_cluster.commands import BOUNDS
from rjoin_cluster.faults import RunFailed
from rjoin_cluster.ids import stacked
from rjoin_cluster.improper import Improper, all_improper, improper_in
from rjoin_cluster.program import HEADER, MOST_BYTES, MOST_FEATURES, Program, RowFault
from rjoin_cluster.records import RETURN, WINDOW, Bytes, record_ends
from rjoin_cluster.skipping import FAULTS as GEOMETRY_FAULTS
from rjoin_cluster.skipping import NOTHING, Skipped, all_skipped, skipped_in, without

MOST_PART = MOST_BYTES - len(HEADER)

FULL = "layer is full"  # as rjoin says it


@dataclass(frozen=True)
class PartRead:
    """The features of a part of a block, the records that were left out, and the first fault, which
    ended the reading.
    """

    features: Features
    skipped: Skipped = NOTHING
    fault: Optional[RowFault] = None
    improper: Improper = Improper()
    answers: Sequence[Bytes] = ()  # of a command, where one is asked for

    @property
    def records(self) -> int:
        return len(self.features.boxes) + self.skipped.rows.size


def features_of(
    program: Program, before: bytes, text: Bytes, skips: bool, asked: Sequence[str] = ()
) -> PartRead:
    """The features of a block, before which a run reads these bytes, or those before its first
    fault, and the answers of a command of one layer, where its words are given.
    """
    if text.size <= MOST_PART and likely_records(text) < MOST_FEATURES:
        read = read_part(program, before, text, skips, asked)
        if read.fault is None or read.fault.text != FULL:
            return read
    return features_of_parts(program, before, text, skips, asked)


def features_of_parts(
    program: Program, before: bytes, text: Bytes, skips: bool, asked: Sequence[str]
) -> PartRead:
    """The same, of a block that is more than a run takes."""
    features, skipped, improper = [], [], []
    answers: list[Bytes] = []
    rows = known = 0
    fault = None
    for part in parts_of_runs(text):
        read = read_part(program, before, part, skips, asked)
        before = HEADER
        answers += read.answers
        features.append(read.features)
        skipped.append(read.skipped.behind(rows))
        improper.append(read.improper.behind(known))
        if read.fault is not None:
            fault = replace(read.fault, row=read.fault.row + rows)
            break
        rows += read.records
        known += len(read.features.boxes)
    told = (all_skipped(skipped), fault, all_improper(improper))
    return PartRead(together(features), *told, answers)


def likely_records(text: Bytes) -> int:
    """How many records a block has, if all of it is as its beginning."""
    first = text[:WINDOW]
    return int(np.count_nonzero(first <= RETURN)) * text.size // max(first.size, 1)


def together(parts: Sequence[Features]) -> Features:
    if len(parts) == 1:
        return parts[0]
    boxes = np.concatenate([NO_FEATURES.boxes, *(part.boxes for part in parts)])
    return Features(stacked([part.ids for part in parts]), boxes)


def parts_of_runs(text: Bytes) -> Iterator[Bytes]:
    """A block in parts that a run takes."""
    ends = record_ends(text)
    begins = np.append(0, ends)
    done = 0
    while done < ends.size:
        within = int(np.searchsorted(ends, begins[done] + MOST_PART, side="right"))
        behind = max(done + 1, min(within, done + MOST_FEATURES))
        yield text[begins[done]:begins[behind]]
        done = behind


def read_part(
    program: Program, before: bytes, part: Bytes, skips: bool, asked: Sequence[str]
) -> PartRead:
    """The features of a part of a file, of which these bytes are to be read before it."""
    if part.size > MOST_PART:
        fault = RowFault(1, f"longer than {MOST_PART} bytes", "rjoin-cluster")
        return PartRead(NO_FEATURES, fault=fault)
    answer = program.bounds([before, part.data])
    if not isinstance(answer, RowFault):
        improper, features = improper_in(answer.errors), read_answer(answer.output)
        if not asked:
            return PartRead(features, improper=improper)
        is_known = asked[0] == BOUNDS
        text = answer.output if is_known else program.answer(asked, [before, part.data])
        return PartRead(features, improper=improper, answers=[text])
    if skips and answer.text in GEOMETRY_FAULTS:
        return read_skipping(program, before, part)
    if answer.row == 0:
        return PartRead(NO_FEATURES, fault=answer)
    good = program.bounds([before, before_row(answer.row, before, part).data])
    if isinstance(good, RowFault):
        raise RunFailed(f"rjoin bounds: a fault in row {good.row}, where there was none before")
    return PartRead(read_answer(good.output), fault=answer)


def read_skipping(program: Program, before: bytes, part: Bytes) -> PartRead:
    """The same, without the records whose geometry can't be read, up to the first other fault."""
    fault = None
    skipped = skipped_in(program, [before, part.data])
    if isinstance(skipped, RowFault):
        fault = skipped
        part = before_row(fault.row, before, part)
        skipped = skipped_in(program, [before, part.data])
    if isinstance(skipped, RowFault):
        raise RunFailed(f"rjoin join: a fault in row {skipped.row}, where there was none before")
    records = skipped.rows - 1 + int(before != HEADER)
    answer = program.bounds([before, *without(part, records)])
    if isinstance(answer, RowFault):
        raise RunFailed(f"rjoin bounds: {answer.text}, where there was no fault before")
    return PartRead(read_answer(answer.output), skipped, fault, improper_in(answer.errors))


def before_row(row: int, before: bytes, part: Bytes) -> Bytes:
    """What stands before a row of a part; the first block has the header before its rows."""
    records = row - 1 + int(before != HEADER)
    return part[:int(record_ends(part)[records - 1])] if records else part[:0]
