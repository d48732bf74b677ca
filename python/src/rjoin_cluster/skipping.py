"""Records whose geometry can't be read, where these are left out."""
from __future__ import annotations

import re
import tempfile
from dataclasses import dataclass
from pathlib import Path
from typing import Sequence, Union

import numpy as np

from rjoin_cluster.faults import RunFailed
from rjoin_cluster.program import HEADER, HINT, Program, RowFault, Text
from rjoin_cluster.records import COMMA, Bytes, Places, field_ends, record_ends

# What the program says of a geometry that it can't read.
FAULTS = (
    "not a geometry text",
    "number not whole or out of range",
    "not a point, axis-parallel segment or rectangle",
    "a line without length, or a ring that is not closed or is flat",
    "rings cross or overlap",
)
LEFT_FAULT = re.compile(rf"rjoin: left: row (\d+): (.*){HINT}\n")
COLUMNS_BEFORE_ID = 2


@dataclass(frozen=True)
class Skipped:
    """Records that are left out: their rows, from 1, and for each the fields that follow the row in
    a list of skipped rows, as its text has them.
    """

    rows: Places
    texts: list[bytes]

    def behind(self, row: int) -> Skipped:
        """The same records, of a part that follows so many rows."""
        return Skipped(self.rows + row, self.texts)


NOTHING = Skipped(np.zeros(0, dtype=np.int64), [])


def all_skipped(parts: Sequence[Skipped]) -> Skipped:
    rows = np.concatenate([NOTHING.rows, *(part.rows for part in parts)])
    return Skipped(rows, [text for part in parts for text in part.texts])


def skipped_header(program: Program) -> bytes:
    """The first line of a list of skipped rows."""
    text = list_of(program, [HEADER])
    if isinstance(text, RowFault):
        raise RunFailed("rjoin join: a fault of an empty layer")
    return text


def skipped_in(program: Program, layer: Sequence[Text]) -> Union[Skipped, RowFault]:
    """The records of a layer that are left out, or its first fault that isn't of a geometry."""
    text = list_of(program, layer)
    if isinstance(text, RowFault):
        return text
    part = np.frombuffer(text, dtype=np.uint8)
    ends = field_ends(part)
    rows, texts = [], []
    begins = np.append(0, record_ends(part))
    for begin, behind in zip(begins[1:-1].tolist(), begins[2:].tolist()):
        commas = ends[np.searchsorted(ends, begin):][:COLUMNS_BEFORE_ID].tolist()
        if [part[comma] for comma in commas] != [COMMA] * COLUMNS_BEFORE_ID:
            raise RunFailed("rjoin join: a list of skipped rows of another form than expected")
        rows.append(int(text[commas[0] + 1:commas[1]]))
        texts.append(text[commas[1]:behind])
    return Skipped(np.array(rows, dtype=np.int64), texts)


def list_of(program: Program, layer: Sequence[Text]) -> Union[bytes, RowFault]:
    """The list of skipped rows of a layer, which is joined with an empty one."""
    with tempfile.TemporaryDirectory() as folder:
        path = Path(folder, "skipped.csv")
        words = ["join", "--relation=intersects", f"--skip={path}", *program.reading.words()]
        ended = program.run(words, [layer, [HEADER]])
        if ended.status == 0:
            return path.read_bytes()
    fault = LEFT_FAULT.fullmatch(ended.errors)
    if fault is None:
        raise RunFailed(f"rjoin join: status {ended.status}: {ended.errors.strip()}")
    return RowFault(int(fault.group(1)), fault.group(2), hint=fault.group(3))


def without(part: Bytes, records: Places) -> list[Text]:
    """A text without the records of these numbers, from 0."""
    begins = np.append(0, record_ends(part))
    kept = []
    begin = 0
    for record in records.tolist():
        kept.append(part[begin:begins[record]].data)
        begin = begins[record + 1]
    return [*kept, part[begin:].data]
