"""Edits of both layers, which change them before the join as one run changes them.

The program judges a file of edits: first beside two empty layers, so that what can't be read is
known, and then beside the features that edits name, on which alone depends whether one is refused.
What is left is to do in order what the program took: to leave out features of the layers' files,
and to put new ones behind them.
"""
from __future__ import annotations

import re
from dataclasses import dataclass
from typing import BinaryIO, Mapping, NamedTuple, Optional, Sequence

import numpy as np

from rjoin_cluster.answers import read_answer
from rjoin_cluster.commands import JOIN, PAIRS
from rjoin_cluster.faults import JoinFault, ProgramFault, RunFailed
from rjoin_cluster.ids import FILL, IdTable, hashes_of
from rjoin_cluster.program import HEADER, Program, RowFault
from rjoin_cluster.records import BYTE_ORDER_MARK, Places, record_ends
from rjoin_cluster.sides import SIDES, Side

WORDS = [JOIN, "--relation=equals", PAIRS]
# Of an edit that can be read, and that the layers don't allow.
REFUSED = re.compile(r"rjoin: edits: row \d+: (id is already there|no such id)\n")
FIELD = re.compile(rb'(?:"((?:[^"]|"")*)"|([^,]*))(?:,|\Z)')
INSERT = b"insert"
READ_AT_ONCE = 2**25


@dataclass(frozen=True)
class Edit:
    """A feature that is to be inserted into a layer, or one that is to be deleted."""

    side: Side
    name: bytes
    geometry: Optional[bytes]  # of a feature to insert


class EditFile(NamedTuple):
    """A file of edits, and in its place the fault of one that can't be read."""

    text: bytes
    edits: Sequence[Edit]
    fault: Optional[ProgramFault]

    def names(self, side: Side) -> list[bytes]:
        """The ids that edits of a side name, each once."""
        return list(dict.fromkeys(edit.name for edit in self.edits if edit.side is side))


class Named(NamedTuple):
    """The features of a block that edits name: their rows, and the numbers of the names."""

    rows: Places
    names: Places


NOBODY = Named(np.zeros(0, dtype=np.int64), np.zeros(0, dtype=np.int64))


class Changes(NamedTuple):
    """What edits come to on one side: the numbers of the features that are left out, in order, and
    the features that are put behind the others: their names' numbers and their geometries.
    """

    deleted: Places
    inserted: Sequence[tuple[int, bytes]]


def read_edits(file: BinaryIO, program: Program) -> EditFile:
    """The edits of a file, as the program reads it."""
    most = program.reading.limits.bytes
    try:
        text = read_bytes(file, most + 1)
    except OSError:
        return EditFile(b"", [], ProgramFault("rjoin: edits: read failed"))
    if len(text) > most:
        return EditFile(text, [], ProgramFault("rjoin: edits: file is too long"))
    fault = fault_of(program, text, [HEADER], [HEADER])
    if fault is not None and REFUSED.fullmatch(f"{fault}\n") is None:
        return EditFile(text, [], fault)
    return EditFile(text, edits_in(text), None)


def read_bytes(file: BinaryIO, most: int) -> bytes:
    """The bytes of a file, at most so many, in pieces: a read takes memory for all it may give."""
    pieces = []
    while most > 0:
        piece = file.read(min(most, READ_AT_ONCE))
        if not piece:
            break
        pieces.append(piece)
        most -= len(piece)
    return b"".join(pieces)


def fault_of(
    program: Program, text: bytes, left: Sequence[bytes], right: Sequence[bytes]
) -> Optional[ProgramFault]:
    """The fault of edits of two layers."""
    words = [*WORDS, *program.reading.words()]
    ended = program.run(words, [left, right], {"--edits": [text]})
    if ended.status == 0:
        return None
    if not ended.errors.startswith("rjoin: edits: "):
        raise RunFailed(f"rjoin join: status {ended.status}: {ended.errors.strip()}")
    return ProgramFault(ended.errors.rstrip("\n"), ended.status)


def edits_in(text: bytes) -> list[Edit]:
    """The edits of a text that the program has read, below its header."""
    text = text[len(BYTE_ORDER_MARK):] if text.startswith(BYTE_ORDER_MARK) else text
    ends = record_ends(np.frombuffer(text, dtype=np.uint8)).tolist()
    records = (text[begin:end].strip(b"\r\n") for begin, end in zip(ends, ends[1:]))
    return [edit_of(record) for record in records]


def edit_of(record: bytes) -> Edit:
    fields = [
        bare if quoted is None else quoted.replace(b'""', b'"')
        for quoted, bare in (found.groups() for found in FIELD.finditer(record))
    ]
    operation, side, name, geometry = fields[:4]
    return Edit(Side(side.decode()), name, geometry if operation == INSERT else None)


def id_fields(program: Program, names: Sequence[bytes]) -> IdTable:
    """The fields of these ids, as the program writes them."""
    rows = [b"%s,POINT (0 0)\n" % quoted(name) for name in names]
    answer = program.bounds([HEADER, *rows])
    if isinstance(answer, RowFault):
        raise JoinFault(f"edits: {len(names)} ids of a layer: {answer.text}")
    return read_answer(answer.output).ids


def quoted(field: bytes) -> bytes:
    return b'"' + field.replace(b'"', b'""') + b'"'


def named_among(ids: IdTable, names: IdTable) -> Named:
    """The features of a block whose ids are among the names of edits."""
    hashes, wanted = hashes_of(ids), hashes_of(names)
    numbers = np.flatnonzero(np.isin(wanted, hashes)).tolist()
    by_field = {field_in(names, number): number for number in numbers}
    rows, found = [], []
    for row in np.flatnonzero(np.isin(hashes, wanted)).tolist():
        name = by_field.get(field_in(ids, row))
        if name is not None:
            rows.append(row)
            found.append(name)
    return Named(np.array(rows, dtype=np.int64), np.array(found, dtype=np.int64))


def field_in(table: IdTable, row: int) -> bytes:
    return bytes(table[row]).rstrip(bytes([FILL]))


def check_edits(
    program: Program, file: EditFile, names: Mapping[Side, IdTable], held: Mapping[Side, Named]
) -> None:
    """Ends the join by the first edit that is refused, given the features that edits name."""
    layers = [[HEADER, *points(names[side], held[side].names)] for side in SIDES]
    fault = fault_of(program, file.text, *layers)
    if fault is not None:
        raise fault


def points(names: IdTable, numbers: Places) -> list[bytes]:
    """Rows of features with these ids, all of which lie apart."""
    return [
        b"%s,POINT (%d 0)\n" % (field_in(names, number), place)
        for place, number in enumerate(numbers.tolist())
    ]


def changes_of(file: EditFile, side: Side, held: Named) -> Changes:
    """What edits that aren't refused do to a layer, of which these features have their names."""
    numbers = {name: number for number, name in enumerate(file.names(side))}
    there = dict(zip(held.names.tolist(), held.rows.tolist()))
    deleted: list[int] = []
    inserted: dict[int, bytes] = {}  # in the order of the insertions
    for edit in file.edits:
        if edit.side is not side:
            continue
        name = numbers[edit.name]
        if edit.geometry is not None:
            inserted[name] = edit.geometry
        elif name in inserted:
            del inserted[name]
        elif name in there:
            deleted.append(there.pop(name))
        else:
            raise RunFailed("rjoin: took an edit that deletes what isn't there")
    return Changes(np.array(sorted(deleted), dtype=np.int64), list(inserted.items()))


def layer_of(names: IdTable, inserted: Sequence[tuple[int, bytes]]) -> list[bytes]:
    """The file of the features that are put behind the others."""
    rows = (field_in(names, name) + b"," + quoted(text) + b"\n" for name, text in inserted)
    return [HEADER, *rows]
