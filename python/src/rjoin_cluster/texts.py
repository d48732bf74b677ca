"""Records of features that travel with their geometry as the layer's file has it.

A record begins with eight bytes for an id of the run, seven letters and a comma, which are written
when the run is known. In the layer's file some eight bytes stand before each geometry: those of the
header, of an id and of commas. So a record is a part of the file, with the line end behind it.
"""
from __future__ import annotations

from dataclasses import dataclass
from itertools import groupby
from operator import itemgetter
from typing import BinaryIO, Iterator, Sequence

import numpy as np
from numpy.typing import NDArray

from rjoin_cluster.digits import put
from rjoin_cluster.inputs import Input
from rjoin_cluster.layout import Layout, RowsFile, load_rows, mapped, new_file
from rjoin_cluster.records import COMMA, Bytes, Places
from rjoin_cluster.run_ids import ID_BYTES, letters_of
from rjoin_cluster.sides import Side
from rjoin_cluster.sources import load_files
from rjoin_cluster.words import WORD, put_words

ID_WIDTH = WORD - 1
ZERO = ord("0")
MOST_SHORT = np.iinfo(np.uint16).max
LINE_END = 1
FEW_OF = 256  # rows of a block, of which one is read by itself
BYTES_AT_ONCE = 2**22  # of records, which are put into another order together
NO_FIELDS: Places = np.zeros((0, 2), dtype=np.int64)


Part = tuple[Input, Places]  # of a layer: a file, and where geometries begin and end there


class Texts:
    """The records of features that stand side by side in a layer, in its order.

    parts: those of each file.
    """

    def __init__(self, parts: Sequence[Part]) -> None:
        fields, texts, done = [NO_FIELDS], [], 0
        for file, places in parts:
            if len(places):
                places = places + (-WORD, LINE_END)
                begin, end = int(places[0, 0]), int(places[-1, 1])
                fields.append(places + (done - begin))
                texts.append(read_range(file, begin, end))
                done += end - begin
        self.fields: Places = np.concatenate(fields)
        self.text = texts[0] if len(texts) == 1 else b"".join(texts)

    def lengths(self) -> Places:
        lengths: Places = self.fields[:, 1] - self.fields[:, 0]
        return lengths

    def in_order(self, order: Places) -> Iterator[Bytes]:
        """The records in this order, some at a time."""
        text = np.frombuffer(self.text, dtype=np.uint8)
        begins, ends = self.fields.take(order, axis=0).T
        lengths = ends - begins
        behind = np.cumsum(lengths)
        done = 0
        while done < order.size:
            before = int(behind[done] - lengths[done])
            most = int(np.searchsorted(behind, before + BYTES_AT_ONCE, side="right"))
            some = slice(done, max(most, done + 1))
            yield gathered(text, begins[some], lengths[some])
            done = some.stop


def gathered(text: Bytes, begins: Places, lengths: Places) -> Bytes:
    """The parts of a text that begin there, one behind the other. Those of one length are elements
    to NumPy, which copies them without Python's lock.
    """
    places = np.cumsum(lengths) - lengths
    found = np.empty(int(lengths.sum()), dtype=np.uint8)
    order = by_length(lengths)
    sizes = lengths.take(order)
    borders = np.flatnonzero(np.diff(sizes, prepend=-1))
    for size, rows in zip(sizes.take(borders).tolist(), np.split(order, borders[1:])):
        elements_in(found, size)[places.take(rows)] = elements_in(text, size)[begins.take(rows)]
    return found


def by_length(lengths: Places) -> Places:
    """The order of lengths. NumPy sorts 16 bits by their digits."""
    if lengths.max(initial=0) <= MOST_SHORT:
        return np.argsort(lengths.astype(np.uint16), kind="stable")
    return np.argsort(lengths, kind="stable")


def elements_in(text: Bytes, size: int) -> NDArray[np.void]:
    """The parts of so many bytes that begin at each place of a text, each as one element."""
    return np.ndarray(text.size - size + 1, f"V{size}", text, 0, (1,))


def read_range(layer: Input, begin: int, behind: int) -> bytes:
    """The bytes of a layer's file between two places."""
    with layer.opened() as file:
        return range_of(file, begin, behind)


def range_of(file: BinaryIO, begin: int, behind: int) -> bytes:
    """The bytes between two places of a file, behind whose last byte stands a line end."""
    file.seek(begin)
    text = file.read(behind - begin)
    if len(text) == behind - begin - LINE_END:
        text += b"\n"
    if len(text) != behind - begin:
        raise OSError("a layer's file is shorter than it was")
    return text


@dataclass(frozen=True)
class RecordPlaces:
    """Where records begin and end in the files of a layer, some in each of these files."""

    parts: Sequence[Part]

    def lengths(self) -> Places:
        lengths = [places[:, 1] - places[:, 0] for _, places in self.parts]
        return np.concatenate([NO_FIELDS[:, 0], *lengths])

    def records(self) -> Bytes:
        """The records, one behind the other."""
        text = bytearray()
        for file, places in self.parts:
            with file.opened() as opened:
                for begin, behind in places.tolist():
                    text += range_of(opened, begin, behind)
        return np.frombuffer(text, dtype=np.uint8)


def record_places(layout: Layout, side: Side, numbers: Places) -> RecordPlaces:
    """Where the records of these features are, whose numbers ascend."""
    firsts, files = mapped(layout.firsts(side)), load_files(layout, side)
    borders = np.searchsorted(numbers, firsts)
    parts = []
    for block in np.flatnonzero(np.diff(borders)).tolist():
        rows = numbers[borders[block]:borders[block + 1]] - firsts[block]
        fields = some_fields(layout, side, block, rows, int(firsts[block + 1] - firsts[block]))
        parts.append((files[block], fields + (-WORD, LINE_END)))
    return RecordPlaces(parts)


def some_fields(layout: Layout, side: Side, block: int, rows: Places, count: int) -> Places:
    """The fields of these rows of a block of so many; few are read one by one."""
    if rows.size * FEW_OF < count:
        fields: Places = np.empty((rows.size, 2), dtype=np.int64)
        with RowsFile(layout.fields(side, block)) as file:
            for place, row in enumerate(rows.tolist()):
                file.fill(fields[place], row * fields.strides[0])
        return fields
    fields = np.empty((count, 2), dtype=np.int64)
    load_rows(layout.fields(side, block), fields)
    return fields.take(rows, axis=0)


def parts_by_file(files: Sequence[Input], fields: Sequence[Places]) -> list[Part]:
    """The fields of blocks that stand side by side, those of one file together."""
    return [
        (file, np.concatenate([places for _, places in group]))
        for file, group in groupby(zip(files, fields), itemgetter(0))
    ]


def save_texts(layout: Layout, side: Side, group: int, records: Iterator[Bytes]) -> None:
    with new_file(layout.texts(side, group)) as file:
        for some in records:
            file.write(some.data)


def load_texts(layout: Layout, side: Side, group: int, text: Bytes, begin: int) -> None:
    """Fills the text with the records of a group from this place on."""
    with RowsFile(layout.texts(side, group)) as file:
        file.fill(text, begin)


def number_records(text: Bytes, lengths: Places) -> None:
    """Gives records that stand one behind the other the ids of a run."""
    names = np.full((lengths.size, WORD), ZERO, dtype=np.uint8)
    put(names, ID_WIDTH - ID_BYTES, letters_of(lengths.size).view(f"V{ID_BYTES}"))
    names[:, ID_WIDTH] = COMMA
    put_words(text, np.cumsum(lengths) - lengths, names.view("<u8").reshape(-1))
