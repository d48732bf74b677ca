"""What lies in the folder that all workers share, and how it is put there: into a folder of a file
system, or to a URL, as an object store has it.
"""
from __future__ import annotations

import io
import os
import tempfile
import uuid
from contextlib import contextmanager
from dataclasses import dataclass, replace
from pathlib import Path
from typing import IO, Any, Iterator, Optional, Sequence, Union

import numpy as np
from numpy.typing import NDArray

from rjoin_cluster.remote import bytes_of, is_url, remove, send, state_of
from rjoin_cluster.sides import Side

Name = Union[Path, str]  # of a file: its path, or its URL

UNFINISHED = ".part"  # the end of names of files that are not complete


@dataclass(frozen=True)
class Layout:
    """The files of one join. Each but the report is written once, as a whole: it gets its name when
    it is complete. Those of features and pairs have rows alone, of which tasks read parts.

    A task that runs twice, because its worker was taken for dead, writes the same file twice.
    """

    folder: str
    round: int = 0  # of a search for nearest features that widens

    def of_round(self, number: int) -> Layout:
        return replace(self, round=number)

    def boxes(self, side: Side, block: int) -> Name:
        return self.file(f"boxes-{side.value}-{block}.rows")

    def fields(self, side: Side, block: int) -> Name:
        """Where the geometry of each feature begins and ends in the layer's file."""
        return self.file(f"fields-{side.value}-{block}.rows")

    def ids(self, side: Side, block: int) -> Name:
        return self.file(f"ids-{side.value}-{block}.rows")

    def hashes(self, side: Side, block: int) -> Name:
        return self.file(f"hashes-{side.value}-{block}.rows")

    def pieces(self, side: Side, group: int) -> Name:
        return self.of_this_round(f"pieces-{side.value}-{group}", "rows")

    def texts(self, side: Side, group: int) -> Name:
        """The records of the features of a group's pieces, in their order."""
        return self.of_this_round(f"texts-{side.value}-{group}", "bytes")

    def piece_ends(self, side: Side) -> Name:
        return self.of_this_round(f"piece-ends-{side.value}", "npy")

    def firsts(self, side: Side) -> Name:
        """The number of each block's first feature, and how many features there are."""
        return self.file(f"firsts-{side.value}.npy")

    def tiles(self) -> Name:
        return self.of_this_round("tiles", "npy")

    def pairs(self, run: int) -> Name:
        return self.file(f"pairs-{run}.rows")

    def part_borders(self) -> Name:
        return self.of_this_round("part-borders", "npy")

    def part_places(self) -> Name:
        return self.of_this_round("part-places", "npy")

    def run_sizes(self) -> Name:
        """How many pairs each run has."""
        return self.of_this_round("run-sizes", "npy")

    def run_rounds(self) -> Name:
        """The round that each run was in."""
        return self.file("run-rounds.npy")

    def report_part(self, part: int) -> Name:
        return self.file(f"report-{part}.csv")

    def report(self) -> Path:
        """The whole report, which alone is written by several tasks, each at its place."""
        return self.path("report.csv")

    def inputs(self) -> Name:
        """The files of the layers."""
        return self.file("inputs.json")

    def files(self, side: Side) -> Name:
        """The file of each block."""
        return self.file(f"files-{side.value}.json")

    def named(self, side: Side) -> Name:
        """The ids that edits name."""
        return self.file(f"named-{side.value}.npy")

    def inserted(self, side: Side) -> Name:
        """The features that edits have inserted, as a layer."""
        return self.file(f"inserted-{side.value}.csv")

    def chosen(self, side: Side, block: int, number: int) -> Name:
        """Which features of a block are joined in a round."""
        return self.file(f"chosen-{side.value}-{block}-{number}.rows")

    def last_left(self) -> Name:
        """The left features of the last round."""
        return self.file("last-left.npy")

    def token(self) -> Name:
        return self.file("token")

    def record(self) -> Path:
        """What the tasks came to, where the join may be gone on with."""
        return self.path("record")

    def description(self) -> Path:
        """Of which join the files are."""
        return self.path("join.json")

    def lock(self) -> Path:
        return self.path("lock")

    def of_this_round(self, name: str, kind: str) -> Name:
        return self.file(f"{name}-in-{self.round}.{kind}" if self.round else f"{name}.{kind}")

    def file(self, name: str) -> Name:
        return f"{self.folder}/{name}" if self.is_remote else Path(self.folder, name)

    def path(self, name: str) -> Path:
        """A file of a folder that is no URL."""
        return Path(self.folder, name)

    @property
    def is_remote(self) -> bool:
        return is_url(self.folder)


def private(path: str, flags: int) -> int:
    """Opens a file for the user of the join alone."""
    return os.open(path, flags, 0o600)


@contextmanager
def new_file(path: Name) -> Iterator[IO[bytes]]:
    """A file that gets its name when it is complete, and vanishes where it cannot be."""
    if isinstance(path, str):
        with tempfile.NamedTemporaryFile() as sent:
            yield sent
            sent.flush()
            send(sent.name, path)
        return
    part = unfinished(path)
    try:
        with open(part, "xb", opener=private) as file:
            yield file
        os.replace(part, path)
    except BaseException:
        part.unlink(missing_ok=True)
        raise


class Writer:
    """A file as NumPy writes to it by way of Python, whose errors tell the cause."""

    def __init__(self, file: IO[bytes]) -> None:
        self.write = file.write


def save_array(path: Name, array: NDArray[Any]) -> None:
    with new_file(path) as file:
        np.save(Writer(file), array, allow_pickle=False)


def save_bytes(path: Name, parts: list[bytes]) -> None:
    with new_file(path) as file:
        file.writelines(parts)


def mapped(path: Name) -> NDArray[Any]:
    """An array that is read where it is looked at, or as a whole where it lies at a URL."""
    array: NDArray[Any]
    if isinstance(path, str):
        array = np.load(io.BytesIO(bytes_of(path)), allow_pickle=False)
    else:
        array = np.load(path, mmap_mode="r", allow_pickle=False)
    return array


def contents_of(path: Name) -> bytes:
    """The bytes of a file."""
    return bytes_of(path) if isinstance(path, str) else path.read_bytes()


def size_of(path: Name) -> int:
    return state_of(path)[0] if isinstance(path, str) else path.stat().st_size


def remove_file(path: Name) -> None:
    """Takes a file away, if it is there."""
    if isinstance(path, str):
        remove(path)
    else:
        path.unlink(missing_ok=True)


class RowsFile:
    """A file of rows, read by one call of the system for each part: a map would cost more where the
    parts are short.
    """

    def __init__(self, path: Name) -> None:
        self.path = path
        self.number: Optional[int] = None

    def __enter__(self) -> RowsFile:
        if not isinstance(self.path, str):
            self.number = os.open(self.path, os.O_RDONLY)
        return self

    def __exit__(self, *_: object) -> None:
        if self.number is not None:
            os.close(self.number)

    def fill(self, rows: NDArray[Any], begin: int) -> None:
        """Fills the rows, which lie side by side, with the bytes from this place on."""
        rest: memoryview = np.ndarray(rows.nbytes, np.uint8, rows).data
        while rest:
            count = self.read(rest, begin)
            if count == 0:
                raise OSError(f"{self.path} is shorter than it was")
            rest, begin = rest[count:], begin + count

    def read(self, rest: memoryview, begin: int) -> int:
        """Reads some of the bytes that are still to be read, and answers how many they were."""
        if self.number is not None:
            return os.preadv(self.number, [rest], begin)
        found = bytes_of(str(self.path), begin, begin + len(rest))
        rest[:len(found)] = found
        return len(found)


def save_rows(path: Name, arrays: Sequence[NDArray[Any]]) -> None:
    """Writes the bytes of arrays, one behind the other."""
    with new_file(path) as file:
        for array in arrays:
            file.write(np.ascontiguousarray(array).data)


def load_rows(path: Name, rows: NDArray[Any], first: int = 0) -> None:
    """Fills the rows with those of a file from the first one on."""
    if rows.size:
        with RowsFile(path) as file:
            file.fill(rows, first * (rows.nbytes // len(rows)))


def unfinished(path: Path) -> Path:
    return path.with_name(f"{path.name}.{uuid.uuid4().hex}{UNFINISHED}")
