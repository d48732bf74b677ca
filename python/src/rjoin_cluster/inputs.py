"""The files of the layers: that they can be read, and that nobody writes them meanwhile."""
from __future__ import annotations

import glob
import os
import stat
from contextlib import contextmanager
from dataclasses import dataclass
from typing import BinaryIO, Iterator, Optional, Sequence, Union

from rjoin_cluster.faults import JoinFault, ProgramFault
from rjoin_cluster.remote import is_url, names_like, opened_url, state_of
from rjoin_cluster.sides import Side


@dataclass(frozen=True)
class Input:
    """A file of a layer as it is found at the start of a join, by its path or its URL."""

    side: Side
    path: str
    bytes: int
    written: Union[int, str]  # in nanoseconds when it was last; what its version is told by
    on_disk: Optional[tuple[int, int]]  # its number, and when it was changed last, on this machine
    has_others: bool = False  # beside itself in its layer

    def is_at_start(self) -> bool:
        """Whether the file is this one, as it was at the start of the join, or a copy of it."""
        return is_same(self, state(self.path))

    def check_unchanged(self) -> None:
        """Ends the join where the file isn't that of the start any more, on the machine where it
        was found; a time that was set back, or another file in its place, is noticed here alone.
        """
        try:
            is_changed = not self.is_at_start() or number_and_change(self.path) != self.on_disk
        except OSError as cause:
            raise self.changed() from cause
        if is_changed:
            raise self.changed()

    def changed(self) -> JoinFault:
        return JoinFault(f"{self.side.value}: the file was changed during the join")

    @contextmanager
    def opened(self) -> Iterator[BinaryIO]:
        """The file for reading, which a worker finds as it was at the start of the join."""
        if is_url(self.path):
            if not self.is_at_start():
                raise self.changed()
            with opened_url(self.path) as remote:
                yield remote
            return
        with open(self.path, "rb") as file:
            if not is_same(self, state_in(os.fstat(file.fileno()))):
                raise self.changed()
            yield file

    def check_not(self, report: str) -> None:
        """A report that has the name of a layer would take its place."""
        if is_url(self.path) or is_url(report):
            is_layer = self.path == report
        else:
            is_layer = os.path.exists(report) and os.path.samefile(self.path, report)
        if is_layer:
            raise JoinFault(f"{report}: is the {self.side.value} layer")


State = tuple[int, Union[int, str]]
Files = tuple[Input, ...]  # of a layer, in their order


def state_in(status: os.stat_result) -> State:
    return status.st_size, status.st_mtime_ns


def state(path: str) -> State:
    """How many bytes a file has, and which version of it this is."""
    return state_of(path) if is_url(path) else state_in(os.stat(path))


def is_same(file: Input, now: State) -> bool:
    return now == (file.bytes, file.written)


def number_and_change(path: str) -> Optional[tuple[int, int]]:
    if is_url(path):
        return None
    status = os.stat(path)
    return status.st_ino, status.st_ctime_ns


def find_inputs(layers: dict[Side, str], *others: tuple[str, str]) -> dict[Side, Files]:
    """The files of layers, once it is known that all can be opened, also other ones, and then that
    they can be read.
    """
    paths = paths_that_open(layers, *others)
    return {
        side: tuple(found(side, path, len(names) > 1) for path in names)
        for side, names in paths.items()
    }


def paths_that_open(
    layers: dict[Side, str], *others: tuple[str, str]
) -> dict[Side, Sequence[str]]:
    """The paths of the files of layers. These and other files, each of which has a word for faults,
    can be opened.
    """
    paths = {side: paths_of(side, word) for side, word in layers.items()}
    for side, names in paths.items():
        for path in names:
            check_opens(side.value, path)
    for word, path in others:
        check_opens(word, path)
    return paths


def paths_of(side: Side, word: str) -> Sequence[str]:
    """The files that a word stands for: the one of this name, or those whose names fit a pattern,
    in the order of their names.
    """
    if is_url(word):
        names = names_like(word) if glob.has_magic(word) else [word]
    else:
        is_pattern = glob.has_magic(word) and not os.path.lexists(word)
        paths = sorted(glob.glob(word)) if is_pattern else [word]
        names = [os.path.abspath(path) for path in paths]
    if not names:
        raise cannot_be_opened(side.value)
    return names


def check_opens(word: str, path: str) -> None:
    """Opens a file or a folder; what would wait for a writer is opened without waiting."""
    try:
        if is_url(path):
            state_of(path)
        else:
            os.close(os.open(path, os.O_RDONLY | os.O_NONBLOCK))
    except OSError as cause:
        raise cannot_be_opened(word) from cause


def cannot_be_opened(word: str) -> ProgramFault:
    return ProgramFault(f"rjoin: {word}: cannot be opened")


def found(side: Side, path: str, has_others: bool = False) -> Input:
    """A file that can be read, in blocks."""
    if is_url(path):
        return Input(side, path, *state_of(path), None, has_others)
    number = os.open(path, os.O_RDONLY | os.O_NONBLOCK)
    try:
        status = os.fstat(number)
        if not stat.S_ISREG(status.st_mode) and not stat.S_ISDIR(status.st_mode):
            raise not_in_blocks(side)
        os.read(number, 1)
    except OSError as cause:
        raise ProgramFault(f"rjoin: {side.value}: read failed") from cause
    finally:
        os.close(number)
    on_disk = (status.st_ino, status.st_ctime_ns)
    return Input(side, path, *state_in(status), on_disk, has_others)


def not_in_blocks(side: Side) -> JoinFault:
    return JoinFault(f"{side.value}: not a regular file, which alone can be read in blocks")
