"""The report is put together by the workers: each copies some bytes of it, of one part or several,
to their place in one file.

No two machines write into one page of the file: a file system may write whole pages, and then one
machine would put old bytes over those of another. So the borders of tasks are multiples of a number
of bytes, and not those of parts.
"""
from __future__ import annotations

import errno
import os
from dataclasses import dataclass
from typing import Iterator, NamedTuple

from rjoin_cluster.layout import Layout, private

CHUNK_BYTES = 2**26
COPY_BYTES = 2**24
# Where the system doesn't copy from file to file by itself.
NO_COPY = (errno.EXDEV, errno.EINVAL, errno.ENOSYS, errno.EOPNOTSUPP, errno.EBADF)


class Share(NamedTuple):
    """Some bytes of a part of the report."""

    part: int
    begin: int
    bytes: int


@dataclass(frozen=True)
class PlaceJob:
    """Bytes of the report that stand side by side, and where they begin in it."""

    layout: Layout
    begin: int
    shares: tuple[Share, ...]

    def __str__(self) -> str:
        return f"report from byte {self.begin}"

    @property
    def bytes(self) -> int:
        return sum(share.bytes for share in self.shares)


class Chunks:
    """Cuts the report into chunks as its parts become known, in their order."""

    def __init__(self, layout: Layout, header: int) -> None:
        self.layout = layout
        self.begin = header  # of the chunk that is being filled
        self.end = header
        self.shares: list[Share] = []

    def add(self, part: int, size: int) -> Iterator[PlaceJob]:
        """The chunks that are full with another part."""
        done = 0
        while done < size:
            border = (self.begin // CHUNK_BYTES + 1) * CHUNK_BYTES
            taken = min(size - done, border - self.end)
            self.shares.append(Share(part, done, taken))
            done += taken
            self.end += taken
            if self.end == border:
                yield self.taken()

    def rest(self) -> Iterator[PlaceJob]:
        """The last chunk, if it has any bytes."""
        if self.shares:
            yield self.taken()

    def taken(self) -> PlaceJob:
        job = PlaceJob(self.layout, self.begin, tuple(self.shares))
        self.begin, self.shares = self.end, []
        return job


def place_chunk(job: PlaceJob) -> int:
    """Copies the bytes to their place, and answers how many they are."""
    with open(job.layout.report(), "r+b", buffering=0, opener=private) as report:
        at = job.begin
        for share in job.shares:
            with open(str(job.layout.report_part(share.part)), "rb", buffering=0) as part:
                copy(part.fileno(), share.begin, report.fileno(), at, share.bytes)
            at += share.bytes
    return job.bytes


def copy(source: int, begin: int, target: int, at: int, size: int) -> None:
    """Copies bytes between files, by the system where it does that without showing them."""
    done = 0
    while done < size:
        wanted = min(COPY_BYTES, size - done)
        count = copied(source, begin + done, target, at + done, wanted)
        if count == 0:
            raise OSError("a part of the report is shorter than it was")
        done += count


def copied(source: int, begin: int, target: int, at: int, size: int) -> int:
    """How many bytes were copied by one call."""
    try:
        return os.copy_file_range(source, target, size, begin, at)
    except OSError as cause:
        if cause.errno not in NO_COPY:
            raise
    return os.pwrite(target, os.pread(source, size, begin), at)
