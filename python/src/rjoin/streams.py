"""Layers that come from standard input or are compressed, unpacked into files without a name.

Such a file goes with the process, however that ends, and can be read at any place and again.
"""
from __future__ import annotations

import gzip
import os
import shutil
import sys
import tempfile
import zlib
from pathlib import Path
from typing import IO, Union

from rjoin.errors import InputError

STANDARD_INPUT = ("-", "/dev/stdin", "/vsistdin/")
GZIP = "/vsigzip/"
SUFFIX = ".gz"
HEAD = 4096
GZIP_MAGIC = b"\x1f\x8b"
# What files of some kinds begin with, and the extension by which GDAL knows them.
KINDS = ((b"SQLite format 3\0", ".gpkg"), (b"fgb", ".fgb"), (b"{", ".geojson"),
         (b"[", ".geojson"), (b"\x1e", ".geojsons"), (b"<", ".gml"))
BLANKS = b"\xef\xbb\xbf \t\r\n"


class Copy:
    """The unpacked bytes of a layer, and a name that has the extension of its kind."""

    def __init__(self, file: IO[bytes], name: str) -> None:
        self.file = file
        self.name = name

    def __del__(self) -> None:
        self.file.close()

    @property
    def path(self) -> Path:
        """By which this process, and those that it starts, find the file while it is open."""
        return Path(f"/proc/{os.getpid()}/fd/{self.file.fileno()}")


def is_packed(name: str) -> bool:
    """Whether a name is that of standard input or of a compressed file."""
    return name in STANDARD_INPUT or plain_name(name).lower().endswith(SUFFIX)


def plain_name(name: str) -> str:
    """The name of a file without what GDAL has before the name of a compressed one."""
    return name[len(GZIP):] if name.startswith(GZIP) else name


def unpacked(name: str, side: str) -> Copy:
    """A copy of a layer that is_packed, as it is without compression."""
    try:
        if name not in STANDARD_INPUT:
            with gzip.open(plain_name(name), "rb") as packed:
                return Copy(copied(packed), Path(plain_name(name)).stem)
        if sys.stdin is None:
            raise InputError(side, "standard input is closed")
        file = copied(sys.stdin.buffer)
        if head_of(file).startswith(GZIP_MAGIC):
            with file as compressed, gzip.open(compressed, "rb") as packed:
                file = copied(packed)
        return Copy(file, f"layer{kind_of(head_of(file))}")
    except (OSError, EOFError, ValueError, zlib.error) as fault:
        reason = getattr(fault, "strerror", None) or fault
        raise InputError(side, f"{name} cannot be read: {reason}") from fault


def copied(stream: Union[IO[bytes], gzip.GzipFile]) -> IO[bytes]:
    """A file without a name that has the bytes of a stream."""
    file = tempfile.TemporaryFile()
    try:
        shutil.copyfileobj(stream, file)
        file.flush()
        file.seek(0)
    except BaseException:
        file.close()
        raise
    return file


def head_of(file: IO[bytes]) -> bytes:
    """The first bytes of a file, which is left at its beginning."""
    head = file.read(HEAD)
    file.seek(0)
    return head


def kind_of(head: bytes) -> str:
    """The extension of the kind of file that begins so; a table of texts is all else."""
    text = head.lstrip(BLANKS)
    return next((kind for begin, kind in KINDS if text.startswith(begin)), ".csv")
