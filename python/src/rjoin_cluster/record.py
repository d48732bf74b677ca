"""What the tasks of a join came to, in a file to which the command adds one after the other, so
that a join that was ended goes on where it was.

An entry has its length and a sum before it. One that is not whole, as the last one where the
command was killed, ends the file.
"""
from __future__ import annotations

import hashlib
import os
import pickle
import struct
from pathlib import Path
from typing import Any, BinaryIO, Optional

from rjoin_cluster.layout import private

Key = tuple[str, int]  # a step, and the number of a task in it

SUM_BYTES = 16
HEAD = struct.Struct(f"<Q{SUM_BYTES}s")


class Record:
    """Results by step and number; without a file none are known, and none are kept."""

    def __init__(self, path: Optional[Path] = None) -> None:
        self.known: dict[Key, Any] = {}
        self.file: Optional[BinaryIO] = None
        if path is not None:
            self.file = open(path, "a+b", opener=private)
            self.file.truncate(self.read(self.file))

    def read(self, file: BinaryIO) -> int:
        """Takes all whole entries, and answers where they end."""
        size = file.seek(0, os.SEEK_END)
        file.seek(0)
        end = 0
        while len(head := file.read(HEAD.size)) == HEAD.size:
            length, told = HEAD.unpack(head)
            entry = file.read(length) if length <= size - file.tell() else b""
            if len(entry) < length or sum_of(entry) != told:
                break
            key, result = pickle.loads(entry)
            self.known[key] = result
            end = file.tell()
        return end

    def add(self, key: Key, result: Any) -> None:
        if self.file is not None:
            entry = pickle.dumps((key, result), protocol=pickle.HIGHEST_PROTOCOL)
            self.file.write(HEAD.pack(len(entry), sum_of(entry)) + entry)
            self.file.flush()

    def close(self) -> None:
        if self.file is not None:
            self.file.close()


def sum_of(entry: bytes) -> bytes:
    return hashlib.blake2b(entry, digest_size=SUM_BYTES).digest()
