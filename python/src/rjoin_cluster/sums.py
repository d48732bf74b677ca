"""Sums of the layers' files and of the program, which say whether they are what they were."""
from __future__ import annotations

import hashlib
from typing import Sequence

from rjoin_cluster.blocks import Extent

READ_BYTES = 2**20
SUM_BYTES = 32


def sum_extent(extent: Extent) -> bytes:
    """The sum of some bytes of a layer's file."""
    digest = hashlib.blake2b(digest_size=SUM_BYTES)
    with extent.file.opened() as file:
        file.seek(extent.begin)
        left = extent.size
        while left and (text := file.read(min(READ_BYTES, left))):
            digest.update(text)
            left -= len(text)
    if left:
        raise extent.file.changed()
    return digest.digest()


def sum_of(sums: Sequence[bytes]) -> str:
    """The sum of a file whose parts have these sums."""
    return hashlib.blake2b(b"".join(sums), digest_size=SUM_BYTES).hexdigest()


def sum_of_file(path: str) -> str:
    """The sum of a whole file."""
    digest = hashlib.blake2b(digest_size=SUM_BYTES)
    with open(path, "rb") as file:
        while text := file.read(READ_BYTES):
            digest.update(text)
    return digest.hexdigest()
