"""The report that one run of rjoin would write of two layers that are too large for one, put together from runs of
their parts.

Each part of the left layer is joined with each of the right one. Ids are those of layers.py, a letter and the
feature's number, by which the pairs of all runs are sorted.
"""
from __future__ import annotations

import hashlib
import resource
import subprocess
from collections.abc import Iterator
from itertools import product
from pathlib import Path

import numpy as np
from numpy.typing import NDArray

HEADER = b"id,wkt\n"
MOST_FEATURES = 1_000_000
MOST_BYTES = 134_217_728
PAIR = np.dtype([("left", "<u4"), ("right", "<u4"), ("last", "S16")])
ROWS_AT_ONCE = 2**16

Pairs = NDArray[np.void]


def parts_of(layer: Path) -> Iterator[Path]:
    """Writes the parts of a layer beside it, each as large as a run takes."""
    with open(layer, "rb") as file:
        file.readline()
        row = file.readline()
        number = 0
        while row:
            part = layer.with_suffix(f".part{number}")
            with open(part, "wb") as taken:
                size, count = taken.write(HEADER), 0
                while row and size + len(row) <= MOST_BYTES and count < MOST_FEATURES:
                    size, count = size + taken.write(row), count + 1
                    row = file.readline()
            yield part
            number += 1


def pairs_in(report: bytes) -> Pairs:
    """The pairs of a report, by the numbers of their features."""
    rows = report.split(b"\n")[1:-1]
    pairs = np.empty(len(rows), dtype=PAIR)
    for place, row in enumerate(rows):
        left, right, last = row.split(b",")
        pairs[place] = (int(left[1:]), int(right[1:]), last)
    return pairs


def hash_of_parts(program: str, words: list[str], left: Path, right: Path) -> tuple[str, int, float]:
    """The SHA-256 of the report of all parts, the number of its pairs, and the processor seconds of the runs."""
    found, used, header = [np.empty(0, dtype=PAIR)], 0.0, b""
    sides = [list(parts_of(layer)) for layer in (left, right)]
    for ones, others in product(*sides):
        before = processor_seconds()
        command = [program, words[0], str(ones), str(others), *words[1:]]
        report = subprocess.run(command, stdout=subprocess.PIPE, check=True).stdout
        used += processor_seconds() - before
        header = report[:report.index(b"\n") + 1]
        found.append(pairs_in(report))
    for part in (part for side in sides for part in side):
        part.unlink()
    pairs = np.concatenate(found)
    pairs = pairs.take(np.lexsort((pairs["right"], pairs["left"])))
    digest = hashlib.sha256(header)
    for begin in range(0, pairs.size, ROWS_AT_ONCE):
        rows = pairs[begin:begin + ROWS_AT_ONCE].tolist()
        digest.update(b"".join(b"a%d,b%d,%s\n" % row for row in rows))
    return digest.hexdigest(), pairs.size, round(used, 1)


def processor_seconds() -> float:
    usage = resource.getrusage(resource.RUSAGE_CHILDREN)
    return usage.ru_utime + usage.ru_stime
