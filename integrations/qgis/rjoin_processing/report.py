"""Reads the report of a join, by columns; its ids are padded with zeros, as `sheet` writes them."""
from __future__ import annotations

from pathlib import Path
from typing import TYPE_CHECKING, Dict, List, NamedTuple, Sequence, Tuple

import numpy as np
from numpy.lib.stride_tricks import sliding_window_view

from . import program

if TYPE_CHECKING:
    from .columns import Bytes, Places

COMMA, NEWLINE, ZERO = b",\n0"
# How many rows are read at once.
BLOCK = 1 << 14


class Report(NamedTuple):
    """The rows of a report: the numbers of two features, and the texts of the last column, of which
    there are none where the report has pairs alone."""

    left: Places
    right: Places
    texts: List[str]


def read(path: Path, columns: Sequence[str], digits: Tuple[int, int]) -> Report:
    """The rows of a report, in its order; columns: those behind the ids, one or none; digits: those
    of the left ids and the right ones."""
    data = np.fromfile(path, np.uint8)
    header = (",".join(["left", "right", *columns]) + "\n").encode()
    if data[:len(header)].tobytes() != header or data[-1] != NEWLINE:
        raise _no_report()
    data = data[len(header):]
    ends = np.flatnonzero(data == NEWLINE)
    begins = np.concatenate([[0], ends[:-1] + 1])[:ends.size]
    left, right = digits
    lasts = begins + left + right + 1 + len(columns)
    if (ends < lasts if columns else ends != lasts).any():
        raise _no_report()
    return Report(_numbers(data, begins, left, COMMA),
                  _numbers(data, begins + left + 1, right, COMMA if columns else NEWLINE),
                  _texts(data, lasts, ends) if columns else [])


def _no_report() -> program.ProgramError:
    return program.ProgramError(f"{program.find_program()} wrote no report")


def _numbers(data: Bytes, begins: Places, width: int, end: int) -> Places:
    """The numbers of some digits that begin at these places, each before a byte that ends it."""
    found = np.zeros(begins.size, np.int64)
    wrong = data[begins + width] != end
    for place in range(width):
        digit = data[begins + place] - np.uint8(ZERO)
        wrong |= digit > 9
        found = found * 10 + digit
    if wrong.any():
        raise _no_report()
    return found


class _Texts(Dict[bytes, str]):
    """The texts of bytes, so that equal ones are the same object."""

    def __missing__(self, word: bytes) -> str:
        self[word] = text = word.decode("ascii")
        return text


def _texts(data: Bytes, begins: Places, ends: Places) -> List[str]:
    """The texts between these places; equal ones are the same object where all are as long."""
    widths = np.unique(ends - begins)
    if widths.size == 1 and widths[0]:
        known = _Texts()
        texts: List[str] = []
        words = sliding_window_view(data, int(widths[0]))
        for first in range(0, begins.size, BLOCK):
            block = words[begins[first:first + BLOCK]].view(f"S{widths[0]}").reshape(-1)
            texts += map(known.__getitem__, block.tolist())
        return texts
    whole = data.tobytes().decode("ascii")
    return [whole[begin:end] for begin, end in zip(begins.tolist(), ends.tolist())]
