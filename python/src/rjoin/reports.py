"""Reports of joins, read as frames: by columns where all lines are equally long, and else as CSV.

Lines without a distance are so if both layers have ids that are padded with zeros, as sheet writes
them.
"""
from __future__ import annotations

from pathlib import Path
from typing import Any, Dict, Optional, Sequence, Tuple

import numpy as np
import pandas
from numpy.typing import NDArray

from rjoin import program

Bytes = NDArray[np.uint8]

LETTERS = "F012"
COUNT = 9
COMMA, NEWLINE, ZERO = b",\n0"
# The place of each letter by its byte.
PLACES = np.full(256, len(LETTERS), np.uint8)
PLACES[np.frombuffer(LETTERS.encode(), np.uint8)] = np.arange(len(LETTERS))


def read(path: Path, kinds: Sequence[str], last: Dict[str, str], wants_last: bool,
         widths: Tuple[Optional[int], Optional[int]]) -> Any:
    """A report as a frame with the columns left and right, and the last one if it is wanted.

    kinds: the types of the ids of both layers. last: the last column's name and type, or nothing in
    a report of pairs alone. widths: the digits of padded ids.
    """
    columns = {"left": kinds[0], "right": kinds[1], **last}
    header = ",".join(columns) + "\n"
    with open(path, encoding="utf-8", errors="replace") as file:
        if file.readline() != header:
            raise program.wrong_answer()
    left, right = widths
    if left is not None and right is not None and "distance" not in last:
        data = np.fromfile(path, np.uint8)[len(header):]
        return read_padded(data, (left, right), "matrix" in last)
    report = read_table(path, columns, list(columns)[:3 if wants_last else 2])
    if wants_last and "matrix" in last:
        report["matrix"] = report["matrix"].to_numpy(object)
    return report


def read_padded(data: Bytes, widths: Tuple[int, int], has_letters: bool) -> Any:
    """The lines of a report whose ids have these numbers of digits."""
    left, right = widths
    behind_right = left + 1 + right
    end = behind_right + 1 + COUNT if has_letters else behind_right
    if data.size % (end + 1):
        raise program.wrong_answer()
    rows = data.reshape(-1, end + 1)
    commas = [left, behind_right] if has_letters else [left]
    if (rows[:, commas] != COMMA).any() or (rows[:, end] != NEWLINE).any():
        raise program.wrong_answer()
    found = {"left": numbers(rows[:, :left]), "right": numbers(rows[:, left + 1:behind_right])}
    if has_letters:
        found["matrix"] = letters(rows[:, -1 - COUNT:-1])
    return pandas.DataFrame(found)


def numbers(digits: Bytes) -> NDArray[np.int64]:
    """The numbers that rows of digits spell."""
    found = np.zeros(len(digits), np.int64)
    for column in digits.T:
        digit = column - ZERO
        if (digit > 9).any():
            raise program.wrong_answer()
        found = found * 10 + digit
    return found


def letters(rows: Bytes) -> Any:
    """The letters of DE-9IM in each row; equal ones are one text."""
    codes = np.zeros(len(rows), np.int64)
    for column in rows.T:
        place = PLACES[column]
        if (place == len(LETTERS)).any():
            raise program.wrong_answer()
        codes = codes * len(LETTERS) + place
    texts = np.empty(len(LETTERS) ** COUNT, object)
    for code in np.flatnonzero(np.bincount(codes)).tolist():
        texts[code] = text_of(code)
    return texts[codes]


def text_of(code: int) -> str:
    digits = [code // len(LETTERS) ** place % len(LETTERS) for place in reversed(range(COUNT))]
    return "".join(LETTERS[digit] for digit in digits)


def read_table(answer: Any, columns: Dict[str, str], wanted: Sequence[str]) -> Any:
    """Some columns of an answer of the program, by their types; ids such as NA are texts."""
    try:
        return pandas.read_csv(answer, dtype=columns, keep_default_na=False, usecols=wanted)
    except ValueError as fault:
        raise program.wrong_answer() from fault
