"""What a report of a run has to be made of."""
from __future__ import annotations

import numpy as np
import pytest

from rjoin_cluster.conditions import Reach
from rjoin_cluster.faults import RunFailed
from rjoin_cluster.reports import rows_of

PAIRS, MATRICES = Reach(0, "", 0), Reach(0, "matrix", 9)
DISTANCES = Reach(1, "distance", 4)


@pytest.mark.parametrize(
    "reach, text, letters",
    [
        (PAIRS, b"left,right\n0000,000<\n0003,0010\n", None),
        (MATRICES, b"left,right,matrix\n0000,000<,212FF1FF2\n0003,0010,0FFFFF212\n",
         [b"212FF1FF2", b"0FFFFF212"]),
        (DISTANCES, b"left,right,distance\n0000,000<,0\n0003,0010,1.25\n",
         [b"0\xff\xff\xff", b"1.25"]),
    ],
)
@pytest.mark.parametrize("before", [b"", b"xyz"])
def test_the_rows_of_a_report(before: bytes, reach: Reach, text: bytes, letters: object) -> None:
    """The letters from "0" on stand for numbers from 0 on; what is before four of them is none."""
    for name in (b"0000", b"000<", b"0003", b"0010"):
        text = text.replace(name, before + name)
    rows = rows_of(np.frombuffer(text, np.uint8), reach, len(before) + 4)
    lefts, rights, lasts = rows.some(0, rows.count)
    assert (lefts.tolist(), rights.tolist()) == ([0, 3], [12, 64])
    assert (lasts if lasts is None else [last.tobytes() for last in lasts]) == letters


@pytest.mark.parametrize(
    "reach, text",
    [
        (PAIRS, b"left,right,matrix\n0000,1000,0FFFFFFF2\n"),
        (PAIRS, b"left,right\n0000,1000"),
        (PAIRS, b"left,right\n0000,1000\n0000,"),
        (PAIRS, b"left,right\n0000,1000,\n"),
        (PAIRS, b"left,right"),
        (MATRICES, b"left,right\n0000,1000\n"),
        (MATRICES, b"left,right,matrix\n0000,1000,0FFFFFFF2"),
        (DISTANCES, b"left,right\n0000,1000\n"),
        (DISTANCES, b"left,right,distance\n0000,1000,2"),
    ],
)
def test_a_report_of_another_form(reach: Reach, text: bytes) -> None:
    with pytest.raises(RunFailed):
        rows_of(np.frombuffer(text, np.uint8), reach)


@pytest.mark.parametrize(
    "row",
    [
        "0000,1000,",
        "0000,1000,12345",
        "0000,1000",
        "0000;1000,1",
        "0000,1000;1",
        "00000,1000,1",
        "0000,01000,1",
        "",
        "x000,1000,1",
        "0000,000/,1",
    ],
)
@pytest.mark.parametrize("place", range(3))
def test_a_distance_of_another_form(row: str, place: int) -> None:
    """In whichever row, of those that are read at once."""
    rows = ["0000,1000,0", "2000,3000,1.25"]
    rows.insert(place, row)
    report = np.frombuffer("\n".join(["left,right,distance", *rows, ""]).encode(), np.uint8)
    with pytest.raises((RunFailed, ValueError)):
        rows_of(report, DISTANCES).some(0, 3)
