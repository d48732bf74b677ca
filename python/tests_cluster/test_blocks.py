"""Blocks whose records are longer than a run takes, or hardly shorter."""
from __future__ import annotations

from dataclasses import dataclass
from pathlib import Path
from types import SimpleNamespace
from typing import Any, Optional, Sequence

import pytest
from conftest import write_layer

from rjoin_cluster import blocks, parts, steps
from rjoin_cluster.answers import Features, read_answer
from rjoin_cluster.conditions import Reach
from rjoin_cluster.inputs import find_inputs
from rjoin_cluster.program import Program, RowFault
from rjoin_cluster.reading import Reading
from rjoin_cluster.records import BYTE_ORDER_MARK, WINDOW, scan
from rjoin_cluster.sides import Side

MOST = 60
FEW = 7
GOOD = [(f"n{number}", f"POINT ({number} 1)") for number in range(50)]


@pytest.fixture
def small_parts(monkeypatch: pytest.MonkeyPatch) -> None:
    monkeypatch.setattr(parts, "MOST_PART", MOST)
    monkeypatch.setattr(steps, "MOST_BEHIND", MOST + 1)


def jobs_of(program: str, layer: Path, block: int) -> Sequence[Any]:
    """The blocks of a layer that is the left one and the right one."""
    request: Any = SimpleNamespace(
        program=Program(program, Reading()), block_bytes=block, has_texts=False, skip=None
    )
    engine: Any = SimpleNamespace(
        all=lambda name, task, jobs: [task(job) for job in jobs], workers=SimpleNamespace(count=1)
    )
    store: Any = SimpleNamespace(layout=None)
    inputs = find_inputs({Side.LEFT: str(layer), Side.RIGHT: str(layer)})
    return steps.Steps(request, Reach(0, "matrix", 9), inputs, store, engine).cut()


def features_of(program: Program, block: blocks.Extent) -> tuple[Features, Optional[RowFault]]:
    read = parts.features_of(program, block.before(), block.read(), skips=False)
    return read.features, read.fault


def test_a_quote_that_is_never_closed(program: str, tmp_path: Path, small_parts: None) -> None:
    """What stands behind it isn't read to its end; what stands before it is."""
    rows = [*GOOD[:9], ('"open', "POINT (1 1)"), *GOOD[9:]]
    jobs = jobs_of(program, write_layer(tmp_path / "open.csv", rows), 40)
    assert max(job.block.end - job.block.begin for job in jobs) == MOST + 1 + 40
    last = jobs[len(jobs) // 2 - 1]
    before = [features_of(job.program, job.block) for job in jobs[: last.block.number]]
    assert [fault for _, fault in before if fault is not None] == []
    features, fault = features_of(last.program, last.block)
    row = 10 - sum(len(read.boxes) for read, _ in before)
    assert fault == RowFault(row, f"longer than {MOST} bytes", "rjoin-cluster")
    assert len(features.boxes) == row - 1


def test_a_header_that_is_a_part_of_its_own(
    program: str, tmp_path: Path, small_parts: None
) -> None:
    """A first record that just fits in a run doesn't fit together with the header."""
    rows = [("a" * (MOST - 14), "POINT (1 1)"), *GOOD[:2]]
    job = jobs_of(program, write_layer(tmp_path / "long.csv", rows), 4000)[0]
    features, fault = features_of(job.program, job.block)
    assert (features.boxes[:, 0].tolist(), fault) == ([1, 0, 1], None)


@dataclass(frozen=True)
class SmallProgram(Program):
    """A program that takes a few features."""

    def bounds(self, layer: Sequence[Any]) -> Any:
        answer = super().bounds(layer)
        rows = 0 if isinstance(answer, RowFault) else len(read_answer(answer.output).boxes)
        return answer if rows <= FEW else RowFault(FEW + 1, parts.FULL)


@pytest.mark.parametrize("longest", [1, 60])
def test_a_block_of_more_features_than_a_run_takes(
    program: str, tmp_path: Path, longest: int, monkeypatch: pytest.MonkeyPatch
) -> None:
    """Whether or not its beginning lets expect it."""
    monkeypatch.setattr(parts, "MOST_FEATURES", FEW)
    monkeypatch.setattr(parts, "WINDOW", 100)
    rows = [("b" * longest, "POINT (1 1)"), *GOOD, ("last", "POINT (1"), *GOOD]
    job = jobs_of(program, write_layer(tmp_path / "many.csv", rows), 4000)[0]
    features, fault = features_of(SmallProgram(program, Reading()), job.block)
    assert features.boxes[:, 0].tolist() == [1, *range(50)]
    assert fault is not None and fault.row == 52


CROSSING = '"POLYGON ((0 0, 4 4, 4 0, 0 4, 0 0))"'


@pytest.mark.parametrize("few", [1, 7, 51, 1000])
def test_what_is_told_of_a_block_counts_all_of_its_parts(
    program: str, tmp_path: Path, few: int, monkeypatch: pytest.MonkeyPatch
) -> None:
    """Rows that are left out, and features with improper rings, which the others come before."""
    monkeypatch.setattr(parts, "MOST_FEATURES", few)
    bad, crossing, rows = (1, 9, 10, 50), (2, 8, 11, 12, 30, 49), list(GOOD)
    for number in bad:
        rows[number - 1] = (f"bad{number}", "POINT (1")
    for number in crossing:
        rows[number - 1] = (f"crossing{number}", CROSSING)
    block = jobs_of(program, write_layer(tmp_path / "layer.csv", rows), 4000)[0].block
    reading = Reading(geometry="any", rings="even-odd")
    read = parts.features_of(Program(program, reading), block.before(), block.read(), skips=True)
    assert (read.skipped.rows.tolist(), read.fault) == (list(bad), None)
    kept = [number for number in range(1, 51) if number not in bad]
    assert len(read.features.boxes) == len(kept)
    assert [kept[number] for number in read.improper.first] == list(crossing[:5])
    assert read.improper.features == len(crossing)


@pytest.mark.parametrize("mark", [b"", BYTE_ORDER_MARK])
@pytest.mark.parametrize("end", [b"\n", b"\r\n", b"\r"])
@pytest.mark.parametrize("count", [0, 1, 9, WINDOW])
def test_where_the_header_begins(tmp_path: Path, mark: bytes, end: bytes, count: int) -> None:
    """Behind any number of line ends, also of more than are read at once."""
    layer, before = tmp_path / "layer.csv", mark + end * count
    layer.write_bytes(before + b"id,wkt\r\n")
    (file,) = find_inputs({Side.LEFT: str(layer)})[Side.LEFT]
    assert blocks.header_begin(file) == len(before)


@pytest.mark.parametrize("geometry", ["POINT (1 1)", '"LINESTRING (1 1, 2 1)"'])
def test_a_segment_is_what_its_whole_is(
    tmp_path: Path, geometry: str, monkeypatch: pytest.MonkeyPatch
) -> None:
    """Where both ends tell, as they do of rows with quotes, and where they don't."""
    monkeypatch.setattr(blocks, "END_BYTES", 100)
    rows = [(f"n{number}", geometry) for number in range(99)]
    layer = str(write_layer(tmp_path / "layer.csv", rows))
    (file,) = find_inputs({Side.LEFT: layer})[Side.LEFT]
    for begin in range(7, 60):
        segment = blocks.Extent(file, 0, begin, file.bytes)
        found, whole = blocks.scan_segment(segment), scan(segment.read())
        assert found.passages == whole.passages
        assert abs(found.line_feeds - whole.line_feeds) < 20
