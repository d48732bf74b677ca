"""A report that is put together from several parts, each of which has pairs of several runs."""
from __future__ import annotations

import logging
from typing import Any, Sequence

import layers
import pytest
from conftest import Tools, quoted, write_layer

from rjoin_cluster import merge


@pytest.fixture
def small_parts(monkeypatch: pytest.MonkeyPatch) -> None:
    monkeypatch.setattr(merge, "LEAST_PAIRS", 256)
    monkeypatch.setattr(merge, "LEAST_PAIRS_OF_RUN", 1)
    monkeypatch.setattr(merge, "MOST_PAIRS", 600)


@pytest.mark.parametrize(
    "words",
    [
        ["join", "--relation", "intersects"],
        ["join", "--relation", "intersects", "--pairs"],
        ["near", "--distance", "3"],
        ["nearest", "--distance", "9", "--most", "4"],
    ],
)
def test_parts_of_a_report(
    tools_here: Tools, small_parts: None, words: Sequence[str], caplog: pytest.LogCaptureFixture
) -> None:
    """Points of a grid and squares around them: each left feature has several pairs."""
    grid = [(x, y) for x in range(0, 120, 3) for y in range(0, 120, 3)]
    points = [(f"p{x}-{y}", layers.point(x, y)) for x, y in grid]
    squares = [(f"s{x}-{y}", quoted(layers.rectangle(x - 2, y - 2, x + 4, y + 4))) for x, y in grid]
    left = write_layer(tools_here.folder / "left.csv", points)
    right = write_layer(tools_here.folder / "right.csv", squares[::-1])
    command, *more = words
    asked: list[Any] = [command, left, right, *more]
    with caplog.at_level(logging.INFO, "rjoin_cluster.engine"):
        output = tools_here.check_command(asked, "--tiles", "6")
    assert output.count(b"\n") > 4000
    assert "merging part 5 " in caplog.text
