"""Nearest features, also where those of one left feature are found in several tiles."""
from __future__ import annotations

import random
from pathlib import Path
from typing import Any, Sequence

import layers
import numpy as np
import pytest
from conftest import Tools, ended, quoted, told, write_layer

from rjoin_cluster import nearest
from rjoin_cluster.conditions import Condition, Reach
from rjoin_cluster.layout import Layout
from rjoin_cluster.program import Program
from rjoin_cluster.reading import Reading
from rjoin_cluster.runs import pair_type


ANY = ("--geometry", "any")


def words_of(left: Path, right: Path, *more: str) -> list[Any]:
    return ["nearest", left, right, *more]


@pytest.mark.parametrize("tiles", ["1", "9", "60"])
@pytest.mark.parametrize("most", ["1", "2", "7", "1000"])
def test_boxes(tools: Tools, tiles: str, most: str) -> None:
    left, right = layers.write_pair(tools.folder, "close", 500)
    words = words_of(left, right, "--distance", "40", "--most", most)
    tools.check_command(words, "--tiles", tiles, "--block", "9999")


@pytest.mark.parametrize("most", ["1", "5"])
@pytest.mark.parametrize(
    "kind, distance", [("roads", "20000"), ("zones", "30000"), ("neighbours", "0")]
)
def test_any_geometry(tools: Tools, kind: str, distance: str, most: str) -> None:
    """Roads and parcels, points and areas, and parcels all of whose neighbours tie."""
    left, right = layers.write_pair(tools.folder, kind, 100)
    words = words_of(left, right, "--distance", distance, "--most", most, *ANY)
    tools.check_command(words, "--tiles", "20", "--block", "9999")


@pytest.mark.parametrize("distance", ["0", "1", "3", "50"])
def test_features_that_are_as_far_away(tools: Tools, distance: str) -> None:
    """Points of a grid between those of another one: of each all neighbours tie, and cuts lie on
    points and between them.
    """
    grid = [(x, y) for x in range(0, 60, 4) for y in range(0, 60, 4)]
    chance = random.Random(5)
    chance.shuffle(grid)
    ones = [(f"l{x}-{y}", f"POINT ({x} {y})") for x, y in grid]
    others = [(f"r{x}-{y}", f"POINT ({x + 2} {y + 2})") for x, y in reversed(grid)]
    left = write_layer(tools.folder / "left.csv", ones)
    right = write_layer(tools.folder / "right.csv", [*others, *ones[:40]])
    words = words_of(left, right, "--distance", distance, "--most", "3")
    tools.check_command(words, "--tiles", "25", "--block", "500")


@pytest.mark.parametrize(
    "near, reading",
    [("POINT (-1000 40)", ()), (quoted("LINESTRING (-1415 0, 0 1415)"), ANY)],
)
def test_distances_that_differ_by_less_than_a_unit(
    tools: Tools, near: str, reading: Sequence[str]
) -> None:
    """Their numbers in the report are one. Others on both sides have the cut between them."""
    others = [
        (f"o{side}{number}", f"POINT ({side}3000 {5000 + 200 * number})")
        for number in range(20)
        for side in ("", "-")
    ]
    rights = [("far", "POINT (1001 0)"), ("near", near), *others]
    left = write_layer(tools.folder / "left.csv", [("l", "POINT (0 0)")])
    right = write_layer(tools.folder / "right.csv", rights)
    for most, found in (("1", ["near"]), ("2", ["near", "far"])):
        words = words_of(left, right, "--distance", "1100", "--most", most, *reading)
        report = tools.check_command(words, "--tiles", "2").decode()
        assert report.splitlines()[1:] == [f"l,{name},1001" for name in found]


@pytest.mark.parametrize("pairs", [1, 5, 50])
def test_another_run_in_parts(
    tools_here: Tools, pairs: int, monkeypatch: pytest.MonkeyPatch
) -> None:
    monkeypatch.setattr(nearest, "PAIRS_OF_RUN", pairs)
    left, right = layers.write_pair(tools_here.folder, "close", 200)
    words = words_of(left, right, "--distance", "60", "--most", "4")
    tools_here.check_command(words, "--tiles", "20")


def test_records_that_are_too_long_for_one_run(
    tools_here: Tools, monkeypatch: pytest.MonkeyPatch
) -> None:
    monkeypatch.setattr(nearest, "MOST_RECORDS_BYTES", 700)
    left, right = layers.write_pair(tools_here.folder, "close", 200)
    words = words_of(left, right, "--distance", "60", "--most", "4")
    tools_here.check_command(words, "--tiles", "20")


def test_pairs_of_one_run_stay_as_they_are(tools: Tools) -> None:
    """No further run is made for them."""
    program = Program("/nowhere/rjoin", Reading())
    condition = Condition("nearest", (), "1")
    search = nearest.Search(
        Layout(str(tools.folder)), program, condition, Reach(1, "distance", 2), 10
    )
    pairs = np.zeros(5, dtype=pair_type(2, 3, True))
    pairs["rank"] = [0, 0, 20, 20, 30]
    assert search.settled(pairs, np.array([1, 1, 0, 0, 1])) is pairs


@pytest.mark.parametrize(
    "words",
    [
        ["--distance=1", "--most=0"],
        ["--distance=1", "--most=4294967296"],
        ["--distance=1", "--most=x"],
        ["--distance=-1"],
    ],
)
def test_words_are_judged_by_the_program(
    tools: Tools, words: Sequence[str], capfd: pytest.CaptureFixture[str]
) -> None:
    from rjoin_cluster.command import main

    left = write_layer(tools.folder / "left.csv", [("a", "POINT (1 1)")])
    one = ended([tools.program, *words_of(left, left, *words)])
    assert one.status == 2
    capfd.readouterr()
    assert main(tools.words(words_of(left, left, *words))) == 2
    assert told(capfd.readouterr().err) == one.errors
