"""Nearest features however far away, by rounds with ever greater distances."""
from __future__ import annotations

import json
import random
from pathlib import Path

import layers
import numpy as np
import pytest
from conftest import Tools, quoted, write_layer

from rjoin_cluster import joining, rounds
from rjoin_cluster.conditions import Condition
from rjoin_cluster.tiles import Sample

ANY = ("--geometry", "any")


def words_of(left: Path, right: Path, *more: str) -> list[str]:
    return ["nearest", str(left), str(right), *more]


@pytest.mark.parametrize("few", [0, 5, 100_000])
@pytest.mark.parametrize("most", ["1", "1000"])
@pytest.mark.parametrize("kind, more", [("close", ()), ("roads", ANY), ("zones", ANY)])
def test_the_bytes_of_one_run(
    tools_here: Tools, few: int, most: str, kind: str, more: tuple[str, ...],
    monkeypatch: pytest.MonkeyPatch, capsys: pytest.CaptureFixture[str],
) -> None:
    """Also where all features but a few have enough within the first distances."""
    monkeypatch.setattr(joining, "FEW", few)
    left, right = layers.write_pair(tools_here.folder, kind, 150)
    words = words_of(left, right, "--most", most, *more)
    tools_here.check_command(words, "--tiles", "9", "--block", "3000", "--json")
    figures = json.loads(capsys.readouterr().out)
    assert figures["rounds"] == 1 or few < 100_000
    assert figures["rounds"] > 1 or most != "1000" or few == 100_000


@pytest.mark.parametrize("scale", ["0", "3"])
@pytest.mark.parametrize("few", [0, 7])
def test_features_far_apart(
    tools_here: Tools, few: int, scale: str, monkeypatch: pytest.MonkeyPatch
) -> None:
    """Small places at great distances, and a feature at the end of the plane."""
    monkeypatch.setattr(joining, "FEW", few)
    chance = random.Random(7)
    rows = []
    for place in range(6):
        x, y = (chance.randint(-(10**8), 10**8) for _ in range(2))
        for number in range(20 + 30 * (place % 2)):
            dx, dy = chance.randint(0, 50), chance.randint(0, 50)
            shape = layers.shape(x + dx, y + dy, x + dx + number % 4, y + dy + number % 3)
            rows.append((f"p{place}-{number}", quoted(shape)))
    left = write_layer(tools_here.folder / "left.csv", [*rows[::2], ("end", "POINT (999999999 0)")])
    right = write_layer(tools_here.folder / "right.csv", [*rows[1::2], *rows[:6:2]])
    words = words_of(left, right, "--most", "4", "--scale", scale)
    tools_here.check_command(words, "--tiles", "7", "--block", "900")


@pytest.mark.parametrize("sides", [(0, 0), (0, 9), (9, 0), (9, 2)])
def test_empty_layers_and_fewer_than_are_sought(
    tools_here: Tools, sides: tuple[int, int], monkeypatch: pytest.MonkeyPatch
) -> None:
    monkeypatch.setattr(joining, "FEW", 1)
    rows = [(f"n{number}", f"POINT ({number * number} 5)") for number in range(9)]
    left = write_layer(tools_here.folder / "left.csv", rows[: sides[0]])
    right = write_layer(tools_here.folder / "right.csv", rows[: sides[1]])
    tools_here.check_command(words_of(left, right, "--most", "5"), "--tiles", "3")


def test_parts_of_the_last_round(tools_here: Tools, monkeypatch: pytest.MonkeyPatch) -> None:
    """Where the records are more than a run takes."""
    from rjoin_cluster import nearest, plan

    for module in (plan, joining, nearest):
        monkeypatch.setattr(module, "MOST_RECORDS_BYTES", 700)
    left, right = layers.write_pair(tools_here.folder, "close", 60)
    tools_here.check_command(words_of(left, right, "--most", "2"), "--block", "9000")


@pytest.mark.parametrize("few", [3, 100_000])
@pytest.mark.parametrize("ended", ["deal_blocks", "count_found", "join_tile", "write_part"])
def test_a_search_that_was_ended_goes_on(
    tools_here: Tools, few: int, ended: str, monkeypatch: pytest.MonkeyPatch
) -> None:
    from test_resume import note

    from rjoin_cluster.command import main

    monkeypatch.setattr(joining, "FEW", few)
    left, right = layers.write_pair(tools_here.folder, "close", 200)
    words = words_of(left, right, "--most", "3")
    more = ["--tiles", "9", "--block", "3000", "--resume", str(tools_here.folder / "kept")]
    for count in range(1, 60, 5):
        with monkeypatch.context() as patch:
            note(patch, [ended], count)
            if main(tools_here.words([*words, *more])) == 0:
                break
    tools_here.check_command(words)


def test_a_distance_as_a_word() -> None:
    condition = Condition("nearest", ("--most=1",))
    for units, scale, word in ((1204, 0, "1204"), (1204, 3, "1.204"), (7, 6, "0.000007")):
        assert rounds.within(condition, units, scale).words[-1] == f"--distance={word}"


def test_the_first_distance() -> None:
    """Of points in a grid of pitch 100, of which each tenth is in the sample, about two pitches."""
    grid = np.array([[x, y, x, y] for x in range(0, 9000, 100) for y in range(0, 9000, 100)])
    left, right = Sample(grid + 50, 1.0), Sample(grid[::10], 10.0)
    assert 70 <= rounds.first_distance(left, right, 1, 10**12) <= 1000
    assert rounds.first_distance(left, right, 1, 50) == 50
    assert rounds.first_distance(left, right, 16, 10**12) == pytest.approx(
        4 * rounds.first_distance(left, right, 1, 10**12), abs=4
    )
    assert rounds.first_distance(Sample(grid[:0], 1.0), right, 1, 10**12) == 1
