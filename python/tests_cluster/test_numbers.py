"""Numbers at the ends of what is read of any geometry: 10^18 units and 15 decimals."""
from __future__ import annotations

import random
from pathlib import Path

import pytest
from conftest import Tools, quoted, write_layer

MOST = 10**18


def decimal(units: int, places: int) -> str:
    """A number of units of the last of some decimals."""
    whole, rest = divmod(abs(units), 10**places)
    return ("-" if units < 0 else "") + (f"{whole}.{rest:0{places}}" if places else str(whole))


def slanted_lines(path: Path, places: int, seed: int) -> Path:
    """Lines of a coarse grid over nearly the whole range, each moved by some units."""
    chance = random.Random(seed)
    rows = []
    for number in range(600):
        x, y = (chance.randint(-8, 8) * (MOST // 10) + chance.randint(-2, 2) for _ in range(2))
        ends = [(x, y), (x + chance.choice((-1, 1)) * (MOST // 10), y + MOST // 10)]
        points = ", ".join(" ".join(decimal(it, places) for it in end) for end in ends)
        rows.append((f"line {number}", quoted(f"LINESTRING ({points})")))
    return write_layer(path, rows)


@pytest.mark.parametrize("places", [0, 15])
@pytest.mark.parametrize("words", [
    ["join", "--relation", "intersects"], ["near", "--distance", "3"], ["nearest", "--most", "2"],
])
def test_joins_of_great_numbers(tools: Tools, words: list[str], places: int) -> None:
    """The same bytes as one run."""
    layers = [slanted_lines(tools.folder / f"{side}.csv", places, seed)
              for seed, side in enumerate(("left", "right"))]
    command, *more = words
    tools.check_command(
        [command, *layers, *more, "--geometry", "any", "--scale", str(places)], "--tiles", "6"
    )


def test_a_distance_above_all_coordinates(tools: Tools) -> None:
    layer = slanted_lines(tools.folder / "layer.csv", 0, 3)
    words = ["near", layer, layer, "--distance", str(4 * MOST), "--geometry", "any"]
    report = tools.check_command(words, "--tiles", "6")
    assert report.count(b"\n") == 1 + 600**2
