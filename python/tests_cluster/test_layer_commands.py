"""Commands of one layer have the bytes of one run."""
from __future__ import annotations

from pathlib import Path
from typing import Any

import layers
import pytest
from conftest import Tools, ended, told, write_layer

from rjoin_cluster import parts
from rjoin_cluster.command import main
from rjoin_cluster.layer_steps import height_of

ANY = ("--geometry", "any")
WINDOW = "POLYGON ((5 5, 60 5, 60 60, 5 60, 5 5))"
COMMANDS: dict[str, list[Any]] = {"window": [WINDOW], "stats": [], "bounds": []}
POINTS = [(f"n{number}", f"POINT ({number} {number % 7})") for number in range(60)]


@pytest.mark.parametrize("command", COMMANDS)
@pytest.mark.parametrize("block", ["700", "33554432"])
@pytest.mark.parametrize("kind, more", [("mixture", ()), ("roads", ANY), ("zones", ANY)])
def test_commands(tools: Tools, command: str, block: str, kind: str, more: tuple[str, ...]) -> None:
    layer, _ = layers.write_pair(tools.folder, kind, 150)
    tools.check_command([command, layer, *COMMANDS[command], *more], "--block", block)


@pytest.mark.parametrize("command", COMMANDS)
def test_blocks_of_more_than_a_run_takes(
    tools_here: Tools, command: str, monkeypatch: pytest.MonkeyPatch
) -> None:
    monkeypatch.setattr(parts, "MOST_FEATURES", 7)
    layer, _ = layers.write_pair(tools_here.folder, "mixture", 150)
    tools_here.check_command([command, layer, *COMMANDS[command]], "--block", "2000")


@pytest.mark.parametrize("command", COMMANDS)
@pytest.mark.parametrize("rows", [[], POINTS[:1]])
def test_small_layers(tools: Tools, command: str, rows: list[tuple[str, str]]) -> None:
    layer = write_layer(tools.folder / "layer.csv", rows)
    tools.check_command([command, layer, *COMMANDS[command], "--scale", "2"])


FAULTS = {
    "twice": [*POINTS, ("late", "POINT (1 1)"), POINTS[3]],
    "geometry": [*POINTS[:30], ("bad", "POINT (1"), *POINTS[30:]],
    "fields": [*POINTS[:30], ("bad", "POINT (1 1),more"), *POINTS[30:], POINTS[3]],
}


@pytest.mark.parametrize("command", COMMANDS)
@pytest.mark.parametrize("name", FAULTS)
def test_faults(
    tools: Tools, command: str, name: str, capfd: pytest.CaptureFixture[str]
) -> None:
    layer = write_layer(tools.folder / "layer.csv", FAULTS[name])
    check_fault(tools, [command, layer, *COMMANDS[command]], capfd)


def check_fault(tools: Tools, words: list[Any], capfd: pytest.CaptureFixture[str]) -> None:
    one = ended([tools.program, *words])
    assert one.status != 0
    capfd.readouterr()
    assert main(tools.words([*words, "--block", "400"])) == one.status
    assert told(capfd.readouterr().err) == one.errors
    assert not tools.report().exists()


@pytest.mark.parametrize("window", ["POINT (1", "LINESTRING (0 0, 1 1)", "POINT (0.5 0)"])
def test_a_window_that_cannot_be_read(
    tools: Tools, window: str, capfd: pytest.CaptureFixture[str]
) -> None:
    """Its fault comes before those of the layer, but for one that isn't there."""
    for path in (write_layer(tools.folder / "layer.csv", FAULTS["geometry"]), Path("/nowhere")):
        check_fault(tools, ["window", path, window], capfd)


@pytest.mark.parametrize("command", COMMANDS)
def test_rows_with_improper_rings(
    tools: Tools, command: str, capfd: pytest.CaptureFixture[str]
) -> None:
    crossing = ("bow", '"POLYGON ((0 0, 4 4, 4 0, 0 4, 0 0))"')
    layer = write_layer(tools.folder / "layer.csv", [*POINTS[:41], crossing, *POINTS[41:]])
    words = [command, layer, *COMMANDS[command], *ANY, "--rings", "even-odd"]
    one = ended([tools.program, *words])
    capfd.readouterr()
    tools.check_command(words, "--block", "400")
    assert told(capfd.readouterr().err).replace("rjoin-cluster:", "rjoin:") == one.errors != ""


@pytest.mark.parametrize(
    "features, height", [(0, 0), (1, 1), (8, 1), (9, 2), (64, 2), (65, 3), (10**9, 10)]
)
def test_the_height_of_a_tree(features: int, height: int) -> None:
    """Nodes have up to eight entries; 8^10 is 1,073,741,824."""
    assert height_of(features) == height
