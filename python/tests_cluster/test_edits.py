"""Edits of both layers: the report and the faults are those of one run with the same file."""
from __future__ import annotations

import io
import random
import sys
from pathlib import Path
from types import SimpleNamespace
from typing import Sequence

import layers
import pytest
from conftest import Tools, ended, quoted, told, write_layer

from rjoin_cluster.command import main

POINTS = [(f"n{number}", f"POINT ({number} {number % 7})") for number in range(60)]
CUT = ("--tiles", "6", "--block", "400")
ANY = ("--geometry", "any")


def write_edits(path: Path, rows: Sequence[str]) -> Path:
    path.write_text("op,layer,id,wkt\n" + "".join(f"{row}\n" for row in rows), newline="")
    return path


def some_edits(seed: int, ids: dict[str, set[str]]) -> list[str]:
    """Edits none of which is refused: of features of the layers, and of new ones."""
    chance = random.Random(seed)
    rows = []
    gone: dict[str, list[str]] = {side: [] for side in ids}
    for number in range(120):
        side = chance.choice(("left", "right"))
        if chance.random() < 0.5 and ids[side]:
            name = chance.choice(sorted(ids[side]))
            ids[side].remove(name)
            gone[side].append(name)
            rows.append(f"delete,{side},{name},")
        else:
            name = chance.choice([*gone[side][-3:], f"new{number}"])
            if name in ids[side]:
                continue
            ids[side].add(name)
            x, y = chance.randint(0, 300), chance.randint(0, 300)
            rows.append(f"insert,{side},{name},{quoted(layers.shape(x, y, x + 9, y + number % 3))}")
    return rows


WORDS = (
    ["join", "--relation", "intersects"],
    ["join", "--relation", "intersects", *ANY],
    ["near", "--distance", "5"],
    ["nearest", "--distance", "90", "--most", "2"],
    ["nearest", "--most", "2"],
)


@pytest.mark.parametrize("words", WORDS)
@pytest.mark.parametrize("seed", [1, 2])
def test_edits(tools: Tools, words: list[str], seed: int) -> None:
    left, right = layers.write_pair(tools.folder, "mixture", 300)
    ids = {side: set(ids_in(path)) for side, path in (("left", left), ("right", right))}
    edits = write_edits(tools.folder / "edits.csv", some_edits(seed, ids))
    command, *more = words
    tools.check_command([command, left, right, *more, "--edits", edits], *CUT)


def ids_in(layer: Path) -> list[str]:
    return [line.split(",", 1)[0] for line in layer.read_text().splitlines()[1:]]


@pytest.mark.parametrize("block", ["40", "33554432"])
def test_ids_that_need_quotes(tools: Tools, block: str) -> None:
    names = ['"a,b"', '"say ""hi"""', 'x"y', '"two\nlines"', "Straße", '" "', '""""","']
    rows = [(name, f"POINT ({number} 1)") for number, name in enumerate(names)]
    layer = write_layer(tools.folder / "layer.csv", rows)
    edits = [f"delete,left,{name}," for name in names[::2]]
    edits += [f'insert,left,{name},"POINT (1 1)"' for name in (names[4], names[0])]
    edits += [f"delete,right,{names[1]},\r", "", f"insert,right,{names[1]}, point(+4 01.)"]
    file = write_edits(tools.folder / "edits.csv", edits)
    file.write_bytes(b"\xef\xbb\xbf" + file.read_bytes())
    words = ["join", layer, layer, "--relation", "intersects", "--edits", file]
    tools.check_command(words, "--tiles", "3", "--block", block)


def test_a_small_right_layer_that_is_edited(tools: Tools) -> None:
    """It goes whole to each run."""
    left = write_layer(tools.folder / "left.csv", [*POINTS, *((f"m{n}", g) for n, g in POINTS)])
    right = write_layer(tools.folder / "right.csv", POINTS[::40])
    rows = ["delete,right,n40,", "insert,right,n7,POINT (7 0)", "delete,left,n0,",
            "delete,left,mn40,", "insert,left,n0,POINT (0 0)"]
    edits = write_edits(tools.folder / "edits.csv", rows)
    words = ["join", left, right, "--relation", "intersects", "--edits", edits]
    report = tools.check_command(words, "--block", "300")
    assert [line.split(",")[:2] for line in report.decode().splitlines()[1:]] == [
        ["n7", "n7"], ["mn0", "n0"], ["mn7", "n7"], ["n0", "n0"]
    ]


FAULTS = {
    "held": ["insert,left,n3,POINT (1 1)"],
    "held after all": ["delete,left,n3,", *["insert,left,n3,POINT (1 1)"] * 2],
    "not there": ["delete,right,m3,"],
    "not there any more": ["delete,right,n3,", "delete,right,n3,"],
    "later row that cannot be read": ["delete,right,m3,", "insert,left,n3,POINT (1"],
    "wrong word": ["delete,right,n3,", "change,right,n3,"],
    "no id": ["insert,left,,POINT (1 1)"],
    "of boxes": ['insert,left,new,"LINESTRING (0 0, 1 1)"'],
}


@pytest.mark.parametrize("name", FAULTS)
def test_faults_of_edits(tools: Tools, name: str, capfd: pytest.CaptureFixture[str]) -> None:
    layer = write_layer(tools.folder / "layer.csv", POINTS)
    edits = write_edits(tools.folder / "edits.csv", FAULTS[name])
    check_fault(tools, layer, layer, edits, capfd)


def check_fault(
    tools: Tools, left: Path, right: Path, edits: Path, capfd: pytest.CaptureFixture[str],
    *more: str
) -> None:
    words = ["join", left, right, "--relation", "intersects", "--edits", edits, *more]
    one = ended([tools.program, *words])
    assert one.status == 1
    capfd.readouterr()
    assert main(tools.words([*words, "--block", "400"])) == 1
    assert told(capfd.readouterr().err) == one.errors
    assert not tools.report().exists()


@pytest.mark.parametrize("text", [None, b"", b"op,layer,id\n", b"\xef\xbb\xbf"])
def test_files_that_are_no_edits(
    tools: Tools, text: bytes, capfd: pytest.CaptureFixture[str]
) -> None:
    layer, edits = write_layer(tools.folder / "layer.csv", POINTS), tools.folder / "edits.csv"
    if text is not None:
        edits.write_bytes(text)
    check_fault(tools, layer, layer, edits, capfd)
    check_fault(tools, layer, layer, tools.folder, capfd)


def test_faults_of_layers_come_before_those_of_edits(
    tools: Tools, capfd: pytest.CaptureFixture[str]
) -> None:
    good = write_layer(tools.folder / "good.csv", POINTS)
    twice = write_layer(tools.folder / "twice.csv", [*POINTS, POINTS[2]])
    edits = write_edits(tools.folder / "edits.csv", ["insert,left,n2,POINT (1"])
    for left, right in ((good, twice), (twice, good)):
        check_fault(tools, left, right, edits, capfd)


def test_rows_that_are_skipped_are_not_there(
    tools: Tools, capfd: pytest.CaptureFixture[str]
) -> None:
    layer = write_layer(tools.folder / "layer.csv", [*POINTS[:9], ("bad", "POINT (1"), *POINTS[9:]])
    skip = tools.folder / "skipped.csv"
    edits = write_edits(tools.folder / "edits.csv", ["delete,left,bad,"])
    check_fault(tools, layer, layer, edits, capfd, "--skip", str(skip))
    write_edits(edits, ["insert,left,bad,POINT (8 1)", "delete,right,n9,"])
    words = ["join", layer, layer, "--relation", "intersects", "--edits", edits, "--skip", skip]
    tools.check_command(words, *CUT)


def test_rows_with_improper_rings_are_those_of_the_files(
    tools: Tools, capfd: pytest.CaptureFixture[str]
) -> None:
    crossing = '"POLYGON ((0 0, 4 4, 4 0, 0 4, 0 0))"'
    layer = write_layer(tools.folder / "layer.csv", [*POINTS[:9], ("bow", crossing), *POINTS[9:]])
    edits = write_edits(
        tools.folder / "edits.csv", [f"insert,left,new,{crossing}", "delete,right,bow,"]
    )
    words = ["join", layer, layer, "--relation", "touches", "--edits", edits, *ANY,
             "--rings", "even-odd"]
    one = ended([tools.program, *words])
    capfd.readouterr()
    tools.check_command(words, *CUT)
    lines = told(capfd.readouterr().err).replace("rjoin-cluster:", "rjoin:")
    assert lines == one.errors != ""


def test_edits_of_standard_input(tools_here: Tools, monkeypatch: pytest.MonkeyPatch) -> None:
    layer = write_layer(tools_here.folder / "layer.csv", POINTS)
    edits = write_edits(tools_here.folder / "edits.csv", ["delete,left,n3,"])
    words = ["join", layer, layer, "--relation", "within", "--edits"]
    one = ended([tools_here.program, *words, edits])
    monkeypatch.setattr(sys, "stdin", SimpleNamespace(buffer=io.BytesIO(edits.read_bytes())))
    assert main(tools_here.words([*words, "-"])) == 0
    assert tools_here.report().read_bytes() == one.output


def test_a_run_of_the_command_that_fails(
    tools_here: Tools, capfd: pytest.CaptureFixture[str]
) -> None:
    """Edits are judged by the command itself, and no worker tries it again."""
    layer = write_layer(tools_here.folder / "layer.csv", POINTS)
    edits = write_edits(tools_here.folder / "edits.csv", ["delete,left,n3,"])
    program = tools_here.folder / "rjoin"
    lines = [
        'case "$*" in *--edits=*) echo rjoin: no memory >&2; exit 1;; esac',
        f'exec {tools_here.program} "$@"',
    ]
    program.write_text("\n".join(["#!/bin/sh", *lines, ""]))
    program.chmod(0o755)
    words = ["join", layer, layer, "--relation", "within", "--edits", edits]
    capfd.readouterr()
    assert main(tools_here.words([*words, "--program", program])) == 1
    line = "rjoin-cluster: rjoin join: status 1: rjoin: no memory\n"
    assert told(capfd.readouterr().err) == line
