"""Joins of any geometry and by distance, whose features travel as the files have them."""
from __future__ import annotations

import json
import random
from pathlib import Path
from typing import Any, Sequence

import layers
import numpy as np
import pytest
from conftest import Tools, ended, quoted, told, write_layer
from test_join import IDS

from rjoin_cluster import plan
from rjoin_cluster.pieces import Range
from rjoin_cluster.records import second_fields

ANY = ("--geometry", "any")
CUT = ("--tiles", "9", "--block", "9999")


def near(left: Path, right: Path, distance: str, *more: str) -> list[Any]:
    return ["near", left, right, "--distance", distance, *more]


def joined(left: Path, right: Path, relation: str, *more: str) -> list[Any]:
    return ["join", left, right, "--relation", relation, *more]


def needs_near_any(tools: Tools) -> None:
    if b"--geometry" not in ended([tools.program, "near", "--help"]).output:
        pytest.skip("the program has no --geometry for near")


@pytest.mark.parametrize("kind", ["parcels", "neighbours", "roads", "zones", "giants"])
def test_kinds_of_any_geometry(tools: Tools, kind: str) -> None:
    left, right = layers.write_pair(tools.folder, kind, 400)
    tools.check_command(joined(left, right, layers.KINDS[kind].relation, *ANY), *CUT)


@pytest.mark.parametrize("tiles", ["1", "2", "40"])
def test_numbers_of_tiles(tools: Tools, tiles: str) -> None:
    left, right = layers.write_pair(tools.folder, "parcels", 300)
    tools.check_command(joined(left, right, "overlaps", *ANY), "--tiles", tiles)


@pytest.mark.parametrize("words", [["5"], ["0"], ["22", "--apart"], ["1", "--apart"], ["3000"]])
def test_boxes_within_a_distance(tools: Tools, words: Sequence[str]) -> None:
    left, right = layers.write_pair(tools.folder, "close", 700)
    tools.check_command(near(left, right, *words), *CUT)


def test_any_geometry_within_a_distance(tools: Tools) -> None:
    needs_near_any(tools)
    left, right = layers.write_pair(tools.folder, "roads", 300)
    tools.check_command(near(left, right, "12000", *ANY), *CUT)
    tools.check_command(near(left, right, "12000", "--apart", *ANY), *CUT)


def decimal_rows(seed: int) -> list[tuple[str, str]]:
    """Boxes with three decimals, below 0 too, which rounding doesn't flatten."""
    chance = random.Random(seed)
    rows = []
    for number in range(400):
        x, y = chance.randint(-40_000, 40_000), chance.randint(-40_000, 40_000)
        ends = [f"{end / 1000:.3f}" for end in (x, y, x + chance.randint(1001, 4000), y + 1500)]
        rows.append((f"d{number}", quoted(layers.shape(*ends))))
    return rows


@pytest.mark.parametrize("reading", [["--scale", "3"], ["--scale", "1", "--round"], ["--round"]])
@pytest.mark.parametrize("distance", ["0.5", "1.25e-1", "2."])
def test_decimals_and_rounding(tools: Tools, reading: Sequence[str], distance: str) -> None:
    """A distance too is read at the scale, and an exponent where numbers are rounded."""
    left = write_layer(tools.folder / "left.csv", decimal_rows(1))
    right = write_layer(tools.folder / "right.csv", decimal_rows(2))
    tools.check_command(joined(left, right, "intersects", *reading), *CUT)
    tools.check_command(joined(left, right, "intersects", *ANY, *reading), *CUT)
    if "--round" in reading or distance == "0.5":
        tools.check_command(near(left, right, distance, *reading), *CUT)


def test_pairs_that_are_as_far_apart_as_can_be(tools: Tools) -> None:
    """A grid of points whose distances are all but those of neighbours too great; a cut lies on or
    between points.
    """
    rows = [(f"p{x}-{y}", f"POINT ({3 * x} {3 * y})") for x in range(20) for y in range(20)]
    left = write_layer(tools.folder / "left.csv", rows)
    for distance, pairs in (("2", 400), ("3", 400 + 4 * 20 * 19)):
        output = tools.check_command(near(left, left, distance), "--tiles", "30")
        assert output.count(b"\n") == 1 + pairs


def test_the_greatest_distance(tools: Tools) -> None:
    """Boxes that are grown beyond the range of coordinates, in the corners of the plane."""
    far = 10**12
    corners = [(x, y) for x in (-far, 0, far) for y in (-far, 0, far)]
    rows = [(f"c{number}", f"POINT ({x} {y})") for number, (x, y) in enumerate(corners)]
    left = write_layer(tools.folder / "left.csv", rows)
    tools.check_command(near(left, left, str(far)), "--tiles", "4")
    tools.check_command(near(left, left, "1000000.", "--scale", "0"), "--tiles", "4")


@pytest.mark.parametrize("block", ["700", "1000000"])
def test_rings_that_cross(
    tools: Tools, block: str, capfd: pytest.CaptureFixture[str]
) -> None:
    """The lines on them are those of one run: of many on the left side, and of one on the right."""
    rows = []
    for number in range(120):
        x, y = 3 * (number % 11), 3 * (number // 11)
        ring = f"{x} {y}, {x + 5} {y + 5}, {x + 5} {y}, {x} {y + 5}, {x} {y}"
        box = layers.rectangle(x, y, x + 4, y + 4)
        rows.append((f"r{number}", quoted(box if number % 20 else f"POLYGON (({ring}))")))
    left = write_layer(tools.folder / "left.csv", rows)
    right = write_layer(tools.folder / "right.csv", rows[99:110])
    words = joined(left, right, "overlaps", *ANY, "--rings", "even-odd")
    one = ended([tools.program, *words])
    assert "6 features with improper rings: rows 1, 21, 41, 61, 81\n" in one.errors
    assert "1 feature with improper rings: row 2\n" in one.errors
    capfd.readouterr()
    tools.check_command(words, "--tiles", "9", "--block", block)
    assert told(capfd.readouterr().err) == one.errors.replace("rjoin:", "rjoin-cluster:")


@pytest.mark.parametrize("block", ["9", "64", "33554432"])
@pytest.mark.parametrize("end", ["\n", "\r\n", "\r", "\n\r\n\n"])
def test_ids_that_need_quotes_and_ends_of_lines(tools: Tools, block: str, end: str) -> None:
    """The last row has no end, and each other one this end."""
    geometries = (f" point({number}. +0{number % 3})" for number in range(len(IDS)))
    rows = [f"{name},{wkt}" for name, wkt in zip(IDS, geometries)]
    rows += [f'q{number},"MULTIPOINT ({number} 0,\n {number} 2)"' for number in range(9)]
    left, right = tools.folder / "left.csv", tools.folder / "right.csv"
    for path, some in ((left, rows), (right, rows[::-1])):
        path.write_bytes(end.join(["id,wkt", *some]).encode())
    tools.check_command(joined(left, right, "intersects", *ANY), "--tiles", "3", "--block", block)


@pytest.mark.parametrize("block", ["300", "1000000"])
def test_tiles_of_more_bytes_than_a_run_takes(
    tools: Tools, block: str, monkeypatch: pytest.MonkeyPatch, capsys: pytest.CaptureFixture[str]
) -> None:
    """No tile separates the features, and each part is joined with each."""
    from rjoin_cluster import joining

    monkeypatch.setattr(plan, "MOST_RECORDS_BYTES", 400)
    monkeypatch.setattr(joining, "MOST_RECORDS_BYTES", 400)
    ring = "0 0, 9 0, 8 9, 0 0"
    rows = [(f"a{number}", quoted(f"POLYGON (({ring}))")) for number in range(30)]
    left = write_layer(tools.folder / "left.csv", rows)
    capsys.readouterr()
    words = joined(left, left, "equals", *ANY)
    tools.check_command(words, "--tiles", "4", "--block", block, "--json")
    figures = json.loads(capsys.readouterr().out)
    records = 400 // len(f'0000000,"POLYGON (({ring}))"\n')
    parts = -(-30 // records)
    assert (figures["tiles"], figures["runs"], figures["pairs"]) == (1, parts * parts, 900)


def test_a_geometry_that_fits_in_no_run(
    tools_here: Tools, monkeypatch: pytest.MonkeyPatch, capfd: pytest.CaptureFixture[str]
) -> None:
    """Of the first row of this kind, in the second block."""
    from rjoin_cluster import blocks
    from rjoin_cluster.command import main

    monkeypatch.setattr(blocks, "MOST_GEOMETRY", 20)
    rows = [(f"n{number}", "POINT (" + " " * number + "1 1)") for number in range(30)]
    left = write_layer(tools_here.folder / "left.csv", rows)
    words = joined(left, left, "intersects", *ANY, "--block", "150")
    assert main(tools_here.words(words)) == 1
    line = "rjoin-cluster: left: row 11: a geometry of more than 20 bytes\n"
    assert told(capfd.readouterr().err) == line


def test_parts_of_records(monkeypatch: pytest.MonkeyPatch) -> None:
    """Each has as many records as a run takes, and at least one."""
    monkeypatch.setattr(plan, "MOST_RECORDS_BYTES", 10)
    monkeypatch.setattr(plan, "MOST_FEATURES", 3)
    lengths = np.array([10, 1, 11, 5, 5, 1, 1, 1, 1, 9, 2])
    expected = [(0, 1), (1, 2), (2, 3), (3, 5), (5, 8), (8, 10), (10, 11)]
    assert list(plan.ranges_of_records(lengths)) == [Range(*ends) for ends in expected]
    assert list(plan.ranges_of_records(lengths[:0])) == []


@pytest.mark.parametrize("end", ["\n", "\r\n", "\r", "\n\n", "\r\n\r\n"])
@pytest.mark.parametrize("last", [True, False])
def test_where_second_fields_lie(end: str, last: bool) -> None:
    rows = [("a", "b"), ('"a,\n"', '"c,""d"'), ("", ""), ('"x""', 'e"f'), ("g", '"\r\n"')]
    rows = [rows[0], rows[1], rows[2], rows[4], ('h"', 'e"f')]
    text = end.join(f"{first},{second}" for first, second in rows) + (end if last else "")
    part = np.frombuffer(text.encode(), dtype=np.uint8)
    fields = [text[begin:behind] for begin, behind in second_fields(part).tolist()]
    assert fields == [second for _, second in rows]


OLD_PROGRAM = """#!/bin/sh
case "$*" in
    "near --help") echo "--distance D" ;;
    *) exit 2 ;;
esac
"""


def test_what_the_program_lacks(tools: Tools, capfd: pytest.CaptureFixture[str]) -> None:
    from rjoin_cluster.command import main

    old = tools.folder / "rjoin"
    old.write_text(OLD_PROGRAM)
    old.chmod(0o755)
    left = write_layer(tools.folder / "left.csv", [("a", "POINT (1 1)")])
    for words, lack in (
        (near(left, left, "1", *ANY), "no --geometry for near"),
        (joined(left, left, "within"), "no command join"),
    ):
        capfd.readouterr()
        assert main([*tools.words(words), "--program", str(old)]) == 1
        assert told(capfd.readouterr().err) == f"rjoin-cluster: {old}: this version has {lack}\n"
    assert not tools.report().exists()


@pytest.mark.parametrize(
    "words",
    [
        ["--distance=-1"],
        ["--distance=0.5"],
        ["--distance=far"],
        ["--distance=1e1"],
        ["--distance=1,2"],
        ["--distance=1", "--scale=7"],
    ],
)
def test_words_of_a_distance_are_judged_by_the_program(
    tools: Tools, words: Sequence[str], capfd: pytest.CaptureFixture[str]
) -> None:
    from rjoin_cluster.command import main

    left = write_layer(tools.folder / "left.csv", [("a", "POINT (1 1)")])
    one = ended([tools.program, "near", left, left, *words])
    assert one.status == 2
    capfd.readouterr()
    assert main(tools.words(["near", left, left, *words])) == 2
    assert told(capfd.readouterr().err) == one.errors


BAD_ROWS = {
    "geometry": '"LINESTRING (0 0, 1"',
    "flat": '"POLYGON ((0 0, 4 0, 8 0, 0 0))"',
    "rings": '"POLYGON ((0 0, 4 4, 4 0, 0 4, 0 0))"',
    "number": "POINT (0.5 0)",
    "fields": "POINT (1 1),more",
}


@pytest.mark.parametrize("name", BAD_ROWS)
def test_a_bad_row_of_any_geometry(
    tools: Tools, name: str, capfd: pytest.CaptureFixture[str]
) -> None:
    from rjoin_cluster.command import main

    good = [(f"n{number}", f"POINT ({number} {number})") for number in range(60)]
    rows = [*good[:41], ("bad", BAD_ROWS[name]), *good[41:], ("n3", "POINT (1 1)")]
    left = write_layer(tools.folder / "good.csv", good)
    right = write_layer(tools.folder / "bad.csv", rows)
    words = joined(left, right, "intersects", *ANY)
    one = ended([tools.program, *words])
    assert one.errors.startswith("rjoin: right: row 42: ")
    capfd.readouterr()
    assert main(tools.words([*words, "--block", "400"])) == 1
    assert told(capfd.readouterr().err) == one.errors
