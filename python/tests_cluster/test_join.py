"""Joins on a cluster have the bytes of one run of the proved program."""
from __future__ import annotations

import csv
import json
import random
from pathlib import Path

import layers
import pytest
from conftest import Tools, ended, quoted, told, write_layer

RELATIONS = ("intersects", "touches", "crosses", "within", "contains", "overlaps", "equals",
             "covers", "covered_by", "contains_properly")
MASKS = ("T********", "FT*******", "****1****", "T*F**F***", "2FFF1FFF2")


def clusters(size: int, seed: int) -> list[tuple[str, str]]:
    """Rectangles of which most lie in a few small places, below 0 too."""
    chance = random.Random(seed)
    centres = [(chance.randint(-5000, 5000), chance.randint(-5000, 5000)) for _ in range(4)]
    rows = []
    for number in range(size):
        x, y = (round(chance.gauss(centre, 15)) for centre in chance.choice(centres))
        width, height = chance.randint(0, 9), chance.randint(0, 9)
        rows.append((f"c{seed}-{number}", quoted(layers.shape(x, y, x + width, y + height))))
    return rows


@pytest.mark.parametrize("kind", ["points", "rectangles", "mixture", "cadastre", "chip"])
def test_kinds(tools: Tools, kind: str) -> None:
    left, right = layers.write_pair(tools.folder, kind, 1500)
    tools.check_same(
        left, right, layers.KINDS[kind].relation, "0", "--tiles", "9", "--block", "9999"
    )


@pytest.mark.parametrize("relation", [*RELATIONS, *MASKS])
def test_relations_and_masks(tools: Tools, relation: str) -> None:
    left, right = layers.write_pair(tools.folder, "mixture", 400)
    tools.check_same(left, right, relation, "0", "--tiles", "5", "--block", "5000")


@pytest.mark.parametrize("tiles", ["1", "2", "16", "64"])
def test_numbers_of_tiles(tools: Tools, tiles: str) -> None:
    left = write_layer(tools.folder / "left.csv", clusters(600, 1))
    right = write_layer(tools.folder / "right.csv", clusters(600, 1))
    tools.check_same(left, right, "overlaps", "0", "--tiles", tiles)


def test_decimals(tools: Tools) -> None:
    chance = random.Random(2)
    rows = []
    for number in range(500):
        x, y = chance.randint(-900, 900), chance.randint(-900, 900)
        ends = [f"{end / 100:.2f}" for end in (x, y, x + chance.randint(0, 60), y + 30)]
        rows.append((f"d{number}", quoted(layers.shape(*ends))))
    left = write_layer(tools.folder / "left.csv", rows)
    right = write_layer(tools.folder / "right.csv", rows[::-1])
    tools.check_same(left, right, "intersects", "2", "--tiles", "7", "--block", "4000")


def test_greatest_numbers(tools: Tools) -> None:
    far = 10**12
    rows = [
        ("whole", quoted(layers.rectangle(-far, -far, far, far))),
        ("corner", f"POINT ({far} {far})"),
        ("side", quoted(layers.segment(-far, far, far, far))),
        ("middle", "POINT (0 0)"),
    ]
    left = write_layer(tools.folder / "left.csv", rows)
    tools.check_same(left, left, "intersects", "0", "--tiles", "4")


def test_one_feature_over_all(tools: Tools) -> None:
    rows = [(f"p{x}-{y}", f"POINT ({x} {y})") for x in range(30) for y in range(30)]
    left = write_layer(tools.folder / "left.csv", rows)
    over = [("over", quoted(layers.rectangle(-9, -9, 99, 99))), ("beside", "POINT (500 500)")]
    right = write_layer(tools.folder / "right.csv", over)
    tools.check_same(left, right, "within", "0", "--tiles", "12", "--block", "2000")
    tools.check_same(right, left, "contains", "0", "--tiles", "12", "--block", "2000")


def test_features_on_edges_of_tiles(tools: Tools) -> None:
    """A grid whose lines are the only places for a cut: each cut lies on sides of features."""
    cells = [
        layers.rectangle(x, y, x + 10, y + 10) for x in range(0, 80, 10) for y in range(0, 80, 10)
    ]
    sides = [layers.segment(x, y, x, y + 10) for x in range(0, 90, 10) for y in range(0, 80, 10)]
    nodes = [layers.point(x, y) for x in range(0, 90, 10) for y in range(0, 90, 10)]
    geometries = [quoted(text) for text in (*cells, *sides, *nodes)]
    left = write_layer(
        tools.folder / "l.csv", [(f"l{n}", text) for n, text in enumerate(geometries)]
    )
    right = write_layer(
        tools.folder / "r.csv", [(f"r{n}", text) for n, text in enumerate(geometries)]
    )
    tools.check_same(left, right, "touches", "0", "--tiles", "16")


@pytest.mark.parametrize("block", ["500", "1000000"])
def test_features_that_no_tile_separates(
    tools: Tools, block: str, monkeypatch: pytest.MonkeyPatch, capsys: pytest.CaptureFixture[str]
) -> None:
    """All features cover all, and are more than a run takes: each part is joined with each, also
    where it lies in several groups of blocks.
    """
    from rjoin_cluster.box_layers import Numerals

    monkeypatch.setattr(Numerals, "most_features", property(lambda _: 40))
    rows = [(f"a{number}", quoted(layers.rectangle(0, 0, 9, 9))) for number in range(100)]
    left = write_layer(tools.folder / "left.csv", rows)
    tools.check_same(left, left, "equals", "0", "--tiles", "4", "--block", block, "--json")
    figures = json.loads(capsys.readouterr().out)
    assert (figures["tiles"], figures["runs"], figures["pairs"]) == (1, 9, 10_000)


WHOLE = (
    ["join", "--relation", "intersects"],
    ["join", "--relation", "within", "--pairs"],
    ["join", "--relation", "intersects", "--geometry", "any"],
    ["near", "--distance", "40"],
    ["nearest", "--distance", "900", "--most", "3"],
)


@pytest.mark.parametrize("words", WHOLE)
@pytest.mark.parametrize("skips", [False, True])
def test_a_small_right_layer_goes_whole_to_each_run(
    tools: Tools, words: list[str], skips: bool, capsys: pytest.CaptureFixture[str]
) -> None:
    """Without tiles; with them, and where the left layer is the small one, the bytes are those."""
    rows = clusters(1500, 3)
    some = [(f"s{number}", shape) for number, (_, shape) in enumerate(rows[::170])]
    if skips:
        rows[700:700] = [("bad", "POINT (1")]
    left = write_layer(tools.folder / "left.csv", rows)
    right = write_layer(tools.folder / "right.csv", some)
    command, *more = words
    if skips:
        more += ["--skip", str(tools.folder / "skipped")]
    cases: list[tuple[Path, Path, list[str], int]] = [
        (left, right, [], 0), (left, right, ["--tiles", "4"], 4), (right, left, [], 1)
    ]
    for one, other, cut, tiles in cases:
        asked = [command, one, other, *more]
        output = tools.check_command(asked, "--block", "9999", *cut, "--json")
        figures = json.loads(capsys.readouterr().out)
        assert figures["tiles"] == tiles and output.count(b"\n") > 1
        assert tiles or figures["runs"] == figures["left"]["blocks"] > 4


@pytest.mark.parametrize("sides", [(0, 0), (0, 3), (3, 0)])
def test_empty_layers(tools: Tools, sides: tuple[int, int]) -> None:
    rows = [("a", "POINT (1 1)"), ("b", "POINT (2 2)"), ("c", "POINT (3 3)")]
    left = write_layer(tools.folder / "left.csv", rows[: sides[0]])
    right = write_layer(tools.folder / "right.csv", rows[: sides[1]])
    tools.check_same(left, right, "intersects", "0", "--tiles", "3")


IDS = (
    '"a,b"',
    '"say ""hi"""',
    "x",
    '"two\nlines"',
    'x"y',
    "Straße",
    '"\r\n"',
    '" "',
    "0",
    '""""","',
    "z" * 64,
)


@pytest.mark.parametrize("block", ["1", "7", "64", "33554432"])
def test_ids_that_need_quotes_and_blocks_that_begin_in_them(tools: Tools, block: str) -> None:
    rows = [(name, f" point({number}. +0{number % 3})") for number, name in enumerate(IDS)]
    left = write_layer(tools.folder / "left.csv", rows)
    right = write_layer(tools.folder / "right.csv", rows[::-1])
    tools.check_same(left, right, "intersects", "0", "--tiles", "3", "--block", block)


@pytest.mark.parametrize("more", [[], ["--geometry", "any"]])
@pytest.mark.parametrize("block", ["64", "33554432"])
def test_pairs_alone(tools: Tools, block: str, more: list[str]) -> None:
    """The bytes of one run, which are the ids of the report with matrices."""
    rows = [(name, f"POINT ({number // 2} {number % 3})") for number, name in enumerate(IDS)]
    left = write_layer(tools.folder / "left.csv", rows)
    right = write_layer(tools.folder / "right.csv", [*rows[::-1], ("over", "POINT (0 0)")])
    words = ["join", left, right, "--relation", "equals", *more]
    alone, whole = (
        list(csv.reader(output.decode().splitlines(keepends=True)))
        for output in (
            tools.check_command([*words, "--pairs"], "--tiles", "3", "--block", block),
            tools.check_command(words, "--tiles", "3", "--block", block),
        )
    )
    assert alone == [row[:2] for row in whole] and len(alone) > len(IDS)


@pytest.mark.parametrize(
    "text",
    [
        b"\xef\xbb\xbfid,wkt\r\na,POINT (1 1)\r\n\r\n\r\nb,POINT (1 1)\r\n",
        b"\n\n\xef\xbb\xbf\nid,wkt\na,POINT (1 1)",
        b"\r\n" * 9 + b"id,wkt\r\na,POINT (1 1)\r\nb,POINT (1 1)\r\n",
        b'\r\nID,"WKT"\ra,POINT (1 1)\rb,POINT (2 2)\r',
        b"\xef\xbb\xbf\n\nid,wkt\n\xef\xbb\xbfa,POINT (1 1)\n\xef\xbb\xbf,POINT (1 1)",
        b"id,wkt\nnul\x00,POINT (1 1)\n\x00,POINT (1 1)\n",
        b"",
        b"\n\n",
        b"\xef\xbb\xbf",
    ],
)
@pytest.mark.parametrize("block", ["5", "33554432"])
def test_ends_of_lines_and_marks(
    tools: Tools, text: bytes, block: str, capfd: pytest.CaptureFixture[str]
) -> None:
    from rjoin_cluster.command import main

    left = tools.folder / "left.csv"
    left.write_bytes(text)
    one = tools.one_run(left, left, "intersects")
    capfd.readouterr()
    assert main(tools.command(left, left, "intersects", "--block", block)) == one.status
    assert told(capfd.readouterr().err) == one.errors
    if one.status == 0:
        assert tools.report().read_bytes() == one.output
    else:
        assert not tools.report().exists()


def test_a_run_has_one_thread(tools_here: Tools) -> None:
    """As many runs go on beside each other as there are workers."""
    log, program = tools_here.folder / "words", tools_here.folder / "rjoin"
    program.write_text(f'#!/bin/sh\necho "$@" >>{log}\nexec {tools_here.program} "$@"\n')
    program.chmod(0o755)
    left, right = layers.write_pair(tools_here.folder, "close", 90)
    for words in (["join", left, right, "--relation", "within"],
                  ["nearest", left, right, "--distance", "60", "--most", "4"]):
        log.unlink(missing_ok=True)
        tools_here.check_command(words, "--tiles", "9", "--program", str(program))
        lines = [line.split() for line in log.read_text().splitlines()]
        runs = [line for line in lines if line[0] == words[0] and "--scale=0" in line]
        assert len(runs) > 4 and sum("--workers=1" in run for run in runs) == len(runs) - 1


def test_workers_of_this_machine(tools: Tools) -> None:
    """Without a scheduler, and by the name of the package."""
    import sys

    left, right = layers.write_pair(tools.folder, "cadastre", 900)
    words = ["join", left, right, "--relation", "touches", "--out", tools.report(), "--json"]
    more = ["--workers", "2", "--program", tools.program, "--tiles", "6", "--block", "20000"]
    done = ended([sys.executable, "-m", "rjoin_cluster", *words, *more])
    assert (done.status, done.errors) == (0, "")
    assert tools.report().read_bytes() == tools.one_run(left, right, "touches").output
    figures = json.loads(done.output)
    assert figures["pairs"] == layers.expected("cadastre", "touches", 900)
    assert figures["left"]["features"] == 900 and figures["workers"] == 2
    assert {path.name for path in tools.folder.iterdir()} == {left.name, right.name, "report.csv"}


def test_a_machine_without_a_network(tools: Tools) -> None:
    apart = ["unshare", "--net"]
    try:
        if ended([*apart, "true"]).status != 0:
            pytest.skip("one has to be root to leave the network")
    except FileNotFoundError:
        pytest.skip("unshare is not installed")
    left, right = layers.write_pair(tools.folder, "cadastre", 100)
    done = ended([*apart, *tools.local_command(left, right, "touches")])
    assert (done.status, done.errors) == (0, "")
    assert tools.report().read_bytes() == tools.one_run(left, right, "touches").output
