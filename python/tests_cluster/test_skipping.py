"""Rows whose geometry can't be read, where these are left out."""
from __future__ import annotations

import random
from typing import Any, Sequence

import pytest
from conftest import Tools, ended, quoted, told, write_layer

BAD = (
    "POINT (1",
    "POINT (0.5 1)",
    quoted("POLYGON ((0 0, 4 0, 8 0, 0 0))"),
    quoted("POLYGON ((0 0, 4 4, 4 0, 0 4, 0 0))"),
    "",
)


def rows_of(seed: int, bad_rows: Sequence[int]) -> list[tuple[str, str]]:
    chance = random.Random(seed)
    rows = [(f"s{number}", f"POINT ({number % 40} {number % 7})") for number in range(90)]
    for row in bad_rows:
        rows[row - 1] = (rows[row - 1][0], chance.choice(BAD))
    return rows


def check_same(
    tools: Tools, capfd: pytest.CaptureFixture[str], words: Sequence[Any], *more: str
) -> list[str]:
    """Report, list and last line of the cluster are those of one run; answers the list."""
    from rjoin_cluster.command import main

    skipped = tools.folder / "skipped.csv"
    one = ended([tools.program, *words, f"--skip={skipped}"])
    assert one.status == 0, one.errors
    capfd.readouterr()
    expected = skipped.read_bytes()
    skipped.unlink()
    assert main(tools.words([*words, f"--skip={skipped}", *more])) == 0
    assert one.errors.replace("rjoin:", "rjoin-cluster:") in capfd.readouterr().err
    assert tools.report().read_bytes() == one.output
    assert skipped.read_bytes() == expected
    return expected.decode().splitlines()


@pytest.mark.parametrize("block", ["60", "333", "1000000"])
@pytest.mark.parametrize("words", [["--geometry=any"], ["--scale=0"]])
def test_rows_of_both_layers(
    tools: Tools, capfd: pytest.CaptureFixture[str], block: str, words: list[str]
) -> None:
    """The first and the last ones of files and of blocks too."""
    chance = random.Random(3)
    bad = [1, 2, 30, 31, *chance.sample(range(40, 90), 4), 90]
    left = write_layer(tools.folder / "left.csv", rows_of(1, bad))
    right = write_layer(tools.folder / "right.csv", rows_of(2, [7, 8]))
    join = ["join", left, right, "--relation", "equals", *words]
    listed = check_same(tools, capfd, join, "--block", block, "--tiles", "7")
    assert len(listed) == 1 + len(bad) + 2
    assert [line.split(",")[1] for line in listed[1:3]] == ["1", "2"]


def test_improper_rings_among_rows_that_are_left_out(
    tools: Tools, capfd: pytest.CaptureFixture[str]
) -> None:
    """The rows of both are those of the file."""
    crossing = quoted("POLYGON ((0 0, 4 4, 4 0, 0 4, 0 0))")
    rows = rows_of(1, [])
    for row in (2, 3, 30, 60):
        rows[row - 1] = (rows[row - 1][0], "POINT (1")
    for row in (1, 4, 31, 61, 62, 90):
        rows[row - 1] = (rows[row - 1][0], crossing)
    left = write_layer(tools.folder / "left.csv", rows)
    join = ["join", left, left, "--relation", "intersects", "--geometry=any", "--rings=even-odd"]
    check_same(tools, capfd, join, "--block", "333", "--tiles", "7")


def test_nothing_to_leave_out(tools: Tools, capfd: pytest.CaptureFixture[str]) -> None:
    left = write_layer(tools.folder / "left.csv", rows_of(1, []))
    listed = check_same(tools, capfd, ["near", left, left, "--distance", "1"], "--block", "999")
    assert len(listed) == 1


@pytest.mark.parametrize("words", [["--most=2"], ["--geometry=any"]])
def test_nearest_of_the_rows_that_stay(
    tools: Tools, capfd: pytest.CaptureFixture[str], words: list[str]
) -> None:
    left = write_layer(tools.folder / "left.csv", rows_of(1, [3, 30]))
    right = write_layer(tools.folder / "right.csv", rows_of(2, [1, 31, 90]))
    asked = ["nearest", left, right, "--distance", "2", *words]
    listed = check_same(tools, capfd, asked, "--block", "333", "--tiles", "7")
    assert [line.split(",")[:2] for line in listed[1:]] == [
        ["left", "3"], ["left", "30"], ["right", "1"], ["right", "31"], ["right", "90"]
    ]


@pytest.mark.parametrize("fault", ["double", "fields", "id"])
def test_rows_that_are_not_left_out(
    tools: Tools, fault: str, capfd: pytest.CaptureFixture[str]
) -> None:
    """Behind rows that are; the numbers of rows count these."""
    from rjoin_cluster.command import main

    rows = rows_of(1, [3, 5, 40, 50, 51, 58, 59, 61, 70])
    rows[59] = {"double": rows[18], "fields": ("a", "b,c"), "id": ("", "POINT (1 1)")}[fault]
    bad = write_layer(tools.folder / "bad.csv", rows)
    good = write_layer(tools.folder / "good.csv", rows_of(2, []))
    skipped = tools.folder / "skipped.csv"
    for left, right in ((bad, good), (good, bad)):
        words = ["join", left, right, "--relation", "equals", f"--skip={skipped}"]
        one = ended([tools.program, *words])
        assert (one.status, "row 60: " in one.errors) == (1, True)
        capfd.readouterr()
        assert main(tools.words([*words, "--block", "700"])) == 1
        assert told(capfd.readouterr().err) == one.errors
        assert not skipped.exists() and not tools.report().exists()


def test_a_list_in_the_place_of_another_file(
    tools: Tools, capfd: pytest.CaptureFixture[str]
) -> None:
    from rjoin_cluster.command import main

    left = write_layer(tools.folder / "left.csv", rows_of(1, []))
    words = ["join", left, left, "--relation", "equals"]
    for path, line in ((left, "is the left layer"), (tools.report(), "is the report")):
        capfd.readouterr()
        assert main(tools.words([*words, f"--skip={path}"])) == 1
        assert told(capfd.readouterr().err) == f"rjoin-cluster: {path}: {line}\n"
