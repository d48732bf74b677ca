"""Faults of the input are told as one run tells them, and then there is no report."""
from __future__ import annotations

import os
from pathlib import Path

import numpy as np
import pytest
from conftest import Tools, told, write_layer

from rjoin_cluster import joining, steps

GOOD = [(f"n{number}", f"POINT ({number} {number})") for number in range(60)]


def check_fault(
    tools: Tools, left: Path, right: Path, capfd: pytest.CaptureFixture[str], *more: str
) -> None:
    from rjoin_cluster.command import main

    relation, *others = more or ("intersects",)
    one = tools.one_run(left, right, relation, *others)
    assert one.status != 0
    capfd.readouterr()
    assert main(tools.command(left, right, relation, "--block", "400", *others)) == one.status
    assert told(capfd.readouterr().err) == one.errors
    assert list(tools.folder.glob("*report*")) + list(tools.folder.glob("*rjoin-cluster*")) == []


BAD_ROWS = {
    "geometry": ("bad", "POINT (1"),
    "number": ("bad", "POINT (0.5 0)"),
    "form": ("bad", '"LINESTRING (0 0, 1 1)"'),
    "fields": ("bad", "POINT (1 1),more"),
    "few": ("bad\nworse", "POINT (1 1)"),
    "no id": ("", "POINT (1 1)"),
    "long id": ("i" * 65, "POINT (1 1)"),
    "double id": ("n3", "POINT (1 1)"),
    "open quote": ("bad", '"POINT (1 1)'),
}


@pytest.mark.parametrize("name", BAD_ROWS)
def test_a_bad_row(tools: Tools, name: str, capfd: pytest.CaptureFixture[str]) -> None:
    bad = write_layer(tools.folder / "bad.csv", [*GOOD[:41], BAD_ROWS[name], *GOOD[41:]])
    check_fault(tools, bad, bad, capfd)


def test_a_bad_row_of_the_right_side(tools: Tools, capfd: pytest.CaptureFixture[str]) -> None:
    good = write_layer(tools.folder / "good.csv", GOOD)
    for place in (0, 60):
        rows = [*GOOD[:place], BAD_ROWS["number"], *GOOD[place:]]
        check_fault(tools, good, write_layer(tools.folder / "bad.csv", rows), capfd)


def test_the_first_fault_is_told(tools: Tools, capfd: pytest.CaptureFixture[str]) -> None:
    """An id of the first block stands again in the fourth one, before a row that can't be read."""
    rows = [*GOOD[:50], ("n2", "POINT (1 1)"), BAD_ROWS["form"], *GOOD[50:], BAD_ROWS["number"]]
    bad = write_layer(tools.folder / "bad.csv", rows)
    later = write_layer(tools.folder / "later.csv", [rows[51], *rows])
    for left, right in ((bad, later), (later, bad)):
        check_fault(tools, left, right, capfd)


@pytest.mark.parametrize("most", [1, 7])
def test_a_double_id_among_many_ranges_of_hashes(
    tools: Tools, most: int, capfd: pytest.CaptureFixture[str], monkeypatch: pytest.MonkeyPatch
) -> None:
    monkeypatch.setattr(joining, "HASHES_PER_TASK", most)
    doubles = [(f"n{number}", "POINT (1 1)") for number in (31, 7, 12)]
    check_fault(
        tools,
        write_layer(tools.folder / "good.csv", GOOD),
        write_layer(tools.folder / "bad.csv", [*GOOD[:45], *doubles, *GOOD[45:]]),
        capfd,
    )


@pytest.mark.parametrize("doubles", [[], [31, 7, 12]])
def test_ids_of_one_hash(
    tools_here: Tools, doubles: list[int], capfd: pytest.CaptureFixture[str],
    monkeypatch: pytest.MonkeyPatch,
) -> None:
    """They are compared themselves."""
    from rjoin_cluster import blocks
    from rjoin_cluster.command import main

    monkeypatch.setattr(blocks, "hashes_of", lambda ids: np.full(len(ids), 7, dtype=np.uint64))
    rows = [*GOOD[:45], *((f"n{number}", "POINT (1 1)") for number in doubles), *GOOD[45:]]
    layer = write_layer(tools_here.folder / "layer.csv", rows)
    one = tools_here.one_run(layer, layer, "within")
    words = ["join", layer, layer, "--relation", "within", "--block", "400"]
    assert (main(tools_here.words(words)), told(capfd.readouterr().err)) == (one.status, one.errors)


def test_an_id_that_is_not_utf8(tools: Tools, capfd: pytest.CaptureFixture[str]) -> None:
    bad = tools.folder / "bad.csv"
    bad.write_bytes(write_layer(bad, GOOD).read_bytes() + b"\xff\xfe,POINT (1 1)\n")
    check_fault(tools, bad, bad, capfd)


def test_headers_files_and_words(tools: Tools, capfd: pytest.CaptureFixture[str]) -> None:
    good = write_layer(tools.folder / "good.csv", GOOD)
    headless = tools.folder / "headless.csv"
    headless.write_text("name,wkt\na,POINT (1 1)\n")
    missing = tools.folder / "missing.csv"
    for left, right in ((missing, missing), (good, missing), (tools.folder, missing)):
        check_fault(tools, left, right, capfd)
    for left, right in ((tools.folder, good), (headless, tools.folder), (good, headless)):
        check_fault(tools, left, right, capfd)
    for relation in ("disjoint", "within.", "T*F**F**x", "FF*FF****"):
        check_fault(tools, missing, missing, capfd, relation)
    for scale in ("7", "-1", "two"):
        check_fault(tools, missing, missing, capfd, "within", f"--scale={scale}")


def test_what_rjoin_has_no_words_for(tools: Tools, capfd: pytest.CaptureFixture[str]) -> None:
    from rjoin_cluster.command import main

    good = write_layer(tools.folder / "good.csv", GOOD)
    right, link = write_layer(tools.folder / "right.csv", GOOD), tools.folder / "link"
    link.symlink_to(right)
    nowhere = tools.folder / "nowhere" / "report.csv"
    for words, line in (
        (["--out", str(nowhere)], f"{nowhere}: cannot be written: No such file or directory"),
        (["--folder", str(nowhere)], f"{nowhere}: cannot be written: No such file or directory"),
        (["--out", str(good)], f"{good}: is the left layer"),
        (["--out", str(right)], f"{right}: is the right layer"),
        (["--skip", str(link)], f"{link}: is the right layer"),
        (["--out", str(tools.folder)], f"{tools.folder}: not a regular file"),
        (
            ["--scheduler", "tcp://127.0.0.1:9", "--patience", "1"],
            "tcp://127.0.0.1:9: no scheduler answers",
        ),
        (
            ["--program", "nothing-of-this-name"],
            "nothing-of-this-name: no such program; name one by"
            " --program or RJOIN, or put rjoin on the PATH",
        ),
    ):
        capfd.readouterr()
        assert main([*tools.command(good, right, "within"), *words]) == 1
        assert told(capfd.readouterr().err) == f"rjoin-cluster: {line}\n"


def test_a_program_without_an_option(
    tools: Tools, capfd: pytest.CaptureFixture[str]
) -> None:
    """It is told before a layer is read."""
    from rjoin_cluster.command import main

    old, missing = tools.folder / "old", tools.folder / "missing.csv"
    old.write_text(f'#!/bin/sh\n[ "$2" = --help ] && exit\nexec {tools.program} "$@"\n')
    old.chmod(0o755)
    skip = ["--skip", str(tools.folder / "skipped.csv")]
    asked = ((["--pairs"], "--pairs"), (["--geometry", "any"], "--geometry"), (skip, "--skip"))
    for words, option in asked:
        capfd.readouterr()
        words = tools.command(missing, missing, "within", *words, "--program", str(old))
        assert main(words) == 1
        line = f"rjoin-cluster: {old}: this version has no {option} for join\n"
        assert told(capfd.readouterr().err) == line


# Writes the header of a report, which alone is one without pairs, and ends in some way.
CUT_SHORT = """#!/bin/sh
case "$*" in
    join*--workers=1) echo left,right,matrix; echo no more >&2; {end} ;;
esac
exec {program} "$@"
"""


@pytest.mark.parametrize("end, status", [("exit 1", 1), ("exit 3", 3), ("kill -9 $$", -9)])
def test_a_run_that_ends_amid_its_report(
    tools_here: Tools, end: str, status: int, capfd: pytest.CaptureFixture[str]
) -> None:
    from rjoin_cluster.command import main

    program = tools_here.folder / "rjoin"
    program.write_text(CUT_SHORT.format(end=end, program=tools_here.program))
    program.chmod(0o755)
    layer = write_layer(tools_here.folder / "layer.csv", GOOD)
    assert main(tools_here.command(layer, layer, "within", "--program", str(program))) == 1
    cause = f"RunFailed: rjoin join: status {status}: no more"
    assert told(capfd.readouterr().err) == f"rjoin-cluster: joining tile 0, run 0: {cause}\n"
    assert not tools_here.report().exists()


@pytest.mark.parametrize("most", [3599, 3600])
def test_more_pairs_of_features_than_can_be_numbered(
    tools: Tools, most: int, capfd: pytest.CaptureFixture[str], monkeypatch: pytest.MonkeyPatch
) -> None:
    """A pair has a number of 64 bits, by the places of both features."""
    from rjoin_cluster.command import main

    monkeypatch.setattr(steps, "MOST_RANK", most)
    layer = write_layer(tools.folder / "layer.csv", GOOD)
    status = main(tools.command(layer, layer, "within"))
    line = "rjoin-cluster: more than 3599 pairs of a left and a right feature\n"
    assert (status, told(capfd.readouterr().err)) == ((0, "") if most == 3600 else (1, line))
    assert tools.report().exists() == (most == 3600)


def test_layers_without_blocks(tools: Tools, capfd: pytest.CaptureFixture[str]) -> None:
    from rjoin_cluster.command import main

    good, pipe = write_layer(tools.folder / "good.csv", GOOD), tools.folder / "pipe"
    os.mkfifo(pipe)
    for left, right, side in ((pipe, good, "left"), (good, Path("-"), "right")):
        capfd.readouterr()
        assert main(tools.command(left, right, "within")) == 1
        line = f"rjoin-cluster: {side}: not a regular file, which alone can be read in blocks\n"
        assert told(capfd.readouterr().err) == line
