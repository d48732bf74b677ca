"""Files that a join writes: whole or not at all, and without an end of rows in memory."""
from __future__ import annotations

import errno
import os
import stat
from pathlib import Path
from types import SimpleNamespace
from typing import Any

import numpy as np
import pytest

from rjoin_cluster.faults import JoinFault
from rjoin_cluster.layout import Layout, load_rows, new_file, save_rows
from rjoin_cluster.outputs import new_report, new_reports
from rjoin_cluster.runs import KEY_STEP, keep_pairs, pair_type


def test_reports_of_one_name_are_in_no_way_of_each_other(tmp_path: Path) -> None:
    target = tmp_path / "report.csv"
    with new_report(str(target)) as first, new_report(str(target)) as second:
        first.write(b"first")
        second.write(b"second")
    assert target.read_bytes() == b"first"
    assert list(tmp_path.iterdir()) == [target]


@pytest.mark.parametrize("mode", [0o600, 0o640, 0o666, 0o400])
@pytest.mark.parametrize("links", [True, False])
def test_a_report_keeps_its_mode(
    tmp_path: Path, mode: int, links: bool, monkeypatch: pytest.MonkeyPatch
) -> None:
    """It has it before anything is written, also by the name of another file, and a new one has
    that of the user's mask.
    """
    target, fresh, whole, more = (tmp_path / name for name in ("report", "new", "whole", "more"))
    target.touch()
    target.chmod(mode)
    for path in (whole, more):
        save_rows(path, [np.arange(9)])
    if not links:
        monkeypatch.setattr(os, "link", refuse)
    with new_report(str(target)) as report, new_report(str(fresh)) as other:
        assert stat.S_IMODE(report.part.stat().st_mode) == mode
        report.take(whole)
        assert stat.S_IMODE(report.part.stat().st_mode) == mode
        other.take(more)
    assert target.read_bytes() == fresh.read_bytes() == whole.read_bytes()
    assert (target.stat().st_ino == whole.stat().st_ino) == links
    monkeypatch.undo()
    assert sorted(tmp_path.iterdir()) == [more, fresh, target, whole]
    assert stat.S_IMODE(target.stat().st_mode) == mode
    mask = os.umask(0)
    os.umask(mask)
    assert stat.S_IMODE(fresh.stat().st_mode) == 0o666 & ~mask


def refuse(*_: object) -> None:
    raise OSError(errno.EXDEV, "Invalid cross-device link")


def test_the_list_is_complete_before_the_report(tmp_path: Path) -> None:
    """Where it can't get its name, there is no report."""
    report, skipped = tmp_path / "report", tmp_path / "skipped"
    with pytest.raises(JoinFault, match="skipped: cannot be written"):
        with new_reports(str(report), str(skipped)):
            skipped.mkdir()
    assert list(tmp_path.iterdir()) == [skipped]


def test_a_report_that_is_a_link(tmp_path: Path) -> None:
    """It is what the link leads to; a link that leads nowhere stays as it is."""
    target, link, dangling = (tmp_path / name for name in ("target", "link", "dangling"))
    target.write_bytes(b"before")
    link.symlink_to(target.name)
    with new_report(str(link)) as report:
        report.write(b"after")
    assert (link.is_symlink(), target.read_bytes()) == (True, b"after")
    dangling.symlink_to("nowhere")
    with pytest.raises(JoinFault, match="a link that leads nowhere"):
        with new_report(str(dangling)):
            pass
    assert sorted(tmp_path.iterdir()) == [dangling, link, target] and dangling.is_symlink()


def test_what_cannot_be_completed_leaves_nothing(tmp_path: Path) -> None:
    with pytest.raises(KeyboardInterrupt), new_file(tmp_path / "pairs") as file:
        file.write(b"some")
        raise KeyboardInterrupt
    assert list(tmp_path.iterdir()) == []


def test_each_256th_rank_of_pairs_that_come_in_parts(tmp_path: Path) -> None:
    kind = pair_type(9, 3, False)
    lengths = (0, 1, KEY_STEP - 1, 1, 0, KEY_STEP, 3 * KEY_STEP + 5, 7)
    pairs = np.zeros(sum(lengths), dtype=kind)
    pairs["rank"] = 3 * np.arange(pairs.size)
    job: Any = SimpleNamespace(layout=Layout(str(tmp_path)), number=0)
    count, keys = keep_pairs(job, iter(np.split(pairs, np.cumsum(lengths)[:-1])))
    assert (count, keys.tolist()) == (pairs.size, pairs["rank"][::KEY_STEP].tolist())
    kept = np.empty_like(pairs)
    load_rows(job.layout.pairs(0), kept)
    assert kept.tobytes() == pairs.tobytes()


def test_a_file_that_is_too_short(tmp_path: Path) -> None:
    save_rows(tmp_path / "rows", [np.arange(3)])
    with pytest.raises(OSError, match="shorter than it was"):
        load_rows(tmp_path / "rows", np.empty(2, dtype=np.int64), first=2)
