"""Joins that were ended and go on in their folder, and reports of many files."""
from __future__ import annotations

import fcntl
import json
import os
from collections import Counter
from dataclasses import dataclass
from pathlib import Path
from typing import Any, Callable, Optional, Sequence

import layers
import pytest
from conftest import Tools, told, write_layer

from rjoin_cluster import joining, merge, placing, steps
from rjoin_cluster.command import main
from rjoin_cluster.faults import JoinFault
from rjoin_cluster.layout import Layout
from rjoin_cluster.placing import Chunks, PlaceJob, Share
from rjoin_cluster.record import Record

CUT = ("--tiles", "9", "--block", "9999")
# The tasks of a join, in their order.
TASKS = ("sum_extent", "scan_segment", "read_block", "first_double", "deal_blocks", "join_tile",
         "write_part", "place_chunk")


@pytest.fixture
def small(monkeypatch: pytest.MonkeyPatch) -> None:
    """Parts and chunks of a report that are so small that a report has several."""
    monkeypatch.setattr(merge, "LEAST_PAIRS", 256)
    monkeypatch.setattr(merge, "LEAST_PAIRS_OF_RUN", 1)
    monkeypatch.setattr(merge, "MOST_PAIRS", 600)
    monkeypatch.setattr(placing, "CHUNK_BYTES", 7000)


COUNTS: Counter[str] = Counter()  # of tasks by their names


@dataclass(frozen=True)
class Noted:
    """A task that counts how often it is done, and ends the join when that is often enough."""

    task: Callable[[Any], Any]
    name: str
    most: Optional[int] = None

    def __call__(self, job: Any) -> Any:
        COUNTS[self.name] += 1
        if self.most is not None and COUNTS[self.name] > self.most:
            raise JoinFault("ended")
        return self.task(job)


def note(patch: pytest.MonkeyPatch, names: Sequence[str], most: Optional[int] = None) -> None:
    """Counts these tasks, from 0 on."""
    COUNTS.clear()
    for name in names:
        for module in (steps, joining):
            if hasattr(module, name):
                patch.setattr(module, name, Noted(getattr(module, name), name, most))


WORDS: dict[str, Sequence[str]] = {
    "boxes": ("join", "--relation", "intersects"),
    "texts": ("join", "--relation", "intersects", "--geometry", "any"),
    "nearest": ("nearest", "--distance", "60", "--most", "3"),
}


ENDS = [*(("boxes", task) for task in TASKS), ("texts", "deal_blocks"), ("texts", "join_tile"),
        ("nearest", "join_tile"), ("nearest", "write_part")]


@pytest.mark.parametrize("kind, task", ENDS)
def test_a_join_that_was_ended_goes_on(
    tools_here: Tools, small: None, kind: str, task: str, monkeypatch: pytest.MonkeyPatch,
    capfd: pytest.CaptureFixture[str],
) -> None:
    """At each step; what was done before isn't done again, and the bytes are those of one run."""
    left, right = layers.write_pair(tools_here.folder, "rectangles", 900)
    folder = tools_here.folder / "kept"
    command, *more = WORDS[kind]
    words = [command, left, right, *more]
    with monkeypatch.context() as patch:
        note(patch, [task], 1)
        assert main(tools_here.words([*words, *CUT, "--resume", folder])) == 1
    assert not tools_here.report().exists()
    assert told(capfd.readouterr().err) == "rjoin-cluster: ended\n"
    known = Record(folder / "record").known if (folder / "record").exists() else {}
    # What a task of the first recorded phase made may come after the fault of another.
    if task != "scan_segment":
        assert (len(known) > 0) == (task != "sum_extent")
    note(monkeypatch, TASKS)
    tools_here.check_command(words, *CUT, "--resume", str(folder))
    assert not folder.exists()
    ended = phase_of(task)
    assert all(COUNTS[name] == 0 for name in TASKS[1:] if phase_of(name) < ended)
    assert all(COUNTS[name] > 0 for name in TASKS if phase_of(name) > ended)


def phase_of(task: str) -> int:
    """The place of its phase; two phases have tasks of two kinds each."""
    return TASKS.index({"deal_blocks": "first_double", "place_chunk": "write_part"}.get(task, task))


@pytest.mark.parametrize("count", [1, 5])
def test_a_join_goes_on_as_often_as_it_is_ended(
    tools_here: Tools, small: None, count: int, monkeypatch: pytest.MonkeyPatch
) -> None:
    """By another number of workers each time: the plan is that of the first."""
    left, right = layers.write_pair(tools_here.folder, "close", 700)
    words = ["near", left, right, "--distance", "9"]
    more = [*CUT, "--resume", str(tools_here.folder / "kept")]
    for ended in range(30):
        with monkeypatch.context() as patch:
            note(patch, TASKS[2:], count)
            workers = ["--workers", str(1 + ended % 4)]
            if main(tools_here.words([*words, *more, *workers])) == 0:
                break
    assert ended > 1
    tools_here.check_command(words, *CUT)


@pytest.fixture
def ended(tools_here: Tools, monkeypatch: pytest.MonkeyPatch) -> tuple[Path, Path, Path]:
    """Two layers, and the folder of a join of them that was ended."""
    left, right = layers.write_pair(tools_here.folder, "rectangles", 300)
    folder = tools_here.folder / "kept"
    with monkeypatch.context() as patch:
        note(patch, ["join_tile"], 1)
        words = tools_here.command(left, right, "intersects", *CUT, "--resume", str(folder))
        assert main(words) == 1
    return left, right, folder


def fault_of(words: Sequence[str], capfd: pytest.CaptureFixture[str]) -> str:
    capfd.readouterr()
    assert main(words) == 1
    line: str = told(capfd.readouterr().err)
    assert line.startswith("rjoin-cluster: ") and line.count("\n") == 1
    return line.removeprefix("rjoin-cluster: ").rstrip("\n")


def test_another_join_does_not_go_on(
    tools_here: Tools, ended: tuple[Path, Path, Path], capfd: pytest.CaptureFixture[str]
) -> None:
    """Sums tell, and not times: a copy is the same layer."""
    left, right, folder = ended
    more = (*CUT, "--resume", str(folder))
    before = sorted((path.name, path.stat().st_size) for path in folder.iterdir())
    other = "is of another join: {}; remove it, or name another"
    program = tools_here.folder / "rjoin"
    program.write_bytes(Path(tools_here.program).read_bytes() + b"\0")
    program.chmod(0o755)
    for words, what in (
        (tools_here.command(left, right, "touches", *more), "options"),
        (tools_here.command(left, right, "intersects", *more, "--scale", "1"), "options"),
        (tools_here.command(left, right, "intersects", *more, "--tiles", "8"), "tiles"),
        (tools_here.command(left, right, "intersects", *more, "--files"), "many files"),
        (tools_here.command(right, left, "intersects", *more), "left layer"),
        (tools_here.command(left, right, "intersects", *more, "--program", str(program)),
         "program"),
    ):
        assert fault_of(words, capfd) == f"{folder}: {other.format(what)}"
    text = right.read_bytes()
    right.write_bytes(text.replace(b"0", b"1", 1) if b"0" in text else text + b"\n")
    assert fault_of(tools_here.command(left, right, "intersects", *more), capfd) == (
        f"{folder}: {other.format('right layer')}")
    assert sorted((path.name, path.stat().st_size) for path in folder.iterdir()) == before
    right.write_bytes(text)
    os.utime(right, (1, 1))
    tools_here.check_same(left, right, "intersects", "0", *more)


def test_folders_that_are_not_for_a_join(
    tools_here: Tools, ended: tuple[Path, Path, Path], capfd: pytest.CaptureFixture[str]
) -> None:
    left, right, folder = ended

    def fault(path: Path) -> str:
        words = tools_here.command(left, right, "intersects", *CUT, "--resume", str(path))
        return fault_of(words, capfd)

    folder.chmod(0o750)
    assert fault(folder) == f"{folder}: has to be of this user alone, with mode 0700"
    folder.chmod(0o700)
    assert "File exists" in fault(left)
    (tools_here.folder / "link").symlink_to(folder)
    assert fault(tools_here.folder / "link").endswith("is no folder")
    with open(folder / "lock", "ab") as lock:
        fcntl.flock(lock, fcntl.LOCK_EX)
        assert fault(folder) == f"{folder}: another join uses it"
    full = tools_here.folder / "full"
    full.mkdir(0o700)
    (full / "letter").write_text("mine")
    assert fault(full) == f"{full}: has files that are not of a join"
    assert (full / "letter").read_text() == "mine"
    (folder / "join.json").write_text("{")
    assert fault(folder).endswith("join.json: is not what a join has written")


def test_a_fault_of_a_layer_leaves_no_folder(
    tools_here: Tools, capfd: pytest.CaptureFixture[str]
) -> None:
    """Once it is mended, it is another layer."""
    left = write_layer(tools_here.folder / "left.csv", [("a", "POINT (1 1)"), ("b", "POINT (1")])
    folder = tools_here.folder / "kept"
    words = tools_here.command(left, left, "intersects", "--resume", str(folder))
    assert main(words) == 1 and not folder.exists()
    assert told(capfd.readouterr().err) == "rjoin: left: row 2: not a geometry text\n"


@pytest.mark.parametrize("kept", range(0, 200, 7))
def test_an_entry_that_is_cut_off_or_changed_is_none(tmp_path: Path, kept: int) -> None:
    path = tmp_path / "record"
    record = Record(path)
    for number in range(4):
        record.add(("step", number), "result" * number)
    record.close()
    text = path.read_bytes()
    changed = bytearray(text)
    changed[kept % len(text)] ^= 1
    for some in (text[:kept], bytes(changed)):
        path.write_bytes(some)
        known = Record(path).known
        assert list(known) == [("step", number) for number in range(len(known))]
        assert [*known.values()] == ["result" * number for number in range(len(known))]
        assert path.stat().st_size <= len(some) and len(known) < 4 or some == text
        again = Record(path)
        again.add(("more", 0), 7)
        again.close()
        assert Record(path).known == {**known, ("more", 0): 7}


@pytest.mark.parametrize("sizes", [(0,), (1,), (99, 1), (100,), (250,), (30, 30, 30, 30),
                                   (0, 5, 0)])
def test_chunks_have_each_byte_once(
    tmp_path: Path, sizes: Sequence[int], monkeypatch: pytest.MonkeyPatch
) -> None:
    """Their borders are multiples of a number of bytes, but for the first and the last one."""
    monkeypatch.setattr(placing, "CHUNK_BYTES", 100)
    layout, header = Layout(str(tmp_path)), b"left,right\n"
    chunks, jobs = Chunks(layout, len(header)), list[PlaceJob]()
    texts = [bytes([65 + part]) * size for part, size in enumerate(sizes)]
    for part, text in enumerate(texts):
        Path(layout.report_part(part)).write_bytes(text)
        jobs += chunks.add(part, len(text))
    jobs += chunks.rest()
    Path(layout.report()).write_bytes(header)
    for job in jobs[::-1]:
        assert job.begin == len(header) or job.begin % 100 == 0
        assert placing.place_chunk(job) == job.bytes > 0
    assert Path(layout.report()).read_bytes() == header + b"".join(texts)


def test_a_system_that_does_not_copy_by_itself(
    tmp_path: Path, monkeypatch: pytest.MonkeyPatch
) -> None:
    def refuse(*_: Any) -> int:
        raise OSError(18, "Invalid cross-device link")

    monkeypatch.setattr(os, "copy_file_range", refuse)
    layout = Layout(str(tmp_path))
    Path(layout.report_part(0)).write_bytes(b"abcdef")
    Path(layout.report()).write_bytes(b"..")
    job = PlaceJob(layout, 2, (Share(0, 1, 3),))
    assert placing.place_chunk(job) == 3 and Path(layout.report()).read_bytes() == b"..bcd"
    with pytest.raises(OSError, match="shorter than it was"):
        placing.place_chunk(PlaceJob(layout, 2, (Share(0, 4, 9),)))


@pytest.mark.parametrize("resumes", [True, False])
@pytest.mark.parametrize("words", [["join", "--relation", "intersects", "--pairs"],
                                   ["nearest", "--distance", "9", "--most", "2"]])
def test_a_report_of_many_files(
    tools_here: Tools, small: None, words: Sequence[str], resumes: bool,
    capfd: pytest.CaptureFixture[str],
) -> None:
    """Each has the header; their rows are those of the report, in the order of the manifest."""
    left, right = layers.write_pair(tools_here.folder, "close", 900)
    command, *options = words
    more = ["--resume", str(tools_here.folder / "kept")] if resumes else []
    one = tools_here.check_command([command, left, right, *options], *CUT)
    target = tools_here.folder / "many"
    more += ["--files", "--out", str(target)]
    asked = tools_here.words([command, left, right, *options, *CUT, *more])
    assert main(asked) == 0
    manifest = json.loads((target / "manifest.json").read_text())
    header, *rows = one.splitlines(keepends=True)
    texts = [(target / each["name"]).read_bytes() for each in manifest["files"]]
    assert all(text.startswith(header) for text in texts) and len(texts) > 1
    assert b"".join(text[len(header):] for text in texts) == b"".join(rows)
    assert manifest["columns"] == header.decode().strip().split(",")
    assert manifest["pairs"] == len(rows) == sum(each["pairs"] for each in manifest["files"])
    assert [each["bytes"] for each in manifest["files"]] == list(map(len, texts))
    assert {path.name for path in target.iterdir()} == {
        "manifest.json", *(each["name"] for each in manifest["files"])}
    mask = os.umask(0)
    os.umask(mask)
    assert {path.stat().st_mode & 0o777 for path in target.iterdir()} == {0o666 & ~mask}
    assert fault_of(asked, capfd).endswith("is there already, and many files need a new name")
    assert not list(tools_here.folder.glob(".many*")) + list(tools_here.folder.glob("kept"))
