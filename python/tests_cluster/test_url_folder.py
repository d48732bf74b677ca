"""Joins whose temporary files lie at a URL."""
from __future__ import annotations

import os
import sys
from pathlib import Path
from typing import Any, Sequence

import layers
import pytest
from conftest import Tools, address_of, ended, own_scheduler, own_worker, told

fsspec: Any = pytest.importorskip("fsspec")

# A file system whose files appear as a whole, as those of an object store do, and are late.
SLOW = """
import os
import time
import uuid
from fsspec.implementations.local import LocalFileSystem


class Slow(LocalFileSystem):
    protocol = "slow"

    def put_file(self, path, target, **words):
        time.sleep(0.01)
        os.makedirs(os.path.dirname(target), exist_ok=True)
        part = f"{target}.{uuid.uuid4().hex}"
        super().put_file(path, part, **words)
        os.replace(part, target)

    def cat_file(self, path, **words):
        time.sleep(0.005)
        return super().cat_file(path, **words)

    @classmethod
    def _strip_protocol(cls, path):
        return super()._strip_protocol(str(path).replace("slow://", ""))
"""


def memory() -> list[str]:
    return [name for name in fsspec.filesystem("memory").store if "rjoin-cluster" in name]


@pytest.mark.parametrize(
    "kind, words",
    [
        ("mixture", ["join", "--relation", "intersects"]),
        ("mixture", ["near", "--distance", "3"]),
        ("close", ["nearest", "--distance", "60", "--most", "3"]),
        ("close", ["nearest", "--most", "3"]),
        ("roads", ["join", "--relation", "crosses", "--geometry", "any"]),
    ],
)
def test_two_layers(tools_here: Tools, kind: str, words: Sequence[str]) -> None:
    left, right = layers.write_pair(tools_here.folder, kind, 300)
    asked: list[Any] = [words[0], left, right, *words[1:]]
    tools_here.check_command(asked, "--folder", "memory://joins", "--block", "5000", "--tiles", "5")
    assert memory() == []


WINDOW = "POLYGON ((0 0, 40 0, 40 40, 0 40, 0 0))"


@pytest.mark.parametrize("words", [["bounds"], ["stats"], ["window", WINDOW]])
def test_one_layer(tools_here: Tools, words: Sequence[str]) -> None:
    left, _ = layers.write_pair(tools_here.folder, "mixture", 300)
    asked: list[Any] = [words[0], left, *words[1:]]
    tools_here.check_command(asked, "--folder", "memory://a/", "--block", "5000")
    assert memory() == []


def test_a_report_of_many_files(tools_here: Tools) -> None:
    from rjoin_cluster.command import main

    left, right = layers.write_pair(tools_here.folder, "mixture", 300)
    for out in (tools_here.folder / "here", "memory://there/report"):
        words = tools_here.command(left, right, "intersects", "--out", str(out), "--files")
        assert main([*words, "--folder", "memory://joins"]) == 0
    one = tools_here.one_run(left, right, "intersects").output
    assert (tools_here.folder / "here/part-00000.csv").read_bytes() == one
    assert fsspec.filesystem("memory").cat("/there/report/part-00000.csv") == one
    assert memory() == []


def test_edits_and_skipped_rows(tools_here: Tools) -> None:
    """Both leave files in the folder that are read as layers or in parts."""
    left, right = layers.write_pair(tools_here.folder, "mixture", 300)
    names = [line.split(",")[0] for line in left.read_text().splitlines()[1:9]]
    edits = tools_here.folder / "edits.csv"
    rows = [*(f"delete,left,{name}," for name in names), "insert,left,new,POINT (4 4)"]
    edits.write_text("\n".join(["op,layer,id,wkt", *rows, ""]))
    asked: list[Any] = ["join", left, right, "--relation", "intersects", "--edits", edits]
    tools_here.check_command(asked, "--folder", "memory://joins", "--block", "5000", "--tiles", "5")


@pytest.mark.parametrize(
    "words, fault",
    [
        (["--folder", "nowhere://joins"], "nowhere://joins/"),
        (["--resume", "memory://joins"], "memory://joins: a join goes on in a folder"),
    ],
)
def test_folders_that_cannot_be(
    tools_here: Tools, words: Sequence[str], fault: str, capfd: pytest.CaptureFixture[str]
) -> None:
    from rjoin_cluster.command import main

    left, right = layers.write_pair(tools_here.folder, "mixture", 30)
    assert main(tools_here.command(left, right, "intersects", *words)) == 1
    assert capfd.readouterr().err.startswith(f"rjoin-cluster: {fault}")
    assert not tools_here.report().exists()


def plugged(folder: Path) -> str:
    """Where Python finds the slow file system, also in other processes."""
    found = folder / "modules"
    told_of = found / "slow-1.dist-info"
    told_of.mkdir(parents=True)
    (found / "slow_files.py").write_text(SLOW)
    (told_of / "METADATA").write_text("Metadata-Version: 2.1\nName: slow\nVersion: 1\n")
    (told_of / "entry_points.txt").write_text("[fsspec.specs]\nslow = slow_files:Slow\n")
    return os.pathsep.join([str(found), os.environ["PYTHONPATH"]])


def test_processes_that_share_a_url(tools: Tools) -> None:
    """A worker that lacks the module of the URL is named, and the others join."""
    path, folder = plugged(tools.folder), tools.folder / "files"
    left, right = layers.write_pair(tools.folder, "mixture", 600)
    has = {"PYTHONPATH": path}
    first, second = own_worker(tools.folder, **has), own_worker(tools.folder, **has)
    with own_scheduler(tools.folder), first, second, own_worker(tools.folder):
        address = address_of(tools.folder, 3)
        words = tools.command(left, right, "intersects", "--scheduler", address)
        words += ["--folder", f"slow://{folder}", "--tiles", "5", "--block", "5000"]
        command = ["env", f"PYTHONPATH={path}", sys.executable, "-m", "rjoin_cluster", *words]
        join = ended(command)
    assert join.status == 0, join.errors
    lines = told(join.errors).splitlines()
    assert len(lines) == 1 and lines[0].endswith("; it gets no more tasks") and "slow" in lines[0]
    assert tools.report().read_bytes() == tools.one_run(left, right, "intersects").output
    assert list(folder.iterdir()) == []
