"""Layers of several files, and files that are named by URLs."""
from __future__ import annotations

import json
from pathlib import Path
from typing import Any, Sequence

import layers
import pytest
from conftest import Tools, ended, told, write_layer

from rjoin_cluster.command import main

fsspec: Any = pytest.importorskip("fsspec")

POINTS = [(f"n{number}", f"POINT ({number} {number % 7})") for number in range(60)]
CUT = ("--tiles", "6", "--block", "900")
WORDS = (
    ["join", "--relation", "intersects"],
    ["join", "--relation", "intersects", "--geometry", "any"],
    ["near", "--distance", "5"],
    ["nearest", "--distance", "90", "--most", "2"],
    ["nearest", "--most", "2"],
)


def split(layer: Path, parts: int) -> str:
    """The layer as so many files, of which some have no features; their pattern."""
    header, *lines = layer.read_bytes().splitlines(keepends=True)
    for part in range(parts):
        some = [] if part == 1 else lines[part::parts] if part % 2 else lines[part::parts]
        ends = (b"\r\n", b"") if part == 2 else (b"\n", b"\n")
        text = header + b"".join(line.rstrip(b"\n") + ends[0] for line in some)
        layer.with_name(f"{layer.stem}-{part:02}.csv").write_bytes(text)
    return str(layer.with_name(f"{layer.stem}-*.csv"))


def whole(pattern: str) -> Path:
    """The files of a pattern as one."""
    files = sorted(Path(pattern).parent.glob(Path(pattern).name))
    rows = [line for file in files for line in file.read_bytes().splitlines()[1:]]
    path = Path(pattern).with_name("whole of " + Path(pattern).name.replace("*", "all"))
    path.write_bytes(b"id,wkt\n" + b"".join(row + b"\n" for row in rows))
    return path


@pytest.mark.parametrize("words", WORDS)
@pytest.mark.parametrize("parts", [2, 9])
def test_files_of_a_pattern(
    tools: Tools, words: list[str], parts: int, capfd: pytest.CaptureFixture[str]
) -> None:
    left, right = (split(path, parts) for path in layers.write_pair(tools.folder, "mixture", 300))
    command, *more = words
    one = ended([tools.program, command, whole(left), whole(right), *more])
    capfd.readouterr()
    assert main(tools.words([command, left, right, *more, *CUT, "--json"])) == 0
    assert tools.report().read_bytes() == one.output
    assert json.loads(capfd.readouterr().out)["left"]["files"] == parts


@pytest.mark.parametrize("command", ["stats", "bounds"])
def test_commands_of_one_layer(tools: Tools, command: str) -> None:
    pattern = split(layers.write_pair(tools.folder, "mixture", 300)[0], 5)
    one = ended([tools.program, command, whole(pattern)])
    assert main(tools.words([command, pattern, "--block", "900"])) == 0
    assert tools.report().read_bytes() == one.output


@pytest.mark.parametrize(
    "rows, line",
    [
        ([("n3", "POINT (1 1)")], "row 63: id is already there (row 3 of {})"),
        ([("bad", "POINT (1")], "row 63: not a geometry text (row 3 of {})"),
        (None, "wrong header ({})\nthe first line begins with 'x,y'"),
    ],
)
def test_a_fault_names_its_file(
    tools: Tools, rows: Any, line: str, capfd: pytest.CaptureFixture[str]
) -> None:
    """Rows are counted through all files."""
    write_layer(tools.folder / "part-1.csv", POINTS)
    bad = write_layer(tools.folder / "part-2.csv", [("a", "POINT (1 1)"), ("b", "POINT (1 1)")])
    with open(bad, "ab") as file:
        file.write(b"".join(f"{name},{wkt}\n".encode() for name, wkt in rows or []))
    if rows is None:
        bad.write_bytes(b"x,y\n")
    pattern = str(tools.folder / "part-*.csv")
    assert main(tools.words(["join", pattern, bad, "--relation", "within"])) == 1
    assert told(capfd.readouterr().err) == f"rjoin: left: {line.format(bad)}\n"


def test_a_pattern_that_no_file_fits(tools: Tools, capfd: pytest.CaptureFixture[str]) -> None:
    layer = write_layer(tools.folder / "part[1].csv", POINTS)
    words = ["join", layer, tools.folder / "no*.csv", "--relation", "within"]
    assert main(tools.words(words)) == 1
    assert told(capfd.readouterr().err) == "rjoin: right: cannot be opened\n"
    tools.check_command(["join", layer, layer, "--relation", "within"])  # whose name is one


@pytest.fixture
def memory() -> Any:
    """Files in the memory of this process, whose threads the workers are."""
    system = fsspec.filesystem("memory")
    yield system
    system.store.clear()


def put(memory: Any, path: Path, name: str) -> str:
    memory.pipe(f"/{name}", path.read_bytes())
    return f"memory://{name}"


@pytest.mark.parametrize("words", WORDS)
def test_layers_and_a_report_at_urls(tools_here: Tools, memory: Any, words: Sequence[str]) -> None:
    left, right = layers.write_pair(tools_here.folder, "mixture", 300)
    one = ended([tools_here.program, words[0], left, right, *words[1:]])
    urls = [put(memory, left, "layers/left.csv"), put(memory, right, "layers/right.csv")]
    place = ["--folder", str(tools_here.folder), "--out", "memory://reports/report.csv"]
    assert main(tools_here.words([words[0], *urls, *words[1:], *CUT, *place])) == 0
    assert memory.cat("/reports/report.csv") == one.output
    names = {path.name for path in tools_here.folder.iterdir()}
    assert names == {left.name, right.name}


def test_many_files_at_a_url(tools_here: Tools, memory: Any) -> None:
    left, right = layers.write_pair(tools_here.folder, "mixture", 300)
    put(memory, Path(left), "in/a-1.csv")
    put(memory, write_layer(tools_here.folder / "more.csv", POINTS), "in/a-2.csv")
    memory.pipe("/in/edits.csv", b"op,layer,id,wkt\ndelete,left,n3,\n")
    words = ["join", "memory://in/a-*.csv", right, "--relation", "intersects", "--files",
             "--edits", "memory://in/edits.csv", "--out", "memory://out/report",
             "--folder", tools_here.folder]
    assert main(tools_here.words([*words, *CUT])) == 0
    manifest = json.loads(memory.cat("/out/report/manifest.json"))
    rows = b"".join(
        memory.cat(f"/out/report/{file['name']}").split(b"\n", 1)[1] for file in manifest["files"]
    )
    joined = tools_here.folder / "joined.csv"
    more = (tools_here.folder / "more.csv").read_bytes().split(b"\n", 1)[1]
    joined.write_bytes(Path(left).read_bytes() + more)
    edits = tools_here.folder / "edits.csv"
    edits.write_bytes(memory.cat("/in/edits.csv"))
    one = tools_here.one_run(joined, Path(right), "intersects", "--edits", str(edits))
    assert rows == one.output.split(b"\n", 1)[1]


def test_a_url_that_is_changed_or_missing(
    tools_here: Tools, memory: Any, capfd: pytest.CaptureFixture[str]
) -> None:
    layer = write_layer(tools_here.folder / "layer.csv", POINTS)
    words = ["join", "memory://none.csv", layer, "--relation", "within"]
    assert main(tools_here.words(words)) == 1
    assert told(capfd.readouterr().err) == "rjoin: left: cannot be opened\n"
    url = put(memory, layer, "layer.csv")
    assert main(tools_here.words(["join", url, layer, "--relation", "within", "--out", url])) == 1
    assert told(capfd.readouterr().err) == f"rjoin-cluster: {url}: is the left layer\n"
    words = ["join", "none://a.csv", layer, "--relation", "within"]
    assert main(tools_here.words(words)) == 1
    assert told(capfd.readouterr().err).startswith("rjoin-cluster: none://a.csv: ")


def test_a_url_of_a_path(tools: Tools) -> None:
    """Which all workers have."""
    layer = write_layer(tools.folder / "layer.csv", POINTS)
    one = tools.one_run(layer, layer, "within")
    assert main(tools.words(["join", f"file://{layer}", layer, "--relation", "within"])) == 0
    assert tools.report().read_bytes() == one.output
