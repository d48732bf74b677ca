"""The command line: what is refused, and what is told."""
from __future__ import annotations

import json
import os
import re
import sys
from pathlib import Path

import layers
import pytest
from conftest import ROOT, Tools, ended, told, write_layer

from rjoin_cluster.program import find_program

COMMAND = [sys.executable, "-m", "rjoin_cluster"]
SECONDS = "is not a number of seconds above 0 and up to 1000000"
WHOLE = "is not a whole number, 1 or more"
FILE = "standard output is no file; name one"


@pytest.mark.parametrize(
    "option, word, line",
    [
        *(("--patience", word, SECONDS) for word in ("nan", "-5", "0", "inf", "soon", "")),
        *(("--block", word, WHOLE) for word in ("x", "0", "-1", "1.5", "")),
        *((name, word, WHOLE) for name in ("--workers", "--tiles") for word in ("no", "0", "²")),
    ],
)
def test_a_word_that_is_no_number(
    option: str, word: str, line: str, capfd: pytest.CaptureFixture[str]
) -> None:
    from rjoin_cluster.command import main

    words = ["join", "left", "right", "--relation", "within", "--out", "report"]
    with pytest.raises(SystemExit) as end:
        main([*words, f"{option}={word}"])
    fault = f"rjoin-cluster join: error: argument {option}: {word!r} {line}\n"
    assert (end.value.code, capfd.readouterr().err.endswith(fault)) == (2, True)


@pytest.mark.parametrize("option", ["--out", "--skip"])
def test_standard_output_is_no_report(
    option: str, capfd: pytest.CaptureFixture[str]
) -> None:
    from rjoin_cluster.command import main

    words = ["join", "left", "right", "--relation", "within", "--out", "report"]
    with pytest.raises(SystemExit) as end:
        main([*words, option, "-"])
    fault = f"rjoin-cluster join: error: argument {option}: {FILE}\n"
    assert (end.value.code, capfd.readouterr().err.endswith(fault)) == (2, True)


VERBOSE = """
import logging, sys
from rjoin_cluster.command import main
words = ["--relation", "within", "--scheduler", "tls://127.0.0.1:9", "--verbose"]
main(["join", *sys.argv[1:3], *words, "--out", "report", "--program", sys.argv[3]])
logging.getLogger("distributed.core").error("of dask")
logging.getLogger("rjoin_cluster.engine").info("of a task")
"""


def test_verbose_tells_nothing_of_dask(tools_here: Tools) -> None:
    layer = write_layer(tools_here.folder / "layer.csv", [])
    done = ended([sys.executable, "-c", VERBOSE, layer, layer, tools_here.program])
    assert done.errors.endswith("--tls-ca-file, --tls-cert and --tls-key\nof a task\n")


def test_the_version() -> None:
    stated = re.search(r'^version = "(.*)"$', (ROOT / "python/pyproject.toml").read_text(), re.M)
    assert stated is not None
    done = ended([*COMMAND, "--version"])
    assert done.output.decode() == f"rjoin-cluster {stated.group(1)}\n"


def test_a_worker_for_each_processor(
    tools_here: Tools, monkeypatch: pytest.MonkeyPatch, capfd: pytest.CaptureFixture[str]
) -> None:
    from rjoin_cluster.command import main

    monkeypatch.setattr(os, "sched_getaffinity", lambda _: {0, 2, 5})
    layer = str(write_layer(tools_here.folder / "layer.csv", [("a", "POINT (1 1)")]))
    files = ["--out", str(tools_here.report()), "--program", tools_here.program]
    assert main(["join", layer, layer, "--relation", "within", *files, "--json"]) == 0
    assert json.loads(capfd.readouterr().out)["workers"] == 3


def test_relative_paths(tools: Tools, monkeypatch: pytest.MonkeyPatch) -> None:
    """Workers are in other folders than the command."""
    from rjoin_cluster.command import main

    layer = write_layer(tools.folder / "layer.csv", [("a", "POINT (1 1)")])
    (tools.folder / "rjoin").symlink_to(tools.program)
    (tools.folder / "shared").mkdir()
    monkeypatch.chdir(tools.folder)
    words = ["join", layer.name, layer.name, "--relation", "equals", "--out", "report.csv"]
    place = ["--scheduler", tools.scheduler, "--program", "./rjoin", "--folder", "shared"]
    assert main([*words, *place]) == 0
    assert tools.report().read_bytes() == tools.one_run(layer, layer, "equals").output


def test_where_the_program_is(tmp_path: Path, monkeypatch: pytest.MonkeyPatch) -> None:
    """Where the option says, else RJOIN, else on the PATH."""
    paths = {}
    for name in ("option", "environment", "path"):
        paths[name] = tmp_path / name / "rjoin"
        paths[name].parent.mkdir()
        paths[name].touch(0o755)
    monkeypatch.setenv("PATH", str(paths["path"].parent))
    monkeypatch.setenv("RJOIN", str(paths["environment"]))
    assert find_program(str(paths["option"])) == str(paths["option"])
    assert find_program(None) == str(paths["environment"])
    monkeypatch.delenv("RJOIN")
    assert find_program(None) == str(paths["path"])


def test_a_line_a_task(tools: Tools) -> None:
    left, right = layers.write_pair(tools.folder, "rectangles", 2000)
    words = tools.command(left, right, "overlaps", "--tiles", "3", "--block", "50000", "--verbose")
    lines = told(ended([*COMMAND, *words]).errors).splitlines()
    blocks = 2 * -(-Path(left).stat().st_size // 50_000)
    counts = {"cutting": blocks, "reading": blocks, "checking": 2, "dealing": blocks}
    counts.update({"joining": 3, "merging": 1, "writing": 1})
    for name, count in counts.items():
        form = re.compile(rf"{name} .+ \(\d+ of \d+\)")
        assert sum(form.fullmatch(line) is not None for line in lines) == count, (name, lines)
    assert len(lines) == sum(counts.values())
