"""Types and style of the Python code."""
from __future__ import annotations

import re
import shutil
import subprocess
from pathlib import Path

import pytest

HERE = Path(__file__).resolve().parents[1]
PROGRAM = HERE / "postgis/rjoin-postgis"


FOUND = HERE.parent / "python/src/rjoin/found.py"
COPIES = ("qgis/rjoin_processing", "klayout/python/rjoin_klayout", "postgis")


@pytest.mark.parametrize("folder", COPIES)
def test_the_search_for_the_program_is_the_same_everywhere(folder: str) -> None:
    assert (HERE / folder / "found.py").read_bytes() == FOUND.read_bytes()


def test_the_shortest_decimals_are_the_same_in_qgis() -> None:
    own = HERE / "qgis/rjoin_processing/shortest.py"
    assert own.read_bytes() == (FOUND.parent / "shortest.py").read_bytes()


def test_all_parts_have_the_same_version() -> None:
    version = re.search('^VERSION = "(.*)"$', FOUND.read_text(encoding="utf-8"), re.MULTILINE)
    assert version
    for path, text in (("qgis/rjoin_processing/metadata.txt", "\nversion={}\n"),
                       ("klayout/grain.xml", "<version>{}</version>"),
                       ("klayout/pymacros/join_layers.lym", "<version>{}</version>"),
                       ("tests/town.py", '\nVERSION = "{}"\n')):
        assert text.format(version[1]) in (HERE / path).read_text(encoding="utf-8"), path


PAGES = ("PYTHON", "QGIS", "KLAYOUT", "POSTGIS")


@pytest.mark.parametrize("page", PAGES)
def test_each_page_tells_the_limits(page: str) -> None:
    text = (HERE.parent / f"docs/{page}.md").read_text(encoding="utf-8")
    assert "1,000,000 features" in text.replace("shapes", "features").replace("rows", "features")
    assert "134,217,728 bytes" in text


def test_the_page_of_klayout_tells_of_merged_shapes() -> None:
    """By the words of its dialog and of batch mode."""
    page = (HERE.parent / "docs/KLAYOUT.md").read_text(encoding="utf-8")
    for words in ("as KLayout's own checks do", "two pieces that abut touch each other",
                  "*Merge the shapes of each layer first*", "`-rd merged=0`", "`-rd mode=cell`",
                  "*Those of each cell by themselves*", "`-rd space=0.2`"):
        assert words in page


def run(*words: str) -> None:
    if shutil.which(words[0]) is None:
        pytest.skip(f"{words[0]} isn't installed")
    ended = subprocess.run([*words], cwd=HERE, capture_output=True, text=True, check=False)
    assert ended.returncode == 0, ended.stdout + ended.stderr


def test_types(tmp_path: Path) -> None:
    modules = [str(path) for folder in ("qgis", "klayout", "tests")
               for path in sorted((HERE / folder).rglob("*.py"))]
    run("mypy", "--config-file", "setup.cfg", "--cache-dir", str(tmp_path), *modules, str(PROGRAM))


def test_style() -> None:
    run("flake8", "--config", "setup.cfg", "qgis", "klayout", "tests", str(PROGRAM))
