"""The bar that shows how a run goes on."""
from __future__ import annotations

import sys
from pathlib import Path
from types import SimpleNamespace
from typing import Any, List, Tuple

import pytest

import rjoin
from rjoin import progress

TEXTS = ["POINT (1 1)"] * 1000


class Bar:
    """What tqdm has of a bar; it keeps what it is shown."""

    made: List["Bar"] = []

    def __init__(self, **words: Any) -> None:
        self.words, self.total, self.n = words, words["total"], 0
        self.told: List[Tuple[int, str]] = []
        self.text, self.is_closed = "", False
        self.made.append(self)

    def update(self, more: int) -> None:
        self.n += more

    def set_postfix_str(self, text: str, refresh: bool) -> None:
        self.text = text

    def refresh(self) -> None:
        self.told.append((self.n, self.text))

    def close(self) -> None:
        self.is_closed = True


@pytest.fixture()
def slow(real: str, tmp_path: Path, monkeypatch: Any) -> List[Bar]:
    """A program that reads both layers, rests and then does what it is asked for."""
    program = tmp_path / "rjoin"
    program.write_text(f"""#!{sys.executable}
import os, sys, time
if sys.argv[1] != "--version":
    for path in sys.argv[2:4]:
        with open(path, "rb") as layer:
            layer.read()
    time.sleep(0.4)
os.execv({real!r}, ["rjoin", *sys.argv[1:]])
""")
    program.chmod(0o755)
    monkeypatch.setenv("RJOIN", str(program))
    monkeypatch.setattr(progress, "AFTER", 0.1)
    monkeypatch.setattr(progress, "EVERY", 0.02)
    monkeypatch.setattr(progress, "find_spec", lambda name: name)
    monkeypatch.setitem(sys.modules, "tqdm", SimpleNamespace(tqdm=Bar))
    Bar.made = []
    return Bar.made


def test_a_bar_shows_what_was_read_of_the_layers(slow: List[Bar], monkeypatch: Any) -> None:
    monkeypatch.setattr(sys.stderr, "isatty", lambda: True, raising=False)
    assert len(rjoin.pairs(TEXTS, TEXTS[:1], "equals")) == len(TEXTS)
    (bar,) = slow
    assert bar.words["desc"] == "rjoin join" and bar.is_closed
    assert bar.told[-1][0] == bar.total > 1000 and "joining" in [text for _, text in bar.told]
    reads = [read for read, _ in bar.told]
    assert reads == sorted(reads) and len(reads) > 3


def test_no_bar_is_shown_elsewhere(slow: List[Bar], monkeypatch: Any) -> None:
    """Where there is no terminal, no tqdm, or where a run is short."""
    for is_terminal, after, has in ((False, 0.1, True), (True, 60.0, True), (True, 0.1, False)):
        monkeypatch.setattr(sys.stderr, "isatty", lambda: is_terminal, raising=False)
        monkeypatch.setattr(progress, "AFTER", after)
        monkeypatch.setattr(progress, "find_spec", lambda name: name if has else None)
        assert len(rjoin.pairs(TEXTS[:1], TEXTS[:1], "equals")) == 1
    assert slow == []


def test_a_bar_goes_where_a_run_fails(slow: List[Bar], monkeypatch: Any) -> None:
    monkeypatch.setattr(sys.stderr, "isatty", lambda: True, raising=False)
    with pytest.raises(rjoin.InputError, match="row 2"):
        rjoin.pairs(["POINT (1 1)", "POINT"], TEXTS)
    assert slow and all(bar.is_closed for bar in slow)
