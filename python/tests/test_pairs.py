"""Joins whose letters nobody asks for: the program is asked for pairs alone, and these are those of
a join with letters."""
from __future__ import annotations

import csv
import itertools
from pathlib import Path
from typing import Any, Callable, Dict, List, Sequence

import pytest
from test_program import script

import rjoin

geopandas = pytest.importorskip("geopandas")
testing = pytest.importorskip("geopandas.testing")

# A text that is too long for a word of a command line, so that its window is a layer of a join.
LONG = "POINT" + " " * 131_072
BOXES = ("POINT (1 1)", "LINESTRING (0 1, 4 1)", "POLYGON ((0 0, 2 0, 2 2, 0 2, 0 0))",
         "POINT (9 9)")
SHAPES = (*BOXES, "LINESTRING (0 0, 3 2)", "POLYGON ((0 0, 4 4, 0 4, 0 0))",
          "MULTIPOINT (1 1, 9 9)")
LAYERS = {"box": BOXES, "any": SHAPES}
IDS = ("a,b", 'say "hi"', "two\nlines", "x", " ", "ü", "0,0FFFFFFF2")

Words = List[List[str]]
CALLS: Dict[str, Callable[[Any], Any]] = {
    "sjoin": lambda frame: rjoin.sjoin(frame, frame),
    "left": lambda frame: rjoin.sjoin(frame, frame, "touches", "left"),
    "exclusive": lambda frame: rjoin.sjoin_nearest(frame, frame, exclusive=True),
    "window": lambda frame: rjoin.window(frame, LONG + "(1 1)"),
    "letters": lambda frame: rjoin.sjoin(frame, frame, matrix=True),
    "pairs": lambda frame: rjoin.pairs(frame, frame),
}
WITH_LETTERS = ("letters", "pairs")


def frame_of(texts: Sequence[str]) -> Any:
    return geopandas.GeoDataFrame(geometry=geopandas.GeoSeries.from_wkt(list(texts)))


@pytest.fixture()
def asked(monkeypatch: Any, real: str, tmp_path: Path) -> Callable[[], Words]:
    """The words of each run of the program so far."""
    log = tmp_path / "words"
    told = script(tmp_path / "rjoin", f'echo "$@" >>{log}\nexec "{real}" "$@"')
    monkeypatch.setenv("RJOIN", str(told))
    return lambda: [line.split() for line in log.read_text().splitlines()]


@pytest.mark.parametrize("kind", LAYERS)
@pytest.mark.parametrize("name", CALLS)
def test_letters_are_asked_for_where_they_are_wanted(asked: Callable[[], Words], name: str,
                                                     kind: str) -> None:
    CALLS[name](frame_of(LAYERS[kind]))
    joins = [words for words in asked() if words[0] == "join"]
    others = [words for words in asked() if words[0] != "join"]
    assert joins and all(("--pairs" in words) == (name not in WITH_LETTERS) for words in joins)
    assert all(("any" in words) == (kind == "any") for words in joins)
    assert not any("--pairs" in words for words in others)


@pytest.mark.parametrize("how", ("inner", "left", "right"))
@pytest.mark.parametrize("relation", ("intersects", "crosses", "within", "T*F**F***"))
def test_pairs_are_those_of_a_join_with_letters(how: str, relation: str) -> None:
    for left, right in itertools.product(LAYERS.values(), repeat=2):
        frames = frame_of(left), frame_of(right[::-1])
        lettered = rjoin.sjoin(*frames, relation, how, matrix=True)
        testing.assert_geodataframe_equal(rjoin.sjoin(*frames, relation, how),
                                          lettered.drop(columns="matrix"))
        assert lettered["matrix"].notna().any()


@pytest.mark.parametrize("kind", LAYERS)
def test_the_pairs_of_ids_with_quotes(tmp_path: Path, kind: str) -> None:
    """A window by a join, by a word of the command line, and the pairs with letters."""
    layer = tmp_path / "layer.csv"
    with open(layer, "w", newline="", encoding="utf-8") as file:
        csv.writer(file).writerows([("id", "wkt"), *zip(IDS, LAYERS[kind])])
    met = rjoin.window(layer, LONG + "(1 1)").tolist()
    assert met == rjoin.window(layer, "POINT (1 1)").tolist()
    assert met == rjoin.pairs(layer, ["POINT (1 1)"])["left"].tolist()
    assert met == [one for one, text in zip(IDS, LAYERS[kind])
                   if text not in (BOXES[-1], "LINESTRING (0 0, 3 2)")]


@pytest.mark.parametrize("text", ("id\\n0\\n", "left,right,matrix\\n0,0,0FFFFFFF2\\n",
                                  "left,right\\n0,0", "left,right\\nx,0\\n", "left,right"))
def test_an_answer_of_no_window_is_told(monkeypatch: Any, tmp_path: Path, text: str) -> None:
    def answered(text: str) -> List[int]:
        monkeypatch.setenv("RJOIN", str(script(tmp_path / "rjoin", f"printf '{text}'")))
        found: List[int] = rjoin.window(["POINT (1 1)"], LONG + "(1 1)").tolist()
        return found
    assert answered("left,right\\n0,0\\n") == [0]
    with pytest.raises(rjoin.RjoinError, match="wrote no answer of its kind"):
        answered(text)


@pytest.mark.parametrize("name", CALLS)
def test_a_program_without_the_option_is_told(monkeypatch: Any, real: str, tmp_path: Path,
                                              name: str) -> None:
    """As one of another version is, and not as a wrong argument of the call."""
    line = "error: unexpected argument '--pairs' found"
    old = script(tmp_path / "rjoin", f"""case "$*" in
        *--pairs*) printf "{line}\\n\\nUsage: rjoin join\\n" >&2; exit 2 ;;
    esac
    exec "{real}" "$@\"""")
    monkeypatch.setenv("RJOIN", str(old))
    if name in WITH_LETTERS:
        assert len(CALLS[name](frame_of(BOXES)))
        return
    with pytest.raises(rjoin.RjoinError) as caught:
        CALLS[name](frame_of(BOXES))
    assert caught.type is rjoin.RjoinError
    assert str(caught.value) == f"{old} has no option --pairs, and a newer rjoin is needed"
