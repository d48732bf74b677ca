"""Pictures of layers."""
from __future__ import annotations

import xml.etree.ElementTree as xml
from pathlib import Path
from typing import Any, List

import pytest
from town import TOWN, rows_of

import rjoin

pytest.importorskip("pandas")
SVG = "{http://www.w3.org/2000/svg}"


def titles(text: str, side: str) -> List[Any]:
    root = xml.fromstring(text)
    group = next(one for one in root.iter(f"{SVG}g") if one.get("class") == side)
    return [title.text for title in group.iter(f"{SVG}title")]


def test_a_picture_has_the_features_with_their_labels(town: Any, tmp_path: Path) -> None:
    left = town["parcels"].set_index("id")
    right = town["stations"].set_axis([f"<{row}> & co" for row in range(16)])
    picture = rjoin.draw(left, right, "contains")
    text = picture._repr_svg_()
    assert titles(text, "left") == rows_of("parcels")[0]
    assert titles(text, "right") == list(right.index)
    picture.save(tmp_path / "town.svg")
    assert (tmp_path / "town.svg").read_text(encoding="utf-8") == text == picture.svg


def test_pictures_of_files_and_of_frames_are_the_same(town: Any) -> None:
    of_files = rjoin.draw(TOWN / "parcels.csv", TOWN / "roads.csv", "crosses")
    left, right = town["parcels"].set_index("id"), town["roads"].set_index("id")
    of_frames = rjoin.draw(left, right, "crosses")
    assert of_files.svg == of_frames.svg


def test_what_is_left_out_of_a_picture_is_told() -> None:
    pytest.importorskip("shapely")
    with pytest.warns(rjoin.LeftOutWarning):
        layer = ["POINT (1 1)", "GEOMETRYCOLLECTION (POINT (0 0), LINESTRING (0 0, 1 1))"]
        picture = rjoin.draw(layer, ["POINT (1 1)"], other="skip")
    assert [notice.row for notice in picture.left_out] == [2]
    assert titles(picture.svg, "left") == ["0"]


def test_more_than_100000_features_are_refused() -> None:
    with pytest.raises(rjoin.RjoinError, match="100000"):
        rjoin.draw(["POINT (1 1)"] * 100_000, ["POINT (1 1)"])
