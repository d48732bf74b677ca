"""Numbers at the ends of what the program reads, of geometries and of texts in hexadecimal
well-known binary, whose decimals don't show in them.
"""
from __future__ import annotations

import struct
from pathlib import Path
from typing import Any

import pytest

import rjoin

geopandas = pytest.importorskip("geopandas")
shapely_geometry = pytest.importorskip("shapely.geometry")
wkb = pytest.importorskip("shapely.wkb")


def binary(*points: Any, order: str = "<", code: int = 2) -> str:
    """The digits of a line."""
    numbers = [number for point in points for number in point]
    return struct.pack(f"{order}BII{len(numbers)}d", order == "<", code, len(points),
                       *numbers).hex()


@pytest.mark.parametrize("order", "<>")
def test_texts_in_binary_have_the_decimals_of_their_numbers(order: str, tmp_path: Path) -> None:
    """As a sequence and as a file; their digits look like great numbers."""
    points = [(0.125, 0.5), (3, 3)]
    text = binary(*points, order=order)
    (tmp_path / "layer.csv").write_text(f"id,wkt\na,{text}\n")
    for layer in ([text], str(tmp_path / "layer.csv")):
        assert rjoin.stats(layer).lines == 1
        assert rjoin.stats(layer, decimals="auto").decimals == 15
        assert len(rjoin.pairs(layer, ["LINESTRING (0.125 0.5, 3 3)"], "equals")) == 1
        assert len(rjoin.pairs(["POINT (3 3)"], layer, "touches", decimals="auto")) == 1


@pytest.mark.parametrize("number, decimals, told", (
    (5e-324, None, "has 324 decimals"), (5e-324, 6, None), (1e300, None, "above 1000000000000"),
    (1e300, 0, "above 1000000000000"), (-0.0, None, None), (0.1 + 0.2, None, "has 17 decimals"),
    (0.1 + 0.2, 15, None), (float("nan"), 6, "not finite"), (float("inf"), 6, "not finite")))
def test_numbers_of_texts_in_binary(number: float, decimals: Any, told: Any) -> None:
    """Each is the one that Shapely reads."""
    texts = [binary((0, 0), (1, 1)), binary((0, 0), (number, 3), (4, 9))]
    if told is None:
        lines = [wkb.loads(bytes.fromhex(text)) for text in texts]
        assert len(rjoin.pairs(texts, lines, "equals", decimals=decimals)) == 2
    else:
        with pytest.raises(rjoin.InputError, match=f"row 2 .*{told}"):
            rjoin.stats(texts, decimals=decimals)


def test_heights_in_binary_are_ignored_and_empty_points_left_out() -> None:
    heights = struct.pack("<BII6d", 1, 0x80000002, 2, 0, 0, 7, 3, 3.5, 8).hex()
    dots = struct.pack("<BIIBI2dBI2d", 1, 4, 2, 1, 1, 3, 3.5, 1, 1, *[float("nan")] * 2).hex()
    found = rjoin.pairs([heights, dots], ["LINESTRING (0 0, 3 3.5)"])
    assert found["left"].tolist() == [0, 1]
    with pytest.raises(rjoin.InputError, match="row 2 .*the geometry is empty"):
        rjoin.stats([heights, struct.pack("<BI2d", 1, 1, *[float("nan")] * 2).hex()])


@pytest.mark.parametrize("number, decimals, told", (
    (5e-324, None, "has 324 decimals"), (5e-324, 6, None), (1e300, None, "above 1000000000000"),
    (1e300, 0, "above 1000000000000"), (1e12, None, None), (1e12, 1, None), (1e18, None, None),
    (-1e18, 0, None), (1e18, 1, "above 1000000000000"), (1e18 + 128, 0, "above 1000000000000"),
    (float("nan"), 6, "not finite"), (float("inf"), 6, "not finite")))
def test_numbers_at_the_ends_of_the_range(number: float, decimals: Any, told: Any) -> None:
    layer = [shapely_geometry.LineString([(0, 0), (1, 1)]),
             shapely_geometry.LineString([(0, 0), (number, 3), (4, 9)])]
    if told is None:
        assert rjoin.stats(layer, decimals=decimals).lines == 2
    else:
        with pytest.raises(rjoin.InputError, match=f"row 2 .*{told}"):
            rjoin.stats(layer, decimals=decimals)
