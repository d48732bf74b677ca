"""The QGIS plugin's reading of well-known binary and of decimals, which needs no QGIS."""
from __future__ import annotations

import importlib
import struct
import sys
from pathlib import Path
from types import ModuleType
from typing import Sequence, Tuple

import pytest

PLUGIN = Path(__file__).resolve().parents[1] / "qgis"
Ring = Sequence[Tuple[float, float]]

SQUARE: Ring = [(0, 0), (4, 0), (4, 4), (0, 4), (0, 0)]


def module(name: str) -> ModuleType:
    """A module of the plugin that doesn't import QGIS."""
    if str(PLUGIN) not in sys.path:
        sys.path.insert(0, str(PLUGIN))
    return importlib.import_module(f"rjoin_processing.{name}")


def points(ring: Ring) -> bytes:
    return struct.pack("<I", len(ring)) + b"".join(struct.pack("<2d", *point) for point in ring)


def line(*ring: Tuple[float, float]) -> bytes:
    return struct.pack("<BI", 1, 2) + points(ring)


def polygon(*rings: Ring) -> bytes:
    return struct.pack("<BII", 1, 3, len(rings)) + b"".join(map(points, rings))


def multi(kind: int, *parts: bytes) -> bytes:
    return struct.pack("<BII", 1, kind, len(parts)) + b"".join(parts)


@pytest.mark.parametrize("wkb, bounds", [
    (struct.pack("<BI2d", 1, 1, 1.5, -2), (1.5, -2, 1.5, -2)),
    (struct.pack(">BI2d", 0, 1, 1.5, -2), (1.5, -2, 1.5, -2)),
    (struct.pack("<BI3d", 1, 1001, 1, 2, 9), (1, 2, 1, 2)),
    (struct.pack("<BI3d", 1, 0x80000001, 1, 2, 9), (1, 2, 1, 2)),
    (struct.pack("<BI4d", 1, 3001, 1, 2, 9, 9), (1, 2, 1, 2)),
    (line((3, 0), (1, 0)), (1, 0, 3, 0)),
    (line((3, 0), (2, 0), (2, 0), (1, 0)), (1, 0, 3, 0)),
    (polygon(SQUARE), (0, 0, 4, 4)),
    (polygon(SQUARE[::-1]), (0, 0, 4, 4)),
    (polygon([(2, 0), (4, 0), (4, 4), (0, 4), (0, 0), (2, 0)]), (0, 0, 4, 4)),
    (polygon([(0, 0), (4, 0), (4, 0), (4, 3), (4, 4), (0, 4), (0, 0)]), (0, 0, 4, 4)),
    (multi(6, polygon(SQUARE)), (0, 0, 4, 4)),
    (multi(7, multi(5, line((0, 0), (0, 1)))), (0, 0, 0, 1)),
])
def test_boxes(wkb: bytes, bounds: Tuple[float, ...]) -> None:
    assert tuple(module("boxes").box_of(wkb)) == bounds


@pytest.mark.parametrize("wkb, reason", [
    (struct.pack("<BI2d", 1, 1, float("nan"), float("nan")), "empty"),
    (struct.pack("<BI2d", 1, 1, float("inf"), 0), "finite"),
    (line(), "empty"),
    (line((1, 1), (1, 1)), "without a length"),
    (line((0, 0), (1, 1)), "slanted"),
    (line((0, 0), (2, 0), (1, 0)), "turns"),
    (line((0, 0), (2, 0), (2, 1)), "turns"),
    (polygon(), "empty"),
    (polygon(SQUARE, [(1, 1), (2, 1), (2, 2), (1, 1)]), "hole"),
    (polygon([(0, 0), (4, 0), (0, 4), (0, 0)]), "rectangle"),
    (polygon([(0, 0), (4, 0), (4, 4), (0, 4)]), "rectangle"),
    (polygon([(0, 0), (4, 0), (0, 0), (4, 0), (0, 0)]), "rectangle"),
    (polygon([(0, 0), (5, 0), (4, 0), (4, 4), (0, 4), (0, 0)]), "rectangle"),
    (polygon([(0, 0), (4, 0), (4, 2), (2, 2), (2, 4), (0, 4), (0, 0)]), "rectangle"),
    (multi(6, polygon(SQUARE), polygon(SQUARE)), "several parts"),
    (multi(4), "empty"),
    (struct.pack("<BII6d", 1, 8, 3, 0, 0, 1, 1, 2, 0), "curve"),
])
def test_others(wkb: bytes, reason: str) -> None:
    boxes = module("boxes")
    with pytest.raises(boxes.NotABox, match=reason):
        boxes.box_of(wkb)


@pytest.mark.parametrize("numbers, decimals", [
    ([], 0), ([1.0, -3.0], 0), ([0.5], 1), ([0.1, 2.25, 7.0], 2), ([0.29], 2), ([1e6 - 1e-6], 6),
    ([1e12], 0), ([0.000001], 6), ([1.0, 0.1 + 0.2], 15), ([0.0000001], 7),
    ([0.5, 179.123456789012], 12), ([0.123456789012345], 15), ([5812393.255999999], 9),
])
def test_fewest_decimals(numbers: Sequence[float], decimals: int) -> None:
    assert module("decimals").fewest_decimals(numbers) == decimals


def test_limit_depends_on_decimals() -> None:
    decimals = module("decimals")
    decimals.check_limit([1e3], 15)
    with pytest.raises(decimals.CoordinateError):
        decimals.check_limit([1e3 + 0.5], 15)
    assert decimals.most_decimals([1.0, -5.5e6]) == 11 and decimals.most_decimals([]) == 15
    assert decimals.BOXES.fit([1e6], 6) and not decimals.BOXES.fit([1e6 + 0.5], 6)
    assert not decimals.BOXES.fit([1.0], 7) and decimals.BOXES.in_range([-5.5e6]) == 5
    assert list(decimals.rounded_places([0.29, -1.005], 2)) == [1]


@pytest.mark.parametrize("number, decimals, units", [
    (0.29, 2, 29), (-1.005, 2, -101), (0.125, 2, 13), (2.5, 0, 3), (-2.5, 0, -3),
    (0.1 + 0.2, 6, 300000), (1.5e-7, 6, 0), (5e-7, 6, 1),
])
def test_rounding_is_half_a_unit_away_from_zero(number: float, decimals: int, units: int) -> None:
    assert module("decimals").in_units(number, decimals) == units


@pytest.mark.parametrize("number, text", [
    (0.1 + 0.2, "0.30000000000000004"), (-3.0, "-3"), (1.5e-07, "1.5e-07"),
    (500000.25, "500000.25"),
])
def test_texts_of_numbers(number: float, text: str) -> None:
    assert module("decimals").text(number) == text


TRIANGLE: Ring = [(0, 0), (4, 1), (0, 4.5), (0, 0)]
# The word and the part of a geometry's text, by its kind of WKB.
FORMS = {1: ("MULTIPOINT", "{}"), 2: ("MULTILINESTRING", "{}"), 3: ("MULTIPOLYGON", "({})")}


def wkt_of(wkb: bytes) -> str:
    """The geometry as text, by its form and its coordinates."""
    form, coordinates = module("shapes").shape_of(wkb)
    numbers = map(module("decimals").text, coordinates)
    points = [[",".join(f"{next(numbers)} {next(numbers)}" for _ in range(count))
               for count in rings] for rings in form.parts]
    parts = [",".join(f"({ring})" for ring in rings) for rings in points]
    word, part = FORMS[form.kind]
    return f"{word}({','.join(map(part.format, parts))})"


@pytest.mark.parametrize("wkb, text", [
    (struct.pack("<BI2d", 1, 1, 1.5, -2), "MULTIPOINT((1.5 -2))"),
    (line((3, 0), (1, 1), (1, 1)), "MULTILINESTRING((3 0,1 1,1 1))"),
    (polygon(TRIANGLE, SQUARE), "MULTIPOLYGON(((0 0,4 1,0 4.5,0 0),(0 0,4 0,4 4,0 4,0 0)))"),
    (polygon(TRIANGLE, []), "MULTIPOLYGON(((0 0,4 1,0 4.5,0 0)))"),
    (multi(4, struct.pack(">BI2d", 0, 1, 1, 2), struct.pack("<BI3d", 1, 1001, 3, 4, 9)),
     "MULTIPOINT((1 2),(3 4))"),
    (multi(4, struct.pack("<BI2d", 1, 1, float("nan"), float("nan")),
           struct.pack("<BI2d", 1, 1, 3, 4)), "MULTIPOINT((3 4))"),
    (multi(5, line((0, 0), (1, 1)), line(), line((2, 2), (3, 4))),
     "MULTILINESTRING((0 0,1 1),(2 2,3 4))"),
    (multi(6, polygon(TRIANGLE), polygon(SQUARE)),
     "MULTIPOLYGON(((0 0,4 1,0 4.5,0 0)),((0 0,4 0,4 4,0 4,0 0)))"),
    (multi(7, multi(5, line((0, 0), (1, 1)))), "MULTILINESTRING((0 0,1 1))"),
])
def test_shapes(wkb: bytes, text: str) -> None:
    assert wkt_of(wkb) == text


@pytest.mark.parametrize("wkb, reason", [
    (line(), "empty"), (polygon(), "empty"), (polygon([]), "empty"), (multi(4), "empty"),
    (multi(7), "empty"),
    (struct.pack("<BI2d", 1, 1, float("inf"), 0), "finite"),
    (line((1, 1), (1, 1)), "a line without a length"),
    (multi(5, line((0, 0), (1, 1)), line((1, 1), (1, 1))), "a line without a length"),
    (polygon(TRIANGLE[:-1]), "a ring that isn't closed"),
    (polygon([(1, 1), (1, 1), (1, 1), (1, 1)]), "a polygon that is a point"),
    (multi(7, line((0, 0), (1, 1)), polygon(TRIANGLE)), "a collection of several geometries"),
    (struct.pack("<BII6d", 1, 8, 3, 0, 0, 1, 1, 2, 0), "a curve or surface"),
])
def test_what_is_not_read(wkb: bytes, reason: str) -> None:
    shapes = module("shapes")
    with pytest.raises(shapes.NotRead, match=reason):
        shapes.shape_of(wkb)


def test_rounding_may_leave_a_point() -> None:
    """A line and a polygon do at 2 decimals, and not at 3; 0.0049 and 0.005 stay apart."""
    shapes = module("shapes")
    short = line((0.011, 0), (0.012, 0.001))
    tiny = polygon([(0, 0), (0.001, 0), (0, 0.001), (0, 0)])
    for wkb, reason in ((short, "no length once rounded to 2"),
                        (tiny, "a point once rounded to 2")):
        shapes.shape_of(wkb, 3)
        with pytest.raises(shapes.NotRead, match=reason):
            shapes.shape_of(wkb, 2)
    shapes.shape_of(line((0.0049, 0), (0.005, 0.001)), 2)
