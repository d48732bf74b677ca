"""Geometries of any form beside Shapely and GeoPandas, and rings that are not proper.

Lines run along the axes and diagonals of a grid, so that they cross at places which doubles hold
and GEOS computes exactly. None crosses itself: of a line whose end lies on another of its points,
GEOS counts this end among the points of the interior too.
"""
from __future__ import annotations

import csv
import warnings
import xml.etree.ElementTree as xml
from pathlib import Path
from typing import Any, Callable, Dict, List, Tuple

import numpy as np
import pandas
import pytest

import rjoin
from rjoin import outlines, shapes, sources

geopandas = pytest.importorskip("geopandas")
shapely = pytest.importorskip("shapely")
wkt = pytest.importorskip("shapely.wkt")
affinity = pytest.importorskip("shapely.affinity")
shapely_geometry = pytest.importorskip("shapely.geometry")

SVG = "{http://www.w3.org/2000/svg}"
PREDICATES = ("intersects", "touches", "crosses", "within", "contains", "overlaps", "covers",
              "contains_properly")
RELATIONS = ("intersects", "touches", "crosses", "within", "contains", "overlaps", "equals",
             "covers", "covered_by", "T********", "****1****", "*T*******")
HEADINGS = [(1, 0), (1, 1), (0, 1), (-1, 1), (-1, 0), (-1, -1), (0, -1), (1, -1)]
# Around the origin: outer rings, and holes for them that are smaller.
RINGS = ([(0, 4), (-4, 0), (0, -4), (4, 0)], [(-4, -4), (4, -4), (-4, 4)],
         [(4, 2), (2, 4), (-2, 4), (-4, 2), (-4, -2), (-2, -4), (2, -4), (4, -2)],
         [(-4, -4), (4, -4), (4, 4), (0, 0), (-4, 4)])
HOLES = ([(0, -1), (-1, -2), (0, -3), (1, -2)], [(-2, -2), (-1, -2), (-2, -1)])
TEXTS = (
    "POINT (1 2)", "LINESTRING (0 0, 3 3)", "LINESTRING (0 0, 2 0, 2 2, 0 0)",
    "LINESTRING (0 0, 4 4, 4 2)", "POLYGON ((0 0, 4 0, 0 4, 0 0))",
    "POLYGON ((0 0, 8 0, 8 8, 0 8, 0 0), (2 2, 4 2, 2 4, 2 2), (6 6, 7 6, 7 7, 6 6))",
    "MULTIPOINT (1 2, 3 3, 9 9)", "MULTILINESTRING ((0 0, 3 3), (5 0, 5 9), (0 9, 9 0))",
    "MULTIPOLYGON (((0 0, 2 0, 0 2, 0 0)), ((5 5, 9 5, 9 9, 5 9, 5 5), (6 6, 8 6, 8 8, 6 6)))",
    "POLYGON ((0 0, 9 0, 9 9, 0 9, 0 0))", "LINESTRING (0 0, 0 3)",
)
COLLECTION = "GEOMETRYCOLLECTION (POINT (1 2), LINESTRING (3 3, 4 4))"
BOW_TIE = "POLYGON ((0 0, 4 4, 4 0, 0 4, 0 0))"
FLAT = "POLYGON ((0 0, 4 0, 0 0, 0 0))"


def simple(make: Callable[[Any], Any]) -> Callable[[Any], Any]:
    """Makes geometries until one doesn't cross or touch itself."""
    def made(random: Any) -> Any:
        shape = make(random)
        return shape if shape.is_simple else made(random)
    return made


def walk(random: Any) -> List[Tuple[int, int]]:
    """A polyline with steps along axes and diagonals."""
    x, y = random.integers(-12, 12, 2).tolist()
    points = [(x, y)]
    for _ in range(int(random.integers(1, 5))):
        along, up = HEADINGS[int(random.integers(0, 8))]
        length = int(random.integers(1, 6))
        points.append((points[-1][0] + along * length, points[-1][1] + up * length))
    return points


def area(random: Any, hole: bool) -> Any:
    ring, inner = RINGS[int(random.integers(0, 3 + (not hole)))], HOLES[int(random.integers(0, 2))]
    shape = shapely_geometry.Polygon(ring, [inner] if hole else [])
    return affinity.translate(shape, *random.integers(-12, 12, 2).tolist())


def areas(random: Any) -> Any:
    """Two areas beside each other, the second one with a hole."""
    return shapely_geometry.MultiPolygon([area(random, False), affinity.translate(
        area(random, True), 40, 0)])


MADE: Tuple[Callable[[Any], Any], ...] = (
    lambda random: shapely_geometry.Point(random.integers(-12, 12, 2).tolist()),
    lambda random: shapely_geometry.box(*[-3, -2, *random.integers(0, 9, 2).tolist()]),
    simple(lambda random: shapely_geometry.LineString(walk(random))),
    lambda random: area(random, False), lambda random: area(random, True), areas,
    lambda random: shapely_geometry.MultiPoint(random.integers(-12, 12, (3, 2)).tolist()),
    simple(lambda random: shapely_geometry.MultiLineString([walk(random), walk(random)])),
)


def mixture(seed: int, count: int, unit: float = 1.0) -> Any:
    """Geometries of all forms, in units of a power of two."""
    random = np.random.default_rng(seed)
    shapes = [MADE[int(random.integers(0, len(MADE)))](random) for _ in range(count)]
    shapes = [affinity.scale(shape, unit, unit, origin=(0, 0)) for shape in shapes]
    return geopandas.GeoDataFrame({"n": range(count)}, geometry=shapes,
                                  index=[f"id {count - row}" for row in range(count)])


def without_touching_holes(frame: Any) -> Any:
    """Without areas whose hole touches the shell, which GEOS 3.13 relates wrongly to others.

    It gives POLYGON ((0 0, 8 0, 8 8, 0 8, 0 0), (4 0, 5 2, 3 2, 4 0)) and
    POLYGON ((1 0, 9 0, 9 -8, 1 0)) a common interior.
    """
    parts = [getattr(shape, "geoms", [shape]) for shape in frame.geometry]
    touching = [any(part.geom_type == "Polygon" and any(
        hole.intersects(part.exterior) for hole in part.interiors) for part in some)
        for some in parts]
    return frame[~np.array(touching)]


def holds(one: Any, other: Any, relation: str) -> bool:
    if "*" in relation:
        return bool(one.relate_pattern(other, relation))
    return bool(getattr(one, relation)(other))


def shapelys(left: Any, right: Any, relation: str) -> List[Tuple[Any, Any, str]]:
    return [(name, other, one.relate(two)) for name, one in left.geometry.items()
            for other, two in right.geometry.items() if holds(one, two, relation)]


@pytest.mark.parametrize("predicate", PREDICATES)
def test_geometries_of_any_form_are_joined_as_geopandas_does(predicate: str) -> None:
    for seed, unit in ((1, 1.0), (2, 0.25)):
        left, right = mixture(seed, 150, unit), mixture(seed + 10, 150, unit)
        if getattr(shapely, "geos_version", (0,)) >= (3, 13):
            left, right = without_touching_holes(left), without_touching_holes(right)
        theirs = geopandas.sjoin(left, right, predicate=predicate)
        ours = rjoin.sjoin(left, right, predicate, workers=2)
        found = list(zip(ours["n_left"], ours["n_right"]))
        assert found and found == sorted(zip(theirs["n_left"], theirs["n_right"]))
        assert list(ours.columns) == list(theirs.columns)
        theirs = geopandas.sjoin(left, right, "left", predicate)
        ours = rjoin.sjoin(left, right, predicate, "left")
        assert len(ours) == len(theirs)
        assert ours["n_right"].isna().sum() == theirs["n_right"].isna().sum()


@pytest.mark.parametrize("relation", RELATIONS)
def test_pairs_and_letters_are_those_of_shapely(relation: str, tmp_path: Path) -> None:
    """Whatever the layers are given as."""
    left, right = mixture(3, 60), mixture(4, 60)
    expected = shapelys(left, right, relation)
    path = tmp_path / "right.csv"
    with open(path, "w", newline="", encoding="utf-8") as file:
        csv.writer(file).writerows([("id", "wkt"), *right.geometry.to_wkt().items()])
    for one, other in ((left, right), (left.geometry.to_wkt(), right), (left, path),
                       (left.geometry, right.geometry.to_wkt())):
        found = rjoin.pairs(one, other, relation)
        assert [tuple(row) for row in found.itertuples(index=False)] == expected


def test_each_form_is_read_with_each_other() -> None:
    for one in TEXTS:
        for other in TEXTS:
            letters = wkt.loads(one).relate(wkt.loads(other))
            assert rjoin.relate(one, wkt.loads(other)) == letters
            assert rjoin.relate(wkt.loads(one), other) == letters
            met = rjoin.window([other, "POINT (99 99)"], one)
            assert met.tolist() == ([] if letters.startswith("FF") and letters[3:5] == "FF"
                                    else [0])
            assert rjoin.window([wkt.loads(other)], wkt.loads(one)).tolist() == met.tolist()


def test_an_end_on_its_own_line_is_a_point_of_the_boundary() -> None:
    """By the definition (OGC 06-103r4, 6.1.6): an end of one of the curves alone."""
    assert rjoin.relate("LINESTRING (0 0, 4 4, 2 2)", TEXTS[4]) == "1F1F0F212"


def test_layers_of_boxes_are_given_as_boxes(monkeypatch: Any, real: str, tmp_path: Path) -> None:
    """And any geometry only if one feature needs it, whichever side has it."""
    program = tmp_path / "rjoin"
    program.write_text(f'#!/bin/sh\necho "$@" >>{tmp_path}/words\nexec "{real}" "$@"\n')
    program.chmod(0o755)
    monkeypatch.setenv("RJOIN", str(program))
    boxes = geopandas.GeoSeries([wkt.loads(text) for text in (TEXTS[0], *TEXTS[-2:])])
    others = geopandas.GeoSeries([wkt.loads(text) for text in TEXTS])
    for left, right, needed in ((boxes, boxes, False), (boxes, others, True),
                                (others, boxes, True), (boxes.to_wkt(), boxes, False)):
        (tmp_path / "words").write_text("")
        rjoin.pairs(left, right)
        (line,) = [line for line in (tmp_path / "words").read_text().splitlines()
                   if line.startswith("join")]
        assert ("--geometry any" in line) == needed
    (tmp_path / "words").write_text("")
    rjoin.pairs(boxes, others.to_wkt())
    assert (tmp_path / "words").read_text().count("--geometry any") == 1


def test_texts_of_several_parts_are_read_without_shapely(monkeypatch: Any) -> None:
    monkeypatch.setattr(sources, "has_shapely", lambda: False)
    for text in TEXTS:
        assert rjoin.stats([text]).features == 1
        assert rjoin.relate(text, text) == wkt.loads(text).relate(wkt.loads(text))


def test_parts_that_are_empty_are_left_away() -> None:
    for text, plain in (
            ("MULTIPOINT (EMPTY, (1 1), (3 3))", "MULTIPOINT (1 1, 3 3)"),
            ("MULTILINESTRING ((0 0, 3 3), EMPTY, (5 0, 5 9))",
             "MULTILINESTRING ((0 0, 3 3), (5 0, 5 9))"),
            ("MULTILINESTRING (EMPTY, (0 0, 3 3), (5 0, 5 9), EMPTY)",
             "MULTILINESTRING ((0 0, 3 3), (5 0, 5 9))"),
            ("MULTIPOLYGON (EMPTY, ((0 0, 2 0, 0 2, 0 0)), ((5 5, 9 5, 5 9, 5 5)))",
             "MULTIPOLYGON (((0 0, 2 0, 0 2, 0 0)), ((5 5, 9 5, 5 9, 5 5)))")):
        for other in TEXTS:
            assert rjoin.relate(wkt.loads(text), other) == rjoin.relate(plain, other)


def test_counts_are_of_points_lines_and_areas() -> None:
    frame = mixture(5, 100)
    dimensions = frame.geometry.map(lambda one: one.geom_type.replace("Multi", "")).tolist()
    for layer in (frame, frame.geometry.to_wkt()):
        counts = rjoin.stats(layer)
        assert counts[:4] == (100, dimensions.count("Point"), None, None)
        assert (counts.lines, counts.areas) == tuple(
            map(dimensions.count, ("LineString", "Polygon")))
    boxes = rjoin.stats([TEXTS[0], *TEXTS[-2:]])
    assert boxes[:4] == (3, 1, 1, 1)
    assert (boxes.lines, boxes.areas, boxes.vertices) == (1, 1, None)
    assert rjoin.stats(["LINESTRING (0 0, 3 2, 5 2)", "POLYGON ((0 0, 4 0, 0 4, 0 0))"]
                       ).vertices == 7


def test_pictures_have_geometries_of_any_form() -> None:
    layer = mixture(6, 40)
    text = rjoin.draw(layer, TEXTS, "crosses").svg
    titles = [title.text for title in xml.fromstring(text).iter(f"{SVG}title")]
    assert sorted(map(str, titles)) == sorted([*layer.index, *map(str, range(len(TEXTS)))])


def long_line(count: int) -> Any:
    """A line up and down along an axis, with a text that is longer than a word may be."""
    return shapely_geometry.LineString([(place, place % 2) for place in range(count)])


def test_long_geometries_are_windows_and_letters_are_refused() -> None:
    line = long_line(40_000)
    points = geopandas.GeoSeries.from_wkt(["POINT (7 1)", "POINT (8 1)", "POINT (39999 1)"])
    for window in (line, line.wkt):
        assert rjoin.window(points, window).tolist() == [0, 2]
        assert rjoin.window(points.to_wkt(), window).tolist() == [0, 2]
        assert rjoin.window(points.set_axis(list("abc")), window).tolist() == ["a", "c"]
        with pytest.raises(rjoin.InputError, match="^second: its text has .* bytes"):
            rjoin.relate("POINT (0 0)", window)
    flat = shapely_geometry.LineString([(0, 0)] * 40_000)
    with pytest.raises(rjoin.InputError, match="^window: a line without length"):
        rjoin.window(points, flat)
    with pytest.raises(rjoin.InputError, match="^layer: row 1 .*a line without length"):
        rjoin.window(["LINESTRING (1 1, 1 1)"], line)


def test_faults_have_the_row_behind_those_that_are_left_out() -> None:
    """Those that the program finds, and numbers, of boxes and of any geometry."""
    faults: Tuple[Tuple[str, Dict[str, Any], str], ...] = (
        (BOW_TIE, {"rings": "proper"}, "rings cross"),
        ("POINT (0.1234567812345678 1)", {}, "has 16 decimals"),
        ("POINT (0.25 1)", {"scale": 1}, "more than 1 decimals"),
        ("POINT (1e19 1)", {}, "is above"))
    for before in ((COLLECTION, "POINT (1 1)"), (COLLECTION, "LINESTRING (0 0, 3 3)")):
        for text, rules, told in faults:
            layer = geopandas.GeoSeries([wkt.loads(one) for one in (*before, text)],
                                        index=list("abc"))
            for given in (layer, layer.to_wkt()):
                with pytest.raises(rjoin.InputError, match=f"row 3 .feature 'c'.: .*{told}"):
                    rjoin.stats(given, other="skip", **rules)


def test_what_two_parts_both_cover_is_outside() -> None:
    """A part within another one is a hole, as a ring of a polygon would be."""
    crossing = "MULTIPOLYGON (((0 0, 4 0, 4 4, 0 4, 0 0)), ((2 2, 6 2, 6 6, 2 6, 2 2)))"
    nested = "MULTIPOLYGON (((0 0, 9 0, 9 9, 0 9, 0 0)), ((2 2, 4 2, 4 4, 2 4, 2 2)))"
    points = ["POINT (1 1)", "POINT (3 3)", "POINT (5 5)"]
    for given in (crossing, wkt.loads(crossing)):
        with pytest.warns(rjoin.ImproperRingsWarning):
            assert rjoin.pairs([given], points, "contains")["right"].tolist() == [0, 2]
    with warnings.catch_warnings():
        warnings.simplefilter("error", rjoin.ImproperRingsWarning)
        for given in (nested, wkt.loads(nested)):
            for rings in ("even-odd", "proper"):
                found = rjoin.pairs([given], points, "contains", rings=rings)
                assert found["right"].tolist() == [0, 2]


def test_rings_of_long_windows_are_read_as_those_of_short_ones() -> None:
    """Two triangles that meet where a line crosses a side of 30,000 points."""
    up = [(place, place) for place in range(30_000)]
    bow_tie = shapely_geometry.Polygon([*up, (29_999, 0), (0, 29_999)])
    triangle = shapely_geometry.Polygon([*up, (29_999, 0)])
    points = ["POINT (29998 15000)", "POINT (15000 1)", "POINT (1 15000)"]
    for window in (bow_tie, bow_tie.wkt):
        for layer in (points, geopandas.GeoSeries.from_wkt(points)):
            with pytest.warns(rjoin.ImproperRingsWarning, match="^window: rings [^;]*; the"):
                assert rjoin.window(layer, window).tolist() == [0, 2]
            with pytest.raises(rjoin.InputError, match="^window: rings cross") as refused:
                rjoin.window(layer, window, rings="proper")
            assert refused.value.row is None
    crossed = ["POINT (29998 15000)", "POLYGON ((9 0, 13 4, 13 0, 9 4, 9 0))", "POINT (1 2)"]
    for window in (triangle, triangle.wkt):
        with pytest.warns(rjoin.ImproperRingsWarning, match="^layer: row 2 .* rings [^;]*; the"):
            assert rjoin.window(crossed, window).tolist() == [0, 1]
        with pytest.raises(rjoin.InputError, match="^layer: row 2 .feature 1.: rings cross"):
            rjoin.window(crossed, window, rings="proper")


@pytest.mark.parametrize("chunk, few", ((1, 0), (7, 3), (1 << 16, 1000)))
def test_outlines_are_read_and_written_alike_in_parts(monkeypatch: Any, chunk: int,
                                                      few: int) -> None:
    monkeypatch.setattr(outlines, "CHUNK", chunk)
    monkeypatch.setattr(outlines, "FEW", few)
    left, right = mixture(7, 90, 0.5), mixture(8, 40, 0.5)
    expected = [(one, other) for one, other, _ in shapelys(left, right, "intersects")]
    found = rjoin.pairs(left, right)
    assert list(zip(found["left"], found["right"])) == expected
    beside_texts = rjoin.pairs(left, right.geometry.to_wkt())
    pandas.testing.assert_frame_equal(beside_texts, found)


def read(geometries: List[Any]) -> Tuple[List[Any], ...]:
    """What is known of geometries: their status, corners if they are boxes, and outlines."""
    values = np.fromiter(geometries, object)
    boxes = shapes.boxes_of(values)
    found = outlines.outlines_of(boxes.given, np.flatnonzero(boxes.status <= shapes.Status.ANY))
    is_box = boxes.status == shapes.Status.BOX
    columns = (boxes.status, boxes.corners[is_box], *found)
    return tuple(np.asarray(column).tolist() for column in columns)


SIMPLE = ("POINT (1 2)", "POINT Z (3 4 5)", "LINESTRING (0 0, 3 3)", "LINESTRING (0 0, 0 2, 0 5)",
          "LINESTRING Z (0 0 9, 2 0 8)", "LINEARRING (0 0, 2 0, 2 2, 0 0)",
          "POLYGON ((0 0, 4 0, 0 4, 0 0))", "POLYGON ((0 0, 4 0, 4 4, 0 4, 0 0))",
          "POLYGON Z ((0 0 1, 4 0 1, 4 2 1, 4 4 1, 0 4 1, 0 0 1))",
          "POLYGON ((0 0, 4 0, 4 2, 2 2, 2 4, 0 4, 0 0))")
HOLED = "POLYGON ((0 0, 8 0, 8 8, 0 8, 0 0), (2 2, 4 2, 2 4, 2 2))"


def test_points_that_are_copied_are_those_of_binary(monkeypatch: Any) -> None:
    """Of layers of one part each without holes, by GEOS or Shapely, beside well-known binary."""
    texts = [text for place in range(40) for text in SIMPLE[:place % len(SIMPLE) + 1]]
    geometries = [wkt.loads(text) for text in texts]
    simple_layer = shapes.simple_of(np.fromiter(geometries, object))
    assert simple_layer is not None and len(simple_layer.points) == simple_layer.size.sum()
    copied = read(geometries), read([wkt.loads("LINESTRING (0 0, 3 3)")]), read([])
    for others in ([HOLED], ["MULTIPOINT (1 2)"], [HOLED, *SIMPLE], [*SIMPLE, HOLED],
                   ["POINT EMPTY"], ["POINT (0 0)", "GEOMETRYCOLLECTION EMPTY"]):
        assert shapes.simple_of(np.fromiter(map(wkt.loads, others), object)) is None or (
            others == ["POINT EMPTY"])
    monkeypatch.setattr(shapes, "simple_of", lambda _: None)
    assert copied == (read(geometries), read([wkt.loads("LINESTRING (0 0, 3 3)")]), read([]))


def test_numbers_that_are_not_finite_are_refused() -> None:
    """Of lines whose first step is slanted too."""
    for number in (np.inf, -np.inf, np.nan):
        for points in ([(0, 0), (1, number)], [(0, 0), (2, 3), (number, 4)]):
            layer = geopandas.GeoSeries([shapely_geometry.LineString([(0, 0), (1, 1)]),
                                         shapely_geometry.LineString(points)])
            with pytest.raises(rjoin.InputError, match="not finite"):
                rjoin.stats(layer)


def test_a_geometry_with_very_many_parts_is_read() -> None:
    squares = shapely_geometry.MultiPolygon(
        [shapely_geometry.box(2 * place, 0, 2 * place + 1, 1) for place in range(20_000)])
    points = ["POINT (7 1)", "POINT (6 1)", "POINT (39999 1)", "POINT (39998.5 0.5)"]
    assert rjoin.window(points, "POINT (7 1)").tolist() == [0]
    assert rjoin.pairs([squares], points)["right"].tolist() == [0, 1, 2, 3]
    assert rjoin.pairs([squares], points, "contains")["right"].tolist() == [3]


def test_what_the_program_does_not_read_is_refused_or_left_out() -> None:
    layer = geopandas.GeoSeries([wkt.loads(text) for text in (
        TEXTS[1], COLLECTION, "LINESTRING (1 1, 1 1)", TEXTS[4],
        "MULTILINESTRING ((0 0, 1 1), (2 2, 2 2))")], index=list("abcde"))
    for rows, reason in ((layer.iloc[:2], "several of one kind"),
                         (layer.iloc[::2], "a line without length"),
                         (layer.iloc[3:], "a line without length")):
        for given in (rows, rows.to_wkt()):
            with pytest.raises(rjoin.InputError, match=f"row 2 .*{reason}") as caught:
                rjoin.stats(given)
            assert caught.value.feature == rows.index[1]
    for given in (layer, layer.to_wkt()):
        with pytest.warns(rjoin.LeftOutWarning, match="3 features.*row 2"):
            counts = rjoin.stats(given, other="skip")
        assert (counts.lines, counts.areas) == (1, 1)
        assert [notice.feature for notice in counts.left_out] == ["b", "c", "e"]
    with pytest.raises(rjoin.InputError, match="window: .*several of one kind"):
        rjoin.window(layer.iloc[:1], wkt.loads(COLLECTION), other="skip")


def test_rings_that_are_not_proper_are_read_by_the_even_odd_rule_or_refused() -> None:
    layer = geopandas.GeoSeries.from_wkt(["POLYGON ((0 0, 4 0, 0 4, 0 0))", BOW_TIE, FLAT],
                                         index=list("abc"))
    points = ["POINT (2 1)", "POINT (2 3)", "POINT (1 2)", "POINT (2 2)"]
    for given in (layer, layer.to_wkt()):
        for rows, feature, reason in ((given.iloc[:2], "b", "rings cross or overlap"),
                                      (given.iloc[::2], "c", "is flat")):
            with pytest.warns(rjoin.ImproperRingsWarning,
                              match=f"left: row 2 .feature '{feature}'.*{reason}.*even-odd"
                              ) as caught:
                found = rjoin.pairs(rows, points)
            assert [warning.filename for warning in caught] == [__file__]
            with pytest.raises(rjoin.InputError, match=f"left: row 2 .*{reason}"):
                rjoin.pairs(rows, points, rings="proper")
        with pytest.warns(rjoin.ImproperRingsWarning, match="left: 2 features: rings cross, "
                          "overlap or are flat: row 2 .feature 'b'., row 3 .feature 'c'.; the "):
            rjoin.pairs(given, points)
        with pytest.warns(rjoin.ImproperRingsWarning,
                          match="right: 12 features: .*, row 5 .feature 4. and 7 more"):
            rjoin.pairs(points, geopandas.GeoSeries([layer["b"]] * 12))
        with pytest.warns(rjoin.ImproperRingsWarning):
            found = rjoin.pairs(given.iloc[1:2], points, "contains")
        assert found["right"].tolist() == [2]
        with pytest.warns(rjoin.ImproperRingsWarning, match="^window: rings cross"):
            assert rjoin.window(points, given["b"]).tolist() == [2, 3]
    with warnings.catch_warnings():
        warnings.simplefilter("error", rjoin.ImproperRingsWarning)
        rjoin.pairs(layer.iloc[:1], points)
        rjoin.relate(layer["a"], TEXTS[5])
    for first, second, sides in ((BOW_TIE, TEXTS[4], "^first: "),
                                 (FLAT, BOW_TIE, "^first: .*; second: "),
                                 (TEXTS[4], wkt.loads(BOW_TIE), "^second: ")):
        with pytest.warns(rjoin.ImproperRingsWarning, match=sides) as caught:
            rjoin.relate(first, second)
        assert caught[0].filename == __file__
        with pytest.raises(rjoin.InputError, match="(first|second): (rings cross|a line without)"):
            rjoin.relate(first, second, rings="proper")
    frame = geopandas.GeoDataFrame(geometry=layer)
    calls: Tuple[Callable[..., Any], ...] = (
        lambda **rules: rjoin.sjoin(frame, frame, **rules),
        lambda **rules: rjoin.draw(points, layer, **rules),
        lambda **rules: rjoin.window(points, layer["b"], **rules),
        lambda **rules: rjoin.window(layer, points[0], **rules))
    for call in calls:
        with pytest.warns(rjoin.ImproperRingsWarning):
            call()
        with pytest.raises(rjoin.InputError, match="(rings cross|a line without)"):
            call(rings="proper")
    with pytest.raises(rjoin.ArgumentError, match="rings must be"):
        rjoin.stats(layer, rings="even")
