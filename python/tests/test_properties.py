"""All calls on random layers, beside Shapely's own answers; a seed makes the same layers again."""
from __future__ import annotations

import csv
import xml.etree.ElementTree as xml
from pathlib import Path
from typing import Any, Callable, Dict, List, NamedTuple, Optional, Tuple

import numpy as np
import pandas
import pytest

import rjoin

geopandas = pytest.importorskip("geopandas")
shapely_geometry = pytest.importorskip("shapely.geometry")
shapely_prepared = pytest.importorskip("shapely.prepared")
strtree = pytest.importorskip("shapely.strtree")

SVG = "{http://www.w3.org/2000/svg}"
ODD_IDS = ("NA", "nan", "None", "NULL", "N/A", "<NA>", "-", "1e5", "007", "7", "true", "-1.#IND")
RELATIONS = ("touches", "crosses", "within", "contains", "overlaps", "equals", "intersects",
             "covers", "covered_by", "contains_properly", "T********", "****1****", "*T*******")
SIZES = (16_383, 16_384, 16_385, 65_535, 65_536, 65_537)
SEEDS = range(24)


class Layer(NamedTuple):
    """Geometries, their texts, which have up to some decimals, and a label for each."""

    geometries: List[Any]
    texts: List[str]
    labels: List[str]
    decimals: int

    def file(self, path: Path) -> Path:
        with open(path, "w", newline="", encoding="utf-8") as output:
            csv.writer(output).writerows([("id", "wkt"), *zip(self.labels, self.texts)])
        return path

    def frame(self) -> Any:
        return geopandas.GeoDataFrame({"n": range(len(self.texts))}, geometry=self.geometries,
                                      index=self.labels)


FORMS: Dict[str, Callable[[Layer, Path], Any]] = {
    "frame": lambda layer, path: layer.frame(),
    "series": lambda layer, path: layer.frame().geometry,
    "series of texts": lambda layer, path: pandas.Series(layer.texts, layer.labels),
    "file": lambda layer, path: layer.file(path),
}


def made(random: Any, size: int, decimals: int) -> Layer:
    """Points, segments and rectangles around 0, of whole units of the last decimal.

    Many coordinates are between -1 and 0, and many sides and corners coincide.
    """
    span = max(4, int(size ** 0.5))
    lows = random.integers(-span, span, (size, 2))
    corners = np.hstack([lows, lows + random.integers(0, 4, (size, 2))])
    geometries = [shape(*row) for row in (corners / 10 ** decimals).tolist()]
    texts = [text(row, decimals) for row in corners.tolist()]
    labels = [*ODD_IDS, *(f"id {number}" for number in range(len(ODD_IDS), size))][:size]
    return Layer(geometries, texts, random.permutation(labels).tolist(), decimals)


def shape(x1: float, y1: float, x2: float, y2: float) -> Any:
    if (x1, y1) == (x2, y2):
        return shapely_geometry.Point(x1, y1)
    if x1 == x2 or y1 == y2:
        return shapely_geometry.LineString([(x1, y1), (x2, y2)])
    return shapely_geometry.box(x1, y1, x2, y2)


def text(corners: List[int], decimals: int) -> str:
    """The text of a box, by whole numbers alone."""
    x1, y1, x2, y2 = (decimal(number, decimals) for number in corners)
    if (x1, y1) == (x2, y2):
        return f"POINT ({x1} {y1})"
    if x1 == x2 or y1 == y2:
        return f"LINESTRING ({x1} {y1}, {x2} {y2})"
    return f"POLYGON (({x1} {y1}, {x2} {y1}, {x2} {y2}, {x1} {y2}, {x1} {y1}))"


def decimal(number: int, decimals: int) -> str:
    digits = f"{abs(number):0{decimals + 1}}"
    whole, rest = digits[:len(digits) - decimals], digits[len(digits) - decimals:]
    return ("-" if number < 0 else "") + (f"{whole}.{rest}" if decimals else whole)


Triple = Tuple[int, int, str]


def shapelys(left: Layer, right: Layer, relation: str) -> List[Triple]:
    """The pairs by their places, in order, with their letters."""
    tree = strtree.STRtree(right.geometries)
    places = {id(geometry): place for place, geometry in enumerate(right.geometries)}
    return [(one, other, geometry.relate(right.geometries[other]))
            for one, geometry in enumerate(left.geometries)
            for other in sorted(place_of(found, places) for found in tree.query(geometry))
            if holds(geometry, right.geometries[other], relation)]


def place_of(found: Any, places: Dict[int, int]) -> int:
    """The place of what a tree has found: a geometry, and from Shapely 2 on the place."""
    return places[id(found)] if hasattr(found, "geom_type") else int(found)


def holds(one: Any, other: Any, relation: str) -> bool:
    if "*" in relation:
        return bool(one.relate_pattern(other, relation))
    if relation == "contains_properly":  # which Shapely 1.8 has of prepared geometries alone
        return bool(shapely_prepared.prep(one).contains_properly(other))
    return bool(getattr(one, relation)(other))


def labelled(triples: List[Triple], left: Layer, right: Layer) -> List[Tuple[str, str, str]]:
    return [(left.labels[one], right.labels[other], matrix) for one, other, matrix in triples]


def rows(frame: Any) -> List[Tuple[Any, ...]]:
    return [tuple(row) for row in frame.itertuples(index=False)]


class Case(NamedTuple):
    """Two layers in some form, and arguments that are not those by default."""

    left: Layer
    right: Layer
    given: Tuple[Any, Any]
    relation: str
    scale: Optional[int]
    workers: int


@pytest.fixture(params=SEEDS)
def case(request: Any, tmp_path: Path) -> Case:
    random = np.random.default_rng(request.param)
    layers = [made(random, int(random.integers(80, 300)), int(random.integers(0, 7)))
              for _ in range(2)]
    forms = [list(FORMS.values())[place] for place in random.integers(0, len(FORMS), 2)]
    given = [form(layer, tmp_path / f"{side}.csv")
             for side, form, layer in zip("lr", forms, layers)]
    needed = max(layer.decimals for layer in layers)
    return Case(layers[0], layers[1], (given[0], given[1]),
                RELATIONS[request.param % len(RELATIONS)],
                int(random.integers(needed, 7)) if request.param % 2 else None,
                int(random.integers(1, 17)))


def test_pairs_are_those_of_shapely(case: Case) -> None:
    expected = shapelys(case.left, case.right, case.relation)
    found = rjoin.pairs(*case.given, case.relation, scale=case.scale, workers=case.workers)
    assert rows(found) == labelled(expected, case.left, case.right)
    placed = rjoin.pairs(*case.given, relation=case.relation, ids="position", scale=case.scale)
    assert rows(placed) == expected


def test_joins_are_those_of_shapely(case: Case) -> None:
    expected = shapelys(case.left, case.right, case.relation)
    left, right = case.left.frame(), case.right.frame()
    for how in ("inner", "left"):
        joined = rjoin.sjoin(left, right, case.relation, how, scale=case.scale, matrix=True,
                             workers=case.workers, lsuffix="one", rsuffix="other")
        met = {one for one, _, _ in expected}
        alone = [(one, None, None) for one in range(len(left)) if how == "left" and one not in met]
        wanted = sorted([*expected, *alone], key=lambda triple: triple[0])
        assert joined["n_one"].tolist() == [one for one, _, _ in wanted]
        assert joined.index.tolist() == [case.left.labels[one] for one, _, _ in wanted]
        for name, values in (("n_other", [other for _, other, _ in wanted]),
                             ("matrix", [matrix for _, _, matrix in wanted]),
                             ("index_other", [None if other is None else case.right.labels[other]
                                              for _, other, _ in wanted])):
            column = joined[name].astype(object).where(joined[name].notna(), None)
            assert column.tolist() == values


def test_pictures_show_the_pairs_of_shapely(case: Case) -> None:
    expected = labelled(shapelys(case.left, case.right, case.relation), case.left, case.right)
    picture = rjoin.draw(*case.given, case.relation, scale=case.scale)
    for side, place in (("left", 0), ("right", 1)):
        assert highlighted(picture.svg, side) == {row[place] for row in expected}


def highlighted(svg: str, side: str) -> Any:
    """The labels of the features that a picture has as those of a pair."""
    group = next(one for one in xml.fromstring(svg).iter(f"{SVG}g") if one.get("class") == side)
    return {title.text for path in group.iter(f"{SVG}path")
            if "match" in str(path.get("class")).split() for title in path.iter(f"{SVG}title")}


def test_windows_letters_and_counts_are_those_of_shapely(case: Case) -> None:
    """Windows have the other layer's decimals, which may be more than those of the layer."""
    layer, others, given = case.left, case.right, case.given[0]
    for place in (0, 7, 21):
        for window in (others.geometries[place], others.texts[place]):
            met = rjoin.window(given, window, scale=case.scale)
            assert met.tolist() == [label for label, one in zip(layer.labels, layer.geometries)
                                    if one.intersects(others.geometries[place])]
            one = layer.geometries[place]
            letters = rjoin.relate(layer.texts[place], window, scale=case.scale)
            assert letters == one.relate(others.geometries[place])
            assert rjoin.relate(one, window, scale=case.scale) == letters
    everything = "POLYGON ((-9999 -9999, 9999 -9999, 9999 9999, -9999 9999, -9999 -9999))"
    assert rjoin.window(given, everything).tolist() == layer.labels
    kinds = [geometry.geom_type for geometry in layer.geometries]
    assert rjoin.stats(given, scale=case.scale)[:4] == (
        len(kinds), *map(kinds.count, ("Point", "LineString", "Polygon")))


@pytest.mark.parametrize("size", SIZES)
def test_no_row_of_a_large_layer_is_lost(size: int) -> None:
    """Beside geometries, which have it written as whole numbers, and beside texts, with a dot."""
    random = np.random.default_rng(size)
    many, few = made(random, size, 2), made(random, 400, 2)
    frame = many.frame().reset_index(drop=True)
    assert rjoin.stats(frame).features == size
    expected = shapelys(many, few, "intersects")
    for right in (few.geometries, few.texts):
        assert rows(rjoin.pairs(frame, right)) == expected
    corners = [shapely_geometry.Point(one.bounds[:2]) for one in many.geometries]
    met = rjoin.window(corners, "POLYGON ((-9 -9, 9 -9, 9 9, -9 9, -9 -9))")
    assert met.tolist() == list(range(size))


def calls_of(layers: Tuple[Any, Any]) -> Dict[str, Callable[..., Any]]:
    """Each call on a pair of layers whose first geometries are points."""
    left, right = layers
    frames = [geopandas.GeoDataFrame(geometry=geopandas.GeoSeries.from_wkt(list(one)))
              for one in layers]
    return {
        "sjoin": lambda **more: rjoin.sjoin(frames[0], frames[1], **more),
        "pairs": lambda **more: rjoin.pairs(left, right, **more),
        "window": lambda **more: rjoin.window(left, right[0], **more),
        "stats": lambda **more: rjoin.stats(left, **more),
        "relate": lambda **more: rjoin.relate(left[0], right[0], **more),
        "draw": lambda **more: rjoin.draw(left, right, **more),
    }


CALLS = ("sjoin", "pairs", "window", "stats", "relate", "draw")


@pytest.mark.parametrize("name", CALLS)
def test_each_call_takes_the_scale_that_is_given(name: str) -> None:
    fine, far = ["POINT (0.25 -0.5)"], ["POINT (2000000 1)"]
    for layers, scale in (((fine, fine), 1), ((far, far), 15)):
        calls_of(layers)[name]()
        with pytest.raises(rjoin.InputError, match="out of range|decimals|above"):
            calls_of(layers)[name](scale=scale)


def test_workers_are_those_that_are_given(real: str, tmp_path: Path, monkeypatch: Any) -> None:
    """In each run of the program, of which a call may need several."""
    program = tmp_path / "rjoin"
    program.write_text(f'#!/bin/sh\necho "$@" >>{tmp_path}/words\nexec "{real}" "$@"\n')
    program.chmod(0o755)
    monkeypatch.setenv("RJOIN", str(program))
    points = ["POINT (0 0)"]
    frame = geopandas.GeoDataFrame(geometry=geopandas.GeoSeries.from_wkt(points))
    calls: Tuple[Callable[..., Any], ...] = (
        lambda **more: rjoin.pairs(points, points, **more),
        lambda **more: rjoin.sjoin(frame, frame, **more),
        lambda **more: rjoin.sjoin(frame, frame, "dwithin", distance=1, **more),
        lambda **more: rjoin.sjoin_nearest(frame, frame, **more),
        lambda **more: rjoin.sjoin_nearest(frame, frame, exclusive=True, **more))
    for call in calls:
        for workers in (None, 1, 3, 16, "auto"):
            (tmp_path / "words").write_text("")
            call(workers=workers)
            lines = [line.split() for line in (tmp_path / "words").read_text().splitlines()
                     if not line.startswith("--version")]
            assert lines and all(("--workers" in line) == (workers is not None) for line in lines)
            assert all(line[line.index("--workers") + 1] == str(workers) for line in lines
                       if workers is not None)
