"""Joins within a distance and to the nearest features, beside plain loops over boxes, and beside
the distances of Shapely."""
from __future__ import annotations

import warnings
from collections import defaultdict
from math import hypot
from typing import Any, Callable, Dict, List, Optional, Sequence, Tuple

import numpy as np
import pandas
import pytest
from test_shapes import mixture

import rjoin
from rjoin import joining
from rjoin.limits import BOXES

geopandas = pytest.importorskip("geopandas")
affinity = pytest.importorskip("shapely.affinity")
shapely_geometry = pytest.importorskip("shapely.geometry")
testing = pytest.importorskip("geopandas.testing")

HOW = ("inner", "left", "right")
Corners = List[Tuple[int, int, int, int]]
Squares = Dict[Tuple[int, int], float]


def within(left: Any, right: Any, how: str = "inner", distance: Any = 2, **options: Any) -> Any:
    return rjoin.sjoin(left, right, "dwithin", how, distance=distance, **options)


def nearest(left: Any, right: Any, how: str = "inner", max_distance: Any = None,
            **options: Any) -> Any:
    return rjoin.sjoin_nearest(left, right, how, max_distance, **options)


CALLS: Tuple[Callable[..., Any], ...] = (within, nearest)


def corners_of(seed: int, count: int, side: int = 60) -> Corners:
    """Points, segments and rectangles on a grid, some of them equal."""
    random = np.random.default_rng(seed)
    lows = random.integers(-side, side, (count, 2))
    found = np.hstack([lows, lows + random.integers(0, 6, (count, 2))])
    found[1::9] = found[::9][:len(found[1::9])]
    return [(int(x1), int(y1), int(x2), int(y2)) for x1, y1, x2, y2 in found]


def frame_of(corners: Corners, units: float = 1.0) -> Any:
    """The boxes, in parts of a unit each, with labels that begin at 100."""
    return geopandas.GeoDataFrame(
        {"name": [f"n{place}" for place in range(len(corners))]},
        geometry=[shape(*(number / units for number in box)) for box in corners],
        index=pandas.RangeIndex(100, 100 + len(corners)))


def shape(x1: float, y1: float, x2: float, y2: float) -> Any:
    if (x1, y1) == (x2, y2):
        return shapely_geometry.Point(x1, y1)
    if x1 == x2 or y1 == y2:
        return shapely_geometry.LineString([(x1, y1), (x2, y2)])
    return shapely_geometry.box(x1, y1, x2, y2)


def squares(lefts: Corners, rights: Corners) -> Squares:
    """The squared distances of all pairs."""
    return {(place, other): gap(one, two, 0) ** 2 + gap(one, two, 1) ** 2
            for place, one in enumerate(lefts) for other, two in enumerate(rights)}


def gap(one: Sequence[int], other: Sequence[int], axis: int) -> int:
    return max(one[axis] - other[axis + 2], other[axis] - one[axis + 2], 0)


def any_squares(left: Any, right: Any) -> Squares:
    """The squared distances of all pairs of frames whose edges run along axes and diagonals of a
    grid: each is a half of a whole number."""
    doubled = {(place, other): 2 * one.distance(two) ** 2
               for place, one in enumerate(left.geometry)
               for other, two in enumerate(right.geometry)}
    assert all(abs(number - round(number)) < 1e-9 * max(1, number) for number in doubled.values())
    return {pair: round(number) / 2 for pair, number in doubled.items()}


def nearest_pairs(found: Squares, base: int, reach: Optional[int] = None) -> List[Tuple[int, int]]:
    """The pairs whose square is the least one of their feature of the base, in its order."""
    least: Dict[int, float] = defaultdict(lambda: 10 ** 30 if reach is None else reach * reach)
    for pair, square in found.items():
        least[pair[base]] = min(least[pair[base]], square)
    pairs = [pair for pair, square in found.items() if square == least[pair[base]]]
    return sorted(pairs, key=lambda pair: (pair[base], pair[1 - base]))


def with_alone(pairs: List[Tuple[int, int]], how: str, count: int) -> List[Tuple[int, int]]:
    """The pairs and the features without a partner, beside -1, of a left or right join."""
    if how == "inner":
        return pairs
    base = int(how == "right")
    alone = sorted(set(range(count)) - {pair[base] for pair in pairs})
    more = [(place, -1) if how == "left" else (-1, place) for place in alone]
    return sorted([*pairs, *more], key=lambda pair: (pair[base], pair[1 - base]))


def rows_of(joined: Any, how: str) -> List[Tuple[int, int]]:
    """The places of both sides in each row of a result."""
    other = joined["index_left" if how == "right" else "index_right"].fillna(99).astype(int) - 100
    pairs = list(zip((joined.index - 100).tolist(), other.tolist()))
    return [pair[::-1] for pair in pairs] if how == "right" else pairs


@pytest.mark.parametrize("how", HOW)
@pytest.mark.parametrize("distance", (0, 3, 2.5, 7.07))
def test_pairs_within_a_distance_are_those_of_all_pairs(how: str, distance: float) -> None:
    lefts, rights = corners_of(1, 90), corners_of(2, 60)
    pairs = [pair for pair, square in squares(lefts, rights).items()
             if square <= (100 * distance) ** 2 / 10_000]
    joined = rjoin.sjoin(frame_of(lefts), frame_of(rights), "dwithin", how, distance=distance)
    count = len(rights) if how == "right" else len(lefts)
    pairs.sort(key=lambda pair: pair[how == "right"])
    assert rows_of(joined, how) == with_alone(pairs, how, count) and pairs
    assert "distance" not in joined.columns


def test_a_distance_is_compared_exactly() -> None:
    """The two points are exactly 0.5 apart, and no binary number is their coordinates."""
    left = geopandas.GeoDataFrame(geometry=[shapely_geometry.Point(0.1, 0.1)])
    right = geopandas.GeoDataFrame(geometry=[shapely_geometry.Point(0.4, 0.5)])
    assert len(within(left, right, distance=0.5)) == 1
    assert len(within(left, right, distance=0.499999)) == 0
    for call in CALLS:
        with pytest.raises(rjoin.ArgumentError, match="distance 1.414.* has 16 decimals"):
            call(left, right, "inner", 2 ** 0.5)
        with pytest.raises(rjoin.ArgumentError, match="distance has more than 2 decimals"):
            call(left, right, "inner", 2 ** 0.5, scale=2)
    rounded = within(left, right, distance=0.49, decimals=1)
    assert len(rounded) == 1 and rounded.attrs["decimals"] == 1


@pytest.mark.parametrize("how", HOW)
@pytest.mark.parametrize("reach", (None, 2, 5))
def test_nearest_are_those_of_all_pairs(how: str, reach: Optional[int]) -> None:
    lefts, rights = corners_of(3, 80), corners_of(4, 50)
    found = squares(lefts, rights)
    pairs = nearest_pairs(found, int(how == "right"), reach)
    joined = rjoin.sjoin_nearest(frame_of(lefts), frame_of(rights), how, reach, distance_col="far")
    expected = with_alone(pairs, how, len(rights) if how == "right" else len(lefts))
    assert rows_of(joined, how) == expected
    assert joined.columns[-1] == "far" and len(joined.columns) == 5
    distances = [np.nan if -1 in pair else round(found[pair] ** 0.5, 6) for pair in expected]
    np.testing.assert_allclose(joined["far"], distances, rtol=0, atol=1e-12)
    assert reach or not joined["far"].isna().any()


@pytest.mark.parametrize("how", HOW)
@pytest.mark.parametrize("reach", (None, 2))
def test_equal_features_are_left_out_if_others_are_looked_for(how: str,
                                                              reach: Optional[int]) -> None:
    corners, others = corners_of(5, 70, 20), corners_of(5, 50, 20) + corners_of(6, 20, 20)
    found = {pair: square for pair, square in squares(corners, others).items()
             if corners[pair[0]] != others[pair[1]]}
    pairs = nearest_pairs(found, int(how == "right"), reach)
    joined = rjoin.sjoin_nearest(frame_of(corners), frame_of(others), how, reach, exclusive=True)
    assert rows_of(joined, how) == with_alone(pairs, how, 70)
    assert len(found) < 70 * 70


def test_equal_features_are_left_out_if_the_base_has_fewer_features() -> None:
    """Only the pair of the first base feature and the last other one is equal."""
    base, others = [(0, 0, 0, 0), (50, 0, 50, 0)], [
        (49, 0, 49, 0), (51, 0, 51, 0), (80, 0, 80, 0), (2, 0, 2, 0), (0, 0, 0, 0)]
    joined = rjoin.sjoin_nearest(frame_of(base), frame_of(others), exclusive=True)
    assert rows_of(joined, "inner") == [(0, 3), (1, 0), (1, 1)]
    joined = rjoin.sjoin_nearest(frame_of(others), frame_of(base), "right", exclusive=True)
    assert rows_of(joined, "right") == [(3, 0), (0, 1), (1, 1)]


def test_distances_have_as_many_decimals_as_the_range_allows(monkeypatch: Any) -> None:
    def far(across: float, upwards: float, **options: Any) -> float:
        frames = [geopandas.GeoDataFrame(geometry=[shapely_geometry.Point(*place)])
                  for place in ((0, 0), (across, upwards))]
        joined = nearest(*frames, distance_col="far", **options)
        return float(joined["far"].iloc[0])
    exact = round(hypot(1, 2), 6)
    assert far(1, 2) == far(1, 2, decimals=0) == far(1, 2, decimals="auto") == exact
    assert far(1, 2, scale=1) == 2.2 and far(1, 2, scale=0) == 2
    assert far(1e7, 2e7) == round(hypot(1e7, 2e7), 4)
    assert far(1e9, 2e9) == round(hypot(1e9, 2e9), 2)
    assert far(1e-6, 2e-6) == 2e-6
    size = len("id,wkt\n0,POINT(100 200)\n")
    monkeypatch.setattr(joining, "BOXES", BOXES._replace(bytes=size))
    assert far(1, 2) == round(hypot(1, 2), 2)


def test_numbers_of_distances_that_cannot_be_used_are_refused() -> None:
    left, right = frame_of(corners_of(7, 5)), frame_of(corners_of(8, 5))
    for value in (-1, float("nan"), True, float("inf"), np.array(3.0)):
        with pytest.raises(rjoin.ArgumentError, match="^distance must be a finite number"):
            within(left, right, distance=value)
    for value, told in (([1, 2], "one for each of the 5 left features"), ([[1] * 5], "shape"),
                        ([1, 2, 3, 4, "five"], "values that are no numbers"),
                        ([1, 2, -3, 4, 5], r"not -3.0 \(row 3\)"), ("far", "no column of the left"),
                        ([1, 2, 3, 4, float("nan")], r"not nan \(row 5\)"), ("name", "no numbers"),
                        ([1, 2, 3, 4, 0.1 + 0.2], "a number|distance 0.3.*4 has 17 decimals")):
        with pytest.raises(rjoin.ArgumentError, match=f"^distance .*{told}|^{told}"):
            within(left, right, distance=value)
    for value in (-1, "3", [1]):
        with pytest.raises(rjoin.ArgumentError, match="^max_distance must be a finite number"):
            nearest(left, right, max_distance=value)
    with pytest.raises(ValueError, match="max_distance must be greater than 0"):
        rjoin.sjoin_nearest(left, right, max_distance=0)
    with pytest.raises(ValueError, match="distance' parameter is required"):
        within(left, right, distance=None)
    with pytest.raises(ValueError, match="distance' parameter is only supported"):
        rjoin.sjoin(left, right, "touches", distance=1)
    with pytest.raises(rjoin.ArgumentError, match="'dwithin' has no letters"):
        within(left, right, matrix=True)
    with pytest.raises(rjoin.ArgumentError, match="a distance is above 10+ units"):
        within(left, right, distance=10 ** 19)
    with pytest.raises(rjoin.ArgumentError, match="'far' already"):
        rjoin.sjoin_nearest(left.assign(far=1), right, distance_col="far")
    unlimited = rjoin.sjoin_nearest(left, right, max_distance=float("inf"))
    testing.assert_geodataframe_equal(unlimited, rjoin.sjoin_nearest(left, right))


def labelled(frame: Any) -> Any:
    """The frame with labels that begin at 100."""
    return frame.set_index(pandas.RangeIndex(100, 100 + len(frame)))


@pytest.mark.parametrize("how", HOW)
@pytest.mark.parametrize("reach", (None, 3))
def test_the_nearest_of_any_geometry_are_those_of_all_pairs(how: str, reach: Optional[int]) -> None:
    left, right = labelled(mixture(21, 40)), labelled(mixture(22, 25))
    found = any_squares(left, right)
    pairs = nearest_pairs(found, int(how == "right"), reach)
    joined = rjoin.sjoin_nearest(left, right, how, reach, distance_col="far")
    expected = with_alone(pairs, how, len(right) if how == "right" else len(left))
    assert rows_of(joined, how) == expected
    distances = [np.nan if -1 in pair else found[pair] ** 0.5 for pair in expected]
    np.testing.assert_allclose(joined["far"], distances, rtol=0, atol=5.1e-7)
    assert {square % 1 for square in found.values()} == {0, 0.5}


@pytest.mark.parametrize("how", HOW)
def test_equal_features_of_any_form_are_left_out(how: str) -> None:
    left = labelled(mixture(23, 30))
    others = [shape.normalize() for shape in left.geometry[:20]] + list(mixture(24, 10).geometry)
    right = labelled(geopandas.GeoDataFrame({"n": range(30)}, geometry=others))
    equal = {(place, other) for place, one in enumerate(left.geometry)
             for other, two in enumerate(right.geometry) if one.equals(two)}
    found = {pair: square for pair, square in any_squares(left, right).items() if pair not in equal}
    pairs = nearest_pairs(found, int(how == "right"))
    joined = rjoin.sjoin_nearest(left, right, how, exclusive=True)
    assert rows_of(joined, how) == pairs and len(equal) >= 20


def test_the_nearest_of_rings_that_are_not_proper() -> None:
    """Rounding makes a rectangle flat, which the program finds; faults name the side of the frame
    also if the layers are exchanged."""
    flat = geopandas.GeoDataFrame(geometry=[shapely_geometry.Point(1, 1),
                                            shapely_geometry.box(0, 0, 5, 0.2)], index=["a", "b"])
    crossed = geopandas.GeoDataFrame(geometry=[shapely_geometry.Point(1, 7), BOW_TIE],
                                     index=["a", "b"])
    point = frame_of([(2, 4, 2, 4)])
    for how in ("inner", "right"):
        for wrong, reason in ((flat, "a ring that is not closed or is flat"),
                              (crossed, "rings cross or overlap")):
            for left, right, side in ((wrong, point, "left"), (point, wrong, "right")):
                with pytest.raises(rjoin.InputError, match=reason) as caught:
                    rjoin.sjoin_nearest(left, right, how, decimals=0, rings="proper")
                told = caught.value
                assert (told.side, told.row, told.feature) == (side, 2, "b")
    with pytest.warns(rjoin.ImproperRingsWarning, match="feature 'b'.*rings cross"):
        joined = rjoin.sjoin_nearest(point, crossed, distance_col="far")
    # The sides cross at 2, 2, and the nearest point of them is 3, 3.
    assert joined["index_right"].tolist() == ["b"] and joined["far"].tolist() == [1.414214]
    for wrong in (crossed, pandas.concat([crossed, crossed])):
        with pytest.warns(rjoin.ImproperRingsWarning, match="^right: [^;]*; the even-odd"):
            rjoin.sjoin_nearest(point, wrong, "right")
    with pytest.warns(rjoin.ImproperRingsWarning, match="feature 'b'.*flat"):
        joined = rjoin.sjoin_nearest(point, flat, decimals=0)
    assert joined["index_right"].tolist() == ["a"]


@pytest.mark.parametrize("how", ("inner", "right"))
def test_all_rings_are_told_if_equal_features_are_left_out(how: str) -> None:
    """Features that equal one other and those that equal none are asked for by runs of their
    own."""
    ties = [affinity.translate(BOW_TIE, 10 * place, 0) for place in range(5)]
    base = geopandas.GeoDataFrame(geometry=ties, index=list("abcde"))
    others = geopandas.GeoDataFrame(geometry=[*ties[1:3], shapely_geometry.Point(99, 1)])
    frames = (base, others) if how == "inner" else (others, base)
    with pytest.warns(rjoin.ImproperRingsWarning) as caught:
        joined = rjoin.sjoin_nearest(*frames, how, exclusive=True)
    sides = ("left", "right") if how == "inner" else ("right", "left")
    told = str(caught[0].message)
    assert f"{sides[0]}: 5 features: rings cross, overlap or are flat: row 1 (feature 'a')" in told
    assert f"{sides[1]}: 2 features: " in told and len(joined) == 5


BOW_TIE = shapely_geometry.Polygon([(0, 0), (4, 4), (4, 0), (0, 4)])
TRIANGLE = shapely_geometry.Polygon([(0, 0), (9, 0), (0, 9)])
COLLECTION = shapely_geometry.GeometryCollection([shapely_geometry.Point(1, 1), TRIANGLE])


def test_the_nearest_may_be_those_of_envelopes() -> None:
    boxes = frame_of([(20, 0, 20, 0), (8, 8, 8, 8), (30, 30, 30, 30)])
    others = geopandas.GeoDataFrame(geometry=[shapely_geometry.Point(20, 1), TRIANGLE, TRIANGLE])
    # The point at 8, 8 lies in the triangle's envelope, and 7 / sqrt(2) from the triangle.
    found = rjoin.sjoin_nearest(boxes, others, distance_col="far")
    assert found["index_right"].tolist() == [0, 1, 2, 0]
    assert found["far"].tolist() == [1, 4.949747, 4.949747, 30.675723]
    with pytest.warns(rjoin.EnvelopeWarning, match="; 5 of 5 rows"):
        found = rjoin.sjoin_nearest(boxes, others, other="envelope")
    assert not found["exact"].any()
    with pytest.warns(rjoin.EnvelopeWarning, match="; 2 of 3 rows"):
        found = rjoin.sjoin_nearest(boxes, others, "right", other="envelope")
    assert found["exact"].tolist() == [True, False, False]


def test_any_geometry_is_joined_within_a_distance() -> None:
    boxes = frame_of([(20, 0, 20, 0), (8, 8, 8, 8), (30, 30, 30, 30)])
    others = geopandas.GeoDataFrame(geometry=[shapely_geometry.Point(20, 1), TRIANGLE, TRIANGLE])
    # The point at 8, 8 lies in the triangle's envelope, and 7 / sqrt(2) from the triangle.
    assert within(boxes, others, "left")["index_right"].fillna(-1).tolist() == [0, -1, -1]
    found = within(boxes, others, "left", distance=5)
    assert found["index_right"].fillna(-1).tolist() == [0, 1, 2, -1]
    found = within(others, boxes, "left", distance=5)
    assert found["index_right"].fillna(-1).tolist() == [100, 101, 101]


@pytest.mark.parametrize("how", HOW)
@pytest.mark.parametrize("given", ("array", "series", "list", "column"))
def test_each_left_feature_may_have_a_distance(how: str, given: str) -> None:
    """Those of some pairs are exactly the distances, and one is much greater than the others."""
    lefts, rights = corners_of(11, 90), corners_of(12, 60)
    squared = squares(lefts, rights)
    nearest_of = [min(squared[place, other] for other in range(len(rights)))
                  for place in range(len(lefts))]
    distances = np.array([0.0, 3.0, 2.5, 7.07, 5.0] * 18)
    whole = np.array([round(square ** 0.5) ** 2 == square for square in nearest_of])
    distances[whole] = np.sqrt(np.array(nearest_of)[whole])
    distances[40] = 90
    left, right = frame_of(lefts).assign(reach=distances), frame_of(rights)
    values = {"array": distances, "series": left["reach"], "list": distances.tolist(),
              "column": "reach"}[given]
    pairs = [pair for pair, square in squared.items()
             if square <= round(distances[pair[0]] * 100) ** 2 / 10_000]
    pairs.sort(key=lambda pair: pair[how == "right"])
    joined = rjoin.sjoin(left, right, "dwithin", how, distance=values)
    count = len(rights) if how == "right" else len(lefts)
    assert rows_of(joined, how) == with_alone(pairs, how, count) and len(pairs) > 99


def test_a_distance_of_each_is_compared_exactly() -> None:
    """Points at 0.3, and at 1 / sqrt(2), which is no whole number of units."""
    count = 6
    left = geopandas.GeoDataFrame(
        geometry=[shapely_geometry.Point(0, 10 * place) for place in range(count)])
    right = geopandas.GeoDataFrame(geometry=[
        shapely_geometry.Point(*((0.3, 10 * place) if place < 3 else (0.5, 10 * place + 0.5)))
        for place in range(count)])
    for decimals in (None, 6):
        found = within(left, right, distance=[0.3, 0.299999, 0.300001, 0.707106, 0.707107, 0.7072],
                       decimals=decimals)
        assert found.index.tolist() == [0, 2, 4, 5]
    lacking = pandas.concat([left.iloc[:1].set_geometry([None]), left], ignore_index=True)
    found = within(lacking, right, "left", distance=[9, 0.3, 0.2, 9, 0, 0, 9], missing="keep")
    assert found["index_right"].fillna(-1).tolist() == [-1, 0, -1, 2, -1, -1, 5]
    assert within(left.iloc[:0], right, distance=[]).empty


def test_rows_within_a_distance_of_an_envelope_say_so() -> None:
    """Features whose envelopes are further apart are further apart themselves."""
    boxes = frame_of([(8, 8, 8, 8), (30, 30, 30, 30)])
    others = geopandas.GeoDataFrame(geometry=[TRIANGLE])
    with pytest.warns(rjoin.EnvelopeWarning, match="; 1 of 2 rows"):
        found = within(boxes, others, "left", other="envelope")
    assert found["index_right"].fillna(-1).tolist() == [0, -1]
    assert found["exact"].tolist() == [False, True]
    with pytest.warns(rjoin.EnvelopeWarning, match="; 1 of 2 rows"):
        found = within(others, boxes, "right", other="envelope")
    assert found["exact"].tolist() == [False, True]


def test_features_that_are_left_out_may_be_the_nearest() -> None:
    left = frame_of([(0, 0, 0, 0), (9, 9, 9, 9)])
    right = geopandas.GeoDataFrame(geometry=[shapely_geometry.Point(1, 1), COLLECTION, None])
    for how in ("inner", "left"):
        with pytest.raises(rjoin.InputError, match="may be the partner of a row.*'mark'") as caught:
            rjoin.sjoin_nearest(left, right, how, other="skip", missing="skip")
        assert (caught.value.side, caught.value.row) == ("right", 2)
        with pytest.warns(rjoin.LeftOutWarning):
            marked = rjoin.sjoin_nearest(left, right, how, other="skip", missing="keep",
                                         incomplete="mark")
        assert marked["known"].tolist() == [False, False]
        kept = rjoin.sjoin_nearest(left, right.iloc[[0, 2]], how, missing="keep")
        assert kept["index_right"].tolist() == [0, 0] and "known" not in kept.columns
        with pytest.warns(rjoin.LeftOutWarning):
            base = rjoin.sjoin_nearest(right, left, how, other="skip", missing="skip")
        assert base.index.tolist() == [0] and base["index_right"].tolist() == [100]
    with pytest.raises(rjoin.InputError, match="may be the partner of a row.*'mark'") as caught:
        rjoin.sjoin_nearest(right, left, "right", other="skip", missing="skip")
    assert (caught.value.side, caught.value.row) == ("left", 2)
    with pytest.warns(rjoin.LeftOutWarning):
        base = rjoin.sjoin_nearest(left, right, "right", other="skip", missing="skip")
    assert base.index.tolist() == [0] and base["index_left"].tolist() == [100]
    turned = rjoin.sjoin_nearest(left, right.iloc[[0, 2]], "right", missing="keep")
    assert turned["index_left"].fillna(-1).tolist() == [100, -1]
    lefts = rjoin.sjoin_nearest(right.iloc[[0, 2]], left, "left", missing="keep",
                                distance_col="far")
    assert lefts["index_right"].fillna(-1).tolist() == [100, -1] and np.isnan(lefts["far"].iloc[1])


def test_warnings_tell_of_reference_systems() -> None:
    left, right = (frame_of(corners_of(seed, 4)) for seed in (9, 10))
    with pytest.warns(UserWarning, match="CRS mismatch") as caught:
        rjoin.sjoin_nearest(left.set_crs("EPSG:25832"), right)
    assert caught[0].filename == __file__
    degrees = left.set_crs("EPSG:4326"), right.set_crs("EPSG:4326")
    with pytest.warns(UserWarning, match="geographic CRS.*'sjoin_nearest'") as caught:
        rjoin.sjoin_nearest(*degrees)
    assert [warning.filename for warning in caught] == [__file__] * 2
    with warnings.catch_warnings():
        warnings.simplefilter("error", UserWarning)
        rjoin.sjoin_nearest(left.set_crs("EPSG:25832"), right.set_crs("EPSG:25832"))


def test_empty_frames_are_near_nothing() -> None:
    frame = frame_of(corners_of(11, 3))
    empty = frame.iloc[:0]
    for call in CALLS:
        for how in HOW:
            assert len(call(empty, empty, how)) == 0
            assert len(call(frame, empty, how)) == (3 if how == "left" else 0)
            assert len(call(empty, frame, how)) == (3 if how == "right" else 0)
    assert len(rjoin.sjoin_nearest(frame, empty, exclusive=True)) == 0
    assert len(rjoin.sjoin_nearest(empty, frame, exclusive=True)) == 0
