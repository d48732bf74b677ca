"""Layers of each kind, geometries of each form, and what happens to those that are no box."""
from __future__ import annotations

import math
import random
from decimal import Decimal
from pathlib import Path
from typing import Any, Callable, Dict, List, Tuple

import pytest
from town import TOWN, rows_of

import rjoin
from rjoin import sources
from rjoin.limits import ANY

geopandas = pytest.importorskip("geopandas")
wkt = pytest.importorskip("shapely.wkt")

BOXES = (
    "POINT (1 2)", "POINT Z (1 2 3)", "MULTIPOINT (1 2)", "GEOMETRYCOLLECTION (POINT (1 2))",
    "LINESTRING (0 0, 2 0)", "LINESTRING (2 0, 1 0, 1 0, 0 0)", "MULTILINESTRING ((0 0, 0 3))",
    "POLYGON ((0 0, 2 0, 2 2, 0 2, 0 0))", "POLYGON ((0 2, 2 2, 2 0, 0 0, 0 2))",
    "POLYGON ((1 0, 2 0, 2 0, 2 1, 2 2, 0 2, 0 0, 0 0, 1 0))",
    "POLYGON ((0 0, 0 0, 2 0, 2 2, 0 2, 0 1, 0 0))",
    "MULTIPOLYGON (((0 0, 2 0, 2 2, 0 2, 0 0)))",
)
OTHERS = (
    "LINESTRING (0 0, 1 1)", "LINESTRING (0 0, 2 0, 1 0)", "LINESTRING (1 1, 1 1)",
    "LINESTRING (0 0, 1 0, 1 1)", "LINESTRING (0 0, 2 0, 2 2, 0 2, 0 0)",
    "POLYGON ((0 0, 2 0, 2 2, 0 0))", "POLYGON ((0 0, 2 0, 0 0, 0 0))",
    "POLYGON ((0 0, 3 0, 2 0, 2 2, 0 2, 0 0))", "POLYGON ((0 0, 4 0, 4 2, 2 2, 2 4, 0 4, 0 0))",
    "POLYGON ((0 0, 2 0, 2 2, 0 2, 0 0, 2 0, 2 2, 0 2, 0 0))",
    "POLYGON ((0 0, 9 0, 9 9, 0 9, 0 0), (1 1, 2 1, 2 2, 1 2, 1 1))",
    "MULTIPOINT (1 1, 2 2)", "MULTIPOLYGON (((0 0, 1 0, 1 1, 0 1, 0 0)), ((4 4, 6 4, 6 6, 4 4)))",
)
NO_LENGTH = "LINESTRING (1 1, 1 1)"
COLLECTION = "GEOMETRYCOLLECTION (POINT (8 8), POLYGON ((8 8, 12 8, 12 12, 8 8)))"
EMPTY = ("POINT EMPTY", "LINESTRING EMPTY", "POLYGON EMPTY", "MULTIPOLYGON EMPTY",
         "GEOMETRYCOLLECTION EMPTY", "GEOMETRYCOLLECTION (POINT EMPTY, LINESTRING EMPTY)")
AREA = "POLYGON ((-9 -9, 19 -9, 19 19, -9 19, -9 -9))"


def series(texts: Any) -> Any:
    """Geometries with letters as labels."""
    labels = [chr(ord("a") + place) for place in range(len(texts))]
    return geopandas.GeoSeries([text and wkt.loads(text) for text in texts], index=labels)


def test_boxes_are_found_in_each_of_their_forms() -> None:
    layer = series(BOXES)
    assert list(rjoin.window(layer, AREA)) == list(layer.index)
    for one, other in zip(layer, BOXES):
        plain = wkt.loads(other)
        assert rjoin.relate(one, AREA) == plain.relate(wkt.loads(AREA))


@pytest.mark.parametrize("text", OTHERS)
@pytest.mark.filterwarnings("ignore::rjoin.ImproperRingsWarning")
def test_a_geometry_that_is_no_box_is_given_as_it_is(text: str) -> None:
    layers = series(["POINT (1 2)", text]), ["POINT (1 2)", text]
    for layer in layers[:2 if text != NO_LENGTH else 0]:
        pairs = rjoin.pairs([AREA], layer, "covers", ids="position")
        assert pairs["right"].tolist() == [0, 1] and "exact" not in pairs.columns
        if wkt.loads(text).is_valid:
            assert pairs["matrix"][1] == wkt.loads(AREA).relate(wkt.loads(text))
    for layer in layers[:2 if text == NO_LENGTH else 0]:
        with pytest.raises(rjoin.InputError, match="a line without length") as caught:
            rjoin.pairs([AREA], layer)
        assert (caught.value.side, caught.value.row) == ("right", 2)


def test_what_is_left_out_is_listed_and_told() -> None:
    unread = (COLLECTION, NO_LENGTH)
    layer = series([*unread, BOXES[0], None, *EMPTY])
    with pytest.warns(rjoin.LeftOutWarning, match="9 features are left out.*row 1") as caught:
        pairs = rjoin.pairs(layer, [AREA], other="skip", missing="skip")
    assert caught[0].filename == __file__
    assert pairs["left"].tolist() == [layer.index[len(unread)]]
    left_out = pairs.attrs["left_out"]
    rows = [row for row in range(1, len(layer) + 1) if row != len(unread) + 1]
    assert [notice.row for notice in left_out] == rows
    assert [notice.feature for notice in left_out] == [layer.index[row - 1] for row in rows]
    assert {notice.side for notice in left_out} == {"left"}
    assert left_out[-1].reason == "the geometry is empty"


def test_a_left_join_without_all_right_features_is_refused_or_marked() -> None:
    """Of two squares, the second meets only a collection, which is left out."""
    squares = geopandas.GeoDataFrame(geometry=series([
        "POLYGON ((0 0, 2 0, 2 2, 0 2, 0 0))", "POLYGON ((9 9, 11 9, 11 11, 9 11, 9 9))"]))
    others = geopandas.GeoDataFrame(geometry=series([
        "POINT (1 1)", COLLECTION, None]))
    rules: Tuple[Dict[str, Any], ...] = (
        {"right": others, "other": "skip", "missing": "skip"},
        {"right": others.iloc[:2], "other": "skip"}, {"right": others.iloc[::2], "missing": "skip"},
        {"right": others, "other": "envelope", "missing": "skip"})
    for rule in rules:
        with pytest.raises(rjoin.InputError, match="incomplete='mark'") as caught:
            rjoin.sjoin(squares, how="left", **rule)
        first = "b" if rule.get("other") == "skip" else "c"
        assert (caught.value.side, caught.value.feature) == ("right", first)
        with pytest.warns(rjoin.LeftOutWarning):
            marked = rjoin.sjoin(squares, how="left", incomplete="mark", **rule)
        partners = marked["index_right"].notna()
        assert marked.index.tolist() == ["a", "b"] and partners[0]
        assert marked["known"].tolist() == partners.tolist()
        with pytest.warns(rjoin.LeftOutWarning):
            assert rjoin.sjoin(squares, **rule)["index_right"].iloc[0] == "a"
        turned = {"left": rule["right"], "right": squares, "how": "right",
                  **{name: value for name, value in rule.items() if name != "right"}}
        with pytest.raises(rjoin.InputError, match="incomplete='mark'") as caught:
            rjoin.sjoin(**turned)
        assert (caught.value.side, caught.value.feature) == ("left", first)
        with pytest.warns(rjoin.LeftOutWarning):
            marked = rjoin.sjoin(**turned, incomplete="mark")
        assert marked.index.tolist() == ["a", "b"] and marked["index_left"].iloc[0] == "a"
        assert marked["known"].tolist() == marked["index_left"].notna().tolist()
    whole = rjoin.sjoin(squares, others.iloc[:1], how="left", other="skip", incomplete="mark")
    assert whole["known"].tolist() == [True, True]
    assert whole["index_right"].isna().tolist() == [False, True]
    for how, told in (("inner", "for how='left'"), ("left", "'known' already")):
        with pytest.raises(rjoin.ArgumentError, match=told):
            rjoin.sjoin(squares.assign(known=1), others.iloc[:1], how=how, incomplete="mark")
    with pytest.raises(rjoin.ArgumentError, match="incomplete must be"):
        rjoin.sjoin(squares, others, how="left", incomplete="yes")


def test_rows_that_rest_on_an_envelope_say_so() -> None:
    """A triangle, beside a square within its envelope and one within the triangle itself."""
    lefts = geopandas.GeoDataFrame(geometry=series([
        "POLYGON ((0 0, 1 0, 1 1, 0 1, 0 0))", "POLYGON ((8 8, 9 8, 9 9, 8 9, 8 8))",
        "POLYGON ((50 50, 51 50, 51 51, 50 50))", "POINT (70 70)"]))
    rights = geopandas.GeoDataFrame(geometry=series([
        "POLYGON ((0 0, 9 0, 0 9, 0 0))", "POLYGON ((8 8, 9 8, 9 9, 8 9, 8 8))"]))
    with pytest.warns(rjoin.EnvelopeWarning, match="2 features .*; 2 of 3 rows") as caught:
        pairs = rjoin.pairs(lefts, rights, "within", other="envelope")
    assert caught[0].filename == __file__
    assert pairs[["left", "right", "exact"]].values.tolist() == [
        ["a", "a", False], ["b", "a", False], ["b", "b", True]]
    with pytest.warns(rjoin.EnvelopeWarning):
        mirrored = rjoin.pairs(rights, lefts, "contains", other="envelope")
    assert mirrored[["left", "right", "exact"]].values.tolist() == [
        ["a", "a", False], ["a", "b", False], ["b", "b", True]]
    with pytest.warns(rjoin.EnvelopeWarning):
        inner = rjoin.sjoin(lefts, rights, "within", other="envelope")
    assert inner["exact"].tolist() == [False, False, True] and inner.columns[-1] == "exact"
    for predicate, exact in (("within", [False] * 4), ("intersects", [False, False, True, True])):
        with pytest.warns(rjoin.EnvelopeWarning):
            left = rjoin.sjoin(lefts, rights, predicate, "left", other="envelope")
        assert left.index.tolist() == ["a", "b", "b", "c", "d"]
        assert left["exact"].tolist() == [*exact[:2], True, *exact[2:]]
    with pytest.warns(rjoin.EnvelopeWarning, match="1 of 2 rows"):
        met = rjoin.window(rights, "POINT (8 8)", other="envelope")
    assert met.attrs["exact"] == [False, True]
    with pytest.warns(rjoin.EnvelopeWarning, match="^1 features are replaced .*envelopes$"):
        rjoin.stats(rights, other="envelope")
    with pytest.warns(rjoin.EnvelopeWarning, match="^2 features are replaced .*envelopes$"):
        rjoin.draw(lefts, rights, other="envelope")
    assert "exact" not in rjoin.pairs(lefts.iloc[:2], rights.iloc[1:]).columns
    assert rjoin.pairs(rights[1:], rights[1:], other="envelope")["exact"].tolist() == [True]
    with pytest.raises(rjoin.ArgumentError, match="'exact' already"):
        rjoin.sjoin(lefts.assign(exact=1), rights, other="envelope")


ALIKE = ("POINT Z (1 2 3)", "point z(1 2 3)", "POINT (1 2 3)", "POINT (1e0 20E-1)",
         "POINT (.1E1 2)", "POINT Z (1 2 3.12345678)", "POINT (100.000000000e-2 2)",
         "MULTIPOINT (1 2)", "GEOMETRYCOLLECTION (POINT (1 2))",
         "GEOMETRYCOLLECTION (GEOMETRYCOLLECTION (POINT (1 2)))", " POINT (+1. 2.0) ")
NO_TEXTS = ("POINT (1 2) x", "POINT (1 2) POINT (1 2)", "POINT (1 2)(3 4)", "POINT (0x1 2)",
            "POINT (nan 2)", "POINT (1 2", "POINT (1 2) EMPTY", "POINT EMPTY (1 2)", "", "EMPTY",
            "POINT (1 2);", "POINT (1 2)\0", "POINTZ (1 2 3)")
RULES: Tuple[Dict[str, Any], ...] = tuple(
    {"other": other, "missing": missing} for other in ("error", "envelope", "skip")
    for missing in ("error", "skip"))


@pytest.mark.parametrize("rules", RULES)
def test_texts_are_read_alike_whatever_happens_to_others(tmp_path: Path, rules: Any) -> None:
    path = tmp_path / "layer.csv"
    for text in ALIKE:
        for layer in ([text], series([text]), path):
            path.write_text(f'id,wkt\n7,"{text}"\n')
            assert rjoin.stats(layer, **rules).points == 1
            pairs = rjoin.pairs(layer, ["POINT (3 3)", text], "equals", ids="position", **rules)
            assert pairs[["left", "right"]].values.tolist() == [[0, 1]]
        assert rjoin.pairs(path, path, **rules)["left"].tolist() == ["7"]
        assert rjoin.relate(text, "POINT (1 2)") == "0FFFFFFF2"
        assert rjoin.window(["POINT (1 2)"], text, **rules).tolist() == [0]
        picture = rjoin.draw(path, [text], **rules).svg
        assert picture.count("<title>7</title>") == picture.count("<title>0</title>") == 1
    for text in NO_TEXTS:
        path.write_text(f'id,wkt\n7,POINT (1 2)\n8,"{text}"\n')
        for layer in (["POINT (1 2)", text], path):
            with pytest.raises(rjoin.InputError, match="row 2 .*(not a geometry text|NUL)"):
                rjoin.stats(layer, **rules)
        with pytest.raises(rjoin.InputError, match="first: not a geometry text"):
            rjoin.relate(text, "POINT (1 2)")
    for text in ("POINT (1.0000000000000000055 2)", "POINT Z (0.1234567890123456 2 3)",
                 "POINT (1e-16 2)", "POINT (1.000000000000000000000000000000001E0 2)"):
        with pytest.raises(rjoin.InputError, match="row 2 .*decimals"):
            rjoin.stats(["POINT (1 2)", text], **rules)
    assert rjoin.stats(["POINT (1.1234567e3 2)", "POINT (0.25 1)"], **rules).points == 2


def test_the_first_fault_of_texts_is_told(tmp_path: Path) -> None:
    for rows, told in (
            (["POINT Z (1 2 3)", NO_LENGTH, "POINT"], "row 3 .*geometry text"),
            (["POINT (1 2)", NO_LENGTH, "POINT"], "row 2 .*without length"),
            (["POINT Z (1 2 3)", COLLECTION, "POINT"], "row 2 .*several of one kind"),
            (["POINT Z (1 2 3)", "POINT", NO_LENGTH], "row 2 .*geometry text")):
        path = tmp_path / "layer.csv"
        path.write_text("id,wkt\n" + "".join(f'{n},"{row}"\n' for n, row in enumerate(rows)))
        for layer in (rows, path):
            with pytest.raises(rjoin.InputError, match=told):
                rjoin.stats(layer)
    path.write_text('id,wkt\na,POINT Z (1 2 3)\na,POINT (1 2)\n')
    for rules in RULES:
        with pytest.raises(rjoin.InputError, match="row 2 .*id is already there"):
            rjoin.stats(path, **rules)


def test_features_that_are_left_out_are_in_no_row_of_a_left_join() -> None:
    layer = geopandas.GeoDataFrame(geometry=series([COLLECTION, "POINT (50 50)", None]))
    areas = geopandas.GeoDataFrame(geometry=series([AREA]))
    with pytest.warns(rjoin.LeftOutWarning):
        joined = rjoin.sjoin(layer, areas, how="left", other="skip", missing="skip")
    assert joined.index.tolist() == ["b"] and len(joined.attrs["left_out"]) == 2


def test_envelopes_are_those_of_shapely_and_are_listed() -> None:
    layer = series([*OTHERS, BOXES[0]])
    boxes = layer.envelope
    for window in ("POINT (0 0)", "POINT (2 2)", "POINT (5 5)", "LINESTRING (3 -1, 3 9)"):
        with pytest.warns(rjoin.EnvelopeWarning, match="13 features"):
            met = rjoin.window(layer, window, other="envelope")
        assert met.tolist() == boxes.index[boxes.intersects(wkt.loads(window))].tolist()
    assert [notice.row for notice in met.attrs["enveloped"]] == list(range(1, len(OTHERS) + 1))
    assert met.attrs["left_out"] == ()


@pytest.mark.parametrize("text", (None, *EMPTY))
def test_missing_and_empty_geometries_are_refused_unless_skipped(text: Any) -> None:
    layer = series([BOXES[0], text])
    for other in ("error", "envelope", "skip"):
        with pytest.raises(rjoin.InputError, match="empty|no geometry") as caught:
            rjoin.stats(layer, other=other)
        assert (caught.value.row, caught.value.feature) == (2, "b")
    with pytest.warns(rjoin.LeftOutWarning):
        counts = rjoin.stats(layer, missing="skip")
    assert (counts.features, counts.points, len(counts.left_out)) == (1, 1, 1)


def test_values_of_another_type_name_their_feature() -> None:
    point = wkt.loads(BOXES[0])
    for values, told in (([point, BOXES[0]], "str among geometries"),
                         ([None, point, 5], "int among geometries"),
                         ([BOXES[0], point], "Point among texts"),
                         ([BOXES[0], None, 5], "int among texts")):
        for rule in ("error", "skip"):
            with pytest.raises(rjoin.InputError, match=told) as caught:
                rjoin.pairs([AREA], values, other=rule, missing=rule)
            assert (caught.value.side, caught.value.row) == ("right", len(values))
    for layer in (None, 5, point, wkt.loads("MULTIPOINT (1 1, 2 2)")):
        with pytest.raises(rjoin.ArgumentError, match="layer has to be a frame.*not of type"):
            rjoin.stats(layer)


def test_texts_that_cannot_be_written_name_their_row() -> None:
    for text in ("POINT (1 2)\ud800", "POINT (1 2)\0"):
        with pytest.raises(rjoin.InputError, match="row 2 .*not a geometry text"):
            rjoin.stats(["POINT (1 2)", text])
        with pytest.raises(rjoin.InputError, match="^window: not a geometry text"):
            rjoin.window(["POINT (1 2)"], text)
    assert rjoin.stats(["POINT\r(1 2)", "POINT\n(3 4)"]).points == 2


def test_numbers_that_are_not_finite_are_refused() -> None:
    from shapely.geometry import LineString, MultiLineString, Point

    for line in (LineString([(0, 0), (math.inf, 0)]), LineString([(0, 0), (1, 2), (3, -math.inf)]),
                 MultiLineString([[(0, 0), (1, 2)], [(0, 0), (1, math.inf)]])):
        layer = geopandas.GeoSeries([Point(1, 1), line])
        for other in ("error", "envelope"):
            with pytest.raises(rjoin.InputError, match="row 2 .*finite"):
                rjoin.stats(layer, other=other)
        with pytest.warns(rjoin.LeftOutWarning, match="row 2 .*finite"):
            assert rjoin.stats(layer, other="skip").features == 1


def decimals_of(number: float) -> int:
    """The decimals of the shortest text of a float."""
    exponent = Decimal(repr(number)).normalize().as_tuple().exponent
    return max(0, -int(exponent))


def test_the_scale_is_the_fewest_decimals_that_write_each_number() -> None:
    chance = random.Random(3)
    for needed in range(7):
        numbers = [chance.randrange(-10 ** 6, 10 ** 6) / 10 ** chance.randint(0, needed)
                   for _ in range(500)]
        points = [f"POINT ({number:.{needed}f} 0)" for number in numbers]
        for layer in (points, series(points[:20])):
            most = max(map(decimals_of, numbers[:len(layer)]))
            assert rjoin.stats(layer, scale=most).points == len(layer)
            assert rjoin.stats(layer).points == len(layer)
            if most:
                with pytest.raises(rjoin.InputError):
                    rjoin.stats(layer, scale=most - 1)


@pytest.mark.parametrize("number", ("0.1234567890123456", "0.30000000000000004", "1e-16"))
def test_a_number_with_too_many_decimals_names_its_feature(number: str) -> None:
    layer = series(["POINT (1 2)", "POINT (1.5 2)", f"POINT ({float(number)!r} 2)"])
    with pytest.raises(rjoin.InputError, match=r"row 3 \(feature 'c'\).*decimals"):
        rjoin.stats(layer)


def test_texts_with_too_many_decimals_name_their_row() -> None:
    assert rjoin.stats(["POINT (1.5000000000 2.)", "POINT (3 4)"], scale=1).points == 2
    assert rjoin.stats(["POINT (1.5000000000 2.)", "POINT (3 4)"]).points == 2
    assert rjoin.stats(["POINT (1.5 2)", "POINT (3.123456789012345 4)"]).points == 2
    with pytest.raises(rjoin.InputError, match="row 2 .*decimals"):
        rjoin.stats(["POINT (1.5 2)", "POINT (3.1234567890123456 4)"])


def test_numbers_out_of_range_name_their_feature() -> None:
    layer = series(["POINT (0.123456789012345 2)", "POINT (1000.5 2)"])
    with pytest.raises(rjoin.InputError, match=r"row 2 \(feature 'b'\).*above"):
        rjoin.stats(layer)
    for greatest in (10 ** 12, 10 ** 18):
        assert rjoin.stats(series([f"POINT (-{greatest} {greatest})"])).points == 1
    for number in ("1000000000000000128", "1e19", "-1.7e308"):
        for first in ("POINT (1 0)", "POINT (0.25 0)"):
            with pytest.raises(rjoin.InputError, match="row 2 .*above"):
                rjoin.stats(series([first, f"POINT ({number} 0)"]))
    assert rjoin.stats(series(["POINT (-0.0 0)", "POINT (0.0 -0.0)"]), scale=6).points == 2


def test_both_sides_have_one_scale() -> None:
    fine, coarse = series(["POINT (0.25 1)"]), ["POLYGON ((0 0, 2 0, 2 2, 0 2, 0 0))"]
    for left, right in ((fine, coarse), (list(fine), series(coarse)), (["POINT (0.25 1)"], coarse)):
        assert rjoin.pairs(left, right)["matrix"].tolist() == ["0FFFFF212"]
    assert rjoin.pairs(["POINT (.25 1)"], coarse)["matrix"].tolist() == ["0FFFFF212"]


def layers_of_each_kind(name: str, folder: Path) -> List[Any]:
    """The same layer as a path, a list, a series of texts, geometries, a frame and two files."""
    ids, texts = rows_of(name)
    geometries = [wkt.loads(text) for text in texts]
    frame = geopandas.GeoDataFrame({"name": ids}, geometry=geometries, crs="EPSG:25832")
    frame.to_file(folder / f"{name}.gpkg", layer="features", driver="GPKG")
    return [TOWN / f"{name}.csv", str(TOWN / f"{name}.csv"), texts, tuple(texts), geometries,
            frame.geometry.to_wkt(), frame.geometry, frame, folder / f"{name}.gpkg",
            f"{folder / name}.gpkg:features"]


@pytest.mark.filterwarnings("error:CRS mismatch")
def test_layers_of_each_kind_have_the_same_pairs(tmp_path: Path) -> None:
    lefts, rights = (layers_of_each_kind(name, tmp_path) for name in ("parcels", "stations"))
    places = [(one, other) for one, a in enumerate(lefts[4]) for other, b in enumerate(rights[4])
              if a.contains(b)]
    for left in lefts:
        for right in (rights[0], rights[2], rights[7]):
            pairs = rjoin.pairs(left, right, "contains", ids="position")
            assert list(zip(pairs["left"], pairs["right"])) == places
    ids = rows_of("parcels")[0], rows_of("stations")[0]
    by_label = rjoin.pairs(lefts[0], rights[7].set_index("name"), "contains")
    named = [(ids[0][one], ids[1][other]) for one, other in places]
    assert list(zip(by_label["left"], by_label["right"])) == named


def test_two_known_reference_systems_are_warned_of(tmp_path: Path) -> None:
    layers = layers_of_each_kind("parcels", tmp_path)
    other = layers[7].set_crs("EPSG:3857", allow_override=True)
    calls: Tuple[Callable[..., Any], ...] = (rjoin.pairs, rjoin.draw)
    for layer in (layers[6], layers[8]):
        for call in calls:
            with pytest.warns(UserWarning, match="CRS mismatch") as caught:
                call(layer, other)
            assert caught[0].filename == __file__


def test_window_and_stats_count_what_shapely_counts(town: Any) -> None:
    for name in ("parcels", "roads", "stations"):
        layer = town[name]
        place = wkt.loads("POLYGON ((10 10, 40 10, 40 70, 10 70, 10 10))")
        met = rjoin.window(layer, place, ids="position")
        assert met.tolist() == [row for row, one in enumerate(layer.geometry)
                                if one.intersects(place)]
        counts = rjoin.stats(TOWN / f"{name}.csv")
        kinds = layer.geometry.geom_type.tolist()
        assert counts[:4] == (len(layer), kinds.count("Point"), kinds.count("LineString"),
                              kinds.count("Polygon"))


def test_features_are_told_by_the_levels_of_their_index(town: Any) -> None:
    """A label of several levels is a tuple of them."""
    left = town["parcels"].set_index(["id", town["parcels"].index])
    pairs = rjoin.pairs(left, town["roads"].set_index("id"), "crosses")
    plain = rjoin.pairs(town["parcels"].set_index("id"), town["roads"], "crosses",
                        ids="position")
    assert pairs["left"].tolist() == [left.index[place] for place in plain["left"]]
    assert pairs["left"].map(type).tolist() == [tuple] * len(pairs) and len(pairs)
    met = rjoin.window(left, AREA)
    assert met.tolist() == [left.index[place] for place in rjoin.window(left, AREA,
                                                                        ids="position")]


def test_a_layer_whose_file_the_program_would_not_read_is_refused(monkeypatch: Any) -> None:
    """Before it is written; the last one that is read has as many bytes as a file may have."""
    layer = series(["POINT (10 200)"] * 3)
    size = len("id,wkt\n") + 3 * len("0,POINT(10 200)\n")
    monkeypatch.setattr(sources, "ANY", ANY._replace(bytes=size))
    assert rjoin.stats(layer).points == 3
    monkeypatch.setattr(sources, "ANY", ANY._replace(bytes=size - 1))
    with pytest.raises(rjoin.InputError, match=f"^layer: 3 features .* take {size} bytes, and the "
                                               f"program reads {size - 1}"):
        rjoin.stats(layer)
