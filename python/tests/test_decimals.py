"""Coordinates that are rounded, beside decimal fractions."""
from __future__ import annotations

import csv
from decimal import ROUND_HALF_UP, Decimal
from pathlib import Path
from typing import Any, List, Tuple

import numpy as np
import pytest

import rjoin
from rjoin import decimals, shortest
from rjoin.command import main as run
from rjoin.limits import ANY

geopandas = pytest.importorskip("geopandas")
wkt = pytest.importorskip("shapely.wkt")
shapely_geometry = pytest.importorskip("shapely.geometry")

HALVES = ("0.5", "-0.5", "1.5", "2.5", "-2.5", "0.25", "-0.75", "0.05", "0.15", "1.005", "-1.005",
          "2.675", "0.000001", "-0.0000005", "0.49999999999999994", "-0.0", "1e-7", "12345.6789",
          "123456.5", "-999999.4999995", "0.1", "0.30000000000000004", "1e3", "5e-7")


def units_of(text: str, places: int) -> int:
    """The number in units, the nearest one, a half away from zero."""
    return int(Decimal(text).scaleb(places).to_integral_value(ROUND_HALF_UP))


def text_of(units: int, places: int) -> str:
    return format(Decimal(units).scaleb(-places), "f")


def numbers(seed: int, count: int) -> List[str]:
    """The shortest texts of floats; many of them are halves of some decimal or next to one."""
    random = np.random.default_rng(seed)
    tens = 10.0 ** random.integers(0, 9, count)
    halves = (random.integers(-10 ** 6, 10 ** 6, count) * 10 + 5) / tens
    some = [*HALVES, *map(repr, halves.tolist()),
            *map(repr, np.nextafter(halves, 0).tolist()),
            *map(repr, random.uniform(-1000, 1000, count).tolist())]
    return [text for text in some if abs(float(text)) <= 900_000]


@pytest.mark.parametrize("places", range(16))
def test_columns_round_as_decimal_fractions_do(places: int) -> None:
    texts = [text for text in numbers(places, 3000) if abs(float(text)) <= ANY.greatest(places)]
    rounded = decimals.rounded(np.array(texts, np.float64).reshape(-1, 1), places)
    assert rounded.ravel().tolist() == [units_of(repr(float(text)), places) for text in texts]


def doubles(seed: int, count: int) -> List[float]:
    """Doubles of all sizes, many of which have as many digits as one may have."""
    random = np.random.default_rng(seed)
    powers = 2.0 ** np.arange(-60, 50)
    digits = random.integers(-10 ** 17, 10 ** 17, count) / 10.0 ** random.integers(0, 16, count)
    some = [random.uniform(-1000, 1000, count), 10.0 ** random.uniform(-20, 17, count), digits,
            powers, np.nextafter(powers, 0), -np.nextafter(powers, np.inf),
            [0.0, -0.0, 5e-324, 1e-300, 0.1 + 0.2, 5812393.255999999, 9007199254740991.0]]
    return [number for part in some for number in np.asarray(part).tolist()]


@pytest.mark.parametrize("places", range(16))
def test_columns_have_the_decimals_that_are_printed(places: int) -> None:
    """A double has the shortest decimal that reads as it."""
    given = [number for number in doubles(places, 500) if abs(number) <= ANY.greatest(places)]
    units, _, exact = shortest.in_units(np.array(given), places)
    scaled = [Decimal(number if number.is_integer() else repr(number)).scaleb(places)
              for number in given]
    assert exact.tolist() == [number == number.to_integral_value() for number in scaled]
    assert decimals.is_exact(np.array(given), places).tolist() == exact.tolist()
    assert units[exact].tolist() == [int(number) for number in np.array(scaled)[exact]]
    assert decimals.has_more(np.array([given]), places) == (not exact.all())


@pytest.mark.parametrize("number", (0.123456789012345, -179.999999999999, 5812393.255999999,
                                    999.999999999999, 2.0 ** -15, 1e-15, 1e17, 1234567.0000001))
def test_numbers_of_many_decimals_are_read_as_they_are(number: float, tmp_path: Path) -> None:
    """Boxes and others, as geometries, as texts, as binary and from a file, beside their decimals.
    """
    text = format(Decimal(repr(number)), "f")
    for form in ("POINT ({} 3)", "LINESTRING (1 3, {} 4)"):
        one = wkt.loads(form.format(number))
        (tmp_path / "layer.csv").write_text(f'id,wkt\na,"{form.format(text)}"\n')
        for layer in ([one], [form.format(text)], [one.wkb_hex], tmp_path / "layer.csv"):
            assert len(rjoin.pairs(layer, [form.format(text)], "equals")) == 1


@pytest.mark.parametrize("places", (0, 1, 2, 6))
def test_geometries_texts_and_files_are_rounded_alike(places: int, tmp_path: Path) -> None:
    """Each point equals the one that has its decimal, rounded."""
    texts = numbers(20 + places, 60)
    points = [f"POINT ({text} {text})" for text in texts]
    geometries = geopandas.GeoSeries([shapely_geometry.Point(float(text), float(text))
                                      for text in texts])
    path = tmp_path / "points.csv"
    with open(path, "w", newline="", encoding="utf-8") as file:
        csv.writer(file).writerows([("id", "wkt"), *enumerate(points)])
    exact = [text_of(units_of(repr(float(text)), places), places) for text in texts]
    grid = [f"POINT ({text} {text})" for text in exact]
    expected = [(one, other) for one, text in enumerate(exact) for other, two in enumerate(exact)
                if Decimal(text) == Decimal(two)]
    layers = (points, geometries, path, geometries.map(lambda one: one.wkt).tolist())
    for layer in layers[:3]:
        for right in (grid, geopandas.GeoSeries.from_wkt(grid)):
            found = rjoin.pairs(layer, right, "equals", decimals=places, ids="position")
            assert list(zip(found["left"], found["right"])) == expected
            assert found.attrs["decimals"] == places
    for place in range(0, 24, 5):
        for point in (points[place], geometries[place]):
            assert rjoin.relate(point, grid[place], decimals=places) == "0FFFFFFF2"
            met = rjoin.window(geometries, point, decimals=places)
            assert met.tolist() == [other for one, other in expected if one == place]


SLANTED = (
    ("POLYGON ((0.04 0.06, 4.01 -0.04, 0.05 3.96, 0.04 0.06))",
     "POLYGON ((0 0.1, 4 0, 0.1 4, 0 0.1))"),
    ("LINESTRING (-0.25 0.75, 2.25 -1.35)", "LINESTRING (-0.3 0.8, 2.3 -1.4)"),
    ("MULTIPOINT (0.05 0.15, -0.05 -0.15)", "MULTIPOINT (0.1 0.2, -0.1 -0.2)"),
    ("MULTIPOLYGON (((0.04 0, 1 0, 0 1, 0.04 0)), ((5 5, 9.96 5, 9.94 9, 5 5)))",
     "MULTIPOLYGON (((0 0, 1 0, 0 1, 0 0)), ((5 5, 10 5, 9.9 9, 5 5)))"),
    ("POLYGON ((0.04 0, 2 0, 2 2, 0.01 2, 0.04 0))", "POLYGON ((0 0, 2 0, 2 2, 0 2, 0 0))"),
    ("POLYGON ((0.04 0, 2 0, 2 2, 0.04 2, 0.04 0))", "POLYGON ((0 0, 2 0, 2 2, 0 2, 0 0))"),
)


def test_geometries_of_any_form_are_rounded() -> None:
    for given, rounded in SLANTED:
        for one in (given, wkt.loads(given)):
            letters = rjoin.relate(one, wkt.loads(rounded), decimals=1)
            assert letters == wkt.loads(rounded).relate(wkt.loads(rounded))
            assert rjoin.pairs([one], [rounded], "equals", decimals=1)["matrix"].tolist() == [
                letters]


def test_boxes_that_are_flat_once_rounded_stay_areas() -> None:
    """As their texts do; a line or an area that is a point is refused, and may be left out."""
    flat, line = "POLYGON ((0 0, 3 0, 3 0.2, 0 0.2, 0 0))", "LINESTRING (0 0, 0.3 0)"
    dot = "POLYGON ((0 0, 0.3 0, 0.3 0.2, 0 0.2, 0 0))"
    for given in ([flat], geopandas.GeoSeries.from_wkt([flat])):
        with pytest.warns(rjoin.ImproperRingsWarning, match="is flat"):
            counts = rjoin.stats(given, decimals=0)
        assert (counts.lines, counts.areas, counts.decimals) == (0, 1, 0)
        with pytest.raises(rjoin.InputError, match="is flat"):
            rjoin.stats(given, decimals=0, rings="proper")
    for text in (line, dot, "LINESTRING (0 0, 0.3 0.3)",
                 "MULTILINESTRING ((0 0, 0.3 0.3), (5 5, 6 7))",
                 "POLYGON ((0 0, 0.3 0.2, 0 0.2, 0 0))"):
        layer = geopandas.GeoSeries.from_wkt(["POINT (1 1)", text, "POINT (2 2)"])
        for given in (layer, layer.to_wkt()):
            with pytest.raises(rjoin.InputError, match="row 2 .*a line without length"):
                rjoin.stats(given, decimals=0)
            with pytest.warns(rjoin.LeftOutWarning, match="row 2 .*only a point"):
                met = rjoin.window(given, "POLYGON ((0 0, 5 0, 5 5, 0 5, 0 0))", decimals=0,
                                   other="skip")
            assert met.tolist() == [0, 2] and rjoin.stats(given, other="skip").features == 3


def test_a_left_join_needs_features_that_are_a_point_once_rounded() -> None:
    left, right = (geopandas.GeoDataFrame(geometry=geopandas.GeoSeries.from_wkt(texts))
                   for texts in (["POINT (0 0)", "POINT (5 5)"],
                                 ["LINESTRING (0 0, 0.3 0.3)", "POINT (5 5)"]))
    with pytest.raises(rjoin.InputError, match="right: row 1 .*incomplete='mark'"):
        rjoin.sjoin(left, right, how="left", decimals=0, other="skip")
    with pytest.warns(rjoin.LeftOutWarning, match="1 features .*right, row 1"):
        marked = rjoin.sjoin(left, right, how="left", decimals=0, other="skip", incomplete="mark")
    assert marked["known"].tolist() == [False, True] and marked.attrs["decimals"] == 0
    whole = rjoin.sjoin(left, right, how="left", decimals=1, other="skip")
    assert whole["index_right"].tolist() == [0, 1]


def test_envelopes_are_rounded_as_boxes_are() -> None:
    layer = geopandas.GeoSeries.from_wkt(["LINESTRING (0.26 0.25, 3 0.31)", "POINT (0.04 0.06)"])
    with pytest.warns(rjoin.EnvelopeWarning):
        counts = rjoin.stats(layer, decimals=1, other="envelope")
    assert counts[:4] == (2, 1, 1, 0)


def auto(*texts: str) -> Tuple[int, ...]:
    """The decimals by `auto` of geometries, of texts, and of geometries beside texts."""
    layers = list(texts), geopandas.GeoSeries.from_wkt(list(texts))
    near = ["POINT (0.12345678 1)"]
    found = [rjoin.pairs(layer, other, decimals="auto").attrs["decimals"]
             for layer in layers for other in (near, geopandas.GeoSeries.from_wkt(near))]
    found += [rjoin.stats(layer, decimals="auto").decimals for layer in layers]
    found += [rjoin.draw(layer, near, decimals="auto").decimals for layer in layers]
    found += [rjoin.window(layer, near[0], decimals="auto").attrs["decimals"] for layer in layers]
    return tuple(sorted(set(found)))


def test_auto_takes_fifteen_decimals_or_as_many_as_the_range_allows() -> None:
    assert auto("POINT (0.12345678 -1)", "LINESTRING (0 0, 12.0123456789012345 7)") == (15,)
    assert auto("POINT (1000 -1000.0)", "POINT (0.1234567 1)") == (15,)
    assert auto("POINT (-1000.1234567 1)") == (14,)
    assert auto("POINT (1.12345678 5812345.25)", "POINT (1 2)") == (11,)
    assert auto("LINESTRING (0 0, 12345678.123456789 1)") == (10,)
    assert auto("LINESTRING (0 0, 1e9 0.5)") == (9,)
    assert auto("POINT (-999999999999999999 0.5)") == (0,)
    with pytest.raises(rjoin.InputError, match="row 2 .*(above|out of range)"):
        auto("POINT (0 0)", "POINT (1e19 1)")


def test_auto_takes_six_decimals_of_boxes_that_have_no_more() -> None:
    """Or as many as their range allows."""
    for text, number in (("POINT (0.123456 1)", 6), ("POINT (-1000000.1 1)", 5),
                         ("POINT (1000000000 0.5)", 3), ("POINT (0.1234567 1)", 15),
                         ("POINT (1000000.000001 0.5)", 11)):
        for layer in ([text], geopandas.GeoSeries.from_wkt([text])):
            assert rjoin.stats(layer, decimals="auto").decimals == number
    assert "decimals" not in rjoin.pairs(["POINT (0 0)"], ["POINT (0 0)"]).attrs


@pytest.mark.parametrize("text, count", (
    ("POINT (0.1234567890123456 2)", 16), ("POINT (1 0.30000000000000004)", 17),
    ("POINT (1e-17 1)", 17), ("LINESTRING (1 1, 2 0.0123456789012345)", 16),
    ("MULTIPOLYGON (((0 0, 1 0, 0 1, 0 0)), ((5 5, 9 5, 5 0.1234567890123456, 5 5)))", 16)))
def test_too_many_decimals_name_the_feature_the_number_and_the_argument(text: str,
                                                                        count: int) -> None:
    layer = geopandas.GeoSeries.from_wkt(["POINT (1.5 2)", "LINESTRING (0 0, 3 7)", text, text],
                                         index=list("abcd"))
    given = layer.to_wkt()
    given[:] = ["POINT (1.5 2)", "LINESTRING (0 0, 3 7)", text, text]
    for rows in (layer, given):
        with pytest.raises(rjoin.InputError, match=f"row 3 .feature 'c'.*has {count} decimals, "
                                                   "and 15 are the most: decimals=15 rounds"):
            rjoin.stats(rows)
        assert rjoin.stats(rows, decimals=6).features == 4
        with pytest.raises(rjoin.InputError, match="row 1|row 3"):
            rjoin.stats(rows, scale=0)
    with pytest.raises(rjoin.InputError, match=f"^first: .*has {count} decimals"):
        rjoin.relate(layer["c"], "POINT (1 1)")
    rjoin.relate(layer["c"], "POINT (1 1)", decimals=6)


def test_numbers_out_of_range_and_wrong_arguments_are_refused() -> None:
    for number, places in (("1000.0000000000002", 15), ("-1000000000000000512", 0), ("1e300", 3)):
        for layer in (geopandas.GeoSeries.from_wkt(["POINT (1 1)", f"POINT (0 {number})"]),
                      ["POINT (1 1)", f"POINT (0 {number})"]):
            with pytest.raises(rjoin.InputError, match="row 2 .*(above|out of range)"):
                rjoin.stats(layer, decimals=places)
    for number, places in (("999.9999999999999", 15), ("-1000000000000000000", 0)):
        for layer in (geopandas.GeoSeries.from_wkt([f"POINT (0 {number})"]),
                      [f"POINT (0 {number})"]):
            assert rjoin.stats(layer, decimals=places).points == 1
    wrong: Tuple[Any, ...] = (16, -1, 1.5, "2", "Auto", True)
    for value in wrong:
        with pytest.raises(rjoin.ArgumentError, match="decimals must be 0 to 15 or 'auto' or None"):
            rjoin.stats(["POINT (1 1)"], decimals=value)
    with pytest.raises(rjoin.ArgumentError, match="exclude each other"):
        rjoin.stats(["POINT (1 1)"], decimals=2, scale=2)


def test_a_scale_that_is_given_rounds_no_geometry() -> None:
    """Of those that stand alone, whose decimals are counted before; 0.25 has 2."""
    point, other = shapely_geometry.Point(0.25, 1), shapely_geometry.Point(0.2, 1)
    for one, two, side in ((point, other, "first"), (other, point, "second")):
        with pytest.raises(rjoin.InputError, match=f"^{side}: a coordinate has more than 1 dec"):
            rjoin.relate(one, two, scale=1)
        assert rjoin.relate(one, two, scale=2) == "FF0FFF0F2"
    with pytest.raises(rjoin.InputError, match="^window: a coordinate has more than 1 dec"):
        rjoin.window([other], point, scale=1)
    assert rjoin.window([other, point], point, scale=2).tolist() == [1]


@pytest.mark.parametrize("number", (2 ** 31, 2 ** 32 - 1, 2 ** 32, 5 * 10 ** 9, 10 ** 10 - 1,
                                    10 ** 10, 10 ** 12 - 1, 10 ** 12))
def test_great_numbers_are_written_digit_by_digit(number: int) -> None:
    """On both sides of 0, as whole numbers and with a dot."""
    for units in (number, -number):
        for places in (0, 3):
            text = text_of(units, places)
            near = text_of(units + (-1 if units > 0 else 1), places)
            points = [wkt.loads(f"POINT ({text} 1)"), wkt.loads(f"POINT ({near} 1)")]
            for layer in (points, [point.wkt for point in points]):
                found = rjoin.pairs(layer, [f"POINT ({text} 1)"], "equals")
                assert found["left"].tolist() == [0]
                assert rjoin.window(points, layer[1]).tolist() == [1]


def test_texts_that_shapely_reads_are_rounded_too(tmp_path: Path) -> None:
    path = tmp_path / "layer.csv"
    for text in ("POINT Z (1.12345678 2 3)", "GEOMETRYCOLLECTION (POINT (1.12345678 2))",
                 "MULTIPOINT (1.12345678 2)", "POINT (0.112345678e1 2)"):
        path.write_text(f'id,wkt\n7,"{text}"\n')
        for layer in ([text], path):
            assert rjoin.window(layer, "POINT (1.12 2)", decimals=2).tolist() in ([0], ["7"])
            assert rjoin.stats(layer, decimals="auto", other="skip").points == 1
        assert rjoin.relate(text, "POINT (1.12 2)", decimals=2) == "0FFFFFFF2"


def test_the_command_rounds_and_takes_a_rule_for_rings(tmp_path: Path, capsys: Any) -> None:
    bow_tie = shapely_geometry.Polygon([(0, 0), (4.000001, 4), (4, 0), (0, 4)])
    areas = geopandas.GeoDataFrame(geometry=[bow_tie])
    areas.to_file(tmp_path / "areas.gpkg", driver="GPKG")
    (tmp_path / "points.csv").write_text(
        "id,wkt\na,POINT (1.1234567890123457 2)\nb,POINT (2 1)\n")
    words = [f"{tmp_path}/points.csv", f"{tmp_path}/areas.gpkg", "--relation", "within", "-o"]
    assert run([*words, f"{tmp_path}/none.csv"]) == 1
    assert "left: row 1: coordinate 1.1234567890123457 has 16 dec" in (
        capsys.readouterr().err.replace(" (feature 'a')", ""))
    for value, lines in (("3", 1), ("auto", 2)):
        output = tmp_path / f"{value}.csv"
        assert run([*words, str(output), "--decimals", value]) == 0
        assert output.read_text() == "left,right,matrix\na,0,0FFFFF212\n"
        told = capsys.readouterr().err.splitlines()
        assert len(told) == lines and "even-odd" in told[0]
        assert lines == 1 or told[1] == "rjoin: coordinates are rounded to 15 decimals"
    (tmp_path / "points.csv").write_text("id,wkt\na,POINT (1.123456789012345 2)\nb,POINT (2 1)\n")
    assert run([*words, f"{tmp_path}/auto.csv", "--overwrite", "--decimals", "auto"]) == 0
    assert "rounded" not in capsys.readouterr().err
    output = tmp_path / "none.csv"
    for more, status, line in (
            (("--decimals", "3", "--rings", "proper"), 1, "rings cross or overlap"),
            (("--decimals", "16"), 2, "decimals must be"),
            (("--decimals", "3", "--scale", "3"), 2, "exclude each other")):
        assert run([*words, str(output), *more]) == status and not output.exists()
        assert line in capsys.readouterr().err
