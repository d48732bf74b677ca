"""The joins of python3 -m rjoin: which rows are kept, distances, tables, and standard output."""
from __future__ import annotations

import csv
import io
import os
import subprocess
import sys
from pathlib import Path
from typing import Any, Dict, List, Sequence, Tuple

import pytest
from town import TOWN

from rjoin.command import main as run

geopandas = pytest.importorskip("geopandas")
shapely_geometry = pytest.importorskip("shapely.geometry")

HOW = ("inner", "left", "right")
# Two squares, and points in the first one, at 1 and 4 from the second one, and far from both.
AREAS = {"one": "POLYGON ((0 0, 4 0, 4 4, 0 4, 0 0))",
         "two": "POLYGON ((20 0, 24 0, 24 4, 20 4, 20 0))"}
POINTS = {"in": (1, 1), "near": (19, 2), "less": (28, 2), "far": (20, 500)}


def ends(*words: Any) -> int:
    status: int = run([str(word) for word in words])
    return status


def rows_of(path: Path) -> List[Dict[str, str]]:
    with open(path, newline="", encoding="utf-8") as file:
        return list(csv.DictReader(file))


@pytest.fixture()
def layers(tmp_path: Path) -> Tuple[Path, Path]:
    """The areas in a GeoPackage, with a number and a flag, and the points as a table."""
    areas = geopandas.GeoSeries.from_wkt(list(AREAS.values()))
    frame = geopandas.GeoDataFrame({"name": list(AREAS), "floors": [3, 5], "old": [True, False]},
                                   geometry=areas, crs="EPSG:25832")
    frame.to_file(tmp_path / "areas.gpkg", driver="GPKG")
    lines = [f"{name},{x},{y}\n" for name, (x, y) in POINTS.items()]
    (tmp_path / "points.csv").write_text("".join(["point,lon,lat\n", *lines]))
    return tmp_path / "areas.gpkg", tmp_path / "points.csv"


def joined(layers: Sequence[Path], *words: Any, name: str = "out.csv") -> List[Dict[str, str]]:
    output = layers[0].parent / name
    assert ends(*layers, "--xy", "lon,lat", "--overwrite", "-o", output, *words) == 0
    return rows_of(output)


def test_features_without_a_partner_are_kept(layers: Tuple[Path, Path]) -> None:
    """In the order of the side whose rows are kept, with the fields of that side alone."""
    names = ("--left-id", "name", "--right-id", "point", "--attributes")
    pair = {"left": "one", "right": "in", "matrix": "0F2FF1FF2", "name": "one", "floors": "3",
            "old": "True", "point": "in", "lon": "1", "lat": "1"}
    nothing = {name: "" for name in pair}
    alone = [{**nothing, "left": "two", "name": "two", "floors": "5", "old": "False"}]
    others = [{**nothing, "right": name, "point": name, "lon": str(x), "lat": str(y)}
              for name, (x, y) in POINTS.items() if name != "in"]
    for how, rows in zip(HOW, ([pair], [pair, *alone], [pair, *others])):
        assert joined(layers, "--relation", "contains", "--how", how, *names) == rows
    turned = joined(layers[::-1], "--predicate", "within", "--how", "left", "--left-id", "point")
    assert [(row["left"], row["right"]) for row in turned] == [
        ("in", "0"), ("near", ""), ("less", ""), ("far", "")]


@pytest.mark.parametrize("how", HOW)
@pytest.mark.parametrize("relation", ("touches", "crosses", "intersects"))
def test_rows_of_the_town_are_those_of_shapely(town: Any, tmp_path: Path, how: str,
                                               relation: str) -> None:
    output = tmp_path / "out.csv"
    assert ends(TOWN / "parcels.csv", TOWN / "roads.csv", "--relation", relation, "--how", how,
                "-o", output) == 0
    left, right = (town[name].set_index("id").geometry for name in ("parcels", "roads"))
    met = [(one, other, a.relate(b)) for one, a in left.items() for other, b in right.items()
           if getattr(a, relation)(b)]
    base, frame = (1, right) if how == "right" else (0, left)
    order = {name: place for place, name in enumerate(frame.index)}
    partners = {row[base] for row in met}
    alone = [(name, "", "") if base == 0 else ("", name, "") for name in frame.index
             if how != "inner" and name not in partners]
    expected = sorted([*met, *alone], key=lambda row: order[row[base]] if how != "inner" else 0)
    assert [tuple(row.values()) for row in rows_of(output)] == expected and met


def test_distances_are_written(layers: Tuple[Path, Path]) -> None:
    words = ("--left-id", "name", "--right-id", "point")
    within = [("one", "in", "0.0"), ("two", "near", "1.0"), ("two", "less", "4.0")]
    for distance, count in (("4", 3), ("3.999999", 2), ("1e0", 2), ("0", 1)):
        rows = joined(layers, "--predicate", "dwithin", "--distance", distance, *words)
        assert [tuple(row.values()) for row in rows] == within[:count]
        assert list(rows[0]) == ["left", "right", "distance"]
    kept = joined(layers, "--relation", "dwithin", "--distance", "1", "--how", "right", *words)
    assert [tuple(row.values()) for row in kept] == [
        within[0], within[1], ("", "less", ""), ("", "far", "")]
    slanted = joined(layers, "--relation", "dwithin", "--distance", "16", "--left-id", "name",
                     "--right-id", "point")
    assert slanted[1]["distance"] == "15.0" and slanted[1]["right"] == "near"


def test_the_nearest_are_as_many_as_are_asked_for(layers: Tuple[Path, Path]) -> None:
    words = ("--left-id", "name", "--right-id", "point")
    first = [("one", "in", "0.0"), ("one", "near", "15.0"), ("one", "less", "24.0")]
    second = [("two", "near", "1.0"), ("two", "less", "4.0"), ("two", "in", "19.0")]
    for count in (1, 2, 3):
        rows = joined(layers, "--nearest", count, *words)
        assert [tuple(row.values()) for row in rows] == [*first[:count], *second[:count]]
    reached = joined(layers, "--nearest", 3, "--distance", "15", *words)
    assert [tuple(row.values()) for row in reached] == [*first[:2], *second[:2]]
    of_points = joined(layers, "--nearest", 1, "--how", "right", "--distance", "100", *words)
    assert [tuple(row.values()) for row in of_points] == [
        ("one", "in", "0.0"), ("two", "near", "1.0"), ("two", "less", "4.0"), ("", "far", "")]
    # Both points are as near to the first one.
    table = layers[1].with_name("ties.csv")
    table.write_text("point,lon,lat\na,0,9\nb,4,9\nc,0,10\n")
    rows = joined((layers[0], table), "--nearest", 1, "--left-id", "name", "--right-id", "point")
    assert [row["right"] for row in rows if row["left"] == "one"] == ["a", "b"]


def test_rows_have_whole_numbers_flags_and_the_geometry_of_their_side(
        layers: Tuple[Path, Path]) -> None:
    """In a GeoPackage, also where a row has none of them."""
    folder = layers[0].parent
    for how, geometries in (("left", list(AREAS.values())),
                            ("right", [f"POINT ({x} {y})" for x, y in POINTS.values()])):
        output = folder / f"{how}.gpkg"
        assert ends(*layers, "--xy", "lon,lat", "--relation", "contains", "--how", how,
                    "--attributes", "--geometry", "-o", output) == 0
        rows = geopandas.read_file(output)
        expected = geopandas.GeoSeries.from_wkt(geometries)
        assert all(one.equals(other) for one, other in zip(rows.geometry, expected))
        assert rows["left"].fillna(-1).tolist() == ([0, 1] if how == "left" else [0, -1, -1, -1])
        assert rows["floors"].fillna(-1).tolist() == ([3, 5] if how == "left" else [3, -1, -1, -1])
        assert rows["old"].dropna().astype(bool).tolist() == (
            [True, False] if how == "left" else [True])
        assert (rows.crs == "EPSG:25832") == (how == "left")
        plain = folder / f"{how}-table.gpkg"
        assert ends(*layers, "--xy", "lon,lat", "--relation", "contains", "--how", how,
                    "--attributes", "-o", plain) == 0
        table = geopandas.read_file(plain, ignore_geometry=True)
        assert table["floors"].fillna(-1).tolist() == rows["floors"].fillna(-1).tolist()
        assert table["matrix"].isna().tolist() == rows["matrix"].isna().tolist()


def test_what_is_left_out_may_be_a_partner(layers: Tuple[Path, Path], capsys: Any) -> None:
    folder = layers[0].parent
    (folder / "some.csv").write_text("point,lon,lat\na,1,1\nb,,1\nc,30,\n")
    some = (layers[0], folder / "some.csv")
    words = ("--xy", "lon,lat", "-o", folder / "out.csv", "--overwrite")
    for more, remedy in ((("--relation", "contains", "--how", "left"), "--how inner, or --inc"),
                         (("--nearest", "1"), "take --incomplete mark")):
        assert ends(*some, *more, *words) == 1
        assert "right: row 2 (feature 1): there is no geometry\n" in capsys.readouterr().err
        assert ends(*some, *more, *words, "--missing", "skip") == 1
        assert remedy in capsys.readouterr().err
        rows = joined(some, *more, "--missing", "skip", "--incomplete", "mark")
        assert [(row["left"], row["right"], row["known"]) for row in rows] == (
            [("0", "0", "True"), ("1", "", "False")] if "--how" in more else
            [("0", "0", "False"), ("1", "0", "False")])
        assert capsys.readouterr().err.count("left out: right: row") == 2
        kept = joined(some, *more, "--missing", "keep")
        assert [row["left"] for row in kept] == ["0", "1"] and "known" not in kept[0]
    kept = joined(some, "--relation", "contains", "--how", "right", "--missing", "keep")
    assert [(row["left"], row["right"]) for row in kept] == [("0", "0"), ("", "1"), ("", "2")]
    assert capsys.readouterr().err == ""


def test_rows_that_rest_on_an_envelope_say_so(layers: Tuple[Path, Path], capsys: Any) -> None:
    folder = layers[0].parent
    (folder / "wkt.csv").write_text('name,shape\nt,"POLYGON ((0 0, 4 0, 0 4, 0 0))"\n'
                                    'p,POINT (90 90)\n')
    words = (folder / "wkt.csv", layers[0], "--geometry-column", "shape", "--other", "envelope",
             "--overwrite", "-o", folder / "out.csv", "--left-id", "name", "--right-id", "name")
    for more, expected in (
            (("--relation", "contains", "--how", "right"),
             [("t", "one", "False"), ("", "two", "False")]),
            (("--relation", "intersects", "--how", "left"),
             [("t", "one", "False"), ("p", "", "True")]),
            (("--nearest", "1", "--how", "right"), [("t", "one", "False"), ("t", "two", "False")])):
        assert ends(*words, *more) == 0
        rows = rows_of(folder / "out.csv")
        assert [(row["left"], row["right"], row["exact"]) for row in rows] == expected
        inexact = [row[2] for row in expected].count("False")
        assert f"{inexact} of 2 rows rest on an envelope" in capsys.readouterr().err


@pytest.mark.parametrize("field", ("geometry", "shape", "the geom"))
def test_texts_of_a_table_are_its_geometries(tmp_path: Path, field: str) -> None:
    """They aren't written once more beside the geometry."""
    table = tmp_path / "table.csv"
    table.write_text(f'"name","{field}"\na,POINT (1.5 2)\nb,"LINESTRING (0 0, 3 3)"\nc,\n')
    output = tmp_path / "out.csv"
    assert ends(table, table, "--geometry-column", field, "--relation", "equals", "--missing",
                "skip", "--attributes", "-o", output) == 0
    assert [tuple(row.values()) for row in rows_of(output)] == [
        ("0", "0", "0FFFFFFF2", "a", "a"), ("1", "1", "1FFF0FFF2", "b", "b")]


def test_tables_that_say_no_geometry_are_refused(layers: Tuple[Path, Path], capsys: Any) -> None:
    areas, points = layers
    table = points.with_name("wrong.csv")
    table.write_text("lon,lat,shape,fine\n1,1,POINT (1 1),1\nx,2,POINT (2),0.1234567890123456\n")
    output = points.with_name("out.csv")
    for files, words, status, told in (
            ((areas, table), ("--xy", "lon,lat"), 1, "right: row 2 (feature 1): lon is 'x', which "
                                                     "is no number"),
            ((areas, table), ("--geometry-column", "shape"), 1,
             "right: row 2 (feature 1): not a geometry text"),
            ((table, areas), ("--xy", "fine,lat"), 1, "row 2 (feature 1): coordinate 0.12345678"),
            ((areas, table), ("--xy", "lon,late"), 2, "right has no field 'late'; it has lon, lat"),
            ((areas, areas), ("--xy", "lon,lat"), 2, "are for tables"),
            ((points, points.with_name("none.csv")), ("--xy", "lon,lat"), 1, "is not there")):
        assert ends(*files, *words, "--relation", "within", "-o", output) == status
        lines = capsys.readouterr().err.splitlines()
        assert len(lines) == 1 and lines[0].startswith("rjoin: ") and told in lines[0]
    assert not output.exists()
    for words in (("--xy", "lon"), ("--xy", "a,b,c"), ("--xy", "lon,"), ("--geometry-column", "")):
        with pytest.raises(SystemExit) as ended:
            ends(areas, table, *words, "--relation", "within", "-o", output)
        assert ended.value.code == 2 and "has not the names of" in capsys.readouterr().err


@pytest.mark.parametrize("number", ("1", "-1.50", "+.5", "2.", "1e-1", " 3 "))
def test_coordinates_are_read_as_they_are_written(tmp_path: Path, number: str) -> None:
    table, output = tmp_path / "table.csv", tmp_path / "out.csv"
    table.write_text(f"x,y\n{number},{number}\n")
    (tmp_path / "exact.csv").write_text(f"id,wkt\nit,POINT ({float(number)} {float(number)})\n")
    assert ends(table, tmp_path / "exact.csv", "--xy", "x,y", "--relation", "equals", "-o",
                output) == 0
    assert [(row["left"], row["right"]) for row in rows_of(output)] == [("0", "it")]


def test_questions_that_make_no_sense_are_refused(layers: Tuple[Path, Path], capsys: Any) -> None:
    areas, _ = layers
    output = areas.with_name("out.csv")
    within = ("--relation", "within")
    for words, told in (
            ((), "give --relation or --nearest"), ((*within, "--nearest", "1"), "not both"),
            ((*within, "--distance", "1"), "--distance is for --relation dwithin"),
            (("--relation", "dwithin"), "which needs it"),
            (("--relation", "dwithin", "--distance", "-1"), "--distance must be a finite number"),
            (("--relation", "dwithin", "--distance", "inf"), "--distance must be a finite number"),
            (("--nearest", "1", "--distance", "nan"), "--distance must be a finite number"),
            (("--relation", "dwithin", "--distance", "0.1234567890123456"), "has 16 dec"),
            (("--nearest", "0"), "--nearest must be 1 to 4294967295, not 0"),
            (("--nearest", "4294967296"), "--nearest must be 1 to 4294967295"),
            ((*within, "--incomplete", "mark"), "--incomplete mark is for --how left"),
            ((*within, "--notices", "-"), "--notices needs a file")):
        assert ends(areas, areas, *words, "-o", output) == 2, words
        lines = capsys.readouterr().err.splitlines()
        assert len(lines) == 1 and lines[0].startswith("rjoin: ") and told in lines[0], lines
    assert not output.exists()
    for distance, told in (("far", "is no number"), ("1,5", "is no number"),
                           ("0.10000000000000000001", "more digits than a float")):
        with pytest.raises(SystemExit) as ended:
            ends(areas, areas, "--relation", "dwithin", "--distance", distance, "-o", output)
        assert ended.value.code == 2 and told in capsys.readouterr().err


COMMAND = "import sys; from rjoin.command import main; sys.exit(main(sys.argv[1:]))"


def begun(output: Any, *words: Any) -> "subprocess.Popen[bytes]":
    environment = {**os.environ, "PYTHONPATH": os.pathsep.join(sys.path)}
    files = [str(TOWN / "parcels.csv"), str(TOWN / "roads.csv"), "--relation", "intersects"]
    return subprocess.Popen([sys.executable, "-c", COMMAND, *files, "-o", "-", *map(str, words)],
                            stdout=output, stderr=subprocess.PIPE, env=environment)


def test_standard_output_gets_the_rows_of_a_file(tmp_path: Path) -> None:
    for words in ((), ("--attributes", "--geometry", "--how", "left")):
        written, told = begun(subprocess.PIPE, *words).communicate()
        output = tmp_path / f"out{len(words)}.csv"
        assert ends(TOWN / "parcels.csv", TOWN / "roads.csv", "--relation", "intersects", *words,
                    "-o", output) == 0
        assert (written, told) == (output.read_bytes(), b"")
        assert len(list(csv.reader(io.StringIO(written.decode())))) > 50
    assert not Path("-").exists()


def test_a_reader_that_takes_a_part_ends_nothing() -> None:
    """As `head` does; a row is shorter than what it leaves."""
    reading, writing = os.pipe()
    process = begun(writing, "--attributes", "--geometry")
    os.close(writing)
    os.close(reading)
    assert process.communicate()[1] == b"" and process.returncode == 0


def test_standard_output_that_cannot_be_written_is_told() -> None:
    with open("/dev/full", "wb") as full:
        process = begun(full)
        told = process.communicate()[1]
    line = b"rjoin: standard output cannot be written: No space left on device\n"
    assert (process.returncode, told) == (1, line)
