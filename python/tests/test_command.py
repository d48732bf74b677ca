"""The command python3 -m rjoin, with files that GDAL reads and writes."""
from __future__ import annotations

import csv
import sqlite3
from pathlib import Path
from typing import Any, Dict, List, Tuple

import numpy as np
import pandas
import pytest
from town import TOWN

from rjoin.command import main as run

geopandas = pytest.importorskip("geopandas")
shapely_geometry = pytest.importorskip("shapely.geometry")


def touching(town: Any) -> List[Tuple[str, str, str]]:
    """The pairs of the town by Shapely."""
    return [(one.id, other.id, one.geometry.relate(other.geometry))
            for one in town["parcels"].itertuples() for other in town["roads"].itertuples()
            if one.geometry.touches(other.geometry)]


@pytest.fixture()
def files(town: Any, tmp_path: Path) -> Tuple[str, str]:
    """The parcels in a GeoPackage of two layers, and the roads in a Shapefile."""
    town["zones"].to_file(tmp_path / "town.gpkg", layer="zones", driver="GPKG")
    town["parcels"].to_file(tmp_path / "town.gpkg", layer="parcels", driver="GPKG")
    town["roads"].assign(lanes=2).to_file(tmp_path / "roads.shp")
    return f"{tmp_path}/town.gpkg:parcels", f"{tmp_path}/roads.shp"


def ends(words: List[Any]) -> int:
    status: int = run([str(word) for word in words])
    return status


def test_pairs_are_written_as_csv(town: Any, files: Any, tmp_path: Path) -> None:
    output = tmp_path / "pairs.csv"
    assert ends([*files, "--relation", "touches", "-o", output, "--left-id", "id",
                 "--right-id", "id"]) == 0
    rows = list(csv.reader(output.open(newline="")))
    assert rows[0] == ["left", "right", "matrix"]
    assert [tuple(row) for row in rows[1:]] == touching(town)


def test_pairs_are_written_as_a_table(town: Any, files: Any, tmp_path: Path) -> None:
    output = tmp_path / "pairs.gpkg"
    assert ends([*files, "--relation", "touches", "-o", output, "--attributes"]) == 0
    with sqlite3.connect(output) as package:
        kinds = package.execute("SELECT data_type FROM gpkg_contents").fetchall()
    assert kinds == [("attributes",)]
    rows = geopandas.read_file(output, ignore_geometry=True)
    assert list(zip(rows["id_left"], rows["id_right"], rows["matrix"])) == touching(town)
    assert set(rows["lanes"]) == {2} and rows["left"][:3].tolist() == [0, 0, 0]


def test_features_are_written_with_fields_of_both_sides(town: Any, files: Any,
                                                        tmp_path: Path) -> None:
    output = tmp_path / "out.gpkg"
    assert ends([*files, "--relation", "touches", "-o", output, "--geometry", "--attributes",
                 "--left-id", "id"]) == 0
    written = geopandas.read_file(output)
    by_id = town["parcels"].set_index("id").geometry
    assert [(row.left, row.id_right, row.matrix) for row in written.itertuples()] == touching(town)
    assert all(by_id[row.left].equals(row.geometry) for row in written.itertuples())
    assert written.crs == town["parcels"].crs


def test_layers_of_the_town_are_read_as_they_stand(town: Any, tmp_path: Path) -> None:
    output = tmp_path / "pairs.csv"
    assert ends([TOWN / "parcels.csv", TOWN / "roads.csv", "--relation", "touches", "-o",
                 output]) == 0
    assert [tuple(row) for row in csv.reader(output.open(newline=""))][1:] == touching(town)


def test_a_file_that_is_there_is_kept(files: Any, tmp_path: Path, capsys: Any) -> None:
    output = tmp_path / "town.gpkg"
    before = output.read_bytes()
    words = [*files, "--relation", "touches", "-o", output]
    assert ends(words) == 2 and output.read_bytes() == before
    assert "--overwrite" in capsys.readouterr().err
    assert ends([*words, "--overwrite"]) == 0 and output.read_bytes() != before


@pytest.mark.parametrize("name", ("out.gpkg", "out.geojson", "out.csv"))
def test_fields_of_all_kinds_are_written(town: Any, tmp_path: Path, name: str) -> None:
    """Without geometries, and missing ones too."""
    count = len(town["parcels"])
    fields: Dict[str, List[Any]] = {
        "flag": [True, False] * count, "number": [7, 2 ** 40] * count,
        "half": [0.5, np.nan] * count, "text": ["a,b", None] * count}
    left = town["parcels"].assign(**{field: some[:count] for field, some in fields.items()})
    left.to_file(tmp_path / "parcels.gpkg", driver="GPKG")
    output = tmp_path / name
    assert ends([tmp_path / "parcels.gpkg", TOWN / "roads.csv", "--relation", "touches", "-o",
                 output, "--attributes", "--left-id", "id"]) == 0
    rows = pandas.read_csv(output) if name == "out.csv" else geopandas.read_file(
        output, ignore_geometry=True)
    expected = left.set_index("id").loc[[one for one, _, _ in touching(town)]]
    for field in fields:
        ours, theirs = rows[field].tolist(), expected[field].tolist()
        assert [one for one in ours if not pandas.isna(one)] == [
            one for one in theirs if not pandas.isna(one)]
        assert pandas.isna(ours).tolist() == pandas.isna(theirs).tolist()
    assert isinstance(rows["flag"][0], (bool, np.bool_)) and rows["flag"].nunique() == 2


def test_files_beside_the_output_are_kept(files: Any, tmp_path: Path, capsys: Any) -> None:
    beside, output = tmp_path / "out.dbf", tmp_path / "out.shp"
    beside.write_text("another's")
    words = [*files, "--relation", "touches", "-o", output, "--geometry"]
    assert ends(words) == 2 and beside.read_text() == "another's" and not output.exists()
    assert "out.dbf is there already" in capsys.readouterr().err
    assert ends([*words, "--overwrite"]) == 0 and len(geopandas.read_file(output)) > 0
    notices = ["--notices", f"{tmp_path}/none/../pairs.csv"]
    (tmp_path / "none").mkdir()
    assert ends([*files, "--relation", "touches", "-o", tmp_path / "pairs.csv", *notices]) == 2
    assert "the same file" in capsys.readouterr().err and not (tmp_path / "pairs.csv").exists()


@pytest.mark.parametrize("name", ("out.shp", "out.fgb", "out.gml"))
def test_a_table_is_written_only_where_all_rows_are_kept(files: Any, tmp_path: Path, name: str,
                                                         capsys: Any) -> None:
    words = [*files, "--relation", "touches", "-o", tmp_path / name]
    before = sorted(tmp_path.iterdir())
    assert ends(words) == 2 and sorted(tmp_path.iterdir()) == before
    assert "add --geometry" in capsys.readouterr().err
    assert ends([*words, "--geometry"]) == 0


@pytest.mark.parametrize("more", ((), ("--geometry",)))
def test_a_field_with_the_name_of_the_key_is_kept(town: Any, tmp_path: Path, more: Any) -> None:
    """Of a Shapefile that was a GeoPackage; each parcel has several roads."""
    town["parcels"].assign(fid=range(100, 157)).to_file(tmp_path / "parcels.shp")
    output = tmp_path / "out.gpkg"
    assert ends([tmp_path / "parcels.shp", TOWN / "roads.csv", "--relation", "touches", "-o",
                 output, "--attributes", *more]) == 0
    rows = geopandas.read_file(output, ignore_geometry=True)
    assert rows["fid"].tolist() == [
        100 + town["parcels"].index[town["parcels"]["id"] == one][0]
        for one, _, _ in touching(town)]


def test_faults_leave_nothing_and_are_told_in_a_line(files: Any, tmp_path: Path,
                                                     capsys: Any) -> None:
    short = geopandas.GeoDataFrame(geometry=[shapely_geometry.LineString([(9, 7), (9, 7)])])
    short.to_file(tmp_path / "short.gpkg", driver="GPKG")
    left, output = files[0], tmp_path / "out.csv"
    for right, relation, status, told in (
            (tmp_path / "short.gpkg", "touches", 1, "right: row 1 (feature 0): a line without"),
            (tmp_path / "none.gpkg", "touches", 1, "is not there"),
            (f"{tmp_path}/town.gpkg:none", "touches", 1, "none"),
            (files[1], "disjoint", 2, "disjoint")):
        before = sorted(tmp_path.iterdir())
        assert ends([left, right, "--relation", relation, "-o", output]) == status
        lines = capsys.readouterr().err.splitlines()
        assert len(lines) == 1 and lines[0].startswith("rjoin: ") and told in lines[0]
        assert sorted(tmp_path.iterdir()) == before
    for name, told in (("out.none", ".none"), ("none/out.csv", "no folder")):
        assert ends([left, files[1], "--relation", "touches", "-o", tmp_path / name]) == 2
        assert told in capsys.readouterr().err


def test_options_are_those_of_the_join(files: Any, real: str, tmp_path: Path,
                                       monkeypatch: Any) -> None:
    program = tmp_path / "rjoin"
    program.write_text(f'#!/bin/sh\necho "$@" >>{tmp_path}/words\nexec "{real}" "$@"\n')
    program.chmod(0o755)
    monkeypatch.setenv("RJOIN", str(program))
    output = tmp_path / "out.csv"
    words = [*files, "--relation", "touches", "--overwrite", "-o", output]
    for more, told in ((("--workers", "3"), "--workers 3"), (("--workers", "auto"),
                                                             "--workers auto")):
        (tmp_path / "words").write_text("")
        assert ends([*words, *more]) == 0
        assert (tmp_path / "words").read_text().count(told) == 1
    town = geopandas.GeoDataFrame(geometry=[shapely_geometry.Point(1.25, 2)])
    town.to_file(tmp_path / "fine.geojson", driver="GeoJSON")
    fine = [tmp_path / "fine.geojson", *files[1:], *words[2:]]
    assert ends([*fine, "--scale", "1"]) == 1 and ends([*fine, "--scale", "2"]) == 0


def test_what_is_left_out_is_listed(files: Any, tmp_path: Path, capsys: Any) -> None:
    point, line = shapely_geometry.Point(5, 5), shapely_geometry.LineString([(0, 0), (9, 7)])
    mixed = geopandas.GeoDataFrame(
        geometry=[shapely_geometry.GeometryCollection([point, line]), point])
    mixed.to_file(tmp_path / "mixed.geojson", driver="GeoJSON")
    for other, what, count in (("skip", "left out", 1), ("envelope", "envelope", 2)):
        output, notices = tmp_path / f"{other}.csv", tmp_path / f"{other}-notices.csv"
        assert ends([tmp_path / "mixed.geojson", TOWN / "parcels.csv", "--relation", "intersects",
                     "--other", other, "-o", output, "--notices", notices]) == 0
        told = capsys.readouterr().err
        assert "row 1" in told
        rows = list(csv.reader(notices.open(newline="")))
        assert [row[:3] for row in rows[1:]] == [[what, "left", "1"]]
        pairs = list(csv.DictReader(output.open(newline="")))
        assert len({row["left"] for row in pairs}) == count
        exact = [row["left"] != "0" for row in pairs] if other == "envelope" else []
        assert [row["exact"] == "True" for row in pairs if "exact" in row] == exact
        inexact = f"{exact.count(False)} of {len(pairs)} pairs rest on an envelope"
        assert (inexact in told) == (other == "envelope")


@pytest.mark.parametrize("count", (10, 11, 25))
def test_of_many_that_are_left_out_the_first_are_told(tmp_path: Path, count: int,
                                                      capsys: Any) -> None:
    lines = [f"n{row},POINT EMPTY\n" for row in range(count)]
    (tmp_path / "layer.csv").write_text("".join(["id,wkt\n", *lines, "last,POINT (5 5)\n"]))
    notices = tmp_path / "notices.csv"
    assert ends([tmp_path / "layer.csv", TOWN / "parcels.csv", "--relation", "within", "--missing",
                 "skip", "-o", tmp_path / "out.csv", "--notices", notices]) == 0
    told = capsys.readouterr().err.splitlines()
    assert told[:10] == [f"rjoin: left out: left: row {row + 1} (feature 'n{row}'): the geometry "
                         "is empty" for row in range(10)]
    assert told[10:] == ([f"rjoin: left out: {count - 10} more; --notices lists all"]
                         if count > 10 else [])
    listed = list(csv.reader(notices.open(newline="")))
    assert listed[1:] == [["left out", "left", str(row + 1), f"n{row}", "the geometry is empty"]
                          for row in range(count)]
