"""Layers of the command that are compressed, or that come from standard input, and the texts that
a column of a table may have for its geometries.
"""
from __future__ import annotations

import csv
import gzip
import os
import subprocess
import sys
from pathlib import Path
from typing import Any, Dict, List, Tuple

import pytest
from town import TOWN

import rjoin
from rjoin.command import main as run

geopandas = pytest.importorskip("geopandas")
wkb = pytest.importorskip("shapely.wkb")
wkt = pytest.importorskip("shapely.wkt")

COMMAND = "import sys; from rjoin.command import main; sys.exit(main(sys.argv[1:]))"
ROADS = TOWN / "roads.csv"
WORDS = ("--relation", "touches")


def ends(*words: Any) -> int:
    status: int = run([str(word) for word in words])
    return status


def rows_of(path: Path) -> List[Dict[str, str]]:
    with open(path, newline="", encoding="utf-8") as file:
        return list(csv.DictReader(file))


def piped(text: bytes, *words: Any) -> Tuple[int, List[List[str]], str]:
    """How the command ends with a text on standard input: status, rows, and what it told."""
    environment = {**os.environ, "PYTHONPATH": os.pathsep.join(sys.path)}
    command = [sys.executable, "-c", COMMAND, *map(str, words), "-o", "-"]
    done = subprocess.run(command, input=text, capture_output=True, env=environment, check=False)
    rows = list(csv.reader(done.stdout.decode().splitlines()))
    return done.returncode, rows[1:], done.stderr.decode()


def expected(town: Any) -> List[Tuple[str, str]]:
    return [(one.id, other.id) for one in town["parcels"].itertuples()
            for other in town["roads"].itertuples() if one.geometry.touches(other.geometry)]


@pytest.fixture()
def forms(town: Any, tmp_path: Path) -> Dict[str, Path]:
    """The parcels of the town in files of several forms."""
    parcels = town["parcels"].set_index("id")
    parcels.to_file(tmp_path / "parcels.geojson", driver="GeoJSON", index=True)
    parcels.to_file(tmp_path / "parcels.gpkg", driver="GPKG", layer="areas", index=True)
    parcels.to_file(tmp_path / "parcels.fgb", driver="FlatGeobuf", index=True)
    plain = tmp_path / "parcels.csv"
    plain.write_bytes((TOWN / "parcels.csv").read_bytes())
    table = tmp_path / "table.csv"
    table.write_text("name,WKT\n" + "".join(f'"{name}","{one.wkt}"\n'
                                            for name, one in parcels.geometry.items()))
    return {path.name: path for path in tmp_path.iterdir()}


@pytest.mark.parametrize("form", ("parcels.csv", "parcels.geojson", "parcels.gpkg"))
def test_compressed_files_are_read(town: Any, forms: Any, tmp_path: Path, form: str) -> None:
    """By their own name, or GDAL's, and as a layer of a file; nothing of them is left."""
    packed = tmp_path / f"{form}.gz"
    packed.write_bytes(gzip.compress(forms[form].read_bytes()))
    before = sorted(tmp_path.iterdir())
    layer = [f"{packed}:areas"] if form.endswith("gpkg") else []
    for name in (packed, f"/vsigzip/{packed}", *layer):
        output = tmp_path / "out.csv"
        assert ends(name, ROADS, *WORDS, "--left-id", "id", "-o", output) == 0
        assert [(row["left"], row["right"]) for row in rows_of(output)] == expected(town)
        output.unlink()
    pairs = rjoin.pairs(packed, ROADS, "touches")
    assert len(pairs) == len(expected(town)) and sorted(tmp_path.iterdir()) == before


@pytest.mark.parametrize("form", ("parcels.csv", "parcels.geojson", "parcels.gpkg", "parcels.fgb",
                                  "table.csv"))
@pytest.mark.parametrize("packs", (False, True))
def test_standard_input_is_a_layer_of_any_kind(town: Any, forms: Any, form: str,
                                               packs: bool) -> None:
    text = forms[form].read_bytes()
    text = gzip.compress(text) if packs else text
    field = "name" if form == "table.csv" else "id"
    for name in ("-", "/vsistdin/", "/dev/stdin"):
        status, rows, told = piped(text, name, ROADS, *WORDS, "--left-id", field)
        assert (status, told) == (0, "")
        order = {pair: place for place, pair in enumerate(expected(town))}
        assert sorted(((one, other) for one, other, _ in rows),
                      key=lambda pair: order[pair]) == expected(town)
    status, rows, told = piped(text, ROADS, "-", *WORDS, "--right-id", field)
    assert (status, told, len(rows)) == (0, "", len(expected(town)))


def test_a_stream_that_is_no_layer_is_told(forms: Any, tmp_path: Path, capsys: Any) -> None:
    status, rows, told = piped(b"", "-", "-", *WORDS)
    assert (status, rows) == (2, []) and "one of the two layers alone" in told
    status, rows, told = piped(b'{"type": "nothing"}', "-", ROADS, *WORDS)
    assert (status, rows) == (1, []) and told.startswith("rjoin: left: - cannot be read")
    status, rows, told = piped(b"\x1f\x8bcut", "-", ROADS, *WORDS)
    assert (status, rows) == (1, []) and told.startswith("rjoin: left: - cannot be read")
    broken = tmp_path / "broken.csv.gz"
    for text in (b"no gzip", gzip.compress(forms["parcels.csv"].read_bytes())[:-9]):
        broken.write_bytes(text)
        assert ends(broken, ROADS, *WORDS, "-o", tmp_path / "out.csv") == 1
        assert capsys.readouterr().err.startswith(f"rjoin: left: {broken} cannot be read: ")
    assert ends(tmp_path / "none.csv.gz", ROADS, *WORDS, "-o", tmp_path / "out.csv") == 1
    assert "none.csv.gz is not there" in capsys.readouterr().err


def binary(text: str, srid: int) -> str:
    more = {"srid": srid} if srid else {}
    return str(wkb.dumps(wkt.loads(text), hex=True, **more))


SHAPES = ("POINT (1 2.5)", "LINESTRING (0 0, 3 4)", "POLYGON ((0 0, 4 0, 0 4, 0 0), "
          "(1 1, 2 1, 1 2, 1 1))", "MULTIPOINT (1 1, 2 2)",
          "MULTIPOLYGON (((0 0, 1 0, 0 1, 0 0)), ((5 5, 6 5, 5 6, 5 5)))")


@pytest.mark.parametrize("srid", (0, 25832))
@pytest.mark.parametrize("spelled", (
    lambda text, srid: binary(text, srid), lambda text, srid: f" {binary(text, srid).lower()} ",
    lambda text, srid: f"SRID={srid};{text}" if srid else text))
def test_texts_as_postgis_has_them(tmp_path: Path, spelled: Any, srid: int) -> None:
    """As the column of a table, and of a file with the header id,wkt; and as a sequence."""
    texts = [spelled(text, srid) for text in SHAPES]
    lines = "".join(f'{name},"{text}"\n' for name, text in enumerate(texts))
    output = tmp_path / "out.gpkg"
    (tmp_path / "exact.csv").write_text("id,wkt\n" + "".join(
        f'{name},"{text}"\n' for name, text in enumerate(SHAPES)))
    for header, words in (("name,shape\n", ("--geometry-column", "shape", "--left-id", "name")),
                          ("id,wkt\n", ())):
        (tmp_path / "table.csv").write_text(header + lines)
        assert ends(tmp_path / "table.csv", tmp_path / "exact.csv", *words, "--relation", "equals",
                    "--geometry", "--overwrite", "-o", output) == 0
        rows = geopandas.read_file(output)
        assert [*zip(rows["left"].astype(str), rows["right"])] == [
            (str(place), str(place)) for place in range(len(SHAPES))]
        assert (rows.crs == "EPSG:25832") == bool(srid)
    pairs = rjoin.pairs(texts, list(SHAPES), "equals")
    assert pairs["left"].tolist() == list(range(len(SHAPES)))


@pytest.mark.parametrize("text", (
    binary(SHAPES[2], 0)[:-2], binary(SHAPES[2], 0) + "00", binary(SHAPES[0], 0)[:10], "0101",
    binary(SHAPES[0], 0).replace("01010", "0108", 1), "SRID=;POINT (1 2)", "SRID=25832 POINT (1 2)",
    "SRID=25832;", "SRID=25832;POINT (1 2);", "POINT (1 2);SRID=25832",
    "SRID=25832;SRID=1;POINT(1 2)"))
def test_texts_that_are_no_geometry_are_refused(tmp_path: Path, text: str, capsys: Any) -> None:
    (tmp_path / "table.csv").write_text(f'name,shape\na,POINT (1 2)\nb,"{text}"\n')
    assert ends(tmp_path / "table.csv", ROADS, "--geometry-column", "shape", *WORDS, "-o",
                tmp_path / "out.csv") == 1
    assert capsys.readouterr().err == "rjoin: left: row 2 (feature 1): not a geometry text\n"
    with pytest.raises(rjoin.InputError, match=r"row 2 \(feature 1\): not a geometry text"):
        rjoin.pairs(["POINT (1 2)", text], ["POINT (1 2)"])


def test_two_reference_systems_in_a_column_are_refused(tmp_path: Path, capsys: Any) -> None:
    (tmp_path / "table.csv").write_text(
        "name,shape\na,POINT (1 2)\nb,SRID=4326;POINT (1 2)\nc,SRID=3857;POINT (1 2)\n")
    words = ("--geometry-column", "shape", *WORDS, "-o", tmp_path / "out.csv")
    assert ends(tmp_path / "table.csv", ROADS, *words) == 1
    assert capsys.readouterr().err == "rjoin: left: row 3 (feature 2): SRID 3857 among SRID 4326\n"


def test_a_text_that_gdal_reads_is_no_field_beside_its_geometry(forms: Any, tmp_path: Path) -> None:
    """As a field it would be the geometry once more; as a column it can be asked for by name."""
    output = tmp_path / "out.csv"
    for words in ((), ("--geometry-column", "WKT")):
        assert ends(forms["table.csv"], ROADS, *WORDS, *words, "--attributes", "--geometry",
                    "--overwrite", "-o", output) == 0
        assert list(rows_of(output)[0]) == ["left", "right", "matrix", "name", "id", "geometry"]


@pytest.mark.parametrize("name", ("out.tsv", "out.csv.gz", "out.tsv.xz"))
def test_texts_of_pandas_are_written(town: Any, tmp_path: Path, name: str) -> None:
    import pandas

    output = tmp_path / name
    assert ends(TOWN / "parcels.csv", ROADS, *WORDS, "-o", output) == 0
    rows = pandas.read_csv(output, sep="\t" if ".tsv" in name else ",")
    assert list(zip(rows["left"], rows["right"])) == expected(town)


def test_what_cannot_be_written_here_is_told_before_the_join(tmp_path: Path, monkeypatch: Any,
                                                             capsys: Any) -> None:
    monkeypatch.setattr("rjoin.outputs.find_spec", lambda name: None)
    for name, told in (("out.parquet", "needs the Python module pyarrow, which is not installed"),
                       ("out.xlsx", "openpyxl or xlsxwriter"), ("out.none", ".gpkg"),
                       ("out.shp", ".csv, .dbf, .geojson, .gpkg, .json, .tsv")):
        assert ends(TOWN / "parcels.csv", ROADS, *WORDS, "-o", tmp_path / name) == 2
        assert told in capsys.readouterr().err
    assert list(tmp_path.iterdir()) == []


@pytest.mark.parametrize("kind, method", ((".parquet", "to_parquet"), (".feather", "to_feather"),
                                          (".xlsx", "to_excel")))
def test_what_other_modules_write_is_left_to_pandas(tmp_path: Path, monkeypatch: Any, kind: str,
                                                    method: str) -> None:
    import pandas

    told: List[Any] = []

    def wrote(rows: Any, path: Path, **_: Any) -> None:
        told.append(rows)
        path.write_text("rows")

    monkeypatch.setattr("rjoin.outputs.find_spec", lambda name: name)
    monkeypatch.setattr(pandas.DataFrame, method, wrote)
    output = tmp_path / f"out{kind}"
    assert ends(TOWN / "parcels.csv", ROADS, *WORDS, "-o", output) == 0
    assert output.read_text() == "rows" and list(told[0]) == ["left", "right", "matrix"]
