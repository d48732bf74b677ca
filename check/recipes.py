#!/usr/bin/env python3
"""Runs the recipes with the tools that are installed, and compares the pairs with those of each tool's own join.

    check/recipes.py [PROGRAM]      PROGRAM is the rjoin at the root of the repository, unless it is given

It uses the town under data/. What a recipe needs and isn't there is named, and the recipe is skipped. The last line
counts; the status is 1 where an answer differs.
"""
import csv
import io
import os
import re
import shutil
import subprocess
import sys
import tempfile
from collections.abc import Callable, Sequence
from pathlib import Path

ROOT = Path(__file__).resolve().parent.parent
RECIPES = ROOT / "recipes"
TOWN = ROOT / "data/town"
PYTHONS = (sys.executable, "python3", "/usr/bin/python3")
# Two layers and a relation.
Join = tuple[str, str, str]
JOINS: tuple[Join, ...] = (
    ("parcels", "roads", "touches"),
    ("parcels", "roads", "crosses"),
    ("parcels", "parcels", "touches"),
    ("parcels", "zones", "overlaps"),
    ("stations", "zones", "within"),
    ("stations", "parcels", "intersects"),
    ("roads", "roads", "crosses"),
)


class Missing(Exception):
    """A tool that a recipe needs and that isn't there."""


class Differs(Exception):
    """An answer that isn't that of the tool."""


def program() -> Path:
    """The rjoin that is run: the one that the command line names, or the one at the root of the repository."""
    return Path(sys.argv[1]).resolve() if len(sys.argv) > 1 else ROOT / "rjoin"


def output_of(*words: str | Path, text: str | None = None, **variables: str) -> str:
    """What a command writes; it has to succeed."""
    ended = subprocess.run(words, capture_output=True, text=True, check=False, input=text,
                           env={**os.environ, **variables})
    if ended.returncode != 0:
        raise Differs(f"{Path(words[0]).name} ended with status {ended.returncode}: {ended.stderr.strip()}")
    return ended.stdout


def pairs_of(text: str) -> list[tuple[str, ...]]:
    """The rows of a CSV text below its header, in one order."""
    return sorted(tuple(row) for row in list(csv.reader(io.StringIO(text)))[1:])


def same(name: str, ours: Sequence[tuple[str, ...]], theirs: Sequence[tuple[str, ...]]) -> None:
    if not theirs:
        raise Differs(f"{name}: the tool finds no pairs")
    if ours != theirs:
        mine, other = [pair for pair in ours if pair not in theirs], [pair for pair in theirs if pair not in ours]
        raise Differs(f"{name}: {len(ours)} pairs against {len(theirs)}; only ours {mine[:3]}, theirs {other[:3]}")


def need(*tools: str) -> None:
    for tool in tools:
        if not shutil.which(tool):
            raise Missing(tool)


def python_with(*modules: str) -> str:
    """The first Python that has some modules."""
    asked = "; ".join(f"import {module}" for module in modules)
    for python in PYTHONS:
        if shutil.which(python) and subprocess.run([python, "-c", asked], capture_output=True).returncode == 0:
            return python
    raise Missing(" and ".join(f"the Python module {module}" for module in modules))


def rjoin(left: str | Path, right: Path, relation: str, *more: str, text: str | None = None) -> str:
    return output_of(program(), "join", left, right, "--relation", relation, *more, text=text)


# PostGIS

LOAD = "create table {name} (id text, geom geometry)"
COPY = "\\copy {name} from '{path}' csv header"
SHIFT = "update {name} set geom = ST_Force3D(ST_Scale(geom, 0.25, 0.25))"
MINE = "select left_id, right_id, matrix from {table} order by 1, 2"
THEIRS = ("select l.id, r.id, ST_Relate(l.geom, r.geom) from {left} l join {right} r on ST_{relation}(l.geom, r.geom)"
          " order by 1, 2")


def check_postgis(folder: str) -> None:
    """The town at a quarter of its size, so that coordinates have up to two decimals, and with heights."""
    need("psql")
    try:
        output_of(RECIPES / "with-postgres", "psql", "-qX", "-c", "create extension postgis")
    except Differs as why:
        raise Missing(f"a PostgreSQL server with PostGIS ({why})") from why
    print(output_of(RECIPES / "with-postgres", sys.executable, __file__, program(), "--postgis"), end="")


def inside_postgis() -> None:
    """What is run beside the server."""
    with tempfile.TemporaryDirectory() as folder:
        psql("create extension postgis")
        for path in sorted(TOWN.glob("*.csv")):
            psql(LOAD.format(name=path.stem), COPY.format(name=path.stem, path=path), SHIFT.format(name=path.stem),
                 f"insert into {path.stem} values ('nowhere', null)")
            layer = output_of(RECIPES / "from-postgis", path.stem, "id", "geom", "2")
            Path(folder, path.name).write_text(layer, encoding="utf-8")
        for number, (left, right, relation) in enumerate(JOINS):
            paths = Path(folder, f"{left}.csv"), Path(folder, f"{right}.csv")
            output_of(RECIPES / "to-postgis", f"pairs_{number}", text=rjoin(*paths, relation, "--scale", "2"))
            same(f"{left} {relation} {right}", pairs_of(psql(MINE.format(table=f"pairs_{number}"))),
                 pairs_of(psql(THEIRS.format(left=left, right=right, relation=relation))))


def psql(*commands: str) -> str:
    words = [word for command in commands for word in ("-c", command)]
    return output_of("psql", "-qX", "--csv", "-v", "ON_ERROR_STOP=1", *words)


# GDAL

SOURCE = """<OGRVRTDataSource><OGRVRTLayer name="{name}"><SrcDataSource>{path}</SrcDataSource>
<GeometryType>wkb{kind}</GeometryType><GeometryField encoding="WKT" field="wkt"/></OGRVRTLayer></OGRVRTDataSource>
"""
KINDS = {"parcels": "Polygon", "roads": "LineString", "stations": "Point"}
# Yards of several parts with heights, and one that touches itself nowhere; GDAL makes their geometry of a field.
YARDS = """id,wkt
both,"MULTIPOLYGON Z (((0 0 1, 10 0 1, 10 15 1, 0 15 1, 0 0 1)), ((20 0 2, 30 0 2, 30 15.25 2, 20 15.25 2, 20 0 2)))"
slanted,"MULTIPOLYGON Z (((10 0 3, 20 0 3, 15 9.5 3, 10 0 3)))"
beside,"MULTIPOLYGON Z (((30 0 4, 35 5 4, 30 10 4, 30 0 4)), ((10 100 4, 20 100 4, 20 110 4, 10 100 4)))"
"""
YARD_JOINS: tuple[Join, ...] = (
    ("yards", "parcels", "overlaps"),
    ("yards", "roads", "touches"),
    ("yards", "yards", "touches"),
)
OWN_JOIN = ("select l.id as left_id, r.id as right_id, ST_Relate(l.geom, r.geom) from {left} l, {right} r"
            " where ST_{relation}(l.geom, r.geom) = 1")


def need_spatialite() -> None:
    asked = ["ogr2ogr", "-f", "CSV", "/vsistdout/", f"{TOWN}/zones.csv", "-dialect", "SQLite", "-sql",
             "select AsWKT(MakePoint(1, 2), 0) as wkt from zones"]
    if subprocess.run(asked, capture_output=True).returncode != 0:
        raise Missing("Spatialite in GDAL")


def check_gdal(folder: str) -> None:
    """The town and yards of several parts as a GeoPackage and as Shapefiles; the left layer goes through a pipe."""
    need("ogr2ogr")
    need_spatialite()
    package = make_package(folder)
    output_of("ogr2ogr", "-f", "ESRI Shapefile", f"{folder}/shapes", package)
    check_refusals_of_gdal(package)
    for source in (package, f"{folder}/shapes"):
        layers = {name: output_of(RECIPES / "from-ogr", source, name, "id") for name in (*KINDS, "yards")}
        for left, right, relation in (*JOINS, *YARD_JOINS):
            if left in layers and right in layers:
                check_with_gdal(folder, package, layers, (left, right, relation))
    by_vrt, by_package = (output_of(RECIPES / "from-ogr", source, "yards", "id")
                          for source in (f"{folder}/yards.vrt", package))
    if by_vrt != by_package:
        raise Differs("the yards of a VRT")


def check_refusals_of_gdal(package: str) -> None:
    """A field or a layer that isn't there is a fault, and no layer of its name or without rows."""
    for words in (("parcels", "nothing"), ("nothing", "id"), ("parcels", "id", "2")):
        ended = subprocess.run([RECIPES / "from-ogr", package, *words], capture_output=True, text=True)
        if ended.returncode == 0 or ended.stdout or not ended.stderr:
            raise Differs(f"from-ogr {' '.join(words)} wrote {ended.stdout[:80]!r} and {ended.stderr[:80]!r}")


def make_package(folder: str) -> str:
    """Areas are declared as of several parts, as in most GeoPackages."""
    package, yards = f"{folder}/town.gpkg", write(folder, "yards.csv", YARDS)
    paths = {**{name: TOWN / f"{name}.csv" for name in KINDS}, "yards": yards}
    for name, path in paths.items():
        kind = KINDS.get(name, "MultiPolygon25D")
        source = write(folder, f"{name}.vrt", SOURCE.format(name=name, path=path, kind=kind))
        several = "MULTIPOLYGON" if kind == "Polygon" else kind.upper()
        output_of("ogr2ogr", "-f", "GPKG", *(["-update"] if Path(package).exists() else []), package, source,
                  "-nln", name, "-nlt", several)
    return package


def check_with_gdal(folder: str, package: str, layers: dict[str, str], join: Join) -> None:
    left, right, relation = join
    path = write(folder, "right.csv", layers[right])
    ours = rjoin("-", path, relation, "--geometry", "any", "--scale", "2", text=layers[left])
    query = OWN_JOIN.format(left=left, right=right, relation=relation.capitalize())
    theirs = output_of("ogr2ogr", "-q", "-f", "CSV", "/vsistdout/", package, "-dialect", "SQLite", "-sql", query)
    same(f"{left} {relation} {right}", pairs_of(ours), pairs_of(theirs))


# Python

def check_python(folder: str) -> None:
    """The same joins by the Python package, beside every pair asked of Shapely; check/python.sh tests it further."""
    python = python_with("pandas", "shapely")
    print(output_of(python, __file__, program(), "--python", RJOIN=str(program())), end="")


def inside_python() -> None:
    """What is run by the Python that has pandas."""
    import pandas
    from shapely import wkt

    sys.path.insert(0, str(ROOT / "python/src"))
    import rjoin

    frames = {path.stem: pandas.read_csv(path, index_col="id") for path in TOWN.glob("*.csv")}
    texts = {name: frame["wkt"] for name, frame in frames.items()}
    shapes = {name: text.map(wkt.loads) for name, text in texts.items()}
    for left, right, relation in JOINS:
        theirs = [(one, other, a.relate(b)) for one, a in shapes[left].items() for other, b in shapes[right].items()
                  if getattr(a, relation)(b)]
        for layers in (shapes, texts):
            ours = rjoin.pairs(layers[left], layers[right], relation)
            same(f"{left} {relation} {right}", sorted(ours.itertuples(index=False, name=None)), sorted(theirs))


# KLayout

CHIP = """
import pya
layout = pya.Layout()
top, cell = layout.create_cell("TOP"), layout.create_cell("CELL")
metal, poly = layout.layer(1, 0), layout.layer(2, 0)
for track in range(5):
    cell.shapes(metal).insert(pya.Box(0, 100 * track, 900, 100 * track + 40))
    cell.shapes(poly).insert(pya.Box(150 * track, -30, 150 * track + 40, 240))
for column in range(3):
    top.insert(pya.CellInstArray(cell.cell_index(), pya.Trans(column % 4, column % 2 == 1, 900 * column, 600)))
layout.write(path)
"""
ASKED = """
import pya
layout = pya.Layout()
layout.read(file)
def boxes(number):
    found, shapes = [], layout.top_cell().begin_shapes_rec(layout.layer(number, 0))
    while not shapes.at_end():
        found.append(shapes.shape().bbox().transformed(shapes.trans()))
        shapes.next()
    return found
print("left,right")
for a in boxes(1):
    for b in boxes(2):
        if not pya.Region(a).interacting(pya.Region(b)).is_empty():
            print(f'"{a.to_dtype(layout.dbu)}","{b.to_dtype(layout.dbu)}"')
"""
VALUE = re.compile(r"<value>box: (.*?)</value>")


def check_klayout(folder: str) -> None:
    """Two layers of a chip with turned and mirrored cells, beside KLayout's own question of each pair of boxes."""
    need("klayout")
    chip, database = f"{folder}/chip.gds", Path(folder, "pairs.lyrdb")
    klayout(write(folder, "chip.py", CHIP), path=chip)
    klayout(ROOT / "integrations/klayout/join.py", file=chip, left="1/0", right="2/0", relation="intersects",
            merged="0", output=database)
    boxes = VALUE.findall(database.read_text(encoding="utf-8"))
    theirs = klayout(write(folder, "asked.py", ASKED), file=chip)
    same("metal intersects poly", sorted(zip(boxes[::2], boxes[1::2])), pairs_of(theirs))


def write(folder: str, name: str, text: str) -> Path:
    path = Path(folder, name)
    path.write_text(text, encoding="utf-8")
    return path


def klayout(script: Path, **variables: str | Path) -> str:
    given = [word for name, value in variables.items() for word in ("-rd", f"{name}={value}")]
    return output_of("klayout", "-b", "-r", script, *given, QT_QPA_PLATFORM="offscreen", RJOIN=str(program()))


# Tiles

TILED: tuple[Join, ...] = (("parcels", "roads", "touches"), ("stations", "zones", "within"))


def check_tiles(folder: str) -> None:
    """Layers joined by tiles, beside one run: the same bytes."""
    python = python_with("distributed", "numpy", "pandas")
    report = Path(folder, "report.csv")
    for left, right, relation in TILED:
        paths = TOWN / f"{left}.csv", TOWN / f"{right}.csv"
        output_of(RECIPES / "tiles", "join", *paths, "--relation", relation, "--out", report, "--tiles", "5",
                  "--block", "2000", "--workers", "2", PYTHON=python, RJOIN=str(program()))
        if report.read_text(encoding="utf-8") != rjoin(*paths, relation):
            raise Differs(f"{left} {relation} {right} by tiles")


CHECKS: dict[str, Callable[[str], None]] = {
    "postgis": check_postgis,
    "gdal": check_gdal,
    "python": check_python,
    "klayout": check_klayout,
    "tiles": check_tiles,
}
INSIDE: dict[str, Callable[[], None]] = {"--postgis": inside_postgis, "--python": inside_python}


def outcome(check: Callable[[str], None]) -> tuple[str, str]:
    """What came of one check, in a word and a text."""
    with tempfile.TemporaryDirectory() as folder:
        try:
            check(folder)
        except Missing as tool:
            return "skipped", f"{tool} is not installed"
        except Differs as why:
            return "failed", str(why)
    return "passed", ""


def main() -> int:
    outcomes = []
    for name, check in CHECKS.items():
        word, text = outcome(check)
        outcomes.append(word)
        print(f"{word:8} {name}{text and ': '}{text}", flush=True)
    print("recipes:", ", ".join(f"{outcomes.count(word)} {word}" for word in ("passed", "failed", "skipped")))
    return 1 if "failed" in outcomes else 0


if __name__ == "__main__":
    try:
        if len(sys.argv) <= 2:
            sys.exit(main())
        INSIDE[sys.argv[2]]()
    except Differs as why:
        sys.exit(str(why))
