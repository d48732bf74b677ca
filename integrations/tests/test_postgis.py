"""The PostGIS command, on a server of its own, beside PostGIS's own predicates."""
from __future__ import annotations

import csv
import io
import os
import re
import shutil
import signal
import subprocess
import sys
import time
from pathlib import Path
from typing import Any, Callable, Dict, Iterator, List, Tuple

import pytest

from town import COVERING, JOINS, ROOT, TOWN, VERSION, Join, stand_in

sys.path.insert(0, str(ROOT / "bench"))
import layers as made_layers  # noqa: E402

COMMAND = ROOT / "integrations/postgis/rjoin-postgis"
VILLAGE = ROOT / "data/village"
SERVER = ROOT / "recipes/with-postgres"
NOISE = re.compile("ERROR:|WARNING:|psql:|at character")
ANNOUNCE = 'echo "$PGHOST $PGUSER $PGDATABASE"; exec cat'


@pytest.fixture(scope="session")
def server(program: Path) -> Iterator[Dict[str, str]]:
    """The environment of a server with PostGIS, which ends with the tests."""
    if shutil.which("psql") is None:
        pytest.skip("psql isn't installed")
    words = [str(SERVER), "sh", "-c", ANNOUNCE]
    with subprocess.Popen(words, stdin=subprocess.PIPE, stdout=subprocess.PIPE,
                          stderr=subprocess.PIPE, text=True) as process:
        assert process.stdout is not None
        settings = process.stdout.readline().split()
        if len(settings) != 3:
            pytest.skip("a PostgreSQL server can't be started")
        environment = {**os.environ, **dict(zip(("PGHOST", "PGUSER", "PGDATABASE"), settings))}
        made = subprocess.run(["psql", "-qX", "-c", "create extension postgis"], env=environment,
                              capture_output=True, text=True, check=False)
        if made.returncode != 0:
            process.communicate()
            pytest.skip("PostGIS isn't installed")
        load(environment)
        yield environment
        process.communicate()


def load(server: Dict[str, str]) -> None:
    """The town at a quarter of its size, so that coordinates have up to two decimals."""
    for path in sorted(TOWN.glob("*.csv")):
        psql(server, f"create table {path.stem} (id text primary key, geom geometry)",
             f"\\copy {path.stem} from '{path}' csv header",
             f"update {path.stem} set geom = ST_Scale(geom, 0.25, 0.25)")


def psql(server: Dict[str, str], *commands: str) -> List[List[str]]:
    """The rows of the last command."""
    words = [word for command in commands for word in ("-c", command)]
    ended = subprocess.run(["psql", "-qtX", "--csv", "-v", "ON_ERROR_STOP=1", *words], env=server,
                           capture_output=True, text=True, check=False)
    assert ended.returncode == 0, ended.stderr
    return list(csv.reader(io.StringIO(ended.stdout)))


def command(server: Dict[str, str], *words: str, **variables: str
            ) -> subprocess.CompletedProcess[str]:
    return subprocess.run([str(COMMAND), *words], env={**server, **variables}, text=True,
                          capture_output=True, check=False)


def done(server: Dict[str, str], *words: str) -> str:
    ended = command(server, *words)
    assert ended.returncode == 0, ended.stderr
    return ended.stdout + ended.stderr


def refused(server: Dict[str, str], *words: str, **variables: str) -> str:
    ended = command(server, *words, **variables)
    assert ended.returncode == 1 and ended.stderr.startswith("rjoin-postgis: ")
    lines = ended.stderr.splitlines()
    hints = ("did you mean ", "--geometry any reads this row")
    assert len(lines) == 1 or len(lines) == 2 and lines[1].startswith(hints), ended.stderr
    assert not NOISE.search(ended.stderr), ended.stderr
    return ended.stderr


def tables(server: Dict[str, str]) -> List[List[str]]:
    return psql(server, "select table_schema, table_name from information_schema.tables"
                " order by 1, 2")


OWN = ("select l.id, r.id, ST_Relate(l.geom, r.geom) from {left} l join {right} r"
       " on ST_{relation}(l.geom, r.geom) order by 1, 2")


@pytest.mark.parametrize("join", [*JOINS, *COVERING, Join("parcels", "zones", "overlaps"),
                                  Join("stations", "zones", "within")], ids="-".join)
def test_joins_of_the_town(server: Dict[str, str], join: Join) -> None:
    name = "pairs_" + "_".join(join)
    done(server, join.left, join.right, "--relation", join.relation, "--into", name)
    own = psql(server, OWN.format(left=join.left, right=join.right,
                                  relation=join.relation.replace("_", "")))
    assert psql(server, f"select * from {name} order by 1, 2") == own
    assert own or join.relation == "overlaps"


def test_pairs_without_their_matrix(server: Dict[str, str], village: str, program: Path,
                                    tmp_path: Path) -> None:
    """Those of PostGIS, with carried columns, one of which may be named matrix; the program is
    asked for pairs alone."""
    psql(server, "create table lettered (id text primary key, matrix int, geom geometry)",
         "insert into lettered select id, 7, geom from parcels")
    stand_in(tmp_path / "rjoin", f'echo "$*" >>{tmp_path}/words\nexec {program} "$@"')
    words = ["lettered", "zones", "--relation", "overlaps", "--left-prefix", "", "--left-columns",
             "matrix"]
    assert "two columns of the new table would have the name matrix" in refused(
        server, *words, "--into", "never")
    ended = command(server, *words, "--pairs", "--into", "alone", RJOIN=str(tmp_path / "rjoin"))
    assert (ended.returncode, ended.stdout) == (0, "pairs in alone: 20\n"), ended.stderr
    assert "--pairs" in (tmp_path / "words").read_text(encoding="utf-8").splitlines()[-1].split()
    own = psql(server, "select p.id, z.id, 7 from parcels p join zones z"
               " on ST_Overlaps(p.geom, z.geom) order by 1, 2")
    assert psql(server, "select * from alone order by 1, 2") == own and own
    done(server, village, village, "--relation", "crosses", "--pairs", "--others", "envelope",
         "--into", "village_alone")
    own = psql(server, f"select l.id, r.id, true from {village} l join {village} r"
               " on ST_Crosses(l.geom, r.geom) order by 1, 2")
    assert psql(server, "select * from village_alone order by 1, 2") == own and own
    found = psql(server, "select attname from pg_attribute where attnum > 0 and"
                 " attrelid = 'village_alone'::regclass order by attnum")
    assert [name for name, in found] == ["left_id", "right_id", "exact"]
    near = command(server, "lettered", "zones", "--distance", "1", "--pairs", "--into", "never")
    assert near.returncode == 2 and "--pairs needs --relation" in near.stderr


NEAR = ("select l.id, r.id, round(ST_Distance(l.geom, r.geom)::numeric, 6)::double precision"
        " from {left} l join {right} r on ST_DWithin(l.geom, r.geom, {distance}) {apart}"
        " order by 1, 2")
APART = "where not ST_Intersects(l.geom, r.geom)"


@pytest.mark.parametrize("left, right, distance", [
    ("stations", "roads", "1.25"), ("parcels", "zones", "2.5"), ("parcels", "roads", "0"),
    ("stations", "stations", "3.75")])
def test_joins_within_a_distance(server: Dict[str, str], left: str, right: str, distance: str
                                 ) -> None:
    """Beside ST_DWithin and ST_Distance, whose results are the same to 6 decimals."""
    name = f"near_{left}_{right}"
    for option, table, condition in (("", name, ""), ("--apart", f"{name}_apart", APART)):
        words = [option] if option else []
        done(server, left, right, "--distance", distance, "--into", table, *words)
        own = psql(server, NEAR.format(left=left, right=right, distance=distance, apart=condition))
        assert psql(server, f"select * from {table} order by 1, 2") == own
        assert own or option


def test_decimals_of_distances(server: Dict[str, str]) -> None:
    """As many as the size of the coordinates allows, unless they are given."""
    psql(server, "create table origin (id int primary key, geom geometry)",
         "insert into origin values (1, 'POINT (0 0)')",
         "create table around (id int primary key, geom geometry)",
         "insert into around values (1, 'POINT (1 1)'), (2, 'POINT (30000000 0.5)')")
    words = ["origin", "around", "--distance", "1.5", "--into"]
    done(server, *words, "origin_fine")
    assert psql(server, "select distance from origin_fine") == [["1.4142"]]
    done(server, *words, "origin_coarse", "--decimals", "1")
    assert psql(server, "select distance from origin_coarse") == [["1.4"]]
    done(server, "origin", "around", "--distance", "30000001", "--into", "origin_wide")
    assert psql(server, "select count(*) from origin_wide") == [["2"]]
    assert "--distance must be a number of the scale" in refused(
        server, "origin", "around", "--distance", "4000000000000000001", "--into", "never")
    wrong: Dict[str, str] = {
        "--distance 4e7": "not a decimal number: '4e7'",
        "--distance 1.25 --decimals 1": "--distance has more than 1 decimals",
        "--relation within --distance 1": "--relation goes without --distance and --nearest",
        "--relation within --apart": "--apart needs --distance",
        "--nearest 0": "not a whole number of 1 to 4294967295: '0'",
        "--nearest 4294967296": "not a whole number of 1 to 4294967295: '4294967296'",
        "--nearest " + 5000 * "9": "not a whole number of 1 to 4294967295: '999",
        "": "one of --relation, --distance and --nearest is needed"}
    for more, fault in wrong.items():
        ended = command(server, "origin", "around", "--into", "never", *more.split())
        assert ended.returncode == 2 and fault in ended.stderr, ended.stderr
        assert len(ended.stderr.splitlines()) == 1 and ended.stderr.startswith("rjoin-postgis: ")


def test_distances_of_other_shapes(server: Dict[str, str], village: str) -> None:
    done(server, village, village, "--distance", "20", "--into", "village_near")
    own = psql(server, NEAR.format(left=village, right=village, distance=20, apart=""))
    assert psql(server, "select * from village_near order by 1, 2") == own and own


def test_columns_are_carried(server: Dict[str, str]) -> None:
    psql(server, 'create table owned ("Key" int primary key, "The owner" text, geom geometry)',
         "insert into owned select row_number() over (order by id), 'of ' || id, geom from parcels")
    done(server, "owned", "zones", "--relation", "overlaps", "--into", "owned_zones",
         "--left-columns", "The owner", "geom", "--right-columns", "geom")
    own = psql(server, 'select p."Key", z.id, p."The owner", p.geom, z.geom,'
               " ST_Relate(p.geom, z.geom) from owned p join zones z"
               " on ST_Overlaps(p.geom, z.geom) order by 1, 2")
    assert psql(server, "select * from owned_zones order by 1, 2") == own and own
    assert psql(server, 'select "left_The owner", left_geom, right_geom from owned_zones')
    words = ["owned", "zones", "--relation", "overlaps", "--into", "never"]
    assert "owned has no column owner" in refused(server, *words, "--left-columns", "owner")
    assert "zones has no column x" in refused(server, *words, "--right-columns", "id", "x")


def test_columns_of_any_name_are_carried(server: Dict[str, str]) -> None:
    """Also by names that the script has for itself, and under names that are chosen."""
    names = ["n", "id", "shape", "fault", "c1", "measure"]
    psql(server, "create table named (id text primary key, n int, shape text, fault text, c1 text,"
         " measure text, geom geometry)",
         "insert into named select id, 7, 'shape', 'fault', 'c1', 'measure', geom from parcels")
    words = ["named", "zones", "--relation", "overlaps", "--left-columns", *names, "--into"]
    assert ("two columns of the new table would have the name left_id: choose another --left-prefix"
            in refused(server, *words, "never"))
    done(server, *words, "named_pairs", "--left-prefix", "", "--right-columns", "id",
         "--right-prefix", "The zone's ")
    own = psql(server, "select p.id, z.id, 7, p.id, 'shape', 'fault', 'c1', 'measure', z.id,"
               " ST_Relate(p.geom, z.geom) from parcels p join zones z"
               " on ST_Overlaps(p.geom, z.geom) order by 1, 2")
    assert psql(server, "select * from named_pairs order by 1, 2") == own and own
    found = psql(server, "select attname from pg_attribute where attnum > 0 and"
                 " attrelid = 'named_pairs'::regclass order by attnum")
    assert [name for name, in found] == ["left_id", "right_id", *names, "The zone's id", "matrix"]


NEAREST = ("select l.id, n.id, n.distance from {left} l cross join lateral ("
           "select r.id, round(ST_Distance(l.geom, r.geom)::numeric, 6)::double precision"
           " as distance from {right} r where ST_Distance(l.geom, r.geom) <= {limit}"
           " order by distance fetch first {most} rows with ties) n order by 1, 3, 2")


@pytest.mark.parametrize("most, limit", [("1", None), ("3", None), ("4", "2.5")])
def test_nearest_rows(server: Dict[str, str], most: str, limit: str | None) -> None:
    """Beside a sort of all distances to 6 decimals, with those that tie with the last; PostGIS
    rounds them otherwise, and misses ties."""
    for left, right in (("stations", "roads"), ("parcels", "stations")):
        name = f"nearest_{left}_{most}"
        done(server, left, right, "--nearest", most, "--into", name,
             *[] if limit is None else ["--distance", limit])
        own = psql(server, NEAREST.format(left=left, right=right, most=most, limit=limit or 1e9))
        assert psql(server, f"select * from {name} order by 1, 3, 2") == own and own


@pytest.mark.parametrize("most, limit", [("1", None), ("3", "250.5")])
def test_nearest_rows_of_other_shapes(server: Dict[str, str], village: str, most: str,
                                      limit: str | None) -> None:
    """Of points, and of lines and polygons, many of which share points with others."""
    for kind in ("Point", "LineString", "Polygon"):
        left = f"village_{kind.lower()}_{most}"
        psql(server, f"create view {left} as select * from {village}"
             f" where ST_GeometryType(geom) = 'ST_{kind}'")
        done(server, left, village, "--left-id", "id", "--nearest", most, "--into", f"{left}_found",
             *[] if limit is None else ["--distance", limit])
        own = psql(server, NEAREST.format(left=left, right=village, most=most, limit=limit or 1e9))
        assert psql(server, f"select * from {left}_found order by 1, 3, 2") == own and own


def test_a_program_without_nearest_rows_is_named(server: Dict[str, str], tmp_path: Path) -> None:
    program = stand_in(tmp_path / "rjoin", "echo \"error: unrecognized subcommand 'nearest'\" >&2\n"
                       "exit 2")
    before = tables(server)
    assert "unrecognized subcommand 'nearest'" in refused(
        server, "stations", "roads", "--nearest", "1", "--into", "never", RJOIN=str(program))
    assert tables(server) == before


def test_made_layers(server: Dict[str, str], tmp_path: Path) -> None:
    for kind, made in made_layers.BOX_KINDS.items():
        for side, path in zip("lr", made_layers.write_pair(tmp_path, kind, 4000)):
            psql(server, f"create table {kind}_{side} (id text primary key, geom geometry)",
                 f"\\copy {kind}_{side} from '{path}' csv header",
                 f"create index on {kind}_{side} using gist (geom)", f"analyze {kind}_{side}")
        done(server, f"{kind}_l", f"{kind}_r", "--relation", made.relation, "--into", f"{kind}_p")
        own = psql(server, OWN.format(left=f"{kind}_l", right=f"{kind}_r", relation=made.relation))
        assert psql(server, f"select * from {kind}_p order by 1, 2") == own and own


SHAPES = {
    "LINESTRING (0 0, 1 0, 1 0, 2 0)": None,
    "POINT Z (0 0 1)": None,
    "POLYGON ((0.5 0, 1 0, 1 0, 1 1, 0 1, 0 0, 0.5 0))": None,
    "MULTIPOLYGON (((0 0, 1 0, 1 1, 0 1, 0 0)))": None,
    "GEOMETRYCOLLECTION (LINESTRING (0 0, 3 0))": None,
    "GEOMETRYCOLLECTION (POINT EMPTY, LINESTRING (0 0, 5 0))": None,
    "GEOMETRYCOLLECTION (MULTIPOINT EMPTY, GEOMETRYCOLLECTION (POINT (3 3)))": None,
    "LINESTRING (0 0, 2 0, 1 0)": None,
    "LINESTRING Z (0 0 7, 1 1 8)": None,
    "POLYGON ((0 0, 9 0, 9 9, 0 9, 0 0), (1 1, 2 1, 2 2, 1 2, 1 1))": None,
    "POLYGON ((0 0, 7 0, 3 0.25, 0 1, 0 0))": None,
    "MULTIPOINT ((0 0), (1 1))": None,
    "MULTIPOINT (EMPTY, (2 3), (1 1))": None,
    "MULTILINESTRING ((0 0, 1 1), EMPTY, (2 0, 0 2))": None,
    "MULTIPOLYGON (((0 0, 1 0, 0 1, 0 0)), ((1 0, 2 0, 1 1, 1 0)))": None,
    "GEOMETRYCOLLECTION (MULTILINESTRING ((0 0, 1 1), (2 0, 0 2)))": None,
    "LINESTRING (1 1, 1 1)": "a line without a length",
    "MULTILINESTRING ((0 0, 1 1), (1 1, 1 1))": "a line without a length",
    "POINT EMPTY": "an empty geometry",
    "POLYGON ((1 1, 1 1, 1 1, 1 1))": "a polygon that is a point",
    "POLYGON ((0 0, 2 0, 1 0, 1 1, 0 1, 0 0))": "an invalid polygon: Self-intersection[2 0]",
    "POLYGON ((0 0, 0 2, 2 0, 2 2, 0 0))": "an invalid polygon: Self-intersection[1 1]",
    "GEOMETRYCOLLECTION (POINT (0 0), LINESTRING (0 0, 1 1))": "a collection of several geometries",
    "CIRCULARSTRING (0 0, 1 1, 2 0)": "a curve or surface",
}


def test_other_geometries_and_ids_of_any_type(server: Dict[str, str]) -> None:
    """A quoted table in a schema, with a uuid as its key; then envelopes beside ST_Envelope."""
    psql(server, "create schema odd", 'create table odd."Shapes" ("Key" uuid primary key default'
         ' gen_random_uuid(), text text, "The Shape" geometry)',
         'insert into odd."Shapes" (text, "The Shape") values '
         + ", ".join(f"('{text}', '{text}')" for text in SHAPES) + ", ('null', null)")
    words = ['odd."Shapes"', "zones", "--relation", "intersects", "--into"]
    before = tables(server)
    assert "not points, lines or polygons that rjoin reads, but" in refused(
        server, *words, 'odd."Pairs"')
    assert tables(server) == before
    bad = {text: reason for text, reason in SHAPES.items() if reason}
    assert f'rows listed in odd."Pairs_skipped": {len(bad) + 1}' in done(
        server, *words, 'odd."Pairs"', "--others", "skip")
    skipped = psql(server, 'select text, reason from odd."Pairs_skipped" join odd."Shapes"'
                   ' on "Key"::text = id where side = \'left\'')
    assert {text: reason for text, reason in skipped} == {**bad, "null": "no geometry"}
    own = ('select "Key", z.id from odd."Shapes" join zones z on ST_Intersects({}, z.geom)'
           ' {} order by 1, 2')
    kept = 'where "Key"::text not in (select id from odd."Pairs_skipped")'
    assert psql(server, 'select left_id, right_id from odd."Pairs" order by 1, 2') == psql(
        server, own.format('"The Shape"', kept))
    assert psql(server, 'select pg_typeof(left_id), pg_typeof(right_id) from odd."Pairs" limit 1'
                ) == [["uuid", "text"]]
    told = done(server, *words, "odd.boxes", "--others", "envelope", "--skipped", "odd.gone")
    shape = ('case when text in (' + ", ".join(f"'{text}'" for text in bad)
             + ') then ST_Envelope("The Shape") else "The Shape" end')
    assert psql(server, "select left_id, right_id from odd.boxes order by 1, 2") == psql(
        server, own.format(shape, ""))
    assert len(psql(server, "select * from odd.gone")) == 2
    mirrored = done(server, "zones", 'odd."Shapes"', *words[2:], "odd.mirrored", "--others",
                    "envelope")
    for pairs, side, said in (("boxes", "left", told), ("mirrored", "right", mirrored)):
        rows = psql(server, f'select text, exact from odd.{pairs} join odd."Shapes"'
                    f' on "Key" = {side}_id')
        assert {exact for _, exact in rows} == {"t", "f"}
        assert all((exact == "t") == (text not in bad) for text, exact in rows)
        inexact = [exact for _, exact in rows].count("f")
        assert f"pairs that rest on an envelope, where exact is false: {inexact}\n" in said


SLANTED = ("intersects", "touches", "crosses", "within", "contains", "overlaps", "equals", "covers",
           "covered_by")


@pytest.fixture(scope="session")
def village(server: Dict[str, str]) -> str:
    """All layers of the village in one table: points, lines and polygons of any direction with
    whole coordinates."""
    psql(server, "create table village (id text primary key, geom geometry)")
    for path in sorted(VILLAGE.glob("*.csv")):
        psql(server, f"\\copy village from '{path}' csv header")
    return "village"


@pytest.mark.parametrize("relation", SLANTED)
def test_slanted_lines_and_polygons(server: Dict[str, str], village: str, relation: str) -> None:
    done(server, village, village, "--relation", relation, "--into", f"village_{relation}")
    own = psql(server, OWN.format(left=village, right=village, relation=relation.replace("_", "")))
    assert psql(server, f"select * from village_{relation} order by 1, 2") == own
    assert own or relation == "overlaps"


MADE_OF_ANY = (("parcels", "overlaps"), ("neighbours", "touches"), ("roads", "crosses"),
               ("zones", "within"))


def test_made_layers_of_any_geometry(server: Dict[str, str], tmp_path: Path) -> None:
    """Parcels of many corners, roads across them, and points in areas."""
    for kind, relation in MADE_OF_ANY:
        for side, path in zip("lr", made_layers.write_pair(tmp_path, kind, 400)):
            psql(server, f"create table {kind}_{side} (id text primary key, geom geometry)",
                 f"\\copy {kind}_{side} from '{path}' csv header")
        done(server, f"{kind}_l", f"{kind}_r", "--relation", relation, "--into", f"{kind}_p")
        own = psql(server, f"select l.id, r.id from {kind}_l l join {kind}_r r"
                   f" on ST_{relation}(l.geom, r.geom) order by 1, 2")
        found = psql(server, f"select left_id, right_id from {kind}_p order by 1, 2")
        assert found == own and own, kind


def test_rings_by_the_even_odd_rule(server: Dict[str, str]) -> None:
    """A bow-tie is two triangles with a common corner at (2, 2)."""
    psql(server, "create table bows (id text primary key, geom geometry)",
         "insert into bows values ('bow', 'POLYGON ((0 0, 4 4, 4 0, 0 4, 0 0))')",
         "create table dots (id text primary key, geom geometry)",
         "insert into dots values ('left', 'POINT (1 2)'), ('right', 'POINT (3 2)'),"
         " ('above', 'POINT (2 3)'), ('below', 'POINT (2 1)'), ('middle', 'POINT (2 2)')")
    words = ["dots", "bows", "--relation", "within", "--into", "in_bows"]
    assert ("bows, id bow: not points, lines or polygons that rjoin reads, but an invalid polygon: "
            "Self-intersection[2 2]; choose --others envelope or --others skip, or --rings even-odd"
            ) in refused(server, *words)
    assert ("rjoin-postgis: bows: even-odd rule for 1 row with improper rings: id bow\n"
            in done(server, *words, "--rings", "even-odd"))
    assert psql(server, "select left_id from in_bows order by 1") == [["left"], ["right"]]
    masked = ["bows", "bows", "--relation", "FFFFF1***", "--rings", "even-odd", "--into", "never"]
    assert refused(server, *masked).strip().endswith("disjoint features may fit")


def test_improper_rings_are_told_by_their_ids(server: Dict[str, str]) -> None:
    """Of both tables, beside rows that are left out; an id may be null or have a line feed."""
    bow = "'POLYGON ((0 0, 4 4, 4 0, 0 4, 0 0))'"
    psql(server, "create table ties (id text, geom geometry)",
         f"insert into ties values ('gone', null), ('proper', 'POINT (9 9)'), ('tie', {bow}),"
         f" ('empty', 'POINT EMPTY'), (E'a\nb', {bow}), (null, {bow})")
    told = done(server, "ties", "ties", "--left-id", "id", "--right-id", "id", "--relation",
                "equals", "--rings", "even-odd", "--others", "skip", "--into", "tied")
    line = ('rjoin-postgis: ties: even-odd rule for 3 rows with improper rings: ids tie, "a\\nb",'
            " null\n")
    assert told.count(line) == 2


def test_ids_and_names_are_never_read_as_sql(server: Dict[str, str]) -> None:
    """Ids with quotes, line feeds and nulls, in a table and a column whose names are SQL."""
    table, pairs = '"x""; drop table parcels; --"', '"pairs\'; drop table zones; --"'
    psql(server, f'create table {table} ("an \'id\'" text, geom geometry)',
         f"insert into {table} values (E'a\\n\"b\"', 'POINT (1 1)'), (null, 'POINT (1 1)'),"
         " (';''\\N', 'POINT (1 1)'), ('', 'POINT (1 1)')")
    words = ["zones", "--relation", "intersects", "--left-id", "an 'id'", "--into"]
    assert f"pairs in {pairs}" in done(server, table, *words, pairs)
    own = f'select "an \'id\'", z.id from {table} l join zones z on ST_Intersects(l.geom, z.geom)'
    expected = psql(server, f"{own} order by 1, 2")
    assert psql(server, f"select left_id, right_id from {pairs} order by 1, 2") == expected
    assert len(expected) >= 4
    for name in ("x; drop table zones", "zones z", "(select * from zones)", "zones; --"):
        assert "invalid name syntax" in refused(server, name, *words, "never")
        assert "not a valid identifier" in refused(server, table, *words, name)
    assert psql(server, "select * from zones") and psql(server, "select * from parcels")


@pytest.mark.parametrize("name", ["rjoin_left", "rjoin_pairs", "rjoin_skipped"])
def test_names_that_the_script_uses_too(server: Dict[str, str], name: str) -> None:
    for others in ("error", "skip"):
        done(server, "parcels", "zones", "--relation", "overlaps", "--others", others,
             "--into", name)
        assert psql(server, f"select count(*) from {name}") == [["20"]]
        psql(server, f"drop table {name}", f"drop table if exists {name}_skipped")


def test_decimals(server: Dict[str, str]) -> None:
    psql(server, "create table fine (number int primary key, a geometry, b geometry)",
         "insert into fine values (7, 'POINT (0.2500000000000001 0.5)', 'POINT (0.25 0.5)')",
         "create table far (number int primary key, a geometry)",
         "insert into far values (9, 'POINT (2000000 0.000000000001)')")
    words = ["fine", "zones", "--relation", "within", "--into"]
    assert "fine has 2 columns of type geometry" in refused(server, *words, "fine_pairs")
    words += ["fine_pairs", "--left-geometry", "a"]
    assert ("fine, id 7: a coordinate isn't written exactly by 15 decimals; give --decimals, at"
            " most 15, to round") in refused(server, *words)
    told = done(server, *words, "--decimals", "2")
    assert "rjoin-postgis: warning: fine: rows with coordinates rounded to 2 decimals: 1" in told
    own = psql(server, "select number, id from fine join zones on ST_Within(b, geom) order by 2")
    assert psql(server, "select left_id, right_id from fine_pairs order by 2") == own and own
    words = ["far", "zones", "--relation", "within", "--into", "far_pairs"]
    for given in ("", "--decimals 12"):
        fault = refused(server, *words, *given.split())
        assert f"far, id 9: {AT_12}; give --decimals, at most 11, or --others skip" in fault
    psql(server, "update far set a = 'POINT (2000000 0.0000000000000001)'")
    assert ("far, id 9: a coordinate isn't written exactly by 15 decimals; give --decimals, at most"
            " 11, to round") in refused(server, *words)
    done(server, *words, "--decimals", "11")


def test_coordinates_below_zero(server: Dict[str, str]) -> None:
    """Their size counts without the sign."""
    psql(server, "create table below (id int primary key, geom geometry)",
         "insert into below values (1, 'POINT (-2000000 0.000000000001)'), (2, 'POINT (-1 -1)')")
    words = ["below", "below", "--relation", "equals", "--into", "below_pairs"]
    assert f"below, id 1: {AT_12}; give --decimals, at most 11, or --others skip" in refused(
        server, *words)
    done(server, *words, "--others", "skip")
    assert psql(server, "select distinct id, reason from below_pairs_skipped") == [["1", AT_12]]
    assert psql(server, "select left_id, right_id from below_pairs") == [["2", "2"]]
    psql(server, "update below set geom = 'POINT (0.5 -30000000)' where id = 1",
         "create table zero (id int primary key, geom geometry)",
         "insert into zero values (1, 'POINT (0 0)')")
    done(server, "zero", "below", "--distance", "1.5", "--into", "below_near")
    assert psql(server, "select right_id, distance from below_near") == [["2", "1.4142"]]


NO_NUMBER = "a coordinate is not a number"
TOO_FAR = "a coordinate is out of range: the limit is 1000000000000000000"
AT_12 = "a coordinate is out of range: the limit at 12 decimals is 1000000"
BEYOND = {
    "ST_Point('NaN', 1)": NO_NUMBER,
    "ST_MakeLine(ST_Point('NaN', 0), ST_Point(0, 1))": NO_NUMBER,
    "ST_MakeLine(array[ST_Point(0, 0), ST_Point(1, 'NaN'), ST_Point(3, 0)])": NO_NUMBER,
    "ST_MakePolygon(ST_MakeLine(array[ST_Point(0, 0), ST_Point('NaN', 0), ST_Point(1, 2),"
    " ST_Point(0, 0)]))": NO_NUMBER,
    "ST_Collect(ST_Point(1, 1), ST_Point('NaN', 1))": NO_NUMBER,
    "ST_MakeLine(array[ST_Point(0, 0), ST_Point('Infinity', 0), ST_Point(1, 0)])": TOO_FAR,
    "ST_Point(0, -1e300)": TOO_FAR,
    "ST_MakeLine(ST_Point(1e18 + 1e3, 0.12345678), ST_Point(0, 0))": TOO_FAR,
    "ST_Point(2000000, 0.000000000001)": AT_12,
    "ST_Point(3000000, 1)": None,
    "ST_Point(1, 1.25)": None,
}


@pytest.mark.parametrize("others", ["skip", "envelope"])
def test_coordinates_that_no_decimals_write_are_left_out(server: Dict[str, str], others: str
                                                         ) -> None:
    """The row whose coordinates go together at no number of decimals doesn't decide it."""
    name = f"beyond_{others}"
    psql(server, f"create table {name} (id int primary key, text text, geom geometry)",
         f"insert into {name} values " + ", ".join(
             f"({number}, $${text}$$, {text})" for number, text in enumerate(BEYOND)))
    words = [name, name, "--relation", "equals", "--rings", "even-odd", "--into", f"{name}_pairs"]
    assert f"{name}, id 0: {NO_NUMBER}; choose --others skip" in refused(server, *words)
    done(server, *words, "--others", others)
    skipped = psql(server, f"select side, text, reason from {name}_pairs_skipped join {name}"
                   f" on {name}.id::text = {name}_pairs_skipped.id")
    told = {text: reason for text, reason in BEYOND.items() if reason}
    for side in ("left", "right"):
        assert {text: reason for its, text, reason in skipped if its == side} == told
    kept = [str(number) for number, reason in enumerate(BEYOND.values()) if reason is None]
    assert psql(server, f"select left_id, right_id from {name}_pairs order by 1") == [
        [it, it] for it in kept]


def test_rows_out_of_range_of_the_decimals_are_left_out(server: Dict[str, str]) -> None:
    psql(server, "create table wide (id int primary key, geom geometry)",
         "insert into wide values (1, 'POINT (2000000 1)'), (2, 'POINT (0.000000000001 1)')")
    words = ["wide", "wide", "--relation", "equals", "--others", "skip", "--into"]
    assert "rows listed in wide_pairs_skipped: 2\n" in done(server, *words, "wide_pairs")
    assert psql(server, "select distinct id, reason from wide_pairs_skipped") == [["1", AT_12]]
    assert psql(server, "select left_id, right_id from wide_pairs") == [["2", "2"]]
    assert "rows listed in wide_5_skipped: 0\n" in done(server, *words, "wide_5", "--decimals", "5")


def test_coordinates_are_rounded_to_whole_numbers(server: Dict[str, str]) -> None:
    psql(server, "create table halfway (id int primary key, geom geometry)",
         "insert into halfway values (1, 'POINT (0.5 -0.5)'), (2, 'POINT (1.25 -1.25)'),"
         " (3, 'POINT (1 -1)')")
    told = done(server, "halfway", "halfway", "--relation", "equals", "--decimals", "0",
                "--into", "whole")
    assert told.count("halfway: rows with coordinates rounded to 0 decimals: 2") == 2
    assert psql(server, "select count(*) from whole") == [["9"]]


def test_rounding_is_half_a_unit_away_from_zero(server: Dict[str, str]) -> None:
    """Of points and of lines alike; a segment may become a point, any other line may not."""
    psql(server, "create table halves (id text primary key, geom geometry)",
         "insert into halves values ('east', 'LINESTRING (0.125 -1, 0.125 1)'),"
         " ('west', 'LINESTRING (-0.125 -1, -0.125 1)'),"
         " ('slanted', 'LINESTRING (-1.005 -2.0000000000000004, 1.005 2)'),"
         " ('short', 'LINESTRING (9 9, 9.001 9)'), ('tiny', 'LINESTRING (9 9, 9.001 9.001)')",
         "create table marks (id text primary key, geom geometry)",
         "insert into marks values ('east', 'POINT (0.13 0.5)'), ('west', 'POINT (-0.13 0.5)'),"
         " ('middle', 'POINT (0 0)'), ('end', 'POINT (1.01 2)'), ('far', 'POINT (9 9)')")
    words = ["marks", "halves", "--relation", "intersects", "--into", "on_halves"]
    assert "halves, id slanted: a coordinate isn't written exactly by 15 decimals" in refused(
        server, *words)
    words += ["--decimals", "2"]
    assert ("halves, id tiny: not points, lines or polygons that rjoin reads, but a line that has"
            " no length once rounded to 2 decimals") in refused(server, *words)
    assert "halves: rows with coordinates rounded to 2 decimals: 4" in done(
        server, *words, "--others", "skip")
    assert psql(server, "select left_id, right_id from on_halves order by 1") == [
        ["east", "east"], ["end", "slanted"], ["far", "short"], ["middle", "slanted"],
        ["west", "west"]]


def test_polygons_that_rounding_flattens(server: Dict[str, str]) -> None:
    """A rectangle becomes a segment, another polygon keeps no interior, and a part that becomes a
    point is no part any more."""
    psql(server, "create table thin (id text primary key, geom geometry)",
         "insert into thin values"
         " ('segment', 'POLYGON ((3 3, 4 3, 4 3.001, 3 3.001, 3 3))'),"
         " ('flat', 'POLYGON ((0 0, 2 0, 1 0.001, 0 0))'),"
         " ('parts', 'MULTIPOLYGON (((5 5, 6 5, 5 6, 5 5)), ((8 8, 8.001 8, 8 8.002, 8 8)))'),"
         " ('dot', 'POLYGON ((1 1, 1.001 1, 1 1.002, 1 1))')",
         "create table pins (id text primary key, geom geometry)",
         "insert into pins values ('segment', 'POINT (3.5 3)'), ('flat', 'POINT (1 0)'),"
         " ('parts', 'POINT (5.25 5.25)'), ('tiny', 'POINT (8 8)'), ('dot', 'POINT (1 1)')")
    words = ["pins", "thin", "--decimals", "2", "--others", "skip", "--relation"]
    for relation, found in (("within", ["parts", "segment"]), ("touches", ["flat"])):
        done(server, *words, relation, "--into", f"thin_{relation}")
        pairs = psql(server, f"select left_id, right_id from thin_{relation} order by 1")
        assert pairs == [[it, it] for it in found]
    assert psql(server, "select * from thin_within_skipped") == [
        ["right", "dot", "a polygon that is a point once rounded to 2 decimals"]]


@pytest.mark.parametrize("decimals", (1, 2, 6, 7, 8, 11, 14, 15))
def test_the_fewest_decimals_write_all_digits(server: Dict[str, str], decimals: int) -> None:
    """Numbers that differ in the last decimal, of points and of slanted lines."""
    ones = "0." + (decimals - 1) * "1"
    for kind, text in (("points", "POINT ({} 0)"), ("slants", "LINESTRING ({} 0, 5 7)")):
        name = f"{kind}_{decimals}"
        psql(server, f"create table {name} (id int primary key, geom geometry)",
             f"insert into {name} values (1, '{text.format(ones + '1')}'),"
             f" (2, '{text.format(ones + '2')}')")
        done(server, name, name, "--relation", "equals", "--into", f"{name}_pairs")
        pairs = psql(server, f"select left_id, right_id from {name}_pairs order by 1, 2")
        assert pairs == [["1", "1"], ["2", "2"]]


def test_a_line_that_goes_back_ends_where_it_ends(server: Dict[str, str]) -> None:
    psql(server, "create table back (id int primary key, geom geometry)",
         "insert into back values (1, 'LINESTRING (0 0, 2 0, 1 0)')",
         "create table stops (id int primary key, geom geometry)",
         "insert into stops values (0, 'POINT (0 0)'), (1, 'POINT (1 0)'), (2, 'POINT (2 0)')")
    done(server, "stops", "back", "--relation", "touches", "--into", "back_stops")
    assert psql(server, "select left_id from back_stops order by 1") == [["0"], ["1"]]


def test_rows_that_are_left_out_have_any_system(server: Dict[str, str]) -> None:
    psql(server, "create table partly (id int primary key, geom geometry)",
         "insert into partly values (1, 'SRID=4326;POINT EMPTY'), (2, 'POINT (2 2)')")
    done(server, "partly", "partly", "--relation", "equals", "--others", "skip",
         "--into", "partly_pairs")
    assert psql(server, "select left_id, right_id from partly_pairs") == [["2", "2"]]


def test_workers_are_passed_on(server: Dict[str, str], program: Path, tmp_path: Path) -> None:
    stand_in(tmp_path / "rjoin", f'echo "$*" >>{tmp_path}/words\nexec {program} "$@"')
    words = ["parcels", "zones", "--relation", "overlaps", "--into"]
    for given, passed in (("", "4"), ("--workers 3", "3"), ("--workers auto", "auto")):
        ended = command(server, *words, f"by_{passed}", *given.split(),
                        RJOIN=str(tmp_path / "rjoin"))
        assert ended.returncode == 0, ended.stderr
        last = (tmp_path / "words").read_text(encoding="utf-8").splitlines()[-1]
        assert last.endswith(f" --workers {passed}")


def test_the_database_is_named(server: Dict[str, str]) -> None:
    psql(server, "create database named")
    named = {**server, "PGDATABASE": "named"}
    psql(named, "create extension postgis",
         "create table dots (id int primary key, geom geometry)",
         "insert into dots values (1, 'POINT (1 1)')")
    words = ["dots", "dots", "--relation", "equals", "--into", "named_dots"]
    for name in ("named", f"host={server['PGHOST']} dbname=named user={server['PGUSER']}"):
        done({**server, "PGDATABASE": "template1"}, *words, "--dbname", name)
        assert psql(named, "select count(*) from named_dots") == [["1"]]
        psql(named, "drop table named_dots")


def test_all_digits_are_handed_over(server: Dict[str, str]) -> None:
    """A half at 6 decimals and numbers next to halves, above and below."""
    psql(server, "create table digits (id int primary key, geom geometry)",
         "insert into digits values (1, ST_MakeLine(ST_Point(0.0000005, 0), ST_Point(1, 1))),"
         " (2, ST_MakeLine(ST_Point(0.49999950000000006, 0), ST_Point(1, 1))),"
         " (3, ST_MakeLine(ST_Point(0.49999949999999995, 0), ST_Point(1, 1))),"
         " (4, ST_MakeLine(ST_Point(0.0000004999999999999999, 0), ST_Point(1, 1)))",
         "create table ends (id int primary key, geom geometry)",
         "insert into ends values (1, 'POINT (0.000001 0)'), (2, 'POINT (0.5 0)'),"
         " (3, 'POINT (0.499999 0)'), (4, 'POINT (0 0)')")
    done(server, "ends", "digits", "--relation", "touches", "--into", "ended", "--decimals", "6")
    assert psql(server, "select left_id, right_id from ended order by 1") == [
        ["1", "1"], ["2", "2"], ["3", "3"], ["4", "4"]]
    psql(server, "create table tiny (id int primary key, geom geometry)",
         "insert into tiny values (1, ST_MakeLine(ST_Point(5e-16, 0), ST_Point(1, 1))),"
         " (2, ST_MakeLine(ST_Point(4.9999999999999995e-16, 0), ST_Point(1, 1))),"
         " (3, ST_MakeLine(ST_Point(0.0000001234567890123456, 0), ST_Point(1, 1)))",
         "create table tips (id int primary key, geom geometry)",
         "insert into tips values (1, 'POINT (0.000000000000001 0)'), (2, 'POINT (0 0)'),"
         " (3, 'POINT (0.000000123456789 0)')")
    done(server, "tips", "tiny", "--relation", "touches", "--into", "tipped", "--decimals", "15")
    assert psql(server, "select left_id, right_id from tipped order by 1") == [
        ["1", "1"], ["2", "2"], ["3", "3"]]


def test_rows_of_conditions_take_part(server: Dict[str, str]) -> None:
    """A comment in one ends with it."""
    done(server, "parcels", "zones", "--relation", "overlaps", "--into", "some_overlaps",
         "--left-where", "id like '%South%' or false -- the rest", "--right-where",
         "ST_XMax(geom) > 10")
    own = psql(server, OWN.format(left="(select * from parcels where id like '%South%')",
                                  right="(select * from zones where ST_XMax(geom) > 10)",
                                  relation="Overlaps"))
    assert psql(server, "select * from some_overlaps order by 1, 2") == own and own


@pytest.mark.parametrize("words, condition", [
    (("zones", "--relation", "overlaps"), "ST_Overlaps(l.geom, r.geom)"),
    (("zones", "--relation", "overlaps", "--pairs", "--left-columns", "geom"),
     "ST_Overlaps(l.geom, r.geom)"),
    (("stations", "--distance", "1"), "ST_DWithin(l.geom, r.geom, 1)"),
    (("stations", "--nearest", "1", "--distance", "2"), "ST_DWithin(l.geom, r.geom, 2) and"
     " not exists (select from stations s"
     " where ST_Distance(l.geom, s.geom) < ST_Distance(l.geom, r.geom))")])
def test_left_rows_without_a_partner_are_kept(server: Dict[str, str], words: Tuple[str, ...],
                                              condition: str) -> None:
    told = done(server, "parcels", *words, "--left-join", "--into", "kept")
    own = psql(server, f"select l.id, r.id from parcels l left join {words[0]} r"
               f" on {condition} order by 1, 2")
    assert psql(server, "select left_id, right_id from kept order by 1, 2") == own
    alone = [row for row in own if row[1] == ""]
    assert told == (f"pairs in kept: {len(own) - len(alone)}\n"
                    f"left rows without a partner: {len(alone)}\n")
    assert 0 < len(alone) < len(own)
    psql(server, "drop table kept")


def test_a_left_join_whose_right_rows_are_left_out_is_refused(server: Dict[str, str]) -> None:
    psql(server, "create table partners (id int primary key, geom geometry)",
         "insert into partners values (1, null), (2, 'LINESTRING (0 0, 9 9)'),"
         " (3, 'GEOMETRYCOLLECTION (POINT (0 0), POINT (2 0))')",
         "create table places (id int primary key, geom geometry)",
         "insert into places values (1, 'POINT (1 1)'), (2, 'POINT (1 0)'), (3, 'POINT (5 9)'),"
         " (4, 'CIRCULARSTRING (0 5, 1 6, 2 5)')")
    words = ["places", "partners", "--left-join", "--relation"]
    assert ("partners: rows left out: 2, each of which may be the partner of a left row without one"
            in refused(server, *words, "within", "--into", "never", "--others", "skip"))
    words += ["within", "--others", "envelope", "--right-where", "geom is not null", "--into"]
    assert done(server, *words, "parted") == (
        "pairs in parted: 2\nleft rows without a partner: 2\n"
        "pairs that rest on an envelope, where exact is false: 1\n"
        "rows listed in parted_skipped: 0\n")
    assert psql(server, "select left_id, right_id, exact from parted order by 1") == [
        ["1", "2", "t"], ["2", "3", "f"], ["3", "", "f"], ["4", "", "f"]]
    words[words.index("within")] = "intersects"
    done(server, *words, "met")
    assert psql(server, "select left_id, right_id, exact from met order by 1") == [
        ["1", "2", "t"], ["2", "3", "f"], ["3", "", "t"], ["4", "", "t"]]


def test_rows_are_added_to_a_table(server: Dict[str, str]) -> None:
    """Which is made by the first run; the counts are those of each."""
    words = ["parcels", "zones", "--others", "skip", "--into", "grows", "--append", "--relation"]
    counts = []
    for relation in ("overlaps", "within", "overlaps"):
        counts.append(len(psql(server, OWN.format(left="parcels", right="zones",
                                                  relation=relation))))
        assert done(server, *words, relation) == (f"pairs in grows: {counts[-1]}\n"
                                                  "rows listed in grows_skipped: 0\n")
    assert psql(server, "select count(*) from grows") == [[str(sum(counts))]] and all(counts)
    before = psql(server, "select * from grows order by 1, 2, 3")
    assert "already exists" in refused(server, *words[:6], "--relation", "within")
    assert 'column "distance" of relation "grows" does not exist' in refused(
        server, *words[:-1], "--distance", "1")
    assert psql(server, "select * from grows order by 1, 2, 3") == before


def test_a_geography_is_cast_where_that_is_told(server: Dict[str, str]) -> None:
    psql(server, "create table earth (id int primary key, place geography)",
         "insert into earth values (1, 'POINT (1.5 1.5)'), (2, 'LINESTRING (1 1, 2 2)')",
         "create table flat (id int primary key, geom geometry)",
         "insert into flat values (1, 'SRID=4326;LINESTRING (0 0, 3 3)')")
    told = done(server, "earth", "flat", "--relation", "within", "--geography", "cast", "--into",
                "on_earth")
    assert told == ("pairs in on_earth: 2\nrjoin-postgis: warning: earth: the column place is of "
                    "type geography, and is joined in the plane of its degrees\n")


@pytest.mark.parametrize("words, text", [
    (["nowhere", "zones", "--relation", "within"], 'relation "nowhere" does not exist'),
    (["parcels", "zones", "--relation", "disjoint"], "disjoint features may fit"),
    (["parcels", "zones", "--relation", "overlap"], "did you mean overlaps?"),
    (["parcels", "zones", "--relation=--help"], "not a name or a mask"),
    (["parcels", "zones", "--relation", "within", "--left-id", "key"], "has no column key"),
    (["unkeyed", "zones", "--relation", "within"], "has no primary key of one column"),
    (["keyed", "zones", "--relation", "within"], "keyed has no primary key of one column"),
    (["parcels", "zones", "--relation", "within", "--into", "zones"], "already exists"),
    (["other_system", "zones", "--relation", "within"], "the reference systems 0 and 4326"),
    (["globe", "zones", "--relation", "within"],
     "globe: the column place is of type geography: choose --geography cast"),
    (["globe", "zones", "--relation", "within", "--left-geometry", "place"],
     "globe: the column place is of type geography: choose --geography cast"),
    (["parcels", "zones", "--relation", "within", "--into", 64 * "x"],
     f"--into: a name has more than 63 bytes: {64 * 'x'}"),
    (["parcels", "zones", "--relation", "within", "--others", "skip", "--into", 60 * "x"],
     f"--skipped: a name has more than 63 bytes: {60 * 'x'}_skipped"),
    (["parcels", "zones", "--relation", "within", "--left-columns", "geom", "--left-prefix",
      60 * "x"], f"would have a name of more than 63 bytes: {60 * 'x'}geom"),
    (["parcels", "zones", "--relation", "within", "--left-where", "height > 1"],
     'column "height" does not exist'),
    (["parcels", "zones", "--relation", "within", "--append", "--into", "unkeyed"],
     'column "left_id" of relation "unkeyed" does not exist'),
])
def test_faults_leave_nothing(server: Dict[str, str], words: List[str], text: str) -> None:
    psql(server, "create table if not exists unkeyed (id int, geom geometry)",
         "create table if not exists keyed (a int, b int, geom geometry, primary key (a, b))",
         "create table if not exists globe (id int primary key, place geography)",
         "create table if not exists other_system (id int primary key, geom geometry)",
         "insert into other_system values (1, 'SRID=4326;POINT (1 1)') on conflict do nothing")
    before = tables(server)
    assert text in refused(server, *(words if "--into" in words else [*words, "--into", "never"]))
    assert tables(server) == before


def test_a_table_that_another_run_makes(server: Dict[str, str]) -> None:
    """The run waits for the other one, whose table then has the name."""
    with subprocess.Popen(["psql", "-qX"], env=server, stdin=subprocess.PIPE,
                          stdout=subprocess.PIPE, text=True) as other:
        assert other.stdin is not None and other.stdout is not None
        other.stdin.write("begin; create table both_make (id int);\n\\echo made\n")
        other.stdin.flush()
        assert other.stdout.readline() == "made\n"
        words = [str(COMMAND), "parcels", "zones", "--relation", "within", "--into", "both_make"]
        with subprocess.Popen(words, env=server, stderr=subprocess.PIPE, text=True) as process:
            wait_until(lambda: psql(server, "select count(*) from pg_stat_activity"
                                    " where wait_event_type = 'Lock'") == [["1"]])
            other.communicate("commit;\n")
            _, errors = process.communicate(timeout=20)
    assert errors == "rjoin-postgis: both_make already exists\n"


def test_both_tables_are_read_as_they_are_at_one_time(server: Dict[str, str]) -> None:
    """A row that comes while the left table is read isn't in the right one: the left one waits for
    a lock until the row is there."""
    psql(server, "create table growing (id int primary key, geom geometry)",
         "insert into growing values (1, 'POINT (1 1)')",
         "create view waiting as select id, geom from growing, pg_advisory_xact_lock(7)")
    words = [str(COMMAND), "waiting", "growing", "--left-id", "id", "--relation", "equals",
             "--into", "grown"]
    with subprocess.Popen(["psql", "-qtX"], env=server, stdin=subprocess.PIPE,
                          stdout=subprocess.PIPE, text=True) as other:
        assert other.stdin is not None and other.stdout is not None
        other.stdin.write("begin; select pg_advisory_xact_lock(7);\n\\echo held\n")
        other.stdin.flush()
        assert "held\n" in iter(other.stdout.readline, "")
        with subprocess.Popen(words, env=server, stdout=subprocess.PIPE, text=True) as process:
            wait_until(lambda: psql(server, "select count(*) from pg_stat_activity"
                                    " where wait_event_type = 'Lock'") == [["1"]])
            other.communicate("insert into growing values (2, 'POINT (1 1)'); commit;\n")
            told, _ = process.communicate(timeout=60)
    assert told == "pairs in grown: 1\n"


def test_a_full_disk_is_told(server: Dict[str, str], tmp_path: Path) -> None:
    """By a small file system for temporary files."""
    words = ["unshare", "--map-root-user", "--mount", "sh", "-c",
             'mount -t tmpfs -o size=8k tmpfs "$TMPDIR" && exec "$0" "$@"']
    environment = {**server, "TMPDIR": str(tmp_path)}
    if subprocess.run([*words, "true"], env=environment, capture_output=True).returncode != 0:
        pytest.skip("no file system can be mounted")
    psql(server, "create table wide_enough as select n as id, ST_Point(n, n) as geom"
         " from generate_series(1, 1000) n")
    before = tables(server)
    words += [str(COMMAND), "wide_enough", "zones", "--left-id", "id", "--relation", "within",
              "--into", "never"]
    ended = subprocess.run(words, env=environment, capture_output=True, text=True, check=False)
    assert ended.returncode == 1 and ended.stderr == (
        "rjoin-postgis: could not write COPY data: No space left on device "
        f"(in {tmp_path}; TMPDIR names another folder)\n")
    assert tables(server) == before


def test_a_failing_program_leaves_nothing(server: Dict[str, str], tmp_path: Path) -> None:
    """A program that dies after a part of its answer."""
    program = stand_in(tmp_path / "rjoin", '[ "$2" = /dev/null ] && exit 1\n'
                       "echo left,right,matrix\necho 1,1,2FFF1FFF2\nexit 1")
    before = tables(server)
    assert "rjoin: child process exited with exit code 1" in refused(
        server, "parcels", "zones", "--relation", "within", "--into", "never", RJOIN=str(program))
    assert tables(server) == before
    for path, told in (("/nowhere", "RJOIN is '/nowhere'"), ("/bin/true", "is not the program")):
        assert told in refused(server, "parcels", "zones", "--relation", "within", "--into",
                               "never", RJOIN=path)
    assert tables(server) == before


Begun = Tuple["subprocess.Popen[str]", Path]


@pytest.fixture()
def begun(server: Dict[str, str], tmp_path: Path) -> Iterator[Begun]:
    """A run whose program has told its number and never ends, and its folder of temporary files."""
    program = stand_in(tmp_path / "rjoin", '[ "$2" = /dev/null ] && exit 0\n'
                       f"echo $$ >{tmp_path}/new; mv {tmp_path}/new {tmp_path}/number\n"
                       "exec sleep 1000")
    (tmp_path / "tmp").mkdir()
    words = [str(COMMAND), "parcels", "zones", "--relation", "within", "--into", "never"]
    environment = {**server, "RJOIN": str(program), "TMPDIR": str(tmp_path / "tmp")}
    with subprocess.Popen(words, env=environment, stdout=subprocess.PIPE, stderr=subprocess.PIPE,
                          text=True, preexec_fn=hear_signals) as process:
        try:
            wait_until((tmp_path / "number").exists)
            yield process, tmp_path
        finally:
            process.kill()


def hear_signals() -> None:
    """What runs in the background may ignore some of them, and what it starts too."""
    for ending in (signal.SIGHUP, signal.SIGINT, signal.SIGTERM):
        signal.signal(ending, signal.SIG_DFL)


def wait_until(holds: Callable[[], bool]) -> None:
    for _ in range(1000):
        if holds():
            return
        time.sleep(0.02)
    raise AssertionError("not within 20 s")


def running(server: Dict[str, str]) -> int:
    """How many clients beside this one are connected."""
    ((count,),) = psql(server, "select count(*) from pg_stat_activity where pid <> pg_backend_pid()"
                       " and backend_type = 'client backend'")
    return int(count)


def is_alive(number: int) -> bool:
    try:
        os.kill(number, 0)
    except ProcessLookupError:
        return False
    return True


@pytest.mark.parametrize("ending", (signal.SIGTERM, signal.SIGINT, signal.SIGHUP))
def test_an_end_by_a_signal_leaves_nothing(server: Dict[str, str], begun: Begun, ending: Any
                                           ) -> None:
    process, folder = begun
    before = tables(server)
    process.send_signal(ending)
    output, errors = process.communicate(timeout=20)
    assert (process.returncode, output) == (128 + ending, "")
    assert errors == f"rjoin-postgis: ended by {ending.name}; no table was made\n"
    assert os.listdir(folder / "tmp") == []
    wait_until(lambda: not is_alive(int((folder / "number").read_text())))
    wait_until(lambda: running(server) == 0)
    assert tables(server) == before


def test_a_run_that_is_killed_makes_nothing(server: Dict[str, str], begun: Begun) -> None:
    """Nothing can be told then, and psql goes on, but not to a table."""
    process, folder = begun
    before = tables(server)
    process.kill()
    process.communicate(timeout=20)
    os.kill(int((folder / "number").read_text()), signal.SIGTERM)
    wait_until(lambda: running(server) == 0)
    assert tables(server) == before


def test_nothing_is_made_before_the_command_commits(server: Dict[str, str], tmp_path: Path
                                                    ) -> None:
    """By a psql that hears no more of the command, as where that is killed at the end."""
    deaf = tmp_path / "psql"
    deaf.write_text(f'#!/bin/sh\nexec {shutil.which("psql")} "$@" </dev/null\n', encoding="utf-8")
    deaf.chmod(0o755)
    before = tables(server)
    assert "told of no table" in refused(server, "parcels", "zones", "--relation", "overlaps",
                                         "--into", "never", PATH=f"{tmp_path}:{server['PATH']}")
    assert tables(server) == before


def test_a_query_of_the_server_is_ended_too(server: Dict[str, str]) -> None:
    psql(server, "create view slow as select id, geom from zones, pg_sleep(1000)")
    words = [str(COMMAND), "slow", "zones", "--relation", "within", "--into", "never",
             "--left-id", "id"]
    before = tables(server)
    with subprocess.Popen(words, env=server, stderr=subprocess.PIPE, text=True,
                          preexec_fn=hear_signals) as process:
        try:
            wait_until(lambda: running(server) == 1)
            time.sleep(1)
            process.terminate()
            _, errors = process.communicate(timeout=20)
        finally:
            process.kill()
    assert errors == "rjoin-postgis: ended by SIGTERM; no table was made\n"
    wait_until(lambda: running(server) == 0)
    assert tables(server) == before


def test_postgis_in_a_schema_off_the_search_path(server: Dict[str, str]) -> None:
    """Tables too; then without PostGIS."""
    psql(server, "create database apart")
    apart = {**server, "PGDATABASE": "apart"}
    words = ["land.parcels", "land.zones", "--relation", "overlaps", "--into"]
    assert "has no PostGIS: create extension postgis" in refused(apart, *words, "pairs")
    psql(apart, "create schema extensions", "create extension postgis schema extensions",
         "create schema land", "create schema results")
    for name in ("parcels", "zones"):
        psql(apart, f"create table land.{name} (id text primary key, geom extensions.geometry)",
             f"\\copy land.{name} from '{TOWN}/{name}.csv' csv header")
    for into in ("pairs", "results.pairs"):
        assert f"pairs in {into}: 20\n" in done(apart, *words, into, "--others", "envelope")
    schemas = psql(apart, "select schemaname from pg_tables where tablename = 'pairs' order by 1")
    assert schemas == [["public"], ["results"]]


def test_version() -> None:
    ended = subprocess.run([str(COMMAND), "--version"], capture_output=True, text=True, check=True)
    assert ended.stdout == f"rjoin-postgis {VERSION}\n"


def test_empty_tables(server: Dict[str, str]) -> None:
    psql(server, "create table empty (id int primary key, geom geometry)")
    told = done(server, "empty", "zones", "--relation", "within", "--into", "lone")
    assert "pairs in lone: 0" in told
