"""The QGIS plugin without a display, beside native:joinattributesbylocation and others."""
from __future__ import annotations

import csv
import json
import os
import random
import shutil
import subprocess
import sys
from pathlib import Path
from typing import Any, Dict, Iterator, List, Tuple

import pytest

from test_boxes import line, module
from town import COVERING, JOINS, ROOT, TOWN, stand_in

sys.path.insert(0, str(ROOT / "bench"))
import layers as made_layers  # noqa: E402

PLUGINS = ROOT / "integrations/qgis"
VILLAGE = ROOT / "data/village"
DRIVER = Path(__file__).with_name("qgis_driver.py")
RELATIONS = ["intersects", "touches", "crosses", "within", "contains", "overlaps", "equals",
             "covers", "covered_by", "contains_properly"]
NATIVE = {name: number for number, name in enumerate(
    ["intersects", "contains", "equals", "touches", "overlaps", "within", "crosses"])}
STOP, ENVELOPE, LEAVE_OUT = 0, 1, 2
MARK = 1
Run = Dict[str, Any]
Pairs = List[Tuple[str, str]]


@pytest.fixture(scope="session")
def profile(program: Path, tmp_path_factory: pytest.TempPathFactory) -> Dict[str, str]:
    """The environment of a QGIS with a profile of its own and no display."""
    folder = tmp_path_factory.mktemp("qgis")
    return {**os.environ, "QT_QPA_PLATFORM": "offscreen", "QGIS_CUSTOM_CONFIG_PATH": str(folder),
            "XDG_RUNTIME_DIR": str(folder), "QGIS_PLUGINPATH": str(PLUGINS),
            "PYTHONDONTWRITEBYTECODE": "1"}


@pytest.fixture(scope="session")
def python_of_qgis() -> str:
    for python in (sys.executable, "/usr/bin/python3"):
        if subprocess.run([python, "-c", "import qgis.core"], capture_output=True,
                          check=False).returncode == 0:
            return python
    pytest.skip("QGIS's Python modules aren't installed")


@pytest.fixture(scope="session")
def runs(profile: Dict[str, str], python_of_qgis: str, tmp_path_factory: pytest.TempPathFactory
         ) -> Iterator[Any]:
    """Works lists of runs off, in one QGIS for all tests."""
    log = tmp_path_factory.mktemp("driver") / "log"
    with open(log, "w", encoding="utf-8") as errors, subprocess.Popen(
            [python_of_qgis, str(DRIVER)], stdin=subprocess.PIPE, stdout=subprocess.PIPE,
            stderr=errors, text=True, env=profile) as driver:
        def work(requests: List[Run]) -> List[Dict[str, Any]]:
            assert driver.stdin is not None and driver.stdout is not None
            driver.stdin.write(json.dumps(requests) + "\n")
            driver.stdin.flush()
            answer = driver.stdout.readline()
            assert answer, log.read_text(encoding="utf-8")
            return list(json.loads(answer))
        yield work
        driver.kill()


@pytest.fixture(scope="session")
def qgis_process(profile: Dict[str, str]) -> Any:
    """Calls qgis_process; Debian's wrapper of 3.22 adds a word that it doesn't know."""
    command = shutil.which("qgis_process.bin") or shutil.which("qgis_process")
    if command is None:
        pytest.skip("qgis_process isn't installed")

    def call(*words: str) -> subprocess.CompletedProcess[str]:
        return subprocess.run([str(command), *words], capture_output=True, text=True, env=profile,
                              check=False)
    call("plugins", "enable", "rjoin_processing")
    return call


def town(name: str) -> str:
    return str(TOWN / f"{name}.csv")


def ours(left: str, right: str, relation: str, **more: Any) -> Run:
    parameters = {"INPUT": left, "JOIN": right, "RELATION": RELATIONS.index(relation),
                  "DISCARD_NONMATCHING": True, "OUTPUT": "memory:", **more}
    return {"algorithm": "rjoin:joinbyrelation", "parameters": parameters}


def natives(left: str, right: str, relation: str) -> Run:
    return {"algorithm": "native:joinattributesbylocation", "parameters": {
        "INPUT": left, "JOIN": right, "PREDICATE": [NATIVE[relation]], "METHOD": 0,
        "DISCARD_NONMATCHING": True, "OUTPUT": "memory:"}}


def pairs(answer: Dict[str, Any]) -> Pairs:
    assert answer["error"] is None, answer["error"]
    return sorted((row["id"], row["id_2"]) for row in answer["rows"]["OUTPUT"])


def layer(path: Path, texts: Dict[str, str]) -> str:
    """A CSV layer of well-known texts by their ids."""
    with open(path, "w", encoding="utf-8", newline="") as file:
        csv.writer(file).writerows([("id", "wkt"), *texts.items()])
    return str(path)


def test_qgis_process_on_the_town(qgis_process: Any, tmp_path: Path) -> None:
    outputs = [str(tmp_path / name) for name in ("ours.csv", "natives.csv")]
    layers = [f"INPUT={town('parcels')}", f"JOIN={town('roads')}", "DISCARD_NONMATCHING=1"]
    one = qgis_process("run", "rjoin:joinbyrelation", "--", *layers, "RELATION=1",
                       f"OUTPUT={outputs[0]}")
    other = qgis_process("run", "native:joinattributesbylocation", "--", *layers, "PREDICATE=3",
                         f"OUTPUT={outputs[1]}")
    assert one.returncode == 0 and other.returncode == 0, one.stderr + other.stderr
    rows = []
    for path in outputs:
        with open(path, encoding="utf-8", newline="") as file:
            rows.append(sorted((row["id"], row["id_2"]) for row in csv.DictReader(file)))
    assert rows[0] == rows[1] and rows[0]


def test_qgis_process_fails_with_a_status(qgis_process: Any, tmp_path: Path) -> None:
    ended = qgis_process("run", "rjoin:joinbyrelation", "--", f"INPUT={town('parcels')}",
                         f"JOIN={town('roads')}", "MASK=FF*FF****", f"OUTPUT={tmp_path}/o.gpkg")
    assert ended.returncode != 0
    assert "disjoint features may fit" in ended.stderr + ended.stdout
    assert not (tmp_path / "o.gpkg").exists()


def test_joins_of_the_town(runs: Any) -> None:
    requests = [request for join in JOINS for request in (
        ours(town(join.left), town(join.right), join.relation),
        natives(town(join.left), town(join.right), join.relation))]
    answers = runs(requests)
    for place, join in enumerate(JOINS):
        assert pairs(answers[2 * place]) == pairs(answers[2 * place + 1]), join


def test_points_that_parcels_cover(runs: Any) -> None:
    """QGIS has no such relations: a parcel covers the stations that it meets, and contains
    properly those that it contains."""
    for join, native in zip(COVERING, ("intersects", "intersects", "contains")):
        own, theirs = runs([ours(town(join.left), town(join.right), join.relation),
                            natives(town(join.left), town(join.right), native)])
        assert pairs(own) == pairs(theirs) and pairs(own), join


MADE = {"points": ("Point", "Polygon"), "rectangles": ("Polygon", "Polygon"),
        "mixture": ("LineString", "Polygon"), "cadastre": ("Polygon", "Polygon"),
        "chip": ("Polygon", "LineString")}


def test_made_layers(runs: Any, tmp_path: Path) -> None:
    """Layers of each kind, as GeoPackages, which have a key that a pair repeats."""
    requests = []
    for kind, types in MADE.items():
        relation = made_layers.KINDS[kind].relation
        packages = []
        for path, geometry in zip(made_layers.write_pair(tmp_path, kind, 2000), types):
            packages.append(str(path.with_suffix(".gpkg")))
            requests.append({"algorithm": "native:savefeatures", "parameters": {
                "INPUT": f"{path}|geometrytype={geometry}", "OUTPUT": packages[-1]}})
        left, right = packages
        requests += [ours(left, right, relation, OUTPUT=str(tmp_path / f"{kind}.gpkg")),
                     natives(left, right, relation)]
    answers = runs(requests)
    for place, kind in enumerate(MADE):
        joined = pairs(answers[4 * place + 2])
        assert joined == pairs(answers[4 * place + 3]) and joined, kind
    cadastre = answers[4 * list(MADE).index("cadastre") + 2]
    assert cadastre["results"]["PAIRS"] == made_layers.expected("cadastre", "touches", 2000)


def test_fields_and_forms_of_output(runs: Any) -> None:
    stations, parcels = town("stations"), town("parcels")
    all_fields, alone, some, mask = runs([
        ours(stations, parcels, "within", DISCARD_NONMATCHING=False, PREFIX="in_"),
        ours(stations, parcels, "within", METHOD=1, INPUT_ID="id"),
        ours(stations, parcels, "within", JOIN_FIELDS=["id"]),
        ours(stations, parcels, "crosses", MASK="T*F**F***")])
    rows = all_fields["rows"]["OUTPUT"]
    assert set(rows[0]) == {"id", "wkt", "in_id", "in_wkt", "matrix", "geometry"}
    inside = [row for row in rows if row["in_id"] is not None]
    assert {row["id"] for row in rows} == set(station_ids())
    assert all(row["geometry"] == row["wkt"].replace("POINT", "Point") for row in rows)
    assert {row["matrix"] for row in inside} == {"0FFFFF212"}
    table = alone["rows"]["OUTPUT"]
    assert [set(row) for row in table] == [{"left", "right", "matrix", "geometry"}] * len(inside)
    assert sorted(row["left"] for row in table) == sorted(row["id"] for row in inside)
    assert all(isinstance(row["right"], int) and row["geometry"] is None for row in table)
    assert set(some["rows"]["OUTPUT"][0]) == {"id", "wkt", "id_2", "matrix", "geometry"}
    assert pairs(mask) == pairs(some)


def test_added_fields_in_another_order(runs: Any) -> None:
    layers = town("stations"), town("parcels"), "within"
    native = natives(*layers)
    native["parameters"]["JOIN_FIELDS"] = ["wkt", "id"]
    own, theirs = runs([ours(*layers, JOIN_FIELDS=["wkt", "id"]), native])
    assert compared(own) == compared(theirs) and pairs(own)


def station_ids() -> List[str]:
    with open(TOWN / "stations.csv", encoding="utf-8", newline="") as file:
        return [row["id"] for row in csv.DictReader(file)]


OTHERS = {
    "box": "POLYGON ((0 0, 4 0, 4 4, 0 4, 0 0))",
    "part": "MULTIPOLYGON (((0 0, 0 2, 2 2, 2 0, 0 0)))",
    "triangle": "POLYGON ((0 0, 9 0, 0 9, 0 0))",
    "parts": "MULTIPOLYGON (((20 0, 22 0, 22 2, 20 2, 20 0)), ((0 5, 2 5, 2 9, 0 9, 0 5)))",
    "holed": "POLYGON ((0 0, 9 0, 9 9, 0 9, 0 0), (1 1, 2 1, 2 2, 1 2, 1 1))",
    "curve": "CURVEPOLYGON ((0 0, 9 9, 9 0, 0 0))",
    "dot": "POLYGON ((1 1, 1 1, 1 1, 1 1))",
    "none": "",
}
READ = {"box", "part", "triangle", "parts", "holed"}


def test_other_geometries(runs: Any, tmp_path: Path) -> None:
    others = layer(tmp_path / "others.csv", OTHERS)
    parcels = town("parcels")
    stop, envelopes, left_out = runs([
        ours(others, parcels, "intersects"),
        ours(others, parcels, "intersects", OTHERS=ENVELOPE, INPUT_LEFT_OUT="memory:"),
        ours(others, parcels, "intersects", OTHERS=LEAVE_OUT, INPUT_LEFT_OUT="memory:",
             DISCARD_NONMATCHING=False)])
    assert stop["error"].startswith(
        "Base layer others, feature 6: not points, lines or polygons that rjoin reads")
    assert "but a curve or surface" in stop["error"]
    assert [row["id"] for row in envelopes["rows"]["INPUT_LEFT_OUT"]] == ["none"]
    assert "Base layer others: features replaced by their envelopes: 2" in envelopes["log"]
    exact = [(row["id"], row["exact"]) for row in envelopes["rows"]["OUTPUT"]]
    assert all(flag == (id in READ) for id, flag in exact)
    assert {flag for _, flag in exact} == {True, False}
    inexact = f"{[flag for _, flag in exact].count(False)} of {len(exact)}"
    assert f"Pairs that rest on an envelope, where the field exact is false: {inexact}" in (
        envelopes["log"])
    gone = {row["id"]: row["reason"] for row in left_out["rows"]["INPUT_LEFT_OUT"]}
    assert gone == {"curve": "a curve or surface", "dot": "a polygon that is a point",
                    "none": "no geometry"}
    assert {row["id"] for row in left_out["rows"]["OUTPUT"]} == READ


def test_envelopes(runs: Any, tmp_path: Path) -> None:
    """Beside QGIS's own bounding boxes of curves."""
    curves = layer(tmp_path / "curves.csv", {
        "one": OTHERS["curve"],
        "two": "CURVEPOLYGON ((20 16, 28 20, 24 24, 20 16))"})
    bounds = str(tmp_path / "bounds.gpkg")
    bounded, envelopes, own = runs([
        {"algorithm": "native:boundingboxes", "parameters": {"INPUT": curves, "OUTPUT": bounds}},
        ours(curves, town("parcels"), "intersects", OTHERS=ENVELOPE),
        natives(bounds, town("parcels"), "intersects")])
    assert bounded["error"] is None
    assert pairs(envelopes) == pairs(own) and pairs(own)


def test_several_relations(runs: Any) -> None:
    """As the native algorithm has them: the same features, fields and those without a partner."""
    parcels, roads = town("parcels"), town("roads")
    own, native, mixed = runs([
        ours(parcels, roads, "touches", RELATION=[1, 2], DISCARD_NONMATCHING=False,
             NON_MATCHING="memory:"),
        {"algorithm": "native:joinattributesbylocation", "parameters": {
            "INPUT": parcels, "JOIN": roads, "PREDICATE": [NATIVE["touches"], NATIVE["crosses"]],
            "METHOD": 0, "OUTPUT": "memory:", "NON_MATCHING": "memory:"}},
        ours(parcels, roads, "touches", RELATION="1,0,2")])
    assert compared(own) == compared(native) and own["results"]["PAIRS"] > 0
    assert own["rows"]["NON_MATCHING"] == native["rows"]["NON_MATCHING"] and (
        len(own["rows"]["NON_MATCHING"]) == own["results"]["UNJOINABLE_COUNT"])
    (meeting,) = runs([natives(parcels, roads, "intersects")])
    assert compared(mixed) == compared(meeting)


def test_the_first_partner_alone(runs: Any) -> None:
    """In the order of the join layer, as the native algorithm takes it."""
    layers = town("parcels"), town("roads"), "touches"
    native = natives(*layers)
    native["parameters"].update({"METHOD": 1, "DISCARD_NONMATCHING": False})
    own, theirs = runs([ours(*layers, METHOD=2, DISCARD_NONMATCHING=False), native])
    assert compared(own) == compared(theirs)
    assert own["results"]["PAIRS"] == own["results"]["JOINED_COUNT"] > 0


def test_selected_features_alone(runs: Any) -> None:
    chosen = {"INPUT": "\"id\" like 'Bridge%'", "JOIN": "\"id\" like '%road%'"}
    layers = town("parcels"), town("roads"), "touches"
    own, native = runs([{**request, "selected": chosen}
                        for request in (ours(*layers), natives(*layers))])
    assert compared(own) == compared(native) and pairs(own)


WORLD = "/usr/share/qgis/resources/data/world_map.gpkg|layername="


def test_the_map_of_the_world(runs: Any, tmp_path: Path) -> None:
    """The layers that QGIS ships, whose coordinates have more than 15 decimals: the same features
    with the same fields. Disputed borders run within a millionth of a degree of countries: QGIS
    gives the pairs of layers that are rounded to 6 decimals where it joins such ones."""
    if not Path(WORLD.partition("|")[0]).exists():
        pytest.skip("QGIS's map of the world isn't there")
    countries, borders = f"{WORLD}countries", f"{WORLD}disputed_borders"
    paths = [str(tmp_path / f"{name}.gpkg") for name in ("countries", "borders")]
    rounded = [{"algorithm": "native:snappointstogrid", "parameters": {
        "INPUT": source, "HSPACING": 1e-6, "VSPACING": 1e-6, "OUTPUT": path}}
        for source, path in zip((countries, borders), paths)]
    whole, given, _, _, theirs, within, native = runs([
        ours(countries, borders, "intersects"), ours(countries, borders, "intersects", DECIMALS=6),
        *rounded, natives(paths[0], paths[1], "intersects"),
        ours(countries, countries, "within"), natives(countries, countries, "within")])
    assert "Decimals of the coordinates: 15" in whole["log"] and numbers(whole)
    assert numbers(given) == numbers(theirs) and len(numbers(given)) == 80
    assert compared(within) == compared(native) and within["results"]["PAIRS"] == 240


def numbers(answer: Dict[str, Any]) -> Pairs:
    """The pairs by the keys of their GeoPackages."""
    assert answer["error"] is None, answer["error"]
    return sorted((row["fid"], row["fid_2"]) for row in answer["rows"]["OUTPUT"])


def nearest(left: str, right: str, **more: Any) -> Run:
    """QGIS's own nearest features, by any number and distance."""
    return {"algorithm": "native:joinbynearest", "parameters": {
        "INPUT": left, "INPUT_2": right, "DISCARD_NONMATCHING": True, "OUTPUT": "memory:", **more}}


def near(left: str, right: str, distance: float, **more: Any) -> Run:
    return {"algorithm": "rjoin:joinwithindistance", "parameters": {
        "INPUT": left, "JOIN": right, "DISTANCE": distance, "DISCARD_NONMATCHING": True,
        "OUTPUT": "memory:", **more}}


def distances(answer: Dict[str, Any]) -> List[Tuple[str, str, float]]:
    """The pairs with their distances to 6 decimals."""
    assert answer["error"] is None, answer["error"]
    return sorted((row["id"], row["id_2"], round(row["distance"], 6))
                  for row in answer["rows"]["OUTPUT"])


@pytest.mark.parametrize("left, right, distance", [
    ("stations", "roads", 5), ("stations", "stations", 14.5), ("parcels", "zones", 10.25),
    ("parcels", "roads", 0)])
def test_within_distance(runs: Any, left: str, right: str, distance: float) -> None:
    """Beside all of QGIS's nearest features that are as near."""
    own, apart, every = runs([
        near(town(left), town(right), distance),
        near(town(left), town(right), distance, APART=True),
        nearest(town(left), town(right), NEIGHBORS=1000)])
    asked = [row for row in distances(every) if row[2] <= distance]
    if left == right:  # where QGIS leaves out each feature itself
        asked = sorted(asked + [(name, name, 0.0) for name in station_ids()])
    assert distances(own) == asked and asked
    assert distances(apart) == [row for row in asked if row[2] > 0]


def test_decimals_of_distances(runs: Any, tmp_path: Path) -> None:
    """Those of the coordinates and of the distance, and up to 6 as the size of the coordinates
    allows, unless they are given."""
    one = layer(tmp_path / "one.csv", {"a": "POINT (0 0)"})
    other = layer(tmp_path / "other.csv", {"b": "POINT (1 1)", "c": "POINT (2 0.5)"})
    far = layer(tmp_path / "far.csv", {"f": "POINT (30000000 0)"})
    fine, given, coarse, refused, many, lonely, wide = runs([
        near(one, other, 1.5), near(one, other, 1.5, DECIMALS=1), near(one, far, 4e7),
        near(one, other, 1.25, DECIMALS=1), near(one, other, 1.41421362),
        near(one, other, 1, DISCARD_NONMATCHING=False), near(far, other, 29999998.00000001)])
    assert [row["distance"] for row in fine["rows"]["OUTPUT"]] == [1.414214]
    assert [row["distance"] for row in given["rows"]["OUTPUT"]] == [1.4]
    assert "Decimals of the distances: 4" in coarse["log"] and distances(coarse)
    assert "Distance: 1.25 has more than 1 decimals" in refused["error"]
    assert "Decimals of the distances: 8" in many["log"]
    assert distances(many) == [("a", "b", 1.414214)]
    assert [(row["id"], row["distance"]) for row in lonely["rows"]["OUTPUT"]] == [("a", None)]
    assert "Decimals of the distances: 8" in wide["log"]
    assert distances(wide) == [("f", "c", 29999998.0)]


def test_distances_of_other_shapes(runs: Any) -> None:
    own, every = runs([near(village("stops", "Point"), PARCELS, 20),
                       nearest(village("stops", "Point"), PARCELS, NEIGHBORS=1000)])
    assert distances(own) == [row for row in distances(every) if row[2] <= 20]


def nearest_of(rows: List[Tuple[str, str, float]], limit: Dict[str, Any]
               ) -> List[Tuple[str, str, float]]:
    """The nearest of all pairs, with those that tie with the last."""
    found = []
    for left in sorted({row[0] for row in rows}):
        near = sorted(row[2] for row in rows
                      if row[0] == left and row[2] <= limit.get("MAX_DISTANCE", 1e9))
        last = near[:limit.get("NEIGHBORS", 1)][-1:] or [-1.0]
        found += [row for row in rows if row[0] == left and row[2] <= last[0]]
    return sorted(found)


@pytest.mark.parametrize("left, right", [("stations", "roads"), ("stations", "stations"),
                                         ("parcels", "roads")])
@pytest.mark.parametrize("limit", [{}, {"NEIGHBORS": 3}, {"NEIGHBORS": 4, "MAX_DISTANCE": 9.5}])
def test_nearest(runs: Any, left: str, right: str, limit: Dict[str, Any]) -> None:
    check_nearest(runs, town(left), town(right), limit)


@pytest.mark.parametrize("limit", [{}, {"NEIGHBORS": 3, "MAX_DISTANCE": 150.25}])
def test_nearest_of_other_shapes(runs: Any, limit: Dict[str, Any]) -> None:
    for left, right in ((village("stops", "Point"), PARCELS), (PARCELS, ROADS), (ROADS, ROADS)):
        check_nearest(runs, left, right, limit)


LINE_ENDS = ("feature_x", "feature_y", "nearest_x", "nearest_y")


def check_nearest(runs: Any, left: str, right: str, limit: Dict[str, Any]) -> None:
    """The same fields as QGIS's own, and its features; those that tie may change places. QGIS
    rounds distances before it compares them and misses ties, so all distances to 6 decimals
    decide."""
    own, native, every = runs([
        {"algorithm": "rjoin:joinnearest", "parameters": {
            "INPUT": left, "JOIN": right, "DISCARD_NONMATCHING": True,
            "OUTPUT": "memory:", **limit}},
        nearest(left, right, **limit),
        nearest(left, right, NEIGHBORS=1000)])
    assert distances(own) == nearest_of(distances(every), limit) and distances(own)
    assert set(distances(native)) <= set(distances(own))
    assert list(own["rows"]["OUTPUT"][0]) == list(native["rows"]["OUTPUT"][0])
    found, theirs = ({(row["id"], row["id_2"]): [row[name] for name in LINE_ENDS]
                      for row in answer["rows"]["OUTPUT"]} for answer in (own, native))
    assert {pair: found[pair] for pair in theirs} == theirs
    for row in own["rows"]["OUTPUT"]:
        x1, y1, x2, y2 = found[row["id"], row["id_2"]]
        assert abs(((x1 - x2) ** 2 + (y1 - y2) ** 2) ** 0.5 - row["distance"]) < 1e-5
    for left in {row["id"] for row in own["rows"]["OUTPUT"]}:
        counted = [row["n"] for row in own["rows"]["OUTPUT"] if row["id"] == left]
        assert counted == list(range(1, len(counted) + 1))


def test_no_distance_is_a_limit_too(runs: Any) -> None:
    """All that a feature meets are equally near."""
    layers = town("parcels"), town("roads")
    own, native = runs([
        {"algorithm": "rjoin:joinnearest", "parameters": {
            "INPUT": layers[0], "JOIN": layers[1], "MAX_DISTANCE": 0, "DISCARD_NONMATCHING": True,
            "OUTPUT": "memory:"}},
        natives(*layers, "intersects")])
    assert pairs(own) == pairs(native) and pairs(own)


def test_many_pairs(runs: Any, tmp_path: Path) -> None:
    """More pairs than are made at once, each with its own partner and values."""
    count = 17000
    side = layer(tmp_path / "side.csv", {"side": "LINESTRING (0 0, 0 1)"})
    area = layer(tmp_path / "area.csv", {
        "area": "POLYGON ((-1 -1, 20000 -1, 20000 1, -1 1, -1 -1))"})
    many = layer(tmp_path / "many.csv", {str(x): f"POINT ({x} {x % 2})" for x in range(count)})
    rows, table = runs([near(side, many, count, JOIN_FIELDS=["id"]),
                        ours(area, many, "intersects", METHOD=1, JOIN_ID="id")])
    assert [(row["id_2"], row["distance"]) for row in rows["rows"]["OUTPUT"]] == [
        (str(x), x) for x in range(count)]
    assert [(row["right"], row["matrix"]) for row in table["rows"]["OUTPUT"]] == [
        (str(x), ("0F2FF1FF2", "FF20F1FF2")[x % 2]) for x in range(count)]


def test_pairs_without_their_matrix(runs: Any, tmp_path: Path) -> None:
    """The same rows without the field, of one relation and of several, and in each form of output;
    of more pairs than are made at once, too."""
    others = layer(tmp_path / "others.csv", {**OTHERS, "far": FAR})
    parcels, roads = town("parcels"), town("roads")
    forms: List[Tuple[str, str, str, Dict[str, Any]]] = [
        (parcels, roads, "touches", {"DISCARD_NONMATCHING": False}),
        (parcels, roads, "touches", {"RELATION": [1, 2], "METHOD": 2}),
        (parcels, roads, "touches", {"METHOD": 1, "INPUT_ID": "id"}),
        (parcels, roads, "touches", {"MASK": "FF*T*****", "NON_MATCHING": "memory:"}),
        (others, parcels, "intersects", {"OTHERS": ENVELOPE, "DISCARD_NONMATCHING": False}),
        (PARCELS, ROADS, "crosses", {})]
    answers = runs([ours(left, right, relation, MATRIX=matrix, **more)
                    for left, right, relation, more in forms for matrix in (True, False)])
    for form, whole, alone in zip(forms, answers[::2], answers[1::2]):
        assert whole["error"] is None and alone["error"] is None, (whole, alone)
        assert all("matrix" in row for row in whole["rows"]["OUTPUT"]), form
        assert alone["results"]["PAIRS"] == whole["results"]["PAIRS"] > 0
        for name, rows in whole["rows"].items():
            assert (alone["rows"][name] or []) == [
                {field: value for field, value in row.items() if field != "matrix"}
                for row in rows or []], form


def test_many_pairs_without_their_matrix(runs: Any, tmp_path: Path) -> None:
    count = 17000
    area = layer(tmp_path / "area.csv", {
        "area": "POLYGON ((-1 -1, 20000 -1, 20000 1, -1 1, -1 -1))"})
    many = layer(tmp_path / "many.csv", {str(x): f"POINT ({x} {x % 2})" for x in range(count)})
    (table,) = runs([ours(area, many, "intersects", METHOD=1, JOIN_ID="id", MATRIX=False)])
    assert [row["right"] for row in table["rows"]["OUTPUT"]] == [str(x) for x in range(count)]


def test_the_program_computes_no_matrix_where_none_is_asked_for(
        runs: Any, program: Path, tmp_path: Path) -> None:
    words = tmp_path / "words"
    own = stand_in(tmp_path / "rjoin", f'echo "$@" >> {words}\nexec {program} "$@"')
    for matrix in (True, False):
        (answer,) = runs([{**ours(town("parcels"), town("roads"), "touches", MATRIX=matrix),
                           "program": str(own)}])
        assert answer["error"] is None
        last = words.read_text(encoding="utf-8").splitlines()[-1].split()
        assert ("--pairs" in last) != matrix


def test_pairs_of_several_relations_are_each_kept(runs: Any, tmp_path: Path) -> None:
    """Of a base feature with the last join feature, and of the next one with the first."""
    bars = layer(tmp_path / "bars.csv", {"a": "LINESTRING (0 0, 9 0)", "b": "LINESTRING (0 5, 9 5)",
                                         "c": "LINESTRING (0 9, 9 9)"})
    posts = layer(tmp_path / "posts.csv", {
        "low": "LINESTRING (1 4, 1 6)", "high": "LINESTRING (2 9, 2 10)",
        "last": "LINESTRING (3 0, 3 5)"})
    (answer,) = runs([ours(bars, posts, "touches", RELATION=[1, 2])])
    assert answer["error"] is None
    assert [(row["id"], row["id_2"]) for row in answer["rows"]["OUTPUT"]] == [
        ("a", "last"), ("b", "low"), ("b", "last"), ("c", "high")]


def test_nearest_where_features_are_left_out(runs: Any, tmp_path: Path) -> None:
    others = layer(tmp_path / "others.csv", {"box": OTHERS["box"], "curve": OTHERS["curve"]})
    parameters: Dict[str, Any] = {"INPUT": town("stations"), "JOIN": others, "OTHERS": LEAVE_OUT,
                                  "DISCARD_NONMATCHING": True, "OUTPUT": "memory:"}
    stopped, marked = runs([{"algorithm": "rjoin:joinnearest", "parameters": given} for given in (
        parameters, {**parameters, "INCOMPLETE": MARK})])
    assert "features left out: 1, each of which may be nearer" in stopped["error"]
    assert {row["known"] for row in marked["rows"]["OUTPUT"]} == {False}


FAR = "POLYGON ((900 900, 901 900, 901 901, 900 901, 900 900))"


def test_each_row_by_an_envelope_says_so(runs: Any, tmp_path: Path) -> None:
    """In a table of pairs, in a window, and of base features without a partner."""
    others = layer(tmp_path / "others.csv", {**OTHERS, "far": FAR})
    parcels = town("parcels")
    envelopes = {"OTHERS": ENVELOPE, "INCOMPLETE": MARK, "DISCARD_NONMATCHING": False}
    table, window, touching, meeting = runs([
        ours(parcels, others, "intersects", METHOD=1, JOIN_ID="id", **envelopes),
        {"algorithm": "rjoin:featuresinwindow", "parameters": {
            "INPUT": others, "WINDOW": "-1,30,-1,30", "OTHERS": ENVELOPE, "OUTPUT": "memory:"}},
        ours(others, parcels, "touches", **envelopes),
        ours(others, parcels, "intersects", **envelopes)])
    pairs_of = table["rows"]["OUTPUT"]
    assert pairs_of and all(row["exact"] == (row["right"] in READ) for row in pairs_of)
    found = {row["id"]: row["exact"] for row in window["rows"]["OUTPUT"]}
    assert found == {**dict.fromkeys(READ, True), "curve": False, "dot": False}
    assert any("where the field exact is false: 2 of 7" in line for line in window["log"])
    for answer in (touching, meeting):
        assert answer["error"] is None, answer
        rows = [row for row in answer["rows"]["OUTPUT"] if row["matrix"] is None]
        assert {row["id"]: row["exact"] for row in rows}["far"]
        for row in rows:
            assert row["exact"] == (answer is meeting or row["id"] in {*READ, "far"})


def test_what_a_base_feature_without_a_partner_rests_on(runs: Any, tmp_path: Path) -> None:
    """No partner by envelopes is none by the shapes, unless those that share a point are left out,
    or the relation asks for more than that."""
    shapes = layer(tmp_path / "shapes.csv", {"curve": OTHERS["curve"], "far": FAR})
    dots = layer(tmp_path / "dots.csv", {"dot": "POINT (500 500)"})
    rules = {"OTHERS": ENVELOPE, "DISCARD_NONMATCHING": False, "NON_MATCHING": "memory:"}
    answers = runs([near(shapes, dots, 1, **rules), near(shapes, dots, 1, APART=True, **rules),
                    near(dots, shapes, 1, **rules), ours(dots, shapes, "touches", **rules)])
    for answer, exact in zip(answers, ({"curve": True, "far": True}, {"curve": False, "far": True},
                                       {"dot": True}, {"dot": False})):
        for output in ("OUTPUT", "NON_MATCHING"):
            assert {row["id"]: row["exact"] for row in answer["rows"][output]} == exact


def test_a_base_feature_has_no_partner_only_where_that_is_known(runs: Any, tmp_path: Path) -> None:
    others = layer(tmp_path / "others.csv", OTHERS)
    far = layer(tmp_path / "far.csv", {"a": "POINT (1 8)", "b": "POINT (30 30)"})
    rules = {"OTHERS": LEAVE_OUT, "DISCARD_NONMATCHING": False}
    stop, marked, whole, discarded, table = runs([
        ours(far, others, "within", **rules), ours(far, others, "within", INCOMPLETE=MARK, **rules),
        ours(far, town("zones"), "within", INCOMPLETE=MARK, **rules),
        ours(far, others, "within", OTHERS=LEAVE_OUT),
        ours(far, others, "within", METHOD=1, **rules)])
    assert stop["error"].startswith(
        "Join layer others: features left out: 3, each of which may be the partner")
    assert sorted({(row["id"], row["id_2"], row["known"]) for row in marked["rows"]["OUTPUT"]},
                  key=str) == [("a", "holed", True), ("a", "parts", True), ("b", None, False)]
    assert all(row["known"] for row in whole["rows"]["OUTPUT"])
    assert len(pairs(discarded)) == len(table["rows"]["OUTPUT"]) == 2
    assert "known" not in discarded["rows"]["OUTPUT"][0]


def test_left_out_is_told_without_an_output(runs: Any, tmp_path: Path) -> None:
    others = layer(tmp_path / "others.csv", OTHERS)
    (answer,) = runs([ours(others, town("parcels"), "intersects", OTHERS=LEAVE_OUT)])
    assert any("features left out: 3, namely feature 6 (a curve or surface)" in line
               for line in answer["log"])


def test_what_has_no_output_of_its_own_is_named(runs: Any, tmp_path: Path) -> None:
    """Of a layer beside one whose features left out are listed."""
    others = layer(tmp_path / "others.csv", OTHERS)
    answers = runs([ours(others, others, "intersects", OTHERS=LEAVE_OUT, **{name: "memory:"},
                         DISCARD_NONMATCHING=True) for name in ("INPUT_LEFT_OUT", "JOIN_LEFT_OUT")])
    for answer, named in zip(answers, ("Join", "Base")):
        told = [line.partition(" layer ")[0] for line in answer["log"]
                if "features left out: 3, namely feature 6 (a curve or surface)" in line]
        assert told == [named]


def village(name: str, geometry: str) -> str:
    return f"{VILLAGE / name}.csv|geometrytype={geometry}"


PARCELS, ROADS = village("parcels", "Polygon"), village("roads", "LineString")
SLANTED = ((PARCELS, ROADS, "crosses"), (ROADS, PARCELS, "intersects"),
           (PARCELS, PARCELS, "touches"), (village("roads", "Polygon"), ROADS, "intersects"),
           (village("stops", "Point"), PARCELS, "within"),
           (village("water", "Polygon"), PARCELS, "touches"),
           (village("water", "Polygon"), village("stops", "Point"), "contains"),
           (PARCELS, PARCELS, "equals"), (ROADS, ROADS, "touches"))


def compared(answer: Dict[str, Any]) -> List[Any]:
    """All fields and the geometry of each joined feature, but for the matrix."""
    assert answer["error"] is None, answer["error"]
    return sorted(sorted((name, str(value)) for name, value in row.items() if name != "matrix")
                  for row in answer["rows"]["OUTPUT"])


def test_slanted_lines_and_polygons(runs: Any) -> None:
    """The village, whose coordinates are whole: the same features with the same fields."""
    answers = runs([request for left, right, relation in SLANTED for request in (
        ours(left, right, relation), natives(left, right, relation))])
    for place, join in enumerate(SLANTED):
        own, native = (compared(answer) for answer in answers[2 * place:2 * place + 2])
        assert own == native and own, join


MADE_OF_ANY = (("parcels", "intersects"), ("neighbours", "touches"), ("roads", "crosses"),
               ("zones", "within"), ("parcels", "overlaps"))


def test_made_layers_of_any_geometry(runs: Any, tmp_path: Path) -> None:
    """A cadastre of parcels of many corners, cut in two ways, its roads, and points in areas."""
    requests = []
    for kind, relation in MADE_OF_ANY:
        left, right = map(str, made_layers.write_pair(tmp_path, kind, 400))
        requests += [ours(left, right, relation), natives(left, right, relation)]
    answers = runs(requests)
    for own, native in zip(answers[::2], answers[1::2]):
        assert pairs(own) == pairs(native) and pairs(own)
    assert answers[2]["results"]["PAIRS"] == made_layers.expected("neighbours", "touches", 400)


BOW = "POLYGON ((0 0, 4 4, 4 0, 0 4, 0 0))"


def test_invalid_polygons(runs: Any, tmp_path: Path) -> None:
    """Of a bow-tie the even-odd rule takes two triangles, with a common corner at (2, 2)."""
    bow = layer(tmp_path / "bow.csv", {"bow": BOW, "box": "POLYGON ((0 0, 1 0, 1 1, 0 1, 0 0))"})
    points = layer(tmp_path / "points.csv", {
        "left": "POINT (1 2)", "right": "POINT (3 2)", "above": "POINT (2 3)",
        "below": "POINT (2 1)", "middle": "POINT (2 2)"})
    read, touching, skipped, stopped = runs([
        {**ours(points, bow, relation, JOIN_LEFT_OUT="memory:"), "invalid": invalid}
        for relation, invalid in (("within", 0), ("touches", 0), ("within", 1), ("within", 2))])
    assert pairs(read) == [("left", "bow"), ("right", "bow")]
    assert pairs(touching) == [("middle", "bow")]
    assert pairs(skipped) == []
    assert [(row["id"], row["reason"]) for row in skipped["rows"]["JOIN_LEFT_OUT"]] == [
        ("bow", "an invalid polygon")]
    assert "bow, feature 1: an invalid polygon. Fix it, or change" in stopped["error"]


def test_decimals(runs: Any, tmp_path: Path) -> None:
    """The fewest that write all exactly, or else as many as the range allows."""
    quarter = layer(tmp_path / "quarter.csv", {"a": "POINT (0.25 0.5)", "b": "POINT (0.3 3)"})
    zone = layer(tmp_path / "zone.csv", {"z": "POLYGON ((0.25 0, 1 0, 1 1, 0.25 1, 0.25 0))"})
    fine = layer(tmp_path / "fine.csv", {"a": "POINT (1 1)", "f": "POINT (0.2500000000000001 0.5)",
                                         "n": "POINT (0.249999 0.5)"})
    far = layer(tmp_path / "far.csv", {"a": "POINT (1 1)", "far": "POINT (2000000 1e-12)"})
    exact, automatic, rounded, far_away, whole = runs([
        ours(quarter, zone, "touches"), ours(fine, zone, "touches"),
        ours(fine, zone, "touches", DECIMALS=2), ours(far, zone, "touches"),
        ours(quarter, zone, "touches", DECIMALS=0)])
    assert pairs(whole) == [("a", "z")] and "Decimals of the coordinates: 0" in whole["log"]
    assert "Join layer zone: features with coordinates rounded to 0 decimals: 1" in whole["log"]
    assert pairs(exact) == [("a", "z")] and "Decimals of the coordinates: 2" in exact["log"]
    assert pairs(automatic) == [("a", "z"), ("f", "z")]
    assert "Base layer fine: features with coordinates rounded to 15 decimals: 1" in (
        automatic["log"])
    assert pairs(rounded) == [("a", "z"), ("f", "z"), ("n", "z")]
    assert "Base layer fine: features with coordinates rounded to 2 decimals: 2" in rounded["log"]
    assert pairs(far_away) == [("a", "z")]
    assert "Base layer far: features with coordinates rounded to 11 decimals: 1" in far_away["log"]


def test_decimals_of_any_geometry(runs: Any, tmp_path: Path) -> None:
    """Halves of a unit go away from zero, of points and of lines alike."""
    lines = layer(tmp_path / "lines.csv", {
        "east": "LINESTRING (0.125 -1, 0.125 1)", "west": "LINESTRING (-0.125 -1, -0.125 1)",
        "slanted": "LINESTRING (-1.005 -2.0000000000000004, 1.005 2)",
        "short": "LINESTRING (9 9, 9.001 9)",
        "tiny": "LINESTRING (9 9, 9.001 9.001)"})
    points = layer(tmp_path / "points.csv", {
        "east": "POINT (0.13 0.5)", "west": "POINT (-0.13 0.5)", "middle": "POINT (0 0)",
        "end": "POINT (1.01 2)", "far": "POINT (9 9)"})
    automatic, stopped, rounded = runs([
        ours(points, lines, "intersects"), ours(points, lines, "intersects", DECIMALS=2),
        ours(points, lines, "intersects", DECIMALS=2, OTHERS=LEAVE_OUT, JOIN_LEFT_OUT="memory:")])
    assert pairs(automatic) == [("far", "short"), ("far", "tiny"), ("middle", "slanted")]
    assert "Join layer lines: features with coordinates rounded to 15 decimals: 1" in (
        automatic["log"])
    assert "lines, feature 5: not points, lines or polygons that rjoin reads, but a line that has" \
        " no length once rounded to 2 decimals" in stopped["error"]
    assert pairs(rounded) == [("east", "east"), ("end", "slanted"), ("far", "short"),
                              ("middle", "slanted"), ("west", "west")]
    assert "Join layer lines: features with coordinates rounded to 2 decimals: 4" in rounded["log"]


def test_a_layer_without_a_reference_system(runs: Any, tmp_path: Path) -> None:
    """It is taken for one of the other layer's."""
    path = str(tmp_path / "stations.gpkg")
    _, both, *answers = runs([
        {"algorithm": "native:assignprojection", "parameters": {
            "INPUT": town("stations"), "CRS": "EPSG:32632", "OUTPUT": path}},
        ours(path, path, "equals"), ours(town("stations"), path, "equals"),
        ours(path, town("stations"), "equals")])
    assert len(pairs(both)) == len(station_ids())
    for answer, without, other in zip(answers, ("base", "join"), ("join", "base")):
        assert pairs(answer) == pairs(both)
        assert answer["systems"]["OUTPUT"] == "EPSG:32632"
        assert (f"The {without} layer has no reference system; that of the {other} layer is taken: "
                "EPSG:32632 - WGS 84 / UTM zone 32N") in answer["log"]


LOCAL = """WKT:PROJCRS["Grid of the works",BASEGEOGCRS["WGS 84",DATUM["World Geodetic System 1984",
ELLIPSOID["WGS 84",6378137,298.257223563]]],CONVERSION["grid",METHOD["Transverse Mercator",
ID["EPSG",9807]],PARAMETER["Longitude of natural origin",9.12]],CS[Cartesian,2],AXIS["(E)",east],
AXIS["(N)",north],LENGTHUNIT["metre",1]]"""


def test_reference_systems_without_a_code(runs: Any, tmp_path: Path) -> None:
    """They are named; a window of another one is reprojected, as QGIS's own extraction does."""
    paths = [str(tmp_path / f"{name}.gpkg") for name in ("local", "known")]
    window = "513360,513395,1,22.5 [EPSG:32632]"
    *_, joined, own, theirs = runs([*({"algorithm": "native:assignprojection", "parameters": {
        "INPUT": town("stations"), "CRS": system, "OUTPUT": path}}
        for path, system in zip(paths, (LOCAL.replace("\n", ""), "EPSG:32632"))),
        ours(paths[0], paths[1], "equals"),
        {"algorithm": "rjoin:featuresinwindow", "parameters": {
            "INPUT": paths[0], "WINDOW": window, "OUTPUT": "memory:"}},
        {"algorithm": "native:extractbyextent", "parameters": {
            "INPUT": paths[0], "EXTENT": window, "CLIP": False, "OUTPUT": "memory:"}}])
    assert joined["error"] is None and not joined["rows"]["OUTPUT"]
    assert any(line.startswith("The join layer is reprojected from EPSG:32632 - WGS 84 / UTM zone "
                               "32N to Grid of the works, that") for line in joined["log"])
    assert own["error"] is None and own["rows"]["OUTPUT"] == theirs["rows"]["OUTPUT"]
    assert 0 < own["results"]["COUNT"] < len(station_ids())


def native_join(name: str, parameters: Dict[str, Any]) -> List[Run]:
    """The same parameters for rjoin's algorithm and for QGIS's own of the same name."""
    provider = "qgis" if name == "joinbylocationsummary" else "native"
    return [{"algorithm": f"{one}:{name}", "parameters": {"OUTPUT": "memory:", **parameters}}
            for one in ("rjoin", provider)]


def random_layers(runs: Any, folder: Path, seed: int, grid: float = 1) -> List[str]:
    """Two GeoPackages of rectangles and triangles on a grid, which touch and equal each other
    often if it is wide, with numbers, texts, dates and nothing as fields."""
    source, paths = random.Random(seed), []
    for name, count in (("left", 90), ("right", 60)):
        rows = [("wkt", "id", "size", "kind", "day")]
        for number in range(count):
            x, y, w, h = (grid * source.randint(int(1 / grid), int(most / grid))
                          for most in (9, 9, 3, 3))
            corners = [(x, y), (x + w, y), (x + w, y + h), (x, y + h)][:source.randint(3, 4)]
            ring = ", ".join(f"{a} {b}" for a, b in [*corners, corners[0]])
            rows.append((f"POLYGON (({ring}))", f"{name[0]}{number}",
                         source.choice(["", str(source.randrange(9)), "2.5"]),
                         source.choice(["", "field", "wood"]),
                         source.choice(["", f"2026-01-{source.randint(1, 9):02}"])))
        text, path = folder / f"{name}.csv", folder / f"{name}.gpkg"
        with open(text, "w", encoding="utf-8", newline="") as file:
            csv.writer(file).writerows(rows)
        text.with_suffix(".csvt").write_text('"WKT","String","Real","String","Date"\n',
                                             encoding="utf-8")
        (answer,) = runs([{"algorithm": "native:savefeatures", "parameters": {
            "INPUT": str(text), "OUTPUT": str(path)}}])
        assert answer["error"] is None, answer
        paths.append(str(path))
    return paths


def rows_alike(own: Dict[str, Any], native: Dict[str, Any], output: str = "OUTPUT") -> int:
    """Compares the fields, in their order, and all rows but for the order of these."""
    assert own["error"] is None and native["error"] is None, (own["error"], native["error"])
    mine, theirs = own["rows"][output], native["rows"][output]
    assert [list(row) for row in mine[:1]] == [list(row) for row in theirs[:1]]
    assert own["types"][output] == native["types"][output]
    assert sorted(map(str, mine)) == sorted(map(str, theirs))
    return len(mine)


@pytest.mark.parametrize("method", [0, 1, 2])
def test_join_attributes_by_location(runs: Any, tmp_path: Path, method: int) -> None:
    """Each predicate by its number in QGIS's own algorithm, and several; the first match and the
    one with the largest overlap.

    The first is that of the join layer's order. QGIS takes that too where the base layer has more
    features, and else that of a spatial index, as of those that share equally much: so the layers
    for this have few coordinates in common.
    """
    left, right = random_layers(runs, tmp_path, 7 + method, 1 if method < 2 else 0.001)
    layers: Dict[str, Any] = {"INPUT": left, "JOIN": right, "METHOD": method,
                              "NON_MATCHING": "memory:"}
    forms: List[Dict[str, Any]] = [
        *({"PREDICATE": [number]} for number in range(len(NATIVE))), {},
        {"PREDICATE": [3, 5, 0], "DISCARD_NONMATCHING": True, "PREFIX": "of_"},
        {"PREDICATE": [1], "JOIN_FIELDS": ["kind", "id"]}]
    answers = runs([run for more in forms
                    for run in native_join("joinattributesbylocation", {**layers, **more})])
    for more, own, native in zip(forms, answers[::2], answers[1::2]):
        assert rows_alike(own, native) > 0, more
        rows_alike(own, native, "NON_MATCHING")
        lonely = len(own["rows"]["NON_MATCHING"])
        assert own["results"]["JOINED_COUNT"] == 90 - lonely  # QGIS may count pairs
    joined = [answer["results"]["JOINED_COUNT"] > 0 for answer in answers[:12:2]]
    assert all(joined if method < 2 else joined[:2] + joined[4:])


def test_join_attributes_by_location_summary(runs: Any, tmp_path: Path) -> None:
    """Of numbers, texts, dates and nothing, beside QGIS's own."""
    left, right = random_layers(runs, tmp_path, 11)
    forms: List[Dict[str, Any]] = [
        {}, {"PREDICATE": [4, 2], "DISCARD_NONMATCHING": True}, {"PREDICATE": [1, 5]},
        {"JOIN_FIELDS": ["size", "kind"], "SUMMARIES": [18, 5, 0, 6, 12]}]
    answers = runs([run for more in forms for run in native_join(
        "joinbylocationsummary", {"INPUT": left, "JOIN": right, **more})])
    for more, own, native in zip(forms, answers[::2], answers[1::2]):
        assert rows_alike(own, native) > 0, more
    assert [name for name in answers[-2]["rows"]["OUTPUT"][0] if name.startswith("size_")] == [
        "size_count", "size_sum", "size_mean", "size_q3"]


@pytest.mark.parametrize("more", [{}, {"NEIGHBORS": 3, "PREFIX": "near_"},
                                  {"NEIGHBORS": 2, "MAX_DISTANCE": 2.5, "FIELDS_TO_COPY": ["id"]}])
def test_join_attributes_by_nearest(runs: Any, tmp_path: Path, more: Dict[str, Any]) -> None:
    """QGIS rounds distances before it compares them: its rows are among rjoin's, which are those
    of all distances."""
    left, right = random_layers(runs, tmp_path, 19)
    own, native, every = runs([
        *native_join("joinbynearest", {"INPUT": left, "INPUT_2": right, "NON_MATCHING": "memory:",
                                       **more}),
        nearest(left, right, NEIGHBORS=1000)])
    assert own["error"] is None, own["error"]
    other = f"{more['PREFIX']}id" if "PREFIX" in more else "id_2"
    mine, theirs = ({(row["id"], row[other], round(row["distance"] or 0, 6))
                     for row in answer["rows"]["OUTPUT"] if row[other]} for answer in (own, native))
    assert sorted(mine) == nearest_of(distances(every), more) and theirs <= mine
    assert list(own["rows"]["OUTPUT"][0]) == list(native["rows"]["OUTPUT"][0])
    rows_alike(own, native, "NON_MATCHING")
    for name in ("JOINED_COUNT", "UNJOINABLE_COUNT"):
        assert own["results"][name] == native["results"][name]


def test_parameters_are_those_of_qgis(runs: Any) -> None:
    """Each parameter of QGIS's own algorithm with its name, words, choices and value unless given,
    in its order; what rjoin adds is behind them, and among the advanced ones."""
    for name in ("joinattributesbylocation", "joinbylocationsummary", "joinbynearest"):
        own, native = runs([{"parameters_of": run["algorithm"]} for run in native_join(name, {})])
        count = len(native["parameters"])
        assert own["parameters"][:count] == native["parameters"] and count >= 7
        assert all(parameter["advanced"] for parameter in own["added"])


def saved(runs: Any, source: str, path: Path, system: str) -> str:
    """A layer as it is reprojected into a GeoPackage."""
    (answer,) = runs([{"algorithm": "native:reprojectlayer", "parameters": {
        "INPUT": source, "TARGET_CRS": system, "OUTPUT": str(path)}}])
    assert answer["error"] is None, answer
    return str(path)


def degrees(path: Path, seed: int) -> str:
    """Random squares about (9, 48), in degrees of many digits, as GeoJSON."""
    source, features = random.Random(seed), []
    for number in range(80):
        x, y, size = 9 + source.random() / 5, 48 + source.random() / 5, source.random() / 50
        ring = [[x, y], [x + size, y], [x + size, y + size], [x, y + size], [x, y]]
        features.append({"type": "Feature", "properties": {"id": f"{seed}/{number}"},
                         "geometry": {"type": "Polygon", "coordinates": [ring]}})
    path.write_text(json.dumps({"type": "FeatureCollection", "features": features}),
                    encoding="utf-8")
    return str(path)


def test_layers_of_other_reference_systems(runs: Any, tmp_path: Path) -> None:
    """The join layer is reprojected as QGIS's own algorithms do, and rounded to what fits."""
    left = degrees(tmp_path / "left.geojson", 1)
    right = saved(runs, degrees(tmp_path / "right.geojson", 2), tmp_path / "right.gpkg",
                  "EPSG:32632")
    answers = runs([run for layers in ((left, right), (right, left)) for run in (
        *native_join("joinattributesbylocation", {"INPUT": layers[0], "JOIN": layers[1]}),
        *native_join("joinbynearest", {"INPUT": layers[0], "INPUT_2": layers[1]}))])
    for own, native in zip(answers[::2], answers[1::2]):
        assert own["error"] is None, own["error"]
        found, theirs = ({(row["id"], row["id_2"]) for row in answer["rows"]["OUTPUT"]}
                         for answer in (own, native))
        assert found == theirs and len(found) > 80
        assert own["systems"]["OUTPUT"] == native["systems"]["OUTPUT"]
        assert {row["geometry"] for row in own["rows"]["OUTPUT"]} == {
            row["geometry"] for row in native["rows"]["OUTPUT"]}
    assert [answer["systems"]["OUTPUT"] for answer in answers[::4]] == ["EPSG:4326", "EPSG:32632"]
    assert ("The join layer is reprojected from EPSG:32632 - WGS 84 / UTM zone 32N to EPSG:4326 - "
            "WGS 84, that of the base layer") in answers[0]["log"]
    assert "Decimals of the coordinates: 15" in answers[0]["log"]
    assert "Decimals of the coordinates: 11" in answers[4]["log"]


def test_what_cannot_be_reprojected(runs: Any, tmp_path: Path) -> None:
    """It is listed by the reference system of the base layer."""
    left = saved(runs, degrees(tmp_path / "left.geojson", 1), tmp_path / "left.gpkg", "EPSG:3857")
    right = tmp_path / "right.geojson"
    right.write_text(json.dumps({"type": "FeatureCollection", "features": [
        {"type": "Feature", "properties": {"id": name},
         "geometry": {"type": "Point", "coordinates": [9.1, latitude]}}
        for name, latitude in (("here", 48.1), ("nowhere", 95))]}), encoding="utf-8")
    stopped, left_out = runs([
        ours(left, str(right), "intersects"),
        ours(left, str(right), "intersects", OTHERS=LEAVE_OUT, JOIN_LEFT_OUT="memory:")])
    reason = "no geometry, or one that can't be reprojected"
    assert f"but {reason}" in stopped["error"]
    assert [(row["id"], row["reason"]) for row in left_out["rows"]["JOIN_LEFT_OUT"]] == [
        ("nowhere", reason)]
    assert left_out["systems"]["JOIN_LEFT_OUT"] == "EPSG:3857"


def test_messages_name_the_base_layer_or_the_join_layer(runs: Any, tmp_path: Path) -> None:
    same = []
    for folder, text in (("one", "POINT (1 1)"), ("other", "POINT (0.1234567 1)")):
        (tmp_path / folder).mkdir()
        same.append(layer(tmp_path / folder / "same.csv", {"a": text}))
    table = tmp_path / "table.csv"
    table.write_text("id,name\na,b\n", encoding="utf-8")
    parcels = town("parcels")
    inexact, base, join, no_field, neither = runs([
        ours(same[0], same[1], "equals", DECIMALS=2),
        ours(str(table), parcels, "equals", OTHERS=LEAVE_OUT),
        ours(parcels, str(table), "equals", OTHERS=LEAVE_OUT),
        ours(same[0], parcels, "equals", METHOD=1, INPUT_ID="name"),
        {"algorithm": "rjoin:layerstatistics", "parameters": {
            "INPUT": str(table), "OTHERS": LEAVE_OUT}}])
    assert "Join layer same: features with coordinates rounded to 2 decimals: 1" in inexact["log"]
    assert base["error"] == "Base layer table has no geometries"
    assert join["error"] == "Join layer table has no geometries"
    assert no_field["error"] == "Base layer same has no field name"
    assert neither["error"] == "Layer table has no geometries"


def square(x: float, y: float) -> str:
    return f"POLYGON (({x} {y}, {x + 1} {y}, {x + 1} {y + 1}, {x} {y + 1}, {x} {y}))"


def test_what_is_out_of_range(runs: Any, tmp_path: Path) -> None:
    """What the decimals of the run don't reach is left out like any other geometry; an envelope
    stays with its feature."""
    squares = {"far": square(2000000, 1), "near": square(1, 1), "beyond": square(2e19, 1),
               "further": square(3, 500000000)}
    far = layer(tmp_path / "far.csv", squares)
    mixed = layer(tmp_path / "mixed.csv", {**squares, "curve": OTHERS["curve"],
                                           "box": OTHERS["box"]})
    fine = layer(tmp_path / "fine.csv", {
        "z": "POLYGON ((0 0, 2.000000000001 0, 0 2.000000000001, 0 0))"})
    out = {"INPUT_LEFT_OUT": "memory:", "OTHERS": LEAVE_OUT}
    limits = layer(tmp_path / "limits.csv", dict(list(squares.items())[:2]))
    (beyond, automatic, given, left_out, by_given, envelopes, partner, by_distance, counted,
     window) = runs([
        ours(far, fine, "overlaps"), ours(limits, fine, "touches"),
        ours(limits, fine, "overlaps", DECIMALS=12), ours(far, fine, "touches", **out),
        ours(far, fine, "overlaps", DECIMALS=12, **out),
        ours(mixed, fine, "intersects", OTHERS=ENVELOPE, INPUT_LEFT_OUT="memory:"),
        ours(fine, far, "overlaps", OTHERS=LEAVE_OUT, DISCARD_NONMATCHING=False),
        near(far, fine, 0.000001, DECIMALS=12, **out),
        {"algorithm": "rjoin:layerstatistics", "parameters": {
            "INPUT": far, "OTHERS": LEAVE_OUT, "DECIMALS": 10}},
        {"algorithm": "rjoin:featuresinwindow", "parameters": {
            "INPUT": far, "WINDOW": "0,9,0,9", "OTHERS": LEAVE_OUT, "DECIMALS": 10,
            "OUTPUT": "memory:", "LEFT_OUT": "memory:"}}])
    assert beyond["error"] == ("Base layer far, feature 3: coordinate 2e+19 is out of range: the "
                               "limit is 1,000,000,000,000,000,000")
    assert given["error"] == (
        "Base layer limits, feature 1: coordinate 2000000.0 is out of range with 12 decimals: at "
        "most 11 fit")
    assert pairs(automatic) == [("near", "z")]
    assert "Join layer fine: features with coordinates rounded to 11 decimals: 1" in (
        automatic["log"])
    reasons = {"beyond": "a coordinate out of range",
               "far": "a coordinate out of range with 12 decimals",
               "further": "a coordinate out of range with 12 decimals"}
    for answer in (left_out, by_given, by_distance, envelopes):
        assert {(row["id"], row["id_2"]) for row in answer["rows"]["OUTPUT"]} >= {("near", "z")}
        gone = {row["id"]: row["reason"] for row in answer["rows"]["INPUT_LEFT_OUT"]}
        assert gone == (reasons if answer in (by_given, by_distance)
                        else {"beyond": reasons["beyond"]})
    assert {row["id"]: row["exact"] for row in envelopes["rows"]["OUTPUT"]} == {
        "near": True, "curve": False, "box": True}
    assert "features left out: 1, each of which may be the partner" in partner["error"]
    assert (counted["results"]["FEATURES"], counted["results"]["LEFT_OUT_COUNT"]) == (2, 2)
    assert [row["id"] for row in window["rows"]["OUTPUT"]] == ["near"]
    assert [row["id"] for row in window["rows"]["LEFT_OUT"]] == ["beyond", "further"]


def test_coordinates_below_zero(runs: Any, tmp_path: Path) -> None:
    """Their size counts without the sign, also where no other is out of range."""
    below = layer(tmp_path / "below.csv", {"below": square(1, -3000000), "near": square(1, 1)})
    fine = layer(tmp_path / "fine.csv", {
        "z": "POLYGON ((0 0, 2.000000000001 0, 0 2.000000000001, 0 0))"})
    automatic, stopped, left_out = runs([
        ours(below, fine, "touches"), ours(below, fine, "overlaps", DECIMALS=12),
        ours(below, fine, "overlaps", DECIMALS=12, OTHERS=LEAVE_OUT, INPUT_LEFT_OUT="memory:")])
    assert pairs(automatic) == pairs(left_out) == [("near", "z")]
    assert "Decimals of the coordinates: 11" in automatic["log"]
    assert stopped["error"] == ("Base layer below, feature 1: coordinate -3000000.0 is out of range"
                                " with 12 decimals: at most 11 fit")
    assert [row["id"] for row in left_out["rows"]["INPUT_LEFT_OUT"]] == ["below"]


def test_points_that_are_not_finite(runs: Any, tmp_path: Path) -> None:
    """They are left out, also where the bounds that QGIS has of the others are finite; a line
    without a length has an envelope, also at the origin."""
    ogr = pytest.importorskip("osgeo.ogr")
    path = str(tmp_path / "lines.gpkg")
    package = ogr.GetDriverByName("GPKG").CreateDataSource(path)
    lines = package.CreateLayer("lines", None, ogr.wkbLineString)
    lines.CreateField(ogr.FieldDefn("id", ogr.OFTString))
    for name, wkb in (("slanted", line((0, 0), (5, 6))), ("short", line((0, 0), (0, 0))),
                      ("nan", line((0, 0), (5, float("nan")), (9, 9)))):
        feature = ogr.Feature(lines.GetLayerDefn())
        feature.SetField("id", name)
        feature.SetGeometry(ogr.CreateGeometryFromWkb(wkb))
        lines.CreateFeature(feature)
    del feature, lines, package  # which closes it
    answers = runs([ours(path, town("parcels"), "intersects", OTHERS=others, METHOD=2,
                         INPUT_LEFT_OUT="memory:") for others in (LEAVE_OUT, ENVELOPE)])
    for answer, read, gone in zip(answers, ({"slanted"}, {"slanted", "short"}),
                                  ({"nan", "short"}, {"nan"})):
        assert {row["id"] for row in answer["rows"]["OUTPUT"]} == read
        assert {row["id"] for row in answer["rows"]["INPUT_LEFT_OUT"]} == gone
        assert "a coordinate isn't finite" in {
            row["reason"] for row in answer["rows"]["INPUT_LEFT_OUT"]}


def test_windows_of_a_point_or_of_no_unit(runs: Any) -> None:
    """The corner of four parcels of the town; a window between two units."""
    requests = [{"algorithm": "rjoin:featuresinwindow", "parameters": {
        "INPUT": town("parcels"), "WINDOW": window, "DECIMALS": decimals, "OUTPUT": "memory:"}}
        for window, decimals in (("10,10,15,15", 0), ("10.2,10.4,15,16", 0),
                                 ("10.2,10.4,15,16", 1))]
    corner, narrow, finer = runs(requests)
    assert corner["results"]["COUNT"] == 4
    assert "narrower than a unit of the last decimal" in narrow["error"]
    assert [row["id"] for row in finer["rows"]["OUTPUT"]] == ["Bridge South 2", "Bridge South 6"]


@pytest.mark.parametrize("window", ["0,60,0,60", "10,10.5,14.999999,15.25", "20.1,41.7,-3,0"])
def test_window(runs: Any, window: str) -> None:
    requests = [request for name in ("parcels", "roads", "stations") for request in (
        {"algorithm": "rjoin:featuresinwindow", "parameters": {
            "INPUT": town(name), "WINDOW": window, "OUTPUT": "memory:"}},
        {"algorithm": "native:extractbyextent", "parameters": {
            "INPUT": town(name), "EXTENT": window, "CLIP": False, "OUTPUT": "memory:"}})]
    answers = runs(requests)
    for one, other in zip(answers[::2], answers[1::2]):
        assert one["error"] is None and one["rows"]["OUTPUT"] == other["rows"]["OUTPUT"]
        assert one["results"]["COUNT"] == len(one["rows"]["OUTPUT"])


@pytest.mark.parametrize("window", ["0.5,2.5,0.5,2.5", "-2.5,-0.5,-1.5,0.25"])
def test_each_side_of_a_window_between_two_units(runs: Any, tmp_path: Path, window: str) -> None:
    """Beside QGIS's own extraction, with points on both sides of each side."""
    grid = layer(tmp_path / "grid.csv", {f"{x}/{y}": f"POINT ({x} {y})"
                                         for x in range(-3, 4) for y in range(-3, 4)})
    own, theirs = runs([
        {"algorithm": "rjoin:featuresinwindow", "parameters": {
            "INPUT": grid, "WINDOW": window, "OUTPUT": "memory:"}},
        {"algorithm": "native:extractbyextent", "parameters": {
            "INPUT": grid, "EXTENT": window, "CLIP": False, "OUTPUT": "memory:"}}])
    assert own["error"] is None and own["rows"]["OUTPUT"] == theirs["rows"]["OUTPUT"]
    assert own["results"]["COUNT"] == 4


def test_window_over_any_geometry(runs: Any) -> None:
    """Beside QGIS's own extraction; the last window has more decimals than rjoin reads."""
    windows = ("0,400,-100,300", "157.25,158,39,39.5", "0.30000000000000004,700,300,500")
    answers = runs([request for window in windows for request in (
        {"algorithm": "rjoin:featuresinwindow", "parameters": {
            "INPUT": PARCELS, "WINDOW": window, "OUTPUT": "memory:"}},
        {"algorithm": "native:extractbyextent", "parameters": {
            "INPUT": PARCELS, "EXTENT": window, "CLIP": False, "OUTPUT": "memory:"}})])
    for one, other in zip(answers[::2], answers[1::2]):
        assert one["error"] is None and one["rows"]["OUTPUT"] == other["rows"]["OUTPUT"]
        assert one["rows"]["OUTPUT"]
    told = [any("The window is rounded to 1" in line for line in answer["log"])
            for answer in answers[::2]]
    assert told == [False, False, True]


def test_statistics(runs: Any, tmp_path: Path) -> None:
    others = layer(tmp_path / "others.csv", OTHERS)
    quarter = layer(tmp_path / "quarter.csv", {"a": "POINT (0.25 0.5)"})
    answers = runs([{"algorithm": "rjoin:layerstatistics", "parameters": {
        "INPUT": source, "OTHERS": LEAVE_OUT}}
        for source in (town("parcels"), town("roads"), town("stations"), others, quarter)])
    counted = [tuple(answer["results"].get(name) for name in (
        "FEATURES", "POINTS", "SEGMENTS", "RECTANGLES", "LEFT_OUT_COUNT")) for answer in answers]
    assert counted == [(57, 0, 0, 57, 0), (16, 0, 16, 0, 0), (16, 16, 0, 0, 0),
                       (5, 0, None, None, 3), (1, 1, 0, 0, 0)]
    assert [answer["results"]["DECIMALS_FOUND"] for answer in answers] == [0, 0, 0, 0, 2]
    assert [answers[3]["results"][name] for name in ("LINES", "AREAS", "VERTICES")] == [0, 5, 34]


def test_progress_and_cancel(runs: Any, tmp_path: Path) -> None:
    left, right = (str(path) for path in made_layers.write_pair(tmp_path, "rectangles", 5000))
    output = tmp_path / "never.gpkg"
    request = ours(left, right, "overlaps", OUTPUT=str(output))
    whole, *cancelled = runs([ours(left, right, "overlaps"), {**request, "cancel_at": 10},
                              {**request, "cancel_at": 40}, {**request, "cancel_at": 60}])
    assert len(set(whole["progress"])) > 10
    assert whole["progress"] == sorted(whole["progress"]) and max(whole["progress"]) <= 100
    assert [answer["error"] for answer in cancelled] == ["cancelled"] * 3
    assert not output.exists()


def test_no_part_of_an_output_stays(runs: Any, tmp_path: Path) -> None:
    """Where the run is cancelled while it is written, or where it can't be written, such as a line
    among points."""
    left, right = (str(path) for path in made_layers.write_pair(tmp_path, "rectangles", 5000))
    mixed = layer(tmp_path / "mixed.csv", {"a": "POINT (1 1)", "b": "LINESTRING (1 1, 20 1)"})
    folder = tmp_path / "outputs"
    folder.mkdir()
    package, shapes = ({"OUTPUT": str(folder / f"part.{form}")} for form in ("gpkg", "shp"))
    *cancelled, failed = runs([
        {**ours(left, right, "overlaps", **package), "cancel_at": 90},
        {**ours(left, right, "overlaps", **shapes), "cancel_at": 90},
        ours(mixed, town("parcels"), "intersects", **shapes)])
    for answer in cancelled:
        assert answer["error"] == "cancelled" and max(answer["progress"]) >= 90
    assert "the output OUTPUT could not be written" in failed["error"]
    assert list(folder.iterdir()) == []


def test_the_program_is_named_where_it_is_missing(runs: Any) -> None:
    request = {**ours(town("parcels"), town("roads"), "touches"), "program": "/nowhere/rjoin"}
    (answer,) = runs([request])
    assert "RJOIN is '/nowhere/rjoin'" in answer["error"]


def test_a_failing_program_makes_no_output(runs: Any, tmp_path: Path) -> None:
    """One that ends with a fault after a part of its answer."""
    program = stand_in(tmp_path / "rjoin", '[ "$2" = /dev/null ] && exit 1\n'
                       "echo left,right,matrix\necho 00,00,2FFF1FFF2\n"
                       "echo rjoin: no memory >&2\nexit 1")
    output = tmp_path / "never.gpkg"
    (answer,) = runs([{**ours(town("parcels"), town("roads"), "touches", OUTPUT=str(output)),
                       "program": str(program)}])
    assert answer["error"] == "rjoin: no memory" and not output.exists()


def test_a_program_that_is_cancelled_ends(tmp_path: Path, monkeypatch: pytest.MonkeyPatch) -> None:
    """One that has told its number, and would go on for long."""
    program, number = module("program"), tmp_path / "number"
    stand_in(tmp_path / "rjoin",
             f"echo $$ >{number}.new; mv {number}.new {number}\nexec sleep 100")
    monkeypatch.setenv("RJOIN", str(tmp_path / "rjoin"))
    with pytest.raises(program.Cancelled):
        program.run(["join"], tmp_path / "report", number.exists)
    with pytest.raises(ProcessLookupError):
        os.kill(int(number.read_text(encoding="utf-8")), 0)


def test_the_number_of_threads_is_given_to_the_program(runs: Any, tmp_path: Path) -> None:
    words = tmp_path / "words"
    program = stand_in(tmp_path / "rjoin", f'echo "$@" >> {words}')
    (answer,) = runs([{**ours(town("parcels"), town("roads"), "touches", WORKERS=3),
                       "program": str(program)}])
    assert "wrote no report" in answer["error"]
    assert words.read_text(encoding="utf-8").splitlines()[-1].endswith("--workers 3")


def test_wrong_masks_are_refused(runs: Any) -> None:
    answers = runs([ours(town("parcels"), town("roads"), "touches", MASK=mask)
                    for mask in ("TTT", "T*F**F**x", "--help")])
    assert "not a name or a mask" in answers[0]["error"]
    assert "bad letter at place 8" in answers[1]["error"]
    assert "not a name or a mask" in answers[2]["error"]
