"""Empty geometries of every type, as Shapely makes them and reads them, in every call.

Those that Shapely 1.8 makes without arguments are one and the same collection for GEOS.
"""
from __future__ import annotations

import json
from pathlib import Path
from typing import Any, Callable, Dict, List

import pytest

import rjoin
from rjoin.command import main as run

geopandas = pytest.importorskip("geopandas")
wkt = pytest.importorskip("shapely.wkt")
shapely_geometry = pytest.importorskip("shapely.geometry")

TYPES = ("Point", "LineString", "LinearRing", "Polygon", "MultiPoint", "MultiLineString",
         "MultiPolygon", "GeometryCollection")
TEXTS = (*(f"{name.upper()} EMPTY" for name in TYPES), "MULTIPOINT (EMPTY)",
         "MULTILINESTRING (EMPTY, EMPTY)", "MULTIPOLYGON (EMPTY)",
         "GEOMETRYCOLLECTION (POINT EMPTY)", "GEOMETRYCOLLECTION (LINESTRING EMPTY, POINT EMPTY)")
POINT = shapely_geometry.Point(1, 2)
TRIANGLE = shapely_geometry.Polygon([(0, 0), (9, 0), (0, 9)])
# What stands before the empty geometry: nothing, what is read by its points, and what is not.
BEFORE = ((), (POINT, TRIANGLE), (POINT, shapely_geometry.MultiPoint([(1, 2), (3, 4)])))
Call = Callable[..., Any]

LAYER_CALLS: Dict[str, Call] = {
    "pairs": lambda layer, **rules: rjoin.pairs(layer, [POINT], **rules),
    "pairs turned": lambda layer, **rules: rjoin.pairs([POINT], layer, **rules),
    "window": lambda layer, **rules: rjoin.window(layer, POINT, **rules),
    "stats": lambda layer, **rules: rjoin.stats(layer, **rules),
    "draw": lambda layer, **rules: rjoin.draw(layer, [POINT], **rules),
}
SINGLE_CALLS: Dict[str, Call] = {
    "window": lambda one: rjoin.window([POINT], one),
    "first": lambda one: rjoin.relate(one, POINT),
    "second": lambda one: rjoin.relate(POINT, one),
}


def made(name: str) -> Any:
    """The empty geometry of a type, made without arguments, or that of a text."""
    return getattr(shapely_geometry, name)() if name in TYPES else wkt.loads(name)


def framed(geometries: Any) -> Any:
    return geopandas.GeoDataFrame(geometry=list(geometries))


def stands_in_frames(name: str) -> bool:
    """Whether GeoPandas makes a frame of it: 0.12 with Shapely 1.8 fails at an empty multipoint."""
    try:
        return len(framed([made(name)])) == 1
    except ValueError:
        return False


@pytest.mark.parametrize("name", (*TYPES, *TEXTS))
@pytest.mark.filterwarnings("ignore::rjoin.EnvelopeWarning")
def test_empty_geometries_of_layers_are_refused_or_left_out(name: str) -> None:
    one = made(name)
    for before in BEFORE:
        for call in LAYER_CALLS.values():
            for other in ("error", "envelope"):
                with pytest.raises(rjoin.InputError, match="the geometry is empty$") as caught:
                    call([*before, one, one], other=other)
                assert caught.value.row == len(before) + 1
                with pytest.warns(rjoin.LeftOutWarning, match="^2 features.*is empty$"):
                    call([*before, one, one], other=other, missing="skip")
            with pytest.raises(rjoin.ArgumentError, match="missing must be"):
                call([one], missing="keep")
        with pytest.warns(rjoin.LeftOutWarning):
            found = rjoin.pairs([*before, one], [POINT, one], missing="skip")
        assert found["left"].tolist() == list(range(len(before)))


@pytest.mark.parametrize("name", (*TYPES, *TEXTS))
def test_empty_geometries_that_stand_alone_are_refused(name: str) -> None:
    text = f"{name.upper()} EMPTY" if name in TYPES else name
    for side, call in SINGLE_CALLS.items():
        for given in (made(name), text)[:1 if "LINEARRING" in text else 2]:
            with pytest.raises(rjoin.InputError, match=f"^{side}: the geometry is empty$"):
                call(given)


def test_what_shapely_adapts_is_not_empty() -> None:
    """Its adapters make their geometry when they are asked for it."""
    adapted = getattr(shapely_geometry, "asShape", None)
    if adapted is None:
        pytest.skip("this Shapely has no adapters")
    with pytest.warns(FutureWarning):
        layer = [adapted({"type": "Point", "coordinates": (1, 2)}),
                 adapted({"type": "Polygon", "coordinates": [[(0, 0), (9, 0), (0, 9)]]})]
    assert rjoin.window(layer, POINT).tolist() == [0, 1]


JOINS: Dict[str, Call] = {
    "sjoin": rjoin.sjoin,
    "dwithin": lambda left, right, **more: rjoin.sjoin(left, right, "dwithin", distance=0, **more),
    "nearest": rjoin.sjoin_nearest,
    "exclusive": lambda left, right, **more: rjoin.sjoin_nearest(left, right, exclusive=True,
                                                                 **more),
}


@pytest.mark.parametrize("name", [name for name in TYPES if stands_in_frames(name)])
@pytest.mark.parametrize("call", JOINS)
def test_empty_geometries_of_frames_are_refused_left_out_or_kept(name: str, call: str) -> None:
    """On the side whose rows the result has, and on the other one."""
    join, one, partner = JOINS[call], made(name), framed([shapely_geometry.Point(0, 0), POINT])
    for before in BEFORE[:2]:
        frame = framed([*before, one])
        for how in ("inner", "left", "right"):
            sides = [partner, frame] if how == "right" else [frame, partner]
            with pytest.raises(rjoin.InputError, match="the geometry is empty$"):
                join(*sides, how=how)
            kept = join(*sides, how=how, missing="keep")
            assert (len(before) in kept.index) == (how != "inner")
            with pytest.warns(rjoin.LeftOutWarning, match="^1 features.*is empty$"):
                skipped = join(*sides, how=how, missing="skip")
            assert set(skipped.index) == set(kept.index) - {len(before)}
            assert len(join(*sides[::-1], how=how, missing="keep")) >= len(before)
    assert len(join(frame.iloc[-1:], frame.iloc[-1:], missing="keep")) == 0


def geometry_of(name: str) -> Any:
    """An empty geometry in GeoJSON."""
    members = "geometries" if name == "GeometryCollection" else "coordinates"
    return {"type": name, members: []}


@pytest.mark.parametrize("name", (None, *TYPES[:2], *TYPES[3:]))
def test_the_command_leaves_out_empty_geometries_of_files(name: Any, tmp_path: Path,
                                                          capsys: Any) -> None:
    """Of GeoJSON, and of texts."""
    features: List[Any] = [
        {"type": "Feature", "properties": {"n": 7}, "geometry": geometry}
        for geometry in (name and geometry_of(name), {"type": "Point", "coordinates": [1, 2]})]
    collection = {"type": "FeatureCollection", "features": features}
    (tmp_path / "layer.geojson").write_text(json.dumps(collection))
    text = f"{name.upper()} EMPTY" if name else "POINT EMPTY"
    (tmp_path / "layer.csv").write_text(f"id,wkt\n0,{text}\n1,POINT (1 2)\n")
    for file in ("layer.geojson", "layer.csv"):
        words = [str(tmp_path / file)] * 2
        words += ["--relation", "equals", "--attributes", "--geometry", "-o"]
        assert run([*words, str(tmp_path / "refused.geojson")]) == 1
        assert "left: row 1 " in capsys.readouterr().err
        output = tmp_path / f"{file}.out.geojson"
        assert run([*words, str(output), "--missing", "skip"]) == 0
        told = [line for line in capsys.readouterr().err.splitlines() if "left out" in line]
        assert [line.split(" (")[0] for line in told] == [
            f"rjoin: left out: {side}: row 1" for side in ("left", "right")]
        rows = geopandas.read_file(output)
        assert rows[["left", "right"]].astype(int).values.tolist() == [[1, 1]]
        assert rows.geometry[0].equals(POINT)
