"""sjoin beside geopandas.sjoin and Shapely."""
from __future__ import annotations

import itertools
import warnings
from pathlib import Path
from typing import Any, Callable, Dict, List, Tuple

import numpy as np
import pandas
import pytest
from town import TOWN

import rjoin
from rjoin.command import main as run

geopandas = pytest.importorskip("geopandas")
shapely_geometry = pytest.importorskip("shapely.geometry")
shapely_prepared = pytest.importorskip("shapely.prepared")
testing = pytest.importorskip("geopandas.testing")

# GeoPandas 0.12 lists covered_by too, and fails at it.
PREDICATES = ("intersects", "touches", "crosses", "within", "contains", "overlaps", "covers",
              "contains_properly")
LAYERS = ("parcels", "roads", "stations", "zones")
INDICES: Dict[str, Callable[[int], Any]] = {
    "numbers": lambda count: pandas.RangeIndex(10, 10 + count),
    "texts": lambda count: pandas.Index([f"key {n}" for n in range(count)], name="key"),
    "doubles": lambda count: pandas.Index([n // 2 for n in range(count)]),
    "floats": lambda count: pandas.Index([n / 7 for n in range(count)]),
    "dates": lambda count: pandas.date_range("2026-01-01", periods=count, name="day"),
    "levels": lambda count: pandas.MultiIndex.from_arrays(
        [[n % 3 for n in range(count)], [f"r{n}" for n in range(count)]], names=["block", None]),
}


HOW = ("inner", "left", "right")


def ordered(frame: Any, columns: List[str]) -> Any:
    """The rows in an order of their own; GeoPandas leaves it open."""
    keys = frame[columns].astype(str).agg("|".join, axis=1).to_numpy()
    return frame.iloc[np.argsort(keys, kind="stable")]


def same(ours: Any, theirs: Any) -> None:
    """The same frames, but for the order of rows."""
    assert list(ours.columns) == list(theirs.columns)
    keys = [name for name in ours.columns if name != "geometry"]
    testing.assert_geodataframe_equal(ordered(ours, keys), ordered(theirs, keys))


@pytest.mark.parametrize("predicate", PREDICATES)
def test_each_pair_of_layers_is_joined_as_geopandas_does(town: Any, predicate: str) -> None:
    for left, right in itertools.product(LAYERS, repeat=2):
        theirs = geopandas.sjoin(town[left], town[right], how="left", predicate=predicate)
        ours = rjoin.sjoin(town[left], town[right], predicate, "left")
        if theirs["index_right"].notna().any():
            same(ours, theirs)
        else:
            assert ours["index_right"].isna().all() and len(ours) == len(theirs)


@pytest.mark.parametrize("relation", (*PREDICATES, "covered_by", "equals", "T*F**F***",
                                      "****1****"))
def test_pairs_and_letters_are_those_of_shapely(town: Any, relation: str) -> None:
    for left, right in itertools.product(LAYERS, repeat=2):
        ours = rjoin.sjoin(town[left], town[right], relation, matrix=True)
        pairs = list(zip(ours.index, ours["index_right"], ours["matrix"]))
        assert pairs == expected(town[left].geometry, town[right].geometry, relation)


def expected(lefts: Any, rights: Any, relation: str) -> List[Tuple[int, int, str]]:
    def holds(one: Any, other: Any) -> bool:
        if "*" in relation:
            return bool(one.relate_pattern(other, relation))
        if relation == "contains_properly":  # which Shapely 1.8 has of prepared geometries alone
            return bool(shapely_prepared.prep(one).contains_properly(other))
        return bool(getattr(one, relation)(other))

    return [(place, where, one.relate(other)) for place, one in lefts.items()
            for where, other in rights.items() if holds(one, other)]


@pytest.mark.parametrize("right_index", INDICES)
@pytest.mark.parametrize("left_index", INDICES)
@pytest.mark.parametrize("how", HOW)
def test_indices_of_all_kinds_are_kept(town: Any, left_index: str, right_index: str,
                                       how: str) -> None:
    left, right = town["parcels"].copy(), town["zones"].copy()
    left.index = INDICES[left_index](len(left))
    right.index = INDICES[right_index](len(right))
    same(rjoin.sjoin(left, right, "within", how), geopandas.sjoin(left, right, how, "within"))


def test_suffixes_and_columns_are_those_of_geopandas(town: Any) -> None:
    left = town["parcels"].assign(area=2.5, note="n")
    right = town["roads"].assign(area=1, kind=pandas.Categorical(["a", "b"] * 8))
    right = right.rename_geometry("line")
    for how, geometry in zip(HOW, ("geometry", "geometry", "line")):
        ours = rjoin.sjoin(left, right, "touches", how, lsuffix="parcel", rsuffix="road")
        same(ours, geopandas.sjoin(left, right, how, "touches", lsuffix="parcel", rsuffix="road"))
        assert ours.crs == left.crs and ours.geometry.name == geometry


def test_the_geometry_of_a_result_keeps_its_name(town: Any) -> None:
    """Beside a column of the other frame that has this name, as in GeoPandas 1."""
    areas = town["parcels"]
    places = town["stations"].rename_geometry("place").assign(geometry="a text")
    names = ["id_left", "geometry", "index_right", "id_right", "geometry_right"]
    for how in ("inner", "left"):
        ours = rjoin.sjoin(areas, places, "contains", how)
        assert list(ours.columns) == names and ours.geometry.name == "geometry"
        assert set(ours["geometry_right"].dropna()) == {"a text"}
        assert ours.geometry.tolist() == areas.geometry.loc[ours.index].tolist()
    ours = rjoin.sjoin(places, areas, "within", "right")
    assert list(ours.columns) == ["index_left", "id_left", "geometry_left", "id_right", "geometry"]
    assert ours.geometry.tolist() == areas.geometry.loc[ours.index].tolist()


def test_a_right_join_has_the_order_of_the_right_frame(town: Any) -> None:
    left, right = town["roads"], town["parcels"]
    pairs = rjoin.pairs(left, right, "crosses", ids="position")[["right", "left"]]
    ours = rjoin.sjoin(left, right, "crosses", "right", matrix=True)
    alone = sorted(set(range(len(right))) - set(pairs["right"]))
    expected = sorted([*map(tuple, pairs.to_numpy().tolist()), *((place, -1) for place in alone)])
    assert list(zip(ours.index, ours["index_left"].fillna(-1))) == expected and alone
    assert (ours["matrix"].isna() == ours["index_left"].isna()).all()
    assert list(ours.columns) == ["index_left", "id_left", "id_right", "geometry", "matrix"]


@pytest.mark.parametrize("how", HOW)
def test_columns_of_indices_have_their_names_from_geopandas_1_on(monkeypatch: Any,
                                                                 how: str) -> None:
    """The columns and the names of the index are written by hand, after its rules."""
    monkeypatch.setattr(geopandas, "__version__", "1.0.1")
    points = geopandas.GeoSeries.from_wkt(["POINT (1 1)", "POINT (2 2)"])

    def frame(names: Any, **columns: Any) -> Any:
        levels = [[1, 2], ["a", "b"]][:len(names)]
        index = (pandas.MultiIndex.from_arrays(levels, names=names) if len(names) > 1
                 else pandas.Index(levels[0], name=names[0]))
        return geopandas.GeoDataFrame({**columns, "geometry": points.to_numpy()}, index=index)

    cases = (
        (frame(["one"]), frame(["two"]), ["two"], ["one"], ["one"], ["two"]),
        (frame(["key"]), frame(["key"]), ["key_right"], ["key_left"], ["key_left"], ["key_right"]),
        (frame([None]), frame(["two", None]), ["two", "index_right1"], ["index_left"], [None],
         ["two", None]),
        (frame([None], key=7), frame(["key"]), ["key_left", "key_right"],
         ["index_left", "key_left"], [None], ["key_right"]),
    )
    for left, right, inner, from_right, left_names, right_names in cases:
        ours = rjoin.sjoin(left, right, how=how)
        names = [name for name in ours.columns if name != "geometry"]
        assert names == (from_right if how == "right" else inner)
        assert list(ours.index.names) == (right_names if how == "right" else left_names)
        assert len(ours) == 2 and ours.geometry.name == "geometry"
    with pytest.raises(ValueError, match="'index_right'.* cannot be a column name"):
        rjoin.sjoin(frame([None], index_right=1), frame([None]), how=how)
    assert "index_right" in rjoin.sjoin(frame([None], index_right=1), frame(["two"])).columns


def test_rows_are_joined_where_columns_are_equal_too(town: Any) -> None:
    numbers = np.arange(len(town["parcels"]))
    left = town["parcels"].assign(block=numbers % 3, side=np.array(list("abba"))[numbers % 4])
    right = town["zones"].assign(block=1, side="a")
    both = rjoin.sjoin(left, right, on_attribute=["block", "side"])
    plain = rjoin.sjoin(left, right)
    kept = plain[(plain["block_left"] == plain["block_right"])
                 & (plain["side_left"] == plain["side_right"])]
    assert both.index.tolist() == kept.index.tolist()
    testing.assert_geodataframe_equal(rjoin.sjoin(left, right, on_attribute=("block", "side")),
                                      both)
    assert "block_right" not in both.columns and "block" in both.columns
    lettered = rjoin.sjoin(left, right, on_attribute="block", matrix=True)
    letters = [left.geometry[one].relate(right.geometry[other])
               for one, other in zip(lettered.index, lettered["index_right"])]
    assert lettered["matrix"].tolist() == letters and len(set(letters)) > 1
    missing = left.assign(block=np.nan), right.assign(block=np.nan)
    assert rjoin.sjoin(*missing, on_attribute="block").empty
    alone = rjoin.sjoin(*missing, how="right", on_attribute="block")
    assert alone.index.tolist() == right.index.tolist() and alone["index_left"].isna().all()
    for wrong, told in (("other", "both of"), ("note", "the right"), ("geometry", "geometry")):
        with pytest.raises(ValueError, match=told):
            rjoin.sjoin(left.assign(note=1), right, on_attribute=wrong)


def test_empty_and_missing_geometries_are_kept_without_a_partner(town: Any) -> None:
    lacking = geopandas.GeoDataFrame(
        {"id": ["none", "empty"]}, index=[100, 101], crs=town["roads"].crs,
        geometry=[None, shapely_geometry.Point()])
    left, right = (pandas.concat([town[name], lacking]) for name in ("parcels", "roads"))
    for how in HOW:
        with warnings.catch_warnings():
            warnings.simplefilter("error", rjoin.LeftOutWarning)
            ours = rjoin.sjoin(left, right, how=how, missing="keep", incomplete="mark"
                               if how != "inner" else "error")
        theirs = geopandas.sjoin(left, right, how=how)
        if how != "inner":
            assert ours.pop("known").all()
        same(ours, theirs)
    assert (rjoin.sjoin(lacking, right, how="left", missing="keep")["index_right"].isna()).all()
    with pytest.raises(rjoin.ArgumentError, match="missing must be 'error' or 'skip'"):
        rjoin.pairs(left, right, missing="keep")


def test_the_old_name_of_the_predicate_is_taken_with_a_warning(town: Any) -> None:
    left, right = town["roads"], town["parcels"]
    with pytest.warns(FutureWarning, match="`op` parameter is deprecated") as caught:
        ours = rjoin.sjoin(left, right, op="crosses")
    assert caught[0].filename == __file__
    testing.assert_geodataframe_equal(ours, rjoin.sjoin(left, right, "crosses"))
    with pytest.warns(UserWarning, match="'touches'.*`predicate` will be overridden"):
        ours = rjoin.sjoin(left, right, "touches", op="crosses")
    testing.assert_geodataframe_equal(ours, rjoin.sjoin(left, right, "crosses"))


def test_names_that_cannot_stand_beside_each_other_are_refused(town: Any) -> None:
    left, right = town["parcels"], town["roads"]
    for wrong in (left.assign(index_right=1), left.assign(index_left=1)):
        with pytest.raises(ValueError, match="index_left"):
            rjoin.sjoin(wrong, right)
    with pytest.raises(rjoin.ArgumentError, match="matrix"):
        rjoin.sjoin(left.assign(matrix=1), right, matrix=True)
    for how in ("inner", "left"):
        with pytest.raises(rjoin.ArgumentError, match="'id_right' of the geometries"):
            rjoin.sjoin(left.rename_geometry("id_right"), right, "touches", how)


@pytest.mark.parametrize("how", HOW)
def test_two_columns_may_have_one_name(town: Any, how: str) -> None:
    """By a suffix, or since a frame has two; as GeoPandas has them, with the warning of pandas."""
    left, right = town["parcels"], town["zones"]
    twice = pandas.concat([right, right[["id"]].assign(id="more")], axis=1)
    for one, other in ((left.assign(id_right=1), right), (left.drop(columns="id"), twice)):
        ours, theirs = rjoin.sjoin(one, other, "within", how), geopandas.sjoin(
            one, other, how, "within")
        assert list(ours.columns) == list(theirs.columns)
        assert ours.columns.has_duplicates
        for frame in (ours, theirs):
            frame.columns = [f"{name} {place}" if name != "geometry" else name
                             for place, name in enumerate(frame.columns)]
        same(ours, theirs)


@pytest.mark.parametrize("how", HOW)
def test_without_a_predicate_envelopes_are_joined(town: Any, how: str) -> None:
    """Also those of collections, and with no word of envelopes, unless these are asked for."""
    both = shapely_geometry.GeometryCollection([shapely_geometry.Point(100, 100),
                                                shapely_geometry.LineString([(5, 5), (40, 90)])])
    for left, right in itertools.product(LAYERS, repeat=2):
        more = geopandas.GeoDataFrame({"id": ["both"]}, geometry=[both], crs=town[left].crs)
        one, other = pandas.concat([town[left], more], ignore_index=True), town[right]
        with warnings.catch_warnings():
            warnings.simplefilter("error", rjoin.EnvelopeWarning)
            ours = rjoin.sjoin(one, other, None, how)
        theirs = geopandas.sjoin(one, other, how, predicate=None)
        if len(theirs) and theirs[f"index_{'left' if how == 'right' else 'right'}"].notna().any():
            same(ours, theirs)
    with pytest.warns(rjoin.EnvelopeWarning):
        marked = rjoin.sjoin(one, other, None, how, other="envelope")
    assert list(marked.columns) == [*ours.columns, "exact"]
    with pytest.raises(rjoin.ArgumentError, match="None has no letters"):
        rjoin.sjoin(one, other, None, how, matrix=True)


def test_rows_without_a_partner_have_no_letters(town: Any) -> None:
    ours = rjoin.sjoin(town["parcels"], town["stations"], "contains", "left", matrix=True)
    assert (ours["matrix"].isna() == ours["index_right"].isna()).all()
    assert ours["matrix"].isna().any() and ours["matrix"].notna().any()


@pytest.mark.parametrize("how", HOW)
def test_a_join_without_any_pair_has_its_columns(town: Any, how: str) -> None:
    """Whose rows have no letters and no distances, and are all of the side that is kept."""
    far = town["stations"].set_geometry(town["stations"].translate(10_000, 0))
    kept = {"inner": 0, "left": len(town["parcels"]), "right": len(far)}[how]
    lettered = rjoin.sjoin(town["parcels"], far, "within", how, matrix=True)
    near = rjoin.sjoin_nearest(town["parcels"], far, how, 5, distance_col="far")
    for joined, name in ((lettered, "matrix"), (near, "far")):
        assert len(joined) == kept and joined[name].isna().all()
        assert joined.columns[-1] == name


def test_empty_frames_have_no_pairs(town: Any) -> None:
    empty = town["roads"].iloc[:0]
    assert len(rjoin.sjoin(town["parcels"], empty)) == 0
    assert len(rjoin.sjoin(empty, town["parcels"], how="left")) == 0
    kept = rjoin.sjoin(town["parcels"], empty, how="left")
    assert len(kept) == len(town["parcels"]) and kept["index_right"].isna().all()


def test_a_warning_tells_of_two_reference_systems(town: Any) -> None:
    other = town["roads"].set_crs("EPSG:3857", allow_override=True)
    with pytest.warns(UserWarning, match="CRS mismatch") as caught:
        ours = rjoin.sjoin(town["parcels"], other)
    assert caught[0].filename == __file__ and ours.crs == town["parcels"].crs
    with warnings.catch_warnings():
        warnings.simplefilter("error", UserWarning)
        rjoin.sjoin(town["parcels"], town["roads"])
    with pytest.warns(UserWarning, match="CRS mismatch"):
        assert rjoin.sjoin(town["parcels"], other, how="right").crs == other.crs
    unknown = geopandas.GeoDataFrame(geometry=town["roads"].geometry.tolist())
    calls: Tuple[Callable[..., Any], ...] = (rjoin.sjoin, rjoin.sjoin_nearest)
    for call in calls:
        with pytest.warns(UserWarning, match="CRS mismatch"):
            call(town["parcels"], unknown)


def test_another_reference_system_is_transformed_where_that_is_asked_for(town: Any,
                                                                         tmp_path: Path) -> None:
    """The geometries of a result are those of the frames."""
    left = town["parcels"]
    right = town["zones"].to_crs("EPSG:4326")
    calls: Dict[str, Callable[..., Any]] = {
        "within": lambda **words: rjoin.sjoin(left, right, "within", **words),
        "right": lambda **words: rjoin.sjoin(left, right, "within", how="right", **words),
        "nearest": lambda **words: rjoin.sjoin_nearest(left, right, **words)}
    for name, call in calls.items():
        with warnings.catch_warnings():
            warnings.simplefilter("error", UserWarning)
            ours = call(to_crs=True)
        plain = right.to_crs(left.crs)
        other = rjoin.sjoin_nearest(left, plain, decimals="auto") if name == "nearest" else (
            rjoin.sjoin(left, plain, "within", "right" if name == "right" else "inner",
                        decimals="auto"))
        assert ours.index.tolist() == other.index.tolist() and len(ours) > 9
        assert ours.crs == (right.crs if name == "right" else left.crs)
        if name == "right":
            assert ours.geometry.tolist() == right.geometry.loc[ours.index].tolist()
        assert ours.attrs["decimals"] == other.attrs["decimals"] == 15
    right.to_file(tmp_path / "zones.gpkg", driver="GPKG")
    for layer in (right, right.geometry, tmp_path / "zones.gpkg"):
        pairs = rjoin.pairs(left, layer, "within", to_crs=True, decimals=3)
        assert pairs.attrs["decimals"] == 3 and len(pairs) > 9
    assert len(rjoin.sjoin(left, town["zones"], "within", to_crs=True, scale=2)) > 9
    for one, other in ((left, list(right.geometry)), (TOWN / "parcels.csv", right)):
        with pytest.raises(rjoin.ArgumentError, match="to_crs needs the reference system of both"):
            rjoin.pairs(one, other, to_crs=True)
    output = tmp_path / "out.csv"
    left.to_file(tmp_path / "parcels.gpkg", driver="GPKG")
    files = [str(tmp_path / "parcels.gpkg"), str(tmp_path / "zones.gpkg")]
    assert run([*files, "--relation", "within", "--to-crs", "-o", str(output)]) == 0
    assert len(pandas.read_csv(output)) == len(calls["within"](to_crs=True))


@pytest.mark.parametrize("predicate", ("disjoint", "coveredby", "coveredBy", "inner",
                                       "FF*FF****X", ""))
def test_other_predicates_are_refused_by_name(town: Any, predicate: str) -> None:
    with pytest.raises(rjoin.ArgumentError, match=f"'{predicate}'".replace("*", r"\*")):
        rjoin.sjoin(town["parcels"], town["roads"], predicate)


def test_a_mask_that_disjoint_features_fit_is_refused(town: Any) -> None:
    with pytest.raises(rjoin.ArgumentError, match="disjoint"):
        rjoin.sjoin(town["parcels"], town["roads"], "FF*FF****")


def test_wrong_arguments_are_refused_before_anything_is_read(town: Any) -> None:
    left, right = town["parcels"], town["roads"]
    wrong: Tuple[Tuple[str, Any], ...] = (
        ("scale", 16), ("scale", -1), ("scale", 1.5), ("scale", "2"), ("workers", 0),
        ("workers", 17), ("workers", True), ("workers", "AUTO"), ("workers", "2"),
        ("how", "outer"), ("other", "box"), ("missing", "envelope"))
    for name, value in wrong:
        with pytest.raises(rjoin.ArgumentError, match=name):
            rjoin.sjoin(left, right, **{name: value})
    with pytest.raises(ValueError, match="GeoDataFrame"):
        rjoin.sjoin(left.geometry, right)
    calls: Tuple[Callable[..., Any], ...] = (rjoin.sjoin, rjoin.pairs, rjoin.draw)
    for call, value in itertools.product(calls, (None, ["intersects"])):
        if call is not rjoin.sjoin or value is not None:
            with pytest.raises(rjoin.ArgumentError, match="relation must be a text"):
                call(left, right, value)


def test_many_boxes_are_joined_as_geopandas_does() -> None:
    """Points, segments and rectangles on a coarse grid with two decimals, and below 0."""
    left, right = mixture(1, 800), mixture(2, 800)
    for predicate in PREDICATES:
        theirs = geopandas.sjoin(left, right, predicate=predicate)
        ours = rjoin.sjoin(left, right, predicate, workers=2)
        pairs = sorted(zip(theirs.index, theirs["index_right"]))
        assert pairs and list(zip(ours.index, ours["index_right"])) == pairs


def mixture(seed: int, count: int) -> Any:
    random = np.random.default_rng(seed)
    lows = random.integers(-50, 50, (count, 2))
    highs = lows + random.integers(0, 5, (count, 2))
    return geopandas.GeoDataFrame(geometry=[
        shape(*corners) for corners in (np.hstack([lows, highs]) / 4).tolist()])


def shape(x1: float, y1: float, x2: float, y2: float) -> Any:
    if (x1, y1) == (x2, y2):
        return shapely_geometry.Point(x1, y1)
    if x1 == x2 or y1 == y2:
        return shapely_geometry.LineString([(x1, y1), (x2, y2)])
    return shapely_geometry.box(x1, y1, x2, y2)
