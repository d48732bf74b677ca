"""The KLayout package without a display, beside KLayout's own answers for each pair of shapes."""
from __future__ import annotations

import json
import math
import os
import re
import shutil
import subprocess
import xml.etree.ElementTree as ElementTree
from collections import Counter
from decimal import Decimal
from pathlib import Path
from typing import Any, Callable, Dict, Iterable, List, NamedTuple, Sequence, Tuple

import pytest

from town import ROOT, stand_in

PACKAGE = ROOT / "integrations/klayout"
DRIVER = Path(__file__).with_name("klayout_driver.py")
ENVIRONMENT = {"QT_QPA_PLATFORM": "offscreen", "PYTHONDONTWRITEBYTECODE": "1"}
Bounds = Tuple[float, ...]

COMPARED = [("chip", "1/0", "2/0", relation)
            for relation in ("intersects", "touches", "overlaps", "within")] + [
    ("town", "1/0", "4/0", "overlaps"), ("town", "1/0", "1/0", "touches"),
    ("town", "1/0", "1/0", "equals"), ("town", "3/0", "1/0", "intersects"),
    ("town", "4/0", "1/0", "covers"), ("town", "1/0", "4/0", "covered_by"),
    ("town", "4/0", "1/0", "contains_properly")]

POINTS_ALONE = "FF2F01212"
ANGLED = ("intersects", "touches", "within", "covers", "overlaps", "T********")

FAULTS = {
    "7/0 overlaps 2/0": "the layout has no layer '7/0'",
    "1/x overlaps 2/0": "the layout has no layer '1/x'",
    "1/0 overlaps M(2/0)": "the layout has no layer 'M(2/0)'",
    "1/0 disjoint 2/0": "disjoint features may fit",
    "1/0 TTT 2/0": "not a name or a mask",
    "1/0 overlaps 2/0 drop": "others must be one of error, envelope, skip",
}


METAL = [{"layout": "metal", "left": left, "right": right, "relation": relation, "others": others,
          "merged": merged} for merged in (False, True) for left, right, relation, others in (
              ("2/0", "1/0", "within", "error"), ("1/0", "1/0", "equals", "error"),
              ("4/0", "2/0", "intersects", "error"), ("6/0", "5/0", "within", "error"),
              ("7/0", "7/0", "equals", "error"), ("8/0", "8/0", "equals", "error"))]


SPACED: List[Tuple[str, str, str, Dict[str, str]]] = [
    ("1/0", "2/0", "0.05", {}), ("1/0", "2/0", "0.051", {}), ("1/0", "1/0", "0.05", {}),
    ("4/0", "4/0", "0.05", {}), ("4/0", "4/0", "0.051", {}), ("3/0", "3/0", "0.04", {}),
    ("4/0", "4/0", "0.0504", {}), ("4/0", "4/0", "0.0505", {}),
    ("3/0", "3/0", "0.04", {"mode": "cell"})]
SPACES: List[Dict[str, Any]] = [
    {"layout": "spaced", "left": left, "right": right, "space": space, "asked": True, **more}
    for left, right, space, more in SPACED]

# Database units that files of one of the two formats hold with an error.
UNITS = ("0.001", "0.0005", "0.0001", "0.00025", "0.002")
FORMATS = ("gds", "oas")
RULED = [{"layout": f"{unit}.{form}", "left": "1/0", "right": right,
          "space": f"{50 * Decimal(unit):f}"}
         for unit in UNITS for form in FORMATS for right in ("1/0", "2/0")]


# Layers of large numbers, and the name of one of them.
FAR = "it's \\ far"
WIDE: List[Dict[str, Any]] = [
    {"layout": "wide", "left": FAR, "right": FAR, "relation": "intersects", "asked": True,
     "merged": merged} for merged in (False, True)] + [
    {"layout": "wide", "left": left, "right": left, "space": space, "merged": True}
    for left, space in ((FAR, "0.031"), (FAR, "0.03"), ("1/1", "5000"))] + [
    {"layout": "wide", "left": left, "right": "2/1", "relation": "contains_properly"}
    for left in ("2/0", "3/0", "4/0")]

# Without the matrices that the others sort their pairs by.
WITHOUT_MATRICES: List[Dict[str, Any]] = [
    {"layout": layout, "left": "1/0", "right": "2/0", "relation": relation, "matrices": False}
    for layout, relation in (("chip", "overlaps"), ("angled", "T********"))]


def klayout_run(words: List[str], variables: Dict[str, str], **environment: str
                ) -> subprocess.CompletedProcess[str]:
    """Runs KLayout without a display."""
    given = [word for name, value in variables.items() for word in ("-rd", f"{name}={value}")]
    return subprocess.run(["klayout", *words, *given], capture_output=True, text=True, check=False,
                          env={**os.environ, **ENVIRONMENT, **environment},
                          stdin=subprocess.DEVNULL, timeout=600)


@pytest.fixture(scope="session")
def klayout(program: Path) -> Any:
    """Runs a script in batch mode."""
    if shutil.which("klayout") is None:
        pytest.skip("klayout isn't installed")

    def run(script: Path, **variables: str) -> subprocess.CompletedProcess[str]:
        return klayout_run(["-b", "-r", str(script)], variables)
    return run


@pytest.fixture(scope="session")
def town(klayout: Any, tmp_path_factory: pytest.TempPathFactory) -> Path:
    """The town as a layout."""
    path = tmp_path_factory.mktemp("town") / "town.oas"
    ended = klayout(PACKAGE / "town.py", output=str(path))
    assert ended.returncode == 0, ended.stderr
    return Path(path)


@pytest.fixture(scope="session")
def joined(klayout: Any, town: Path, tmp_path_factory: pytest.TempPathFactory) -> Dict[str, Any]:
    """What one KLayout answers to all joins of the tests, by the words of each."""
    folder = tmp_path_factory.mktemp("joined")
    requests = [{"layout": layout, "left": left, "right": right, "relation": relation,
                 "asked": True} for layout, left, right, relation in COMPARED]
    requests += [{"layout": "angled", "left": "1/0", "right": "2/0", "relation": relation,
                  "asked": True} for relation in ANGLED]
    requests += [{"layout": "folded", "left": "1/0", "right": "2/0",
                  "relation": "contains_properly", "merged": merged} for merged in (False, True)]
    requests += [{"layout": "others", "left": "1/0", "right": right, "relation": "contains",
                  "others": others} for right in ("2/0", "3/0")
                 for others in ("error", "skip", "envelope")]
    requests += METAL + SPACES + RULED + WIDE + WITHOUT_MATRICES
    requests += [{"layout": "angled", "left": "1/0", "right": "2/0", "space": "0.3", "asked": True},
                 {"layout": "metal", "left": "1/0", "right": "2/0", "relation": "contains",
                  "mode": "cell"},
                 {"layout": "spaced", "left": "1/0", "right": "2/0", "space": "0.0004"},
                 {"layout": "nested", "left": "1/0", "right": "1/0", "space": "0.04",
                  "mode": "cell"},
                 {"layout": "others", "left": "3/0", "right": "1/0", "relation": "within",
                  "others": "envelope", "merged": True}]
    for words in FAULTS:
        left, relation, right, *others = words.split()
        requests.append({"layout": "chip", "left": left, "right": right, "relation": relation,
                         "others": others[0] if others else "error"})
    (folder / "requests").write_text(json.dumps(requests), encoding="utf-8")
    ended = klayout(DRIVER, folder=str(folder), town_file=str(town),
                    package=str(PACKAGE / "python"))
    assert ended.returncode == 0, ended.stderr
    answers = json.loads((folder / "answers").read_text(encoding="utf-8"))
    return {key_of(request): answer for request, answer in zip(requests, answers)}


def key_of(request: Dict[str, Any]) -> str:
    condition = request.get("relation") or f"<{request['space']}"
    words = [request["layout"], request["left"], condition, request["right"],
             request.get("others", "error"), *["merged"] * request.get("merged", False)]
    words += ["cell"] * (request.get("mode") == "cell")
    return " ".join([*words, *["alone"] * (not request.get("matrices", True))])


def numbers_of(text: str) -> List[float]:
    """The coordinates of a shape as KLayout writes it; of a path not its width and ends."""
    return [float(number) for number in re.findall(r"-?\d+(?:\.\d+)?", text.partition(")")[0])]


def bounds(text: str) -> Bounds:
    """The least and the greatest coordinates of a shape."""
    numbers = numbers_of(text)
    xs, ys = sorted(numbers[::2]), sorted(numbers[1::2])
    return xs[0], ys[0], xs[-1], ys[-1]


def corners(text: str) -> Bounds:
    """All coordinates of a shape, in order, so that it doesn't matter where a ring begins."""
    return tuple(sorted(numbers_of(text)))


SHAPES = ("box:", "edge:", "polygon:", "path:")
MARKER, DISTANCE = "edge-pair: ", "text: 'distance: "
Point = Tuple[float, float]
Side = Tuple[Point, Point]
# The digits of a unit, in micrometres, that rounding may change.
CLOSE = 1e-6


class Narrow(NamedTuple):
    """An item of a spacing: its edges, and the distance that it tells."""

    left: Side
    right: Side
    distance: float


def side_of(text: str) -> Side:
    """An edge, by its text."""
    x1, y1, x2, y2 = numbers_of(text)
    return (x1, y1), (x2, y2)


def narrow_places(answer: Dict[str, Any]) -> List[Narrow]:
    """The items of a spacing."""
    assert answer["error"] is None, answer["error"]
    found = []
    for values in values_of(answer):
        marker = [text[len(MARKER):] for text in values if text.startswith(MARKER)]
        distance = [text[len(DISTANCE):].split()[0] for text in values if text.startswith(DISTANCE)]
        if marker:
            left, right = (side_of(f"{edge})") for edge in marker[0].strip("()").split(")/("))
            found.append(Narrow(left, right, float(distance[0])))
    return found


def sides_of(text: str) -> List[Side]:
    """The sides of a box or polygon, by its text."""
    rings = [[(numbers[place], numbers[place + 1]) for place in range(0, len(numbers), 2)]
             for numbers in map(numbers_of, text.split("/"))]
    if len(rings) == 1 and len(rings[0]) == 2:
        (x1, y1), (x2, y2) = rings[0]
        rings = [[(x1, y1), (x2, y1), (x2, y2), (x1, y2)]]
    return [side for ring in rings for side in zip(ring, ring[1:] + ring[:1])]


def apart(point: Point, side: Side) -> float:
    """The distance of a point and a segment."""
    (x, y), ((x1, y1), (x2, y2)) = point, side
    length = (x2 - x1) ** 2 + (y2 - y1) ** 2
    share = ((x - x1) * (x2 - x1) + (y - y1) * (y2 - y1)) / length if length else 0.0
    share = min(1.0, max(0.0, share))
    return math.hypot(x1 + share * (x2 - x1) - x, y1 + share * (y2 - y1) - y)


def gap(one: Iterable[Side], other: Iterable[Side]) -> float:
    """The distance of two outlines that don't cross."""
    others = list(other)
    return min(min(*(apart(end, there) for end in side), *(apart(end, side) for end in there))
               for side in one for there in others)


def is_between(item: Narrow, pair: Sequence[str]) -> bool:
    """Whether an item is at the narrow place of two shapes: its edges lie on their outlines, and
    are as far from each other, along their whole length, as the shapes are and the item tells."""
    for edge, text in zip((item.left, item.right), pair):
        if any(min(apart(end, side) for side in sides_of(text)) > CLOSE for end in edge):
            return False
    least = gap(sides_of(pair[0]), sides_of(pair[1]))
    return all(abs(found - least) < CLOSE for found in (
        item.distance, *(math.dist(*ends) for ends in zip(item.left, reversed(item.right)))))


def unmatched(answer: Dict[str, Any]) -> Tuple[List[Narrow], List[Sequence[str]]]:
    """The items that are at the narrow place of no pair that KLayout finds too close, and the pairs
    that have no item."""
    asked, alone = list(answer["asked"]), []
    for item in narrow_places(answer):
        pair = next((pair for pair in asked if is_between(item, pair)), None)
        if pair is None:
            alone.append(item)
        else:
            asked.remove(pair)
    return alone, asked


def items(path: Path, key: Callable[[str], Bounds] = bounds) -> Dict[str, List[Tuple[Bounds, ...]]]:
    """The shapes of each item of a report database, by category."""
    found: Dict[str, List[Tuple[Bounds, ...]]] = {}
    for item in ElementTree.parse(path).getroot().iter("item"):
        values = [value.text or "" for value in item.iter("value")]
        shapes = tuple(key(text.split(":", 1)[1]) for text in values if text.startswith(SHAPES))
        found.setdefault(item.findtext("category", ""), []).append(shapes)
    return found


def pairs_of(answer: Dict[str, Any], key: Callable[[str], Bounds] = bounds
             ) -> Counter[Tuple[Bounds, ...]]:
    """The pairs of shapes of a report database."""
    assert answer["error"] is None, answer["error"]
    return Counter(pair for name, pairs in items(Path(answer["database"]), key).items()
                   if not name.startswith("'left out") for pair in pairs)


@pytest.mark.parametrize("layout, left, right, relation", COMPARED)
def test_joins(joined: Dict[str, Any], layout: str, left: str, right: str, relation: str) -> None:
    """Beside KLayout's own answer for each pair of boxes, through arrays and turned cells."""
    answer = joined[f"{layout} {left} {relation} {right} error"]
    asked = Counter((bounds(one), bounds(other)) for one, other in answer["asked"])
    assert pairs_of(answer) == asked
    assert asked or relation == "within"
    for name in items(Path(answer["database"])):
        assert re.fullmatch(rf"'{left} {relation} {right}'\.'?[F012]{{9}}'?", name)


@pytest.mark.parametrize("relation", ANGLED)
def test_polygons_and_paths(joined: Dict[str, Any], relation: str) -> None:
    """Beside KLayout's interacting, overlapping and inside of the regions of each pair; KLayout
    0.28 doesn't find all of those that share nothing but points of their boundaries."""
    answer = joined[f"angled 1/0 {relation} 2/0 error"]
    asked: Counter[Tuple[Bounds, ...]] = Counter(
        (corners(one), corners(other)) for one, other in answer["asked"])
    own = pairs_of(answer, corners)
    points = items(Path(answer["database"]), corners).get(
        f"'1/0 {relation} 2/0'.{POINTS_ALONE}", [])
    assert not asked - own and not own - asked - Counter(points)
    assert (asked - Counter(points)).total() > 0


@pytest.mark.parametrize("merged", ["", " merged"])
def test_cut_lines_and_paths_that_cross_themselves(joined: Dict[str, Any], merged: str) -> None:
    """A cut line isn't a side, an area that a path covers twice is inside, and a hole stays one."""
    pairs = pairs_of(joined[f"folded 1/0 contains_properly 2/0 error{merged}"])
    assert sorted(one for one, _ in pairs) == [(0.0, 0.0, 1.0, 1.0), (0.0, 1.5, 1.05, 3.05)]
    assert (0.48, 1.98, 0.52, 2.02) in {other for _, other in pairs}
    assert (0.45, 0.45, 0.55, 0.55) not in {other for _, other in pairs}


def test_other_shapes(joined: Dict[str, Any]) -> None:
    """Shapes of all kinds within a box. A text is left out, and a path without a width isn't read
    if its ends are extended."""
    answer = joined["others 1/0 contains 2/0 error"]
    assert Counter(pair[1] for pair in pairs_of(answer).elements()) == Counter([
        (0.0, 0.0, 0.09, 0.09), (0.01, 0.04, 0.09, 0.06), (0.01, 0.05, 0.09, 0.05),
        (0.01, 0.05, 0.09, 0.09), (0.01, 0.05, 0.09, 0.05), (0.0, 0.0, 0.1, 0.1),
        (0.013, 0.02, 0.027, 0.034)])
    listed = items(Path(answer["database"]))
    assert {name: len(gone) for name, gone in listed.items() if "left out" in name} == {
        "'left out of layer 2/0'.'a text'": 1}
    assert "layer 2/0: 1 shapes left out" in Path(answer["database"]).read_text(encoding="utf-8")
    words = "others 1/0 contains 3/0"
    stopped = joined[f"{words} error"]["error"]
    reason = "a path without a width, with extended ends"
    assert f"layer 3/0, cell TOP: not a shape that rjoin reads, but {reason}" in stopped
    skipped = joined[f"{words} skip"]
    assert pairs_of(skipped).total() == 1
    assert f"'left out of layer 3/0'.'{reason}'" in items(Path(skipped["database"]))
    boxes = joined[f"{words} envelope"]
    assert pairs_of(boxes).total() == 2
    text = Path(boxes["database"]).read_text(encoding="utf-8")
    assert "pairs that rest on a bounding box: 1 of 2" in text
    assert (text.count("exact: false"), text.count("exact: true")) == (1, 1)
    assert "exact:" not in Path(skipped["database"]).read_text(encoding="utf-8")


def values_of(answer: Dict[str, Any]) -> List[List[str]]:
    """The values of each item."""
    root = ElementTree.parse(answer["database"]).getroot()
    return [[value.text or "" for value in item.iter("value")] for item in root.iter("item")]


def test_bounding_boxes_beside_merged_shapes(joined: Dict[str, Any]) -> None:
    """The box of a path, which is 10 units longer at both ends, is no shape, also on the left."""
    flags = {values[0]: values[-1]
             for values in values_of(joined["others 3/0 within 1/0 envelope merged"])}
    assert flags == {"box: (0,0.047;0.09,0.073)": "text: 'exact: false'",
                     "box: (0.02,0.02;0.03,0.03)": "text: 'exact: true'"}


def test_the_cell_of_each_shape(joined: Dict[str, Any]) -> None:
    """Of two placements; and in each cell by itself where that lies in the top cell."""
    between = [values[1:3] for values in values_of(joined["spaced 3/0 <0.04 3/0 error"])
               if values[0] == "edge-pair: (0.07,0;0.07,0.02)/(0.1,0.02;0.1,0)"]
    assert between == [["text: 'left: CELL r0 *1 0,0'", "text: 'right: CELL r0 *1 100,0'"]]
    root = ElementTree.parse(joined["nested 1/0 <0.04 1/0 error cell"]["database"]).getroot()
    assert root.findtext("cells/cell[name='CELL']/references/ref/trans") == "r90 *1 0.08,0.01"


def test_areas_that_are_cut_up(joined: Dict[str, Any]) -> None:
    """A via that lies across two pieces is within none, and within their union."""
    drawn, merged = (pairs_of(joined[f"metal 2/0 within 1/0 error{more}"])
                     for more in ("", " merged"))
    whole = (0.0, 0.0, 0.3, 0.1)
    assert drawn == Counter([((0.01, 0.01, 0.03, 0.03), (0.0, 0.0, 0.05, 0.1))])
    assert merged == Counter([((0.01, 0.01, 0.03, 0.03), whole), ((0.04, 0.04, 0.06, 0.06), whole)])
    own = pairs_of(joined["metal 1/0 equals 1/0 error merged"])
    corner, line = (0.3, 0.1, 0.4, 0.2), (0.4, 0.0, 0.4, 0.1)
    assert own == Counter((one, one) for one in (whole, corner, line))
    words = "metal 4/0 intersects 2/0"
    assert pairs_of(joined[f"{words} error"]).total() == 2
    angle = joined[f"{words} error merged"]
    assert pairs_of(angle) == Counter([((0.0, 0.0, 0.1, 0.1), (0.01, 0.01, 0.03, 0.03))])
    assert "left: TOP merged" in Path(angle["database"]).read_text(encoding="utf-8")


def test_shapes_of_little_area(joined: Dict[str, Any]) -> None:
    """A bow-tie whose sides count with opposite signs is merged like any area; one that is smaller
    than a unit where it is placed stays as it is drawn; and half a square unit is an area."""
    assert not pairs_of(joined["metal 6/0 within 5/0 error"])
    assert pairs_of(joined["metal 6/0 within 5/0 error merged"]) == Counter(
        [((-0.005, 0.045, 0.042, 0.055), (-0.01, 0.0, 0.05, 0.1))])
    for more in ("", " merged"):
        for layer, shape in (("7/0", (0.5, 0.5, 0.5, 0.5)), ("8/0", (0.0, 0.0, 0.001, 0.001))):
            assert pairs_of(joined[f"metal {layer} equals {layer} error{more}"]) == Counter(
                [(shape, shape)])


@pytest.mark.parametrize("request_", SPACES, ids=key_of)
def test_spacing(joined: Dict[str, Any], request_: Dict[str, Any]) -> None:
    """Beside KLayout's separation check of each pair of shapes: less than the space, and across
    corners too, with an edge pair at the narrow place. Of a layer with itself each pair comes
    once."""
    answer = joined[key_of(request_)]
    if request_.get("mode") == "cell":
        (item,) = narrow_places(answer)
        assert item == Narrow(((0.02, 0.0), (0.02, 0.02)), ((0.05, 0.02), (0.05, 0.0)), 0.03)
        assert len(answer["asked"]) == 3
    else:
        assert unmatched(answer) == ([], []) and answer["asked"]


def test_spacing_is_told(joined: Dict[str, Any]) -> None:
    """A pair 30, 40 and so 50 units apart isn't closer than 50 units; its distance is there."""
    assert pairs_of(joined["spaced 4/0 <0.05 4/0 error"]).total() == 2
    wider = Path(joined["spaced 4/0 <0.051 4/0 error"]["database"]).read_text(encoding="utf-8")
    assert wider.count("distance: 0.05 um") == 1 and wider.count("distance: 0.04 um") == 2
    texts = Path(joined["spaced 1/0 <0.05 1/0 error"]["database"])
    assert len(items(texts)["'left out of layer 1/0'.'a text'"]) == 1
    assert "layer 1/0: 1 shapes left out" in texts.read_text(encoding="utf-8")
    by_cell = ElementTree.parse(joined["spaced 3/0 <0.04 3/0 error cell"]["database"]).getroot()
    assert [item.findtext("cell") for item in by_cell.iter("item")] == ["CELL"]
    place = by_cell.find("cells/cell[name='CELL']/references/ref")
    assert place is not None and place.findtext("parent") == "TOP"
    assert place.findtext("trans") == "r0 *1 0,0"
    assert by_cell.findtext("categories/category/description") == (
        "shapes that share no point and are closer than 0.04 um")


@pytest.mark.parametrize("form", FORMATS)
@pytest.mark.parametrize("unit", UNITS)
def test_spacing_at_the_rule(joined: Dict[str, Any], unit: str, form: str) -> None:
    """Shapes 50 units apart aren't closer than that, in whatever unit and file."""
    def scaled(*numbers: int) -> Side:
        x1, y1, x2, y2 = (float(number * Decimal(unit)) for number in numbers)
        return (x1, y1), (x2, y2)

    space = f"{50 * Decimal(unit):f}"
    for right, edges in (("1/0", (scaled(90, 0, 90, 20), scaled(139, 20, 139, 0))),
                         ("2/0", (scaled(0, 20, 20, 20), scaled(20, 69, 0, 69)))):
        answer = joined[f"{unit}.{form} 1/0 <{space} {right} error"]
        assert [item[:2] for item in narrow_places(answer)] == [edges]
        text = Path(answer["database"]).read_text(encoding="utf-8")
        assert f"distance: {(49 * Decimal(unit)).normalize():f} um" in text


def test_spacing_of_large_numbers(joined: Dict[str, Any]) -> None:
    """On both sides of 0, and of a spacing that is far larger than the layout."""
    names = [f"wide {FAR} <{space} {FAR} error merged" for space in ("0.031", "0.03")]
    assert [pairs_of(joined[name]).total() for name in names] == [2, 0]
    assert pairs_of(joined["wide 1/1 <5000 1/1 error merged"]).total() == 1


@pytest.mark.parametrize("merged", ["", " merged"])
def test_all_digits_of_a_shape_are_shown(joined: Dict[str, Any], merged: str) -> None:
    """Beside KLayout's own texts of the boxes, in a layer whose name has quotes."""
    answer = joined[f"wide {FAR} intersects {FAR} error{merged}"]
    asked = Counter((bounds(one), bounds(other)) for one, other in answer["asked"])
    assert pairs_of(answer) == asked and asked.total() == 4


def test_polygons_with_a_spike_are_read(joined: Dict[str, Any]) -> None:
    assert pairs_of(joined["wide 2/0 contains_properly 2/1 error"]).total() == 1


def test_one_extended_end_is_enough(joined: Dict[str, Any]) -> None:
    for layer in ("3/0", "4/0"):
        assert "a path without a width, with extended ends" in joined[
            f"wide {layer} contains_properly 2/1 error"]["error"]


@pytest.mark.parametrize("words", ["chip 1/0 overlaps 2/0", "angled 1/0 T******** 2/0"])
def test_pairs_without_their_matrices(joined: Dict[str, Any], words: str) -> None:
    """The same pairs, in one category."""
    alone, sorted_ = (joined[f"{words} error{more}"] for more in (" alone", ""))
    key = corners if words.startswith("angled") else bounds
    assert pairs_of(alone, key) == pairs_of(sorted_, key) and pairs_of(alone)
    names = items(Path(alone["database"]))
    assert list(names) == [f"'{words.partition(' ')[2]}'"] != list(items(Path(sorted_["database"])))


def test_spacing_is_at_least_half_a_unit(joined: Dict[str, Any]) -> None:
    assert joined["spaced 1/0 <0.0004 2/0 error"]["error"] == (
        "space must be at least half a database unit, which is 0.001 micrometres, not 0.0004")


def test_spacing_of_other_shapes(joined: Dict[str, Any]) -> None:
    """Beside KLayout's separation check, as for boxes. KLayout 0.28 takes some shapes that share
    nothing but a point for apart."""
    answer = joined["angled 1/0 <0.3 2/0 error"]
    alone, asked = unmatched(answer)
    points = items(Path(joined["angled 1/0 touches 2/0 error"]["database"]), corners).get(
        f"'1/0 touches 2/0'.{POINTS_ALONE}", [])
    assert narrow_places(answer) and not alone
    missed: Counter[Tuple[Bounds, ...]] = Counter(
        (corners(one), corners(other)) for one, other in asked)
    assert not missed - Counter(points)


def test_categories_say_what_they_mean(joined: Dict[str, Any]) -> None:
    root = ElementTree.parse(joined["town 1/0 overlaps 4/0 error"]["database"]).getroot()
    top = root.find("categories/category")
    assert top is not None
    assert top.findtext("description") == "the left shape overlaps the right one"
    assert {category.findtext("description") for category in top.iter("category")} >= {
        "left and right: interior and interior share an area; interior and boundary share lines; "
        "boundary and interior share lines; boundary and boundary share points"}


@pytest.mark.parametrize("words, text", FAULTS.items())
def test_faults(joined: Dict[str, Any], words: str, text: str) -> None:
    left, relation, right, *others = words.split()
    answer = joined[f"chip {left} {relation} {right} {others[0] if others else 'error'}"]
    assert text in answer["error"]


def test_batch_mode(klayout: Any, town: Path, tmp_path: Path) -> None:
    """The documented step; every station lies at its own place, as another layer of points."""
    output = tmp_path / "pairs.lyrdb"
    ended = klayout(PACKAGE / "join.py", file=str(town), left="stations (3/0)", right="stations",
                    relation="equals", merged="0", output=str(output))
    assert ended.returncode == 0, ended.stderr
    assert ended.stdout.strip() == "'stations (3/0) equals stations'.'0FFFFFFF2': 16"
    assert sum(map(len, items(output).values())) == 16


def test_batch_mode_merges_and_tells_bounding_boxes(klayout: Any, town: Path, tmp_path: Path
                                                    ) -> None:
    """The town's parcels, which lie side by side, are merged to rectangles too."""
    words = {"file": str(town), "left": "1/0", "right": "3/0", "relation": "contains",
             "output": str(tmp_path / "pairs.lyrdb")}
    ended = klayout(PACKAGE / "join.py", others="envelope", **words)
    assert ended.returncode == 0, ended.stderr
    lines = ended.stdout.splitlines()
    assert lines[0].startswith("'1/0 contains 3/0, merged'.")
    assert lines[-1] == "pairs that rest on a bounding box: 0"
    wrong = klayout(PACKAGE / "join.py", **{**words, "merged": "yes"})
    assert wrong.returncode == 1 and "merged must be 0 or 1" in wrong.stderr
    both = klayout(PACKAGE / "join.py", space="1", **words)
    assert both.returncode == 1 and "one of relation, space and enclosing is needed" in both.stderr
    unknown = klayout(PACKAGE / "join.py", realtion="within", **words)
    assert unknown.returncode == 1 and "-rd realtion is unknown; there are file, " in unknown.stderr
    for name, text in (("cell", "the layout has no cell NONE"),
                       ("mode", "mode must be one of flat, cell")):
        refused = klayout(PACKAGE / "join.py", **{**words, name: "NONE"})
        assert refused.returncode == 1 and text in refused.stderr
    none = klayout(PACKAGE / "join.py", **{**words, "relation": "", "space": "-1"})
    assert none.returncode == 1 and "space must be a number of micrometres above 0" in none.stderr


def test_batch_mode_without_matrices(program: Path, klayout: Any, town: Path, tmp_path: Path
                                     ) -> None:
    """The program is asked for pairs alone, by the variable alone."""
    stand_in(tmp_path / "rjoin", f'echo "$@" >> {tmp_path}/words\nexec {program} "$@"')
    output = tmp_path / "pairs.lyrdb"
    words = {"file": str(town), "left": "1/0", "right": "4/0", "relation": "overlaps",
             "merged": "0", "output": str(output)}
    for matrices, told in (("0", "'1/0 overlaps 4/0': 20"),
                           ("1", "'1/0 overlaps 4/0'.'212101212': 19")):
        ended = klayout_run(["-b", "-r", str(PACKAGE / "join.py")],
                            {**words, "matrices": matrices}, RJOIN=str(tmp_path / "rjoin"))
        assert ended.returncode == 0 and ended.stdout.splitlines()[0] == told, ended.stderr
        last = (tmp_path / "words").read_text(encoding="utf-8").splitlines()[-1]
        assert ("--pairs" in last.split()) == (matrices == "0")
    wrong = klayout(PACKAGE / "join.py", **words, matrices="no")
    assert wrong.returncode == 1 and "matrices must be 0 or 1" in wrong.stderr


def test_batch_mode_in_other_cells(klayout: Any, tmp_path: Path) -> None:
    """Of two top cells, which have one box each, all or one by its name."""
    script, layout, output = (tmp_path / name for name in ("cells.py", "cells.oas", "pairs.lyrdb"))
    script.write_text("import pya\nlayout = pya.Layout()\n"
                      "for name, size in (('ONE', 10), ('OTHER', 20)):\n"
                      "    shapes = layout.create_cell(name).shapes(layout.layer(1, 0))\n"
                      "    shapes.insert(pya.Box(0, 0, size, size))\n"
                      "layout.write(output)\n", encoding="utf-8")
    assert klayout(script, output=str(layout)).returncode == 0
    words = {"file": str(layout), "left": "1/0", "right": "1/0", "relation": "equals",
             "output": str(output)}
    every = klayout(PACKAGE / "join.py", **words)
    assert every.returncode == 0, every.stderr
    assert list(items(output).values()) == [[((0.0, 0.0, size, size),) * 2
                                             for size in (0.01, 0.02)]]
    cells = [item.findtext("cell") for item in ElementTree.parse(output).getroot().iter("item")]
    assert cells == ["ONE", "OTHER"]
    for name, size in (("ONE", 0.01), ("OTHER", 0.02)):
        ended = klayout(PACKAGE / "join.py", **words, cell=name)
        assert ended.returncode == 0, ended.stderr
        assert list(items(output).values()) == [[((0.0, 0.0, size, size),) * 2]]


# Two boxes 50 units apart and a small one in the first; and how a layer of the result is read.
MADE = """
import pya
layout = pya.Layout()
top = layout.create_cell("TOP")
for number, boxes in ((1, ((0, 0, 100, 100), (150, 20, 200, 60))), (2, ((10, 10, 20, 20),))):
    for box in boxes:
        top.shapes(layout.layer(number, 0)).insert(pya.Box(*box))
layout.write(output)
"""
SHOWN = """
import pya
layout = pya.Layout()
layout.read(file)
top = layout.top_cell()
for name in (1, 100):
    region = pya.Region(top.begin_shapes_rec(layout.layer(name, 0)))
    print(*sorted(str(shape) for shape in region.each()))
"""
FIRST, SECOND = "(0,0;0,100;100,100;100,0)", "(150,20;150,60;200,60;200,20)"
GAP = "(100,20;100,60;150,60;150,20)"
ENCLOSED = "(10,0;20,0)/(20,10;10,10)"


def written(folder: Path, name: str, text: str) -> Path:
    (folder / name).write_text(text, encoding="utf-8")
    return folder / name


@pytest.fixture
def boxes(klayout: Any, tmp_path: Path) -> Path:
    """A layout of few boxes."""
    ended = klayout(written(tmp_path, "made.py", MADE), output=str(tmp_path / "boxes.gds"))
    assert ended.returncode == 0, ended.stderr
    return tmp_path / "boxes.gds"


@pytest.mark.parametrize("condition, shape", [({"space": "0.06"}, GAP),
                                              ({"relation": "contains"}, FIRST)])
def test_results_as_shapes(klayout: Any, boxes: Path, tmp_path: Path, condition: Dict[str, str],
                           shape: str) -> None:
    """In a layer of the layout, beside those that were there: what is between the edges of a
    spacing, or the left shapes of a relation."""
    words = {"file": str(boxes), "left": "1/0", "right": "2/0" if "relation" in condition else
             "1/0", "output": str(tmp_path / "pairs.lyrdb"), "layer": "100/0", **condition}
    alone = klayout(PACKAGE / "join.py", **words)
    assert alone.returncode == 1 and "layer and layout are given together" in alone.stderr
    for name in ("marked.gds", "marked.oas"):
        ended = klayout(PACKAGE / "join.py", layout=str(tmp_path / name), **words)
        assert ended.returncode == 0, ended.stderr
        shown = klayout(written(tmp_path, "shown.py", SHOWN), file=str(tmp_path / name))
        assert shown.stdout.splitlines() == [f"{FIRST} {SECOND}", shape]


CALLS = {
    "calls.py": """
import sys
import pya
from rjoin_klayout import regions
layout = pya.Layout()
layout.read(file)
first, second = (pya.Region(layout.top_cell().begin_shapes_rec(layout.layer(number, 0)))
                 for number in (1, 2))
print(regions.select(first, "contains", second))
print(regions.space(first, first, 60))
print(regions.enclosing(first, second, 45))
try:
    regions.select(first, "contain", second)
except Exception as fault:
    print(fault)
""",
    "calls.rb": """
require "rjoin"
layout = RBA::Layout.new
layout.read($file)
first, second = [1, 2].collect do |number|
  RBA::Region.new(layout.top_cell.begin_shapes_rec(layout.layer(number, 0)))
end
puts Rjoin.select(first, "contains", second).to_s
puts Rjoin.space(first, first, 60).to_s
puts Rjoin.enclosing(first, second, 45).to_s
begin
  Rjoin.select(first, "contain", second)
rescue => fault
  puts fault.message
end
""",
    "calls.drc": """
require "rjoin"
source($file)
first, second = input(1, 0), input(2, 0)
puts first.rjoin_select("contains", second).data.to_s
puts first.rjoin_space(0.06).data.to_s
puts first.rjoin_enclosing(second, 0.045).data.to_s
begin
  first.rjoin_select("contain", second)
rescue => fault
  puts fault.message.lines.first
end
"""}


@pytest.mark.parametrize("name", list(CALLS))
def test_calls_from_scripts(klayout: Any, boxes: Path, tmp_path: Path, name: str) -> None:
    """In Python, Ruby and DRC, of the installed package: the same answers and faults."""
    (tmp_path / "home/salt").mkdir(parents=True)
    (tmp_path / "home/salt/rjoin").symlink_to(PACKAGE)
    ended = klayout_run(["-b", "-r", str(written(tmp_path, name, CALLS[name]))],
                        {"file": str(boxes)}, KLAYOUT_HOME=str(tmp_path / "home"))
    first, space, enclosing, fault, *_ = ended.stdout.splitlines()
    assert (first, space) == (FIRST, "(150,20;150,60)/(100,60;100,20)"), ended.stderr
    assert enclosing == ENCLOSED
    assert "not a name or a mask" in fault


ENCLOSURES = """
import random
import pya
from rjoin_klayout import regions


def area(text):
    return pya.Region(pya.Polygon.from_s(text))


def native(outer, inner, limit):
    return outer.enclosing_check(inner, limit, False, pya.Region.Euclidian, None, None, None)


def made(source, size, upright):
    region = pya.Region()
    for _ in range(3):
        x, y = source.randrange(120 - size), source.randrange(120 - size)
        points = [pya.Point(x + source.randrange(size), y + source.randrange(size))
                  for _ in range(3)]
        region.insert(pya.Box(x, y, x + source.randint(3, size), y + source.randint(3, size))
                      if upright else pya.Polygon(points))
    return region.merged()


square = area("(0,0;0,100;100,100;100,0)")
holed = area("(0,0;0,100;100,100;100,0/40,40;60,40;60,60;40,60)")
for outer, inner, limit in (
        (square, "(10,20;10,40;40,40;40,20)", 10), (square, "(10,20;10,40;40,40;40,20)", 11),
        (square, "(0,20;0,40;40,40;40,20)", 5), (square, "(95,95;95,120;99,120;99,95)", 9),
        (holed, "(10,30;10,38;90,38;90,30)", 3), (square, "(10,50;50,80;50,20)", 11)):
    print(regions.enclosing(outer, area(inner), limit))
source, found = random.Random(5), [[0, 0, 0], [0, 0, 0]]
for number in range(160):
    upright = number % 2
    sizes = (90, 25) if upright else (110, 12)
    outer, inner = (made(source, size, upright) for size in sizes)
    for one in outer.each():
        for other in inner.each():
            left, right = pya.Region(one), pya.Region(other)
            if not regions.select(left, "covers", right).is_empty():
                ours = regions.enclosing(left, right, 6).count()
                theirs = native(left, right, 6).count() > 0
                found[upright][0] += ours
                found[upright][1] += theirs and not ours
                found[upright][2] += ours and not theirs
print(found[1][0] > 9, *found[1][1:])
print(found[0][0] > 9, found[0][1])
"""


def test_enclosures(klayout: Any, tmp_path: Path) -> None:
    """Beside KLayout's enclosing check of each two areas, of which the right one lies in the left
    one: the same of areas along the axes, and no area of others less. KLayout 0.28 misses acute
    corners of slanted areas that point at the outline."""
    (tmp_path / "home/salt").mkdir(parents=True)
    (tmp_path / "home/salt/rjoin").symlink_to(PACKAGE)
    script = written(tmp_path, "enclosures.py", ENCLOSURES)
    ended = klayout_run(["-b", "-r", str(script)], {}, KLAYOUT_HOME=str(tmp_path / "home"))
    assert ended.stdout.splitlines() == [
        "", "(0,20;0,40)/(10,40;10,20)", "(0,20;0,40)/(0,40;0,20)", "",
        "(40,40;60,40)/(60,38;40,38)", "(0,50;0,50)/(10,50;10,50)",
        "True 0 0", "True 0"], ended.stderr


def test_an_enclosure_is_of_two_layers(klayout: Any, boxes: Path, tmp_path: Path) -> None:
    """In batch mode, with its item and its shape in a layer; of one layer it says nothing."""
    words = {"file": str(boxes), "left": "1/0", "output": str(tmp_path / "pairs.lyrdb"),
             "layer": "100/0", "layout": str(tmp_path / "marked.gds"), "enclosing": "0.045"}
    ended = klayout(PACKAGE / "join.py", right="2/0", **words)
    assert ended.stdout == "'1/0 with less than 0.045 um around 2/0, merged': 1\n", ended.stderr
    text = Path(words["output"]).read_text(encoding="utf-8")
    assert "edge-pair: (0.01,0;0.02,0)/(0.02,0.01;0.01,0.01)" in text
    assert "distance: 0.01 um" in text
    same = klayout(PACKAGE / "join.py", right="1/0", **words)
    assert same.returncode == 1 and "an enclosure is of two layers" in same.stderr


def test_a_failing_program_leaves_nothing(klayout: Any, town: Path, tmp_path: Path) -> None:
    """A program that ends with a fault after a part of its answer."""
    program = stand_in(tmp_path / "rjoin", '[ "$2" = /dev/null ] && exit 1\n'
                       "echo left,right,matrix\necho 0,0,2FFF1FFF2\n"
                       "echo rjoin: no memory >&2\nexit 1")
    output = tmp_path / "pairs.lyrdb"
    output.write_text("before", encoding="utf-8")
    ended = klayout_run(["-b", "-r", str(PACKAGE / "join.py")], {
        "file": str(town), "left": "1/0", "right": "4/0", "relation": "overlaps",
        "output": str(output)}, RJOIN=str(program))
    assert (ended.returncode, ended.stderr) == (1, "join.py: rjoin: no memory\n")
    assert output.read_text(encoding="utf-8") == "before"


def test_batch_mode_fails_with_a_status(klayout: Any, town: Path, tmp_path: Path) -> None:
    output = tmp_path / "nowhere" / "pairs.lyrdb"
    ended = klayout(PACKAGE / "join.py", file=str(town), left="1/0", right="2/0",
                    relation="touches", output=str(output))
    assert ended.returncode == 1 and "can't be written" in ended.stderr


MACRO = """
import sys
import traceback
import pya
application = pya.Application.instance()
try:
    from rjoin_klayout import dialog
    window = pya.MainWindow.instance()
    for _ in range(20):  # the menu gets its macros once events are processed
        application.process_events()
    print(window.menu().action("tools_menu.macro_in_menu_join_layers").title)
    window.load_layout(file, 1)
    view = pya.LayoutView.current()
    asked = dialog.JoinDialog(window, ["1/0", "4/0"])
    asked.relation.setCurrentText("overlaps")
    print(asked.merged.text, asked.merged.checked)
    asked.space.text = "0.5"
    print(asked.request())
    asked.space.text, asked.layer.text = "", "100/0"
    asked.merged.checked = asked.matrices.checked = False
    asked.others.currentIndex, asked.mode.currentIndex = 2, 1
    print(asked.request())
    asked.others.currentIndex = asked.mode.currentIndex = 0
    asked.matrices.checked = True
    asked.enclosing.text = "0.2"
    print(asked.request())
    asked.enclosing.text = ""
    print(dialog.show(view, asked.request()), view.num_rdbs())
    layout = view.active_cellview().layout()
    print(pya.Region(layout.top_cell().begin_shapes_rec(layout.layer(100, 0))).count() > 0)
except Exception:
    traceback.print_exc()
sys.stdout.flush()
application.exit(0)
"""


def test_package_with_its_dialog(klayout: Any, town: Path, tmp_path: Path) -> None:
    """Installed as documented: the macro is in the menu, and its join fills the view's database."""
    (tmp_path / "home/salt").mkdir(parents=True)
    (tmp_path / "home/salt/rjoin").symlink_to(PACKAGE)
    script = tmp_path / "macro.py"
    script.write_text(MACRO, encoding="utf-8")
    ended = klayout_run(["-z", "-nc", "-r", str(script)], {"file": str(town)},
                        KLAYOUT_HOME=str(tmp_path / "home"))
    assert ended.stdout.splitlines() == [
        "Join layers by relation",
        "Merge the shapes of each layer first True",
        "Request(left='1/0', right='4/0', relation='', space='0.5', "
        "reading=Reading(others='error', merged=True, mode='flat'), matrices=True, "
        "layer='', enclosing='')",
        "Request(left='1/0', right='4/0', relation='overlaps', space='', "
        "reading=Reading(others='skip', merged=False, mode='cell'), matrices=False, "
        "layer='100/0', enclosing='')",
        "Request(left='1/0', right='4/0', relation='', space='', "
        "reading=Reading(others='error', merged=False, mode='flat'), matrices=True, "
        "layer='100/0', enclosing='0.2')",
        "20 1", "True"
    ], ended.stderr


def test_macro_is_a_macro() -> None:
    root = ElementTree.parse(PACKAGE / "pymacros/join_layers.lym").getroot()
    assert root.findtext("interpreter") == "python"
    compile(root.findtext("text", ""), "join_layers.lym", "exec")
