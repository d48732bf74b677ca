"""Joins layers inside one KLayout in batch mode, and asks KLayout itself of each pair of shapes.

`folder` (-rd) has the file `requests`, a JSON list with `layout`, `left`, `right`, `relation` or
`space`, perhaps `others`, `merged`, `mode`, `matrices` and `asked`. It gets a report database for
each and the file `answers`: `error`, `database`, and in `asked` the pairs of shapes that stand in
the relation by KLayout's own methods, of regions for the layout `angled`, of boxes for the others,
and those that are closer than the space by its separation check.
"""
from __future__ import annotations

import json
import math
import random
import sys
from pathlib import Path
from typing import Any, Dict, List, Tuple

import pya

given = globals()
sys.path.insert(0, given["package"])

from rjoin_klayout.join import Request, join_layers  # noqa: E402
from rjoin_klayout.layers import JoinError, Reading, layer_index  # noqa: E402
from rjoin_klayout.program import ProgramError  # noqa: E402


def chip() -> pya.Layout:
    """A chip with an array of a cell and turned and mirrored instances of it."""
    layout = pya.Layout()
    top, cell = layout.create_cell("TOP"), layout.create_cell("CELL")
    metal, poly = cell.shapes(layout.layer(1, 0)), cell.shapes(layout.layer(2, 0))
    for track in range(5):
        metal.insert(pya.Box(0, 100 * track, 900, 100 * track + 40))
        poly.insert(pya.Box(150 * track, -30, 150 * track + 40, 240))
        poly.insert(pya.Box(30 + 150 * track, 40, 90 + 150 * track, 100))
    top.insert(pya.CellInstArray(cell.cell_index(), pya.Trans(), pya.Vector(1000, 0),
                                 pya.Vector(0, 700), 3, 2))
    for column in range(3):
        turned = pya.Trans(column, column == 1, 900 * column, 1600)
        top.insert(pya.CellInstArray(cell.cell_index(), turned))
    return layout


def others() -> pya.Layout:
    """A box, shapes that are no boxes, a text, and a shape that isn't read."""
    layout = pya.Layout()
    top, cell = layout.create_cell("TOP"), layout.create_cell("CELL")
    top.shapes(layout.layer(1, 0)).insert(pya.Box(0, 0, 100, 100))
    shapes = top.shapes(layout.layer(2, 0))
    start, end = pya.Point(10, 50), pya.Point(90, 50)
    shapes.insert(pya.Polygon([pya.Point(0, 0), pya.Point(50, 90), pya.Point(90, 0)]))
    shapes.insert(pya.Path([start, end], 20))
    shapes.insert(pya.Path([start, end], 0))
    shapes.insert(pya.Path([start, pya.Point(90, 90)], 0))
    shapes.insert(pya.Path([start, end, pya.Point(40, 50)], 0))
    shapes.insert(pya.Text("VDD", pya.Trans(50, 50)))
    holed = pya.Polygon(pya.Box(0, 0, 100, 100))
    holed.insert_hole(pya.Box(10, 10, 20, 20))
    shapes.insert(holed)
    cell.shapes(layout.layer(2, 0)).insert(pya.Box(0, 0, 10, 10))
    turned = pya.DCplxTrans(1, 45, False, 0.02, 0.02)
    top.insert(pya.DCellInstArray(cell.cell_index(), turned))
    extended = top.shapes(layout.layer(3, 0))
    extended.insert(pya.Path([start, pya.Point(80, 70)], 0, 10, 10))
    extended.insert(pya.Box(20, 20, 30, 30))
    return layout


def star(source: random.Random) -> pya.Polygon:
    """A polygon about a centre, whose coordinates are multiples of 100."""
    count, x, y = source.randint(3, 8), source.randrange(5000), source.randrange(5000)
    points = []
    for corner in range(count):
        turn, length = math.tau * corner / count, source.randint(200, 900)
        points.append(pya.Point(100 * round((x + length * math.cos(turn)) / 100),
                                100 * round((y + length * math.sin(turn)) / 100)))
    return pya.Polygon(points)


def bent_path(source: random.Random) -> pya.Path:
    """A path with a width that goes on in steps of 45 degrees; it may cross itself."""
    x, y = 100 * source.randrange(50), 100 * source.randrange(50)
    points = [pya.Point(x, y)]
    for _ in range(source.randint(1, 4)):
        across, up = source.choice(((1, 0), (0, 1), (-1, 0), (0, -1), (1, 1), (-1, 1)))
        length = 100 * source.randint(3, 9)
        points.append(points[-1] + pya.Vector(across * length, up * length))
    return pya.Path(points, 200)


def angled() -> pya.Layout:
    """Polygons and paths in any direction, through a cell that is turned and mirrored."""
    layout, source = pya.Layout(), random.Random(8)
    top, cell = layout.create_cell("TOP"), layout.create_cell("CELL")
    for number in (1, 2):
        index = layout.layer(number, 0)
        for place in (top, cell):
            for _ in range(12):
                place.shapes(index).insert(star(source))
                place.shapes(index).insert(bent_path(source))
        top.shapes(index).insert(pya.Box(0, 0, 2000, 1500).moved(900 * number, 700 * number))
    inner = [pya.Point(1000, 800), pya.Point(1100, 800), pya.Point(1000, 900)]
    top.shapes(layout.layer(2, 0)).insert(pya.Polygon(inner))
    for turn, mirrors in ((1, False), (2, True)):
        top.insert(pya.CellInstArray(cell.cell_index(), pya.Trans(turn, mirrors, 5000, 100)))
    return layout


def folded() -> pya.Layout:
    """A frame that is one ring with a cut line to its hole, and a path that crosses itself; and
    boxes in the hole, on the cut line and where the path crosses itself."""
    layout = pya.Layout()
    top = layout.create_cell("TOP")
    frame = pya.Polygon(pya.Box(0, 0, 1000, 1000))
    frame.insert_hole(pya.Box(400, 400, 600, 600))
    shapes, boxes_of = top.shapes(layout.layer(1, 0)), top.shapes(layout.layer(2, 0))
    ring = frame.resolved_holes()
    shapes.insert(ring)
    corners = ((0, 2000), (1000, 2000), (1000, 3000), (500, 3000), (500, 1500))
    shapes.insert(pya.Path([pya.Point(x, y) for x, y in corners], 100))
    boxes_of.insert(pya.Box(450, 450, 550, 550))
    boxes_of.insert(pya.Box(480, 1980, 520, 2020))
    holes = {(400, 400), (400, 600), (600, 400), (600, 600)}
    for edge in ring.each_edge():  # from the rim to the hole
        if ((edge.p1.x, edge.p1.y) in holes) < ((edge.p2.x, edge.p2.y) in holes):
            middle = edge.p1 + (edge.p2 - edge.p1) * 0.5
            boxes_of.insert(pya.Box(middle, middle).enlarged(20, 20))
    return layout


def metal() -> pya.Layout:
    """Metal that is cut up, with vias: in one piece of it, across two, and at a corner of it."""
    layout = pya.Layout()
    top, cell = layout.create_cell("TOP"), layout.create_cell("CELL")
    pieces, vias = top.shapes(layout.layer(1, 0)), top.shapes(layout.layer(2, 0))
    for left, right in ((0, 50), (50, 100), (90, 300)):
        pieces.insert(pya.Box(left, 0, right, 100))
    cell.shapes(layout.layer(1, 0)).insert(pya.Box(0, 0, 100, 50))
    for place in (0, 50):
        top.insert(pya.CellInstArray(cell.cell_index(), pya.Trans(300, 100 + place)))
    for x, y in ((10, 10), (40, 40), (290, 90)):
        vias.insert(pya.Box(x, y, x + 20, y + 20))
    pieces.insert(pya.Box(400, 0, 400, 100))
    layout.layer(3, 0)
    angled = top.shapes(layout.layer(4, 0))
    angled.insert(pya.Box(0, 0, 100, 20))
    angled.insert(pya.Box(0, 0, 20, 100))
    add_odd_metal(layout, top)
    return layout


def add_odd_metal(layout: pya.Layout, top: pya.Cell) -> None:
    """A bow-tie whose own area is 0, with a bar on its left side and a via across both; a box that
    is smaller than a unit where it is placed; and a triangle of half a square unit."""
    shapes = top.shapes(layout.layer(5, 0))
    corners = ((0, 0), (100, 100), (100, 0), (0, 100))
    shapes.insert(pya.Polygon([pya.Point(x, y) for x, y in corners]))
    shapes.insert(pya.Box(-10, 40, 40, 60))
    top.shapes(layout.layer(6, 0)).insert(pya.Box(-5, 45, 42, 55))
    small = layout.create_cell("SMALL")
    small.shapes(layout.layer(7, 0)).insert(pya.Box(0, 0, 10, 10))
    top.insert(pya.DCellInstArray(small.cell_index(), pya.DCplxTrans(0.01, 0, False, 0.5, 0.5)))
    half = [pya.Point(0, 0), pya.Point(1, 0), pya.Point(0, 1)]
    top.shapes(layout.layer(8, 0)).insert(pya.Polygon(half))


def spaced() -> pya.Layout:
    """Boxes beside each other and across corners, some of them at 50 units exactly; and a cell
    with two boxes 30 units apart, which is placed twice, so that boxes of the two are close too."""
    layout, source = pya.Layout(), random.Random(3)
    top, cell = layout.create_cell("TOP"), layout.create_cell("CELL")
    for number in (1, 2):
        shapes = top.shapes(layout.layer(number, 0))
        for _ in range(60):
            x, y = 10 * source.randrange(250), 10 * source.randrange(250)
            shapes.insert(pya.Box(0, 0, 10 * source.randint(1, 9), 10).moved(x, y))
        shapes.insert(pya.Text("VDD", pya.Trans(50, 50)))
    layout.layer(3, 0)
    for corner in (0, 50):
        cell.shapes(layout.layer(3, 0)).insert(pya.Box(corner, 0, corner + 20, 20))
    for place in (0, 100):
        top.insert(pya.CellInstArray(cell.cell_index(), pya.Trans(place, 0)))
    corners = top.shapes(layout.layer(4, 0))
    for x, y in ((0, 0), (50, 0), (0, 50), (80, 90), (120, 140)):  # the last is 30 and 40 away
        corners.insert(pya.Box(x, y, x + 10, y + 10))
    return layout


def nested() -> pya.Layout:
    """A cell with two boxes 30 units apart, within a turned one."""
    layout = pya.Layout()
    top, middle, cell = (layout.create_cell(name) for name in ("TOP", "MIDDLE", "CELL"))
    for left in (0, 50):
        cell.shapes(layout.layer(1, 0)).insert(pya.Box(left, 0, left + 20, 20))
    middle.insert(pya.CellInstArray(cell.cell_index(), pya.Trans(10, 20)))
    top.insert(pya.CellInstArray(middle.cell_index(), pya.Trans(1, False, 100, 0)))
    return layout


def wide() -> pya.Layout:
    """Boxes far from 0 on both sides, 30 units apart, in a layer whose name has quotes; a polygon
    with a spike, and a box within it; and paths without a width, of which one end is extended."""
    layout = pya.Layout()
    top = layout.create_cell("TOP")
    far, near = (top.shapes(layout.layer(pya.LayerInfo(*words)))
                 for words in ((1, 0, "it's \\ far"), (1, 1)))
    for left in (0, 40):
        near.insert(pya.Box(left, 0, left + 10, 10))
        for x, y in ((-1234567890, 987654321), (1987654321, -1234567891)):
            far.insert(pya.Box(left, 0, left + 10, 10).moved(x, y))
    spiked = [(0, 0), (0, 100), (50, 100), (50, 150), (50, 100), (100, 100), (100, 0)]
    top.shapes(layout.layer(2, 0)).insert(pya.Polygon([pya.Point(x, y) for x, y in spiked], True))
    top.shapes(layout.layer(2, 1)).insert(pya.Box(20, 20, 40, 40))
    ends = [pya.Point(0, 0), pya.Point(9, 9)]
    for number, extensions in ((3, (5, 0)), (4, (0, 5))):
        top.shapes(layout.layer(number, 0)).insert(pya.Path(ends, 0, *extensions))
    return layout


def ruled(dbu: str, path: Path) -> pya.Layout:
    """Boxes and triangles 50 units apart, and a box and a triangle that are 49 units from a box,
    as they are read from a file."""
    layout = pya.Layout()
    layout.dbu = float(dbu)
    top = layout.create_cell("TOP")
    shapes, triangles = top.shapes(layout.layer(1, 0)), top.shapes(layout.layer(2, 0))
    for left in (0, 70, 139):
        shapes.insert(pya.Box(left, 0, left + 20, 20))
    for corners in (((209, 0), (209, 20), (229, 0)), ((0, 69), (20, 69), (0, 89))):
        triangles.insert(pya.Polygon([pya.Point(x, y) for x, y in corners]))
    layout.write(str(path))
    read = pya.Layout()
    read.read(str(path))
    return read


def town() -> pya.Layout:
    """The town, from its file."""
    layout = pya.Layout()
    layout.read(given["town_file"])
    return layout


def holds(relation: str, one: pya.Box, other: pya.Box) -> bool:
    """Whether two boxes stand in a relation; of boxes with an area, but for `intersects`."""
    if relation == "equals":
        return bool(one == other)
    if relation in ("within", "covered_by"):
        return bool(one.inside(other))
    if relation == "covers":
        return bool(other.inside(one))
    if relation == "contains_properly":  # with a unit to spare on each side
        return bool(other.enlarged(1, 1).inside(one))
    if relation == "intersects":
        return bool(one.touches(other))
    if relation == "touches":
        return bool(one.touches(other) and not one.overlaps(other))
    return bool(one.overlaps(other) and not one.inside(other) and not other.inside(one))


def regions_hold(relation: str, one: pya.Region, other: pya.Region) -> bool:
    """Whether two areas stand in a relation."""
    meet, share = (not answer.is_empty() for answer in (
        one.interacting(other), one.overlapping(other)))
    is_inside, covers = (not answer.is_empty() for answer in (
        one.inside(other), one.covering(other)))
    return {"intersects": meet, "touches": meet and not share, "within": is_inside,
            "covers": covers, "T********": share,
            "overlaps": share and not is_inside and not covers}[relation]


def areas(layout: pya.Layout, name: str) -> List[pya.Polygon]:
    """The flattened shapes of a layer, without its texts."""
    found = []
    shapes = layout.top_cell().begin_shapes_rec(layer_index(layout, name))
    shapes.shape_flags = pya.Shapes.SAll & ~pya.Shapes.STexts
    while not shapes.at_end():
        found.append(shapes.shape().polygon.transformed(shapes.trans()))
        shapes.next()
    return found


def text_of(area: pya.Polygon, dbu: float) -> str:
    return str((area.bbox() if area.is_box() else area).to_dtype(dbu))


def asked_of_regions(layout: pya.Layout, request: Dict[str, Any]) -> List[Tuple[str, str]]:
    """The pairs of areas by KLayout's own answers."""
    right = [(area, pya.Region(area)) for area in areas(layout, request["right"])]
    return [(text_of(one, layout.dbu), text_of(other, layout.dbu))
            for one in areas(layout, request["left"]) for other, region in right
            if regions_hold(request["relation"], pya.Region(one), region)]


def boxes(layout: pya.Layout, name: str) -> List[pya.Box]:
    """The bounds of the flattened shapes of a layer."""
    found = []
    shapes = layout.top_cell().begin_shapes_rec(layer_index(layout, name))
    while not shapes.at_end():
        found.append(shapes.shape().bbox().transformed(shapes.trans()))
        shapes.next()
    return found


def asked(layout: pya.Layout, request: Dict[str, Any]) -> List[Tuple[str, str]]:
    """KLayout's own pairs."""
    right = boxes(layout, request["right"])
    return [(str(one.to_dtype(layout.dbu)), str(other.to_dtype(layout.dbu)))
            for one in boxes(layout, request["left"]) for other in right
            if holds(request["relation"], one, other)]


def asked_of_spacing(layout: pya.Layout, request: Dict[str, Any]) -> List[Tuple[str, str]]:
    """The pairs that KLayout's separation check finds too close, of shapes that share no point; of
    a layer with itself each pair once. The spacing is rounded as KLayout's DRC rounds it."""
    limit = math.floor(0.5 + float(request["space"]) / layout.dbu)
    left, right = (areas(layout, request[side]) for side in ("left", "right"))
    is_same = request["left"] == request["right"]
    found = []
    for number, one in enumerate(left):
        for other in right[number + 1:] if is_same else right:
            region = pya.Region(other)
            if pya.Region(one).interacting(region).is_empty() and not pya.Region(
                    one).separation_check(region, limit, False, pya.Region.Euclidian).is_empty():
                found.append((text_of(one, layout.dbu), text_of(other, layout.dbu)))
    return found


def answer(layout: pya.Layout, request: Dict[str, Any], path: Path) -> Dict[str, Any]:
    """What comes of one request."""
    words = Request(request["left"], request["right"], request.get("relation", ""),
                    request.get("space", ""),
                    Reading(request.get("others", "error"), request.get("merged", False),
                            request.get("mode", "flat")), request.get("matrices", True))
    try:
        report = join_layers(layout, layout.top_cell(), words)
        report.write(path)
        assert report.database().num_items() == sum(count for _, count in report.counts())
    except (JoinError, ProgramError) as fault:
        return {"error": str(fault)}
    ask = asked_of_regions if request["layout"] == "angled" else asked
    if "space" in request:
        ask = asked_of_spacing
    return {"error": None, "database": str(path),
            "asked": ask(layout, request) if request.get("asked") else []}


def main(folder: Path) -> None:
    """Works the requests off."""
    layouts = {"chip": chip(), "others": others(), "town": town(), "metal": metal(),
               "angled": angled(), "folded": folded(), "spaced": spaced(), "nested": nested(),
               "wide": wide()}
    requests = json.loads((folder / "requests").read_text(encoding="utf-8"))
    for name in {request["layout"] for request in requests if request["layout"] not in layouts}:
        layouts[name] = ruled(name.rpartition(".")[0], folder / name)
    answers = [answer(layouts[request["layout"]], request, folder / f"{number}.lyrdb")
               for number, request in enumerate(requests)]
    (folder / "answers").write_text(json.dumps(answers), encoding="utf-8")


main(Path(given["folder"]))
