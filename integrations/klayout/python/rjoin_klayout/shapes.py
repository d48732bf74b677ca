"""The geometry of a shape of a layout, in database units of the top cell, as rjoin reads it."""
from __future__ import annotations

import sys
import tempfile
from array import array
from pathlib import Path
from typing import Iterator, List, NamedTuple, Optional, Tuple, Union

import pya

TRIANGLE = 3
Figure = Union[pya.Box, pya.Path, pya.Polygon]

# The least and the greatest coordinates of a box.
Bounds = Tuple[int, int, int, int]

# A rectangle in a GDS2 stream: the records BOUNDARY, LAYER, DATATYPE, XY with five points, and
# ENDEL, in words of four bytes, the most significant first. Its first point is the least corner,
# and the third one the greatest; the places of their coordinates are:
BOUNDARY = b"\x00\x04\x08\x00"
WORDS, WEST, SOUTH, EAST, NORTH = 16, 5, 6, 9, 10
RECTANGLE_LINE = '"POLYGON((%d %d,%d %d,%d %d,%d %d,%d %d))"\n'


class NotRead(ValueError):
    """rjoin doesn't read the shape; the text says why."""


class Rectangles:
    """Rectangles by columns of their least and their greatest coordinates."""

    def __init__(self, stream: bytes = b"") -> None:
        """The rectangles of a part of a GDS2 stream."""
        words = array("i", stream)
        if sys.byteorder == "little":
            words.byteswap()
        self.columns = [words[place::WORDS] for place in (WEST, SOUTH, EAST, NORTH)]

    def __len__(self) -> int:
        return len(self.columns[0])

    def __getitem__(self, number: int) -> Bounds:
        west, south, east, north = self.columns
        return west[number], south[number], east[number], north[number]

    def lines(self) -> Iterator[str]:
        """The lines of a file of their well-known texts."""
        west, south, east, north = self.columns
        return map(RECTANGLE_LINE.__mod__, zip(west, south, east, south, east, north, west, north,
                                               west, south))


class Geometry(NamedTuple):
    """The figure that is shown for a shape, and the areas of one that is no box.

    A box may be a point or a segment along an axis. A path has no width: it is any other line. The
    areas of a polygon are itself, unless KLayout makes others of it.
    """

    figure: Figure
    areas: Tuple[pya.Polygon, ...] = ()

    def is_box(self) -> bool:
        return isinstance(self.figure, pya.Box)

    def bbox(self) -> pya.Box:
        return self.figure if self.is_box() else self.figure.bbox()

    def is_area(self) -> bool:
        return bool(self.areas) or self.is_box() and 0 not in (self.figure.width(),
                                                               self.figure.height())

    def wkt(self) -> str:
        """The well-known text, in database units."""
        if self.is_box():
            return _box_text(self.figure)
        if isinstance(self.figure, pya.Path):
            return f"LINESTRING{_list(self.figure.each_point())}"
        return f"MULTIPOLYGON({','.join(map(_area_text, self.areas))})"

    def outline_wkt(self) -> str:
        """The well-known text of the outline of one that is an area, and of any other itself."""
        if not self.areas:
            return outline_of_text(self.wkt())
        return f"MULTILINESTRING({','.join(_area_text(area)[1:-1] for area in self.areas)})"


def geometry_of(shape: pya.Shape, trans: pya.ICplxTrans) -> Geometry:
    """The geometry of a shape below a transformation; raises NotRead where rjoin reads none."""
    if shape.is_box() and trans.is_ortho():
        return Geometry(shape.box.transformed(trans))
    if shape.is_path() and shape.path_width == 0:
        return _path(shape.path, trans)
    if is_area(shape):
        return _polygon(shape.polygon.transformed(trans))
    if shape.is_edge():
        return _line([shape.edge.p1, shape.edge.p2], trans)
    if shape.is_point():
        point = trans.trans(shape.point)
        return Geometry(pya.Box(point, point))
    raise NotRead("another kind of shape")


def _polygon(polygon: pya.Polygon) -> Geometry:
    whole = polygon.dup()
    whole.compress(False)
    if whole.is_box():
        return Geometry(whole.bbox())
    areas = areas_of(polygon)
    if not areas:
        raise NotRead("a polygon without an area")
    return Geometry(polygon, tuple(areas))


def geometry_of_merged(text: str) -> Geometry:
    """The geometry of a merged area, by its text."""
    polygon = pya.Polygon.from_s(text)
    return Geometry(polygon, (polygon,))


def areas_of(polygon: pya.Polygon) -> List[pya.Polygon]:
    """The polygon alone, unless KLayout makes others of it: where it overlaps itself, and where
    cut lines lead to its holes."""
    if polygon.num_points() == TRIANGLE:
        return [polygon] if polygon.area2() > 0 else []
    merged = list(merged_areas(pya.Region(polygon)).each())
    is_same = len(merged) == 1 and (
        merged[0].area2() == polygon.area2() and merged[0].holes() == polygon.holes())
    return [polygon] if is_same else merged


def merged_areas(region: pya.Region) -> pya.Region:
    """The merged areas of a region; those that meet at a corner alone stay apart."""
    region.min_coherence = True
    merged = region.merged()
    merged.merged_semantics = False  # so that it isn't merged again
    return merged


def texts_of(polygons: pya.Region) -> List[str]:
    """The texts of a region's polygons, as KLayout writes them: `(0,0;0,9;9,0)`, and with holes
    `(0,0;0,9;9,0/1,1;3,1;1,3)`."""
    count = polygons.count()
    return [f"({text})" for text in polygons.to_s(count)[1:-1].split(");(")] if count else []


def merged_wkt(text: str) -> str:
    """The well-known text of a merged area."""
    rings = text[1:-1].replace(",", " ").replace(";", ",").split("/")
    return f"POLYGON({','.join(map(_closed, rings))})"


def outline_of_text(text: str) -> str:
    """The rings of a polygon as lines, by its well-known text."""
    return text.replace("POLYGON", "MULTILINESTRING")


def _closed(points: str) -> str:
    """A ring, whose last point is its first."""
    return f"({points},{points.partition(',')[0]})"


def rectangles_of(rectangles: pya.Region) -> Rectangles:
    """The rectangles of a region.

    They are read from a GDS2 stream, which KLayout writes in less time than it answers calls for
    each of them.
    """
    layout = pya.Layout()
    layout.create_cell("TOP").shapes(layout.layer(1, 0)).insert(rectangles)
    options = pya.SaveLayoutOptions()
    options.format = "GDS2"
    with tempfile.TemporaryDirectory(prefix="rjoin-") as folder:
        path = Path(folder, "rectangles.gds")
        layout.write(str(path), options)
        stream = path.read_bytes()
    start = stream.find(BOUNDARY)
    return Rectangles(stream[start:start + rectangles.count() * WORDS * len(BOUNDARY)])


def envelope_of(shape: pya.Shape, trans: pya.ICplxTrans) -> pya.Box:
    """The bounding box of a shape below a transformation."""
    if is_area(shape):
        polygon = shape.polygon.transformed(trans)
        if polygon.num_points() > 0:
            return polygon.bbox()
    return shape.bbox().transformed(trans)


def is_area(shape: pya.Shape) -> bool:
    """Whether the shape is of a kind that covers an area."""
    return bool(shape.is_box() or shape.is_polygon() or shape.is_simple_polygon()
                or shape.is_path())


def area_of(shape: pya.Shape, trans: pya.ICplxTrans) -> Optional[pya.Polygon]:
    """The polygon of a shape below a transformation, unless it covers no area; it can be merged
    with others. What the two sides of a bow-tie cover counts with opposite signs in its own area.
    """
    if not is_area(shape):
        return None
    polygon = shape.polygon.transformed(trans)
    return polygon if polygon.area2() > 0 or pya.Region(polygon).area() > 0 else None


def _path(path: pya.Path, trans: pya.ICplxTrans) -> Geometry:
    if path.bgn_ext != 0 or path.end_ext != 0:
        raise NotRead("a path without a width, with extended ends")
    return _line(list(path.each_point()), trans)


def _line(points: List[pya.Point], trans: pya.ICplxTrans) -> Geometry:
    """The segment or point that a walk along the points is, where it is along an axis and never
    goes back, else the line."""
    ends = [trans.trans(point) for point in points]
    box = pya.Box(ends[0], ends[-1])
    steps = [after - before for before, after in zip(ends, ends[1:])]
    length = sum(abs(step.x) + abs(step.y) for step in steps)
    if length == box.width() + box.height() and 0 in (box.width(), box.height()):
        return Geometry(box)
    return Geometry(pya.Path(ends, 0))


def _box_text(box: pya.Box) -> str:
    x1, y1, x2, y2 = box.left, box.bottom, box.right, box.top
    if x1 != x2 and y1 != y2:
        return f"POLYGON(({x1} {y1},{x2} {y1},{x2} {y2},{x1} {y2},{x1} {y1}))"
    if x1 != x2 or y1 != y2:
        return f"LINESTRING({x1} {y1},{x2} {y2})"
    return f"POINT({x1} {y1})"


def _area_text(polygon: pya.Polygon) -> str:
    rings = [polygon.each_point_hull(),
             *(polygon.each_point_hole(hole) for hole in range(polygon.holes()))]
    return f"({','.join(map(_ring, rings))})"


def _ring(points: Iterator[pya.Point]) -> str:
    """A ring, whose last point is its first."""
    corners = list(points)
    return _list(iter([*corners, corners[0]]))


def _list(points: Iterator[pya.Point]) -> str:
    return f"({','.join(f'{point.x} {point.y}' for point in points)})"
