"""Reads many geometries in well-known binary (WKB) at once, by columns of all their points.

Only what is certain is read here: boxes, and geometries that `rjoin --geometry any` reads. Others,
such as collections, and all that may have a fault, are left to `boxes` and `shapes`, which read one
at a time.
"""
from __future__ import annotations

import struct
from typing import TYPE_CHECKING, Iterator, List, NamedTuple, Sequence, Tuple

import numpy as np
from numpy.lib.stride_tricks import sliding_window_view

from .boxes import Box
from .shapes import Shape
from .wkb import HEIGHT_FLAG, Kind

if TYPE_CHECKING:
    from numpy.typing import NDArray

    Numbers = NDArray[np.float64]
    Places = NDArray[np.int64]
    Flags = NDArray[np.bool_]
    Bytes = NDArray[np.uint8]

# The form of a box; that of any other geometry is the Kind of several of its kind.
BOX = 0
# What stands before a point: the head of its geometry, or the border of points, of runs or of
# parts. A run is a line, a ring, or a single point.
FIRST, NEXT, RUN, PART = range(4)

LITTLE_ENDIAN = 1
NUMBER_BYTES = 8
POINT_BYTES = 2 * NUMBER_BYTES
HEAD_BYTES = 5
COUNT_BYTES = 4
# More bytes than a head is read at its place, behind the last geometry.
PADDING = bytes(32)
HEAD = struct.Struct("<BI")
COUNT = struct.Struct("<I")
RECTANGLE_POINTS = 5


class Columns(NamedTuple):
    """Geometries by their points.

    form: BOX, or the Kind of each; size: how many points it has; points: x and y of all of them;
    leads: what stands before each. A box has two points, its least corner and its greatest one.
    """

    form: Bytes
    size: Places
    points: Numbers
    leads: Bytes

    def part(self, first: int, end: int) -> "Columns":
        """The geometries from one to before another."""
        begin = int(self.size[:first].sum())
        theirs = slice(begin, begin + int(self.size[first:end].sum()))
        return Columns(self.form[first:end], self.size[first:end], self.points[theirs],
                       self.leads[theirs])

    def chosen(self, flags: "Flags") -> "Columns":
        """The geometries for which a flag is set."""
        theirs = np.repeat(flags, self.size)
        return Columns(self.form[flags], self.size[flags], self.points[theirs], self.leads[theirs])


def joined(parts: Sequence[Columns]) -> Columns:
    """The geometries of all parts, which are at least one."""
    return Columns(*map(np.concatenate, zip(*parts)))  # type: ignore[arg-type]


def nothing() -> Columns:
    return Columns(np.empty(0, np.uint8), np.empty(0, np.int64), np.empty((0, 2)),
                   np.empty(0, np.uint8))


def may_be_points(layer: Columns, decimals: int) -> bool:
    """Whether rounding may make a point of a line or ring that isn't one of a box."""
    runs = np.flatnonzero(layer.leads != NEXT)
    if not runs.size:
        return False
    extent = (np.maximum.reduceat(layer.points, runs) - np.minimum.reduceat(layer.points, runs))
    is_long = (extent * 10.0**decimals >= 2).any(axis=1)
    firsts = np.repeat(layer.form, layer.size)[runs]
    return bool((~is_long & (firsts != BOX) & (firsts != Kind.MULTI_POINT)).any())


def of_box(box: Box) -> Columns:
    return Columns(np.array([BOX], np.uint8), np.array([2]), np.reshape(box, (2, 2)),
                   np.array([FIRST, NEXT], np.uint8))


def of_shape(shape: Shape) -> Columns:
    several = shape.form.kind + Kind.MULTI_POINT - Kind.POINT
    leads: List[int] = []
    for rings in shape.form.parts:
        for number, count in enumerate(rings):
            is_part = number == 0 and shape.form.kind == Kind.POLYGON
            leads += [PART if is_part else RUN] + [NEXT] * (count - 1)
    leads[0] = FIRST
    return Columns(np.array([several], np.uint8), np.array([len(leads)]),
                   np.reshape(shape.coordinates, (-1, 2)), np.array(leads, np.uint8))


class Runs(NamedTuple):
    """The runs of points of some geometries, those of a geometry one behind the other.

    owner: the geometry; begin: the place of the first point; length: how many these are; width: the
    bytes of one; opens: whether the run is the first one of its part.
    """

    owner: Places
    begin: Places
    length: Places
    width: Places
    opens: Flags

    def taken(self, places: Places) -> "Runs":
        """Those at some places."""
        return Runs(self.owner[places], self.begin[places], self.length[places],
                    self.width[places], self.opens[places])


def read(texts: Sequence[bytes], decimals: int | None) -> Tuple[Columns, Flags]:
    """The geometries that are certain, and which these are; the others have no points.

    With a number of decimals, the coordinates will be rounded to it.
    """
    data = np.frombuffer(b"".join([*texts, PADDING]), np.uint8)
    lengths = np.fromiter(map(len, texts), np.int64, len(texts))
    kinds, runs = _runs_of(data, np.cumsum(lengths) - lengths, lengths)
    form, size = np.zeros(len(texts), np.uint8), np.zeros(len(texts), np.int64)
    certain = np.zeros(len(texts), np.bool_)
    if not runs.owner.size:
        return nothing()._replace(form=form, size=size), certain
    found = Found(kinds, runs, _points_of(data, runs))
    boxes = found.are_boxes()
    sure = found.are_read(decimals) & (boxes | found.are_no_boxes())
    certain[found.rows[sure]] = True
    shapes = sure & ~boxes
    form[found.rows[shapes]] = found.kind[shapes] + Kind.MULTI_POINT - Kind.POINT
    size[found.rows[shapes]] = found.size[shapes]
    size[found.rows[boxes & sure]] = 2
    return Columns(form, size, *_chosen(found, boxes & sure, shapes)), certain


def _chosen(found: "Found", boxes: Flags, shapes: Flags) -> Tuple[Numbers, Bytes]:
    """The corners of boxes and the points of shapes in the order of both, and their leads."""
    if not boxes.any():
        theirs = np.repeat(shapes, found.size)
        return found.points[theirs], found.leads()[theirs]
    size = np.where(boxes, 2, np.where(shapes, found.size, 0))
    begin = np.cumsum(size) - size
    points, leads = np.empty((int(size.sum()), 2)), np.full(int(size.sum()), NEXT, np.uint8)
    least, greatest = begin[boxes], begin[boxes] + 1
    points[least], points[greatest] = found.least[boxes], found.greatest[boxes]
    leads[least] = FIRST
    others, theirs = np.repeat(shapes, size), np.repeat(shapes, found.size)
    points[others], leads[others] = found.points[theirs], found.leads()[theirs]
    return points, leads


class Found:
    """Geometries by their points, with what is asked of them.

    rows: the places of the geometries that are there; kind: of each that of a single part.
    """

    def __init__(self, kinds: Places, runs: Runs, points: Numbers) -> None:
        self.runs = runs
        self.points = points
        self.starts = np.cumsum(runs.length) - runs.length
        self.firsts = np.flatnonzero(np.diff(runs.owner, prepend=-1))
        self.rows = runs.owner[self.firsts]
        self.kind = kinds[self.rows]
        self.size = np.add.reduceat(runs.length, self.firsts)
        self.begin = self.starts[self.firsts]
        self.is_alone = np.diff(self.firsts, append=runs.owner.size) == 1
        steps = np.diff(points, axis=0, prepend=points[:1]) != 0
        steps[self.starts] = False
        self.goes_x, self.goes_y = steps[:, 0], steps[:, 1]
        self.least = np.minimum.reduceat(points, self.begin)
        self.greatest = np.maximum.reduceat(points, self.begin)

    def of_runs(self, flags: Flags) -> Flags:
        """Which geometries have a run for which a flag is set."""
        some: Flags = np.logical_or.reduceat(flags, self.firsts)
        return some

    def of_points(self, flags: Flags) -> Flags:
        """Which geometries have a point for which a flag is set."""
        some: Flags = np.logical_or.reduceat(flags, self.begin)
        return some

    def are_read(self, decimals: int | None) -> Flags:
        """Which are surely points, lines or polygons as rjoin reads them."""
        finite = np.isfinite(self.points)
        infinite = ~(finite[:, 0] & finite[:, 1])
        is_long = np.logical_or.reduceat(self.goes_x | self.goes_y, self.starts)
        if decimals is not None:
            with np.errstate(invalid="ignore"):  # of infinite numbers
                extent = (np.maximum.reduceat(self.points, self.starts)
                          - np.minimum.reduceat(self.points, self.starts))
            is_long &= (extent * 10.0**decimals >= 2).any(axis=1)
        ends = self.starts + self.runs.length - 1
        is_open = (self.points[self.starts] != self.points[ends]).any(axis=1)
        is_line, is_polygon = self.kind == Kind.LINE, self.kind == Kind.POLYGON
        faulty = is_line & self.of_runs(~is_long)
        faulty |= is_polygon & (self.of_runs(is_open) | ~self.of_runs(is_long))
        read: Flags = ~faulty & ~self.of_points(infinite)
        return read

    def are_boxes(self) -> Flags:
        """Which are points, axis-parallel lines of two points or rectangles of five."""
        boxes: Flags = self.is_alone & (self.kind == Kind.POINT)
        lines = np.flatnonzero(self.is_alone & (self.kind == Kind.LINE) & (self.size == 2))
        last = self.begin[lines] + 1
        boxes[lines] = self.goes_x[last] != self.goes_y[last]
        rings = np.flatnonzero(self.is_alone & (self.kind == Kind.POLYGON)
                               & (self.size == RECTANGLE_POINTS))
        x, y = (self.points[:, axis][self.begin[rings] + np.arange(RECTANGLE_POINTS)[:, None]]
                for axis in (0, 1))
        along = [(one[0] == one[3]) & (one[1] == one[2]) & (other[0] == other[1])
                 & (other[2] == other[3]) for one, other in ((x, y), (y, x))]
        wide = (x[0] != x[2]) & (y[0] != y[2]) & (x[0] == x[4]) & (y[0] == y[4])
        boxes[rings] = (along[0] | along[1]) & wide
        return boxes

    def are_no_boxes(self) -> Flags:
        """Which are surely none: they have several runs, a slanted step, a line that turns, or a
        ring with a point within its bounds."""
        slanted = self.of_points(self.goes_x & self.goes_y)
        turned = (self.kind == Kind.LINE) & (self.of_points(self.goes_x)
                                             & self.of_points(self.goes_y))
        least, greatest = (np.repeat(corner, self.size, axis=0)
                           for corner in (self.least, self.greatest))
        within = (self.points != least) & (self.points != greatest)
        inside = within[:, 0] & within[:, 1]
        ringed = (self.kind == Kind.POLYGON) & self.of_points(inside)
        others: Flags = ~self.is_alone | slanted | turned | ringed
        return others

    def leads(self) -> Bytes:
        """What stands before each point."""
        leads = np.full(len(self.points), NEXT, np.uint8)
        kind = np.repeat(self.kind, np.diff(self.firsts, append=self.runs.owner.size))
        leads[self.starts] = np.where(self.runs.opens & (kind == Kind.POLYGON), PART, RUN)
        leads[self.begin] = FIRST
        return leads


def _words_at(data: Bytes, places: Places) -> Places:
    """The counts or codes that begin at these places."""
    words = sliding_window_view(data, COUNT_BYTES)[places].view("<u4")
    return words.reshape(-1).astype(np.int64)


def _kinds_at(data: Bytes, heads: Places) -> Tuple[Places, Places]:
    """The kinds of the geometries with these heads, 0 for other bytes, and the bytes of a point."""
    code = _words_at(data, heads + 1)
    family, kind = np.divmod(code & ~HEIGHT_FLAG, 1000)
    known = (data[heads] == LITTLE_ENDIAN) & (kind <= Kind.MULTI_POLYGON) & (family <= 3)
    more = np.where(family == 3, 2, (family > 0) | (code >= HEIGHT_FLAG))
    return np.where(known, kind, 0), POINT_BYTES + NUMBER_BYTES * more


def _runs_of(data: Bytes, heads: Places, lengths: Places) -> Tuple[Places, Runs]:
    """The kinds of single parts of all geometries, 0 for those that aren't read, and their runs.

    One of a single part counts as that part.
    """
    outer, _ = _kinds_at(data, heads)
    items = _words_at(data, heads + HEAD_BYTES)
    several = outer >= Kind.MULTI_POINT
    heads = np.where(several & (items == 1), heads + HEAD_BYTES + COUNT_BYTES, heads)
    kind, width = _kinds_at(data, heads)
    single = np.where(outer > Kind.POLYGON, outer - Kind.POLYGON, outer)
    single[(lengths == 0) | (kind == 0)] = 0
    items = _words_at(data, heads + HEAD_BYTES)
    compound = (kind > Kind.POLYGON) | (kind == Kind.POLYGON) & (items != 1)
    ringed = kind == Kind.POLYGON
    rows = np.flatnonzero((single > 0) & ~compound)
    counts = np.where(ringed, _words_at(data, heads + HEAD_BYTES + COUNT_BYTES), items)
    begins = heads + HEAD_BYTES + COUNT_BYTES * (kind - Kind.POINT)
    counts[kind == Kind.POINT] = 1
    alone = Runs(rows, begins[rows], counts[rows], width[rows], np.ones(rows.size, np.bool_))
    found = [alone, *(_all_runs(data, row, int(heads[row]))
                      for row in np.flatnonzero((single > 0) & compound).tolist())]
    runs = Runs(*map(np.concatenate, zip(*found)))  # type: ignore[arg-type]
    single[runs.owner[runs.length == 0]] = 0
    order = np.argsort(runs.owner, kind="stable")
    return single, runs.taken(order[single[runs.owner[order]] > 0])


def _all_runs(data: Bytes, owner: int, head: int) -> Runs:
    """The runs of a geometry that has several; else one of no points, which isn't read."""
    places = list(_places_of_runs(data.data, head))
    found = np.array(places if len(places) > 1 else [(head, 0, 0, 0)])
    begin, length, width, number = found.T
    return Runs(np.full(len(found), owner), begin, length, width, number == 0)


def _places_of_runs(data: memoryview, place: int) -> Iterator[Tuple[int, int, int, int]]:
    """Where each run begins, its points, the bytes of one, and its number within its part.

    A run of no points stands for a part that isn't read.
    """
    kind, _ = _head_of(data, place)
    parts = 1
    if kind > Kind.POLYGON:
        (parts,) = COUNT.unpack_from(data, place + HEAD_BYTES)
        place += HEAD_BYTES + COUNT_BYTES
    for _ in range(parts):
        kind, width = _head_of(data, place)
        place += HEAD_BYTES
        rings = 1
        if kind == Kind.POLYGON:
            (rings,) = COUNT.unpack_from(data, place)
            place += COUNT_BYTES
        elif kind not in (Kind.POINT, Kind.LINE):
            yield place, 0, width, 0
            return
        for number in range(rings):
            length = 1
            if kind != Kind.POINT:
                (length,) = COUNT.unpack_from(data, place)
                place += COUNT_BYTES
            yield place, length, width, number
            place += width * length


def _head_of(data: memoryview, place: int) -> Tuple[int, int]:
    """The kind of a geometry, 0 if it isn't read, and the bytes of a point."""
    order, code = HEAD.unpack_from(data, place)
    family, kind = divmod(code & ~HEIGHT_FLAG, 1000)
    more = 2 if family == 3 else 1 if family or code & HEIGHT_FLAG else 0
    return kind if order == LITTLE_ENDIAN else 0, POINT_BYTES + NUMBER_BYTES * more


def _points_of(data: Bytes, runs: Runs) -> Numbers:
    starts = np.cumsum(runs.length) - runs.length
    places = np.repeat(runs.begin - starts * runs.width, runs.length)
    places += np.arange(places.size) * np.repeat(runs.width, runs.length)
    points: Numbers = sliding_window_view(data, POINT_BYTES)[places].view("<f8").reshape(-1, 2)
    return points
