"""Which geometries are points, axis-parallel segments or rectangles, and the corners of all.

Geometries are taken as well-known binary (OGC 06-103r4, 8.2) and examined by columns: those of a
kind that have equally many points together. rjoin.outlines reads all points of the others.
"""
from __future__ import annotations

import ctypes
import enum
from itertools import repeat
from typing import Any, Iterable, Iterator, List, NamedTuple, Optional, Tuple, Union

import numpy as np
import pandas
from numpy.lib.stride_tricks import sliding_window_view
from numpy.typing import NDArray

Objects = NDArray[np.object_]
Numbers = NDArray[np.float64]
Places = NDArray[np.int64]
Flags = NDArray[np.bool_]
Bytes = NDArray[np.uint8]

CHUNK = 1 << 16
POINT_BYTES = 16
BYTES_AT = ctypes.PYFUNCTYPE(ctypes.py_object, ctypes.c_void_p, ctypes.c_ssize_t)(
    ("PyBytes_FromStringAndSize", ctypes.pythonapi))


# The types of the arguments of GEOS: handles, geometries, places, and two flags.
WORDS = (ctypes.c_void_p,) * 3 + (ctypes.c_int,) * 2


class Status(enum.IntEnum):
    """What a geometry is to the program: a box, or what it reads by `--geometry any`, or nothing.

    OTHER is of another type, such as a collection of several parts.
    """

    BOX = 0
    ANY = 1
    OTHER = 2
    EMPTY = 3
    MISSING = 4
    NOT_FINITE = 5


class Kind(enum.IntEnum):
    """The types of well-known binary; those above POLYGON have parts."""

    POINT = 1
    LINE = 2
    POLYGON = 3
    MULTIPOINT = 4
    MULTILINE = 5
    MULTIPOLYGON = 6


# By Shapely's numbers of types: points, lines, rings that stand alone, polygons; 0 for others, also
# for the number -1 of None.
KIND_OF_TYPE = np.array([Kind.POINT, Kind.LINE, Kind.LINE, Kind.POLYGON, 0, 0, 0, 0, 0], np.int64)


class Binary(NamedTuple):
    """Geometries as well-known binary, one behind the other, and the place of each one's header.

    A collection with one part has its header at this part. More bytes follow the last geometry.
    """

    data: Bytes
    head: Places


class Simple(NamedTuple):
    """Points, lines and polygons without holes, by their points.

    kind: of each geometry its Kind; points: all of them, those of a geometry one behind the other;
    size: of each geometry how many these are.
    """

    kind: Places
    points: Numbers
    size: Places


class Boxes(NamedTuple):
    """Geometries by their envelopes.

    corners: least x, least y, greatest x and greatest y a row; NaN where there is no envelope or
    where it was not asked for.
    status: the Status of each. given: all their points.
    """

    corners: Numbers
    status: Bytes
    given: Union[Binary, Simple]


class Bodies(NamedTuple):
    """Where the points of each geometry lie among the bytes; of a polygon, of its outer ring.

    head: the place of the header; plain: it has one part and no hole; whole: these points have the
    envelope of the geometry.
    """

    head: Places
    kind: Places
    points: Places
    start: Places
    plain: Flags
    whole: Flags


def boxes_of(geometries: Objects, all_envelopes: bool = False) -> Boxes:
    """The boxes of Shapely geometries or None.

    A collection with a single part counts as that part. Of a geometry that is no box, the corners
    are those of its envelope; of several parts only with `all_envelopes`.
    """
    simple = simple_of(geometries)
    if simple is not None:
        return boxes_of_simple(simple, all_envelopes)
    texts = binary_of(geometries)
    lengths = np.fromiter(map(len, texts), np.int64, len(texts))
    data = np.frombuffer(b"".join([*texts, bytes(32)]), np.uint8)
    del texts
    bodies = bodies_of(data, np.cumsum(lengths) - lengths)
    corners, status = read_boxes(data, bodies, (lengths > 0) & bodies.whole & (bodies.points > 0))
    status[bodies.points == 0] = Status.EMPTY
    status[lengths == 0] = Status.MISSING
    compound = np.flatnonzero(~bodies.whole & (status == Status.ANY))
    without = are_empty(geometries[compound])
    status[compound[without]] = Status.EMPTY
    status[(status == Status.ANY) & (bodies.kind > Kind.MULTIPOLYGON)] = Status.OTHER
    if all_envelopes:
        compound = compound[~without]
        corners[compound] = bounds_of(geometries[compound])
        finite = np.isfinite(corners[compound]).all(axis=1)
        status[compound[~finite]] = Status.NOT_FINITE
    return Boxes(corners, status, Binary(data, bodies.head))


def simple_of(geometries: Objects) -> Optional[Simple]:
    """Geometries by their points, where all are there and of one part without a hole."""
    import shapely

    if not hasattr(shapely, "get_coordinates"):
        return simple_by_geos(geometries)
    kind = KIND_OF_TYPE[shapely.get_type_id(geometries)]
    if not kind.all() or shapely.get_num_interior_rings(geometries).any():
        return None
    size = shapely.get_num_coordinates(geometries).astype(np.int64)
    return Simple(kind, shapely.get_coordinates(geometries), size)


def simple_by_geos(geometries: Objects) -> Optional[Simple]:
    """The same for geometries of Shapely 1.8, whose points GEOS copies if it is 3.10 or later.

    Only the outer ring of a polygon is copied: where it has others, no points are there at the end.
    None if one is empty: an empty geometry may be Shapely's empty collection, whatever its class,
    and GEOS has neither a ring nor a sequence of points of a collection.
    """
    from shapely import geometry
    from shapely.geos import lgeos

    types = (geometry.Point, geometry.LineString, geometry.LinearRing, geometry.Polygon)
    kinds = dict(zip(types, KIND_OF_TYPE.tolist()))
    if len(set(map(type, geometries))) == 1:
        kind = np.full(geometries.size, kinds.get(type(geometries[0]), 0), np.int64)
    else:
        kind = np.fromiter(map(kinds.get, map(type, geometries), repeat(0)), np.int64,
                           geometries.size)
    library = ctypes.PyDLL(lgeos._lgeos._name)
    if not kind.all() or not hasattr(library, "GEOSCoordSeq_copyToBuffer_r"):
        return None
    pointers = [one.__geom__ for one in geometries]
    if None in pointers:
        return None

    def called(name: str, *columns: Iterable[int], returns: Any = ctypes.c_void_p) -> List[int]:
        """What GEOS returns for each geometry."""
        function = library[name + "_r"]
        function.restype, function.argtypes = returns, WORDS[:1 + len(columns)]
        return list(map(function, repeat(lgeos.geos_handle), *columns))

    size = np.array(called("GEOSGetNumCoordinates", pointers, returns=ctypes.c_int), np.int64)
    if not size.all():
        return None
    areas = np.flatnonzero(kind == Kind.POLYGON)
    lines = np.array(pointers, np.uint64)
    lines[areas] = called("GEOSGetExteriorRing", lines[areas].tolist())
    points = np.full((int(size.sum()), 2), np.nan)
    ends = np.cumsum(size)
    places = (points.ctypes.data + POINT_BYTES * (ends - size)).tolist()
    sequences = called("GEOSGeom_getCoordSeq", lines.tolist())
    copied = called("GEOSCoordSeq_copyToBuffer", sequences, places, repeat(0), repeat(0),
                    returns=ctypes.c_int)
    full = all(copied) and not np.isnan(points[ends - 1]).any()
    return Simple(kind, points, size) if full else None


def boxes_of_simple(simple: Simple, all_envelopes: bool) -> Boxes:
    """Of geometries with a slanted step, which are no boxes, corners are found if all are wanted.

    Their numbers may not be finite.
    """
    start = POINT_BYTES * (np.cumsum(simple.size) - simple.size)
    all_of_them = np.ones(simple.size.size, np.bool_)
    bodies = Bodies(start, simple.kind, simple.size, start, all_of_them, all_of_them)
    data = simple.points.reshape(-1).view(np.uint8)
    chosen = simple.size > 0
    if not all_envelopes:
        chosen &= ~have_slanted_steps(simple)
    corners, status = read_boxes(data, bodies, chosen)
    status[simple.size == 0] = Status.EMPTY
    return Boxes(corners, status, simple)


def have_slanted_steps(simple: Simple) -> Flags:
    """Which geometries have a step along neither axis; one to a NaN in both counts as such."""
    x, y = (np.ascontiguousarray(simple.points[:, axis]) for axis in (0, 1))
    slanted = np.zeros(len(x) + 1, np.bool_)
    np.logical_and(x[1:] != x[:-1], y[1:] != y[:-1], out=slanted[1:-1])
    begins = np.cumsum(simple.size) - simple.size
    slanted[begins] = False
    there = simple.size > 0
    flags: Flags = np.zeros(there.size, np.bool_)
    if there.any():
        flags[there] = np.logical_or.reduceat(slanted, begins[there])
    return flags


def are_empty(geometries: Objects) -> Flags:
    import shapely

    if hasattr(shapely, "is_empty"):
        flags: Flags = shapely.is_empty(geometries)
        return flags
    return np.array([geometry.is_empty for geometry in geometries], np.bool_)


def bounds_of(geometries: Objects) -> Numbers:
    """The corners of envelopes, a row each; NaN where there is none."""
    import shapely

    if hasattr(shapely, "bounds"):
        corners: Numbers = shapely.bounds(geometries)
        return corners
    bounds = [geometry.bounds or (np.nan,) * 4 for geometry in geometries]
    return np.reshape(np.array(bounds, np.float64), (-1, 4))


def binary_of(geometries: Objects) -> List[bytes]:
    """Two-dimensional little-endian well-known binary; no bytes for None."""
    import shapely

    present = ~pandas.isna(geometries)
    there = geometries[present]
    if hasattr(shapely, "to_wkb"):
        written = list(shapely.to_wkb(there, output_dimension=2, byte_order=1))
    else:
        written = written_by_geos(there)
    if there.size == geometries.size:
        return written
    texts = np.full(geometries.size, b"", object)
    texts[present] = written
    return list(texts)


def written_by_geos(geometries: Objects) -> List[bytes]:
    """Geometries of Shapely 1.8 as two-dimensional little-endian well-known binary.

    GEOS writes each; Shapely's own call for one takes twice the time, but asks an adapter for the
    geometry that it has not made yet, in whose place it has the empty collection.
    """
    from shapely.geometry.base import EMPTY
    from shapely.geos import WKBWriter, lgeos

    writer = WKBWriter(lgeos, output_dimension=2, big_endian=False)
    pointers = [geometry.__geom__ for geometry in geometries]
    if EMPTY in pointers or None in pointers:
        return list(map(writer.write, geometries))
    library = ctypes.PyDLL(lgeos._lgeos._name)
    write = library.GEOSWKBWriter_write_r
    write.restype, write.argtypes = ctypes.c_void_p, (ctypes.c_void_p,) * 4
    free = library.GEOSFree_r
    free.restype, free.argtypes = None, (ctypes.c_void_p,) * 2
    size = ctypes.c_size_t()
    handle, maker, place = lgeos.geos_handle, writer._writer, ctypes.addressof(size)
    texts = []
    for pointer in pointers:
        text = write(handle, maker, pointer, place)
        if not text:
            raise MemoryError("GEOS writes no binary of a geometry")
        texts.append(BYTES_AT(text, size.value))
        free(handle, text)
    return texts


def words_at(data: Bytes, places: Places) -> Places:
    """The 32-bit words that begin at these places."""
    words = sliding_window_view(data, 4)[places].view("<u4")
    return words.reshape(-1).astype(np.int64)


def bodies_of(data: Bytes, start: Places) -> Bodies:
    """The bodies of the geometries that begin at these places; more bytes follow the last.

    A header has the byte order, the type, and but for a point a count of points, rings or parts.
    """
    kind, items = words_at(data, start + 1), words_at(data, start + 5)
    wrapped = (kind > Kind.POLYGON) & (items == 1)
    while wrapped.any():
        start = start + 9 * wrapped
        kind, items = words_at(data, start + 1), words_at(data, start + 5)
        wrapped = (kind > Kind.POLYGON) & (items == 1)
    point, polygon, compound = kind == Kind.POINT, kind == Kind.POLYGON, kind > Kind.POLYGON
    ringed = polygon & (items > 0)
    count = np.where(ringed, words_at(data, start + 9), np.where(point, 1, items))
    begin = start + 9 + 4 * ringed - 4 * point
    return Bodies(start, kind, count, begin, ~compound & ~(polygon & (items > 1)), ~compound)


class Points(NamedTuple):
    """The points of geometries that have equally many, as two matrices of x and y.

    axis: that along which the points of a geometry stand; it is the shorter one, since NumPy goes
    along the longer one faster.
    """

    x: Numbers
    y: Numbers
    axis: int

    def chosen(self, flags: Flags) -> "Points":
        """Those of some of the geometries."""
        return Points(self.x.compress(flags, 1 - self.axis), self.y.compress(flags, 1 - self.axis),
                      self.axis)

    def corners(self) -> Numbers:
        """The least x and y and the greatest x and y of each geometry, a row each."""
        return np.stack([self.x.min(self.axis), self.y.min(self.axis), self.x.max(self.axis),
                         self.y.max(self.axis)], axis=1)

    def steps(self) -> Tuple[Numbers, Numbers]:
        """From each point to the next one, along x and along y."""
        return np.diff(self.x, axis=self.axis), np.diff(self.y, axis=self.axis)

    def are_closed(self) -> Flags:
        """Which geometries end at their first point."""
        closed: Flags = np.ones(self.x.shape[1 - self.axis], np.bool_)
        for values in (self.x, self.y):
            closed &= values.take(0, self.axis) == values.take(-1, self.axis)
        return closed


def read_boxes(data: Bytes, bodies: Bodies, chosen: Flags) -> Tuple[Numbers, Bytes]:
    """The corners and the status of the chosen geometries; the others are ANY, without corners."""
    corners = np.full((chosen.size, 4), np.nan)
    status = np.full(chosen.size, Status.ANY, np.uint8)
    for kind, count, rows in groups(bodies, chosen):
        points = points_at(data, bodies.start[rows], count)
        corners[rows] = theirs = points.corners()
        box = SHAPE_TESTS[Kind(kind)](points) & bodies.plain[rows]
        status[rows[box]] = Status.BOX
        finite = np.isfinite(theirs)
        if not finite.all():
            status[rows[~finite.all(axis=1)]] = Status.NOT_FINITE
        if kind == Kind.POINT:
            status[rows[np.isnan(theirs).all(axis=1)]] = Status.EMPTY
    return corners, status


def groups(bodies: Bodies, chosen: Flags) -> Iterator[Tuple[int, int, Places]]:
    """The chosen rows by kind and number of points, at most CHUNK of them at once."""
    rows = np.flatnonzero(chosen)
    order = np.lexsort((bodies.points[rows], bodies.kind[rows]))
    rows = rows[order]
    kind, count = bodies.kind[rows], bodies.points[rows]
    changes = np.flatnonzero((np.diff(kind) != 0) | (np.diff(count) != 0)) + 1
    borders = np.union1d(changes, np.arange(0, rows.size, CHUNK))
    for first, end in zip(borders, [*borders[1:], rows.size]):
        yield int(kind[first]), int(count[first]), rows[first:end]


def points_at(data: Bytes, places: Places, count: int) -> Points:
    """The points, `count` of each geometry, that begin at these places."""
    rows = sliding_window_view(data, POINT_BYTES * count)[places].view("<f8")
    if count > places.size:
        return Points(rows[:, 0::2], rows[:, 1::2], axis=1)
    columns = np.ascontiguousarray(rows.T)
    return Points(columns[0::2], columns[1::2], axis=0)


def is_point(points: Points) -> Flags:
    return np.ones(points.x.shape[1 - points.axis], np.bool_)


def is_segment(points: Points) -> Flags:
    """Which rows of points go straight along an axis, without a way back; a point may repeat."""
    along_x, along_y = points.steps()
    flat, upright = ((steps == 0).all(points.axis) for steps in (along_y, along_x))
    segment: Flags = ((flat & goes_one_way(along_x, points.axis))
                      | (upright & goes_one_way(along_y, points.axis)))
    return segment


def goes_one_way(steps: Numbers, axis: int) -> Flags:
    up, down = (steps >= 0).all(axis), (steps <= 0).all(axis)
    one_way: Flags = (up | down) & (steps != 0).any(axis)
    return one_way


def is_rectangle(points: Points) -> Flags:
    """Which closed rings go once round a rectangle with sides along the axes; a point may repeat.

    Every step goes along an axis, and the headings turn four times, always to the same hand.
    """
    along_x, along_y = points.steps()
    rectangle: Flags = ((along_x == 0) | (along_y == 0)).all(points.axis) & points.are_closed()
    if not rectangle.all():
        along_x, along_y = points.chosen(rectangle).steps()
    heading = np.where(along_y == 0, np.where(along_x > 0, 0, 2), np.where(along_y > 0, 1, 3))
    heading = heading.astype(np.int8)
    still = (along_x == 0) & (along_y == 0)
    if still.any():
        heading = carried_over(heading, still, points.axis)
    turns = (np.roll(heading, -1, points.axis) - heading) & 3
    sides, back = (turns & 1).sum(points.axis), (turns == 2).any(points.axis)
    one_hand = ~(turns == 1).any(points.axis) | ~(turns == 3).any(points.axis)
    rectangle[rectangle] = (sides == 4) & ~back & one_hand
    return rectangle


def carried_over(heading: Places, still: Flags, axis: int) -> Places:
    """The headings of rings, those of steps without a length replaced by the heading before."""
    steps = heading.shape[axis]
    numbers = np.arange(2 * steps).reshape((-1, 1) if axis == 0 else (1, -1))
    place = np.where(np.concatenate([still, still], axis), 0, numbers)
    np.maximum.accumulate(place, axis=axis, out=place)
    twice = np.concatenate([heading, heading], axis)
    return np.take_along_axis(twice, place, axis).take(np.arange(steps, 2 * steps), axis)


SHAPE_TESTS = {Kind.POINT: is_point, Kind.LINE: is_segment, Kind.POLYGON: is_rectangle}
