"""Points, lines and polygons of any form, and several of one kind, by all their points.

They are read from well-known binary and written as well-known text (OGC 06-103r4, 8.2 and 7.2) by
columns: of all geometries together, first the first run of points of each, then the second, and
so on. A run is a line, a ring, or a single point.
"""
from __future__ import annotations

import struct
from typing import IO, Iterator, NamedTuple, Tuple, Union

import numpy as np
from numpy.lib.stride_tricks import sliding_window_view

from rjoin import sheet
from rjoin.shapes import POINT_BYTES, Binary, Bytes, Flags, Kind, Numbers, Places, Simple
from rjoin.shapes import words_at
from rjoin.sheet import Columns, Units

CHUNK = 1 << 16
FEW = 64
WORD = struct.Struct("<I")
PART_BYTES = 5  # the byte order and the type of a part

HEADS = {
    Kind.POINT: b",POINT(",
    Kind.LINE: b',"LINESTRING(',
    Kind.POLYGON: b',"POLYGON((',
    Kind.MULTIPOINT: b',"MULTIPOINT(',
    Kind.MULTILINE: b',"MULTILINESTRING((',
    Kind.MULTIPOLYGON: b',"MULTIPOLYGON(((',
}
TAILS = {
    Kind.POINT: b")\n",
    Kind.LINE: b')"\n',
    Kind.POLYGON: b'))"\n',
    Kind.MULTIPOINT: b')"\n',
    Kind.MULTILINE: b'))"\n',
    Kind.MULTIPOLYGON: b')))"\n',
}
# What is written before a point: nothing at a geometry's first one, or a border of points, runs or
# parts.
LEADS = (b"", b",", b"),(", b")),((")
NONE, OF_POINTS, OF_RUNS, OF_PARTS = range(4)


class Runs(NamedTuple):
    """The runs of some geometries.

    owner: the row of its geometry; begin: the place of its points; length: how many these are;
    opens: whether it is the first one of its part.
    """

    owner: Places
    begin: Places
    length: Places
    opens: Flags

    def taken(self, rows: Places) -> "Runs":
        """Some of the runs."""
        return Runs(self.owner[rows], self.begin[rows], self.length[rows], self.opens[rows])


class Outlines(NamedTuple):
    """Geometries by their points.

    kind: of each geometry its Kind; points: all of them, those of a geometry one behind the other;
    size: of each geometry how many these are; leads: of each point its place in LEADS.
    """

    kind: Places
    points: Numbers
    size: Places
    leads: Bytes

    def chosen(self, flags: Flags) -> "Outlines":
        """Some of the geometries."""
        theirs = np.repeat(flags, self.size)
        return Outlines(self.kind[flags], self.points[theirs], self.size[flags],
                        self.leads[theirs])

    def owner(self, place: int) -> int:
        """The row of the geometry that has a point."""
        return int(np.searchsorted(np.cumsum(self.size), place, side="right"))

    def dots(self, units: Units) -> Flags:
        """Which have a line of one point, or only rings of one point each."""
        begins = self.leads != OF_POINTS
        moves = np.concatenate([[False], (np.diff(units, axis=0) != 0).any(axis=1)]) & ~begins
        starts = np.flatnonzero(begins)
        long = np.logical_or.reduceat(moves, starts) if starts.size else begins
        owner = np.repeat(np.arange(self.kind.size), self.size)[starts]
        lengths = np.bincount(owner, long, self.kind.size)
        lines = np.isin(self.kind, (Kind.LINE, Kind.MULTILINE))
        areas = np.isin(self.kind, (Kind.POLYGON, Kind.MULTIPOLYGON))
        few = lengths < np.bincount(owner, minlength=self.kind.size)
        dots: Flags = lines & few | areas & (lengths == 0)
        return dots


def outlines_of(given: Union[Binary, Simple], rows: Places) -> Outlines:
    """The outlines of geometries that are not empty and of a Kind, by their rows."""
    if isinstance(given, Simple):
        return outlines_of_simple(given, rows)
    return outlines_of_binary(given, rows)


def outlines_of_simple(simple: Simple, rows: Places) -> Outlines:
    leads = np.full(len(simple.points), OF_POINTS, np.uint8)
    starts = np.cumsum(simple.size) - simple.size
    leads[starts[rows]] = NONE
    outlines = Outlines(simple.kind, simple.points, simple.size, leads)
    if rows.size == simple.size.size:
        return outlines
    flags = np.zeros(simple.size.size, np.bool_)
    flags[rows] = True
    return outlines.chosen(flags)


def outlines_of_binary(binary: Binary, rows: Places) -> Outlines:
    head = binary.head[rows]
    kind = words_at(binary.data, head + 1)
    runs = runs_of(binary.data, head, kind)
    starts = np.cumsum(runs.length) - runs.length
    places = np.repeat(runs.begin - POINT_BYTES * starts, runs.length)
    places += POINT_BYTES * np.arange(places.size)
    points = sliding_window_view(binary.data, POINT_BYTES)[places].view("<f8").reshape(-1, 2)
    size = np.bincount(runs.owner, runs.length, rows.size).astype(np.int64)
    outlines = Outlines(kind, points, size, leads_of(runs, starts, kind[runs.owner], len(points)))
    return without_void_points(outlines)


def runs_of(data: Bytes, head: Places, kind: Places) -> Runs:
    """The runs of all geometries, those of a geometry one behind the other."""
    many = kind > Kind.POLYGON
    parts = np.where(many, words_at(data, head + 5), 1)
    place = np.where(many, head + 9, head)
    base = np.where(many, kind - Kind.POLYGON, kind)
    pointlike = base == Kind.POINT
    found = [runs_of_points(np.flatnonzero(pointlike), place, parts),
             *waves(data, np.flatnonzero(~pointlike), place, parts, base == Kind.POLYGON)]
    runs = Runs(np.concatenate([some.owner for some in found]),
                np.concatenate([some.begin for some in found]),
                np.concatenate([some.length for some in found]),
                np.concatenate([some.opens for some in found]))
    order = np.argsort(runs.owner, kind="stable")
    return runs.taken(order[runs.length[order] > 0])


def runs_of_points(rows: Places, place: Places, parts: Places) -> Runs:
    """The runs of points and multipoints, whose parts have equally many bytes."""
    count = parts[rows]
    owner = np.repeat(rows, count)
    number = np.arange(owner.size) - np.repeat(np.cumsum(count) - count, count)
    begin = place[owner] + PART_BYTES + (PART_BYTES + POINT_BYTES) * number
    return Runs(owner, begin, np.ones_like(owner), np.ones(owner.size, np.bool_))


def waves(data: Bytes, rows: Places, place: Places, parts: Places,
          ringed: Flags) -> Iterator[Runs]:
    """The runs of lines and polygons, a run of each geometry that has more at a time.

    A part's header is followed by a polygon's number of rings, and a run by its number of points.
    Few geometries that have many runs are read one by one.
    """
    place, parts, ringed = place[rows], parts[rows], ringed[rows]
    rings = np.zeros_like(rows)
    while rows.size > FEW:
        opens = rings == 0
        rings = np.where(opens, np.where(ringed, words_at(data, place + PART_BYTES), 1), rings)
        place = place + np.where(opens, np.where(ringed, PART_BYTES + 4, PART_BYTES), 0)
        parts = parts - opens
        some = rings > 0
        count = np.where(some, words_at(data, place), 0)
        yield Runs(rows[some], place[some] + 4, count[some], opens[some])
        place = place + np.where(some, 4 + POINT_BYTES * count, 0)
        rings = rings - some
        going = (rings > 0) | (parts > 0)
        if not going.all():
            rows, place, parts = rows[going], place[going], parts[going]
            ringed, rings = ringed[going], rings[going]
    for one in range(rows.size):
        left = int(parts[one]), int(rings[one])
        found = np.array(list(begins_of(data.data, int(place[one]), left, ringed[one])))
        begin, length, opens = found.reshape(-1, 3).T
        yield Runs(np.full(begin.size, rows[one]), begin, length, opens != 0)


def begins_of(data: memoryview, place: int, left: Tuple[int, int],
              ringed: bool) -> Iterator[Tuple[int, int, bool]]:
    """Where each run of a geometry from a place on begins, its length, and whether it opens a part.

    left: how many parts follow, and how many rings of the part before them.
    """
    parts, rings = left
    while parts or rings:
        opens = rings == 0
        if opens:
            parts, rings = parts - 1, 1
            place += PART_BYTES
        if opens and ringed:
            (rings,) = WORD.unpack_from(data, place)
            place += WORD.size
        if rings:
            (length,) = WORD.unpack_from(data, place)
            yield place + WORD.size, length, opens
            place += WORD.size + POINT_BYTES * length
            rings -= 1


def leads_of(runs: Runs, starts: Places, kind: Places, count: int) -> Bytes:
    """What is written before each point, by the starts of the runs and their geometries' kinds."""
    borders = np.full(starts.size, OF_RUNS, np.uint8)
    borders[runs.opens & (kind == Kind.MULTIPOLYGON)] = OF_PARTS
    borders[kind == Kind.MULTIPOINT] = OF_POINTS
    borders[np.diff(runs.owner, prepend=-1) != 0] = NONE
    leads = np.full(count, OF_POINTS, np.uint8)
    leads[starts] = borders
    return leads


def without_void_points(outlines: Outlines) -> Outlines:
    """The same without the empty points of multipoints, which binary writes as NaN."""
    if not (outlines.kind == Kind.MULTIPOINT).any():
        return outlines
    void = np.isnan(outlines.points).all(axis=1)
    void &= np.repeat(outlines.kind == Kind.MULTIPOINT, outlines.size)
    if not void.any():
        return outlines
    owners = np.repeat(np.arange(outlines.size.size), outlines.size)[~void]
    leads = outlines.leads[~void]
    leads[np.diff(owners, prepend=-1) != 0] = NONE
    size = np.bincount(owners, minlength=outlines.size.size)
    return Outlines(outlines.kind, outlines.points[~void], size, leads)


class Table(NamedTuple):
    """Outlines to be written: their points in units, and the columns of ids and coordinates."""

    outlines: Outlines
    units: Units
    columns: Columns

    @property
    def widths(self) -> Tuple[Places, Places]:
        """The bytes of each geometry before its first point, and those behind its last one."""
        place = self.outlines.kind - Kind.POINT
        heads, tails = (np.array([len(words[kind]) for kind in Kind]) for words in (HEADS, TAILS))
        return heads[place] + self.columns.id.width, tails[place]

    @property
    def point_width(self) -> int:
        return self.columns.x.width + 1 + self.columns.y.width

    @property
    def lead_widths(self) -> Places:
        return np.array([len(lead) for lead in LEADS])[self.outlines.leads]

    @property
    def bytes_of_lines(self) -> int:
        heads, tails = self.widths
        points = self.lead_widths.sum() + self.units.shape[0] * self.point_width
        return int(heads.sum() + tails.sum() + points)

    def parts(self) -> Iterator[Tuple[int, "Table"]]:
        """Tables of consecutive geometries with some thousand points, each with its first row."""
        ends = np.cumsum(self.outlines.size)
        borders = np.searchsorted(ends, np.arange(CHUNK, ends[-1] if ends.size else 0, CHUNK))
        rows = np.unique(np.concatenate([[0], borders + 1, [ends.size]]))
        for first, end in zip(rows[:-1].tolist(), rows[1:].tolist()):
            start = int(ends[first] - self.outlines.size[first])
            theirs = slice(start, int(ends[end - 1]))
            part = Outlines(self.outlines.kind[first:end], self.outlines.points[theirs],
                            self.outlines.size[first:end], self.outlines.leads[theirs])
            yield first, Table(part, self.units[theirs], self.columns)

    def write(self, file: IO[bytes]) -> None:
        """Writes a line for each geometry."""
        for first, part in self.parts():
            file.write(part.lines(first).tobytes())

    def lines(self, first: int) -> Bytes:
        """The bytes of the lines, whose ids begin with a number."""
        kind, size = self.outlines.kind, self.outlines.size
        heads, tails = self.widths
        ends = np.cumsum(self.lead_widths + self.point_width)
        ends += np.repeat(np.cumsum(heads) + np.cumsum(tails) - tails, size)
        last = np.cumsum(size) - 1
        text = np.empty(int(ends[-1] + tails[-1]), np.uint8)
        begins = ends - self.point_width
        put(text, begins - len(LEADS[OF_POINTS]), self.written_points())
        for lead in (OF_RUNS, OF_PARTS):
            places = begins[self.outlines.leads == lead]
            put_same(text, places - len(LEADS[lead]), LEADS[lead])
        ids = sheet.written(np.arange(first, first + kind.size), self.columns.id)
        put(text, begins[last - size + 1] - heads, ids)
        for one in Kind:
            rows = np.flatnonzero(kind == one)
            put_same(text, begins[last[rows] - size[rows] + 1] - len(HEADS[one]), HEADS[one])
            put_same(text, ends[last[rows]], TAILS[one])
        return text

    def written_points(self) -> Bytes:
        """Each point behind a comma, in whose place something else may be written then."""
        x, y = self.columns.x, self.columns.y
        rows = np.empty((len(self.units), 1 + self.point_width), np.uint8)
        rows[:, 0] = ord(",")
        sheet.fill(rows, 1, self.units[:, 0], x)
        rows[:, 1 + x.width] = ord(" ")
        sheet.fill(rows, 2 + x.width, self.units[:, 1], y)
        return rows


def put(text: Bytes, places: Places, rows: Bytes) -> None:
    """Writes rows of bytes at some places of a text."""
    if places.size:
        width = rows.shape[1]
        sheet.words_in(text, width)[places] = sheet.words_of(rows, 0, width)


def put_same(text: Bytes, places: Places, word: bytes) -> None:
    """Writes a word at some places of a text."""
    if places.size:
        sheet.words_in(text, len(word))[places] = np.frombuffer(word, f"V{len(word)}")
