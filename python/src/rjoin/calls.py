"""The calls of this package.

A layer is a GeoDataFrame, a GeoSeries, a series or sequence of Shapely geometries or of well-known
text, or the path of a file: CSV with the header id,wkt, or FILE or FILE:LAYER for all that GDAL
reads. Features are told by their index labels, in sequences by their places from 0, and in CSV
files by their ids. Geometries are points, lines and polygons, and several of one kind.

What all calls have in common:

scale: how many decimals coordinates may have, 0 to 15; by default as many as they need. A
coordinate with more is an InputError: nothing is rounded.
decimals: the number of decimals that coordinates are rounded to, 0 to 15, a half away from zero;
`"auto"` takes 15, or as many as the program's range allows, and 6 of boxes that have no more. The
result has the number as `decimals`.
rings: `"even-odd"` reads polygons whose rings cross, overlap or are flat by the even-odd rule, and
an ImproperRingsWarning says how many there are and names the first five; `"proper"` refuses them.
What two parts of a MULTIPOLYGON both cover is outside by this rule.
other: what happens to geometries of other types: `"error"` raises an InputError, `"skip"` leaves
them out. With `"envelope"` all that are no point, axis-parallel segment or rectangle are replaced
by their envelopes, and frames have a last column `exact`, which is False where a row rests on one.
missing: what happens where a geometry is empty or not there: `"error"` or `"skip"`, and for joins
of frames `"keep"`, by which it is a row without a partner.
What was left out is in no result; a LeftOutWarning tells of it, and `left_out` names each feature
as a Notice. An EnvelopeWarning tells of envelopes, and `enveloped` names the features that they
replace. These and `decimals` are in `attrs` of frames and series, and fields of Stats and Picture.

Raises InputError for a fault of an input, ArgumentError for a wrong argument, and RjoinError for
all else, such as a missing program.
"""
from __future__ import annotations

from numbers import Integral
from typing import TYPE_CHECKING, Any, NamedTuple, Optional, Tuple, Union

from rjoin import program, relations
from rjoin.errors import ArgumentError, Notice
from rjoin.limits import ANY
from rjoin.picture import Picture

if TYPE_CHECKING:
    import pandas

    from rjoin.joining import Reading

MOST_WORKERS = 16
RINGS = ("even-odd", "proper")


Decimals = Union[int, str, None]
Workers = Union[int, str, None]


class Stats(NamedTuple):
    """How many features a layer has, of each dimension, and the height of its R-tree.

    segments and rectangles are lines and areas if the program joins the layer as boxes, and else
    None; vertices, of which a ring has its first one twice, are None if it does.
    """

    features: int
    points: int
    segments: Optional[int]
    rectangles: Optional[int]
    height: int
    left_out: Tuple[Notice, ...] = ()
    enveloped: Tuple[Notice, ...] = ()
    lines: int = 0
    areas: int = 0
    vertices: Optional[int] = None
    decimals: Optional[int] = None


def pairs(left: Any, right: Any, relation: str = "intersects", *, scale: Optional[int] = None,
          decimals: Decimals = None, rings: str = "even-odd", workers: Workers = None,
          ids: str = "label", other: str = "error", missing: str = "error",
          to_crs: bool = False) -> "pandas.DataFrame":
    """The pairs that stand in a relation, as a frame with the columns left, right and matrix.

    relation and workers are as for `sjoin`; matrix has the nine letters of DE-9IM. Pairs come in
    the order of the left layer and then of the right one.
    ids: `"label"` tells features by their labels, `"position"` by their places from 0.
    to_crs: as for `sjoin`.
    """
    from rjoin import joining, sources
    from rjoin.sources import Rules

    relations.check(relation)
    reading = reading_of(scale, auto_after(to_crs, scale, decimals), rings, workers, ids)
    if to_crs:
        left, right = (sources.with_crs(layer, side, reading.rounds)
                       for side, layer in (("left", left), ("right", right)))
    job = joining.job_of((("left", left), ("right", sources.right_of(left, right, to_crs))),
                         reading, Rules(other, missing))
    job.warn_of_crs(depth=1)
    found = joining.joined(job, relation, workers, matrix=True)
    exact = None
    if other == "envelope":
        lefts, rights = job.positions(found)
        found["exact"] = exact = job.are_exact(lefts, rights, relation)
    result = job.identified(found, ids)
    job.finish(result.attrs, depth=1, exact=exact)
    return result


def window(layer: Any, geometry: Any, *, scale: Optional[int] = None, decimals: Decimals = None,
           rings: str = "even-odd", ids: str = "label", other: str = "error",
           missing: str = "error") -> "pandas.Series":
    """The features of a layer that share a point with a geometry, as a series with the name id.

    geometry: by Shapely or as well-known text; `other` doesn't apply to it.
    ids: as for `pairs`; `frame.iloc[window(frame, geometry, ids="position")]` has the rows.
    With envelopes, `attrs["exact"]` is a list of which features meet the geometry by themselves.
    """
    from rjoin import joining
    from rjoin.sources import Rules

    reading = reading_of(scale, decimals, rings, ids=ids)
    place = joining.single(geometry, "window", reading)
    job = joining.job_of((("layer", layer),), reading, Rules(other, missing), [place])
    found = joining.met(job, place).to_frame()
    exact = None
    if other == "envelope":
        (rows,) = job.positions(found)
        exact = job.sources[0].are_exact(rows)
    result = job.identified(found, ids)["id"]
    if exact is not None:
        result.attrs["exact"] = exact.tolist()
    job.finish(result.attrs, depth=1, exact=exact)
    return result


def stats(layer: Any, *, scale: Optional[int] = None, decimals: Decimals = None,
          rings: str = "even-odd", other: str = "error", missing: str = "error") -> Stats:
    """The counts of a layer."""
    from rjoin import joining
    from rjoin.sources import Rules

    reading = reading_of(scale, decimals, rings)
    job = joining.job_of((("layer", layer),), reading, Rules(other, missing))
    counts = joining.counted(job)
    attributes = job.finish({}, depth=1)
    return Stats(**counts, **attributes)


def relate(first: Any, second: Any, *, scale: Optional[int] = None, decimals: Decimals = None,
           rings: str = "even-odd") -> str:
    """The nine letters of DE-9IM of two geometries, by Shapely or as well-known text."""
    from rjoin import joining

    reading = reading_of(scale, decimals, rings)
    job = joining.Job((), reading, [joining.single(first, "first", reading),
                                    joining.single(second, "second", reading)])
    letters = joining.related(job)
    job.finish({}, depth=1)
    return letters


def draw(left: Any, right: Any, relation: str = "intersects", *, scale: Optional[int] = None,
         decimals: Decimals = None, rings: str = "even-odd", other: str = "error",
         missing: str = "error") -> Picture:
    """A picture of two layers in which the features that occur in a pair are highlighted.

    Both layers together have at most 100,000 features.
    """
    from rjoin import joining
    from rjoin.sources import Rules

    relations.check(relation)
    reading = reading_of(scale, decimals, rings)
    job = joining.job_of((("left", left), ("right", right)), reading, Rules(other, missing))
    job.warn_of_crs(depth=1)
    svg = joining.drawn(job, relation)
    return Picture(svg, **job.finish({}, depth=1))


def reading_of(scale: Optional[int], decimals: Decimals, rings: str, workers: Workers = None,
               ids: str = "label") -> "Reading":
    """How numbers and rings are read.

    Wrong arguments, and a missing program, are refused before a layer is looked at.
    """
    check_number("scale", scale, 0, ANY.decimals)
    if workers != "auto":
        check_number("workers", workers, 1, MOST_WORKERS, "'auto' or None")
    if decimals != "auto":
        check_number("decimals", decimals, 0, ANY.decimals, "'auto' or None")
    if scale is not None and decimals is not None:
        raise ArgumentError("scale and decimals exclude each other: scale rounds nothing")
    if rings not in RINGS:
        raise ArgumentError(f"rings must be 'even-odd' or 'proper', not {rings!r}")
    if ids not in ("label", "position"):
        raise ArgumentError(f"ids must be 'label' or 'position', not {ids!r}")
    program.find()
    from rjoin.joining import Reading

    return Reading(scale, decimals, rings)


def auto_after(to_crs: bool, scale: Optional[int], decimals: Decimals) -> Decimals:
    """The decimals of a join that may transform coordinates, which then have as many as a float."""
    return "auto" if to_crs and scale is None and decimals is None else decimals


def check_number(name: str, value: Any, least: int, most: int, others: str = "None") -> None:
    """Refuses what is neither None nor a whole number of a range."""
    whole = isinstance(value, Integral) and not isinstance(value, bool)
    if value is not None and not (whole and least <= value <= most):
        raise ArgumentError(f"{name} must be {least} to {most} or {others}, not {value!r}")
