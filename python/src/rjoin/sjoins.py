"""The calls that join frames: by a relation, within a distance, and to the nearest features.

Their results have the columns, the index and the order of rows of the GeoPandas that is installed.
rjoin.calls has what all calls have in common.
"""
from __future__ import annotations

import warnings
from typing import TYPE_CHECKING, Any, Dict, NamedTuple, Optional, Tuple

from rjoin import relations
from rjoin.calls import Decimals, Workers, auto_after, reading_of
from rjoin.errors import ArgumentError

if TYPE_CHECKING:
    import geopandas

    from rjoin.frames import Flags, Matches
    from rjoin.frames import Rules as FrameRules
    from rjoin.joining import Job
    from rjoin.lengths import Length

WITHIN = "dwithin"
NEAREST = "nearest"
# What the predicate None asks of envelopes.
BY_ENVELOPES = "intersects"
RENAMED = ("The `op` parameter is deprecated; GeoPandas 1 has it no longer. Please use the "
           "`predicate` parameter instead.")
OVERRIDDEN = ("predicate={!r} was given beside op={!r}. The value of `predicate` will be "
              "overridden by the value of `op`. " + RENAMED)


def sjoin(left: "geopandas.GeoDataFrame", right: "geopandas.GeoDataFrame",
          predicate: Optional[str] = "intersects", how: str = "inner", *, distance: Any = None,
          on_attribute: Any = None, op: Optional[str] = None, scale: Optional[int] = None,
          decimals: Decimals = None, rings: str = "even-odd", workers: Workers = None,
          lsuffix: str = "left", rsuffix: str = "right", matrix: bool = False,
          other: str = "error", missing: str = "error", incomplete: str = "error",
          to_crs: bool = False) -> "geopandas.GeoDataFrame":
    """The rows of one frame beside the fields of each row of the other that they are related to.

    The columns and the index are those of geopandas.sjoin. With `how` as `"inner"` or `"left"` they
    are the left index and columns, the right index, and the right columns but for the geometry,
    with suffixes where both frames have a name; with `"right"` the left index and columns but for
    the geometry, and the right columns and index. The geometry of the result has no suffix, also
    where GeoPandas 0.12 gives it one and returns no GeoDataFrame. By `"left"` and `"right"` a row
    of this side without a partner is kept, with missing values. Rows come in the order of the left
    frame and then of the right one, and with `"right"` of the right frame and then of the left one.
    As there, a warning tells of two reference systems.

    predicate: intersects, touches, crosses, within, contains, overlaps, equals, covers, covered_by,
    contains_properly, a DE-9IM mask, or dwithin, which is at most `distance` apart. None joins
    features whose envelopes share a point.
    distance: in the units of the coordinates, and rounded as these are: one number, or one for each
    left row, as a sequence or the name of a column.
    on_attribute: a column, or a list or tuple of columns, of both frames, whose values have to be
    equal too.
    op: the predicate, as GeoPandas had it before 1.
    workers: the program's threads, 1 to 16; 4 by default; with `"auto"` one per processor that the
    system has for the program, and 16 at most.
    matrix: adds the column `matrix` with the nine letters of each pair.
    incomplete: what a left or right join does where features of the other side are left out, any of
    which may be the partner of a row without one: `"error"` raises an InputError, `"mark"` adds the
    column `known`, which is False in these rows.
    to_crs: joins the right geometries as they are in the left frame's reference system, by
    `GeoDataFrame.to_crs`. Then `decimals` is `"auto"` unless `scale` or `decimals` is given.
    """
    from rjoin import frames, joining
    from rjoin.lengths import Measure
    from rjoin.sources import Rules, right_of

    relation = predicate_of(predicate, op)
    check_question(relation, distance, matrix)
    rules = frames.rules_of(how, frames.Suffixes(lsuffix, rsuffix), on_attribute)
    frames.check(left, right, rules)
    frames.check_incomplete(incomplete, how)
    reading = reading_of(scale, auto_after(to_crs, scale, decimals), rings, workers)
    length = length_of(distance, left)
    treated = Rules("envelope" if relation is None else other, missing, keeps=True)
    job = joining.job_of((("left", left), ("right", right_of(left, right, to_crs))), reading,
                         treated, measure=Measure((length,), is_each(length)) if length else None)
    if relation is None and other != "envelope":
        job.forget_envelopes()
    if how != "inner" and incomplete == "error":
        job.refuse_incomplete(1 - rules.base, "how='inner', or incomplete='mark'")
    job.warn_of_crs(depth=1, unknown=True)
    found = pairs_of(job, relation or BY_ENVELOPES, length, workers, matrix)
    return result_of(job, (left, right), found, rules, Wanted(
        relation or BY_ENVELOPES, {"matrix": "matrix"} if matrix else {}, other == "envelope",
        incomplete == "mark"))


def sjoin_nearest(left: "geopandas.GeoDataFrame", right: "geopandas.GeoDataFrame",
                  how: str = "inner", max_distance: Optional[float] = None, lsuffix: str = "left",
                  rsuffix: str = "right", distance_col: Optional[str] = None,
                  exclusive: bool = False, *, scale: Optional[int] = None,
                  decimals: Decimals = None, rings: str = "even-odd",
                  workers: Workers = None, other: str = "error", missing: str = "error",
                  incomplete: str = "error", to_crs: bool = False) -> "geopandas.GeoDataFrame":
    """The rows of one frame beside the fields of the nearest row of the other, or of several that
    are equally near.

    The columns and the index are those of geopandas.sjoin_nearest. With `how` as `"inner"` or
    `"left"` the nearest right rows of each left row are looked for, with `"right"` the nearest left
    rows of each right row. Which are nearest is decided exactly. Rows come in the order of the side
    whose nearest are looked for, and then of the other one. As there, warnings tell of two
    reference systems, and of one in degrees.

    max_distance: how far away the nearest row may be, in the units of the coordinates, and rounded
    as these are; above 0. None for any distance.
    distance_col: adds a column of this name with the distances, rounded to 6 decimals, to those of
    the coordinates where these have more, or to as many as the program's range allows; or to those
    of `scale` if it is given.
    exclusive: leaves out rows whose geometry is equal to that of the row.
    incomplete: what a join does where features of the other side are left out, any of which may be
    the nearest one: `"error"` raises an InputError, `"mark"` adds the column `known`, which is
    False in all rows then.
    to_crs: as for `sjoin`.
    """
    from rjoin import frames, joining
    from rjoin.lengths import Measure
    from rjoin.sources import Rules, right_of

    reading = reading_of(scale, auto_after(to_crs, scale, decimals), rings, workers)
    rules = frames.rules_of(how, frames.Suffixes(lsuffix, rsuffix))
    frames.check(left, right, rules)
    frames.check_incomplete(incomplete)
    length = reach_of(max_distance)
    lengths = (length,) if length else ()
    others = right_of(left, right, to_crs)
    job = joining.job_of(
        (("left", left), ("right", others)), reading, Rules(other, missing, keeps=True),
        measure=Measure(lengths, distance_col is not None and scale is None))
    if incomplete == "error":
        job.refuse_incomplete(1 - rules.base)
    job.warn_of_crs(depth=1, unknown=True)
    for frame in (left, others):
        frame.geometry.values.check_geographic_crs(stacklevel=3)
    found = joining.nearest(job, rules.base, length, workers, exclusive)
    return result_of(job, (left, right), found, rules, Wanted(
        NEAREST, {} if distance_col is None else {"distance": distance_col}, other == "envelope",
        incomplete == "mark"))


class Wanted(NamedTuple):
    """What the rows of a result have beside the columns of both frames.

    columns: those of the report, and their names in the result.
    """

    relation: str
    columns: Dict[str, str]
    exact: bool
    known: bool


def result_of(job: "Job", both: Tuple[Any, Any], found: Any, rules: "FrameRules",
              wanted: Wanted) -> Any:
    """The frame of a join by the pairs that the program has found."""
    from rjoin import frames

    lefts, rights = job.positions(found)
    if rules.on:
        equal = frames.with_equal(*both, (lefts, rights), rules.on)
        lefts, rights, found = lefts[equal], rights[equal], found[equal]
    matches = frames.arranged((lefts, rights), rules.how, job.kept(rules.base))
    result = frames.joined(*both, matches, rules)
    for column, name in wanted.columns.items():
        frames.add_taken(result, name, found[column].to_numpy(), matches)
    exact = None
    if wanted.exact:
        exact = are_exact(job, matches, wanted.relation, rules.base)
        frames.add_column(result, "exact", exact)
    if wanted.known:
        known = are_known(job, matches, wanted.relation, rules.base)
        frames.add_column(result, "known", known)
    job.finish(result.attrs, depth=2, exact=exact)
    return result


def are_exact(job: "Job", matches: "Matches", relation: str, base: int) -> "Flags":
    """Which rows of a join whose base is this side rest on no envelope."""
    exact = job.are_exact(matches.lefts, matches.rights, relation)
    if relation == NEAREST:
        exact &= not job.sources[1 - base].enveloped
    return exact


def are_known(job: "Job", matches: "Matches", relation: str, base: int) -> "Flags":
    """In which rows no feature that is left out may be the partner, or a nearer one."""
    known: "Flags" = matches.are_pairs & (relation != NEAREST) | (
        not job.sources[1 - base].left_out)
    return known


def predicate_of(predicate: Optional[str], op: Optional[str]) -> Optional[str]:
    """The predicate, by either of its names."""
    if op is None:
        return predicate
    if predicate not in ("intersects", op):
        warnings.warn(OVERRIDDEN.format(predicate, op), UserWarning, stacklevel=3)
    else:
        warnings.warn(RENAMED, FutureWarning, stacklevel=3)
    return op


def check_question(predicate: Optional[str], distance: Any, matrix: bool) -> None:
    """Refuses a predicate that is none, and what doesn't go with it."""
    if predicate != WITHIN and distance is not None:
        raise ArgumentError("'distance' parameter is only supported in combination with "
                            "'dwithin' predicate")
    if predicate == WITHIN and distance is None:
        raise ArgumentError("'distance' parameter is required for 'dwithin' predicate")
    if predicate is not None and predicate != WITHIN:
        relations.check(predicate)
    elif matrix:
        raise ArgumentError(f"matrix=True is for relations: {predicate!r} has no letters")


def length_of(distance: Any, left: Any) -> "Optional[Length]":
    """The distance of a join by distance, or those of each left row; None for other joins."""
    from rjoin import lengths

    return None if distance is None else lengths.length_of("distance", distance, left)


def is_each(length: "Length") -> bool:
    """Whether there is a distance for each left row."""
    from rjoin.lengths import Lengths

    return isinstance(length, Lengths)


def pairs_of(job: "Job", relation: str, length: "Optional[Length]", workers: Workers,
             matrix: bool) -> Any:
    """The report of the program."""
    from rjoin import joining, reaches
    from rjoin.lengths import Lengths

    if isinstance(length, Lengths):
        return reaches.within_each(job, length, workers)
    if length:
        return joining.within(job, length, workers)
    return joining.joined(job, relation, workers, matrix)


def reach_of(max_distance: Optional[float]) -> "Optional[Length]":
    """How far away the nearest feature may be; None for any distance."""
    from rjoin.lengths import Length

    if max_distance is None or max_distance == float("inf"):
        return None
    length = Length("max_distance", max_distance)
    if not length.greatest():
        raise ArgumentError("max_distance must be greater than 0")
    return length
