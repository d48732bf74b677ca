"""The rows of two layers side by side, as the command writes them."""
from __future__ import annotations

from typing import Any

import numpy as np
import pandas

from rjoin.frames import NOBODY, Rows, Suffixes, named_apart
from rjoin.matching import Found, Question

COLUMNS = ("left", "right", "matrix", "distance", "exact", "known", "geometry")
# What columns of whole numbers and of flags become where a row has none.
LACKING = {"i": "Int64", "u": "UInt64", "b": "boolean"}


def table(left: Any, right: Any, found: Found, question: Question, attributes: bool,
          geometry: bool) -> Any:
    """The rows of a join; a GeoDataFrame where geometries are asked for."""
    import geopandas

    places = found.matches.lefts, found.matches.rights
    rows = pandas.DataFrame({
        name: taken(frame.index.to_series(), some)
        for name, frame, some in zip(("left", "right"), (left, right), places)})
    rows[question.last] = taken(pandas.Series(found.values), found.matches.pairs)
    for name, flags in (("exact", found.exact), ("known", found.known)):
        if flags is not None:
            rows[name] = flags
    if attributes:
        rows = pandas.concat([rows, *fields_of(left, right, places)], axis=1)
    if not geometry:
        return rows
    base, some = (left, right)[question.base], places[question.base]
    return geopandas.GeoDataFrame(rows, geometry=base.geometry.take(some).array, crs=base.crs)


def fields_of(left: Any, right: Any, places: Any) -> Any:
    """The fields of both sides, each a table with a row for each place."""
    sides = [pandas.DataFrame(one.drop(columns=one.geometry.name)) for one in (left, right)]
    ours, others = (list(one.columns) for one in sides)
    names = named_apart(ours, others, Suffixes("left", "right"), COLUMNS)
    return [pandas.DataFrame({name: taken(one.iloc[:, place], some)
                              for place, name in enumerate(theirs)})
            for one, theirs, some in zip(sides, names, places)]


def taken(column: Any, places: Rows) -> Any:
    """The values of a column at these places, a missing one for NOBODY."""
    values = column.reset_index(drop=True)
    nobody = places == NOBODY
    if not nobody.any():
        return values.take(places).reset_index(drop=True)
    if values.dtype.kind in LACKING:
        values = values.astype(LACKING[values.dtype.kind])
    return values.reindex(np.where(nobody, len(values), places)).reset_index(drop=True)
