"""Spatial joins of GeoPandas frames, with the columns and the index that GeoPandas gives."""
from __future__ import annotations

from collections import Counter
from typing import Any, Collection, Hashable, List, NamedTuple, Optional, Sequence, Tuple

import numpy as np
import pandas
from numpy.typing import NDArray

from rjoin.errors import ArgumentError

Rows = NDArray[np.int64]
Flags = NDArray[np.bool_]

HOW = ("inner", "left", "right")
INCOMPLETE = ("error", "mark")
NOBODY = -1


class Suffixes(NamedTuple):
    """The ends of the names of columns that both frames have."""

    left: str
    right: str


class Rules(NamedTuple):
    """How two frames are joined.

    on: the columns that have to be equal too. names_indices: whether a column that holds an index
    has the index's name, as from GeoPandas 1 on, or always `index_` and the suffix.
    """

    how: str
    suffixes: Suffixes
    on: Tuple[Hashable, ...] = ()
    names_indices: bool = False

    @property
    def base(self) -> int:
        """The side whose index and geometries the result has: 0 for left, 1 for right."""
        return 1 if self.how == "right" else 0


class Matches(NamedTuple):
    """The rows of a result: the places of the features of both sides, and of the pair.

    NOBODY stands for a feature that isn't there, and for the pair then.
    """

    lefts: Rows
    rights: Rows
    pairs: Rows

    @property
    def are_pairs(self) -> Flags:
        flags: Flags = self.pairs != NOBODY
        return flags


def rules_of(how: str, suffixes: Suffixes, on: Any = None) -> Rules:
    """The rules by the conventions of the GeoPandas that is installed."""
    import geopandas

    if how not in HOW:
        raise ArgumentError(f"`how` was {how!r} and has to be one of {', '.join(HOW)}")
    shared: Tuple[Hashable, ...] = ()
    if on is not None:
        shared = tuple(on) if isinstance(on, (list, tuple)) else (on,)
    return Rules(how, suffixes, shared, int(geopandas.__version__.split(".")[0]) >= 1)


def check(left: Any, right: Any, rules: Rules) -> None:
    """Refuses what geopandas.sjoin refuses."""
    import geopandas

    for name, frame in (("left_df", left), ("right_df", right)):
        if not isinstance(frame, geopandas.GeoDataFrame):
            raise ArgumentError(f"'{name}' should be GeoDataFrame, got {type(frame)}")
    labels = made_labels(left, right, rules)
    for name, frame in (("left", left), ("right", right)):
        if frame.columns.isin(labels).any():
            told = " and ".join(map(repr, labels))
            raise ArgumentError(f"{told} cannot be a column name in the frames being joined; "
                                f"{name} has one")
    check_shared(left, right, rules.on)


def made_labels(left: Any, right: Any, rules: Rules) -> List[str]:
    """The names of columns for indices that have none of their own."""
    if not rules.names_indices:
        return [f"index_{suffix}" for suffix in rules.suffixes]
    return [label for frame, suffix in zip((left, right), rules.suffixes)
            for label, name in zip(labels_of(frame.index, suffix), frame.index.names)
            if name is None]


def check_shared(left: Any, right: Any, on: Sequence[Hashable]) -> None:
    """Refuses columns that have to be equal and that a frame hasn't, as geopandas.sjoin does."""
    for column in on:
        lacking = [name for name, frame in (("left", left), ("right", right))
                   if column not in frame.columns]
        if lacking:
            where = f"the {lacking[0]} dataframe" if len(lacking) == 1 else "both of the dataframes"
            raise ArgumentError(f"Expected column {column} is missing from {where}.")
        if column in (left.geometry.name, right.geometry.name):
            raise ArgumentError("Active geometry column cannot be used as an input for "
                                "on_attribute parameter.")


def check_incomplete(incomplete: str, how: Optional[str] = None) -> None:
    """Refuses a mark in a join by `how` in which it says nothing."""
    if incomplete not in INCOMPLETE:
        raise ArgumentError(f"incomplete must be 'error' or 'mark', not {incomplete!r}")
    if incomplete == "mark" and how == "inner":
        raise ArgumentError("incomplete='mark' is for how='left' and how='right': an inner join "
                            "keeps no row without a partner")


def with_equal(left: Any, right: Any, pairs: Tuple[Rows, Rows], on: Sequence[Hashable]) -> Flags:
    """Which pairs of rows have equal values in some columns; a missing value equals none."""
    equal: Flags = np.ones(pairs[0].size, np.bool_)
    for column in on:
        values = pandas.concat([left[column], right[column]], ignore_index=True)
        codes, _ = pandas.factorize(values)
        ours, theirs = codes[:len(left)][pairs[0]], codes[len(left):][pairs[1]]
        equal &= (ours == theirs) & (ours >= 0)
    return equal


def arranged(pairs: Tuple[Rows, Rows], how: str, kept: Rows) -> Matches:
    """The rows of a join by the pairs, which come in the order of the left frame.

    A left or right join has the order of its side, and each `kept` row of it at least once.
    """
    numbers = np.arange(pairs[0].size)
    if how == "inner":
        return Matches(*pairs, numbers)
    base, other = pairs if how == "left" else pairs[::-1]
    has_none = np.ones(int(kept.max(initial=-1)) + 1, np.bool_)
    has_none[base] = False
    alone = kept[has_none[kept]]
    nobody = np.full(alone.size, NOBODY)
    bases = np.concatenate([base, alone])
    order = np.argsort(bases, kind="stable")
    bases = bases[order]
    others = np.concatenate([other, nobody])[order]
    lefts, rights = (bases, others) if how == "left" else (others, bases)
    return Matches(lefts, rights, np.concatenate([numbers, nobody])[order])


def joined(left: Any, right: Any, matches: Matches, rules: Rules) -> Any:
    """The rows of the base frame, beside the index and the fields of the other one's."""
    frames = left, right.drop(columns=list(rules.on))
    base, other = frames[rules.base], frames[1 - rules.base]
    geometry = frames[rules.base].geometry.name
    indices, fields = columns_of(frames, rules)
    rows = (matches.lefts, matches.rights)
    beside = base.take(rows[rules.base])
    beside.columns = fields[rules.base]
    beside.index.names = names_of(base.index, indices[rules.base], rules)
    taken = taken_rows(with_index(other), rows[1 - rules.base])
    taken.columns = indices[1 - rules.base] + fields[1 - rules.base]
    taken.index = beside.index
    name = fields[rules.base][base.columns.get_loc(geometry)]
    parts = [pandas.DataFrame(beside), taken]
    result = pandas.concat(parts if rules.how != "right" else parts[::-1], axis=1)
    return frame_of(result, name, base.crs)


def frame_of(table: Any, geometry: str, crs: Any) -> Any:
    import geopandas

    return geopandas.GeoDataFrame(table, geometry=geometry, crs=crs)


def columns_of(frames: Sequence[Any], rules: Rules) -> Tuple[List[List[Any]], List[List[Any]]]:
    """The names of the indices of both frames as columns, and of their fields, in the result.

    The base's geometry keeps its name; the other's is left out.
    """
    labels = [labels_of(frame.index, suffix) for frame, suffix in zip(frames, rules.suffixes)]
    if rules.names_indices:
        labels = [[made if name is None else name for made, name in zip(some, frame.index.names)]
                  for some, frame in zip(labels, frames)]
    names = [list(frame.columns) for frame in frames]
    names[1 - rules.base].remove(frames[1 - rules.base].geometry.name)
    geometry = frames[rules.base].geometry.name
    both = suffixed(labels[0] + names[0], labels[1] + names[1], rules.suffixes,
                    own=(geometry, rules.base))
    if [*both[0], *both[1]].count(geometry) > 1:
        raise ArgumentError(f"another column would have the name {geometry!r} of the geometries: "
                            "rename one, or take other suffixes")
    return ([names[:len(some)] for names, some in zip(both, labels)],
            [names[len(some):] for names, some in zip(both, labels)])


def labels_of(index: Any, suffix: str) -> List[Any]:
    """The names of an index, or of its levels, as columns where it has no name of its own."""
    if isinstance(index, pandas.MultiIndex):
        return [f"index_{suffix}{level}" for level in range(index.nlevels)]
    return [f"index_{suffix}"]


def names_of(index: Any, labels: Sequence[Any], rules: Rules) -> List[Any]:
    """The names of the result's index: its own, with a suffix where a column of it has one."""
    if not rules.names_indices:
        return list(index.names)
    return [None if name is None else label for name, label in zip(index.names, labels)]


def with_index(frame: Any) -> Any:
    """A frame without its geometries, its index as the first columns."""
    fields = pandas.DataFrame(frame.drop(columns=frame.geometry.name)).reset_index(drop=True)
    for level in range(frame.index.nlevels):
        values = frame.index.get_level_values(level)
        fields.insert(level, f"index {level}", values, allow_duplicates=True)
    return fields


def taken_rows(fields: Any, rows: Rows) -> Any:
    """The rows of a frame with the index 0, 1, ..; missing values for NOBODY."""
    if (rows == NOBODY).any():
        return fields.reindex(rows)
    return fields.take(rows)


def suffixed(left: List[Any], right: List[Any], suffixes: Suffixes, taken: Collection[Any] = (),
             own: Tuple[Hashable, int] = ("", -1)) -> Tuple[List[Any], List[Any]]:
    """The names of all columns, with suffixes where both sides have one or it is taken.

    own: a name that has no suffix on its side, 0 or 1. Two columns may then have one name, as in
    GeoPandas.
    """
    shared = (set(left) & set(right)) | (set(left + right) & set(taken))
    lefts, rights = ([f"{name}_{suffix}" if name in shared and (name, side) != own else name
                      for name in names]
                     for side, (names, suffix) in enumerate(zip((left, right), suffixes)))
    return lefts, rights


def named_apart(left: List[Any], right: List[Any], suffixes: Suffixes,
                taken: Collection[Any]) -> Tuple[List[Any], List[Any]]:
    """The same, where no two columns may have one name, as in files."""
    lefts, rights = suffixed(left, right, suffixes, taken)
    name, count = Counter([*taken, *lefts, *rights]).most_common(1)[0]
    if count > 1:
        raise ArgumentError(f"{count} columns would have the name {name!r}: rename one, or take "
                            "other suffixes")
    return lefts, rights


def add_taken(frame: Any, name: str, values: NDArray[Any], matches: Matches) -> None:
    """Adds a last column with the value of each pair, missing in the other rows."""
    column = values[matches.pairs] if values.size else np.full(len(frame), np.nan, values.dtype)
    if not matches.are_pairs.all():
        column[~matches.are_pairs] = np.nan
    add_column(frame, name, column)


def add_column(frame: Any, name: str, values: NDArray[Any]) -> None:
    """Adds a last column."""
    if name in frame.columns:
        raise ArgumentError(f"a column has the name {name!r} already: rename it")
    frame[name] = values
