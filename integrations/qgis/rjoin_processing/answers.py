"""The pairs of an answer, and the fields that it adds: matrix, distance, exact and known."""
from __future__ import annotations

from dataclasses import dataclass
from itertools import repeat
from typing import TYPE_CHECKING, Any, Iterator, List, NamedTuple, Sequence, Tuple

import numpy as np
from qgis.core import QgsField
from qgis.PyQt.QtCore import QVariant

from .layers import Layer

if TYPE_CHECKING:
    from .columns import Flags, Places

# How many pairs are made objects of at a time.
BLOCK = 1 << 14


class Pairs(NamedTuple):
    """The numbers of two features of each pair, in the order of the base layer, and the values of
    its fields, a column each."""

    left: Places
    right: Places
    values: Tuple[Sequence[Any], ...]

    def chosen(self, places: Places) -> "Pairs":
        """The pairs at some places."""
        columns = tuple([column[place] for place in places.tolist()] for column in self.values)
        return Pairs(self.left[places], self.right[places], columns)

    def firsts(self) -> Places:
        """The places of the first pair of each base feature that has one."""
        return np.flatnonzero(np.diff(self.left, prepend=-1))


def exact_field() -> QgsField:
    """Whether a row rests on no envelope."""
    return QgsField("exact", QVariant.Bool)


class Meaning(NamedTuple):
    """The inferences from pairs where some features are replaced or left out.

    `lonely_is_exact`: no partner by envelopes means none by the shapes. `needs_all`: what any
    feature of the join layer may do to a row, if each row rests on all of them.
    """

    lonely_is_exact: bool
    needs_all: str = ""


@dataclass
class JoinFields:
    """The added fields of a join.

    `exact` is there where envelopes may stand in for shapes, and says which rows rest on none.
    `known` is there where the user keeps rows that features that were left out may change, and
    says which rows they can't.
    """

    left: Layer
    right: Layer
    of_values: List[QgsField]
    meaning: Meaning
    has_exact: bool
    has_known: bool

    def fields(self) -> List[QgsField]:
        """Those of a joined feature."""
        return [*self.of_values, *self.flags()]

    def flags(self) -> List[QgsField]:
        """Those of a base feature without a partner."""
        known = QgsField("known", QVariant.Bool)
        return [exact_field()] * self.has_exact + [known] * self.has_known

    def of_pairs(self, pairs: Pairs) -> Iterator[List[Any]]:
        """The values of each pair."""
        known = not (self.meaning.needs_all and self.right.left_out)
        exact = self.are_exact(pairs) if self.has_exact else None
        for begin in range(0, pairs.left.size, BLOCK):
            some = slice(begin, begin + BLOCK)
            columns = [column[some] for column in pairs.values]
            if exact is not None:
                columns.append(exact[some].tolist())
            if self.has_known:
                columns.append([known] * pairs.left[some].size)
            rows = zip(*columns) if columns else repeat((), pairs.left[some].size)
            yield from map(list, rows)

    def of_lonely(self, left: int) -> List[Any]:
        """The flags of a base feature without a partner."""
        exact = self.meaning.lonely_is_exact or not (
            left in self.left.envelopes or self.right.envelopes)
        return [flag for flag, is_there in ((exact, self.has_exact),
                                            (not self.right.left_out, self.has_known)) if is_there]

    def of_summary(self, left: int, partners: List[int]) -> List[Any]:
        """The flags of a base feature with a summary of all its partners: these are all by the
        shapes too if no partner by envelopes means none by these, and none rests on one."""
        exact = not (left in self.left.envelopes or self.right.envelopes.intersection(partners)
                     or (self.right.envelopes and not self.meaning.lonely_is_exact))
        return [flag for flag, is_there in ((exact, self.has_exact),
                                            (not self.right.left_out, self.has_known)) if is_there]

    def are_exact(self, pairs: Pairs) -> Flags:
        """Which pairs rest on no envelope."""
        return ~(np.isin(pairs.left, list(self.left.envelopes))
                 | np.isin(pairs.right, list(self.right.envelopes)))
