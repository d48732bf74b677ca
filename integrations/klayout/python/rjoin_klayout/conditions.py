"""The conditions by which two layers are joined: a relation, or a spacing or an enclosure that is
too small."""
from __future__ import annotations

import re
from abc import ABC, abstractmethod
from decimal import ROUND_HALF_UP, Decimal
from typing import Iterator, List, NamedTuple, Optional, Sequence

from . import program
from .layers import JoinError, Layer
from .markers import Side
from .narrow import Narrow
from .report import Mark, Place

RELATIONS = ("intersects", "touches", "crosses", "within", "contains", "overlaps", "equals",
             "covers", "covered_by", "contains_properly")
NUMBER = re.compile(r"\d+(\.\d*)?|\.\d+")
# Of a run; and the greatest coordinate of boxes, and of any shapes, in units of the last decimal.
MOST_DECIMALS = 6
BOX_LIMIT, LIMIT = 10**12, 10**18
# How many digits KLayout writes of a number of micrometres.
DIGITS = 12
DIMENSIONS = {"0": "points", "1": "lines", "2": "an area"}
PARTS = ("interior", "boundary")
IDS = ("left", "right")


class Row(NamedTuple):
    """A row of a report: the numbers of two shapes, and the text of the last column, if any."""

    left: int
    right: int
    text: str


class Condition(ABC):
    """A question to rjoin about two layers, and the places of its pairs in the database.

    `title` names it between two layers, `columns` are those of the program's report; the pairs are
    sorted into categories by the last one, or not.
    """

    is_sorted = False
    # Whether the program is asked about the outlines of the left areas, and only about right shapes
    # that lie in these.
    is_of_outlines = False
    title: str
    about: str
    columns: Sequence[str]

    @abstractmethod
    def words(self, layers: Sequence[Layer]) -> List[str]:
        """The command of rjoin, and its options."""

    @abstractmethod
    def check(self) -> None:
        """Raises ProgramError where the program refuses the condition."""

    def kept(self, rows: Iterator[Row], _layers: Sequence[Layer]) -> Iterator[Row]:
        """The pairs of the report that belong to the answer."""
        return rows

    def places(self, _text: str) -> List[Place]:
        """The categories of a pair below that of the join."""
        return []

    @abstractmethod
    def values(self, row: Row, left: Side, right: Side) -> str:
        """How a pair is shown: the values of its item."""

    @abstractmethod
    def marks(self, rows: Sequence[Row], left: Side, right: Side) -> List[Mark]:
        """How all pairs are shown as shapes of a layer."""


class Relation(Condition):
    """Pairs in a relation, or whose matrix fits a mask of nine letters.

    Without matrices the program computes none, and all pairs are in one category.
    """

    def __init__(self, name: str, matrices: bool) -> None:
        self.title = name
        self.is_sorted = matrices
        self.columns = (*IDS, "matrix") if matrices else IDS
        self.about = f"the left shape {name.replace('_', ' ')} the right one" if (
            name in RELATIONS) else f"the matrix fits {name}"

    def check(self) -> None:
        refusal = program.refusal("join", *self._asked())
        if refusal is not None:
            raise program.ProgramError(refusal)

    def words(self, layers: Sequence[Layer]) -> List[str]:
        return ["join", *self._asked()]

    def places(self, text: str) -> List[Place]:
        return [Place(text, explained(text))] if self.is_sorted else []

    def values(self, row: Row, left: Side, right: Side) -> str:
        """Both shapes, and where they come from."""
        one, other = left.values(row.left), right.values(row.right)
        return one.marker + other.marker + one.origin + other.origin

    def marks(self, rows: Sequence[Row], left: Side, right: Side) -> List[Mark]:
        """The left shapes, each once."""
        found = map(left.polygon, sorted({row.left for row in rows}))
        return [polygon for polygon in found if polygon is not None]

    def _asked(self) -> List[str]:
        return [f"--relation={self.title}", *["--pairs"] * (not self.is_sorted)]


def explained(matrix: str) -> str:
    """The meaning of the letters of a matrix for interiors and boundaries."""
    shared = []
    for row, left in enumerate(PARTS):
        for column, right in enumerate(PARTS):
            letter = matrix[3 * row + column]
            if letter in DIMENSIONS:
                shared.append(f"{left} and {right} share {DIMENSIONS[letter]}")
    return "left and right: " + ("; ".join(shared) or "no common point")


class Distance(Condition):
    """Pairs that are closer than a distance.

    `word` is what a request calls it. `limit` is the distance in database units, rounded to whole
    ones as KLayout's DRC rounds it.
    """

    columns = (*IDS, "distance")
    word: str

    def __init__(self, text: str, dbu: float) -> None:
        if not NUMBER.fullmatch(text) or Decimal(text) == 0:
            raise JoinError(f"{self.word} must be a number of micrometres above 0, not {text!r}")
        self.unit = _unit(dbu)
        self.asked = Decimal(text)
        self.limit = int((self.asked / self.unit).to_integral_value(ROUND_HALF_UP))
        if self.limit == 0:
            raise JoinError(f"{self.word} must be at least half a database unit, which is "
                            f"{self.unit:f} micrometres, not {text}")
        self.micrometres = float(self.unit)

    def check(self) -> None:
        refusal = program.refusal(*self._asked())
        if refusal is not None:
            raise program.ProgramError(refusal)

    def words(self, layers: Sequence[Layer]) -> List[str]:
        return [*self._asked(), "--scale", str(self._decimals(layers))]

    def values(self, row: Row, left: Side, right: Side) -> str:
        """The narrow place as an edge pair, as DRC shows it, with its distance."""
        narrow = self._narrow(row, left, right)
        distance = Decimal(row.text) * self.unit
        return (f"<value>edge-pair: {narrow.text(self.micrometres)}</value>"
                f"{left.origin(row.left)}{right.origin(row.right)}"
                f"<value>text: 'distance: {distance.normalize():f} um'</value>")

    def marks(self, rows: Sequence[Row], left: Side, right: Side) -> List[Mark]:
        """The edge pair of each pair."""
        return [self._narrow(row, left, right).edge_pair() for row in rows]

    @abstractmethod
    def _narrow(self, row: Row, left: Side, right: Side) -> Narrow:
        """The narrow place of a pair."""

    def _decimals(self, layers: Sequence[Layer]) -> int:
        """As many decimals as the program's range allows for the distance and the layers."""
        reach = max(self.limit, *(layer.reach for layer in layers))
        is_of_boxes = all(layer.is_of_boxes() for layer in layers) and not self.is_of_outlines
        limit = BOX_LIMIT if is_of_boxes else LIMIT
        return max((decimals for decimals in range(MOST_DECIMALS + 1)
                    if reach * 10**decimals <= limit), default=0)

    def _asked(self) -> List[str]:
        return ["near", f"--distance={self.limit}"]


class Space(Distance):
    """Pairs that share no point and are closer than a spacing."""

    word = "space"

    def __init__(self, text: str, dbu: float) -> None:
        super().__init__(text, dbu)
        self.title = f"closer than {self.asked:f} um to"
        self.about = f"shapes that share no point and are closer than {self.asked:f} um"

    def kept(self, rows: Iterator[Row], layers: Sequence[Layer]) -> Iterator[Row]:
        """Those that are closer: the report has those too that are as far apart as the spacing, and
        its distance is rounded. Where that is about the spacing, the gap decides of boxes, and the
        rounded distance of others. Of a layer with itself each pair is kept once."""
        left, right = layers
        for row in rows:
            if left is right and row.left >= row.right:
                continue
            if float(row.text) <= self.limit - 1 or _is_closer(
                    left.box(row.left), right.box(row.right), Decimal(row.text), self.limit):
                yield row

    def _narrow(self, row: Row, left: Side, right: Side) -> Narrow:
        return left.narrow(row.left, right, row.right, float(row.text))

    def _asked(self) -> List[str]:
        return [*super()._asked(), "--apart"]


class Enclosure(Distance):
    """Pairs of a left area and a right shape in it that is closer to the left one's outline than a
    distance, or touches it."""

    word = "enclosing"
    is_of_outlines = True

    def __init__(self, text: str, dbu: float) -> None:
        super().__init__(text, dbu)
        self.title = f"with less than {self.asked:f} um around"
        self.about = ("left areas with a right shape in them that is closer to their outlines "
                      f"than {self.asked:f} um")

    def kept(self, rows: Iterator[Row], layers: Sequence[Layer]) -> Iterator[Row]:
        """Those that are closer, by the rounded distance, which is exact along an axis."""
        left, _ = layers
        return (row for row in rows if Decimal(row.text) < self.limit and left.is_area(row.left))

    def _narrow(self, row: Row, left: Side, right: Side) -> Narrow:
        return left.narrow_within(row.left, right, row.right, float(row.text))


def _unit(dbu: float) -> Decimal:
    """The database unit in micrometres, without the error that files give it: KLayout reads 0.001
    from OASIS as 0.0009999999999999998."""
    return Decimal(f"{dbu:.{DIGITS}g}")


def _is_closer(one: Optional[Sequence[int]], other: Optional[Sequence[int]], distance: Decimal,
               limit: int) -> bool:
    """Whether two shapes are closer than a limit, where their rounded distance is about that."""
    if one is None or other is None:
        return distance < limit
    return _squared_gap(one, other) < limit * limit


def _squared_gap(one: Sequence[int], other: Sequence[int]) -> int:
    """The squared distance of two boxes, by their least and greatest coordinates."""
    across = max(other[0] - one[2], one[0] - other[2], 0)
    up = max(other[1] - one[3], one[1] - other[3], 0)
    return across * across + up * up
