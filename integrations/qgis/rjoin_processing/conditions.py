"""The conditions by which two layers are joined: words for rjoin, and the fields of its pairs."""
from __future__ import annotations

from abc import ABC, abstractmethod
from typing import Any, List, Sequence, Tuple

import numpy as np
from qgis.core import (
    QgsFeature,
    QgsField,
    QgsLineString,
    QgsProcessingException,
    QgsProcessingFeedback,
)
from qgis.PyQt.QtCore import QVariant

from . import decimals as units
from . import program
from .answers import Meaning, Pairs
from .layers import Layer, are_boxes, common_decimals, most_decimals
from .report import Report

INTERSECTS = "intersects"


class Condition(ABC):
    """A question to rjoin about two layers, and the fields that a pair gets.

    `title` names the condition, and `columns` are those of the report behind the ids.
    """

    title: str
    columns: Sequence[str]
    meaning: Meaning

    @abstractmethod
    def check(self) -> None:
        """Raises ProgramError where the program refuses the condition."""

    def decimals(self, layers: List[Layer], given: int | None, feedback: QgsProcessingFeedback
                 ) -> int:
        """The decimals of a run."""
        return common_decimals(layers, given, feedback)

    @abstractmethod
    def commands(self) -> List[List[str]]:
        """The words of one run of the program or of several; the paths follow the first word."""

    @abstractmethod
    def fields(self) -> List[QgsField]:
        """The fields that a pair gets."""

    @abstractmethod
    def pairs(self, report: Report, left: Layer, right: Layer) -> Pairs:
        """The pairs of a report."""


class Relations(Condition):
    """Pairs that stand in one of some relations, or whose matrix fits a mask; without matrices the
    program computes none."""

    def __init__(self, names: Sequence[str], matrices: bool) -> None:
        self.title = " or ".join(names)
        self.columns = ["matrix"] if matrices else []
        # Every relation that rjoin joins by has the two share a point.
        self.names = [INTERSECTS] if INTERSECTS in names else list(names)
        self.meaning = Meaning(lonely_is_exact=INTERSECTS in names)

    def check(self) -> None:
        for command in self.commands():
            refusal = program.refusal(*command)
            if refusal is not None:
                raise program.ProgramError(refusal)

    def commands(self) -> List[List[str]]:
        more = [] if self.columns else ["--pairs"]
        return [["join", f"--relation={name}", *more] for name in self.names]

    def fields(self) -> List[QgsField]:
        return [QgsField(name, QVariant.String, len=9) for name in self.columns]

    def pairs(self, report: Report, left: Layer, right: Layer) -> Pairs:
        return Pairs(report.left, report.right, (report.texts,) if self.columns else ())


def distance_field() -> QgsField:
    return QgsField("distance", QVariant.Double)


def _finest(layers: List[Layer], reach: List[float]) -> int:
    """To how many decimals distances are rounded at least: what boxes may have, in the range of
    the numbers."""
    limits = units.BOXES if are_boxes(layers, 0, reach) else units.ANY
    fitting = [limits.in_range(layer.coordinates) for layer in layers]
    return min(units.BOXES.decimals, limits.in_range(reach), *fitting)


class Distances(Condition):
    """Pairs that a command gives with their distances, perhaps within a greatest distance."""

    command: str
    columns = ("distance",)

    def __init__(self, distance: float | None) -> None:
        self.distance = distance

    def check(self) -> None:
        refusal = program.refusal(*self._asked(distance="0"))
        if refusal is not None:
            raise program.ProgramError(refusal)

    def decimals(self, layers: List[Layer], given: int | None, feedback: QgsProcessingFeedback
                 ) -> int:
        """Those given, else as many as the coordinates and the distance have, and up to 6 where the
        range of the numbers allows them, to which distances are rounded then."""
        reach = [] if self.distance is None else [self.distance]
        try:
            units.check_limit(reach, given or 0)
        except units.CoordinateError as fault:
            raise QgsProcessingException(f"Distance: {fault}") from fault
        most = units.most_decimals(reach)
        decimals = common_decimals(layers, given, feedback, most)
        if given is None:
            needed = min(units.fewest_decimals(reach, decimals), most, most_decimals(layers))
            decimals = max(needed, _finest(layers, reach))
        self._round(decimals, given is not None, feedback)
        feedback.pushInfo(f"Decimals of the distances: {decimals}")
        return decimals

    def _round(self, decimals: int, is_given: bool, feedback: QgsProcessingFeedback) -> None:
        """Rounds the greatest distance, as coordinates are, unless the decimals are given."""
        if self.distance is None or not units.rounded_places([self.distance], decimals).size:
            return
        if is_given:
            raise QgsProcessingException(
                f"Distance: {units.text(self.distance)} has more than {decimals} decimals")
        feedback.pushWarning(f"Distance: {units.text(self.distance)} is rounded to {decimals} "
                             "decimals")
        self.distance = units.in_units(self.distance, decimals) / 10.0**decimals

    def commands(self) -> List[List[str]]:
        return [self._asked(None if self.distance is None else units.text(self.distance))]

    def fields(self) -> List[QgsField]:
        return [distance_field()]

    def pairs(self, report: Report, left: Layer, right: Layer) -> Pairs:
        return Pairs(report.left, report.right, (list(map(float, report.texts)),))

    def _asked(self, distance: str | None) -> List[str]:
        return [self.command] if distance is None else [self.command, f"--distance={distance}"]


class Within(Distances):
    """Pairs at most a distance apart, perhaps but for those that share a point."""

    command = "near"

    def __init__(self, distance: float, apart: bool) -> None:
        super().__init__(distance)
        self.apart = apart
        self.title = f"distance, at most {units.text(distance)}"
        self.meaning = Meaning(lonely_is_exact=not apart)

    def _asked(self, distance: str | None) -> List[str]:
        return super()._asked(distance) + ["--apart"] * self.apart


LINE_ENDS = ("feature_x", "feature_y", "nearest_x", "nearest_y")


class Nearest(Distances):
    """The nearest features of each, with those that tie with the last.

    Where a layer is joined with itself, a feature isn't among its own nearest: it is at no
    distance, and so one more of the others has to be found.
    """

    command = "nearest"
    meaning = Meaning(lonely_is_exact=True,
                      needs_all="may be nearer than those that are found")

    def __init__(self, most: int, distance: float | None, is_same: bool) -> None:
        super().__init__(distance)
        self.most = most + is_same
        self.is_same = is_same
        self.title = "distance, the nearest"

    def fields(self) -> List[QgsField]:
        """As native:joinbynearest has them."""
        return [QgsField("n", QVariant.Int), distance_field(),
                *(QgsField(name, QVariant.Double) for name in LINE_ENDS)]

    def pairs(self, report: Report, left: Layer, right: Layer) -> Pairs:
        found = super().pairs(report, left, right)
        if self.is_same:
            one, other = (np.array([feature.id() for feature in layer.features])[numbers]
                          for layer, numbers in ((left, found.left), (right, found.right)))
            found = found.chosen(np.flatnonzero(one != other))
        firsts = found.firsts()
        counts = np.diff(firsts, append=found.left.size)
        numbers = np.arange(found.left.size) - np.repeat(firsts, counts) + 1
        ends = [_line_between(left.features[one], right.features[other])
                for one, other in zip(found.left.tolist(), found.right.tolist())]
        columns = zip(*ends) if ends else ([] for _ in LINE_ENDS)
        return found._replace(values=(numbers.tolist(), *found.values, *columns))

    def _asked(self, distance: str | None) -> List[str]:
        return [*super()._asked(distance), f"--most={self.most}"]


def _line_between(one: QgsFeature, other: QgsFeature) -> Tuple[Any, ...]:
    """The ends of a shortest line between two features, as QGIS rounds them."""
    shortest = one.geometry().shortestLine(other.geometry())
    line = shortest.constGet()  # lives as long as the geometry
    if not isinstance(line, QgsLineString) or line.numPoints() < 2:
        return (None,) * len(LINE_ENDS)
    return line.xAt(0), line.yAt(0), line.xAt(1), line.yAt(1)
