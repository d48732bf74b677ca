"""Summaries of the fields of all partners of a base feature, as QGIS computes them."""
from __future__ import annotations

from math import isnan
from typing import Any, Callable, Iterator, List, NamedTuple, Optional, Sequence

import numpy as np
from qgis.core import (
    NULL,
    QgsDateTimeStatisticalSummary,
    QgsFeature,
    QgsField,
    QgsStatisticalSummary,
    QgsStringStatisticalSummary,
)
from qgis.PyQt.QtCore import QVariant

from .answers import JoinFields, Pairs
from .joined import feature_of

# In the order of the native dialog.
SUMMARIES = ["count", "unique", "min", "max", "range", "sum", "mean", "median", "stddev",
             "minority", "majority", "q1", "q3", "iqr", "empty", "filled", "min_length",
             "max_length", "mean_length"]
LENGTH, PRECISION = 20, 6


class Summary(NamedTuple):
    """One of the summaries of a field: its name, the type of its field, unless that is the type of
    what is summarized, and how the object that has all of them answers it."""

    name: str
    type: Optional[int]
    answer: Callable[[Any], Any]


def _number(name: str) -> Callable[[Any], Any]:
    """An answer that isn't there where it is no number."""
    def answer(summary: QgsStatisticalSummary) -> Any:
        value = getattr(summary, name)()
        return NULL if isnan(value) else value
    return answer


def _called(name: str) -> Callable[[Any], Any]:
    return lambda summary: getattr(summary, name)()


def _filled(summary: Any) -> int:
    return int(summary.count() - summary.countMissing())


INT, DOUBLE = QVariant.Int, QVariant.Double
OF_NUMBERS = [Summary(name, kind, _number(method)) for name, kind, method in (
    ("count", INT, "count"), ("unique", INT, "variety"), ("min", DOUBLE, "min"),
    ("max", DOUBLE, "max"), ("range", DOUBLE, "range"), ("sum", DOUBLE, "sum"),
    ("mean", DOUBLE, "mean"), ("median", DOUBLE, "median"), ("stddev", DOUBLE, "stDev"),
    ("minority", DOUBLE, "minority"), ("majority", DOUBLE, "majority"),
    ("q1", DOUBLE, "firstQuartile"), ("q3", DOUBLE, "thirdQuartile"),
    ("iqr", DOUBLE, "interQuartileRange"))]
COUNTS = [Summary("count", INT, _called("count")), Summary("unique", INT, _called("countDistinct")),
          Summary("empty", INT, _called("countMissing")), Summary("filled", INT, _filled)]
OF_TIMES = [*COUNTS, *(
    Summary(name, None, lambda summary, number=number: summary.statistic(number))  # type: ignore
    for name, number in (("min", QgsDateTimeStatisticalSummary.Min),
                         ("max", QgsDateTimeStatisticalSummary.Max)))]
OF_TEXTS = [*COUNTS, *(Summary(name, kind, _called(method)) for name, kind, method in (
    ("min", None, "min"), ("max", None, "max"), ("min_length", INT, "minLength"),
    ("max_length", INT, "maxLength"), ("mean_length", DOUBLE, "meanLength")))]


class Column:
    """A field of the join layer, and the summaries of it that are asked for."""

    def __init__(self, field: QgsField, chosen: Sequence[str]) -> None:
        self.field = field
        self.is_number = field.isNumeric()
        self.is_time = field.type() in (QVariant.Date, QVariant.Time, QVariant.DateTime)
        every = OF_NUMBERS if self.is_number else OF_TIMES if self.is_time else OF_TEXTS
        self.summaries = [summary for summary in every if summary.name in chosen]

    def fields(self) -> List[QgsField]:
        """The fields of the summaries."""
        return [self._field(summary) for summary in self.summaries]

    def _field(self, summary: Summary) -> QgsField:
        field = QgsField(self.field)
        field.setName(f"{self.field.name()}_{summary.name}")
        if summary.type is not None:
            field.setType(summary.type)
        if summary.type == DOUBLE:
            field.setLength(LENGTH)
            field.setPrecision(PRECISION)
        return field

    def of_values(self, values: List[Any]) -> List[Any]:
        """The summaries of some values."""
        whole = self._whole(values)
        return [summary.answer(whole) for summary in self.summaries]

    def _whole(self, values: List[Any]) -> Any:
        """The object of QGIS that has all summaries of some values."""
        if self.is_number:
            numbers = QgsStatisticalSummary()
            for value in values:
                numbers.addVariant(value)
            numbers.finalize()
            return numbers
        if self.is_time:
            times = QgsDateTimeStatisticalSummary()
            times.calculate(values)
            return times
        texts = QgsStringStatisticalSummary()
        for value in values:
            texts.addString("" if value == NULL else str(value))
        texts.finalize()
        return texts


def features(added: JoinFields, right: List[List[Any]], columns: List[Column], pairs: Pairs,
             keeps_lonely: bool) -> Iterator[QgsFeature]:
    """A base feature with the summaries for each that has a partner, and perhaps each other one."""
    counts = np.bincount(pairs.left, minlength=len(added.left.features))
    begins = (np.cumsum(counts) - counts).tolist()
    nothing = [None] * sum(len(column.summaries) for column in columns)
    for number, feature in enumerate(added.left.features):
        count = int(counts[number])
        if count == 0:
            if keeps_lonely:
                yield feature_of(feature.geometry(),
                                 feature.attributes() + nothing + added.of_lonely(number))
            continue
        partners = pairs.right[begins[number]:begins[number] + count].tolist()
        values = zip(*(right[partner] for partner in partners))
        yield feature_of(feature.geometry(), feature.attributes() + [
            answer for column, some in zip(columns, values)
            for answer in column.of_values(list(some))] + added.of_summary(number, partners))
