"""The reports of runs, whose ids have one width, as arrays."""
from __future__ import annotations

from typing import Optional, Protocol

import numpy as np

from rjoin_cluster.conditions import Reach
from rjoin_cluster.digits import Texts
from rjoin_cluster.faults import RunFailed
from rjoin_cluster.ids import as_elements, id_table, widened
from rjoin_cluster.records import COMMA, FEED, Bytes, Places
from rjoin_cluster.run_ids import ID_BYTES, ids_before, ids_ending, numbers_of
from rjoin_cluster.words import WORD

PADDING = np.zeros(WORD, dtype=np.uint8)


class ReportRows(Protocol):
    """The rows of a report below its header."""

    count: int

    def some(self, begin: int, end: int) -> tuple[Places, Places, Optional[Texts]]:
        """The left and right numbers of these rows, and the last fields where they have them."""


def rows_of(report: Bytes, reach: Reach, id_width: int = ID_BYTES) -> ReportRows:
    """The rows of a report whose ids have so many bytes, the last of which are letters of runs."""
    if bytes(report[: len(reach.header)]) != reach.header:
        raise RunFailed("a report with another header than expected")
    if reach.is_distance:
        return UnevenRows(report, reach, id_width)
    return EvenRows(report, reach, id_width)


class EvenRows:
    """Rows whose last fields have one width too, as matrices have, or that have none."""

    def __init__(self, report: Bytes, reach: Reach, id_width: int) -> None:
        self.report = report
        self.reach = reach
        self.id_width = id_width
        self.width = 2 * id_width + len(",\n")
        if reach.width:
            self.width += len(",") + reach.width
        self.count, more = divmod(report.size - len(reach.header), self.width)
        if more:
            raise RunFailed("a report of another form than expected")

    def some(self, begin: int, end: int) -> tuple[Places, Places, Optional[Texts]]:
        behind_left = self.places(begin, end, self.id_width)
        behind_right = self.places(begin, end, 2 * self.id_width + 1)
        return (
            numbers_of(ids_before(self.report, behind_left)),
            numbers_of(ids_before(self.report, behind_right)),
            self.lasts(end - begin, behind_right.start + 1) if self.reach.width else None,
        )

    def lasts(self, count: int, begin: int) -> Texts:
        """The last fields of so many rows, the first of which begins there."""
        return np.ndarray(count, f"V{self.reach.width}", self.report, begin, (self.width,))

    def places(self, begin: int, end: int, column: int) -> range:
        """Where this column of the rows lies in the report."""
        first = len(self.reach.header) + column
        return range(first + begin * self.width, first + end * self.width, self.width)


class UnevenRows:
    """Rows whose last fields have various widths, as distances have."""

    def __init__(self, report: Bytes, reach: Reach, id_width: int) -> None:
        self.report = report
        self.width = reach.width
        self.id_width = id_width
        self.ends = np.flatnonzero(report == FEED)  # of the header, and then of each row
        self.count = self.ends.size - 1
        if self.ends[-1] != report.size - 1:
            raise RunFailed("a report whose last row has no end")

    def some(self, begin: int, end: int) -> tuple[Places, Places, Texts]:
        first = int(self.ends[begin]) + 1
        text = np.concatenate([self.report[first:self.ends[end] + 1], PADDING])
        ends = self.ends[begin:end + 1] - first
        behind_left = ends[:-1] + 1 + self.id_width
        behind_right = behind_left + 1 + self.id_width
        lengths = ends[1:] - behind_right - 1
        commas = text.take(np.concatenate([behind_left, behind_right]), mode="clip") == COMMA
        if not commas.all() or lengths.min(initial=1) < 1 or lengths.max(initial=1) > self.width:
            raise RunFailed("a report of another form than expected")
        return (
            numbers_of(ids_ending(text, behind_left)),
            numbers_of(ids_ending(text, behind_right)),
            as_elements(widened(id_table(text, behind_right + 1, lengths), self.width)),
        )
