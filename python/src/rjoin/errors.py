"""The exceptions and the warnings of this package."""
from __future__ import annotations

from typing import Hashable, NamedTuple, Optional


class RjoinError(Exception):
    """A call that did not do what was asked for; its text says why."""


class ArgumentError(RjoinError, ValueError):
    """A value of an argument that no call could do anything with, such as an unknown relation."""


class InputError(RjoinError, ValueError):
    """A fault of an input.

    side: `left` or `right`, `layer` or `window`, `first` or `second`, after the parameter.
    reason: what is wrong, as the program says it where the program found it (docs/FAULTS.md).
    row: the feature's row, counted from 1; None where the fault is not one of a row.
    feature: the row's index label, or its id in a file with ids; None where `row` is.
    """

    def __init__(self, side: str, reason: str, row: Optional[int] = None,
                 feature: Hashable = None) -> None:
        super().__init__(side, reason, row, feature)
        self.side = side
        self.reason = reason
        self.row = row
        self.feature = feature

    def __str__(self) -> str:
        if self.row is None:
            return f"{self.side}: {self.reason}"
        return f"{self.side}: row {self.row} (feature {self.feature!r}): {self.reason}"


class Notice(NamedTuple):
    """A feature that was left out or replaced by its envelope, as `other` or `missing` asked.

    row counts from 1; feature is the row's index label; reason says what the program cannot read.
    """

    side: str
    row: int
    feature: Hashable
    reason: str


class LeftOutWarning(UserWarning):
    """Features were left out, as `other="skip"` or `missing="skip"` asked."""


class EnvelopeWarning(UserWarning):
    """Features were replaced by their envelopes, as `other="envelope"` asked."""


class ImproperRingsWarning(UserWarning):
    """Rings of polygons cross, overlap or are flat, and were read by the even-odd rule."""


class StaleProgramWarning(UserWarning):
    """The program is older than the sources of its checkout."""
