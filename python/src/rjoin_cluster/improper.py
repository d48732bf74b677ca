"""Features whose rings are improper, to which the even-odd rule was applied.

The program tells how many there are and which rows the first ones are in; of all blocks of a layer
the same is told as of one file.
"""
from __future__ import annotations

import re
from dataclasses import dataclass
from typing import Sequence

NAMED = 5
LINE = re.compile(
    r"rjoin: layer: even-odd rule for (\d+) features? with improper rings: rows? ([\d, ]+)\n"
)


@dataclass(frozen=True)
class Improper:
    """How many features of some are improper, and the numbers of the first ones, from 0."""

    features: int = 0
    first: tuple[int, ...] = ()

    def behind(self, features: int) -> Improper:
        """The same, of features that follow so many others."""
        return Improper(self.features, tuple(number + features for number in self.first))


def improper_in(errors: str) -> Improper:
    """What a run on a layer tells, of whose features each is a row."""
    told = LINE.fullmatch(errors)
    if told is None:
        return Improper()
    return Improper(int(told.group(1)), tuple(int(row) - 1 for row in told.group(2).split(", ")))


def all_improper(parts: Sequence[Improper]) -> Improper:
    """What is told of parts of a layer, in their order."""
    first = [number for part in parts for number in part.first]
    return Improper(sum(part.features for part in parts), tuple(first[:NAMED]))


def improper_line(side: str, count: int, rows: Sequence[int]) -> str:
    """The line of a layer that has such features, in these rows of its file."""
    many = "s" if count > 1 else ""
    named = ", ".join(map(str, rows))
    return f"{side}: even-odd rule for {count} feature{many} with improper rings: row{many} {named}"
