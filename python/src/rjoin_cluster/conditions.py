"""The condition that a pair satisfies, by the command of the program that decides it."""
from __future__ import annotations

from dataclasses import dataclass
from typing import Optional

from rjoin_cluster.answers import read_answer
from rjoin_cluster.commands import NEAREST, OF_ONE_LAYER, PAIRS
from rjoin_cluster.program import HEADER, Program, RowFault

MATRIX = "matrix"
MATRIX_LETTERS = 9
DISTANCE = "distance"


@dataclass(frozen=True)
class Condition:
    """A command of the program for two layers, and its options, without those of reading."""

    command: str
    words: tuple[str, ...]
    distance: Optional[str] = None  # the greatest, where there is one
    most: int = 1  # how many nearest features are sought

    @property
    def words_of_command(self) -> tuple[str, ...]:
        return (self.command, *self.words)

    @property
    def is_nearest(self) -> bool:
        """Whether a pair depends on the other right features, and not on its own two alone."""
        return self.command == NEAREST

    def check(self, program: Program) -> None:
        """Ends the join where the program doesn't take the command or an option."""
        program.check_has(self.command)
        if program.reading.geometry is not None:
            program.check_has(self.command, "--geometry")
        if PAIRS in self.words:
            program.check_has(self.command, PAIRS)
        words = [self.command, *self.words, *program.reading.words()]
        program.check_words(words, 1 if self.command in OF_ONE_LAYER else 2)


@dataclass(frozen=True)
class Reach:
    """By how many units boxes are grown on each side, so that those of a pair meet, and the last
    column of a report: its name, and the most bytes of its fields; no name and no bytes where a
    report has the two ids alone.
    """

    growth: int
    column: str
    width: int

    @property
    def is_distance(self) -> bool:
        return self.column == DISTANCE

    @property
    def header(self) -> bytes:
        names = ["left", "right", self.column] if self.column else ["left", "right"]
        return (",".join(names) + "\n").encode()


def reach_of(condition: Condition, program: Program) -> Reach:
    """The reach of a condition that the program takes. A distance is printed with as many decimals
    as the scale has, and is at most that of the condition.
    """
    if condition.is_nearest and condition.distance is None:
        return Reach(0, DISTANCE, width_of(program.reading.limits.distance, program))
    if condition.distance is None:
        return Reach(0, "", 0) if PAIRS in condition.words else Reach(0, MATRIX, MATRIX_LETTERS)
    units = units_of(condition.distance, program)
    return Reach((units + 1) // 2, DISTANCE, width_of(units, program))


def width_of(units: int, program: Program) -> int:
    """How many bytes a distance up to this one is printed in."""
    return max(len(str(units)), int(program.reading.scale) + 1) + len(".")


def units_of(distance: str, program: Program) -> int:
    """The distance in units, as the program reads it, or the greatest of all where it can't be a
    coordinate.
    """
    answer = program.bounds([HEADER, f"distance,POINT ({distance} 0)\n".encode()])
    if isinstance(answer, RowFault):
        return program.reading.limits.distance
    return int(read_answer(answer.output).boxes[0, 0])
