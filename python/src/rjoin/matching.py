"""Joins of two frames that are asked for on a command line, as rows of places.

The frames themselves are joined by rjoin.sjoins.
"""
from __future__ import annotations

from typing import TYPE_CHECKING, Any, NamedTuple, Optional, Tuple

from rjoin import frames, joining, relations
from rjoin.errors import ArgumentError, Notice
from rjoin.frames import Flags, Matches
from rjoin.lengths import Length, Measure
from rjoin.sjoins import NEAREST, WITHIN, are_exact, are_known
from rjoin.sources import Rules, right_of

if TYPE_CHECKING:
    import argparse

    from rjoin.joining import Job, Reading

MOST_NEAREST = 4_294_967_295


class Question(NamedTuple):
    """What is asked of two layers.

    relation: a name, a mask, WITHIN or NEAREST. length: the greatest distance, where there is one.
    most: how many nearest features are looked for. how: which side keeps its rows, as for `sjoin`.
    """

    relation: str
    length: Optional[Length]
    most: int
    how: str

    @property
    def base(self) -> int:
        """The side whose rows are kept and whose nearest features are looked for: 0 for left."""
        return 1 if self.how == "right" else 0

    @property
    def remedy(self) -> str:
        """What answers the question where a feature that is left out may be a partner."""
        return "--incomplete mark" if self.relation == NEAREST else (
            "--how inner, or --incomplete mark")

    @property
    def last(self) -> str:
        """The column that a pair has beside its two features."""
        return "distance" if self.relation in (WITHIN, NEAREST) else "matrix"


class Found(NamedTuple):
    """The rows of a join.

    matches: the places of the features. values: the last column of each pair. exact and known: of
    each row, where they are asked for. decimals: those that coordinates were rounded to, where some
    have more.
    """

    matches: Matches
    values: Any
    exact: Optional[Flags]
    known: Optional[Flags]
    left_out: Tuple[Notice, ...]
    enveloped: Tuple[Notice, ...]
    decimals: Optional[int]


def question_of(arguments: "argparse.Namespace") -> Question:
    """The question of a command line, whose words are judged together."""
    relation, nearest, distance = arguments.relation, arguments.nearest, arguments.distance
    if (relation is None) == (nearest is None):
        raise ArgumentError("give --relation or --nearest, and not both")
    if relation is None:
        if not 1 <= nearest <= MOST_NEAREST:
            raise ArgumentError(f"--nearest must be 1 to {MOST_NEAREST}, not {nearest}")
        return Question(NEAREST, length_of(distance), nearest, arguments.how)
    if (relation == WITHIN) != (distance is not None):
        raise ArgumentError(f"--distance is for --relation {WITHIN}, which needs it, and for "
                            "--nearest")
    if relation != WITHIN:
        relations.check(relation)
    if arguments.incomplete == "mark" and arguments.how == "inner":
        raise ArgumentError("--incomplete mark is for --how left and right, and for --nearest")
    return Question(relation, length_of(distance), 1, arguments.how)


def length_of(distance: Optional[float]) -> Optional[Length]:
    return None if distance is None else Length("--distance", distance)


def asked(layers: Tuple[Any, Any], question: Question, reading: "Reading",
          arguments: "argparse.Namespace") -> Found:
    """The answer to a question about two layers."""
    lengths = (question.length,) if question.length else ()
    measured = question.last == "distance"
    job = joining.job_of(
        (("left", layers[0]), ("right", right_of(*layers, arguments.to_crs))), reading,
        Rules(arguments.other, arguments.missing, keeps=True),
        measure=Measure(lengths, reading.scale is None) if measured else None)
    is_marked = arguments.incomplete == "mark"
    if not is_marked and (question.how != "inner" or question.relation == NEAREST):
        job.refuse_incomplete(1 - question.base, question.remedy)
    job.warn_of_crs(depth=1)
    found = pairs_of(job, question, arguments.workers)
    lefts, rights = job.positions(found)
    matches = frames.arranged((lefts, rights), question.how, job.kept(question.base))
    told = job, matches, question.relation, question.base
    exact = are_exact(*told) if arguments.other == "envelope" else None
    known = are_known(*told) if is_marked else None
    attributes = job.finish({}, depth=1)
    return Found(matches, found[question.last].to_numpy(), exact, known,
                 attributes["left_out"], attributes["enveloped"],
                 job.scale.decimals if reading.rounds and job.has_more_decimals() else None)


def pairs_of(job: "Job", question: Question, workers: Any) -> Any:
    """The report of the program, with the matrix or the distance of each pair."""
    if question.relation == NEAREST:
        return joining.nearest_of(job, question.base, question.length, workers, question.most)
    if question.length:
        return joining.within(job, question.length, workers, wants_distance=True)
    return joining.joined(job, question.relation, workers, matrix=True)
