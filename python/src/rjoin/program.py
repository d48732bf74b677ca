"""Finds the program rjoin, runs it, and raises what it writes on standard error."""
from __future__ import annotations

import os
import re
import subprocess
import warnings
from typing import IO, NamedTuple, Optional, Sequence, Set, Tuple, Union

from rjoin import found, progress, signals
from rjoin.errors import ArgumentError, RjoinError, StaleProgramWarning

Word = Union[str, "os.PathLike[str]"]

# How the C library should take memory for large layers: as the repository's launcher has it.
TUNABLES = ":".join("glibc.malloc." + setting for setting in (
    "hugetlb=1", "top_pad=4194304", "mmap_threshold=4294967296", "trim_threshold=4294967296"))


class InputFault(Exception):
    """A fault of an input as the program tells it, with its own row, counted from 1, or none."""

    def __init__(self, side: str, row: Optional[int], reason: str) -> None:
        super().__init__(side, row, reason)
        self.side = side
        self.row = row
        self.reason = reason


class Answer(NamedTuple):
    """What the program wrote on standard output and, of a success, on standard error."""

    output: bytes
    notes: str


FAULT = re.compile(
    r"rjoin: (?P<side>left|right|layer|window|first|second): (?:row (?P<row>\d+): )?(?P<reason>.*)")
UNKNOWN_OPTION = re.compile(r"error: unexpected argument '(?P<option>--[a-z-]+)' found")
NO_MEMORY = "no memory"
# What follows the fault of a row that is read as a box, where it is none.
ANY_HINT = "; --geometry any reads this row"
WRITE_FAILED = "write failed"
WRONG_WORDS = 2

# The programs of which it is told whether they are older than their sources.
told: Set[str] = set()


def find() -> str:
    """The path of the program, which is asked once for its version, and told once if it is old."""
    try:
        path = found.find()
    except found.NoProgram as fault:
        raise RjoinError(str(fault)) from fault
    if path not in told:
        told.add(path)
        stale = found.staleness(path)
        if stale:
            warnings.warn(stale, StaleProgramWarning, stacklevel=2)
    return path


def run(words: Sequence[Word], output: Union[int, IO[bytes]] = subprocess.PIPE) -> Answer:
    """Runs the program with some words, and gives what it wrote unless that went to `output`.

    A fault of an input is raised as an InputFault, invalid arguments as an ArgumentError, and all
    else as an RjoinError.
    """
    program = find()
    try:
        status, answer, errors = ended([program, *words], output)
    except OSError as fault:
        raise RjoinError(f"{program} cannot be run: {fault.strerror}") from fault
    if status != 0:
        raise error_of(program, status, errors.decode(errors="replace"))
    return Answer(answer or b"", errors.decode(errors="replace"))


def tunables(words: Sequence[Word]) -> str:
    """How the C library should take memory for a run with these words: geometries of any kind are
    many short lists, for which threads would wait at one arena."""
    arenas = 2 if "any" in words or "--geometry=any" in words else 1
    return f"{TUNABLES}:glibc.malloc.arena_max={arenas}"


def ended(words: Sequence[Word], output: Union[int, IO[bytes]]) -> Tuple[int, bytes, bytes]:
    """How a program ended, and what it wrote; an exception meanwhile ends it too."""
    environment = {"GLIBC_TUNABLES": tunables(words), **os.environ}
    started = []
    try:
        with signals.held():
            started.append(subprocess.Popen(words, stdin=subprocess.DEVNULL, stdout=output,
                                            stderr=subprocess.PIPE, env=environment))
        answer, errors = progress.communicated(started[0], words, output)
    except BaseException:
        for process in started:
            process.kill()
            process.wait()
        raise
    return started[0].returncode, answer, errors


def error_of(program: str, status: int, text: str) -> Exception:
    """The exception for a run that ended with this status and this text on standard error."""
    if status < 0:
        return RjoinError(f"{program} was ended by signal {-status}")
    line = fault_line(text)
    fault = FAULT.fullmatch(line.removesuffix(ANY_HINT))
    if fault and fault["reason"] != NO_MEMORY:
        row = fault["row"]
        return InputFault(fault["side"], int(row) if row else None, fault["reason"])
    unknown = UNKNOWN_OPTION.match(line)
    if unknown:
        return RjoinError(f"{program} has no option {unknown['option']}, and a newer rjoin is "
                          "needed")
    reason = line.removeprefix("rjoin: ") or f"{program} ended with status {status}"
    return ArgumentError(reason) if status == WRONG_WORDS else RjoinError(reason)


def wrong_answer() -> RjoinError:
    """The error for an answer that isn't of the form that the program writes."""
    return RjoinError(f"{find()} wrote no answer of its kind; is it the program?")


def fault_line(text: str) -> str:
    """The last line of rjoin, with the hint that follows it, or else the first line of any kind."""
    lines = [line for line in text.splitlines() if line.strip()]
    ours = [place for place, line in enumerate(lines) if line.startswith("rjoin: ")]
    return "; ".join(lines[ours[-1]:] if ours else lines[:1])
