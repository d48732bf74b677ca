"""The command rjoin-cluster."""
from __future__ import annotations

import argparse
import json
import logging
import signal
import sys
from contextlib import contextmanager
from types import FrameType
from typing import Any, Iterator, Optional, Sequence

from rjoin_cluster.faults import JoinFault, RunFailed, one_line
from rjoin_cluster.options import parser

INTERRUPTS = (signal.SIGINT, signal.SIGTERM, signal.SIGHUP)


class Interrupted(BaseException):
    """A signal that ends the join."""

    def __init__(self, number: int) -> None:
        super().__init__(number)
        self.status = 128 + number


@contextmanager
def interrupts() -> Iterator[None]:
    """Signals end the program by an exception, so that what it made is taken away. Once one has
    come, others don't keep it from that.
    """

    def stop(number: int, _frame: Optional[FrameType]) -> None:
        for each in before:
            signal.signal(each, signal.SIG_IGN)
        raise Interrupted(number)

    before = {
        number: signal.getsignal(number)
        for number in INTERRUPTS
        if signal.getsignal(number) is not signal.SIG_IGN  # as nohup has it
    }
    try:
        for number in before:
            signal.signal(number, stop)
        yield
    finally:
        for number, handler in before.items():
            signal.signal(number, handler)


def main(arguments: Optional[Sequence[str]] = None) -> int:
    words = parser().parse_args(arguments)
    if words.verbose:
        tell_tasks()
    try:
        with interrupts():
            figures = joined(words)
    except JoinFault as fault:
        print(fault.line, file=sys.stderr)
        return fault.status
    except (OSError, RunFailed) as fault:  # of the command's own runs, which no other worker tries
        print(f"rjoin-cluster: {one_line(fault)}", file=sys.stderr)
        return 1
    except Interrupted as interrupt:
        print("rjoin-cluster: interrupted", file=sys.stderr)
        return interrupt.status
    if words.json:
        print(json.dumps(figures))
    return 0


def tell_tasks() -> None:
    """Has a line written for each task; of dask, whose loggers are others, none is."""
    log = logging.getLogger("rjoin_cluster.engine")
    log.setLevel(logging.INFO)
    log.propagate = False
    log.handlers = [logging.StreamHandler()]


def joined(words: argparse.Namespace) -> dict[str, Any]:
    """Joins as the words say. What takes a moment to load is loaded here, as signals may come
    meanwhile.
    """
    from rjoin_cluster.improper import improper_line
    from rjoin_cluster.join import join
    from rjoin_cluster.progress import Progress
    from rjoin_cluster.request import request_of

    progress = Progress(sys.stderr.isatty() and not words.verbose)
    figures = join(request_of(words), progress)
    if words.skip is not None:
        counts = ", ".join(f"{side} {figures[side]['skipped']}" for side in ("left", "right"))
        progress.tell(f"rjoin-cluster: rows skipped: {counts}")
    for side in [side for side in ("left", "right", "layer") if side in figures]:
        count, rows = figures[side]["improper"], figures[side]["improper_rows"]
        if count:
            progress.tell(f"rjoin-cluster: {improper_line(side, count, rows)}")
    return figures
