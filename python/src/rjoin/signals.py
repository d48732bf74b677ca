"""Ends that leave nothing: a signal that ends a call leaves no files and no program behind."""
from __future__ import annotations

import os
import signal
import sys
import tempfile
import threading
from contextlib import contextmanager
from dataclasses import dataclass
from pathlib import Path
from typing import Any, Dict, Iterator

from rjoin.errors import RjoinError

# How signals are handled where the caller has left them alone.
STANDARD: Dict[signal.Signals, Any] = {
    signal.SIGTERM: signal.SIG_DFL,
    signal.SIGHUP: signal.SIG_DFL,
    signal.SIGINT: signal.default_int_handler,
}


class Ended(BaseException):
    """A signal, by its number, ends the process."""

    def __init__(self, number: int) -> None:
        super().__init__(number)
        self.number = number


@dataclass
class Hold:
    """Whether signals wait, and the number of the first that came meanwhile, or 0."""

    is_on: bool = False
    came: int = 0


hold = Hold()


def end(number: int, _frame: Any) -> None:
    """Handles a signal by an exception, and later ones not at all, but for those of the caller."""
    if hold.is_on:
        hold.came = hold.came or number
        return
    for one in STANDARD:
        if signal.getsignal(one) is end:
            signal.signal(one, signal.SIG_IGN)
    if number == signal.SIGINT:
        raise KeyboardInterrupt
    raise Ended(number)


def is_main() -> bool:
    """Whether this is the thread in which Python handles signals."""
    return threading.current_thread() is threading.main_thread()


@contextmanager
def cleanly() -> Iterator[None]:
    """Lets what is inside clean up where a signal ends the process, which then ends by it.

    Signals that the caller handles or ignores stay as they are; so do all outside the main thread.
    """
    ours = {number: handler for number, handler in STANDARD.items()
            if is_main() and signal.getsignal(number) is handler}
    try:
        try:
            for number in ours:
                signal.signal(number, end)
            yield
        finally:
            for number, handler in ours.items():
                signal.signal(number, handler)
    except Ended as told:
        if not ours:
            raise
        print(f"rjoin: ended by {signal.Signals(told.number).name}", file=sys.stderr, flush=True)
        os.kill(os.getpid(), told.number)
        raise SystemExit(128 + told.number) from told  # another thread may be told first


@contextmanager
def held() -> Iterator[None]:
    """Has signals wait while something is made that has to be removed again."""
    if not is_main():
        yield
        return
    hold.is_on = True
    try:
        yield
    finally:
        hold.is_on = False
    if hold.came:
        number, hold.came = hold.came, 0
        end(number, None)


@contextmanager
def temporary_folder() -> Iterator[Path]:
    """A folder that goes at the end, also where a signal ends the process."""
    made = []
    try:
        with cleanly():
            try:
                with held():
                    made.append(tempfile.TemporaryDirectory(prefix="rjoin-"))
                yield Path(made[0].name)
            finally:
                for folder in made:
                    folder.cleanup()
    except OSError as fault:
        raise RjoinError(f"temporary files: {fault.strerror or fault}") from fault
