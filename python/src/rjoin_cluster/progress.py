"""What is shown while a join runs."""
from __future__ import annotations

import sys
from contextlib import contextmanager
from typing import Callable, Iterator

WIDTH = 40


class Progress:
    """A bar for each phase on standard error, where that is a terminal."""

    def __init__(self, shown: bool) -> None:
        self.shown = shown

    def tell(self, text: str) -> None:
        """Writes a line, whether or not bars are shown."""
        sys.stderr.write(f"{text}\n")

    @contextmanager
    def bar(self, name: str) -> Iterator[Callable[[int, int], None]]:
        """Gives what shows how many tasks of how many have ended."""

        def show(done: int, total: int) -> None:
            self.draw(name, done, total)

        try:
            yield show
        finally:
            if self.shown:
                sys.stderr.write("\n")

    def draw(self, name: str, done: int, total: int) -> None:
        if self.shown:
            full = WIDTH * done // max(total, 1)
            sys.stderr.write(f"\r{name:8} [{'#' * full}{'.' * (WIDTH - full)}] {done}/{total}")
            sys.stderr.flush()
