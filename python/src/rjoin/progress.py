"""A bar for runs of some seconds, on a terminal where tqdm is installed.

The program tells nothing of its steps: how much of the layers it has read, and how many bytes it
has written, is what the system counts of it.
"""
from __future__ import annotations

import os
import re
import subprocess
import sys
from contextlib import contextmanager
from importlib.util import find_spec
from pathlib import Path
from typing import IO, Any, Iterator, Sequence, Tuple, Union

AFTER = 3.0
EVERY = 0.2
READ = re.compile(r"^rchar: (\d+)$", re.MULTILINE)

Output = Union[int, IO[bytes]]


def is_shown() -> bool:
    """Whether there is a terminal, and what draws bars on it."""
    return sys.stderr is not None and sys.stderr.isatty() and find_spec("tqdm") is not None


def communicated(process: "subprocess.Popen[bytes]", words: Sequence[Any],
                 output: Output) -> Tuple[bytes, bytes]:
    """What a run wrote on its pipes until it ended; a bar shows how it goes on."""
    if not is_shown():
        return process.communicate()
    try:
        return process.communicate(timeout=AFTER)
    except subprocess.TimeoutExpired:
        layers = [word for word in words if isinstance(word, Path)]
    with bar(f"rjoin {words[1]}", sum(path.stat().st_size for path in layers)) as shown:
        while True:
            update(shown, bytes_read(process.pid), bytes_written(output))
            try:
                return process.communicate(timeout=EVERY)
            except subprocess.TimeoutExpired:
                continue


@contextmanager
def bar(name: str, total: int) -> Iterator[Any]:
    from tqdm import tqdm

    shown = tqdm(total=total, desc=name, unit="B", unit_scale=True, leave=False, file=sys.stderr)
    try:
        yield shown
    finally:
        shown.close()


def update(shown: Any, read: int, written: int) -> None:
    """Draws a bar anew: the bytes of the layers that were read, and those of the report."""
    shown.update(max(0, min(read, shown.total) - shown.n))
    if written:
        shown.set_postfix_str(f"{written / 1e6:.1f} MB written", refresh=False)
    elif shown.n >= shown.total:
        shown.set_postfix_str("joining", refresh=False)
    shown.refresh()


def bytes_read(number: int) -> int:
    """How many bytes a process has read, as far as the system tells."""
    try:
        told = READ.search(Path(f"/proc/{number}/io").read_text(encoding="ascii"))
    except OSError:
        return 0
    return int(told[1]) if told else 0


def bytes_written(output: Output) -> int:
    """How many bytes are in the file that a process writes to."""
    return 0 if isinstance(output, int) else os.fstat(output.fileno()).st_size
