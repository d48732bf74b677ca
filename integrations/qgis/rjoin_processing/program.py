"""Runs the program rjoin, which can be cancelled."""
from __future__ import annotations

import os
import subprocess
import tempfile
from pathlib import Path
from typing import Callable, Sequence

from . import found

POLL_SECONDS = 0.05
WRONG_WORDS = 2


class ProgramError(Exception):
    """The program isn't there or ended with a fault; the text is the line to show."""


class Cancelled(Exception):
    """The user has cancelled while the program ran."""


def find_program() -> str:
    """The path of the program."""
    try:
        return found.find()
    except found.NoProgram as fault:
        raise ProgramError(str(fault)) from fault


def refusal(command: str, *words: str) -> str | None:
    """The line by which the program refuses the words of a command on two layers, or None.

    Wrong words end with a status of their own before a file is opened, so empty files do for it.
    """
    ended = subprocess.run([find_program(), command, os.devnull, os.devnull, *words],
                           stdin=subprocess.DEVNULL, capture_output=True, text=True, check=False)
    return ended.stderr.strip() if ended.returncode == WRONG_WORDS else None


def run(words: Sequence[str], output: Path, is_cancelled: Callable[[], bool]) -> None:
    """Runs the program with its standard output into a file."""
    with open(output, "wb") as out, tempfile.TemporaryFile() as errors:
        process = subprocess.Popen([find_program(), *words], stdin=subprocess.DEVNULL, stdout=out,
                                   stderr=errors)
        try:
            status = _wait(process, is_cancelled)
        finally:
            if process.poll() is None:
                process.kill()
                process.wait()
        if status != 0:
            errors.seek(0)
            line = errors.read().decode("utf-8", "replace").strip()
            raise ProgramError(line or f"rjoin ended with status {status}")


def _wait(process: subprocess.Popen[bytes], is_cancelled: Callable[[], bool]) -> int:
    while not is_cancelled():
        try:
            return process.wait(POLL_SECONDS)
        except subprocess.TimeoutExpired:
            continue
    raise Cancelled
