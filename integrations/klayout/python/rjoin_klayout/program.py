"""Runs the program rjoin."""
from __future__ import annotations

import os
import subprocess
from pathlib import Path
from typing import Optional, Sequence

from . import found

WRONG_WORDS = 2


class ProgramError(Exception):
    """The program isn't there or ended with a fault; the text is the line to show."""


def find_program() -> str:
    """The path of the program."""
    try:
        return found.find()
    except found.NoProgram as fault:
        raise ProgramError(str(fault)) from fault


def staleness() -> Optional[str]:
    """What to say of a program that is older than the sources of its checkout; else None."""
    return found.staleness(find_program())


def refusal(command: str, *words: str) -> Optional[str]:
    """The line by which the program refuses the words of a command on two layers, or None.

    Wrong words end with a status of their own before a file is opened, so empty files do for it.
    """
    ended = subprocess.run([find_program(), command, os.devnull, os.devnull, *words],
                           stdin=subprocess.DEVNULL, capture_output=True, text=True, check=False)
    return ended.stderr.strip() if ended.returncode == WRONG_WORDS else None


def run(words: Sequence[str], output: Path) -> None:
    """Runs the program with its standard output into a file."""
    with open(output, "wb") as out:
        ended = subprocess.run([find_program(), *words], stdin=subprocess.DEVNULL, stdout=out,
                               stderr=subprocess.PIPE, check=False)
    if ended.returncode != 0:
        line = ended.stderr.decode("utf-8", "replace").strip()
        raise ProgramError(line or f"rjoin ended with status {ended.returncode}")
