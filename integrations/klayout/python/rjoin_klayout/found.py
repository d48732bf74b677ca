"""Finds the program rjoin; of a checkout it is taken as it was built, and never built anew.

The Python package, the QGIS plugin, the KLayout package and rjoin-postgis each have a copy of this
file, so that each stands alone; a test compares the copies.
"""
from __future__ import annotations

import os
import re
import shutil
import subprocess
from functools import lru_cache
from pathlib import Path
from typing import Iterator, Optional

# The version of all that has this file, and of the program that it needs but for the last number.
VERSION = "0.2.0"

CRATES = "crates.txt"
BUILT = Path("crates/rjoin/out/rjoin")
MARK = Path("out/built")
TOLD = re.compile(r"rjoin (\d+\.\d+)\.\d+\b.*")


class NoProgram(Exception):
    """There is no program that can be used; the text says what to do."""


def find() -> str:
    """The path of the program, which is asked for its version once."""
    path = place()
    try:
        check_version(path, os.stat(path).st_mtime_ns)
    except OSError as fault:
        raise NoProgram(f"{path} cannot be run: {fault.strerror}") from fault
    return path


@lru_cache(maxsize=None)
def check_version(path: str, _changed: int) -> None:
    """Refuses a program, by its path and the time of its last change, that isn't the right rjoin.

    Before 1.0 each minor version may change what a caller has to write.
    """
    ended = subprocess.run([path, "--version"], stdin=subprocess.DEVNULL, capture_output=True,
                           check=False)
    line = ended.stdout.decode(errors="replace").strip()
    told = TOLD.fullmatch(line)
    if ended.returncode != 0 or not told:
        raise NoProgram(f"{path} is not the program rjoin: it doesn't tell its version")
    ours = VERSION.rpartition(".")[0]
    if told[1] != ours:
        raise NoProgram(f"{path} is {line}, and rjoin {ours} is needed")


def place() -> str:
    """The path of the program: the environment's RJOIN, else that of the checkout that this file
    is in, else `rjoin` on the PATH.

    For the launcher of a checkout, the program that it has built is taken.
    """
    named = os.environ.get("RJOIN")
    own = own_checkout()
    if not named and own and (own / BUILT).is_file():
        return str(own / BUILT)
    path = shutil.which(named or "rjoin")
    if path:
        return built_by(path)
    if named:
        raise NoProgram(f"RJOIN is {named!r}, which is no program that can be run")
    if own:
        raise NoProgram(to_build(own))
    raise NoProgram("the program rjoin was not found: install it, or set RJOIN to its path")


def own_checkout() -> Optional[Path]:
    """The root of the checkout that this file is in."""
    return next((top for top in Path(__file__).resolve().parents if is_checkout(top)), None)


def is_checkout(top: Path) -> bool:
    return (top / CRATES).is_file() and (top / "rjoin").is_file()


def built_by(path: str) -> str:
    """The path, or what was built where it is the launcher of a checkout."""
    launcher = Path(path).resolve()
    top = launcher.parent
    if launcher.name != "rjoin" or not is_checkout(top):
        return path
    if not (top / BUILT).is_file():
        raise NoProgram(to_build(top))
    return str(top / BUILT)


def to_build(top: Path) -> str:
    return (f"{top / BUILT} is not there: {top / 'rjoin'} --version builds it, which takes some "
            "minutes")


def staleness(path: str) -> Optional[str]:
    """What to say of a program that is older than the sources of its checkout; else None."""
    program = Path(path).resolve()
    if len(program.parents) < len(BUILT.parts):
        return None
    top = program.parents[len(BUILT.parts) - 1]
    if program != top / BUILT or not is_checkout(top):
        return None
    marks = [mark.stat().st_mtime_ns for mark in (program, top / MARK) if mark.exists()]
    if all(source.stat().st_mtime_ns <= max(marks) for source in sources(top)):
        return None
    return f"{path} is older than its sources; {top / 'rjoin'} --version builds it anew"


def sources(top: Path) -> Iterator[Path]:
    """The files that the launcher compares with what was built."""
    yield top / CRATES
    for folder, folders, names in os.walk(top / "crates"):
        folders[:] = [name for name in folders if name != "out"]
        yield from (Path(folder, name) for name in names)
