#!/usr/bin/env python3
"""Proves by `rt ci` the program and all that it rests on, and writes what processor time the proofs of each crate took.

    check/proofs.py          of the program and the crates below it, from nothing
    check/proofs.py --all    of all crates, and so of the tests, which check/tests.py runs without a proof

`rt ci` proves each crate that it finds. So it runs in a copy of the repository that has the wanted crates alone, and
what it has built is moved here afterwards. The status and the last line are those of `rt ci`. The times are read from
the system while the proofs run, and go to out/proof-times.txt, a line for each crate: its name and seconds, its tests
included. check/budgets.py holds the times to the budgets.
"""
import os
import re
import shutil
import signal
import subprocess
import sys
import tempfile
from collections.abc import Iterator
from pathlib import Path
from threading import Event, Thread
from typing import NamedTuple

ROOT = Path(__file__).resolve().parent.parent
sys.path.append(str(ROOT / "tools"))

from crates import PROGRAM, below, uses_by_crate  # noqa: E402

TIMES = ROOT / "out/proof-times.txt"
POLL_SECONDS = 0.5
TICKS = os.sysconf("SC_CLK_TCK")


class Process(NamedTuple):
    """A process: its number, its parent, and the processor time of it and of its children that have ended."""

    number: int
    parent: int
    seconds: float


def process_of(number: int) -> Process | None:
    """The process of this number, unless it has ended."""
    try:
        fields = Path(f"/proc/{number}/stat").read_text(encoding="utf-8").rpartition(")")[2].split()
    except OSError:
        return None
    return Process(number, int(fields[1]), sum(map(int, fields[11:15])) / TICKS)


def processes() -> dict[int, Process]:
    numbers = (int(it) for it in os.listdir("/proc") if it.isdigit())
    return {it.number: it for number in numbers if (it := process_of(number))}


def crate_of(number: int) -> str:
    """The crate that this process proves or builds, if it does."""
    try:
        words = Path(f"/proc/{number}/cmdline").read_text(encoding="utf-8", errors="replace").split("\0")
    except OSError:
        return ""
    is_proof = words[0].endswith("/rattle") and words[1:2] in (["build"], ["check"]) and "--crate-name" in words
    return words[words.index("--crate-name") + 1] if is_proof else ""


class Watch:
    """The processor time of the proofs below a process, by the process that proves a crate. One that works by several
    jobs has copies of itself below it, whose time becomes its own once they have ended."""

    def __init__(self, top: int) -> None:
        self.top = top
        self.seconds: dict[tuple[str, int], float] = {}

    def look(self) -> None:
        """Notes how much time each proof has taken up to now."""
        there = processes()
        crates = {number: crate_of(number) for number in there if self.is_below(there, number)}
        now: dict[tuple[str, int], float] = {}
        for number, crate in crates.items():
            if crate:
                key = crate, self.first(there, crates, number)
                now[key] = now.get(key, 0) + there[number].seconds
        for key, seconds in now.items():
            self.seconds[key] = max(seconds, self.seconds.get(key, 0))

    def is_below(self, there: dict[int, Process], number: int) -> bool:
        while number in there:
            number = there[number].parent
            if number == self.top:
                return True
        return False

    @staticmethod
    def first(there: dict[int, Process], crates: dict[int, str], number: int) -> int:
        """The first process that proves the crate, of which this one is a copy or which it is itself."""
        while crates.get(there[number].parent) == crates[number]:
            number = there[number].parent
        return number

    def by_crate(self) -> Iterator[tuple[str, float]]:
        for name in sorted({crate for crate, _ in self.seconds}):
            yield name, sum(seconds for (crate, _), seconds in self.seconds.items() if crate == name)


def watched(words: list[str], folder: Path) -> tuple[int, Watch]:
    """Runs a command in a folder, and returns its status and the times of the proofs below it."""
    with subprocess.Popen(words, cwd=folder) as running:
        watch, has_ended = Watch(running.pid), Event()

        def look() -> None:
            while not has_ended.wait(POLL_SECONDS):
                watch.look()

        thread = Thread(target=look)
        thread.start()
        try:
            status = running.wait()
        finally:
            has_ended.set()
            thread.join()
    return status, watch


def proved() -> list[str]:
    """The program and the crates that it rests on."""
    uses = uses_by_crate()
    wanted = below(PROGRAM, uses) | {PROGRAM}
    return [it for it in uses if it in wanted]


def copy(crates: list[str], folder: Path) -> None:
    """Copies what `rt ci` reads of these crates, as if the repository had no others."""
    for name in crates:
        shutil.copytree(ROOT / "crates" / name, folder / "crates" / name, ignore=shutil.ignore_patterns("out"))
    lines = (ROOT / "crates.txt").read_text(encoding="utf-8").splitlines(keepends=True)
    listed = (line for line in lines if re.split(r"[ :]", line)[0] in crates)
    (folder / "crates.txt").write_text("".join(listed), encoding="utf-8")
    shutil.copy(ROOT / "HANDLES", folder)


def take(crates: list[str], folder: Path) -> None:
    """Moves what was built of these crates to where the repository has it."""
    for name in crates:
        there = folder / "crates" / name / "out"
        for built in sorted(there.iterdir()) if there.is_dir() else ():
            here = ROOT / "crates" / name / "out" / built.name
            if here.is_dir():
                shutil.rmtree(here)
            here.parent.mkdir(exist_ok=True)
            shutil.move(built, here)


def prove_product() -> tuple[int, Watch]:
    """Proves the program and what it rests on in a copy, and takes what was built, whatever the status is."""
    crates = proved()
    with tempfile.TemporaryDirectory(prefix="proofs-") as room:
        copy(crates, Path(room))
        try:
            return watched(["rt", "ci"], Path(room))
        finally:
            take(crates, Path(room))


def main(words: list[str]) -> int:
    signal.signal(signal.SIGTERM, lambda *_: sys.exit(143))
    status, watch = watched(["rt", "ci"], ROOT) if words == ["--all"] else prove_product()
    TIMES.parent.mkdir(exist_ok=True)
    TIMES.write_text("".join(f"{crate} {seconds:.0f}\n" for crate, seconds in watch.by_crate()), encoding="utf-8")
    return status


if __name__ == "__main__":
    sys.exit(main(sys.argv[1:]))
