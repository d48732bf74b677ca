"""Runs of the proved program rjoin."""
from __future__ import annotations

import os
import re
import shutil
import subprocess
import tempfile
import threading
from contextlib import contextmanager
from dataclasses import dataclass
from types import MappingProxyType
from typing import IO, Iterable, Iterator, Mapping, Optional, Sequence, Union

import numpy as np

from rjoin_cluster.faults import JoinFault, ProgramFault, RunFailed
from rjoin_cluster.reading import BOXES, Reading
from rjoin_cluster.records import Bytes

# What a run is given at most, of whichever geometries: as much as the program takes of boxes.
MOST_FEATURES = 1_000_000
MOST_BYTES = BOXES.bytes
HEADER = b"id,wkt\n"
# What the program may say of a fault, on a line of its own.
HINT = r"(?:\n(.*))?"
ROW_FAULT = re.compile(rf"rjoin: layer: row (\d+): (.*){HINT}\n")
HEADER_FAULT = re.compile(rf"rjoin: layer: wrong header{HINT}\n")

# What the launcher of rjoin asks of the C library: to take memory in large pieces.
TUNABLES = ":".join(
    f"glibc.malloc.{tunable}"
    for tunable in (
        "hugetlb=1",
        "arena_max=2",
        "top_pad=4194304",
        "mmap_threshold=4294967296",
        "trim_threshold=4294967296",
    )
)

Text = Union[bytes, memoryview]
NO_FILES: Mapping[str, Sequence[Text]] = MappingProxyType({})


@dataclass(frozen=True)
class RowFault:
    """A fault of a layer: its row, from 1, or 0 for the header, what is said of it, by which
    program, and what may help.
    """

    row: int
    text: str
    teller: str = "rjoin"
    hint: Optional[str] = None


@dataclass(frozen=True)
class Ended:
    """How a run ended, and what it wrote."""

    status: int
    output: Bytes
    errors: str


class Runs:
    """The runs of this process, which end with the join that they are of."""

    def __init__(self) -> None:
        self.lock = threading.Lock()
        self.processes: set[subprocess.Popen[bytes]] = set()
        self.ending = False

    def status_of(
        self, command: Sequence[str], files: Sequence[int], output: IO[bytes], errors: IO[bytes]
    ) -> int:
        """Runs a command with these files open. Signals of the terminal are for the join, and not
        for its runs.
        """
        with self.lock:
            if self.ending:
                raise RunFailed("the join has ended")
            process = subprocess.Popen(
                command,
                stdin=subprocess.DEVNULL,
                stdout=output,
                stderr=errors,
                pass_fds=files,
                env=environment(),
                start_new_session=True,
            )
            self.processes.add(process)
        try:
            return process.wait()
        finally:
            with self.lock:
                self.processes.remove(process)

    def end(self) -> None:
        with self.lock:
            self.ending = True
            for process in self.processes:
                process.kill()

    def allow(self) -> None:
        with self.lock:
            self.ending = False


RUNS = Runs()


@contextmanager
def ended_runs() -> Iterator[None]:
    """Ends the runs of this process; meanwhile none begins."""
    RUNS.end()
    try:
        yield
    finally:
        RUNS.allow()


def find_program(path: Optional[str]) -> str:
    """The program at this path, else that of the environment's RJOIN, else that on the PATH."""
    wanted = path or os.environ.get("RJOIN") or "rjoin"
    found = shutil.which(wanted)
    if found is None:
        raise JoinFault(
            f"{wanted}: no such program; name one by --program or RJOIN, or put rjoin on the PATH"
        )
    return os.path.abspath(found)


@dataclass(frozen=True)
class Program:
    """The program rjoin at a path, and how it is to read the layers."""

    path: str
    reading: Reading

    def version(self) -> str:
        return bytes(self.run(["--version"], []).output).decode().strip()

    def check_has(self, command: str, option: str = "") -> None:
        """Ends the join where the program lacks the command, or an option of it."""
        ended = self.run([command, "--help"], [])
        if ended.status != 0:
            raise JoinFault(f"{self.path}: this version has no command {command}")
        if option.encode() not in bytes(ended.output):
            raise JoinFault(f"{self.path}: this version has no {option} for {command}")

    def check_words(self, words: Sequence[str], layers: int = 2) -> None:
        """Runs a command on empty layers, so that rjoin itself judges its options."""
        ended = self.run(words, [[HEADER]] * layers)
        if ended.status != 0:
            raise ProgramFault(ended.errors.rstrip("\n"), ended.status)

    def bounds(self, layer: Sequence[Text]) -> Union[Ended, RowFault]:
        """A run that wrote the CSV text of the ids and corners of a layer, in units, or the first
        fault of the layer.
        """
        ended = self.run(["bounds", *self.reading.words()], [layer])
        if ended.status == 0:
            return ended
        told = HEADER_FAULT.fullmatch(ended.errors)
        if told is not None:
            return RowFault(0, "wrong header", hint=told.group(1))
        told = ROW_FAULT.fullmatch(ended.errors)
        if told is None:
            raise RunFailed(f"rjoin bounds: status {ended.status}: {ended.errors.strip()}")
        return RowFault(int(told.group(1)), told.group(2), hint=told.group(3))

    def answer(self, words: Sequence[str], layer: Sequence[Text]) -> Bytes:
        """The answer of a command for a layer that has no fault."""
        ended = self.run([*words, *self.reading.words()], [layer])
        if ended.status != 0:
            raise RunFailed(f"rjoin {words[0]}: status {ended.status}: {ended.errors.strip()}")
        return ended.output

    def report(
        self, words: Sequence[str], left: Iterable[Text], right: Iterable[Text], reading: Reading
    ) -> Bytes:
        """The report of a command for two layers that are read in this way."""
        ended = self.run([*words, *reading.words(), "--workers=1"], [left, right])
        if ended.status != 0:
            raise RunFailed(f"rjoin {words[0]}: status {ended.status}: {ended.errors.strip()}")
        return ended.output

    def run(
        self,
        words: Sequence[str],
        layers: Sequence[Iterable[Text]],
        more: Mapping[str, Sequence[Text]] = NO_FILES,
    ) -> Ended:
        """Runs a command with layers as its first arguments, and more files as those of options;
        each lies in a file without a name.
        """
        files: list[IO[bytes]] = []
        try:
            for text in (*layers, *more.values()):
                files.append(nameless_file(text))
            others = files[len(layers):]
            named = [f"{word}=/dev/fd/{file.fileno()}" for word, file in zip(more, others)]
            return self.run_on([*words, *named], files[:len(layers)], others)
        finally:
            for file in files:
                file.close()

    def run_on(
        self, words: Sequence[str], layers: Sequence[IO[bytes]], others: Sequence[IO[bytes]]
    ) -> Ended:
        paths = [f"/dev/fd/{file.fileno()}" for file in layers]
        command = [self.path, words[0], *paths, *words[1:]]
        numbers = [file.fileno() for file in (*layers, *others)]
        with tempfile.TemporaryFile() as output, tempfile.TemporaryFile() as errors:
            status = RUNS.status_of(command, numbers, output, errors)
            errors.seek(0)
            return Ended(status, contents(output), errors.read().decode(errors="replace"))


def contents(file: IO[bytes]) -> Bytes:
    """The bytes of a file, which are read where they are looked at, also when it is closed."""
    if os.fstat(file.fileno()).st_size == 0:
        return np.zeros(0, dtype=np.uint8)
    return np.asarray(np.memmap(file, dtype=np.uint8, mode="r"))


def nameless_file(parts: Iterable[Text]) -> IO[bytes]:
    """A file that vanishes with the process, so that one which is killed leaves nothing."""
    file = tempfile.TemporaryFile()
    try:
        for part in parts:
            file.write(part)
        file.flush()
    except BaseException:
        file.close()
        raise
    return file


def environment() -> dict[str, str]:
    return {"GLIBC_TUNABLES": TUNABLES, **os.environ}
