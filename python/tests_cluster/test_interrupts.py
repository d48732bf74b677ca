"""Signals that end a join: one line, no report, and nothing left behind."""
from __future__ import annotations

import json
import os
import signal
import time
from contextlib import suppress
from pathlib import Path
from typing import Any, Iterator

import layers
import psutil
import pytest
from conftest import WAIT, Tools, check_left_nothing, running_group, told, wait_for

from rjoin_cluster.command import Interrupted, interrupts
from rjoin_cluster.sums import sum_of_file


@pytest.fixture
def pair(tools: Tools) -> tuple[Path, Path]:
    return layers.write_pair(tools.folder, "rectangles", 20_000)


# Holds each join that begins once a tile has its pairs, so that no interrupt comes too late,
# however busy the machine is: the shell waits until somebody opens the pipe for writing.
HELD = """#!/bin/sh
for pairs in {folder}/rjoin-cluster-*/pairs-*.rows; do
    if [ "$1" = join ] && [ -e "$pairs" ]; then read -r _ <{folder}/held; break; fi
done
exec {program} "$@"
"""


@pytest.fixture
def held(tools: Tools) -> Iterator[str]:
    """The path of a program that holds joins of tiles until the test has ended."""
    path, pipe = tools.folder / "rjoin", tools.folder / "held"
    os.mkfifo(pipe)
    path.write_text(HELD.format(folder=tools.folder, program=tools.program))
    path.chmod(0o755)
    yield str(path)
    os.close(os.open(pipe, os.O_RDWR))


INTERRUPTS = [signal.SIGINT, signal.SIGTERM, signal.SIGHUP]


@pytest.mark.parametrize("number", INTERRUPTS)
@pytest.mark.parametrize("local", [True, False])
def test_the_command_is_interrupted(
    tools: Tools, pair: tuple[Path, Path], held: str, number: signal.Signals, local: bool
) -> None:
    """As by Control-C in a terminal, whose signal reaches all processes of the command."""
    more = ["--tiles", "24", "--block", "200000", "--program", held]
    words = tools.local_command(*pair, "intersects", *more)
    if not local:
        words += ["--scheduler", tools.scheduler]
    with running_group(words) as process:
        wait_for(tools, "pairs-*.rows", process)
        os.killpg(process.pid, number)
        errors = told(process.communicate(timeout=WAIT)[1])
    assert (process.returncode, errors) == (128 + number, "rjoin-cluster: interrupted\n")
    assert not tools.report().exists()
    check_left_nothing(tools)


def test_an_interrupted_join_goes_on(
    tools: Tools, pair: tuple[Path, Path], held: str
) -> None:
    """Its folder stays, and holds all that was done."""
    folder = tools.folder / "rjoin-cluster-kept"
    more = ["--tiles", "24", "--block", "200000", "--program", held, "--resume", str(folder)]
    words = tools.local_command(*pair, "intersects", *more)
    with running_group(words) as process:
        wait_for(tools, "pairs-*.rows", process)
        process.send_signal(signal.SIGINT)
        errors = told(process.communicate(timeout=WAIT)[1])
    assert (process.returncode, errors) == (130, "rjoin-cluster: interrupted\n")
    assert not list(tools.folder.glob("*report*")) and (folder / "record").stat().st_size > 0
    Path(held).write_text(f'#!/bin/sh\nexec {tools.program} "$@"\n')
    program = read_description(folder)["program"]
    write_description(folder, program, sum_of_file(held))
    tools.check_same(*pair, "intersects", "0", *more)
    assert not folder.exists()


def read_description(folder: Path) -> Any:
    return json.loads((folder / "join.json").read_text())


def write_description(folder: Path, before: str, now: str) -> None:
    """Takes the program that was held for the one that is not."""
    text = (folder / "join.json").read_text()
    (folder / "join.json").write_text(text.replace(before, now))


def test_signals_that_are_ignored() -> None:
    """One that was ignored before the join, as under nohup, and any that follows the first."""
    before = signal.signal(signal.SIGHUP, signal.SIG_IGN)
    try:
        with pytest.raises(Interrupted) as end, interrupts():
            os.kill(os.getpid(), signal.SIGHUP)
            try:
                os.kill(os.getpid(), signal.SIGTERM)
            finally:
                for number in INTERRUPTS:
                    os.kill(os.getpid(), number)
        assert signal.getsignal(signal.SIGHUP) is signal.SIG_IGN
    finally:
        signal.signal(signal.SIGHUP, before)
    assert end.value.status == 128 + signal.SIGTERM
    assert signal.getsignal(signal.SIGTERM) is signal.SIG_DFL


def held_runs(process: Any) -> list[psutil.Process]:
    """The runs that a command has started, once there are some, and all are in groups of their own:
    a terminal's signals go to the command's group."""
    end = time.monotonic() + WAIT
    while time.monotonic() < end:
        runs: list[psutil.Process] = psutil.Process(process.pid).children(recursive=True)
        with suppress(psutil.NoSuchProcess, ProcessLookupError):
            groups = {os.getpgid(run.pid) for run in runs if run.ppid() == process.pid}
            if groups and os.getpgid(process.pid) not in groups:
                return runs
        time.sleep(0.01)
    pytest.fail("no run is in a group of its own")


def test_what_interrupts_leave_no_run_going_on(
    tools: Tools, pair: tuple[Path, Path], held: str
) -> None:
    more = ["--tiles", "24", "--program", held]
    with running_group(tools.local_command(*pair, "intersects", *more)) as process:
        wait_for(tools, "pairs-*.rows", process)
        runs = held_runs(process)
        process.send_signal(signal.SIGTERM)
        process.communicate(timeout=WAIT)
    assert [run for run in runs if run.is_running()] == []
