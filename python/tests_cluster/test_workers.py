"""Which workers get tasks: those that were checked, also where they come during a join."""
from __future__ import annotations

import sys
from contextlib import ExitStack
from pathlib import Path

import layers
import pytest
from conftest import (
    WAIT, Tools, address_of, check_left_nothing, ended, own_scheduler, own_worker, running_group,
    wait_for
)

# Stands for the program on all machines. On that of a worker of this kind,
# `other` is another rjoin, which finds no pairs, and `broken` can read no layer; a `late` one lets
# the joins go on for which `held` ones wait, as soon as it has a part in the join.
PROGRAM = """#!/bin/sh
case "$KIND $1" in
    "other --version") touch {came}; echo "rjoin 0"; exit ;;
    "other join") touch {came}; echo left,right,matrix; exit ;;
    "broken bounds" | "broken join") echo "out of order" >&2; exit 1 ;;
    "held join") for _ in $(seq 900); do [ -e {came} ] || sleep 0.1; done ;;
    "late join") touch {came} ;;
esac
exec {program} "$@"
"""


@pytest.fixture
def pair(tools: Tools) -> tuple[Path, Path]:
    return layers.write_pair(tools.folder, "rectangles", 2000)


@pytest.fixture
def program_of_kinds(tools: Tools) -> Path:
    path = tools.folder / "rjoin"
    path.write_text(PROGRAM.format(came=tools.folder / "came", program=tools.program))
    path.chmod(0o755)
    return path


def words_of(tools: Tools, program: Path, pair: tuple[Path, Path], address: str) -> list[str]:
    words = tools.command(*pair, "overlaps", "--tiles", "12", "--block", "30000")
    place = ["--scheduler", address, "--program", str(program)]
    return [sys.executable, "-m", "rjoin_cluster", *words, *place]


def check_report(tools: Tools, pair: tuple[Path, Path]) -> None:
    assert tools.report().read_bytes() == tools.one_run(*pair, "overlaps").output
    check_left_nothing(tools)


@pytest.mark.parametrize("kind", ["other", "late"])
def test_a_worker_that_comes_during_the_join(
    tools: Tools, pair: tuple[Path, Path], program_of_kinds: Path, kind: str
) -> None:
    """It gets tasks where it has what the join needs, and else it is told."""
    folder = tools.folder
    with ExitStack() as stack:
        stack.enter_context(own_scheduler(folder))
        stack.enter_context(own_worker(folder, KIND="held"))
        words = words_of(tools, program_of_kinds, pair, address_of(folder, 1))
        process = stack.enter_context(running_group(words))
        wait_for(tools, "tiles.npy", process)
        stack.enter_context(own_worker(folder, KIND=kind))
        errors = process.communicate(timeout=WAIT)[1]
    assert process.returncode == 0, errors
    assert ("is rjoin 0, and not" in errors) == (kind == "other")
    check_report(tools, pair)


def test_workers_that_cannot_take_part(
    tools: Tools, pair: tuple[Path, Path], program_of_kinds: Path
) -> None:
    """Each is told once, and the others join."""
    kinds = ["other", "broken", "good"]
    with ExitStack() as stack:
        stack.enter_context(own_scheduler(tools.folder))
        for kind in kinds:
            stack.enter_context(own_worker(tools.folder, KIND=kind))
        address = address_of(tools.folder, len(kinds))
        done = ended(words_of(tools, program_of_kinds, pair, address))
    lines = [line for line in done.errors.splitlines() if "it gets no more tasks" in line]
    assert (done.status, len(lines)) == (0, 2), done.errors
    assert f"{program_of_kinds} is rjoin 0, and not rjoin " in lines[0]
    # The third is a task of reading or of joining, as the workers come to them.
    assert "3 tasks in a row failed, the last by RunFailed: rjoin " in lines[1]
    assert lines[1].endswith(": status 1: out of order; it gets no more tasks")
    check_report(tools, pair)


@pytest.mark.parametrize("kind", ["other", "broken"])
def test_no_worker_can_take_part(
    tools: Tools, pair: tuple[Path, Path], program_of_kinds: Path, kind: str
) -> None:
    with own_scheduler(tools.folder), own_worker(tools.folder, KIND=kind):
        address = address_of(tools.folder, 1)
        done = ended(words_of(tools, program_of_kinds, pair, address))
    last = done.errors.splitlines()[-1]
    if kind == "other":
        assert last == "rjoin-cluster: no worker has what the join needs"
    else:
        assert last.startswith("rjoin-cluster: reading left block ")
        assert ": worker tcp://" in last and last.endswith(": out of order")
    assert done.status == 1
    check_left_nothing(tools)
