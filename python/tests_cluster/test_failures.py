"""Workers that die or hang, machines that vanish, and disks that are full."""
from __future__ import annotations

import os
import signal
import socket
import subprocess
import sys
import time
from contextlib import ExitStack, contextmanager, suppress
from pathlib import Path
from typing import Any, Iterator

import layers
import numpy as np
import pytest
from conftest import (
    WAIT, Tools, check_left_nothing, distributed, own_processes, running_group, told, wait_for
)

from rjoin_cluster.layout import save_array


@pytest.fixture
def pair(tools: Tools) -> tuple[Path, Path]:
    return layers.write_pair(tools.folder, "rectangles", 20_000)


@contextmanager
def own_cluster(**options: Any) -> Iterator[Any]:
    more = {"threads_per_worker": 1, "dashboard_address": ":0", **options}
    with distributed.LocalCluster(**more) as cluster, distributed.Client(cluster) as client:
        yield client


def started(tools: Tools, address: str, left: Path, right: Path, *more: str) -> Any:
    """The command, in a process of its own."""
    words = tools.command(left, right, "intersects", "--tiles", "24", "--block", "200000", *more)
    words[words.index("--scheduler") + 1] = address
    command = [sys.executable, "-m", "rjoin_cluster", *words]
    return subprocess.Popen(command, stderr=subprocess.PIPE, text=True)


@pytest.mark.parametrize(
    "step, more",
    [
        ("boxes-*.rows", []),
        ("pairs-*.rows", []),
        ("texts-*.bytes", ["--geometry", "any"]),
    ],
)
def test_a_worker_that_is_killed_changes_nothing(
    tools: Tools, pair: tuple[Path, Path], step: str, more: list[str]
) -> None:
    with own_cluster(n_workers=2) as client:
        numbers = client.run(os.getpid)
        process = started(tools, client.scheduler.address, *pair, *more)
        wait_for(tools, step, process)
        os.kill(next(iter(numbers.values())), signal.SIGKILL)
        assert process.wait(WAIT) == 0, process.stderr.read()
    assert tools.report().read_bytes() == tools.one_run(*pair, "intersects").output
    check_left_nothing(tools)


def test_the_only_worker_vanishes(tools: Tools, pair: tuple[Path, Path]) -> None:
    """A worker without a nanny, so that nothing starts it again."""
    with own_cluster(n_workers=0) as client:
        address = client.scheduler.address
        command = [sys.executable, "-m", "distributed.cli.dask_worker", address, "--no-nanny"]
        with subprocess.Popen([*command, "--no-dashboard"], stderr=subprocess.DEVNULL) as worker:
            process = started(tools, address, *pair, "--patience", "9")
            wait_for(tools, "boxes-*.rows", process)
            worker.kill()
        errors = told(process.communicate(timeout=WAIT)[1])
    assert (process.returncode, errors) == (1, "rjoin-cluster: no worker for 9 seconds\n")
    assert not tools.report().exists()
    check_left_nothing(tools)


def test_a_scheduler_without_workers(tools: Tools, pair: tuple[Path, Path]) -> None:
    with own_cluster(n_workers=0) as client:
        address = client.scheduler.address
        process = started(tools, address, *pair, "--patience", "2")
        errors = told(process.communicate(timeout=WAIT)[1])
    assert errors == f"rjoin-cluster: {address}: the scheduler has no workers\n"
    check_left_nothing(tools)


def test_the_scheduler_vanishes(tools: Tools, pair: tuple[Path, Path]) -> None:
    with own_cluster(n_workers=1) as client:
        process = started(tools, client.scheduler.address, *pair, "--patience", "9")
        wait_for(tools, "boxes-*.rows", process)
    errors = told(process.communicate(timeout=WAIT)[1])
    assert process.returncode == 1
    assert errors == "rjoin-cluster: the scheduler was lost\n"
    assert not tools.report().exists()
    check_left_nothing(tools)


@contextmanager
def stopped(process: int) -> Iterator[None]:
    """A process that goes on existing, but does nothing."""
    os.kill(process, signal.SIGSTOP)
    try:
        yield
    finally:
        with suppress(ProcessLookupError):
            os.kill(process, signal.SIGCONT)


@pytest.mark.parametrize("workers", [1, 2])
def test_a_worker_is_stopped(tools: Tools, pair: tuple[Path, Path], workers: int) -> None:
    """It is named, and its tasks go to the other one, if there is one."""
    with own_cluster(n_workers=workers) as client:
        (address, number), *_ = client.run(os.getpid).items()
        process = started(tools, client.scheduler.address, *pair, "--patience", "4")
        wait_for(tools, "boxes-*.rows", process)
        with stopped(number):
            errors = told(process.communicate(timeout=WAIT)[1]).splitlines()
    silent = f"rjoin-cluster: worker {address}: no sign of life for 4 seconds"
    assert errors[0] == f"{silent}; its tasks go to other workers"
    if workers == 1:
        assert (process.returncode, errors[1:]) == (1, ["rjoin-cluster: no worker for 4 seconds"])
    else:
        assert (process.returncode, errors[1:]) == (0, [])
        assert tools.report().read_bytes() == tools.one_run(*pair, "intersects").output
    check_left_nothing(tools)


def test_a_worker_is_stopped_before_the_join(tools: Tools, pair: tuple[Path, Path]) -> None:
    with own_cluster(n_workers=2) as client:
        (address, number), *_ = client.run(os.getpid).items()
        with stopped(number):
            process = started(tools, client.scheduler.address, *pair, "--patience", "4")
            errors = told(process.communicate(timeout=WAIT)[1])
    assert (process.returncode, address in errors, errors.count("\n")) == (0, True, 1), errors
    check_left_nothing(tools)


@pytest.mark.parametrize("early", [True, False])
def test_the_scheduler_is_stopped(tools: Tools, pair: tuple[Path, Path], early: bool) -> None:
    with own_processes(tools.folder) as (address, number), ExitStack() as stack:
        if early:
            stack.enter_context(stopped(number))
        process = started(tools, address, *pair, "--patience", "4")
        if not early:
            wait_for(tools, "boxes-*.rows", process)
            stack.enter_context(stopped(number))
        errors = told(process.communicate(timeout=WAIT)[1])
    silent = "the scheduler has not answered for 4 seconds"
    line = f"{address}: no scheduler answers" if early else silent
    assert (process.returncode, errors) == (1, f"rjoin-cluster: {line}\n")
    check_left_nothing(tools)


# How long a command whose patience is so long may take to end once a scheduler is silent: it looks
# every 2 seconds, waits for its patience, and takes leave.
PATIENCE, ENDS_WITHIN = 10, 15


def test_a_port_that_never_answers_is_left_in_time(tools: Tools, pair: tuple[Path, Path]) -> None:
    with socket.create_server(("127.0.0.1", 0)) as listener:
        listener.settimeout(WAIT)
        address = f"tcp://127.0.0.1:{listener.getsockname()[1]}"
        process = started(tools, address, *pair, "--patience", str(PATIENCE))
        with listener.accept()[0]:
            begun = time.monotonic()
            errors = told(process.communicate(timeout=WAIT)[1])
            elapsed = time.monotonic() - begun
    assert (process.returncode, errors) == (1, f"rjoin-cluster: {address}: no scheduler answers\n")
    assert elapsed <= ENDS_WITHIN
    check_left_nothing(tools)


def test_a_scheduler_that_is_stopped_is_left_in_time(
    tools: Tools, pair: tuple[Path, Path]
) -> None:
    """In the middle of a join, when tasks are under way."""
    with own_processes(tools.folder) as (address, number):
        process = started(tools, address, *pair, "--patience", str(PATIENCE))
        wait_for(tools, "pairs-*.rows", process)
        with stopped(number):
            begun = time.monotonic()
            errors = told(process.communicate(timeout=WAIT)[1])
            elapsed = time.monotonic() - begun
    line = f"the scheduler has not answered for {PATIENCE} seconds"
    assert (process.returncode, errors) == (1, f"rjoin-cluster: {line}\n")
    assert elapsed <= ENDS_WITHIN
    check_left_nothing(tools)


# Sends a scheduler that it has stopped more than the system keeps for a process that reads nothing.
SENDS_MUCH = """
import os, signal, sys, warnings
from rjoin_cluster.cluster import remote_client
from rjoin_cluster.faults import JoinFault
from rjoin_cluster.request import Place
from rjoin_cluster.watch import Watch

def asked(address, number, patience):
    with remote_client(Place(address, 1, patience)) as client:
        os.kill(number, signal.SIGSTOP)
        future = client.submit(len, bytes(2**25))
        print("sent", flush=True)
        Watch(client, patience).workers()

warnings.simplefilter("ignore")
try:
    asked(sys.argv[1], int(sys.argv[2]), float(sys.argv[3]))
except JoinFault as fault:
    print(fault)
"""


def test_what_a_stopped_scheduler_does_not_take_is_not_waited_for(tools: Tools) -> None:
    with own_processes(tools.folder) as (address, number):
        command = [sys.executable, "-c", SENDS_MUCH, address, str(number), str(PATIENCE)]
        with subprocess.Popen(command, stdout=subprocess.PIPE, text=True) as process:
            assert process.stdout is not None and process.stdout.readline() == "sent\n"
            with stopped(number):
                begun = time.monotonic()
                line = process.communicate(timeout=WAIT)[0]
                elapsed = time.monotonic() - begun
    assert line == f"the scheduler has not answered for {PATIENCE} seconds\n"
    assert elapsed <= ENDS_WITHIN


def test_the_command_is_stopped_for_a_while(tools: Tools, pair: tuple[Path, Path]) -> None:
    """For longer than the patience, as by Control-Z."""
    words = tools.local_command(*pair, "intersects", "--tiles", "24", "--patience", "3")
    with running_group(words) as process:
        wait_for(tools, "pairs-*.rows", process)
        with stopped(process.pid):
            time.sleep(6)
        assert (process.wait(WAIT), process.stderr.read()) == (0, "")
    assert tools.report().read_bytes() == tools.one_run(*pair, "intersects").output


STEPS = ("boxes-*.rows", "pieces-*.rows", "pairs-*.rows")


def wait_for_kept(folder: Path, name: str, process: Any) -> None:
    """Waits until a step of a join that may go on has left some file."""
    end = time.monotonic() + WAIT
    while not list(folder.glob(name)):
        if process.poll() is not None or time.monotonic() > end:
            process.kill()
            pytest.fail(process.stderr.read())
        time.sleep(0.01)


def goes_on(tools: Tools, address: str, pair: tuple[Path, Path], *more: str) -> None:
    """The same command ends the join, with the bytes of one run, and its folder goes."""
    process = started(tools, address, *pair, *more)
    assert process.wait(WAIT) == 0, process.stderr.read()
    assert tools.report().read_bytes() == tools.one_run(*pair, "intersects").output
    assert not (tools.folder / "kept").exists()
    check_left_nothing(tools)


@pytest.mark.parametrize("step", STEPS)
def test_a_join_goes_on_whose_command_was_killed(
    tools: Tools, pair: tuple[Path, Path], step: str
) -> None:
    """Also while tasks of the killed one still go on."""
    kept = ["--resume", str(tools.folder / "kept")]
    with own_cluster(n_workers=2) as client:
        process = started(tools, client.scheduler.address, *pair, *kept)
        wait_for_kept(tools.folder / "kept", step, process)
        process.kill()
        process.communicate(timeout=WAIT)
        assert not tools.report().exists() and (tools.folder / "kept").is_dir()
        for path in tools.folder.glob(".*.part"):
            path.unlink()  # what is left of the report, as the page says
        goes_on(tools, client.scheduler.address, pair, *kept)


@pytest.mark.parametrize("step", STEPS)
def test_a_join_goes_on_whose_scheduler_was_killed(
    tools: Tools, pair: tuple[Path, Path], step: str
) -> None:
    kept = ["--resume", str(tools.folder / "kept"), "--patience", "9"]
    first = tools.folder / "first"
    first.mkdir()
    with own_processes(first) as (address, number):
        process = started(tools, address, *pair, *kept)
        wait_for_kept(tools.folder / "kept", step, process)
        os.kill(number, signal.SIGKILL)
        errors = told(process.communicate(timeout=WAIT)[1])
    assert (process.returncode, errors) == (1, "rjoin-cluster: the scheduler was lost\n")
    assert not tools.report().exists()
    goes_on(tools, tools.scheduler, pair, *kept)


@pytest.mark.parametrize("step", STEPS)
def test_a_join_goes_on_whose_workers_were_killed(
    tools: Tools, pair: tuple[Path, Path], step: str
) -> None:
    """All of them, which nothing starts again."""
    kept = ["--resume", str(tools.folder / "kept"), "--patience", "6"]
    with own_cluster(n_workers=0) as client, ExitStack() as stack:
        address = client.scheduler.address
        command = [sys.executable, "-m", "distributed.cli.dask_worker", address, "--no-nanny"]
        workers = [
            stack.enter_context(
                subprocess.Popen([*command, "--no-dashboard"], stderr=subprocess.DEVNULL)
            )
            for _ in range(2)
        ]
        process = started(tools, address, *pair, *kept)
        wait_for_kept(tools.folder / "kept", step, process)
        for worker in workers:
            worker.kill()
        errors = told(process.communicate(timeout=WAIT)[1])
    assert (process.returncode, errors) == (1, "rjoin-cluster: no worker for 6 seconds\n")
    goes_on(tools, tools.scheduler, pair, *kept)


@contextmanager
def small_disk(folder: Path) -> Iterator[Path]:
    """A disk of 2 MB, for which one has to be root."""
    folder.mkdir()
    mounted = subprocess.run(
        ["mount", "-t", "tmpfs", "-o", "size=2m", "tmpfs", str(folder)], capture_output=True
    )
    if mounted.returncode != 0:
        pytest.skip("no disk can be mounted here")
    try:
        yield folder
    finally:
        subprocess.run(["umount", "-l", str(folder)], check=True)


def test_the_disk_of_the_workers_is_full(
    tools: Tools, pair: tuple[Path, Path], monkeypatch: pytest.MonkeyPatch
) -> None:
    with small_disk(tools.folder / "disk") as disk:
        monkeypatch.setenv("TMPDIR", str(disk))
        with own_cluster(n_workers=1) as client:
            monkeypatch.delenv("TMPDIR")
            (disk / "filler").write_bytes(bytes(2**21 - 2**17))
            process = started(tools, client.scheduler.address, *pair)
            errors = told(process.communicate(timeout=WAIT)[1])
    lack = f"temporary files cannot be written: {disk}: No space left on device"
    first, last = errors.splitlines()
    assert process.returncode == 1 and first.endswith(f": {lack}; it gets no more tasks")
    assert last == "rjoin-cluster: no worker has what the join needs"
    check_left_nothing(tools)


def test_what_a_disk_has_no_room_for(tools: Tools) -> None:
    with small_disk(tools.folder / "disk") as disk:
        with pytest.raises(OSError, match="No space left on device"):
            save_array(disk / "boxes.npy", np.zeros(2**20))
        assert list(disk.iterdir()) == []


def test_the_shared_disk_is_full(tools: Tools, pair: tuple[Path, Path]) -> None:
    with small_disk(tools.folder / "disk") as disk:
        process = started(tools, tools.scheduler, *pair, "--folder", str(disk))
        errors = told(process.communicate(timeout=WAIT)[1])
        assert process.returncode == 1
        assert "No space left on device" in errors.splitlines()[-1]
        assert list(disk.iterdir()) == []
    check_left_nothing(tools)


def test_the_disk_of_the_report_is_full(tools: Tools, pair: tuple[Path, Path]) -> None:
    with small_disk(tools.folder / "disk") as disk:
        report, folder = disk / "report.csv", ["--folder", str(tools.folder)]
        (disk / "filler").write_bytes(bytes(2**21 - 2**17))
        process = started(tools, tools.scheduler, *pair, *folder, "--out", str(report))
        errors = told(process.communicate(timeout=WAIT)[1])
        assert [path.name for path in disk.iterdir()] == ["filler"]
    line = f"rjoin-cluster: {report}: cannot be written: No space left on device\n"
    assert (process.returncode, errors) == (1, line)
    check_left_nothing(tools)
