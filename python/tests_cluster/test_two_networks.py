"""Two groups of workers in network namespaces of their own, which reach the scheduler over TCP."""
from __future__ import annotations

import json
import os
import subprocess
import sys
import time
from contextlib import ExitStack, contextmanager
from pathlib import Path
from typing import Any, Iterator

import layers
import pytest
from conftest import WAIT, Tools, distributed, ended, told, wait_for

NETWORK = "10.213.77"
GROUPS = ("a", "b")


def tries(*words: str) -> bool:
    return subprocess.run(words, capture_output=True, check=False).returncode == 0


def name_of(what: str) -> str:
    return f"rj{os.getpid()}{what}"


def make_group(number: int, group: str) -> None:
    """A namespace with an address, joined to the bridge of this one."""
    space, outer, inner = (name_of(group + end) for end in ("", "o", "i"))
    inside = ["netns", "exec", space, "ip"]
    for words in (
        ["netns", "add", space],
        ["link", "add", outer, "type", "veth", "peer", "name", inner],
        ["link", "set", inner, "netns", space],
        ["link", "set", outer, "master", name_of("n"), "up"],
        [*inside, "address", "add", f"{NETWORK}.{number}/24", "dev", inner],
        [*inside, "link", "set", inner, "up"],
        [*inside, "link", "set", "lo", "up"],
    ):
        subprocess.run(["ip", *words], check=True)


@pytest.fixture
def network() -> Iterator[None]:
    """A bridge with the address 1, and a namespace for each group with the addresses 2 and 3."""
    bridge = name_of("n")
    if os.geteuid() != 0 or not tries("ip", "link", "add", bridge, "type", "bridge"):
        pytest.skip("networks can't be made here: one has to be root, with ip of iproute2")
    try:
        subprocess.run(["ip", "address", "add", f"{NETWORK}.1/24", "dev", bridge], check=True)
        subprocess.run(["ip", "link", "set", bridge, "up"], check=True)
        for number, group in enumerate(GROUPS, 2):
            make_group(number, group)
        yield
    finally:
        for group in GROUPS:
            tries("ip", "netns", "delete", name_of(group))
        tries("ip", "link", "delete", bridge)


@contextmanager
def running(command: list[str], log: Path) -> Iterator[None]:
    with open(log, "wb") as output, subprocess.Popen(command, stdout=output, stderr=output) as it:
        try:
            yield
        finally:
            it.terminate()


@contextmanager
def grouped_cluster(folder: Path) -> Iterator[str]:
    """The address of a scheduler with two workers in each group."""
    python, file = [sys.executable, "-m"], str(folder / "scheduler.json")
    address = [*python, "distributed.cli.dask_scheduler", "--host", f"{NETWORK}.1", "--port", "0"]
    worker = [*python, "distributed.cli.dask_worker", "--nworkers", "2", "--nthreads", "1"]
    files = ["--scheduler-file", file]
    own = ["--local-directory", str(folder / "workers"), "--no-dashboard"]
    (folder / "workers").mkdir(0o700)
    with ExitStack() as stack:
        stack.enter_context(running([*address, *files, "--no-dashboard"], folder / "scheduler.log"))
        for group in GROUPS:
            inside = ["ip", "netns", "exec", name_of(group)]
            stack.enter_context(running([*inside, *worker, *files, *own], folder / f"{group}.log"))
        with distributed.Client(scheduler_of(file), timeout=WAIT) as client:
            client.wait_for_workers(2 * len(GROUPS), timeout=WAIT)
        yield scheduler_of(file)


def scheduler_of(file: str) -> str:
    end = time.monotonic() + WAIT
    while not os.path.exists(file) and time.monotonic() < end:
        time.sleep(0.1)
    return str(json.loads(Path(file).read_text())["address"])


def done_by_group(address: str) -> dict[str, int]:
    """How many tasks the workers of each address have done."""

    def done(dask_worker: Any) -> int:
        return int(dask_worker.state.executed_count)

    sums: dict[str, int] = {}
    with distributed.Client(address) as client:
        for worker, count in client.run(done).items():
            host = worker.split("//")[1].rsplit(":", 1)[0]
            sums[host] = sums.get(host, 0) + count
    return sums


def test_two_groups_join_over_tcp(tools: Tools, network: None) -> None:
    left, right = layers.write_pair(tools.folder, "rectangles", 20_000)
    words = tools.command(left, right, "overlaps", "--tiles", "12", "--block", "200000")
    with grouped_cluster(tools.folder) as address:
        words[words.index("--scheduler") + 1] = address
        done = ended([sys.executable, "-m", "rjoin_cluster", *words])
        assert (done.status, told(done.errors)) == (0, "")
        counts = done_by_group(address)
    assert set(counts) == {f"{NETWORK}.{number}" for number in (2, 3)} and min(counts.values()) > 0
    assert tools.report().read_bytes() == tools.one_run(left, right, "overlaps").output


def test_a_group_vanishes(
    tools: Tools, network: None, monkeypatch: pytest.MonkeyPatch
) -> None:
    """Its link goes down in the middle of the join, so that nothing comes from it any more."""
    monkeypatch.setenv("DASK_DISTRIBUTED__COMM__TIMEOUTS__TCP", "12s")
    left, right = layers.write_pair(tools.folder, "rectangles", 20_000)
    words = tools.command(left, right, "overlaps", "--tiles", "24", "--block", "200000")
    with grouped_cluster(tools.folder) as address:
        words[words.index("--scheduler") + 1] = address
        command = [sys.executable, "-m", "rjoin_cluster", *words]
        process = subprocess.Popen(command, stderr=subprocess.PIPE, text=True)
        wait_for(tools, "pairs-*.rows", process)
        subprocess.run(["ip", "link", "set", name_of("bo"), "down"], check=True)
        errors = told(process.communicate(timeout=2 * WAIT)[1])
        assert (process.returncode, errors) == (0, "")
        subprocess.run(["ip", "link", "set", name_of("bo"), "up"], check=True)
    assert tools.report().read_bytes() == tools.one_run(left, right, "overlaps").output
    assert list(tools.folder.glob("rjoin-cluster-*")) == []
