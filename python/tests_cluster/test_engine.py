"""Which worker a task goes to when it has failed, on workers that do what a test says."""
from __future__ import annotations

from types import SimpleNamespace
from typing import Any, Callable, Optional, Sequence

import pytest

from rjoin_cluster import engine as engines
from rjoin_cluster import workers as pools
from rjoin_cluster.faults import JoinFault, RunFailed, Unfit
from rjoin_cluster.progress import Progress

Act = Callable[[str, int], int]
A, B, C = "tcp://a", "tcp://b", "tcp://c"
MOST_LOOKS = 300


class Future:
    """A task that has ended as soon as it was given, or that never ends."""

    def __init__(self, key: str, act: Callable[[], Any], ends: bool = True) -> None:
        self.key = key
        self.cause: Optional[BaseException] = None
        self.status = "pending"
        self.ends = ends
        if ends:
            try:
                self.value, self.status = act(), "finished"
            except Exception as cause:
                self.cause, self.status = cause, "error"

    def done(self) -> bool:
        return self.ends

    def exception(self) -> Optional[BaseException]:
        return self.cause

    def result(self, timeout: float) -> Any:
        return self.value

    def release(self) -> None:
        """Nothing is kept."""

    def add_done_callback(self, call: Callable[[Any], None]) -> None:
        if self.ends:
            call(self)


class Cluster:
    """Stands for the watch of a cluster of workers with a thread each.

    act: what a task on a worker comes to, by the worker's address and the job. tried: the addresses
    and jobs of all tasks so far. lacks: by address, why a worker fails at the check.
    """

    def __init__(self, addresses: Sequence[str], act: Act, hangs: Sequence[str] = ()) -> None:
        self.present = {address: {"nthreads": 1} for address in addresses}
        self.act = act
        self.hangs = hangs
        self.given_up: set[str] = set()
        self.tried: list[tuple[str, int]] = []
        self.lacks: dict[str, Exception] = {}
        self.patience = 1.0
        self.looks = 0
        self.asked_anew = 0

    def look(self) -> bool:
        self.looks += 1
        assert self.looks < MOST_LOOKS, "what never ends is waited for"
        return True

    def submitted(self, address: str, key: str, _: int, task: Any, *words: Any) -> Future:
        if key.startswith("check-"):
            return Future(key, lambda: self.checked(address))
        self.tried.append((address, words[-1]))
        return Future(key, lambda: (self.act(address, words[-1]),), address not in self.hangs)

    def ask_anew(self) -> None:
        self.asked_anew += 1

    def checked(self, address: str) -> None:
        if address in self.lacks:
            raise self.lacks[address]


@pytest.fixture(autouse=True)
def short_looks(monkeypatch: pytest.MonkeyPatch) -> None:
    monkeypatch.setattr(engines, "LOOK_EVERY", 0.01)


class LateFuture(Future):
    """Its first request for the result is given up."""

    was_asked = False

    def result(self, timeout: float) -> Any:
        was_asked, self.was_asked = self.was_asked, True
        return self.value if was_asked else None


def tasks_of(cluster: Any, jobs: Sequence[int]) -> Any:
    needs: Any = SimpleNamespace()
    workers = pools.Workers(cluster, needs, "token")
    workers.wait()
    return engines.Engine("token", Progress(False), workers).each("step", act_never, jobs)


def act_never(_: int) -> int:
    raise AssertionError("tasks are done by the cluster")


def failing(address: str, job: int) -> int:
    raise RunFailed(f"job {job}")


@pytest.mark.parametrize("addresses", [[A], [A, B], [A, B, C]])
def test_a_task_that_fails_everywhere_is_tried_four_times(addresses: Sequence[str]) -> None:
    cluster = Cluster(addresses, failing)
    with pytest.raises(JoinFault, match="^step 7: worker tcp://.: RunFailed: job 7$"):
        dict(tasks_of(cluster, [7]))
    assert len(cluster.tried) == 4
    first = [address for address, _ in cluster.tried[:len(addresses)]]
    assert sorted(first) == list(addresses)  # each before one of them is tried again


def test_a_request_that_was_given_up_has_no_result(monkeypatch: pytest.MonkeyPatch) -> None:
    """The client answers None to it, and the task is not done again."""
    cluster = Cluster([A], lambda _, job: job)
    tasks = tasks_of(cluster, [4, 5])
    monkeypatch.setitem(globals(), "Future", LateFuture)
    assert dict(tasks) == {0: 4, 1: 5}
    assert (cluster.tried, cluster.asked_anew) == ([(A, 4), (A, 5)], 2)


@pytest.mark.parametrize("count", [1, 2, 3, 9])
def test_a_task_that_failed_goes_elsewhere(count: int) -> None:
    """Also where its own worker is free again, as a task has succeeded meanwhile."""
    first: list[str] = []

    def act(address: str, job: int) -> int:
        if job == 0 and address == (first or [address])[0]:
            first[:] = [address]
            failing(address, job)
        return job
    cluster = Cluster([A, B], act)
    assert dict(tasks_of(cluster, list(range(count)))) == {job: job for job in range(count)}
    tried = [address for address, job in cluster.tried if job == 0]
    assert len(tried) == 2 and set(tried) == {A, B}


def test_a_worker_that_turns_out_to_lack_something(capsys: pytest.CaptureFixture[str]) -> None:
    """It is named and gets no more tasks, and none of its tasks counts as tried."""
    def act(address: str, job: int) -> int:
        if address == B:
            return job
        raise Unfit(f"{address} lacks it")
    cluster = Cluster([A, B, C], act)
    assert dict(tasks_of(cluster, [0, 1, 2, 3])) == {0: 0, 1: 1, 2: 2, 3: 3}
    lines = sorted(capsys.readouterr().err.splitlines())
    assert lines == [f"rjoin-cluster: worker {address}: {address} lacks it; it gets no more tasks"
                     for address in (A, C)]
    many = [f"tcp://{number}" for number in range(6)]
    cluster = Cluster([*many, B], act)
    assert dict(tasks_of(cluster, [5])) == {0: 5}


def test_a_worker_without_this_package(capsys: pytest.CaptureFixture[str]) -> None:
    cluster = Cluster([A, B], lambda _, job: job)
    cluster.lacks[A] = ModuleNotFoundError("No module named 'rjoin_cluster'")
    cluster.lacks[B] = Unfit("no room")
    with pytest.raises(JoinFault, match="no worker has what the join needs"):
        tasks_of(cluster, [1])
    told = "cannot run this package: ModuleNotFoundError: No module named 'rjoin_cluster'"
    assert sorted(capsys.readouterr().err.splitlines()) == [
        f"rjoin-cluster: worker {address}: {lack}; it gets no more tasks"
        for address, lack in ((A, told), (B, "no room"))]


def test_the_tasks_of_a_worker_that_has_gone_go_to_others() -> None:
    """Its future never ends."""
    cluster = Cluster([A], lambda _, job: 10 * job, hangs=[A])
    tasks = tasks_of(cluster, [1, 2])
    tasks.start()
    assert {address for address, _ in cluster.tried} == {A}
    cluster.present = {B: {"nthreads": 1}}
    assert dict(tasks) == {0: 10, 1: 20}
    assert {address for address, _ in cluster.tried[-2:]} == {B}


def test_workers_of_tasks_that_are_given_up_are_free() -> None:
    cluster = Cluster([A, B], lambda _, job: job, hangs=[A, B])
    tasks = tasks_of(cluster, [1, 2, 3, 4])
    tasks.start()
    assert not tasks.workers.idle
    tasks.drop(range(4))
    assert len(tasks.workers.idle) == 2 and not tasks.under_way and not tasks.missing
    assert dict(tasks) == {}
