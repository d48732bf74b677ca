"""The workers of a join: which of them have passed its check, and which can be given a task.

A worker that comes during the join is checked as those that were there at its start. One that lacks
what the join needs, or whose tasks fail again and again while those of others don't, is refused: it
gets no more tasks, and the join goes on without it.
"""
from __future__ import annotations

import sys
import time
from collections import deque
from dataclasses import dataclass
from typing import Any, Collection, Optional

from rjoin_cluster.faults import JoinFault, Unfit, one_line
from rjoin_cluster.needs import Needs, check
from rjoin_cluster.watch import Watch

MOST_FAULTS = 3
PAUSE = 0.01
FIRST = 10  # the priority of a check, that of tasks being 0


@dataclass
class Worker:
    """A worker that has passed the check."""

    address: str
    threads: int
    tasks: int = 0  # that it has been given and has not ended
    faults: int = 0  # how many of its tasks failed in a row
    before: int = 0  # how many tasks of all workers had succeeded when the first of these failed
    is_gone: bool = False

    @property
    def place(self) -> str:
        """How a fault names the worker; the threads of the command itself have no name."""
        return "" if self.address.startswith("inproc:") else f"worker {self.address}: "


class Workers:
    """The workers of one join. Each can be given as many tasks as it has threads, and one more
    where many wait, so that it has one to go on with.
    """

    def __init__(self, watch: Watch, needs: Needs, token: str) -> None:
        self.watch = watch
        self.needs = needs
        self.token = token
        self.checks: dict[str, Any] = {}  # under way, by the addresses of workers
        self.asked = 0
        self.fit: dict[str, Worker] = {}
        self.idle: deque[Worker] = deque()  # once for each thread without a task
        self.spare: deque[Worker] = deque()  # once, where it can have one task more
        self.resting: list[Worker] = []  # once for each task that failed
        self.succeeded = 0

    @property
    def count(self) -> int:
        return len(self.fit)

    def wait(self) -> None:
        """Waits until all workers that are there have answered, but no longer than the patience for
        the last ones, and ends the join where none is fit.
        """
        end = time.monotonic() + self.watch.patience
        self.look()
        while self.checks and not (self.fit and time.monotonic() > end):
            time.sleep(PAUSE)
            self.look()
        if not self.fit:
            raise JoinFault("no worker has what the join needs")

    def look(self) -> bool:
        """Looks which workers have answered, and now and then which have come and gone, which it
        tells.
        """
        looked = self.watch.look()
        if looked:
            self.compare()
        for address, answer in list(self.checks.items()):
            if answer.done():
                self.settle(address, answer)
        return looked

    def compare(self) -> None:
        """Drops the workers that have gone, and asks those that have come."""
        known = self.checks.keys() | self.fit.keys()
        for address in known - self.watch.present.keys():
            self.drop(address)
        for address in self.watch.present.keys() - known:
            self.ask(address)

    def ask(self, address: str) -> None:
        self.asked += 1
        key = f"check-{self.token}-{self.asked}"
        self.checks[address] = self.watch.submitted(address, key, FIRST, check, self.needs)

    def settle(self, address: str, answer: Any) -> None:
        """Lets a worker take part, or not, as it has answered."""
        del self.checks[address]
        if answer.status == "finished":
            self.admit(Worker(address, self.watch.present[address]["nthreads"]))
        elif answer.status == "error":
            cause = answer.exception()
            lack = str(cause) if isinstance(cause, Unfit) else cannot_run(cause)
            self.refuse(address, lack)

    def admit(self, worker: Worker) -> None:
        self.fit[worker.address] = worker
        self.idle.extend([worker] * worker.threads)
        self.spare.append(worker)

    def refuse(self, address: str, lack: str) -> None:
        """Gives a worker up, and tells it once."""
        if address not in self.watch.given_up:
            self.watch.given_up.add(address)
            self.drop(address)
            sys.stderr.write(f"rjoin-cluster: worker {address}: {lack}; it gets no more tasks\n")

    def drop(self, address: str) -> None:
        self.checks.pop(address, None)
        worker = self.fit.pop(address, None)
        if worker is not None:
            worker.is_gone = True

    def take(self, are_many: bool, avoided: Collection[str]) -> Optional[Worker]:
        """A worker that is given a task, of which many may wait; none of those that are to be
        avoided where there are others.
        """
        for free in (self.idle, self.spare) if are_many else (self.idle,):
            for _ in range(len(free)):
                worker = free.popleft()
                if worker.address in avoided and len(self.fit) > len(avoided):
                    free.append(worker)
                elif not worker.is_gone:
                    worker.tasks += 1
                    return worker
        return None

    def give_back(self, worker: Worker) -> None:
        """Notes that a worker has a task less."""
        worker.tasks -= 1
        (self.idle if worker.tasks < worker.threads else self.spare).append(worker)

    def succeed(self, worker: Worker) -> None:
        """Notes that a task has succeeded, so that workers whose tasks failed are tried again."""
        self.succeeded += 1
        worker.faults = 0
        self.wake()
        self.give_back(worker)

    def fail(self, worker: Worker, cause: BaseException) -> None:
        """Notes that a task has failed: the worker gets none until one has succeeded elsewhere."""
        worker.before = worker.before if worker.faults else self.succeeded
        worker.faults += 1
        self.resting.append(worker)
        if worker.faults >= MOST_FAULTS and self.succeeded > worker.before and not worker.is_gone:
            told = f"{worker.faults} tasks in a row failed, the last by {described(cause)}"
            self.refuse(worker.address, told)

    def wake(self) -> bool:
        """Lets all workers have tasks again; whether there were others."""
        resting, self.resting = self.resting, []
        for worker in resting:
            self.give_back(worker)
        return bool(resting)


def described(cause: BaseException) -> str:
    return f"{type(cause).__name__}: {one_line(cause)}"


def cannot_run(cause: BaseException) -> str:
    """What is said of a worker that has not this package."""
    return f"cannot run this package: {described(cause)}"
