"""Tasks on a dask cluster. The engine runs them where it is told to, and carries their results;
this module gives each to a worker that has passed the check of the join, tries those that failed
again, elsewhere where that can be, and words what fails.
"""
from __future__ import annotations

import logging
import queue
import time
from collections import deque
from contextlib import contextmanager
from typing import Any, Callable, Generic, Iterator, NamedTuple, Optional, Sequence, TypeVar

from distributed import CancelledError
from distributed.comm.core import CommClosedError

from rjoin_cluster.faults import JoinFault, Unfit
from rjoin_cluster.needs import checked
from rjoin_cluster.progress import Progress
from rjoin_cluster.record import Key, Record
from rjoin_cluster.watch import LOOK_EVERY, TIMEOUTS
from rjoin_cluster.workers import Worker, Workers, described

Job = TypeVar("Job")
Result = TypeVar("Result")

RETRIES = 3
LOST = (CancelledError, CommClosedError)  # what waits for results is told without a scheduler

log = logging.getLogger(__name__)


class Work(NamedTuple):
    """A task, by its number in a step. The greater its weight, the sooner it begins."""

    step: str
    number: int
    task: Callable[[Any], Any]
    job: Any
    weight: float = 0.0

    def __str__(self) -> str:
        return f"{self.step} {self.job}"

    @property
    def key(self) -> Key:
        return self.step, self.number


def works_of(
    step: str,
    task: Callable[[Job], Any],
    jobs: Sequence[Job],
    weights: Optional[Sequence[float]] = None,
) -> list[Work]:
    """A task of a step for each job."""
    loads = [0.0] * len(jobs) if weights is None else weights
    return [Work(step, number, task, *each) for number, each in enumerate(zip(jobs, loads))]


class Engine:
    """The tasks of one join. Those whose results the record has are not done again."""

    def __init__(
        self, token: str, progress: Progress, workers: Workers, record: Optional[Record] = None
    ) -> None:
        self.token = token
        self.progress = progress
        self.workers = workers
        self.record = Record() if record is None else record
        self.seconds: dict[str, float] = {}
        self.started = 0

    @contextmanager
    def phase(self, name: str) -> Iterator[None]:
        """Takes the time of a phase."""
        started = time.perf_counter()
        try:
            yield
        finally:
            self.seconds[name] = round(self.seconds.get(name, 0) + time.perf_counter() - started, 3)

    def each(self, name: str, task: Callable[[Job], Result], jobs: Sequence[Job]) -> Tasks[Result]:
        """A task for each job."""
        return self.tasks(name, works_of(name, task, jobs))

    def tasks(self, name: str, works: Sequence[Work]) -> Tasks[Any]:
        """Tasks of one step or of several, which need nothing of each other."""
        return Tasks(self, name, works)

    def submitted(self, work: Work, worker: Worker) -> Any:
        """The future of a task that is given to a worker."""
        self.started += 1
        key, needs = f"{work.step}-{self.token}-{self.started}", self.workers.needs
        task = (checked, needs, work.task, work.job)
        return self.workers.watch.submitted(worker.address, key, 0, *task)

    def all(
        self,
        name: str,
        task: Callable[[Job], Result],
        jobs: Sequence[Job],
        weights: Optional[Sequence[float]] = None,
    ) -> list[Result]:
        """The results of a phase, in the order of the jobs."""
        return self.all_of(name, works_of(name, task, jobs, weights))

    def all_of(self, name: str, works: Sequence[Work]) -> list[Any]:
        """The same, of tasks of several steps."""
        with self.phase(name):
            results = dict(self.tasks(name, works))
        return [results[number] for number in range(len(works))]


class Attempt(NamedTuple):
    """A task that was given to a worker."""

    number: int
    worker: Worker
    future: Any


class TryAgain(Exception):
    """An attempt that gave no result, so that there has to be another one."""


class Tasks(Generic[Result]):
    """Tasks whose results come as they end. Of each attempt that fails the worker is kept."""

    def __init__(self, engine: Engine, name: str, works: Sequence[Work]) -> None:
        self.engine = engine
        self.workers = engine.workers
        self.name = name
        self.works: list[Work] = []
        self.missing: set[int] = set()  # whose results are wanted
        self.waiting: deque[int] = deque()  # for a worker
        self.recalled: deque[int] = deque()  # whose results the record has
        self.under_way: dict[str, Attempt] = {}
        self.failed: dict[int, list[str]] = {}
        self.ended: queue.SimpleQueue[Any] = queue.SimpleQueue()
        for work in works:
            self.add(work)
        self.waiting = deque(sorted(self.waiting, key=lambda number: -works[number].weight))

    def add(self, work: Work) -> None:
        """Another task, which comes last."""
        number = len(self.works)
        self.works.append(work)
        self.missing.add(number)
        is_known = work.key in self.engine.record.known
        (self.recalled if is_known else self.waiting).append(number)

    def drop(self, numbers: Sequence[int]) -> None:
        """Gives up tasks whose results are not wanted any more."""
        self.missing.difference_update(numbers)
        self.waiting = deque(number for number in self.waiting if number in self.missing)
        self.recalled = deque(number for number in self.recalled if number in self.missing)
        for key, attempt in list(self.under_way.items()):
            if attempt.number not in self.missing:
                self.workers.give_back(attempt.worker)
                self.under_way.pop(key).future.release()

    def __iter__(self) -> Iterator[tuple[int, Result]]:
        """The number of each task that ended, with its result."""
        try:
            with self.engine.progress.bar(self.name) as show:
                show(0, len(self.works))
                while self.missing:
                    try:
                        number, result = self.next_result()
                    except TryAgain:
                        continue
                    self.missing.remove(number)
                    done, total = len(self.works) - len(self.missing), len(self.works)
                    show(done, total)
                    log.info("%s (%d of %d)", self.works[number], done, total)
                    yield number, result
        finally:
            self.drop(range(len(self.works)))

    def next_result(self) -> tuple[int, Result]:
        """The result of a task that has ended; its worker gets another one meanwhile."""
        if self.recalled:
            number = self.recalled.popleft()
            return number, self.engine.record.known[self.works[number].key]
        self.start()
        attempt = self.next_ended()
        if attempt.future.status == "cancelled":
            raise JoinFault("the scheduler was lost")
        if attempt.future.status == "error":
            raise self.failure(attempt)
        self.workers.succeed(attempt.worker)
        self.start()
        result = self.fetched(attempt)
        attempt.future.release()
        self.engine.record.add(self.works[attempt.number].key, result)
        return attempt.number, result

    def start(self) -> None:
        """Gives tasks to workers, as long as there are both."""
        while self.waiting:
            are_many = len(self.waiting) > self.workers.count
            worker = self.workers.take(are_many, self.failed.get(self.waiting[0], ()))
            if worker is not None:
                number = self.waiting.popleft()
                future = self.engine.submitted(self.works[number], worker)
                self.under_way[future.key] = Attempt(number, worker, future)
                future.add_done_callback(self.ended.put)
            elif self.under_way or not self.workers.wake():
                return

    def next_ended(self) -> Attempt:
        """An attempt that has ended."""
        if self.workers.look():
            self.put_back_lost()
        try:
            attempt = self.under_way.pop(self.ended.get(timeout=LOOK_EVERY).key)
        except (queue.Empty, KeyError) as cause:  # none has, or one that was given up
            raise TryAgain from cause
        return attempt

    def put_back_lost(self) -> None:
        """Puts the tasks back that were given to workers which have gone."""
        lost = [key for key, attempt in self.under_way.items() if attempt.worker.is_gone]
        for key in lost:
            attempt = self.under_way.pop(key)
            attempt.future.release()
            self.put_back(attempt, "the worker was lost")

    def put_back(self, attempt: Attempt, cause: str) -> None:
        """Lets a task wait for another worker, unless it has been tried often enough."""
        tried = self.failed.setdefault(attempt.number, [])
        tried.append(attempt.worker.address)
        if len(tried) > RETRIES:
            work = self.works[attempt.number]
            raise JoinFault(f"{work}: {attempt.worker.place}{cause}")
        self.waiting.appendleft(attempt.number)

    def failure(self, attempt: Attempt) -> TryAgain:
        """Notes that an attempt has failed. It ends the join where another one would not help."""
        cause = attempt.future.exception()
        attempt.future.release()
        if isinstance(cause, JoinFault):
            raise cause
        if isinstance(cause, Unfit):
            self.workers.refuse(attempt.worker.address, str(cause))
            self.waiting.appendleft(attempt.number)
        else:
            self.put_back(attempt, described(cause))
            self.workers.fail(attempt.worker, cause)
        return TryAgain()

    def fetched(self, attempt: Attempt) -> Result:
        """The result of a task, which has to be computed again where its worker is lost."""
        while True:
            try:
                held: Optional[tuple[Result]] = attempt.future.result(timeout=LOOK_EVERY)
                if held is not None:
                    return held[0]
                self.workers.watch.ask_anew()
            except LOST as cause:
                raise JoinFault("the scheduler was lost") from cause
            except Exception as cause:
                self.workers.look()
                is_late = isinstance(cause, TIMEOUTS) and attempt.future.status != "error"
                if attempt.worker.is_gone or not is_late:
                    self.put_back(attempt, "its result was lost")
                    raise TryAgain from cause
