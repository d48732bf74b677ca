"""Signs of life of a cluster: the scheduler answers, and each worker tells it regularly that it is
there.

The engine notices processes that end. One that is stopped, or whose machine hangs, keeps its
connections, and its tasks would be waited for without an end.
"""
from __future__ import annotations

import asyncio
import sys
import time
from dataclasses import dataclass
from typing import Any

from distributed.scheduler import heartbeat_interval

from rjoin_cluster.faults import JoinFault

LOOK_EVERY = 2.0
SIGNS_MISSED = 3
TIMEOUTS = (TimeoutError, asyncio.TimeoutError)  # one class from Python 3.11 on

Workers = dict[str, dict[str, Any]]  # by their addresses


@dataclass
class Sign:
    """The last sign of life of a worker, by the scheduler's clock and by that of the watch."""

    seen: float
    heard: float


class Watch:
    """Looks at the cluster of one join. A worker that gives no sign for longer than the patience is
    given up, so that its tasks go to others; the join ends where none is left, or where the
    scheduler doesn't answer. Its clock counts the time in which it looked again and again:
    else the command itself may have been stopped.
    """

    def __init__(self, client: Any, patience: float) -> None:
        self.client = client
        self.patience = patience
        self.signs: dict[str, Sign] = {}
        self.given_up: set[str] = set()  # also by the join, as they lack what it needs
        self.present: Workers = {}
        self.clock = 0.0
        self.heard = 0.0  # of any worker
        self.looked = time.monotonic() - LOOK_EVERY

    def look(self) -> bool:
        """Looks which workers are present, where the last time is long enough ago."""
        elapsed = time.monotonic() - self.looked
        if elapsed < LOOK_EVERY:
            return False
        workers = self.workers()
        self.looked = time.monotonic()
        self.clock += elapsed if elapsed < 2 * LOOK_EVERY else 0
        self.note(workers)
        self.heard = max([self.heard, *(self.signs[address].heard for address in workers)])
        silent = [address for address in workers if self.is_silent(address, len(workers))]
        for address in silent:
            self.give_up(address)
        if self.clock - self.heard > self.patience:
            raise JoinFault(f"no worker for {self.patience:g} seconds")
        self.present = {address: workers[address] for address in workers.keys() - self.given_up}
        return True

    def workers(self) -> Workers:
        """The workers that the scheduler knows, but for those that were given up."""
        found: Workers = self.ask("identity")["workers"]
        return {address: found[address] for address in found if address not in self.given_up}

    def ask(self, handler: str, **words: Any) -> Any:
        """The scheduler's answer. It ends the join where there is none."""
        client = self.client
        try:
            return client.sync(
                getattr(client.scheduler, handler), callback_timeout=self.patience, **words
            )
        except TIMEOUTS as cause:
            silence = f"{self.patience:g} seconds"
            raise JoinFault(f"the scheduler has not answered for {silence}") from cause
        except (OSError, AttributeError) as cause:  # it has none when it is closed
            raise JoinFault("the scheduler was lost") from cause

    def submitted(self, address: str, key: str, priority: int, *task: Any) -> Any:
        """The future of a task, which is a function and its arguments, that a worker is given."""
        more = {"key": key, "workers": [address], "priority": priority, "pure": False}
        try:
            return self.client.submit(*task, **more)
        except Exception as cause:
            if self.client.status == "running":
                raise
            raise JoinFault("the scheduler was lost") from cause

    def ask_anew(self) -> None:
        """Lets the client ask for results again. A request that was given up before it was sent
        stays in the client, which then answers None, as long as others wait for that request too.
        """
        self.client._gather_future = self.client._gather_keys = None

    def note(self, workers: Workers) -> None:
        for address, worker in workers.items():
            known, seen = self.signs.get(address), float(worker["last_seen"])
            if known is None or known.seen != seen:
                self.signs[address] = Sign(seen, self.clock)

    def is_silent(self, address: str, workers: int) -> bool:
        """Of very many workers each tells less often that it is there."""
        limit = max(self.patience, SIGNS_MISSED * heartbeat_interval(workers))
        return self.clock - self.signs[address].heard > limit

    def give_up(self, address: str) -> None:
        self.given_up.add(address)
        sys.stderr.write(
            f"rjoin-cluster: worker {address}: no sign of life for {self.patience:g} seconds;"
            " its tasks go to other workers\n"
        )
        self.ask("unregister", address=address, stimulus_id=f"rjoin-cluster-{time.time()}")
