"""The dask cluster that a join runs on: one that is there, or threads of the command itself."""
from __future__ import annotations

import logging
import sys
import tempfile
import time
import warnings
from contextlib import contextmanager, suppress
from typing import Any, Iterator

import dask
from distributed import Client, Scheduler, Security, SpecCluster, Worker, versions
from distributed.utils import silence_logging

from rjoin_cluster.faults import JoinFault
from rjoin_cluster.layout import Layout
from rjoin_cluster.program import ended_runs
from rjoin_cluster.request import Place
from rjoin_cluster.watch import TIMEOUTS, Watch

CLOSING = 1.0  # seconds that a scheduler has to answer that the join has ended
LOOPBACK = "127.0.0.1"
# dask looks at itself many times a second, and who has no dashboard never sees what it found: at
# the stacks of workers, at the processor and the memory, and at whether its loop is late. It also
# looks for tasks of one worker for another one, where none may go.
UNWATCHED = {
    "distributed.worker.profile.interval": "1s",
    "distributed.admin.system-monitor.interval": "5s",
    "distributed.admin.tick.interval": "2s",
    "distributed.scheduler.work-stealing": False,
}
OPEN_PORTS = (
    "no TLS: whoever reaches the ports of the scheduler or of a worker can run code as you"
)


class PortlessScheduler(Scheduler):  # type: ignore[misc]
    """A scheduler that listens to its own process alone: an open port would be one for each user of
    the machine, whom dask lets run code and look at what goes on.
    """

    def start_http_server(self, *_: object, **__: object) -> None:
        """Doesn't."""


class PortlessWorker(Worker):  # type: ignore[misc]
    """A worker that listens to its own process alone."""

    def start_http_server(self, *_: object, **__: object) -> None:
        """Doesn't."""


@contextmanager
def connected(place: Place, layout: Layout) -> Iterator[Watch]:
    """A watched client of the cluster, which has a worker at least."""
    silence_engine()
    dask.config.set({"distributed.comm.timeouts.connect": f"{place.patience:g}s"})
    dask.config.set({} if place.dashboard else UNWATCHED)
    if place.scheduler is None:
        with own_folder(layout) as folder, uncompared_modules():
            with local_cluster(place, folder) as cluster, client_of(cluster, place) as client:
                try:
                    yield Watch(client, place.patience)
                finally:
                    with ended_runs():
                        client.close(CLOSING)
                        cluster.close()
        return
    warn_of_open_ports(place.scheduler)
    with remote_client(place) as client:
        watch = Watch(client, place.patience)
        wait_for_worker(watch, place.scheduler)
        yield watch


def silence_engine() -> None:
    """What goes wrong in the engine is told in one line, by the fault of the join."""
    silence_logging(logging.CRITICAL)  # type: ignore[no-untyped-call]
    logging.getLogger("asyncio").setLevel(logging.CRITICAL)
    # that it finds no address of this machine, where that has no network
    warnings.filterwarnings("ignore", category=RuntimeWarning, module="distributed")


def client_of(cluster: Any, place: Place) -> Any:
    security = security_of(place)
    return Client(  # type: ignore[no-untyped-call]
        cluster, timeout=place.patience, security=security, set_as_default=False
    )


def security_of(place: Place) -> Security:
    """What the client shows of itself and asks of the scheduler; dask's own settings, where nothing
    is named.
    """
    names: dict[str, Any] = {}
    if place.certificates is not None:
        names = {
            "tls_ca_file": place.certificates.authority,
            "tls_client_cert": place.certificates.certificate,
            "tls_client_key": place.certificates.key,
            "require_encryption": True,
        }
    security = Security(**names)  # type: ignore[no-untyped-call]
    try:
        shown = security.get_connection_args("client")  # type: ignore[no-untyped-call]
    except (OSError, ValueError) as cause:  # those of ssl are among them
        raise JoinFault(f"the certificates cannot be used: {cause}") from cause
    if shown.get("ssl_context") is None and (place.scheduler or "").startswith("tls://"):
        raise JoinFault(f"{place.scheduler}: needs --tls-ca-file, --tls-cert and --tls-key")
    return security


@contextmanager
def remote_client(place: Place) -> Iterator[Any]:
    """A client of the scheduler that is there. One that does not answer isn't waited for in the
    end.
    """
    try:
        client = client_of(place.scheduler, place)
    except (OSError, ValueError, RuntimeError, *TIMEOUTS) as cause:
        raise JoinFault(f"{place.scheduler}: no scheduler answers") from cause
    try:
        yield client
    finally:
        with suppress(OSError, *TIMEOUTS):
            client.close(CLOSING)
        client.status = "closed"  # else it waits again, for twice the patience, when it is freed


def warn_of_open_ports(scheduler: str) -> None:
    """Tells what may happen without certificates."""
    if not scheduler.startswith("tls://"):
        sys.stderr.write(f"rjoin-cluster: {scheduler}: {OPEN_PORTS}\n")


def wait_for_worker(watch: Watch, scheduler: str) -> None:
    end = time.monotonic() + watch.patience
    while not watch.workers():
        if time.monotonic() > end:
            raise JoinFault(f"{scheduler}: the scheduler has no workers")
        time.sleep(0.1)


@contextmanager
def uncompared_modules() -> Iterator[None]:
    """dask imports modules, pandas among them, only to compare their versions at both ends of a
    connection, which are one process here.
    """
    compared = versions.optional_packages[:]
    versions.optional_packages.clear()
    try:
        yield
    finally:
        versions.optional_packages.extend(compared)


@contextmanager
def own_folder(layout: Layout) -> Iterator[str]:
    """A folder for what dask's workers write themselves: in that of the join, with which it goes,
    unless this is at a URL.
    """
    if layout.is_remote:
        with tempfile.TemporaryDirectory(prefix="rjoin-cluster-") as folder:
            yield folder
    else:
        yield str(layout.path("workers"))


def local_cluster(place: Place, folder: str) -> Any:
    """Workers of one thread each in this process, whose own files lie in a folder. NumPy computes
    and rjoin runs beside each other in them, as both hold no lock of Python's.
    """
    link = f"{{scheme}}://{LOOPBACK}:{{port}}/status"
    dask.config.set({"distributed.dashboard.link": link})
    scheduler = {
        "cls": Scheduler if place.dashboard else PortlessScheduler,
        "options": {
            "protocol": "inproc://",
            "dashboard": place.dashboard,
            "dashboard_address": f"{LOOPBACK}:0" if place.dashboard else None,
        },
    }
    worker = {
        "cls": PortlessWorker,
        "options": {
            "protocol": "inproc://",
            "nthreads": 1,
            "memory_limit": 0,  # each would take the memory of all for its own
            "dashboard": False,
            "local_directory": folder,
        },
    }
    workers = {number: worker for number in range(place.workers)}
    return SpecCluster(  # type: ignore[no-untyped-call]
        workers=workers, scheduler=scheduler, silence_logs=logging.CRITICAL
    )
