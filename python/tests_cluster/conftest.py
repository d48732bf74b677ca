"""What the tests of rjoin_cluster share: the proved program, a cluster, and layers."""
from __future__ import annotations

import os
import signal
import subprocess
import sys
import time
from contextlib import contextmanager
from dataclasses import dataclass
from importlib import import_module
from pathlib import Path
from tempfile import TemporaryDirectory
from typing import Any, Iterator, Sequence

import pytest

ROOT = Path(__file__).resolve().parent.parent.parent
SOURCES = ROOT / "python/src"
sys.path[:0] = [str(SOURCES), str(ROOT / "bench")]
os.environ["PYTHONPATH"] = os.pathsep.join(
    [str(SOURCES), *filter(None, [os.environ.get("PYTHONPATH")])]
)

# Where dask's workers keep their own files, as else in a folder that is the same for all users.
WORKERS = TemporaryDirectory(prefix="rjoin-workers-")
os.environ["DASK_TEMPORARY_DIRECTORY"] = WORKERS.name

distributed: Any = import_module("distributed")

WAIT = 120


@dataclass(frozen=True)
class Ended:
    """How a command ended."""

    status: int
    output: bytes
    errors: str


def ended(command: Sequence[Any]) -> Ended:
    process = subprocess.run([str(word) for word in command], capture_output=True, check=False)
    return Ended(process.returncode, process.stdout, process.stderr.decode())


def told(errors: str) -> str:
    """What a command has told, but for the warning that its scheduler has no TLS."""
    from rjoin_cluster.cluster import OPEN_PORTS

    lines = errors.splitlines(keepends=True)
    return "".join(line for line in lines if not line.endswith(f": {OPEN_PORTS}\n"))


@pytest.fixture(scope="session")
def program() -> str:
    """The proved program of RJOIN, or of the checkout."""
    path = os.environ.get("RJOIN") or str(ROOT / "crates/rjoin/out/rjoin")
    if not os.access(path, os.X_OK):
        pytest.skip(f"{path} is not there; ./rjoin builds it")
    if ended([path, "bounds", "--help"]).status != 0:
        pytest.skip(f"{path} has no command bounds")
    return path


@pytest.fixture(scope="session")
def scheduler() -> Iterator[str]:
    """The address of a scheduler with two workers."""
    options = {"n_workers": 2, "threads_per_worker": 1, "dashboard_address": ":0"}
    with distributed.LocalCluster(**options) as cluster:
        yield cluster.scheduler_address


@dataclass(frozen=True)
class Tools:
    """One run of rjoin, and a join on the cluster, of the same words."""

    program: str
    scheduler: str
    folder: Path

    def one_run(self, left: Path, right: Path, relation: str, *more: str) -> Ended:
        return ended([self.program, "join", left, right, "--relation", relation, *more])

    def report(self) -> Path:
        return self.folder / "report.csv"

    def command(self, left: Path, right: Path, relation: str, *more: str) -> list[str]:
        return self.words(["join", left, right, "--relation", relation, *more])

    def words(self, words: Sequence[Any]) -> list[str]:
        """The words of a command, with the report, the program and the scheduler, which later words
        may replace; without a scheduler, the workers are threads of the command.
        """
        place = ["--scheduler", self.scheduler] if self.scheduler else ["--workers", "2"]
        files = ["--out", self.report(), "--program", self.program]
        command, *more = words
        return [*map(str, (command, *files, *place, *more))]

    def local_command(self, left: Path, right: Path, relation: str, *more: str) -> list[str]:
        """The same, without a scheduler, in a process of its own."""
        words = self.command(left, right, relation, *more)
        place = words.index("--scheduler")
        return [sys.executable, "-m", "rjoin_cluster", *words[:place], *words[place + 2:]]

    def check_same(
        self, left: Path, right: Path, relation: str, scale: str = "0", *more: str
    ) -> None:
        """The report of the cluster has the bytes of that of one run."""
        words = ["join", left, right, "--relation", relation, "--scale", scale]
        self.check_command(words, *more)

    def check_command(self, words: Sequence[Any], *more: str) -> bytes:
        """The report of a command of the cluster has the bytes of that of one run of these words,
        and nothing else is left.
        """
        from rjoin_cluster.command import main

        one = ended([self.program, *words])
        assert one.status == 0, one.errors
        assert main(self.words([*words, *more])) == 0
        assert self.report().read_bytes() == one.output
        assert [path.name for path in self.folder.glob("*rjoin-cluster*")] == []
        return one.output


@pytest.fixture
def tools(program: str, scheduler: str, tmp_path: Path) -> Tools:
    return Tools(program, scheduler, tmp_path)


@pytest.fixture
def tools_here(program: str, tmp_path: Path) -> Tools:
    """The workers are threads of the test, so that what it patches is patched for them too."""
    return Tools(program, "", tmp_path)


@contextmanager
def running_group(words: Sequence[str]) -> Iterator[Any]:
    """A command in a process group of its own, as a terminal starts it, which is ended in the
    end.
    """
    with subprocess.Popen(
        words, stderr=subprocess.PIPE, text=True, start_new_session=True, preexec_fn=hear_signals
    ) as process:
        try:
            yield process
        finally:
            if process.poll() is None:
                os.killpg(process.pid, signal.SIGTERM)


def hear_signals() -> None:
    """What runs in the background may ignore some of them, and what it starts too."""
    for ending in (signal.SIGHUP, signal.SIGINT, signal.SIGTERM):
        signal.signal(ending, signal.SIG_DFL)


# Neither tells other users of the machine anything.
CLOSED = {f"DASK_DISTRIBUTED__{part}__HTTP__ROUTES": "[]" for part in ("SCHEDULER", "WORKER")}


@contextmanager
def dask_process(part: str, folder: Path, *words: str, **environment: str) -> Iterator[Any]:
    """A scheduler or a worker, as the page on clusters starts it, which is ended in the end."""
    command = [sys.executable, "-m", f"distributed.cli.dask_{part}", "--no-dashboard"]
    command += ["--scheduler-file", str(folder / "scheduler.json"), *words]
    closed = {**os.environ, **CLOSED, **environment}
    with subprocess.Popen(command, stderr=subprocess.DEVNULL, env=closed) as process:
        try:
            yield process
        finally:
            process.kill()


def own_scheduler(folder: Path, *tls: str) -> Any:
    words = ["--host", "127.0.0.1", "--port", "0", "--dashboard-address", "127.0.0.1:0", *tls]
    return dask_process("scheduler", folder, *words, *(["--protocol", "tls"] if tls else []))


def own_worker(folder: Path, *tls: str, **environment: str) -> Any:
    """A worker with one thread, whose own files lie in a folder of the user alone."""
    local = folder / "workers"
    local.mkdir(0o700, exist_ok=True)
    words = ["--nthreads", "1", "--no-nanny", "--local-directory", str(local)]
    return dask_process("worker", folder, *words, *tls, **environment)


def address_of(folder: Path, workers: int, security: Any = None) -> str:
    """The address of the scheduler of a folder, once it has so many workers."""
    more = {"timeout": WAIT, "security": security}
    with distributed.Client(scheduler_file=str(folder / "scheduler.json"), **more) as client:
        client.wait_for_workers(workers, timeout=WAIT)
        return str(client.scheduler.address)


@contextmanager
def own_processes(folder: Path, security: Any = None, *tls: str) -> Iterator[tuple[str, int]]:
    """The address of a scheduler in a process of its own, with a worker, and its number."""
    with own_scheduler(folder, *tls) as scheduler, own_worker(folder, *tls):
        yield address_of(folder, 1, security), scheduler.pid


def wait_for(tools: Tools, name: str, process: Any) -> None:
    """Waits until a step of the join has left some file."""
    end = time.monotonic() + WAIT
    while not list(tools.folder.glob(f"rjoin-cluster-*/{name}")):
        if process.poll() is not None or time.monotonic() > end:
            process.kill()
            pytest.fail(process.stderr.read())
        time.sleep(0.01)


def check_left_nothing(tools: Tools) -> None:
    assert list(tools.folder.glob(".*report*")) + list(tools.folder.glob("rjoin-cluster-*")) == []


def write_layer(path: Path, rows: Sequence[tuple[str, str]]) -> Path:
    """A layer of ids and geometries, both written as they are."""
    path.write_bytes(b"id,wkt\n" + b"".join(f"{name},{wkt}\n".encode() for name, wkt in rows))
    return path


def quoted(geometry: str) -> str:
    return f'"{geometry}"'
