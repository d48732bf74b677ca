#!/usr/bin/env python3
"""Random joins on clusters whose workers come late, die or fail, and that are ended and go on.

    bench/random_joins.py [--joins N] [--seed S] [--workers N..] [--program PATH]

Each join has layers, a command, options, a number of workers, 1 to 6 processes, and a trouble, that follow from its
seed. Its report has to have the bytes of one run, or else, where something was made to fail, it has to end with one
line that names a fault, and without a report; a join that is gone on with has to have the bytes in the end. A line is
printed for each join, and in the end their number; the status is 1 if one did neither.

Troubles: a worker comes late, dies, or fails at everything; the program of one has another version; the program fails
now and then; the command is ended by signals, all workers die, or the scheduler is killed, and the join goes on, the
latter by another scheduler and its workers.
"""
from __future__ import annotations

import argparse
import io
import os
import random
import subprocess
import sys
import tempfile
import threading
import time
from contextlib import ExitStack, contextmanager, redirect_stderr, suppress
from pathlib import Path
from typing import Any, Iterator, NamedTuple, Sequence

ROOT = Path(__file__).resolve().parent.parent
sys.path.insert(0, str(ROOT / "python/src"))
os.environ["PYTHONPATH"] = os.pathsep.join([str(ROOT / "python/src"), os.environ.get("PYTHONPATH", "")])

import distributed  # noqa: E402
import layers  # noqa: E402
from rjoin_cluster import command  # noqa: E402

new_cluster: Any = distributed.LocalCluster
new_client: Any = distributed.Client

KINDS = ("mixture", "rectangles", "points", "close", "cadastre")
ANY_KINDS = ("roads", "zones", "neighbours")
RELATIONS = ("intersects", "touches", "within", "overlaps", "equals", "T*F**F***")
TROUBLES = ("none", "late", "dies", "faulty", "other", "fails", "ended", "ended", "all die", "scheduler")
GOES_ON = ("ended", "all die", "scheduler")
MAY_FAIL = ("dies", "faulty", "other", "fails")
TRIES = 5
WAIT = 120


def layers_of(folder: Path, chance: random.Random, is_any: bool) -> tuple[Path, Path]:
    """Two layers, one of which may be small, or the other one itself."""
    kind = chance.choice(ANY_KINDS if is_any else KINDS)
    left, right = layers.write_pair(folder, kind, chance.choice((30, 200, 600)))
    how = chance.random()
    if how < 0.15:
        right = left
    elif how < 0.4:
        lines = right.read_bytes().splitlines(keepends=True)
        right.write_bytes(b"".join([lines[0], *lines[1:: chance.choice((2, 50))]]))
    return left, right


def words_of(folder: Path, chance: random.Random) -> list[str]:
    """A command for two layers, as one run takes it."""
    is_any = chance.random() < 0.4
    left, right = layers_of(folder, chance, is_any)
    name = chance.choice(("join", "join", "near", "nearest", "nearest"))
    words = [name, str(left), str(right), *(["--geometry", "any"] if is_any else [])]
    if name == "join":
        words += ["--relation", chance.choice(RELATIONS), *(["--pairs"] if chance.random() < 0.3 else [])]
    if name == "nearest":
        words += ["--most", str(chance.choice((1, 3, 20)))]
    if name == "near" or name == "nearest" and chance.random() < 0.5:
        words += ["--distance", str(chance.choice((0, 3, 60, 5000)))]
    if chance.random() < 0.3:
        words += ["--edits", str(edits_of(folder, chance, left, right))]
    return words


def edits_of(folder: Path, chance: random.Random, *paths: Path) -> Path:
    """Deletions of some features, and insertions, of ids that were deleted too."""
    rows = ["op,layer,id,wkt"]
    for side, path in zip(("left", "right"), paths):
        names = [line.split(",", 1)[0] for line in path.read_text().splitlines()[1:]]
        gone = chance.sample(names, min(len(names), 9))
        rows += [f"delete,{side},{name}," for name in gone]
        rows += [f"insert,{side},{name},POINT ({chance.randint(0, 90)} 4)" for name in [*gone[:4], "new"]]
    edits = folder / "edits.csv"
    edits.write_text("\n".join(rows) + "\n")
    return edits


def failing_program(folder: Path, program: str, test: str) -> str:
    """A program before which a shell makes a test of its words."""
    path = folder / "rjoin"
    path.write_text(f'#!/bin/sh\n{test}\nexec {program} "$@"\n')
    path.chmod(0o755)
    return str(path)


def program_of(folder: Path, program: str, trouble: str, chance: random.Random, cluster: Any) -> str:
    """The program of a join. The command itself is asked for its words, and so is never one that has trouble."""
    one = list(cluster.workers.values())[0].process.process.pid
    now_and_then = f"$(($(od -An -N2 -tu2 /dev/urandom) % {chance.choice((7, 40))}))"
    tests = {
        "fails": f'case "$*" in *--workers=1*|bounds*) [ {now_and_then} = 0 ] && exit 1;; esac',
        "faulty": f'case "$*" in *--workers=1*|bounds*) [ $PPID = {one} ] && exit 1;; esac',
        "other": f'[ "$PPID $1" = "{one} --version" ] && echo rjoin 0.0.0 && exit 0',
    }
    return failing_program(folder, program, tests[trouble]) if trouble in tests else program


@contextmanager
def troubled(cluster: Any, trouble: str, chance: random.Random) -> Iterator[None]:
    """Has a worker come or die meanwhile, or all die, in whose place the cluster starts others."""
    delay = chance.uniform(0.1, 2.0)

    def happen() -> None:
        time.sleep(delay)
        with suppress(Exception):
            if trouble == "late":
                cluster.scale(len(cluster.workers) + 1)
            elif trouble == "dies":
                next(iter(cluster.workers.values())).process.process.kill()
            elif trouble == "all die":
                for worker in cluster.workers.values():
                    worker.process.process.kill()

    thread = threading.Thread(target=happen)
    thread.start()
    try:
        yield
    finally:
        thread.join()


class Done(NamedTuple):
    """How a join ended, and what it wrote to standard error."""

    status: int
    errors: str


def run(words: Sequence[str]) -> Done:
    errors = io.StringIO()
    with redirect_stderr(errors):
        status = command.main(words)
    return Done(status, errors.getvalue())


def run_and_end(words: Sequence[str], chance: random.Random) -> Done:
    """Ends a join by a signal at some time, and lets it go on until it is done."""
    for _ in range(chance.randint(1, 3)):
        whole = [sys.executable, "-m", "rjoin_cluster", *words]
        with subprocess.Popen(whole, stdout=subprocess.DEVNULL, stderr=subprocess.DEVNULL) as process:
            with suppress(subprocess.TimeoutExpired):
                process.wait(chance.uniform(0.8, 4.0))
            process.send_signal(chance.choice((2, 9, 15)))
    return run(words)


def run_until_done(words: Sequence[str]) -> Done:
    """Lets a join go on that ends with a fault of workers."""
    done = run(words)
    for _ in range(TRIES):
        if done.status != 0 and is_fault(done.errors) and "rjoin-cluster: " in done.errors:
            done = run(words)
    return done


@contextmanager
def own_cluster(folder: Path, workers: int, local: str) -> Iterator[tuple[str, Any]]:
    """A scheduler in a process of its own, with workers: its address and the process."""
    folder.mkdir()
    told = folder / "scheduler.json"
    places = {"scheduler": ["--host", "127.0.0.1", "--port", "0", "--dashboard-address", "127.0.0.1:0"],
              "worker": ["--nthreads", "1", "--no-nanny", "--local-directory", local]}
    with ExitStack() as stack:
        processes = []
        for part in ["scheduler", *["worker"] * workers]:
            words = [sys.executable, "-m", f"distributed.cli.dask_{part}", "--no-dashboard", *places[part]]
            words += ["--scheduler-file", str(told)]
            process = subprocess.Popen(words, stdout=subprocess.DEVNULL, stderr=subprocess.DEVNULL)
            processes.append(stack.enter_context(process))
            stack.callback(processes[-1].kill)
        with new_client(scheduler_file=str(told), timeout=WAIT) as client:
            client.wait_for_workers(workers, timeout=WAIT)
            address = client.scheduler.address
        yield address, processes[0]


def run_and_kill_scheduler(words: Sequence[str], folder: Path, chance: random.Random, local: str) -> Done:
    """Kills the scheduler of a join at some time, and lets the join go on by another one."""
    workers = chance.choice((1, 2))
    with own_cluster(folder / "first", workers, local) as (address, scheduler):
        whole = [sys.executable, "-m", "rjoin_cluster", *words, "--scheduler", address]
        with subprocess.Popen(whole, stdout=subprocess.DEVNULL, stderr=subprocess.DEVNULL) as process:
            with suppress(subprocess.TimeoutExpired):
                process.wait(chance.uniform(0.8, 4.0))
            scheduler.kill()
            process.wait(WAIT)
    with own_cluster(folder / "second", chance.choice((1, 2)), local) as (address, _):
        return run([*words, "--scheduler", address])


def is_fault(errors: str) -> bool:
    """Whether a command has told one fault, beside what it tells of workers and of its scheduler."""
    lines = [line for line in errors.splitlines() if "no TLS" not in line and "gets no more tasks" not in line
             and "its tasks go to other workers" not in line]
    return len(lines) == 1 and lines[0].startswith(("rjoin-cluster: ", "rjoin: "))


def joined(seed: int, program: str, cluster: Any, local: str) -> str:
    """What came of a join: `same`, `fault`, or what is wrong with it."""
    chance = random.Random(seed)
    trouble = chance.choice(TROUBLES)
    with tempfile.TemporaryDirectory(prefix="rjoin-random-") as name:
        folder = Path(name)
        words = words_of(folder, chance)
        one = subprocess.run([program, *words], capture_output=True, check=False)
        report = folder / "report.csv"
        more = ["--out", str(report), "--program", program_of(folder, program, trouble, chance, cluster),
                "--scheduler", cluster.scheduler_address, "--patience", "60",
                "--block", str(chance.choice((700, 5000, 10**6)))]
        if chance.random() < 0.7:
            more += ["--tiles", str(chance.choice((2, 9, 30)))]
        if trouble in GOES_ON:
            more += ["--resume", str(folder / "kept")]
        whole = [*words, *more]
        with troubled(cluster, trouble, chance):
            if trouble == "ended":
                done = run_and_end(whole, chance)
            elif trouble == "scheduler":
                done = run_and_kill_scheduler(whole, folder, chance, local)
            else:
                done = run_until_done(whole) if trouble == "all die" else run(whole)
        return f"{trouble}: {outcome(one, done, report, trouble)}"


def outcome(one: Any, done: Done, report: Path, trouble: str) -> str:
    if done.status == 0:
        is_same = one.returncode == 0 and report.read_bytes() == one.stdout
        return "same" if is_same else "OTHER BYTES"
    errors = done.errors
    if one.returncode == done.status != 0 and one.stderr.decode() in errors:
        return "same fault as one run"
    if report.exists() or trouble not in MAY_FAIL or not is_fault(errors):
        return f"FAULT: {done.status}: {errors.strip()}"
    return "fault"


def main(options: argparse.Namespace) -> int:
    counts: dict[str, int] = {}
    bad = 0
    seeds = list(range(options.seed, options.seed + options.joins))
    place = {"dashboard_address": None, "local_directory": options.local, "silence_logs": 50}
    for workers in options.workers:
        with new_cluster(n_workers=workers, threads_per_worker=1, **place) as cluster:
            for seed in seeds[workers % 6:: 6]:
                came = joined(seed, options.program, cluster, options.local)
                cluster.scale(workers)
                print(f"{seed}: {workers} workers, {came}", flush=True)
                what = came.split(": ", 1)[1]
                counts[what[:21]] = counts.get(what[:21], 0) + 1
                bad += what.startswith(("OTHER", "FAULT"))
    print(f"random joins: {sum(counts.values())}, {counts}, {bad} bad")
    return int(bad > 0)


def options_of() -> argparse.Namespace:
    parser = argparse.ArgumentParser(description=__doc__.splitlines()[0])
    parser.add_argument("--joins", type=int, default=60)
    parser.add_argument("--seed", type=int, default=1)
    parser.add_argument("--workers", type=int, nargs="+", default=list(range(1, 7)), help="of each sixth of the joins")
    parser.add_argument("--local", default=tempfile.gettempdir(), help="where dask's workers keep their own files")
    parser.add_argument("--program", default=os.environ.get("RJOIN", str(ROOT / "crates/rjoin/out/rjoin")))
    return parser.parse_args()


if __name__ == "__main__":
    sys.exit(main(options_of()))
