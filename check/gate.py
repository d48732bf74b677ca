"""Runs the parts of the gate, each to its end whatever became of those before.

    .ci/run [PART..]           these parts, or all; `.ci/run --list` names them
    .ci/run --all [PART..]     the same, where parts that try a choice of much try all of it, in up to twice the time

As root it first installs what the parts need of Debian's packages, and then proves. After the proofs two lanes run side
by side: the mutants, which take all processors, and the parts that mostly need one processor or wait for input. The
parts of a lane run one after the other, and what each writes is printed whole once it has ended. A part that runs
longer than it may is stopped and has failed, and what a part leaves running is stopped with it. The last lines have a
line for each part, with what passed, failed and was skipped, its seconds and those of all processors, and one for all
parts, with the seconds from the first to the last; they name what was skipped, and the very last line counts all. The
status is 1 where something failed.
"""
import ctypes
import io
import os
import re
import resource
import select
import signal
import subprocess
import sys
import time
from collections.abc import Collection, Iterator
from contextlib import contextmanager
from dataclasses import dataclass, field, replace
from enum import Enum
from multiprocessing import get_context
from multiprocessing.connection import Connection, wait
from multiprocessing.synchronize import Lock
from pathlib import Path
from typing import BinaryIO

ROOT = Path(__file__).resolve().parent.parent
PROGRAM = ROOT / "crates/rjoin/out/rjoin"
# The whole has to end before those who run it lose patience.
MOST_MINUTES = 170
# How long what is stopped may take to end.
GRACE_SECONDS = 20
# How much the heavy lane gives way to the light one, whose parts wait for answers within a given time.
NICE = 5
# How long the lanes may print nothing before a line says which parts run.
QUIET_SECONDS = 300
PR_SET_CHILD_SUBREAPER = 36
FORK = get_context("fork")
LAST = re.compile(r"^(?:[\w -]+: )?(\d+) passed, (\d+) failed(?:, (\d+) skipped)?$", re.M)
SKIPPED = re.compile(r"^(?:skipped|SKIPPED) .*|^not installed: .*", re.M)
ENVIRONMENT = {
    **{name: value for name, value in os.environ.items() if not name.startswith("PG")},
    "RJOIN": str(PROGRAM), "DEBIAN_FRONTEND": "noninteractive", "QT_QPA_PLATFORM": "offscreen",
    "PYTHONDONTWRITEBYTECODE": "1",
}


class Lane(Enum):
    """When a part runs: before all that is side by side, or in one of the two lanes."""

    FIRST = 0
    HEAVY = 1
    LIGHT = 2


@dataclass(frozen=True)
class Part:
    """A part of the gate: its name, a command that is run in the root of the repository, how many minutes it may take,
    and its lane. Its last line of the form `N passed, N failed, N skipped` counts; without one it is passed or failed
    as a whole, by its status. Parts of the two lanes neither need nor write what one of the other lane writes."""

    name: str
    words: tuple[str, ...]
    minutes: float
    lane: Lane = Lane.FIRST
    # Whether a status other than 0 means that the part couldn't be run, and not that it failed.
    may_be_skipped: bool = False
    # The command by which the part tries all, where the one above tries a choice.
    whole: tuple[str, ...] = ()


@dataclass
class Result:
    """How a part ended."""

    name: str
    passed: int = 0
    failed: int = 0
    skipped: int = 0
    seconds: float = 0
    processor_seconds: float = 0
    notes: list[str] = field(default_factory=list)


# What waits for workers that die depends on the clock, and is left to a run by hand.
STEADY = "not test_failures and not test_two_networks"
PARTS = (
    Part("packages", ("check/install.py",), 20, may_be_skipped=True),
    Part("proofs", ("check/proofs.py",), 90, whole=("check/proofs.py", "--all")),
    Part("budgets", ("check/budgets.py",), 2),
    Part("tests", ("check/tests.py",), 45),
    Part("faults", ("check/faults.py",), 2),
    Part("definitions", ("check/definitions.py", "--check"), 2),
    Part("architecture", ("check/architecture.py", "--check"), 2),
    Part("guarantees", ("check/guarantees.py", "--check"), 2),
    Part("readmes", ("check/readmes.py",), 2),
    Part("mutants", ("check/mutants.py", "--changed"), 110, Lane.HEAVY, whole=("check/mutants.py",)),
    Part("tested-mutants", ("check/tested_mutants.py", "--changed"), 45, Lane.HEAVY,
         whole=("check/tested_mutants.py",)),
    Part("stored-runs", ("check/stored_runs.py",), 15, Lane.LIGHT),
    Part("refusals", ("check/refusals.py",), 60, Lane.LIGHT, whole=("check/refusals.py", "--all")),
    Part("reference", ("check/reference.sh",), 15, Lane.LIGHT, whole=("check/reference.sh", "--all")),
    Part("any-joins", ("check/any_joins.py",), 20, Lane.LIGHT),
    Part("smoke", ("bench/smoke", str(PROGRAM)), 10, Lane.LIGHT),
    Part("gate", ("python3", "check/test_gate.py"), 5, Lane.LIGHT),
    Part("packaging", ("check/packages.py", "--by-ci"), 40, Lane.LIGHT),
    Part("python", ("check/python.sh", "-k", STEADY), 40, Lane.LIGHT),
    Part("integrations", ("check/integrations.sh",), 30, Lane.LIGHT),
    Part("recipes", ("check/recipes.py", str(PROGRAM)), 15, Lane.LIGHT),
)


def processor_seconds() -> float:
    """The processor time of all processes below this one that have ended."""
    used = resource.getrusage(resource.RUSAGE_CHILDREN)
    return used.ru_utime + used.ru_stime


def children() -> set[int]:
    """The processes whose parent is this one."""
    try:
        listed = Path(f"/proc/self/task/{os.getpid()}/children").read_text(encoding="ascii")
    except OSError:  # a system that doesn't tell
        return set()
    return {int(number) for number in listed.split()}


def name_of(process: int) -> str:
    try:
        return Path(f"/proc/{process}/comm").read_text(encoding="utf-8").strip()
    except OSError:
        return "?"


def is_zombie(process: int) -> bool:
    try:
        return Path(f"/proc/{process}/stat").read_text(encoding="utf-8").rpartition(")")[2].split()[0] == "Z"
    except OSError:
        return True


def reap(processes: set[int]) -> set[int]:
    """Those of these children that still run; what has ended is gone from the system."""
    for process in processes:
        if is_zombie(process):
            try:
                os.waitpid(process, os.WNOHANG)
            except ChildProcessError:
                pass
    return {process for process in processes if not is_zombie(process)}


def stop_what_is_left() -> list[str]:
    """Ends what a part has left running, whose parent is this process once its own has ended. Returns the names."""
    names: list[str] = []
    for number in (signal.SIGTERM, signal.SIGKILL):
        deadline, warned = time.monotonic() + GRACE_SECONDS, set[int]()
        while (left := reap(children())) and time.monotonic() < deadline:
            for process in left - warned:
                names += [name_of(process)] if number == signal.SIGTERM else []
                os.kill(process, number)
            warned |= left
            time.sleep(0.1)
    return names


def passed_on(process: subprocess.Popen[bytes], deadline: float, output: BinaryIO) -> tuple[str, bool]:
    """Passes on what a process writes until it ends or its time is up. Returns it, and whether the process ended."""
    assert process.stdout
    written, has_ended = bytearray(), False
    os.set_blocking(process.stdout.fileno(), False)
    while time.monotonic() < deadline:
        has_ended = process.poll() is not None
        select.select([process.stdout], [], [], 0.5)
        data = process.stdout.read()
        if data:
            written += data
            output.write(data)
            output.flush()
        elif has_ended:
            break
        else:
            time.sleep(0.1)
    return written.decode(errors="replace"), has_ended


def end(process: subprocess.Popen[bytes]) -> None:
    """Stops a process and those of its group."""
    for number in (signal.SIGTERM, signal.SIGKILL):
        try:
            os.killpg(process.pid, number)
            process.wait(GRACE_SECONDS)
        except (ProcessLookupError, subprocess.TimeoutExpired):
            continue


def counted(part: Part, text: str, status: int) -> Result:
    """What a part that has ended tells by its last lines and its status."""
    result = Result(part.name)
    found = LAST.findall(text)
    if found:
        result.passed, result.failed, result.skipped = (int(number or 0) for number in found[-1])
    elif status == 0:
        result.passed = 1
    if status != 0 and result.failed == 0:
        if part.may_be_skipped:
            result.skipped += 1
        else:
            result.failed += 1
            result.notes.append(f"ended with status {status}")
    if result.skipped:
        result.notes += SKIPPED.findall(text)
    return result


def run(part: Part, deadline: float, output: BinaryIO) -> Result:
    """Runs a part to its end, or until its time or that of the whole is up."""
    output.write(f"== {part.name}: {' '.join(part.words)}\n".encode())
    output.flush()
    began, used = time.monotonic(), processor_seconds()
    limit = min(began + 60 * part.minutes, deadline)
    try:
        process = subprocess.Popen(part.words, cwd=ROOT, env=ENVIRONMENT, stdin=subprocess.DEVNULL,
                                   stdout=subprocess.PIPE, stderr=subprocess.STDOUT, start_new_session=True)
    except OSError as fault:
        return Result(part.name, failed=1, notes=[f"{part.words[0]} can't be run: {fault.strerror}"])
    text, has_ended = passed_on(process, limit, output)
    if has_ended:
        result = counted(part, text, process.returncode)
    else:
        end(process)
        result = Result(part.name, failed=1, notes=[f"stopped after {(limit - began) / 60:.0f} minutes"])
    left = stop_what_is_left()
    if left:
        result.notes.append(f"left running, and stopped: {' '.join(left)}")
    result.seconds = time.monotonic() - began
    result.processor_seconds = processor_seconds() - used
    return result


def own_what_is_left() -> None:
    """Makes this process the parent of what its children leave running."""
    ctypes.CDLL(None).prctl(PR_SET_CHILD_SUBREAPER, 1)


@contextmanager
def printed_whole(printing: Lock) -> Iterator[BinaryIO]:
    """A file whose content is printed at the end, also where the lane is stopped, with nothing of the other lane in
    it."""
    output = io.BytesIO()
    try:
        yield output
    finally:
        with printing:
            sys.stdout.buffer.write(output.getvalue())
            sys.stdout.buffer.flush()


def run_lane(parts: list[Part], deadline: float, results: Connection, printing: Lock) -> None:
    """Runs the parts of a lane one after the other, and sends how each ended."""
    own_what_is_left()
    if parts[0].lane is Lane.HEAVY:
        os.nice(NICE)
    try:
        for part in parts:
            with printed_whole(printing) as output:
                result = run(part, deadline, output)
            results.send(result)
    finally:
        stop_what_is_left()


def start_lane(parts: list[Part], deadline: float, printing: Lock) -> Connection:
    """Starts a process for a lane, by which its parts' children and times are kept apart from those of the other.
    Returns where the results come from."""
    receiver, sender = FORK.Pipe(duplex=False)
    FORK.Process(target=run_lane, args=(parts, deadline, sender, printing)).start()
    sender.close()
    return receiver


def run_side_by_side(lanes: list[list[Part]], deadline: float) -> list[Result]:
    """Runs lanes side by side. A part of which nothing is heard has failed."""
    printing = FORK.Lock()
    heard: dict[str, Result] = {}
    left: list[Connection] = []
    for parts in lanes:
        print(f"== side by side, printed when each has ended: {' '.join(it.name for it in parts)}", flush=True)
        left.append(start_lane(parts, deadline, printing))
    while left:
        ready = wait(left, QUIET_SECONDS)
        for receiver in ready:
            assert isinstance(receiver, Connection)
            try:
                result = receiver.recv()
                heard[result.name] = result
            except EOFError:
                left.remove(receiver)
        if not ready:
            print_running(lanes, heard, printing)
    unheard = Result("", failed=1, notes=["its lane ended before it"])
    return [heard.get(part.name) or replace(unheard, name=part.name) for parts in lanes for part in parts]


def print_running(lanes: list[list[Part]], heard: Collection[str], printing: Lock) -> None:
    """Prints which parts of these lanes run, as those that were heard of have ended."""
    unheard = ([part.name for part in parts if part.name not in heard] for parts in lanes)
    with printing:
        print(f"== running: {' '.join(names[0] for names in unheard if names)}", flush=True)


def run_all(parts: list[Part], deadline: float) -> list[Result]:
    """Runs the parts before the lanes, and then the lanes: side by side where both have parts."""
    first, *lanes = [[part for part in parts if part.lane == lane] for lane in Lane]
    if not all(lanes):
        return [run(part, deadline, sys.stdout.buffer) for part in parts]
    results = [run(part, deadline, sys.stdout.buffer) for part in first]
    return results + run_side_by_side(lanes, deadline)


def row(name: str, results: list[Result], seconds: float) -> tuple[str, ...]:
    """The line of the table for these results."""
    counts = (sum(getattr(it, count) for it in results) for count in ("passed", "failed", "skipped"))
    processor_seconds = sum(it.processor_seconds for it in results)
    return (name, *map(str, counts), f"{seconds:.0f}", f"{processor_seconds:.0f}")


def table(results: list[Result], seconds: float) -> Iterator[str]:
    """The last lines: how each part ended, and all of them, which took this long."""
    rows: list[tuple[str, ...]] = [
        ("part", "passed", "failed", "skipped", "seconds", "processor"),
        *(row(it.name, [it], it.seconds) for it in results), row("all", results, seconds)]
    for name, *numbers in rows:
        yield f"{name:16}" + "".join(f"{number:>10}" for number in numbers)
    for it in results:
        for note in it.notes:
            yield f"{it.name}: {note}"
    _, passed, failed, skipped, *_ = rows[-1]
    yield f"{passed} passed, {failed} failed, {skipped} skipped"


def gate(parts: list[Part], minutes: float = MOST_MINUTES) -> int:
    """Runs the parts, in so many minutes at most, and tells how they ended."""
    own_what_is_left()
    signal.signal(signal.SIGTERM, lambda *_: sys.exit(143))
    began = time.monotonic()
    try:
        results = run_all(parts, began + 60 * minutes)
    finally:
        stop_what_is_left()
    print("", *table(results, time.monotonic() - began), sep="\n", flush=True)
    return 1 if any(it.failed for it in results) else 0


def main(words: list[str]) -> int:
    if words == ["--list"]:
        print(*(f"{part.name:16} {' '.join(part.words)}" for part in PARTS), sep="\n")
        return 0
    names = [it for it in words if it != "--all"]
    unknown = set(names) - {part.name for part in PARTS}
    if unknown:
        print(f"no part {' '.join(sorted(unknown))}; .ci/run --list names them", file=sys.stderr)
        return 2
    parts = [part for part in PARTS if not names or part.name in names]
    if "--all" not in words:
        return gate(parts)
    return gate([replace(it, words=it.whole or it.words, minutes=2 * it.minutes) for it in parts], 2 * MOST_MINUTES)


if __name__ == "__main__":
    sys.exit(main(sys.argv[1:]))
