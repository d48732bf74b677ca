#!/usr/bin/env python3
"""Simulates joins by rjoin-cluster on any number of machines, from costs that were measured on one.

    bench/simulate.py FIGURES.. [--features N] [--machines N..] [--workers N] [--network GB] [--folder GB..]

FIGURES are files of what `bench/cluster --workers 1 ..` has printed. The costs of a byte, a feature and a pair in each
step are those of the first line with one worker: the seconds that it took, in processor seconds, of which a busy
machine gives less than one a second. Each line is simulated too, and compared with what was measured. Then a join of N
features a side is simulated on each number of machines. Each machine has so many workers, which share its network; the
folder that all share takes and gives so many bytes a second, to all machines together.

A worker does one task at a time, and takes the greatest that waits; the scheduler gives out one task after the other.
The number of tasks and what each has is that of the command's own plan.
"""
from __future__ import annotations

import argparse
import heapq
import json
import random
import sys
from dataclasses import dataclass
from pathlib import Path
from typing import Any, NamedTuple, Sequence

ROOT = Path(__file__).resolve().parent.parent
sys.path.insert(0, str(ROOT / "python/src"))

from rjoin_cluster import joining, merge, plan  # noqa: E402
from rjoin_cluster.options import BLOCK_BYTES  # noqa: E402
from rjoin_cluster.placing import CHUNK_BYTES  # noqa: E402

SCHEDULING = 0.001  # seconds of the scheduler for a task, by dask's own figures
OPENING = 15e-6  # seconds to open and read a small file
SAMPLED = 125  # boxes of a tile in the sample, by which sizes of tiles scatter
BOX_BYTES, HASH_BYTES, NUMBER_BYTES, RANK_BYTES, MATRIX_BYTES = 32, 12, 8, 8, 9
STEPS = ("cutting", "reading", "dealing", "joining", "merging")
GIGABYTE = 10**9


class Costs(NamedTuple):
    """Processor seconds: of a byte that is cut, of a feature that is read, dealt and joined, and of a pair that is
    merged; and seconds for what the command does alone, before the tasks and for the tiles.
    """

    cutting: float
    reading: float
    dealing: float
    joining: float
    merging: float
    alone: float


@dataclass(frozen=True)
class Load:
    """What is joined: features and bytes of a side, pairs, and bytes of the report and of a right id."""

    features: int
    bytes: int
    pairs: int
    report: int
    id_bytes: int = 9

    def times(self, factor: float) -> Load:
        sizes = [round(size * factor) for size in (self.features, self.bytes, self.pairs, self.report)]
        return Load(sizes[0], sizes[1], sizes[2], sizes[3], self.id_bytes)


@dataclass(frozen=True)
class Place:
    """Where the tasks run."""

    machines: int
    workers: int  # of each machine
    network: float  # bytes a second of a machine
    folder: float  # bytes a second of all

    @property
    def all_workers(self) -> int:
        return self.machines * self.workers


class Task(NamedTuple):
    """The processor time of a task, and the bytes that it reads and writes."""

    processor: float
    bytes: float


def load_of(figures: dict[str, Any]) -> Load:
    left = figures["left"]
    return Load(left["features"], left["bytes"], figures["pairs"], figures["report_bytes"])


def costs_of(figures: dict[str, Any]) -> Costs:
    """The costs of a join by one worker."""
    share = min(1.0, figures["processor"] / figures["seconds"]["all"])
    load = load_of(figures)
    seconds = {step: share * spent for step, spent in figures["seconds"].items()}
    dealt = sum(figures[side]["dealt"] for side in ("left", "right"))
    both, spent = 2 * load.features, sum(seconds[step] for step in STEPS)
    return Costs(
        seconds["cutting"] / (2 * load.bytes),
        seconds["reading"] / both,
        seconds["dealing"] / both,
        seconds["joining"] / dealt,
        (seconds["merging"] + seconds["writing"]) / max(1, load.pairs),
        seconds["all"] - spent - seconds["writing"],
    )


def tasks_of(load: Load, costs: Costs, workers: int, seed: int) -> dict[str, list[Task]]:
    """The tasks of each step, in the numbers that the command's plan has for so many workers."""
    blocks = max(1, -(-load.bytes // BLOCK_BYTES))
    rows = load.features / blocks
    kept = (BOX_BYTES + load.id_bytes + HASH_BYTES) * rows
    tiles = max(1, min(2 * load.features // plan.LEAST_TILE_FEATURES, workers * plan.TILES_PER_WORKER))
    while load.features / tiles > plan.TILE_FEATURES:
        tiles *= 2
    of_group = max(1, min(max(1 + blocks // plan.MOST_GROUPS, blocks // (plan.GROUPS_PER_WORKER * workers)),
                          plan.GROUP_FEATURES // max(1, round(rows))))
    groups = -(-blocks // of_group)
    dealt = load.features / groups
    piece = NUMBER_BYTES + BOX_BYTES + load.id_bytes / 2
    checks = 1 + load.features // joining.HASHES_PER_TASK
    parts = parts_of(load, workers, tiles)
    pair = RANK_BYTES + MATRIX_BYTES + load.id_bytes
    chance = random.Random(seed)
    sizes = [max(0.1, chance.gauss(1, SAMPLED**-0.5)) for _ in range(tiles)] if tiles > workers else [1.0] * tiles
    features, pairs = 2 * load.features / tiles, load.pairs / tiles
    return {
        "cutting": [Task(costs.cutting * load.bytes / blocks, 2 * 2**18)] * (2 * blocks),
        "reading": [Task(costs.reading * rows, load.bytes / blocks + kept)] * (2 * blocks),
        "dealing": [Task(costs.dealing * dealt, (BOX_BYTES + load.id_bytes / 2 + piece) * dealt)] * (2 * groups)
        + [Task(OPENING * blocks, HASH_BYTES * load.features / checks)] * (2 * checks),
        "joining": [
            Task(costs.joining * features * size + 2 * OPENING * groups, size * (piece * features + pair * pairs))
            for size in sizes
        ],
        "merging": [
            Task(costs.merging * load.pairs / parts + OPENING * tiles, (pair * load.pairs + load.report) / parts)
        ] * parts + [Task(0.0, 2 * CHUNK_BYTES)] * (load.report // CHUNK_BYTES),
    }


def parts_of(load: Load, workers: int, tiles: int) -> int:
    """How many parts the report is merged in."""
    share = load.pairs // (workers * merge.PARTS_PER_WORKER)
    least = max(merge.LEAST_PAIRS, merge.LEAST_PAIRS_OF_RUN * tiles)
    return max(1, load.pairs // min(max(share, least), merge.MOST_PAIRS))


def seconds_of(tasks: Sequence[Task], place: Place) -> float:
    """How long the tasks of a step take, the greatest of which begin first."""
    free = [0.0] * place.all_workers
    given = 0.0
    network = place.network / place.workers
    for task in sorted(tasks, reverse=True):
        given += SCHEDULING
        begin = max(heapq.heappop(free), given)
        heapq.heappush(free, begin + task.processor + task.bytes / network)
    return max(*free, sum(task.bytes for task in tasks) / place.folder)


def simulated(load: Load, costs: Costs, place: Place, seed: int = 1) -> dict[str, float]:
    """The seconds of each step, of what the command does alone, and of all, and those of processors."""
    steps = tasks_of(load, costs, place.all_workers, seed)
    seconds = {step: seconds_of(tasks, place) for step, tasks in steps.items()}
    seconds["alone"] = costs.alone
    processor = costs.alone + sum(task.processor for tasks in steps.values() for task in tasks)
    return {**seconds, "all": sum(seconds.values()), "processor": processor}


def lines_of(paths: Sequence[str]) -> list[dict[str, Any]]:
    lines = [line for path in paths for line in Path(path).read_text().splitlines()]
    return [json.loads(line) for line in lines if line.startswith("{") and '"seconds"' in line]


def row(name: str, seconds: dict[str, float], more: str = "") -> str:
    steps = "".join(f" {seconds[step]:,.1f} |" for step in (*STEPS, "alone", "all", "processor"))
    return f"| {name} |{steps}{more}"


def compared(found: float, measured: float) -> str:
    return f" {measured:.1f} ({100 * (found / measured - 1):+.0f} %) |"


def main(options: argparse.Namespace) -> int:
    figures = lines_of(options.figures)
    first = next(line for line in figures if line["workers"] == 1)
    costs = costs_of(first)
    print(f"| Join | {' | '.join((*STEPS, 'alone', 'all', 'processor', 'measured', 'processor, measured', 'load'))} |")
    print("|---" * (len(STEPS) + 7) + "|")
    for line in figures:
        load = load_of(line)
        found = simulated(load, costs, Place(1, line["workers"], 1e12, 1e12))
        times = compared(found["all"], line["seconds"]["all"]) + compared(found["processor"], line["processor"])
        print(row(f"{load.features:,} a side, {line['workers']} workers", found, f"{times} {line['load']:.0f} |"))
    load = load_of(first).times(options.features / first["left"]["features"])
    for machines in options.machines:
        for folder in options.folder:
            place = Place(machines, options.workers, options.network * GIGABYTE, folder * GIGABYTE)
            found = simulated(load, costs, place)
            print(row(f"{load.features:,} a side, {machines} machines, folder {folder:g} GB/s", found, " | | |"))
    return 0


def options_of() -> argparse.Namespace:
    parser = argparse.ArgumentParser(description=__doc__.splitlines()[0])
    parser.add_argument("figures", nargs="+", help="files of lines that bench/cluster has printed")
    parser.add_argument("--features", type=int, default=10**9, help="of a side (default: %(default)s)")
    parser.add_argument("--machines", type=int, nargs="+", default=[10, 100, 1000])
    parser.add_argument("--workers", type=int, default=4, help="of each machine (default: %(default)s)")
    parser.add_argument("--network", type=float, default=1.0, help="GB a second of a machine (default: 1)")
    parser.add_argument("--folder", type=float, nargs="+", default=[1, 10, 100], help="GB a second of the folder")
    return parser.parse_args()


if __name__ == "__main__":
    sys.exit(main(options_of()))
