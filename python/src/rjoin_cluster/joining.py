"""The steps between layers that were read and pairs that are merged: features are dealt to tiles
and joined there, or joined without tiles, or in rounds where nearest ones are sought however far
away.
"""
from __future__ import annotations

from dataclasses import dataclass, replace
from typing import Any, Iterator, Mapping, NamedTuple, Optional, Sequence

import numpy as np

from rjoin_cluster.choice import Choice
from rjoin_cluster.conditions import Condition, Reach
from rjoin_cluster.doubles import DoublesJob, first_double
from rjoin_cluster.engine import Engine, Work, works_of
from rjoin_cluster.faults import ProgramFault
from rjoin_cluster.ids import SHARES
from rjoin_cluster.layers import Layer, Layers, Located
from rjoin_cluster.layout import Layout, save_array
from rjoin_cluster.merge import PartJob
from rjoin_cluster.nearest import Search
from rjoin_cluster.pieces import Cargo, DealJob, Dealt, Range, deal_blocks, load_lengths, save_ends
from rjoin_cluster.plan import MOST_RECORDS_BYTES, Plan, ranges, ranges_of_records
from rjoin_cluster.program import RowFault
from rjoin_cluster.request import Request
from rjoin_cluster.rounds import (
    FEW,
    WIDER,
    CountJob,
    count_found,
    first_distance,
    reach_within,
    save_blocks,
    save_last,
    within,
)
from rjoin_cluster.runs import RunDone, RunJob, Source, join_tile
from rjoin_cluster.sides import SIDES, Side
from rjoin_cluster.sources import save_files
from rjoin_cluster.texts import record_places
from rjoin_cluster.tiles import PLANE, Tiles, make_tiles
from rjoin_cluster.words import WORD

HASHES_PER_TASK = 4_000_000


@dataclass(frozen=True)
class Round:
    """A join of all features, or of those alone that have not enough nearest ones yet."""

    number: int  # from 1; 0 where there are no rounds
    layout: Layout
    condition: Condition
    reach: Reach
    choices: dict[Side, Choice]
    first_run: int = 0

    def step(self, name: str) -> str:
        return f"{name} in round {self.number}" if self.number > 1 else name


class Joined(NamedTuple):
    """What a join of two layers came to: how many tiles there were, how many features of each side
    they got, the runs, and the round of each.
    """

    tiles: int
    dealt: dict[Side, int]
    runs: list[RunDone]
    rounds: list[int]


class Joining:
    """The join of two layers that were read."""

    def __init__(
        self, request: Request, reach: Reach, plan: Plan, layout: Layout, engine: Engine
    ) -> None:
        self.request = request
        self.reach = reach
        self.plan = plan
        self.layers: Layers = plan.layers
        self.layout = layout
        self.engine = engine
        self.checks: list[DoublesJob] = []  # of ids that stand twice, which are still to be done

    def joined(self, are_checked: bool) -> Joined:
        """Joins both layers; meanwhile it is looked for ids that stand twice, unless it was."""
        for side in SIDES:
            save_array(self.layout.firsts(side), self.layers[side].firsts)
            save_files(self.layout, side, self.layers[side].files)
            if not are_checked:
                self.checks += doubles_jobs(self.layout, self.layers[side])
        condition = self.request.condition
        if condition.is_nearest and condition.distance is None:
            return self.join_in_rounds()
        all_features = Round(0, self.layout, condition, self.reach, self.choices())
        if self.request.tiles is None and self.plan.takes_right_whole:
            runs = self.join_blocks(all_features)
            return Joined(0, self.counts(), runs, [0] * len(runs))
        return self.join_by_tiles(all_features)

    def counts(self) -> dict[Side, int]:
        """How many features of each side are joined."""
        return {side: self.layers[side].rows - self.layers[side].deleted for side in SIDES}

    def join_by_tiles(self, this: Round) -> Joined:
        tiles = self.make_tiles(this)
        dealt = self.deal(this)
        runs = self.join_tiles(this, tiles, dealt)
        sums = {side: int(dealt[side].features.sum()) for side in SIDES}
        return Joined(tiles.count, sums, runs, [this.number] * len(runs))

    def make_tiles(self, this: Round) -> Tiles:
        left, right = (self.layers[side].sample(this.reach.growth) for side in SIDES)
        with self.engine.phase("tiles"):
            tiles = make_tiles(left, right, self.plan.tiles(self.request.tiles))
            save_array(this.layout.tiles(), tiles.nodes)
        return tiles

    def cargo(self, side: Side) -> Cargo:
        """Only ids of the right side travel with the pairs: those of the left one are read in the
        end.
        """
        width = self.layers.right.id_width if side is Side.RIGHT else 0
        return Cargo(width, self.request.has_texts)

    def beside_checks(self, name: str, works: Sequence[Work]) -> list[Any]:
        """The results of tasks, beside which it is looked for ids that stand twice, if that is
        still to be done. It ends the join by the first of them.
        """
        checks, self.checks = self.checks, []
        found = self.engine.all_of(name, [*works_of("checking", first_double, checks), *works])
        check_doubles(self.layers.by_side, checks, found[:len(checks)])
        return found[len(checks):]

    def deal(self, this: Round) -> dict[Side, Dealt]:
        """Deals the features of both sides, and answers what each tile got."""
        jobs = [job for side in SIDES for job in self.deal_jobs(this, side)]
        step = this.step("dealing")
        loads = list(map(self.load, jobs))
        dealt = self.beside_checks(step, works_of(step, deal_blocks, jobs, loads))
        return {
            side: save_ends(
                this.layout, side, [each for job, each in zip(jobs, dealt) if job.side is side]
            )
            for side in SIDES
        }

    def deal_jobs(self, this: Round, side: Side) -> list[DealJob]:
        layer, choice = self.layers[side], this.choices[side]
        groups = ranges(len(layer.blocks), self.plan.blocks_of_group(layer))
        return [
            DealJob(
                this.layout,
                side,
                tuple(layer.files[group.begin:group.end]) if self.request.has_texts else (),
                number,
                group.begin,
                group.end,
                self.cargo(side),
                this.reach.growth,
                choice.within(group.begin, group.end),
            )
            for number, group in enumerate(groups)
        ]

    def load(self, job: DealJob) -> float:
        """How much a group of blocks has: the greatest ones are dealt first."""
        blocks = self.layers[job.side].blocks
        return float(sum(block.rows for block in blocks[job.first:job.behind]))

    def run_job(self, this: Round, number: int, tile: int, left: Range, right: Range) -> RunJob:
        """A run of features of a tile, or of all of the plane."""
        layers, request = self.layers, self.request
        return RunJob(
            this.layout,
            request.program,
            this.condition,
            this.reach,
            None if request.has_texts else layers.numerals,
            {side: self.cargo(side) for side in SIDES},
            this.first_run + number,
            tile,
            PLANE,
            left,
            right,
            layers.right.rows,
        )

    def join_tiles(self, this: Round, tiles: Tiles, dealt: dict[Side, Dealt]) -> list[RunDone]:
        """Joins each tile in one run, or each part of its left list with each of its right one."""
        parts = [
            (tile, ones, others)
            for tile in range(tiles.count)
            for ones in self.parts(this, Side.LEFT, tile, dealt[Side.LEFT])
            for others in self.parts(this, Side.RIGHT, tile, dealt[Side.RIGHT])
        ]
        regions = tiles.regions()
        jobs = [
            replace(self.run_job(this, number, tile, ones, others), region=regions[tile])
            for number, (tile, ones, others) in enumerate(parts)
        ]
        loads = [self.run_load(job, dealt) for job in jobs]
        return self.engine.all(this.step("joining"), join_tile, jobs, loads)

    def run_load(self, job: RunJob, dealt: dict[Side, Dealt]) -> float:
        """How much a run has: the greatest ones begin first, so that none is waited for alone."""
        load = 0.0
        for side, some in ((Side.LEFT, job.left), (Side.RIGHT, job.right)):
            features = some.end - some.begin
            of_tile = int(dealt[side].features[job.tile])
            if self.request.has_texts and of_tile:
                load += float(dealt[side].bytes[job.tile]) * features / of_tile
            else:
                load += features
        return load

    def parts(self, this: Round, side: Side, tile: int, dealt: Dealt) -> list[Range]:
        """The features of a tile, in parts that a run takes."""
        features = int(dealt.features[tile])
        if self.request.has_texts and dealt.bytes[tile] > MOST_RECORDS_BYTES:
            lengths = load_lengths(this.layout, side, tile, features, self.cargo(side))
            return list(ranges_of_records(lengths))
        return ranges(features, self.plan.most_features)

    def join_blocks(self, this: Round) -> list[RunDone]:
        """Joins each block of the left layer with the whole right one, which lies in no tile."""
        whole = Range(0, self.layers.right.rows)
        jobs = [
            replace(
                self.run_job(this, number, 0, some, whole),
                source=Source.LAYERS,
                choices={**this.choices, Side.LEFT: self.choice_of(this, Side.LEFT, some)},
            )
            for number, some in enumerate(self.plan.parts_of_blocks(self.layers.left))
        ]
        loads = [float(job.left.end - job.left.begin) for job in jobs]
        return self.beside_checks("joining", works_of("joining", join_tile, jobs, loads))

    def choice_of(self, this: Round, side: Side, some: Range) -> Choice:
        """What is joined of the features of one block."""
        block = int(np.searchsorted(self.layers[side].firsts, some.begin, side="right")) - 1
        return this.choices[side].within(block, block + 1)

    def join_in_rounds(self) -> Joined:
        """Finds nearest features however far away. Each round has a greater distance than the one
        before, and the left features that had too few right ones within that; the last has none.
        """
        condition, left, right = self.request.condition, self.layers.left, self.layers.right
        samples = (left.sample(0), right.sample(0))
        most = max(1, min(condition.most, right.rows))
        greatest = self.request.program.reading.limits.distance
        distance = first_distance(*samples, most, greatest)
        this = Round(1, self.layout.of_round(1), condition, self.reach, self.choices())
        tiles, dealt = 0, self.counts()
        waiting, runs, rounds = dealt[Side.LEFT], list[RunDone](), list[int]()
        while waiting > FEW and right.rows and distance < greatest:
            done = self.join_by_tiles(self.within(this, distance))
            runs += done.runs
            rounds += done.rounds
            tiles, dealt = max(tiles, done.tiles), done.dealt if this.number == 1 else dealt
            waiting, choice = self.count(this, done.runs, most)
            choices = {**this.choices, Side.LEFT: choice}
            following = this.number + 1
            same = (self.layout.of_round(following), condition, self.reach, choices)
            this = Round(following, *same, len(runs))
            distance *= WIDER
        last = self.join_last(this) if waiting and right.rows else []
        if self.checks:
            self.beside_checks("checking", [])
        rounds = [*rounds, *[this.number] * len(last)]
        save_array(self.layout.run_rounds(), np.array(rounds, dtype=np.int64))
        return Joined(tiles, dealt, [*runs, *last], rounds)

    def choices(self) -> dict[Side, Choice]:
        return {side: self.layers[side].choice for side in SIDES}

    def within(self, this: Round, units: int) -> Round:
        """A round with a greatest distance."""
        condition = within(this.condition, units, int(self.request.program.reading.scale))
        return replace(this, condition=condition, reach=reach_within(this.reach, units))

    def count(self, this: Round, runs: Sequence[RunDone], most: int) -> tuple[int, Choice]:
        """How many left features have fewer right ones than are sought, and which."""
        left, right = self.layers.left, self.layers.right
        save_blocks(this.layout, runs, left.firsts, right.rows)
        request = self.request
        search = Search(this.layout, request.program, this.condition, this.reach, right.rows)
        same = (right.rows, right.id_width, b"", this.first_run)
        jobs = [
            CountJob(
                PartJob(this.layout, this.reach, search, block, *same),
                this.choices[Side.LEFT].within(block, block + 1),
                most,
            )
            for block in range(len(left.blocks))
        ]
        found = self.engine.all(this.step("counting"), count_found, jobs)
        return sum(found), Choice(this.number + 1, frozenset(range(len(left.blocks))))

    def join_last(self, this: Round) -> list[RunDone]:
        """Joins the left features that are left with all parts of the right layer."""
        numbers = save_last(self.layout, this.choices[Side.LEFT], self.layers.left.firsts)
        lengths = record_places(self.layout, Side.LEFT, numbers).lengths()
        parts = [
            (ones, others)
            for ones in ranges_of_records(lengths)
            for others in self.right_parts()
        ]
        jobs = [
            replace(
                self.run_job(this, number, 0, ones, others),
                source=Source.LAST,
                choices={Side.RIGHT: self.choice_of(this, Side.RIGHT, others)},
            )
            for number, (ones, others) in enumerate(parts)
        ]
        loads = [float(job.right.end - job.right.begin) for job in jobs]
        step = this.step("joining")
        return self.beside_checks(step, works_of(step, join_tile, jobs, loads))

    def right_parts(self) -> Iterator[Range]:
        """The features of each block of the right layer, in parts that a run takes."""
        layer = self.layers.right
        for block, read in enumerate(layer.blocks):
            first, rows = int(layer.firsts[block]), read.rows
            if read.bytes + WORD * rows <= MOST_RECORDS_BYTES:
                parts: Iterator[Range] = iter(ranges(rows, self.plan.most_features))
            else:
                numbers = np.arange(first, first + rows)
                lengths = record_places(self.layout, Side.RIGHT, numbers).lengths()
                parts = ranges_of_records(lengths)
            for part in parts:
                yield Range(first + part.begin, first + part.end)


def doubles_jobs(layout: Layout, layer: Layer) -> list[DoublesJob]:
    parts = min(SHARES, 1 + layer.rows // HASHES_PER_TASK)
    return [DoublesJob(layout, layer.side, part, parts) for part in range(parts)]


def check_doubles(
    layers: Mapping[Side, Layer], jobs: Sequence[DoublesJob], found: Sequence[Optional[int]]
) -> None:
    """Ends the join by the first fault, of the left layer or else of the right one: an id that
    stands twice, or what ended the reading.
    """
    for side, layer in layers.items():
        if not layer.blocks:
            continue
        doubles = [number for job, number in zip(jobs, found) if job.side is side]
        rows = [layer.row_of(number) for number in doubles if number is not None]
        faults = [layer.located(RowFault(row, "id is already there")) for row in rows]
        faults += [fault for fault in [layer.fault] if fault is not None]
        if faults:
            raise fault_line(side, min(faults, key=lambda fault: fault.order))


def fault_line(side: Side, located: Located) -> ProgramFault:
    fault = located.fault
    row = f"row {fault.row}: " if fault.row else ""
    hint = f"\n{fault.hint}" if fault.hint else ""
    return ProgramFault(f"{fault.teller}: {side.value}: {row}{fault.text}{located.place}{hint}")
