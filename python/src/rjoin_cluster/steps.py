"""The steps of a join, each of which is a set of tasks, and what they leave to the next one."""
from __future__ import annotations

import hashlib
from dataclasses import replace
from itertools import groupby
from typing import Any, Mapping, Optional, Sequence

import numpy as np

from rjoin_cluster import __version__
from rjoin_cluster.blocks import (
    BlockRead,
    Extent,
    ReadJob,
    header_begin,
    read_block,
    scan_segment,
)
from rjoin_cluster.choice import Choice, save_chosen
from rjoin_cluster.conditions import Reach
from rjoin_cluster.doubles import first_double
from rjoin_cluster.edits import Changes, EditFile, changes_of, check_edits, id_fields, layer_of
from rjoin_cluster.engine import Engine, Work, works_of
from rjoin_cluster.faults import JoinFault
from rjoin_cluster.inputs import Files, Input, found
from rjoin_cluster.joining import Joining, check_doubles, doubles_jobs
from rjoin_cluster.layers import Layer, Layers
from rjoin_cluster.layout import contents_of, private, remove_file, save_array, save_bytes
from rjoin_cluster.merge import PartDone, PartJob, plan_parts, write_part
from rjoin_cluster.nearest import Search
from rjoin_cluster.outputs import Outputs, Piece, Report
from rjoin_cluster.parts import MOST_PART
from rjoin_cluster.placing import Chunks, Share, place_chunk
from rjoin_cluster.plan import TILE_FEATURES, Plan
from rjoin_cluster.records import block_begins
from rjoin_cluster.request import Request
from rjoin_cluster.runs import RunDone
from rjoin_cluster.sides import SIDES, Side
from rjoin_cluster.skipping import skipped_header
from rjoin_cluster.store import Store
from rjoin_cluster.sums import sum_extent, sum_of, sum_of_file

SAMPLE_BOXES = 200_000
SAMPLE_PER_TILE = 500
MOST_RANK = 2**63 - 1

# The last record of a block begins in the block's first segment. Where it goes on for longer than
# this behind that segment, as behind a quote that is never closed, no run takes it, and the rest
# of it needn't be read.
MOST_BEHIND = MOST_PART + 1


class Steps:
    """The steps of one join."""

    def __init__(
        self,
        request: Request,
        reach: Reach,
        inputs: dict[Side, Files],
        store: Store,
        engine: Engine,
        edits: Optional[EditFile] = None,
    ) -> None:
        self.request = request
        self.reach = reach
        self.inputs = inputs
        self.store = store
        self.layout = store.layout
        self.engine = engine
        self.edits = edits
        self.workers = engine.workers.count  # for which the join is planned

    def report_into(self, outputs: Outputs) -> dict[str, Any]:
        """Writes the report and the list of skipped rows, and answers the figures of the join."""
        self.settle()
        names = self.save_names()
        read = self.read(self.cut())
        self.check(read)
        layers = self.edited(read, names)
        if layers.left.rows * layers.right.rows > MOST_RANK:
            raise JoinFault(f"more than {MOST_RANK} pairs of a left and a right feature")
        plan = Plan(layers, self.workers, self.request.has_texts)
        joining = Joining(self.request, self.reach, plan, self.layout, self.engine)
        joined = joining.joined(self.edits is not None)
        if outputs.skipped is not None:
            self.list_skipped(layers, outputs.skipped)
        written = self.merge(layers, joined.runs, outputs)
        return {
            **{side.value: self.layer_figures(layers[side], joined.dealt[side]) for side in SIDES},
            "tiles": joined.tiles,
            "rounds": max(1, *joined.rounds) if joined.rounds else 1,
            "runs": len(joined.runs),
            "pairs": written.pairs,
            "report_bytes": written.bytes,
            "seconds": self.engine.seconds,
        }

    def settle(self) -> None:
        """Takes over what is there of a join that was ended."""
        if self.store.is_kept:
            self.workers = self.store.settle(self.described(), self.workers)
            self.engine.record = self.store.record

    def described(self) -> dict[str, Any]:
        """Which join this is: its options, and sums of its layers and of the program."""
        files = [file for files in self.inputs.values() for file in files]
        extents = [extent for file in files for extent in self.extents(file, 0)]
        sums = self.engine.all("summing", sum_extent, extents)
        by_side = {
            f"{side.value} layer": sum_of(
                [told for extent, told in zip(extents, sums) if extent.side is side]
            )
            for side in self.inputs
        }
        program = self.request.program
        told = {"program": sum_of_file(program.path), "version": __version__}
        if self.edits is not None:
            told["edits"] = hashlib.blake2b(self.edits.text).hexdigest()
        if len(files) > len(self.inputs):
            told["bytes of files"] = str([file.bytes for file in files])
        return {**self.request.described(), **by_side, **told}

    def layer_figures(self, layer: Layer, dealt: int) -> dict[str, Any]:
        features = {"features": layer.rows - layer.deleted, "dealt": dealt}
        files = self.inputs[layer.side]
        size, skipped = sum(file.bytes for file in files), len(layer.skipped.texts)
        rows = [layer.row_of(number) for number in layer.improper.first]
        improper = {"improper": layer.improper.features, "improper_rows": rows}
        told = {"bytes": size, "blocks": len(layer.read), "skipped": skipped}
        return {"files": len(files), **told, **features, **improper}

    def cut(self) -> list[ReadJob]:
        """The blocks of all files, those of the left layer first."""
        files = [file for files in self.inputs.values() for file in files]
        segments = [segment for file in files for segment in self.segments(file)]
        scanned = self.engine.all("cutting", scan_segment, segments)
        share = self.share_of_sample(sum(segment.line_feeds for segment in scanned))
        jobs: list[ReadJob] = []
        pairs = zip(segments, scanned)
        for file, group in groupby(pairs, lambda pair: pair[0].file):
            parts = list(group)
            first = parts[0][0].begin
            scans = [scan for _, scan in parts]
            begins = [first + begin for begin in block_begins(scans, self.request.block_bytes)]
            number = jobs[-1].block.number + 1 if jobs and jobs[-1].block.side is file.side else 0
            for begin, end in zip(begins, [*begins[1:], file.bytes]):
                behind = min(end, begin + MOST_BEHIND + self.request.block_bytes)
                block = Extent(file, number, begin, behind, begin == first)
                jobs.append(self.read_job(block, share))
                number += 1
        return jobs

    def read_job(self, block: Extent, share: float) -> ReadJob:
        request = self.request
        return ReadJob(
            self.layout,
            request.program,
            block,
            share,
            request.has_texts,
            request.skip is not None,
            self.edits is not None,
        )

    def segments(self, file: Input) -> list[Extent]:
        """Parts of a file of one length; a file without a record has one that is empty."""
        return self.extents(file, header_begin(file))

    def extents(self, file: Input, first: int) -> list[Extent]:
        """A file from a place on, in parts of one length."""
        length = self.request.block_bytes
        begins = range(first, max(file.bytes, first + 1), length)
        return [
            Extent(file, number, begin, min(file.bytes, begin + length))
            for number, begin in enumerate(begins)
        ]

    def share_of_sample(self, rows: int) -> float:
        """Which part of the features is looked at to make tiles."""
        wanted = max(SAMPLE_BOXES, SAMPLE_PER_TILE * rows // TILE_FEATURES)
        return min(1.0, wanted / max(rows, 1))

    def read(self, jobs: Sequence[ReadJob]) -> dict[Side, Layer]:
        """Reads all blocks, or those up to the first fault; the others aren't waited for."""
        blocks: dict[int, BlockRead] = {}
        behind = len(jobs)
        with self.engine.phase("reading"):
            tasks = self.engine.each("reading", read_block, jobs)
            for number, block in tasks:
                blocks[number] = block
                if block.fault is not None and number < behind:
                    behind = number + 1
                    tasks.drop(range(behind, len(jobs)))
        layers = {}
        for side in self.inputs:
            numbers = [number for number in range(behind) if jobs[number].block.side is side]
            files = [jobs[number].block.file for number in numbers]
            layers[side] = Layer(side, [blocks[number] for number in numbers], files)
        return layers

    def check(self, layers: Mapping[Side, Layer]) -> None:
        """Ends the join where a layer has a fault; an edit has one only where no layer has any."""
        sides = [side for side, layer in layers.items() if layer.blocks]
        if self.edits is None and all(layers[side].fault is None for side in sides):
            return
        for side in sides:
            save_array(self.layout.firsts(side), layers[side].firsts)
        jobs = [job for side in sides for job in doubles_jobs(self.layout, layers[side])]
        check_doubles(layers, jobs, self.engine.all("checking", first_double, jobs))

    def save_names(self) -> dict[Side, Any]:
        """Keeps the ids that edits name, which are looked for when the layers are read."""
        if self.edits is None:
            return {}
        names = {
            side: id_fields(self.request.program, self.edits.names(side)) for side in SIDES
        }
        for side in SIDES:
            save_array(self.layout.named(side), names[side])
        return names

    def edited(self, layers: Mapping[Side, Layer], names: Mapping[Side, Any]) -> Layers:
        """The layers after the edits, which are judged when both have no fault."""
        if self.edits is None:
            return Layers(*(layers[side] for side in SIDES))
        if self.edits.fault is not None:
            raise self.edits.fault
        held = {side: layers[side].named for side in SIDES}
        check_edits(self.request.program, self.edits, names, held)
        changes = {side: changes_of(self.edits, side, held[side]) for side in SIDES}
        left, right = (self.without(layers[side], changes[side]) for side in SIDES)
        return self.with_inserted(Layers(left, right), changes, names)

    def without(self, layer: Layer, changes: Changes) -> Layer:
        """A layer without the features that edits have deleted."""
        firsts = layer.firsts
        borders = np.searchsorted(changes.deleted, firsts)
        blocks = np.flatnonzero(np.diff(borders)).tolist()
        for block in blocks:
            rows = changes.deleted[borders[block]:borders[block + 1]] - firsts[block]
            kept = np.delete(np.arange(layer.blocks[block].rows), rows)
            save_chosen(self.layout, layer.side, block, 0, kept)
        choice = Choice(0, frozenset(blocks))
        return replace(layer, deleted=changes.deleted.size, choice=choice)

    def with_inserted(
        self, layers: Layers, changes: Mapping[Side, Changes], names: Mapping[Side, Any]
    ) -> Layers:
        """The layers with the features that edits have inserted, as the last block of each."""
        jobs = []
        for side in SIDES:
            path = self.layout.inserted(side)
            save_bytes(path, layer_of(names[side], changes[side].inserted))
            file = found(side, str(path))
            block = Extent(file, len(layers[side].blocks), 0, file.bytes, True)
            job = self.read_job(block, 1.0)
            jobs.append(replace(job, skips=False, has_edits=False))
        read = self.engine.all("editing", read_block, jobs)
        both = []
        for job, inserted in zip(jobs, read):
            layer = layers[job.block.side]
            if inserted.fault is not None:
                raise JoinFault(f"edits: {inserted.fault.text}")
            blocks, files = [*layer.blocks, inserted], [*layer.files, job.block.file]
            both.append(replace(layer, blocks=blocks, files=files, has_inserted=True))
        return Layers(*both)

    def list_skipped(self, layers: Layers, report: Report) -> None:
        report.write(skipped_header(self.request.program))
        for side in SIDES:
            skipped = layers[side].skipped
            for row, text in zip(skipped.rows.tolist(), skipped.texts):
                report.write(f"{side.value},{row}".encode() + text)

    def merge(self, layers: Layers, runs: Sequence[RunDone], outputs: Outputs) -> PartDone:
        """Writes the report, and answers what is in it."""
        with self.engine.phase("merging"):
            count = plan_parts(self.layout, runs, self.workers)
        right, header = layers.right, self.reach.header
        same = (self.layout, self.reach, self.search(right))
        before = header if outputs.files is not None else b""
        jobs = [PartJob(*same, part, right.rows, right.id_width, before) for part in range(count)]
        if outputs.report is not None and not self.layout.is_remote:
            return self.merge_in_place(jobs, outputs.report)
        done = self.engine.all("merging", write_part, jobs)
        if outputs.report is not None:
            return self.fetched(header, done, outputs.report)
        with self.engine.phase("writing"):
            if outputs.files is not None:
                paths = [self.layout.report_part(job.number) for job in jobs]
                pieces = [Piece(path, *part) for path, part in zip(paths, done)]
                outputs.files.take(pieces, header.decode().rstrip("\n").split(","))
        return in_all(done)

    def fetched(self, header: bytes, parts: Sequence[PartDone], report: Report) -> PartDone:
        """Writes a report whose parts lie at URLs, where no file is written by several tasks."""
        with self.engine.phase("writing"):
            report.write(header)
            for number in range(len(parts)):
                report.write(contents_of(self.layout.report_part(number)))
                remove_file(self.layout.report_part(number))
        whole = in_all(parts)
        return whole._replace(bytes=whole.bytes + len(header))

    def merge_in_place(self, jobs: Sequence[PartJob], report: Report) -> PartDone:
        """Makes the parts of a report, and has them copied to their places as soon as these are
        known.
        """
        header = self.reach.header
        with self.engine.phase("merging"):
            self.begin_report(header)
            done = self.merged(jobs, Chunks(self.layout, len(header)))
        with self.engine.phase("writing"):
            report.take(self.layout.report())
        whole = in_all(done)
        return whole._replace(bytes=whole.bytes + len(header))

    def begin_report(self, header: bytes) -> None:
        """Makes the file that the workers fill, unless they have begun it before."""
        with open(self.layout.report(), "ab", opener=private):
            pass
        with open(self.layout.report(), "r+b", opener=private) as file:
            file.write(header)

    def merged(self, jobs: Sequence[PartJob], chunks: Chunks) -> list[PartDone]:
        """What is in each part, once all of them are in the report. A part goes when no chunk needs
        it any more.
        """
        tasks = self.engine.tasks("merging", works_of("merging", write_part, jobs))
        done: dict[int, PartDone] = {}
        needed: dict[int, int] = {}  # by how many chunks each part is
        placed = following = 0
        for number, result in tasks:
            work = tasks.works[number]
            if work.task is write_part:
                done[work.number] = result
                while following in done:
                    ready = list(chunks.add(following, done[following].bytes))
                    following += 1
                    ready += chunks.rest() if following == len(jobs) else ()
                    for job in ready:
                        for share in job.shares:
                            needed[share.part] = needed.get(share.part, 0) + 1
                        tasks.add(Work("writing", placed, place_chunk, job))
                        placed += 1
            else:
                self.drop_parts(work.job.shares, needed, chunks)
        return [done[job.number] for job in jobs]

    def drop_parts(self, shares: Sequence[Share], needed: dict[int, int], chunks: Chunks) -> None:
        """Removes the parts of the report whose bytes are all in their places."""
        waiting = {share.part for share in chunks.shares}
        for share in shares:
            needed[share.part] -= 1
            if needed[share.part] == 0 and share.part not in waiting:
                remove_file(self.layout.report_part(share.part))

    def search(self, right: Layer) -> Optional[Search]:
        request = self.request
        if not request.condition.is_nearest:
            return None
        widens = request.condition.distance is None
        same = (self.layout, request.program, request.condition, self.reach)
        return Search(*same, right.rows, widens)


def in_all(parts: Sequence[PartDone]) -> PartDone:
    """What is in all parts of a report together."""
    return PartDone(sum(part.pairs for part in parts), sum(part.bytes for part in parts))
