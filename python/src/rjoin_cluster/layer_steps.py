"""The commands of one layer: each block is read and answered by itself, and the answers are put one
behind the other, or added.
"""
from __future__ import annotations

from dataclasses import dataclass, replace
from typing import Any, Iterable, Sequence

import numpy as np

from rjoin_cluster.blocks import BlockRead, ReadJob, keep
from rjoin_cluster.commands import BOUNDS, STATS
from rjoin_cluster.doubles import first_double
from rjoin_cluster.edits import NOBODY
from rjoin_cluster.faults import RunFailed
from rjoin_cluster.joining import check_doubles, doubles_jobs
from rjoin_cluster.layers import Layer
from rjoin_cluster.layout import save_array, save_bytes
from rjoin_cluster.merge import PartDone
from rjoin_cluster.outputs import Outputs, Report
from rjoin_cluster.parts import features_of
from rjoin_cluster.placing import Chunks, place_chunk
from rjoin_cluster.records import Bytes
from rjoin_cluster.sides import Side
from rjoin_cluster.steps import Steps, in_all

HEADERS = {BOUNDS: b"id,x1,y1,x2,y2\n"}
WINDOW_HEADER = b"id\n"
HEIGHT = "height"
MOST_OF_NODE = 8  # how many entries a node of the program's R-tree has at most


@dataclass(frozen=True)
class AnswerJob:
    """A block of a layer that is to be answered by a command."""

    read: ReadJob
    words: tuple[str, ...]

    def __str__(self) -> str:
        return str(self.read)


@dataclass(frozen=True)
class Answered:
    """What was read of a block, and its answer: a part of the report, or counts by their words."""

    read: BlockRead
    part: PartDone
    counts: dict[str, int]


def answer_block(job: AnswerJob) -> Answered:
    """Reads a block, keeps its ids, and answers the command for it."""
    block, layout = job.read.block, job.read.layout
    text = block.read()
    read = features_of(job.read.program, block.before(), text, False, job.words)
    keep(layout, block, read.features)
    boxes = read.features.boxes
    told = BlockRead(
        block.size, len(boxes), read.features.ids.shape[1], 0, False, boxes[:0], read.skipped,
        read.improper, read.fault, NOBODY,
    )
    if read.fault is not None:
        return Answered(told, PartDone(0, 0), {})
    if job.words[0] == STATS:
        return Answered(told, PartDone(0, 0), added(map(counts_of, read.answers)))
    rows = [below_header(answer) for answer in read.answers]
    save_bytes(layout.report_part(block.number), [row.tobytes() for row in rows])
    lines = sum(int(np.count_nonzero(row == ord("\n"))) for row in rows)
    return Answered(told, PartDone(lines, sum(row.size for row in rows)), {})


def below_header(answer: Bytes) -> Bytes:
    """An answer without its first line."""
    end = np.flatnonzero(answer[:64] == ord("\n"))
    if not end.size:
        raise RunFailed("an answer without a header")
    rest: Bytes = answer[int(end[0]) + 1:]
    return rest


def counts_of(answer: Bytes) -> dict[str, int]:
    """The counts of an answer, each a line of a word and a number."""
    lines = answer.tobytes().decode().splitlines()
    return {word: int(count) for word, count in (line.split(" ") for line in lines)}


def added(counts: Iterable[dict[str, int]]) -> dict[str, int]:
    """The sums of counts, in the order of their words."""
    sums: dict[str, int] = {}
    for each in counts:
        for word, count in each.items():
            sums[word] = sums.get(word, 0) + count
    return sums


def height_of(features: int) -> int:
    """The height of the tree that is packed from so many features: the least number of levels that
    have room for them.
    """
    height, room = 0, 1
    while features and (room < features or height == 0):
        height, room = height + 1, room * MOST_OF_NODE
    return height


class LayerSteps(Steps):
    """The steps of a command of one layer."""

    def report_into(self, outputs: Outputs) -> dict[str, Any]:
        """Writes the report, and answers the figures of the command."""
        self.settle()
        jobs = [
            AnswerJob(replace(job, share=0.0), self.request.condition.words_of_command)
            for job in self.cut()
        ]
        answered = self.answer(jobs)
        files = [job.read.block.file for job in jobs[:len(answered)]]
        layer = Layer(Side.ONLY, [each.read for each in answered], files)
        save_array(self.layout.firsts(Side.ONLY), layer.firsts)
        checks = doubles_jobs(self.layout, layer)
        found = self.engine.all("checking", first_double, checks)
        check_doubles({Side.ONLY: layer}, checks, found)
        written = PartDone(0, 0)
        if outputs.report is not None:
            written = self.written(layer, answered, outputs.report)
        figures = self.layer_figures(layer, 0)
        del figures["dealt"]
        return {
            Side.ONLY.value: figures,
            "rows": written.pairs,
            "report_bytes": written.bytes,
            "seconds": self.engine.seconds,
        }

    def answer(self, jobs: Sequence[AnswerJob]) -> list[Answered]:
        """The answers of all blocks, or of those up to the first fault."""
        answered: dict[int, Answered] = {}
        behind = len(jobs)
        with self.engine.phase("reading"):
            tasks = self.engine.each("reading", answer_block, jobs)
            for number, block in tasks:
                answered[number] = block
                if block.read.fault is not None and number < behind:
                    behind = number + 1
                    tasks.drop(range(behind, len(jobs)))
        return [answered[number] for number in range(behind)]

    def written(self, layer: Layer, answered: Sequence[Answered], report: Report) -> PartDone:
        """Writes the report of a layer that has no fault."""
        command = self.request.condition.command
        if command == STATS:
            counts = {**added(each.counts for each in answered), HEIGHT: height_of(layer.rows)}
            text = "".join(f"{word} {count}\n" for word, count in counts.items()).encode()
            report.write(text)
            return PartDone(len(counts), len(text))
        header = HEADERS.get(command, WINDOW_HEADER)
        if self.layout.is_remote:
            return self.fetched(header, [each.part for each in answered], report)
        self.begin_report(header)
        chunks = Chunks(self.layout, len(header))
        sizes = [each.part.bytes for each in answered]
        jobs = [job for part, size in enumerate(sizes) for job in chunks.add(part, size)]
        self.engine.all("writing", place_chunk, [*jobs, *chunks.rest()])
        report.take(self.layout.report())
        whole = in_all([each.part for each in answered])
        return whole._replace(bytes=whole.bytes + len(header))
