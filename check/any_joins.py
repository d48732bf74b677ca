#!/usr/bin/env python3
"""Compares joins of layers of any geometry with those that plain_joins.py computes, of boxes with those of boxes, and
joins of boxes by distance and their nearest features with those that plain_distances.py computes.

    check/any_joins.py [PROGRAM]            a hundred small joins, all of them by 1, 2, 4 and 16 workers, with a window,
                                            and as many by distance
    check/any_joins.py --joins 1000         so many
    check/any_joins.py --boxes 100000       also layers of so many boxes

The plain answers are first compared with those of check/runs. Then each report has to be the plain one, byte for byte,
also of a join by distance and of nearest features, as have the bounds of the left layer and its features in a window.
Masks that fit for disjoint geometries have to be refused, and of ten kinds of layers of boxes the reports under
`--geometry any` have to be those under `--geometry box`, and those of `near` and `nearest` by 1, 2, 4 and 16 workers
and under `--geometry any` the plain ones. Each difference is written, and the last line counts; the status is 1 where
some differ.
"""
import argparse
import random
import re
import subprocess
import sys
import tempfile
from collections.abc import Iterator
from itertools import chain, product
from pathlib import Path

import any_layers
import box_layers
import plain_distances
import plain_joins
import stored_runs
from any_layers import NAMES, Join
from geometry_distances import rounded_root, square_of
from plain_joins import ROOT

JOIN = ("join", "left.csv", "right.csv", "--relation")
PROGRAM = ROOT / "crates/rjoin/out/rjoin"
SECONDS = 600
WORKERS = (1, 2, 4, 16)
FEW_BOXES = 60
MANY_BOXES = 1000
# What a join writes in place of its report.
OUTPUTS = (["--pairs"], ["--first"], ["--first", "--pairs"], ["--count"], ["--unmatched"])
# What is asked of few boxes by their distances.
DISTANCES = ("near --distance 3", "near --distance 7 --apart", "nearest", "nearest --most 3", "nearest --distance 0",
             "nearest --most 4294967295 --distance 6")
# The commands whose answers plain_joins.py and plain_distances.py compute.
PLAIN = {"join": plain_joins.answer, "window": plain_joins.answer, "bounds": plain_joins.answer,
         "near": plain_joins.answer, "nearest": plain_distances.answer}
# The greatest distance that a join of any geometry may ask for, in units.
FARTHEST = 4 * 10 ** 18
ALLOWS_DISJOINT = b"rjoin: --relation: disjoint features may fit\n"
# What is said of layers that have rows with improper rings, read by the even-odd rule.
IMPROPER = re.compile(
    rb"rjoin: (left|right|layer): even-odd rule for \d+ features? with improper rings: rows? [\d, ]+\n")
# Masks that fit the matrix of two disjoint geometries, and by which rule of rings: closed lines have no boundary, and
# flat areas no interior. The last one fits for flat areas alone.
REFUSED = (("FF*FF****", "proper"), ("**T******", "proper"), ("FF1FFF***", "proper"), ("FF2FF1*F2", "proper"),
           ("FFFFF1***", "even-odd"), ("*********", "even-odd"))
TAKEN = (("FFFFF1***", "proper"), ("FF1FF1F*2", "even-odd"), ("T********", "proper"))


class Tally:
    """How many comparisons there were, and how many failed."""

    def __init__(self) -> None:
        self.passed = 0
        self.failed = 0

    def add(self, name: str, why: str | None) -> None:
        if why is None:
            self.passed += 1
        else:
            self.failed += 1
            print(f"{name}: {why}", flush=True)


Ended = subprocess.CompletedProcess[bytes]


def ran(program: Path, files: dict[str, bytes], words: list[str]) -> Ended:
    """Runs a command beside these files."""
    with tempfile.TemporaryDirectory(prefix="any-joins-") as room:
        for name, content in files.items():
            (Path(room) / name).write_bytes(content)
        return subprocess.run([program, *words], cwd=room, capture_output=True, timeout=SECONDS, check=False)


def parted(found: bytes, awaited: bytes) -> str | None:
    """The first line in which two reports differ."""
    if found == awaited:
        return None
    lines, wanted = found.split(b"\n"), awaited.split(b"\n")
    at = next((i for i, (a, b) in enumerate(zip(lines, wanted)) if a != b), min(len(lines), len(wanted)) - 1)
    return f"line {at + 1} is {lines[at]!r}, and not {wanted[at]!r}"


def wrong(ended: Ended, awaited: bytes) -> str | None:
    """What is wrong with a run that has to write this."""
    said = IMPROPER.sub(b"", ended.stderr) if "even-odd" in ended.args else ended.stderr
    if ended.returncode != 0 or said:
        return f"status {ended.returncode}: {ended.stderr.decode(errors='replace').strip()}"
    return parted(ended.stdout, awaited)


def stored() -> Iterator[tuple[str, str | None]]:
    """The plain answers for the runs whose answers were written by hand."""
    for run in stored_runs.stored():
        # The plain programs read whole layers; stored_runs.py compares runs that leave rows out.
        reads_all = not any(word.startswith("--skip") for word in run.words)
        if run.words[0] in PLAIN and reads_all and not run.status:
            # plain_distances.py reads boxes alone.
            plain = plain_joins.answer if "any" in run.words else PLAIN[run.words[0]]
            report = plain(run.words, {**run.files, "-": run.stdin}.__getitem__)
            yield run.name, parted(report, run.stdout)


def reading_of(join: Join) -> list[str]:
    """The options for the texts of a join's files."""
    return ["--geometry", "any", "--rings", join.rings, "--scale", str(join.digits)]


def words_of(join: Join, workers: int, source: random.Random) -> list[str]:
    """The words of a join by some workers, with a batch and a cut."""
    edits = ["--edits", "edits.csv"] if "edits.csv" in join.files else []
    batch, cut = source.choice((1, 2, 256, 4096)), source.randrange(9)
    return [*JOIN, join.relation, *edits, *reading_of(join), "--workers", str(workers), "--batch", str(batch),
            "--cut", str(cut)]


def small_joins(program: Path, count: int) -> Iterator[tuple[str, str | None]]:
    """Small joins by the program beside the plain ones."""
    for number in range(count):
        join, source = any_layers.join_of(number), random.Random(number)
        awaited = plain_joins.answer(words_of(join, WORKERS[0], source), join.files.__getitem__)
        for output in OUTPUTS:
            other = [*words_of(join, source.choice(WORKERS), source), *output]
            plain = plain_joins.answer(other, join.files.__getitem__)
            yield f"join {number} {' '.join(output)}", wrong(ran(program, join.files, other), plain)
        for workers in WORKERS:
            words = words_of(join, workers, source)
            yield f"{join.name}: {' '.join(words)}", wrong(ran(program, join.files, words), awaited)
        for words in (["bounds", "left.csv"], ["window", "left.csv", join.window]):
            words += reading_of(join)
            awaited = plain_joins.answer(words, join.files.__getitem__)
            yield f"{join.name}: {' '.join(words)}", wrong(ran(program, join.files, words), awaited)


def distance_of(join: Join, source: random.Random) -> int:
    """A number of units that some pair of a join is apart, or one less or more."""
    left, right = (plain_joins.layer_of(join.files[f"{side}.csv"], plain_joins.Scale(join.digits))
                   for side in ("left", "right"))
    square = square_of(source.choice(list(left.values())), source.choice(list(right.values())))
    return min(max(rounded_root(square) + source.choice((-1, 0, 0, 1)), 0), FARTHEST)


def small_nears(program: Path, count: int) -> Iterator[tuple[str, str | None]]:
    """Small joins by distance, and the nearest features of small layers, by the program beside the plain ones."""
    for number in range(count):
        join, source = any_layers.join_of(number), random.Random(number)
        words = words_of(join, source.choice(WORKERS), source)
        asked = ["--distance", plain_joins.decimal_of(distance_of(join, source), join.digits)]
        layers, others = words[1:3], words[5:]
        most = ["--most", str(source.choice((1, 2, 5)))]
        for near in (["near", *layers, *asked, *others], ["near", *layers, *asked, "--apart", *others],
                     ["nearest", *layers, *most, *others], ["nearest", *layers, *most, *asked, *others]):
            awaited = plain_joins.answer(near, join.files.__getitem__)
            yield f"{join.name}: {' '.join(near)}", wrong(ran(program, join.files, near), awaited)


def masks(program: Path) -> Iterator[tuple[str, str | None]]:
    """Masks that are refused or taken by a rule of rings."""
    files = {f"{side}.csv": b"id,wkt\n" for side in ("left", "right")}
    for is_refused, asked in ((True, REFUSED), (False, TAKEN)):
        for mask, rings in asked:
            ended = ran(program, files, [*JOIN, mask, "--geometry", "any", "--rings", rings])
            awaited = (2, b"", ALLOWS_DISJOINT) if is_refused else (0, b"left,right,matrix\n", b"")
            found = (ended.returncode, ended.stdout, ended.stderr)
            yield f"{mask} by {rings} rings", None if found == awaited else f"{found}, and not {awaited}"


def boxes(program: Path, size: int, relations: tuple[str, ...]) -> Iterator[tuple[str, str | None]]:
    """Layers of boxes, joined as boxes and as any geometry."""
    for kind in box_layers.KINDS:
        files = box_layers.files_of(kind, size)
        for relation in relations:
            output = random.Random(f"{kind} {relation}").choice(OUTPUTS)
            for words in ([*JOIN, relation], [*JOIN, relation, *output]):
                one, other = (ran(program, files, [*words, "--geometry", it]) for it in ("box", "any"))
                why = wrong(one, one.stdout) or wrong(other, one.stdout)
                yield f"{size} boxes, {kind}, {' '.join(words)}", why


def distances(program: Path) -> Iterator[tuple[str, str | None]]:
    """Layers of boxes joined by distance, and the nearest features of them, beside the plain ones; all of them also as
    any geometry."""
    few = product([FEW_BOXES], box_layers.KINDS, DISTANCES)
    many = product([MANY_BOXES], ["points with points", "mixture with mixture"], ["nearest", "nearest --most 10"])
    for size, kind, asked in chain(few, many):
        files, source = box_layers.files_of(kind, size), random.Random(f"{kind} {asked}")
        digits = 0 if kind == "far with far" else source.choice((0, 2))
        command, *others = asked.split()
        words = [command, "left.csv", "right.csv", *others, "--scale", str(digits)]
        awaited = plain_distances.answer(words, files.__getitem__)
        for workers in WORKERS:
            why = wrong(ran(program, files, [*words, "--workers", str(workers)]), awaited)
            yield f"{size} boxes, {kind}, {asked} by {workers}", why
        why = wrong(ran(program, files, [*words, "--geometry", "any"]), awaited)
        yield f"{size} boxes, {kind}, {asked} as any geometry", why


def parts(options: argparse.Namespace) -> Iterator[tuple[str, str | None]]:
    """All comparisons: a name each, and what is wrong."""
    yield from stored()
    yield from masks(options.program)
    yield from boxes(options.program, FEW_BOXES, NAMES)
    yield from distances(options.program)
    yield from small_joins(options.program, options.joins)
    yield from small_nears(options.program, options.joins)
    if options.boxes:
        yield from boxes(options.program, options.boxes, ("intersects", "touches"))


def main(words: list[str]) -> int:
    parser = argparse.ArgumentParser(description=__doc__, formatter_class=argparse.RawDescriptionHelpFormatter)
    parser.add_argument("program", type=Path, nargs="?", default=PROGRAM)
    parser.add_argument("--joins", type=int, default=100, help="how many small joins")
    parser.add_argument("--boxes", type=int, default=0, help="features of large layers of boxes")
    options = parser.parse_args(words)
    options.program = options.program.resolve()
    tally = Tally()
    for name, why in parts(options):
        tally.add(name, why)
    print(f"any joins: {tally.passed} passed, {tally.failed} failed")
    return 1 if tally.failed else 0


if __name__ == "__main__":
    sys.exit(main(sys.argv[1:]))
