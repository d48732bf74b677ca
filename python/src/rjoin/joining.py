"""Runs the program over two inputs, or one, in a folder that goes when the run has ended."""
from __future__ import annotations

import io
import re
import warnings
from contextlib import contextmanager
from copy import copy
from itertools import chain
from pathlib import Path
from typing import TYPE_CHECKING, Any, Callable, Dict, Iterator, List, Mapping, NamedTuple
from typing import Optional, Sequence, Tuple, TypeVar, Union
from xml.sax.saxutils import escape

import numpy as np
import pandas

from rjoin import program, reports, signals
from rjoin.decimals import Scale
from rjoin.errors import EnvelopeWarning, ImproperRingsWarning, InputError, LeftOutWarning
from rjoin.errors import Notice, RjoinError
from rjoin.frames import NOBODY
from rjoin.lengths import Length, Measure
from rjoin.limits import ANY, BOXES, Limits
from rjoin.sources import NO_BOX, Flags, GeometrySource, Rows, Rules, Source, TextSource
from rjoin.sources import single_source, source_of
from rjoin.texts import NO_TEXT

if TYPE_CHECKING:
    from rjoin.calls import Workers

# What the program says of a number that is finer or greater than it reads.
NUMBER = "number not whole or out of range"
TOO_LONG = ("file is too long", "layer is full")
# Where envelopes don't stand in one of these, the features don't.
BY_ENVELOPES = ("intersects", "dwithin")
TITLE = re.compile(r"<title>(\d+)</title>")
RIGHT_HALF = '<g class="right">'
LETTERS = re.compile(rb"([F012]{9})\n")
BOX_COUNTS = ("features", "points", "segments", "rectangles", "height")
ANY_COUNTS = ("features", "points", "lines", "areas", "vertices", "height")
# The faults of rings that the even-odd rule reads; a line without length has one of them too.
NOT_PROPER = ("rings cross or overlap",
              "a line without length, or a ring that is not closed or is flat")
IMPROPER = "rings cross, overlap or are flat"
BY_EVEN_ODD = re.compile(r"rjoin: (first|second): even-odd rule for improper rings")
# The rows of a layer that have such rings: how many, and the first of them.
IMPROPER_ROWS = re.compile(r"rjoin: (left|right|layer): even-odd rule for (\d+) features? "
                           r"with improper rings: rows? (\d+(?:, \d+)*)")
# The last columns of reports by their types; one with PAIRS has none.
MATRIX = {"matrix": "category"}
DISTANCE = {"distance": "int64"}
PAIRS = "--pairs"
# A word of a command line has fewer bytes on Linux (MAX_ARG_STRLEN).
MOST_WORD = 131_072
TRIAL_BYTES = 1 << 20

Single = Union[GeometrySource, TextSource]
Numbers = Union[Source, Length]
Answer = TypeVar("Answer")


class Reading(NamedTuple):
    """How the numbers and the rings of all inputs are read.

    scale: the decimals that numbers may have; decimals: those that they are rounded to, or `auto`;
    None for both is as many as all need. rings: `proper` or `even-odd`.
    """

    scale: Optional[int]
    decimals: Union[int, str, None]
    rings: str

    @property
    def rounds(self) -> bool:
        return self.decimals is not None


class Job:
    """The layers of a run and geometries beside them, and how the program is to read them.

    widened: the program is to read any geometry, since a source has more than boxes, or numbers or
    files that it reads only so; texts and rounded boxes show it only when it reads them.
    overlooked: the inputs whose rings the even-odd rule reads, by their sides, as warnings describe
    them.
    """

    def __init__(self, sources: Sequence[Source], reading: Reading,
                 geometries: Sequence[Single] = (), measure: Optional[Measure] = None) -> None:
        self.sources = [source.reread() or source if source.has_binary else source
                        for source in sources]
        self.reading = reading
        self.geometries = geometries
        self.measure = measure
        self.overlooked: Dict[str, str] = {}
        self.settle()

    def settle(self, widened: bool = False) -> None:
        """Finds the scale that all inputs have in common, and whether they are read as boxes.

        widened: it is known that they aren't.
        """
        is_fine = self.measure is not None and self.measure.is_fine
        limits = ANY if widened or any(source.needs_any for source in self.numbers) else BOXES
        self.scale = scale_of(self.numbers, self.reading, limits, is_fine)
        if limits == BOXES and not self.are_boxes():
            limits = ANY
            self.scale = scale_of(self.numbers, self.reading, limits, is_fine)
        self.widened = limits == ANY
        for source in self.sources:
            source.leave_out_dots(self.scale)
        while self.scale.extra and not all(source.fits(self.scale, limits)
                                           for source in self.sources):
            self.scale = self.scale._replace(extra=self.scale.extra - 1)

    @property
    def numbers(self) -> List[Numbers]:
        """All that has numbers."""
        lengths = self.measure.lengths if self.measure else []
        return [*self.sources, *self.geometries, *lengths]

    def are_boxes(self) -> bool:
        """Whether the program may read the inputs as boxes at the scale: no number is rounded then
        by `auto`, which has more decimals for other geometries.
        """
        scale = self.scale.without_extra
        most = BOXES.greatest(scale.decimals)
        return (scale.decimals <= BOXES.decimals
                and not (is_auto(self.reading) and self.has_more_decimals())
                and all(source.greatest() <= most for source in self.numbers
                        if source.may_count_units))

    def has_more_decimals(self) -> bool:
        """Whether a number has more decimals than the scale."""
        return any(source.has_more(self.scale.decimals) for source in self.numbers)

    def frame(self, place: int) -> GeometrySource:
        """An input that is a frame."""
        source = self.sources[place]
        assert isinstance(source, GeometrySource)
        return source

    def of_some(self, place: int, flags: Flags) -> "Job":
        """The same with some of the features of a frame, which have new ids.

        What is told of their rings is not that of all, which `self` keeps.
        """
        other = copy(self)
        other.sources, other.overlooked = list(self.sources), dict(self.overlooked)
        other.sources[place] = self.frame(place).chosen(flags)
        return other

    @property
    def words(self) -> List[str]:
        """The options of the program for its inputs."""
        if not self.widened:
            return [*self.scale.words]
        rings = "even-odd" if self.overlooked else "proper"
        return [*self.scale.words, "--geometry", "any", "--rings", rings]

    @property
    def left_out(self) -> Tuple[Notice, ...]:
        return tuple(chain.from_iterable(source.left_out for source in self.sources))

    @property
    def enveloped(self) -> Tuple[Notice, ...]:
        return tuple(chain.from_iterable(source.enveloped for source in self.sources))

    def answer(self, ask: Callable[[Path, List[Path]], Answer]) -> Answer:
        """What is asked of the program in a folder, with the paths of the layers.

        A layer is written again only if it has changed.
        """
        written: Dict[Tuple[Source, Scale], Path] = {}
        with signals.temporary_folder() as folder:
            def run() -> Answer:
                layers = [(source, self.scale) for source in self.sources]
                for source, scale in layers:
                    if (source, scale) not in written:
                        written[source, scale] = source.write(folder, scale)
                return ask(folder, [written[layer] for layer in layers])
            return self.tried(run)

    def tried(self, run: Callable[[], Answer]) -> Answer:
        """The answer of a run, which is tried again where the program is to read more.

        Faults name the features.
        """
        while True:
            try:
                return run()
            except program.InputFault as fault:
                if not (self.widen(fault) or self.reread(fault) or self.overlook(fault)):
                    raise self.named(fault) from fault

    def widen(self, fault: program.InputFault) -> bool:
        """Whether the program is now to read any geometry, where it was to read boxes."""
        if self.widened or fault.reason not in (NO_BOX, NO_TEXT, NUMBER, *TOO_LONG):
            return False
        self.settle(widened=True)
        return True

    def reread(self, fault: program.InputFault) -> bool:
        """Whether the fault's layer has texts that were now read by Shapely, such as POINT Z."""
        if fault.reason != NO_TEXT:
            return False
        for place, source in enumerate(self.sources):
            other = source.reread() if source.side == fault.side else None
            if other is not None:
                self.sources[place] = other
                self.settle()
                return True
        return False

    def overlook(self, fault: program.InputFault) -> bool:
        """Whether rings are now read by the even-odd rule, since some are not proper."""
        if self.overlooked or self.reading.rings == "proper" or fault.reason not in NOT_PROPER:
            return False
        self.overlooked[fault.side] = str(self.named(fault))
        return True

    def note_rings(self, notes: str, sides: Mapping[str, str]) -> None:
        """Takes down the features with improper rings of which the program wrote.

        sides: those of the call, by those of the program, where they differ.
        """
        for told, count, rows in IMPROPER_ROWS.findall(notes):
            side = sides.get(told, told)
            if int(count) > 1 or side not in self.overlooked:
                self.overlooked[side] = self.with_improper_rings(side, int(count), rows)

    def with_improper_rings(self, side: str, count: int, rows: str) -> str:
        """The features of an input with improper rings, of which the first are in these rows."""
        if all(source.side != side for source in self.sources):
            return f"{side}: {IMPROPER}"
        faults = [self.named(program.InputFault(side, int(row), IMPROPER))
                  for row in rows.split(", ")]
        if count == 1:
            return str(faults[0])
        named = ", ".join(f"row {fault.row} (feature {fault.feature!r})" for fault in faults)
        more = f" and {count - len(faults)} more" if count > len(faults) else ""
        return f"{side}: {count} features: {IMPROPER}: {named}{more}"

    def named(self, fault: program.InputFault) -> InputError:
        """The program's fault of an input as an InputError, which names the feature."""
        source = next((source for source in self.sources if source.side == fault.side), None)
        if source is None or fault.row is None:
            return InputError(fault.side, fault.reason, fault.row)
        return source.error(fault.row, fault.reason)

    def positions(self, found: Any) -> List[Rows]:
        """The rows, counted from 0, of the ids in the first columns of a report."""
        return [source.positions(found[column])
                for source, column in zip(self.sources, found.columns)]

    def warn_of_crs(self, depth: int, unknown: bool = False) -> None:
        """Warns, as geopandas.sjoin does, where the reference systems of two layers differ.

        An `unknown` one differs from a known one too, as there.
        """
        left, right = (source.crs for source in self.sources)
        if left != right and (unknown or (left is not None and right is not None)):
            warnings.warn(
                "CRS mismatch between the CRS of left geometries and the CRS of right geometries.\n"
                "Use `to_crs()` to reproject one of the input geometries to match the CRS of the "
                f"other.\n\nLeft CRS: {left}\nRight CRS: {right}", UserWarning,
                stacklevel=depth + 2)

    def forget_envelopes(self) -> None:
        """Has nothing told of envelopes, where they are what is to be joined."""
        for source in self.sources:
            source.enveloped = ()

    def kept(self, place: int) -> Rows:
        """The rows, counted from 0, of an input that aren't left out."""
        return self.frame(place).kept_rows

    def identified(self, found: Any, ids: str) -> Any:
        """A report with labels or positions in place of its ids."""
        for source, column in zip(self.sources, found.columns):
            told = (source.labels if ids == "label" else source.positions)(found[column])
            found[column] = told.to_flat_index() if isinstance(told, pandas.MultiIndex) else told
        return found

    def refuse_incomplete(self, place: int, remedy: str = "incomplete='mark'") -> None:
        """Refuses a join in which the partner of a row may be a feature that an input leaves out.

        remedy: how to be answered all the same.
        """
        left_out = self.sources[place].left_out
        if left_out:
            first = left_out[0]
            raise InputError(
                first.side, f"{first.reason}; {len(left_out)} features are left out here, any of "
                f"which may be the partner of a row: take {remedy}", first.row, first.feature)

    def are_exact(self, lefts: Rows, rights: Rows, relation: str) -> Flags:
        """Which rows of a result rest on no envelope; NOBODY may stand on one side of a row.

        A row with NOBODY says that no feature of that side stands in the relation. Where envelopes
        share no point, or are further apart, the features are so too; of other relations envelopes
        say nothing.
        """
        exact: Flags = np.ones(lefts.size, np.bool_)
        for source, rows in zip(self.sources, (lefts, rights)):
            there = rows != NOBODY
            exact[there] &= source.are_exact(rows[there])
            exact[~there] &= not source.enveloped
        if relation in BY_ENVELOPES:
            exact[(lefts == NOBODY) | (rights == NOBODY)] = True
        return exact

    def finish(self, attributes: Dict[Any, Any], depth: int,
               exact: Optional[Flags] = None) -> Dict[Any, Any]:
        """Puts the notices into the attributes of a result, and warns of what they say.

        exact: which rows of the result rest on no envelope. The warnings are those of the line
        `depth` calls above the caller of this one.
        """
        attributes.update(left_out=self.left_out, enveloped=self.enveloped)
        if self.reading.rounds:
            attributes["decimals"] = self.scale.decimals
        self.warn_of_rings(depth + 1)
        if self.left_out:
            first = self.left_out[0]
            warnings.warn(
                f"{len(self.left_out)} features are left out; the first: {first.side}, row "
                f"{first.row} (feature {first.feature!r}): {first.reason}",
                LeftOutWarning, stacklevel=depth + 2)
        if self.enveloped:
            text = f"{len(self.enveloped)} features are replaced by their envelopes"
            if exact is not None:
                text += f"; {(~exact).sum()} of {exact.size} rows of the result rest on one"
            warnings.warn(text, EnvelopeWarning, stacklevel=depth + 2)
        return attributes

    def warn_of_rings(self, depth: int) -> None:
        """Warns of rings that were read by the even-odd rule, as `finish` does."""
        if self.overlooked:
            described = "; ".join(self.overlooked.values())
            warnings.warn(f"{described}; the even-odd rule is taken for all rings that are not "
                          "proper", ImproperRingsWarning, stacklevel=depth + 2)


def job_of(layers: Sequence[Tuple[str, Any]], reading: Reading, rules: Rules,
           geometries: Sequence[Single] = (), measure: Optional[Measure] = None) -> Job:
    """The job of layers by their sides, beside geometries with coordinates of the same scale.

    measure: what is measured between them, if anything is.
    """
    rules = rules.checked()._replace(rounds=reading.rounds)
    sources = [source_of(layer, side, rules) for side, layer in layers]
    return Job(sources, reading, geometries, measure)


def single(geometry: Any, side: str, reading: Reading) -> Single:
    """A geometry that stands alone, by Shapely or as a text, if its numbers can be read."""
    with faults_without_rows():
        source = single_source(geometry, side, reading.rounds)
        if not reading.rounds:
            source.needed_decimals()
        return source


def scale_of(sources: Sequence[Numbers], reading: Reading, limits: Limits, is_fine: bool) -> Scale:
    """The scale that is given or that the inputs need.

    Where all coordinates are numbers and not texts, the program is given whole numbers of units;
    if the scale has to be fine these are as small as the range allows, but not finer than of boxes.
    """
    most = max(source.greatest() for source in sources) if is_fine or is_auto(reading) else 0.0
    if isinstance(reading.decimals, str):
        number = limits.in_range(most)
    elif reading.decimals is not None:
        number = reading.decimals
    elif reading.scale is not None:
        number = reading.scale
    else:
        number = max(source.needed_decimals() for source in sources)
    dots = not all(source.may_count_units for source in sources)
    finest = min(limits.in_range(most), BOXES.decimals)
    extra = max(0, finest - number) if is_fine and not dots else 0
    return Scale(number, dots, reading.rounds, extra)


def is_auto(reading: Reading) -> bool:
    return isinstance(reading.decimals, str)


@contextmanager
def faults_without_rows() -> Iterator[None]:
    """Of a geometry that stands alone, a fault has no row."""
    try:
        yield
    except InputError as fault:
        raise InputError(fault.side, fault.reason) from fault


def options(workers: Workers) -> List[str]:
    return [] if workers is None else ["--workers", str(workers)]


def joined(job: Job, relation: str, workers: Workers, matrix: bool) -> Any:
    """The pairs as a frame with the columns left and right, ids of the report, and matrix if it is
    wanted; else the program writes none.
    """
    words = ["--relation", relation, *options(workers)]
    if matrix:
        return reported(job, ["join"], words, MATRIX, wants_last=True)
    return reported(job, ["join"], [*words, PAIRS], {}, wants_last=False)


def within(job: Job, distance: Length, workers: Workers, wants_distance: bool = False) -> Any:
    """The pairs at most a distance apart as a frame with the columns left and right, ids, and
    distance if it is wanted.
    """
    words = [*distance.words(job.scale), *options(workers)]
    found = reported(job, ["near"], words, DISTANCE, wants_distance)
    return with_distances(job, found) if wants_distance else found


def with_distances(job: Job, found: Any) -> Any:
    """A report with its distances in the unit of the coordinates."""
    found["distance"] = job.scale.numbers(found["distance"].to_numpy())
    return found


def nearest(job: Job, base: int, distance: Optional[Length], workers: Workers,
            exclusive: bool = False) -> Any:
    """The nearest features of the other layer to each of the base, of the layers 0 and 1.

    A frame with the columns left and right, which are ids, and distance; in the order of the base.
    exclusive: without features that are equal to that of the base.
    """
    if exclusive:
        return nearest_others(job, base, distance, workers)
    return nearest_of(job, base, distance, workers)


def nearest_of(job: Job, base: int, distance: Optional[Length], workers: Workers,
               most: int = 1) -> Any:
    """As many nearest features as are asked for, and those that are as far away as the last."""
    words = [*(distance.words(job.scale) if distance else []), *options(workers)]
    if most > 1:
        words += ["--most", str(most)]
    found = reported(job, ["nearest"], words, DISTANCE, wants_last=True, turned=base == 1)
    return with_distances(job, found)


def nearest_others(job: Job, base: int, distance: Optional[Length],
                   workers: Workers) -> Any:
    """The nearest features that aren't equal to that of the base.

    Features of the base that equal as many others, C, are asked for together: these and the nearest
    others are the C + 1 nearest and those that are as far away as the last of them.
    """
    column, other = ("left", "right") if base == 0 else ("right", "left")
    equal = joined(job, "equals", workers, matrix=False)
    width = 1 + max(job.frame(place).count for place in (0, 1))
    equal_keys = equal[column].to_numpy() * width + equal[other].to_numpy()
    counts = np.bincount(equal[column], minlength=job.frame(base).count)
    parts = []
    for count in np.unique(counts).tolist():
        flags = counts == count
        part = nearest_of(job.of_some(base, flags), base, distance, workers, count + 1)
        part[column] = np.flatnonzero(flags)[part[column]]
        keys = part[column].to_numpy() * width + part[other].to_numpy()
        parts.append(part[~np.isin(keys, equal_keys)])
    if not parts:
        return nearest_of(job, base, distance, workers)
    return pandas.concat(parts, ignore_index=True).sort_values(column, kind="stable")


def reported(job: Job, command: Sequence[str], words: Sequence[str], last: Dict[str, str],
             wants_last: bool, turned: bool = False) -> Any:
    """The report of a join as a frame with the columns left and right, and the last one if wanted.

    turned: the right layer is the program's left one.
    """
    order = slice(None, None, -1 if turned else 1)

    def ask(folder: Path, paths: List[Path]) -> Any:
        report = folder / "report.csv"
        sides = {"left": "right", "right": "left"} if turned else {}
        try:
            with open(report, "wb") as output:
                answer = program.run([*command, *paths[order], *job.words, *words], output)
        except program.InputFault as fault:
            side = sides.get(fault.side, fault.side)
            raise program.InputFault(side, fault.row, fault.reason) from fault
        except RjoinError as fault:
            if str(fault) == program.WRITE_FAILED:
                lengthen(report)
            raise
        job.note_rings(answer.notes, sides)
        left, right = job.sources[order]
        return reports.read(report, (kind_of(left), kind_of(right)), last, wants_last,
                            (left.id_digits, right.id_digits))
    found = job.answer(ask)
    if turned:
        found.columns = ["right", "left", *found.columns[2:]]
        found = found[["left", "right", *found.columns[2:]]]
    return found


def lengthen(path: Path) -> None:
    """Adds to a file that the program could not write, so that the system says why."""
    with open(path, "ab") as file:
        file.write(bytes(TRIAL_BYTES))


def kind_of(source: Source) -> str:
    """The type of the ids of an input in an answer."""
    return "str" if source.has_ids else "int64"


def met(job: Job, geometry: Single) -> Any:
    """The ids of the features of the only layer that meet a geometry."""
    def ask(folder: Path, paths: List[Path]) -> Any:
        with faults_without_rows():
            text = geometry.text(job.scale)
            if len(text.encode()) >= MOST_WORD:
                return met_by_join(job, paths[0], geometry.write(folder, job.scale))
        answer = program.run(["window", *job.words, "--", *paths, text])
        job.note_rings(answer.notes, {})
        return ids_of(answer.output, ["id"], job.sources[0])
    return job.answer(ask)


def met_by_join(job: Job, layer: Path, window: Path) -> Any:
    """The same for a geometry that is too long for a word of a command line, from its file."""
    sides = {"left": "layer", "right": "window"}
    try:
        answer = program.run(["join", layer, window, "--relation", "intersects", PAIRS,
                              *job.words])
    except program.InputFault as fault:
        row = fault.row if fault.side == "left" else None
        raise program.InputFault(sides[fault.side], row, fault.reason) from fault
    job.note_rings(answer.notes, sides)
    return ids_of(answer.output, ("left", "right"), job.sources[0])


def ids_of(answer: bytes, columns: Sequence[str], source: Source) -> Any:
    """The first of the columns of an answer, which has ids, by the name `id`."""
    header, first = ",".join(columns) + "\n", columns[0]
    if not answer.startswith(header.encode()) or not answer.endswith(b"\n"):
        raise program.wrong_answer()
    table = reports.read_table(io.BytesIO(answer), {first: kind_of(source)}, [first])
    return table[first].rename("id")


def related(job: Job) -> str:
    """The letters of the two geometries of a job without layers."""
    def ask() -> program.Answer:
        return program.run(["relate", *job.words, "--", *(word_of(geometry, job.scale)
                                                          for geometry in job.geometries)])
    answer = job.tried(ask)
    letters = LETTERS.fullmatch(answer.output)
    if not letters:
        raise program.wrong_answer()
    job.overlooked = {side: f"{side}: {IMPROPER}"
                      for side in BY_EVEN_ODD.findall(answer.notes)}
    return letters[1].decode()


def word_of(geometry: Single, scale: Scale) -> str:
    """The text of a geometry, if it is short enough for a word of a command line."""
    with faults_without_rows():
        text = geometry.text(scale)
        size = len(text.encode())
        if size >= MOST_WORD:
            raise InputError(geometry.side, f"its text has {size} bytes, and {MOST_WORD - 1} are "
                             "the most: take layers of one feature")
    return text


def counted(job: Job) -> Dict[str, Any]:
    """The counts of the only layer by their names."""
    answer = job.answer(lambda _, paths: program.run(["stats", *paths, *job.words]))
    job.note_rings(answer.notes, {})
    names = ANY_COUNTS if job.widened else BOX_COUNTS
    counts = re.fullmatch("".join(rf"{name} (\d+)\n" for name in names),
                          answer.output.decode(errors="replace"))
    if not counts:
        raise program.wrong_answer()
    found: Dict[str, Any] = dict(zip(names, map(int, counts.groups())))
    if job.widened:
        return {"segments": None, "rectangles": None, **found}
    return {**found, "lines": found["segments"], "areas": found["rectangles"]}


def drawn(job: Job, relation: str) -> str:
    """The picture, in which features have their labels as titles."""
    answer = job.answer(lambda _, paths: program.run(
        ["draw", *paths, "--relation", relation, *job.words]))
    job.note_rings(answer.notes, {})
    left, border, right = answer.output.decode(errors="replace").partition(RIGHT_HALF)
    if not border or not left.startswith("<svg ") or not right.endswith("</svg>\n"):
        raise program.wrong_answer()
    halves = [titled(half, source) for half, source in zip((left, right), job.sources)]
    return border.join(halves)


def titled(text: str, source: Source) -> str:
    """A half of a picture with labels in place of row numbers."""
    if source.has_ids:
        return text
    places = np.array(TITLE.findall(text), np.int64)
    labels = iter(source.labels(places))
    return TITLE.sub(lambda _: f"<title>{escape(str(next(labels)))}</title>", text)
