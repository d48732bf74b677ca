"""The inputs of a call, whatever they are given as, in the form that the program reads."""
from __future__ import annotations

import csv
import io
import os
from abc import ABC, abstractmethod
from copy import copy
from importlib.util import find_spec
from itertools import repeat
from pathlib import Path
from typing import Any, NamedTuple, Optional, Sequence, Tuple, Union

import numpy as np
import pandas
from numpy.typing import NDArray

from rjoin import binary, decimals, files, sheet, texts
from rjoin.bodies import AnyBody, BoxBody, shapes_of
from rjoin.decimals import Scale
from rjoin.errors import ArgumentError, InputError, Notice
from rjoin.limits import ANY, Limits
from rjoin.shapes import Objects, Status, boxes_of

Rows = NDArray[np.int64]
Units = NDArray[np.int64]
Flags = NDArray[np.bool_]

NO_BOX = "not a point, axis-parallel segment or rectangle"
DOT = "a line or polygon that is only a point"
REASONS = {
    Status.ANY: NO_BOX,
    Status.OTHER: "not a point, line or polygon, nor several of one kind",
    Status.EMPTY: "the geometry is empty",
    Status.MISSING: "there is no geometry",
    Status.NOT_FINITE: "a coordinate is not finite",
}


class Rules(NamedTuple):
    """What happens to geometries and numbers that the program cannot read.

    other: geometries of other types raise an `error` or are left out (`skip`); with `envelope`, all
    that are no boxes are replaced by their envelopes. missing: those that are empty or not there
    raise an `error` or are left out (`skip`), or are rows without a partner (`keep`), where the
    call `keeps` rows. rounds: numbers will be rounded, so that none has too many decimals.
    """

    other: str = "error"
    missing: str = "error"
    rounds: bool = False
    keeps: bool = False

    def checked(self) -> "Rules":
        if self.other not in ("error", "envelope", "skip"):
            raise ArgumentError(f"other must be 'error', 'envelope' or 'skip', not {self.other!r}")
        known = ("'error', 'skip' or 'keep'", "'error' or 'skip'")[not self.keeps]
        if self.missing not in ("error", "skip") and (self.missing, self.keeps) != ("keep", True):
            raise ArgumentError(f"missing must be {known}, not {self.missing!r}")
        return self

    @property
    def refuse_all(self) -> bool:
        """Whether the program, which refuses all that it doesn't read, may read texts itself."""
        return self.other == self.missing == "error"


class Source(ABC):
    """An input.

    side: its parameter's name. crs: its reference system, if it is known. Ids in reports are row
    numbers unless `has_ids`.
    """

    has_ids = False
    may_count_units = False
    # How many digits all ids in reports have, if they are padded.
    id_digits: Optional[int] = None

    def __init__(self, side: str) -> None:
        self.side = side
        self.crs: Any = None
        self.left_out: Tuple[Notice, ...] = ()
        self.enveloped: Tuple[Notice, ...] = ()
        self.exact_at: Optional[int] = None

    def needed_decimals(self) -> int:
        """The fewest decimals that write all coordinates; InputError where the most don't."""
        if self.exact_at is None:
            self.exact_at = self.fewest_decimals()
        return self.exact_at

    @abstractmethod
    def fewest_decimals(self) -> int:
        """The same, counted anew."""

    @abstractmethod
    def greatest(self) -> float:
        """A number that no coordinate exceeds by its absolute value; 0 where all are small."""

    @abstractmethod
    def has_more(self, number: int) -> bool:
        """Whether a coordinate has more decimals, as far as texts show it."""

    def fits(self, scale: Scale, limits: Limits) -> bool:
        """Whether the layer is as short as these limits ask, as far as that is known."""
        return True

    @property
    def needs_any(self) -> bool:
        """Whether it is known to have more than boxes."""
        return False

    @property
    def has_binary(self) -> bool:
        """Whether some of its texts are binary, whose decimals don't show in them."""
        return False

    def leave_out_dots(self, scale: Scale) -> None:
        """Leaves out lines and polygons that are only a point, if others are to be left out."""

    @abstractmethod
    def write(self, folder: Path, scale: Scale) -> Path:
        """The path of the layer's file, which is written to the folder if need be."""

    @abstractmethod
    def positions(self, ids: Any) -> Rows:
        """The rows, counted from 0, of features by their ids in a report."""

    @abstractmethod
    def labels(self, ids: Any) -> Any:
        """The labels of features by their ids in a report: a column of them or an index."""

    def are_exact(self, rows: Rows) -> Flags:
        """Which features, by their rows from 0, the program was given as they are."""
        return np.ones(len(rows), np.bool_)

    def reread(self) -> Optional["Source"]:
        """The same input with its texts read by Shapely, where the program has read them."""
        return None

    @abstractmethod
    def error(self, row: int, reason: str) -> InputError:
        """The fault of a row, counted from 1, of the file that was written."""


class GeometrySource(Source):
    """Shapely geometries with labels."""

    may_count_units = True

    def __init__(self, side: str, geometries: Objects, index: pandas.Index, rules: Rules) -> None:
        super().__init__(side)
        self.index = index
        self.rules = rules
        boxes = boxes_of(geometries, all_envelopes=rules.other == "envelope")
        shapes = None if rules.other == "envelope" else shapes_of(boxes)
        kept = self.kept(boxes.status, rules)
        self.rows: Rows = np.flatnonzero(kept)
        self.body: Union[BoxBody, AnyBody]
        if shapes is not None:
            self.body = AnyBody(shapes)
        elif kept.all():
            self.body = BoxBody(boxes.corners, self.is_envelope)
        else:
            self.body = BoxBody(boxes.corners, self.is_envelope).chosen(kept)
        self.counted: Optional[Tuple[Scale, Units]] = None

    def kept(self, status: NDArray[np.uint8], rules: Rules) -> Flags:
        """The rows that the program is given; the others and the envelopes are noticed."""
        absent = (status == Status.EMPTY) | (status == Status.MISSING)
        kept = status == Status.BOX
        none = np.zeros_like(kept)
        enveloped = none
        skipped = absent if rules.missing == "skip" else none
        alone = absent if rules.missing == "keep" else none
        if rules.other == "envelope":
            enveloped = (status == Status.ANY) | (status == Status.OTHER)
        else:
            kept = kept | (status == Status.ANY)
        if rules.other == "skip":
            skipped = skipped | (~kept & ~absent)
        wrong = np.flatnonzero(~kept & ~enveloped & ~skipped & ~alone)
        if wrong.size:
            raise self.fault(int(wrong[0]), REASONS[Status(status[wrong[0]])])
        self.left_out = self.notices(np.flatnonzero(skipped), status)
        self.enveloped = self.notices(np.flatnonzero(enveloped), status)
        self.is_envelope = enveloped
        self.absent: Rows = np.flatnonzero(alone)
        given: Flags = kept | enveloped
        return given

    @property
    def kept_rows(self) -> Rows:
        """The rows, counted from 0, that aren't left out."""
        return np.union1d(self.rows, self.absent) if self.absent.size else self.rows

    def are_exact(self, rows: Rows) -> Flags:
        exact: Flags = ~self.is_envelope[rows]
        return exact

    def notices(self, rows: Rows, status: NDArray[np.uint8]) -> Tuple[Notice, ...]:
        reasons = [REASONS[Status(value)] for value in status[rows]]
        numbers = (rows + 1).tolist()
        return tuple(Notice(self.side, *rest)
                     for rest in zip(numbers, self.index.take(rows), reasons))

    def fault(self, place: int, reason: str) -> InputError:
        return InputError(self.side, reason, place + 1, self.index[place])

    def error(self, row: int, reason: str) -> InputError:
        return self.fault(int(self.rows[row - 1]), reason)

    def fewest_decimals(self) -> int:
        try:
            return decimals.fewest(self.body.numbers)
        except decimals.Unwritable as number:
            raise self.error(self.body.owner(number.row) + 1, number.reason) from number

    def greatest(self) -> float:
        return decimals.greatest(self.body.numbers)

    def has_more(self, number: int) -> bool:
        return decimals.has_more(self.body.numbers, number)

    def fits(self, scale: Scale, limits: Limits) -> bool:
        return self.count <= limits.features and self.size(scale) <= limits.bytes

    def units(self, scale: Scale) -> Units:
        """The numbers in units of the decimals, which the last scale's calls have in common."""
        scale = scale.without_extra
        if self.counted is None or self.counted[0] != scale:
            try:
                units = decimals.in_units(self.body.numbers, scale, exact_at=self.exact_at)
                self.counted = scale, units
            except decimals.Unwritable as number:
                raise self.error(self.body.owner(number.row) + 1, number.reason) from number
        return self.counted[1]

    def leave_out_dots(self, scale: Scale) -> None:
        if self.rules.other != "skip":
            return
        dots = self.body.dots(self.units(scale))
        if dots.any():
            more = [Notice(self.side, row + 1, self.index[row], DOT)
                    for row in self.rows[dots].tolist()]
            self.left_out = tuple(sorted([*self.left_out, *more], key=lambda notice: notice.row))
            self.rows, self.body, self.counted = self.rows[~dots], self.body.chosen(~dots), None

    @property
    def needs_any(self) -> bool:
        return isinstance(self.body, AnyBody)

    def text(self, scale: Scale) -> str:
        """The text of the only geometry."""
        file = io.BytesIO()
        units = self.units(scale)
        self.body.write(file, units, self.columns(scale))
        _, _, text = file.getvalue().decode().partition(",")
        return text.strip('"\n')

    @property
    def count(self) -> int:
        """How many features the program is given."""
        return len(self.body)

    def chosen(self, flags: Flags) -> "GeometrySource":
        """The same with some of the features that the program is given."""
        other = copy(self)
        other.rows, other.body, other.counted = self.rows[flags], self.body.chosen(flags), None
        return other

    def columns(self, scale: Scale) -> sheet.Columns:
        return sheet.columns_of(self.units(scale), scale.dots_before, self.count, scale.extra)

    def size(self, scale: Scale, columns: Optional[sheet.Columns] = None) -> int:
        """The bytes of the layer's file, by its columns if they are known."""
        columns = columns or self.columns(scale)
        return len(sheet.HEADER) + self.body.size(self.units(scale), columns)

    def write(self, folder: Path, scale: Scale) -> Path:
        columns = self.columns(scale)
        size = self.size(scale, columns)
        self.id_digits = columns.id.digits
        if size > ANY.bytes:
            raise InputError(self.side, f"{self.count} features with coordinates of this "
                             f"length take {size} bytes, and the program reads "
                             f"{ANY.bytes}: take fewer decimals or join the layer in parts")
        units = self.units(scale)
        path = folder / f"{self.side}.csv"
        with open(path, "wb") as file:
            file.write(sheet.HEADER)
            self.body.write(file, units * scale.finer if scale.extra else units, columns)
        return path

    def positions(self, ids: Any) -> Rows:
        positions: Rows = self.rows[np.asarray(ids, np.int64)]
        return positions

    def labels(self, ids: Any) -> Any:
        return self.index.take(self.positions(ids))


class TextSource(Source):
    """Geometries as well-known text, which the program reads itself, with labels."""

    def __init__(self, side: str, values: Objects, index: pandas.Index, rules: Rules) -> None:
        super().__init__(side)
        self.values = values
        self.index = index
        self.rules = rules
        missing = pandas.isna(values)
        if missing.any():
            raise self.error(int(missing.argmax()) + 1, REASONS[Status.MISSING])
        unwritable = texts.first_unwritable(values.tolist())
        if unwritable:
            raise self.error(unwritable, texts.NO_TEXT)

    def error(self, row: int, reason: str) -> InputError:
        return InputError(self.side, reason, row, self.index[row - 1])

    def reread(self) -> Optional[Source]:
        if not has_shapely():
            return None
        return geometry_source(self.values, self.index, self.side, self.rules)

    @property
    def has_binary(self) -> bool:
        return any(map(binary.is_binary, self.values))

    def fewest_decimals(self) -> int:
        return decimals_of_texts(self, self.values.tolist())

    def greatest(self) -> float:
        return texts.greatest(self.values.tolist())

    def has_more(self, number: int) -> bool:
        return decimals.fewest_of_text("\n".join(self.values)) > number

    def write(self, folder: Path, scale: Scale) -> Path:
        path = folder / f"{self.side}.csv"
        with open(path, "w", newline="", encoding="utf-8") as file:
            rows = csv.writer(file, lineterminator="\n", quoting=csv.QUOTE_NONNUMERIC)
            rows.writerow(("id", "wkt"))
            rows.writerows(enumerate(self.values))
        return path

    def text(self, scale: Scale) -> str:
        """The text of the only geometry, as a word of a command line."""
        if "\0" in self.values[0]:
            raise self.error(1, texts.NO_TEXT)
        return str(self.values[0])

    def positions(self, ids: Any) -> Rows:
        positions: Rows = np.asarray(ids, np.int64)
        return positions

    def labels(self, ids: Any) -> Any:
        return self.index.take(self.positions(ids))


def decimals_of_texts(source: Source, values: Sequence[str]) -> int:
    """The fewest decimals for all numbers of some texts, or the fault of the first row."""
    needed, fault = texts.fewest_decimals(values)
    if fault:
        raise source.error(*fault)
    return needed


class FileSource(Source):
    """A file of the program's own form, which is read as it stands; the labels are its ids."""

    has_ids = True

    def __init__(self, side: str, place: files.Place, rules: Rules) -> None:
        super().__init__(side)
        self.place = place
        self.rules = rules

    @property
    def has_binary(self) -> bool:
        return files.may_have_binary(self.place) and any(
            map(binary.is_binary, files.texts_of(self.place)))

    def fewest_decimals(self) -> int:
        return decimals_of_texts(self, files.texts_of(self.place))

    def greatest(self) -> float:
        return texts.greatest(files.texts_of(self.place))

    def has_more(self, number: int) -> bool:
        return decimals.fewest_of_text("\n".join(files.texts_of(self.place))) > number

    def write(self, folder: Path, scale: Scale) -> Path:
        row = files.first_with_nul(self.place)
        if row:
            raise self.error(row, files.NUL)
        return self.place.path.absolute()

    def reread(self) -> Optional[Source]:
        return plain_file_source(self.place, self.side, self.rules) if has_shapely() else None

    def positions(self, ids: Any) -> Rows:
        rows = pandas.Index(files.ids_of(self.place))
        positions: Rows = rows.get_indexer(ids)
        return positions

    def labels(self, ids: Any) -> Any:
        return ids

    def error(self, row: int, reason: str) -> InputError:
        return InputError(self.side, reason, row, files.id_of(self.place, row))


def source_of(layer: Any, side: str, rules: Rules) -> Source:
    """The input for a frame, a series, a sequence or a path."""
    if isinstance(layer, (str, os.PathLike)):
        return file_source(layer, side, rules)
    if isinstance(layer, pandas.DataFrame):
        if not hasattr(layer, "geometry"):
            raise ArgumentError(f"{side} is a frame without geometries: give a GeoDataFrame, or "
                                "the column of geometries or well-known text")
        layer = layer.geometry
    if isinstance(layer, pandas.Series):
        source = values_source(np.asarray(layer, dtype=object), layer.index, side, rules)
        source.crs = getattr(layer, "crs", None)
        return source
    values = values_of(layer, side)
    return values_source(values, pandas.RangeIndex(len(values)), side, rules)


def with_crs(layer: Any, side: str, rounds: bool) -> Any:
    """The layer; a frame of that of a file which GDAL reads."""
    if not isinstance(layer, (str, os.PathLike)):
        return layer
    place = files.place_of(layer, side)
    return layer if files.is_plain(place) else files.read(place, side, rounds)


def right_of(left: Any, right: Any, to_crs: bool) -> Any:
    """The right layer, in the reference system of the left one where that is asked for."""
    if not to_crs:
        return right
    unknown = [name for name, layer in (("left", left), ("right", right))
               if getattr(layer, "crs", None) is None]
    if unknown:
        raise ArgumentError("to_crs needs the reference system of both layers, and that of the "
                            f"{' and the '.join(unknown)} one is not known")
    return right if left.crs == right.crs else right.to_crs(left.crs)


def values_of(layer: Any, side: str) -> Objects:
    """The values of a sequence or another iterable, but not the parts of a geometry."""
    if not hasattr(layer, "geoms"):
        try:
            return np.fromiter(layer, object)
        except TypeError:
            pass
    raise ArgumentError(f"{side} has to be a frame, a series, a sequence or a path, not of type "
                        f"{type(layer).__name__}")


def file_source(path: "str | os.PathLike[str]", side: str, rules: Rules) -> Source:
    place = files.place_of(path, side)
    if place.layer is not None or not files.is_plain(place):
        return source_of(files.read(place, side, rules.rounds), side, rules)
    if rules.refuse_all:
        return FileSource(side, place, rules)
    return plain_file_source(place, side, rules)


def plain_file_source(place: files.Place, side: str, rules: Rules) -> GeometrySource:
    """The input for a file of the program's own form whose texts are read by Shapely."""
    table = files.table_of(place, side)
    return geometry_source(table["wkt"].to_numpy(object), pandas.Index(table["id"]), side, rules)


def single_source(geometry: Any, side: str, rounds: bool) -> "GeometrySource | TextSource":
    """The input for one geometry, by Shapely or as a text."""
    rules = Rules(rounds=rounds)
    source = values_source(np.fromiter([geometry], object), pandas.RangeIndex(1), side, rules)
    if isinstance(source, TextSource) and not texts.is_plain(geometry) and has_shapely():
        return geometry_source(source.values, source.index, side, rules)
    return source


def has_shapely() -> bool:
    return find_spec("shapely") is not None


def values_source(values: Objects, index: pandas.Index, side: str,
                  rules: Rules) -> "GeometrySource | TextSource":
    """The input for geometries or texts, which the first value that is there tells."""
    kind = kind_of_all(values, side)
    if kind is None:
        return GeometrySource(side, values, index, rules)
    if not all(issubclass(found, kind) for found in set(map(type, values))):
        alike = np.fromiter(map(isinstance, values, repeat(kind)), np.bool_, len(values))
        alike |= pandas.isna(values)
        if not alike.all():
            row = int(alike.argmin())
            raise InputError(side, f"a value of type {type(values[row]).__name__} among "
                             f"{'texts' if kind is str else 'geometries'}", row + 1, index[row])
    if kind is str and rules.refuse_all:
        return TextSource(side, values, index, rules)
    if kind is str:
        return geometry_source(values, index, side, rules)
    return GeometrySource(side, values, index, rules)


def geometry_source(values: Objects, index: pandas.Index, side: str,
                    rules: Rules) -> GeometrySource:
    """The input for texts that are read by Shapely; the fault of the first row goes first."""
    geometries, reason = texts.geometries_of(values, rules.rounds)
    source = GeometrySource(side, geometries, index[:len(geometries)], rules)
    if reason:
        raise InputError(side, reason, len(geometries) + 1, index[len(geometries)])
    return source


def kind_of_all(values: Objects, side: str) -> Optional[type]:
    """The type of all values, as the first one that is there tells; None where none is there."""
    there = ~pandas.isna(values[:1])
    there = there if there.any() else ~pandas.isna(values)
    if not there.any():
        return None
    first = values[int(there.argmax())]
    if not isinstance(first, str) and not hasattr(first, "geom_type"):
        raise ArgumentError(f"{side} has no geometries but values of type {type(first).__name__}")
    if isinstance(first, str):
        return str
    from shapely.geometry.base import BaseGeometry

    base: type = BaseGeometry
    return base
