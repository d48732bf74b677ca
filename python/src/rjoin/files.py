"""Layers in files: those of the program's own form, and all that GDAL reads."""
from __future__ import annotations

import csv
import os
import re
from contextlib import contextmanager
from itertools import islice
from pathlib import Path
from shutil import copyfileobj
from typing import Any, Dict, Iterable, Iterator, List, Mapping, NamedTuple, Optional, Sequence
from typing import Tuple

import numpy as np
import pandas

from rjoin import outputs, signals, streams, texts
from rjoin.errors import ArgumentError, InputError
from rjoin.limits import ANY
from rjoin.streams import Copy

HEADER = b"id,wkt"
# What hexadecimal well-known binary begins with, as a field.
BINARY = re.compile(rb",\"?\s*0[01][0-9A-Fa-f]{8}")
MOST_HEADER = len(b'"id","wkt"\r\n')
NUL = "a NUL character, behind which pandas doesn't read"

# The extensions of tables as texts, of which GDAL takes a field named WKT for the geometries and
# keeps it as a field too, unless it is told otherwise.
TEXT_TABLES = (".csv", ".tsv", ".psv")
WITHOUT_TEXTS = {"KEEP_GEOM_COLUMNS": "NO"}
# What GDAL finds by itself, such as a file in an archive.
VIRTUAL = "/vsi"

# The names of the fields that have a table's geometries: one of texts, or one for each coordinate.
Fields = Tuple[str, ...]


class Place(NamedTuple):
    """A layer in a file; without a name, the file's first one.

    path: that of the copy where there is one. text: how it was given.
    """

    path: Path
    layer: Optional[str] = None
    text: str = ""
    copy: Optional[Copy] = None

    @property
    def is_there(self) -> bool:
        return os.path.exists(self.path) or os.fspath(self.path).startswith(VIRTUAL)

    @property
    def is_text_table(self) -> bool:
        name = self.copy.name if self.copy else os.fspath(self.path)
        return name.lower().endswith(TEXT_TABLES)


def place_of(text: "str | os.PathLike[str]", side: str) -> Place:
    """The place that FILE or FILE:LAYER names; a file that has the whole name goes first.

    What is compressed, or standard input, is unpacked into a copy.
    """
    name = os.fspath(text)
    path, colon, layer = name.rpartition(":")
    if not (colon and layer and not has_file(name) and has_file(path)):
        path, layer = name, ""
    if not has_file(path) or not streams.is_packed(path):
        return Place(Path(path), layer or None, name)
    copy = streams.unpacked(path, side)
    return Place(copy.path, layer or None, name, copy)


def has_file(name: str) -> bool:
    """Whether a name is that of a file, or of standard input."""
    return name in streams.STANDARD_INPUT or os.path.exists(streams.plain_name(name))


@contextmanager
def named(place: Place) -> Iterator[Place]:
    """The place under a name by which GDAL knows the kind of the file."""
    if place.copy is None:
        yield place
        return
    with signals.temporary_folder() as folder:
        path = folder / place.copy.name
        with open(place.path, "rb") as unpacked, open(path, "wb") as file:
            copyfileobj(unpacked, file)
        yield place._replace(path=path, copy=None)


def is_plain(place: Place) -> bool:
    """Whether the file has the program's own form, which is CSV with the header id,wkt."""
    try:
        with open(place.path, "rb") as file:
            return file.readline(MOST_HEADER).replace(b'"', b"").rstrip(b"\r\n") == HEADER
    except OSError:
        return False


def may_have_binary(place: Place) -> bool:
    """Whether a field may be hexadecimal well-known binary."""
    return BINARY.search(place.path.read_bytes()) is not None


def texts_of(place: Place) -> List[str]:
    """The geometries of a file of the program's own form, as far as its rows have two fields."""
    return [row[1] for row in records_of(place) if len(row) == 2]


def ids_of(place: Place) -> List[str]:
    """The ids of a file of the program's own form."""
    return [row[0] for row in records_of(place)]


def id_of(place: Place, row: int) -> Optional[str]:
    """The id in a row, counted from 1, of a file of the program's own form."""
    record = next(islice(records_of(place), row - 1, None), None)
    return record[0] if record else None


def first_with_nul(place: Place) -> int:
    """The row, counted from 1, of the first record with a NUL character, or 0."""
    if b"\0" not in place.path.read_bytes():
        return 0
    return next(row for row, record in enumerate(records_of(place), start=1)
                if any("\0" in field for field in record))


def records_of(place: Place) -> Iterator[List[str]]:
    """The records behind the header."""
    with open(place.path, newline="", encoding="utf-8", errors="replace") as file, long_fields():
        rows = (row for row in csv.reader(file) if row)
        next(rows, None)
        yield from rows


@contextmanager
def long_fields() -> Iterator[None]:
    """Has the module csv read fields as long as a file may be."""
    before = csv.field_size_limit(ANY.bytes)
    try:
        yield
    finally:
        csv.field_size_limit(before)


def read(place: Place, side: str, rounds: bool = False, fields: Fields = ()) -> Any:
    """The layer as a GeoDataFrame; ids of a file of the program's own form are the column `id`.

    In such a file a number with too many decimals is a fault, unless numbers will be rounded.
    fields: those that have the geometries of a layer that has none by itself.
    """
    if not place.is_there:
        raise InputError(side, f"{place.path} is not there")
    try:
        if is_plain(place):
            return read_plain(place, side, rounds)
        with named(place) as known:
            is_by_fields = takes(known, fields)
            frame = read_table(known) if is_by_fields else read_by_gdal(known)
    except InputError:
        raise
    except Exception as fault:
        raise InputError(side, f"{place.text} cannot be read: {fault}") from fault
    return with_geometries(frame, fields, side, rounds) if is_by_fields else checked(
        frame, place, side)


def checked(frame: Any, place: Place, side: str) -> Any:
    """A frame that GDAL has read, if it has geometries."""
    import geopandas

    if not isinstance(frame, geopandas.GeoDataFrame):
        raise InputError(side, f"{place.text} has no geometries")
    return frame


def is_table(place: Place, fields: Fields) -> bool:
    """Whether a file is there that GDAL reads, and whose geometries are those of fields."""
    try:
        if is_plain(place):
            return False
        with named(place) as known:
            return takes(known, fields)
    except Exception:  # GDAL's faults have no common class, and are told where the file is read
        return True


def takes(place: Place, fields: Fields) -> bool:
    """Whether the geometries of a layer that GDAL reads are those of fields: it has none by itself,
    or it is a table of texts that has these fields."""
    if not fields:
        return False
    has_own, names = contents(place)
    return not has_own or (place.is_text_table and set(fields) <= set(names))


def contents(place: Place) -> Tuple[bool, Sequence[str]]:
    """Whether a layer that GDAL reads has geometries by itself, and the names of its fields."""
    if outputs.has_pyogrio():
        import pyogrio

        told = pyogrio.read_info(place.path, layer=place.layer)
        return told["geometry_type"] is not None, [str(name) for name in told["fields"]]
    import fiona

    with fiona.open(place.path, layer=place.layer) as layer:
        return layer.schema["geometry"] != "None", list(layer.schema["properties"])


def read_table(place: Place) -> Any:
    """The fields of a layer, without its geometries."""
    import geopandas

    words = layer_words(place)
    return pandas.DataFrame(geopandas.read_file(place.path, ignore_geometry=True, **words))


def layer_words(place: Place) -> Dict[str, str]:
    """What GDAL is told of a layer beside its file."""
    return {} if place.layer is None else {"layer": place.layer}


def with_geometries(table: Any, fields: Fields, side: str, rounds: bool) -> Any:
    """A table as a GeoDataFrame with the geometries that are in some of its fields.

    The field that has them as texts isn't kept beside them.
    """
    for name in fields:
        check_field(table.columns, name, side)
    columns = [np.array([written(value) for value in table[name]], object) for name in fields]
    (given,) = columns if len(fields) == 1 else [points_of(fields, columns, side)]
    geometries, reason = texts.geometries_of(given, rounds)
    if reason:
        raise InputError(side, reason, len(geometries) + 1, len(geometries))
    return frame_of(table.drop(columns=list(fields)) if len(fields) == 1 else table, geometries,
                    crs_of(given, range(len(given)), side))


def crs_of(given: Iterable[Any], features: Sequence[Any], side: str) -> Optional[str]:
    """The reference system that texts of these features name, which has to be one."""
    numbers = [0 if text is None else texts.srid_of(text) for text in given]
    number = next(filter(None, numbers), 0)
    wrong = next((row for row, one in enumerate(numbers) if one not in (0, number)), None)
    if wrong is not None:
        raise InputError(side, f"SRID {numbers[wrong]} among SRID {number}", wrong + 1,
                         features[wrong])
    return f"EPSG:{number}" if number and is_known(number) else None


def is_known(srid: int) -> bool:
    """Whether the number is one of the EPSG's, as those of PostGIS are."""
    from pyproj import CRS
    from pyproj.exceptions import CRSError

    try:
        CRS.from_epsg(srid)
    except CRSError:
        return False
    return True


def check_field(names: Iterable[Any], name: str, side: str) -> None:
    """Refuses the name of a field that a layer has not."""
    known = [str(one) for one in names]
    if name not in known:
        raise ArgumentError(f"{side} has no field {name!r}; it has {', '.join(known)}")


def written(value: Any) -> Optional[str]:
    """The text of a value of a field; None for one that is missing or blank."""
    text = "" if pandas.isna(value) else str(value).strip()
    return text or None


def points_of(fields: Fields, columns: List[Any], side: str) -> Any:
    """The texts of points by their coordinates; None where one is missing."""
    wrong = [(row, name, value) for name, column in zip(fields, columns)
             for row, value in enumerate(column) if value and not texts.is_number(value)]
    if wrong:
        row, name, value = min(wrong)
        raise InputError(side, f"{name} is {value!r}, which is no number", row + 1, row)
    return np.array([f"POINT ({x} {y})" if x and y else None for x, y in zip(*columns)], object)


def read_by_gdal(place: Place) -> Any:
    """The layer as GeoPandas reads it; where it cannot hold a geometry, read in two parts."""
    import geopandas

    words = {**layer_words(place), **(WITHOUT_TEXTS if place.is_text_table else {})}
    try:
        return geopandas.read_file(place.path, **words)
    except ValueError:
        if outputs.has_pyogrio():
            raise
    import fiona
    from shapely.geometry import shape

    fields = geopandas.read_file(place.path, ignore_geometry=True, **words)
    with fiona.open(place.path, **words) as layer:
        geometries = [feature["geometry"] and shape(feature["geometry"]) for feature in layer]
    return frame_of(fields, geometries, geopandas.read_file(place.path, rows=0, **words).crs)


def frame_of(fields: Any, geometries: Iterable[Any], crs: Any = None) -> Any:
    """A GeoDataFrame without empty multipoints, which GeoPandas 0.12 with Shapely 1.8 cannot hold.

    There NumPy asks each multipoint for its coordinates.
    """
    import geopandas
    from shapely.geometry import MultiPoint

    held = [None if isinstance(one, MultiPoint) and one.is_empty else one for one in geometries]
    return geopandas.GeoDataFrame(fields, geometry=held, crs=crs)


def read_plain(place: Place, side: str, rounds: bool) -> Any:
    """The file of the program's own form as a GeoDataFrame with the column `id`."""
    rows = table_of(place, side)
    geometries, reason = texts.geometries_of(rows["wkt"].to_numpy(object), rounds)
    if reason:
        place_of_fault = len(geometries)
        raise InputError(side, reason, place_of_fault + 1, rows["id"][place_of_fault])
    return frame_of(rows[["id"]], geometries, crs_of(rows["wkt"], rows["id"], side))


def table_of(place: Place, side: str) -> Any:
    """The ids and texts of a file of the program's own form, as a frame of both columns."""
    ids: Dict[str, None] = {}
    found: List[str] = []
    for row, record in enumerate(records_of(place), start=1):
        reason = wrong_record(record, ids)
        if reason:
            raise InputError(side, reason, row, record[0])
        ids[record[0]] = None
        found.append(record[1])
    return pandas.DataFrame({"id": list(ids), "wkt": found}, dtype=object)


def wrong_record(record: List[str], ids: Mapping[str, None]) -> Optional[str]:
    """What is wrong with a record, beside those of these ids."""
    if len(record) != 2:
        return "wrong fields"
    if any("\0" in field for field in record):
        return NUL
    return "id is already there" if record[0] in ids else None
