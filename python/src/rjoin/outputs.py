"""Files that the command writes, by pandas or by GDAL, each whole or not at all."""
from __future__ import annotations

import os
import sys
import tempfile
from contextlib import contextmanager
from importlib.util import find_spec
from itertools import count
from pathlib import Path
from typing import Any, Dict, Iterable, Iterator, List, Mapping

from rjoin.errors import ArgumentError, RjoinError

PACKAGE_KEY = "fid"
STANDARD_OUTPUT = Path("-")
# Texts by their separator; all of them may be compressed.
SEPARATORS = {".csv": ",", ".tsv": "\t"}
COMPRESSED = (".gz", ".bz2", ".xz")
# What pandas writes by other modules, of which one has to be installed.
COLUMNAR = (".parquet", ".feather")
NEEDED = {".parquet": ("pyarrow",), ".feather": ("pyarrow",), ".xlsx": ("openpyxl", "xlsxwriter"),
          ".ods": ("odf",)}
# What GDAL is known to keep rows without geometries in; FlatGeobuf drops them.
TABLES = (".dbf", ".geojson", ".gpkg", ".json")


def refuse_taken(path: Path, overwrite: bool) -> None:
    if path.exists() and not overwrite:
        raise ArgumentError(f"{path} is there already; --overwrite replaces it")


def kind_of(path: Path) -> str:
    """The extension that says of what kind a file is, without that of a compression."""
    if path == STANDARD_OUTPUT:
        return ".csv"
    suffix = path.suffix.lower()
    inner = Path(path.stem).suffix.lower()
    return inner if suffix in COMPRESSED and inner in SEPARATORS else suffix


def check_kind(output: Path, geometry: bool) -> None:
    """Refuses what can't be written here, with geometries or as a table alone."""
    kind = kind_of(output)
    if kind in SEPARATORS:
        return
    if kind in NEEDED:
        if not any(map(find_spec, NEEDED[kind])):
            raise ArgumentError(f"a file {kind!r} needs the Python module "
                                f"{' or '.join(NEEDED[kind])}, which is not installed")
        return
    driver_of(output)
    if not geometry and kind not in TABLES:
        tables = sorted([*SEPARATORS, *TABLES, *kinds_by_pandas()])
        raise ArgumentError(f"a file {output.suffix!r} needs geometries: add --geometry, or write "
                            f"one of {', '.join(tables)}")


def kinds_by_pandas() -> List[str]:
    """The extensions of what pandas writes here by other modules."""
    return [kind for kind, modules in NEEDED.items() if any(map(find_spec, modules))]


@contextmanager
def placed(output: Path, overwrite: bool) -> Iterator[Path]:
    """A path to write to; what was written there takes the output's place when all is written.

    So do files that GDAL writes beside it.
    """
    try:
        with tempfile.TemporaryDirectory(prefix=".rjoin-", dir=output.parent) as folder:
            yield Path(folder, output.name)
            written = sorted(Path(folder).iterdir())
            for path in written:
                refuse_taken(output.parent / path.name, overwrite)
            for path in written:
                os.replace(path, output.parent / path.name)
    except OSError as fault:
        raise RjoinError(f"{output} cannot be written: {fault.strerror or fault}") from fault


def write(rows: Any, output: Path, overwrite: bool) -> None:
    """Writes a file of the kind of its extension, and the files that belong to it."""
    if output == STANDARD_OUTPUT:
        print_csv(rows)
        return
    kind = kind_of(output)
    with placed(output, overwrite) as path:
        if kind in SEPARATORS:
            rows.to_csv(path, sep=SEPARATORS[kind], index=False, lineterminator="\n")
            return
        try:
            if kind in NEEDED:
                write_by_pandas(rows, path, kind)
            else:
                write_by_gdal(rows, path, driver_of(output))
        except Exception as fault:  # GDAL's faults have no common class
            raise RjoinError(f"{output} cannot be written: {fault}") from fault


def write_by_pandas(rows: Any, path: Path, kind: str) -> None:
    """Writes a file of columns or a sheet, in which geometries are texts."""
    if kind in COLUMNAR:
        {".parquet": rows.to_parquet, ".feather": rows.to_feather}[kind](path)
        return
    if "geometry" in rows.columns:
        rows = rows.assign(geometry=rows["geometry"].to_wkt())
    rows.to_excel(path, index=False)


def write_by_gdal(rows: Any, path: Path, driver: str) -> None:
    options = key_option(driver, rows.columns)
    if "geometry" in rows.columns:
        rows.to_file(path, driver=driver, **options)
    else:
        write_table(rows, path, driver, options)


def print_csv(rows: Any) -> None:
    """Writes rows to standard output, whose reader may take some of them alone."""
    text = rows.to_csv(index=False, lineterminator="\n")
    try:
        with open(os.dup(sys.stdout.fileno()), "w", encoding="utf-8", newline="") as file:
            file.write(text)
    except BrokenPipeError:
        pass
    except (AttributeError, OSError) as fault:  # there is none where it was closed before
        reason = getattr(fault, "strerror", None) or "it is closed"
        raise RjoinError(f"standard output cannot be written: {reason}") from fault


def has_pyogrio() -> bool:
    """Whether GDAL is reached by pyogrio, as GeoPandas 1 does, or by fiona."""
    import geopandas

    return int(geopandas.__version__.split(".")[0]) >= 1 and find_spec("pyogrio") is not None


def driver_of(output: Path) -> str:
    """GDAL's name for the kind of file."""
    try:
        if has_pyogrio():
            from pyogrio import detect_write_driver

            return str(detect_write_driver(output.name))
        from fiona.drvsupport import driver_from_extension

        return str(driver_from_extension(output))
    except ValueError as fault:
        raise ArgumentError(f"GDAL writes no files with the extension {output.suffix!r} here; "
                            f"known are {', '.join(known_extensions())}") from fault


def known_extensions() -> List[str]:
    """The extensions of what can be written here."""
    if has_pyogrio():
        found = [".gpkg", ".shp", ".geojson", ".json", ".fgb", ".gml", ".dbf"]
    else:
        from fiona.drvsupport import vector_driver_extensions

        found = [f".{one}" for one in vector_driver_extensions()]
    return sorted({*SEPARATORS, *kinds_by_pandas(), *found})


def key_option(driver: str, names: Iterable[str]) -> Dict[str, str]:
    """GDAL's option for a GeoPackage's key where a field has the name that the key has else.

    GDAL would take the field for the key, and a feature may be in several pairs.
    """
    taken = {str(name).lower() for name in names}
    if driver != "GPKG" or PACKAGE_KEY not in taken:
        return {}
    others = (f"{PACKAGE_KEY}_{number}" for number in count(2))
    return {"FID": next(name for name in others if name not in taken)}


def write_table(rows: Any, path: Path, driver: str, options: Mapping[str, str]) -> None:
    """Writes rows without geometries."""
    if has_pyogrio():
        import pyogrio

        pyogrio.write_dataframe(rows, path, driver=driver, **options)
        return
    import fiona

    fields = {str(name): field_type(rows[name].dtype.kind) for name in rows.columns}
    schema = {"geometry": "None", "properties": fields}
    values = rows.astype(object).where(rows.notna(), None)
    with fiona.open(path, "w", driver=driver, schema=schema, **options) as output:
        output.writerecords({"type": "Feature", "geometry": None, "properties": record}
                            for record in values.to_dict("records"))


def field_type(kind: str) -> str:
    """The type of field for a kind of NumPy's types."""
    return {"i": "int", "u": "int", "f": "float", "b": "bool", "M": "datetime"}.get(kind, "str")
