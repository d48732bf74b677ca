"""The command `python3 -m rjoin`, which joins layers of files that GDAL reads."""
from __future__ import annotations

import argparse
import csv
import sys
import warnings
from decimal import Decimal
from math import isfinite
from pathlib import Path
from typing import Any, Callable, Iterator, List, NamedTuple, Optional, Sequence, TextIO, Tuple
from typing import TYPE_CHECKING, Union

from rjoin import outputs, signals
from rjoin.errors import ArgumentError, EnvelopeWarning, LeftOutWarning, Notice, RjoinError
from rjoin.found import VERSION
from rjoin.limits import ANY

if TYPE_CHECKING:
    from rjoin import files

SHOWN = 10
INTERRUPTED = 130
HELP = """\
LEFT and RIGHT are FILE or FILE:LAYER, of any kind that GDAL reads, or CSV with the header id,wkt.
A file may be compressed (.gz), and one of the two may be -, which is standard input.
OUT gets a row for each pair: what identifies the two features, and the nine letters of DE-9IM, or
their distance. Its kind is that of its extension: .csv, .tsv, .gpkg, .shp, .geojson and what else
pandas and GDAL write here; - is standard output, which gets CSV.

Exit status: 0 for success, 1 for a fault of a file or a feature, 2 for invalid arguments"""


def main(words: Optional[Sequence[str]] = None) -> int:
    """Runs the command, and gives its status."""
    arguments = parser().parse_args(words)
    try:
        with signals.cleanly(), warnings.catch_warnings(record=True) as caught:
            warnings.simplefilter("always")
            for kind in (DeprecationWarning, EnvelopeWarning, FutureWarning, LeftOutWarning):
                warnings.simplefilter("ignore", kind)
            notices = run(arguments)
        tell(notices, [str(warning.message) for warning in caught], sys.stderr)
        return 0
    except KeyboardInterrupt:
        print("rjoin: interrupted", file=sys.stderr)
        return INTERRUPTED
    except ArgumentError as fault:
        print(f"rjoin: {fault}", file=sys.stderr)
        return 2
    except RjoinError as fault:
        print(f"rjoin: {fault}", file=sys.stderr)
        return 1


def parser() -> argparse.ArgumentParser:
    known = argparse.ArgumentParser(
        "python3 -m rjoin", description="Joins two layers by a spatial relation, exactly.",
        epilog=HELP, formatter_class=argparse.RawDescriptionHelpFormatter)
    known.add_argument("--version", action="version", version=f"rjoin for Python {VERSION}")
    known.add_argument("left", metavar="LEFT")
    known.add_argument("right", metavar="RIGHT")
    add_questions(known)
    known.add_argument("-o", "--output", metavar="OUT", required=True, type=Path)
    known.add_argument("--overwrite", action="store_true", help="replace OUT if it is there")
    known.add_argument("--geometry", action="store_true",
                       help="add the left feature's geometry; with --how right the right one's")
    known.add_argument("--attributes", action="store_true",
                       help="add the fields of both sides, with _left and _right behind the names "
                            "that both have")
    for side in ("left", "right"):
        known.add_argument(f"--{side}-id", metavar="FIELD",
                           help=f"the field that identifies a {side} feature; by default the id of "
                                "a CSV file with the header id,wkt, and else the row from 0")
    add_reading(known)
    known.add_argument("--workers", metavar="N", type=workers,
                       help="threads, 1 to 16; with auto, one per processor, and 16 at most")
    known.add_argument("--notices", metavar="FILE", type=Path,
                       help="write the features that were left out or replaced by their envelopes "
                            "to a CSV file")
    return known


def add_questions(known: argparse.ArgumentParser) -> None:
    """The options that say which features belong together, and which rows are kept."""
    known.add_argument("--relation", "--predicate", metavar="R",
                       help="intersects, touches, crosses, within, contains, overlaps, equals, "
                            "covers, covered_by, contains_properly, a mask of nine letters, or "
                            "dwithin, which is at most the distance of --distance apart")
    known.add_argument("--nearest", metavar="N", type=int,
                       help="in place of a relation: the N nearest right features of each left "
                            "one, and those that are as far away as the last; with --how right the "
                            "nearest left ones of each right one")
    known.add_argument("--distance", metavar="D", type=distance,
                       help="the greatest distance of a pair, in the units of the coordinates")
    known.add_argument("--how", choices=("inner", "left", "right"), default="inner",
                       help="left or right: the features of this side without a partner have a row "
                            "too, whose other fields are empty")
    known.add_argument("--incomplete", choices=("error", "mark"), default="error",
                       help="treatment of rows whose partner may be a feature that is left out: "
                            "refuse the join, or mark them by False in the field known")


def add_reading(known: argparse.ArgumentParser) -> None:
    """The options that say how layers are read."""
    given = known.add_mutually_exclusive_group()
    given.add_argument("--xy", metavar="X,Y", type=columns(2),
                       help="the fields, such as LON,LAT, of the coordinates of a table, which has "
                            "no geometries by itself")
    given.add_argument("--geometry-column", metavar="FIELD", type=columns(1),
                       help="the field of a table that has geometries as well-known text, "
                            "also with SRID=N; before it, or as hexadecimal well-known binary")
    known.add_argument("--to-crs", action="store_true",
                       help="join the right features as they are in the reference system of the "
                            "left layer, with --decimals auto unless decimals are given")
    known.add_argument("--scale", metavar="K", type=int,
                       help=f"decimals of a coordinate, 0 to {ANY.decimals}; by default as many "
                            "as are needed")
    known.add_argument("--decimals", metavar="K", type=decimals,
                       help=f"round coordinates to K decimals, 0 to {ANY.decimals}, a half away "
                            f"from zero; with auto, to {ANY.decimals} or as many as the range "
                            "allows")
    known.add_argument("--rings", choices=("even-odd", "proper"), default="even-odd",
                       help="treatment of polygons whose rings cross, overlap or are flat: read "
                            "them by the even-odd rule, or refuse them")
    known.add_argument("--other", choices=("error", "envelope", "skip"), default="error",
                       help="treatment of geometries that are no points, lines or polygons; "
                            "envelope replaces all that are no point, axis-parallel segment or "
                            "rectangle, and the field exact of OUT is true for pairs that rest on "
                            "no envelope")
    known.add_argument("--missing", choices=("error", "skip", "keep"), default="error",
                       help="treatment of features whose geometry is empty or missing; kept ones "
                            "have no partner")


def decimals(text: str) -> Union[int, str]:
    """The value of --decimals."""
    return text if text == "auto" else int(text)


def workers(text: str) -> Union[int, str]:
    """The value of --workers."""
    return text if text == "auto" else int(text)


def columns(count: int) -> Callable[[str], Tuple[str, ...]]:
    """The type of an option whose value has the names of so many fields."""
    def named(text: str) -> Tuple[str, ...]:
        names = tuple(text.split(",")) if count > 1 else (text,)
        if len(names) != count or not all(names):
            raise argparse.ArgumentTypeError(f"{text!r} has not the names of {count} fields")
        return names
    return named


def distance(text: str) -> float:
    """The value of --distance, which a float has to hold as it is written."""
    try:
        number = float(text)
        if not isfinite(number) or Decimal(repr(number)) == Decimal(text):
            return number
    except (ValueError, ArithmeticError) as fault:
        raise argparse.ArgumentTypeError(f"{text!r} is no number") from fault
    raise argparse.ArgumentTypeError(f"{text} has more digits than a float")


class Notices(NamedTuple):
    """What the options --other and --missing did to features, and how many rows are inexact.

    kind: what a row is. decimals: those that --decimals auto rounded to, where it rounded any.
    """

    left_out: Tuple[Notice, ...]
    enveloped: Tuple[Notice, ...]
    inexact: int
    rows: int
    kind: str
    decimals: Optional[int]

    def lines(self) -> Iterator[Tuple[Any, ...]]:
        for name, notices in (("left out", self.left_out), ("envelope", self.enveloped)):
            for notice in notices:
                yield (name, *notice)


def run(arguments: argparse.Namespace) -> Notices:
    """Joins, and writes each file whole or not at all."""
    from rjoin import calls, matching, rows

    check_outputs(arguments)
    question = matching.question_of(arguments)
    decimals = calls.auto_after(arguments.to_crs, arguments.scale, arguments.decimals)
    reading = calls.reading_of(arguments.scale, decimals, arguments.rings, arguments.workers)
    left, right = layers(arguments, reading.rounds)
    found = matching.asked((left, right), question, reading, arguments)
    inexact = 0 if found.exact is None else int((~found.exact).sum())
    kind = "pairs" if question.how == "inner" else "rows"
    notices = Notices(found.left_out, found.enveloped, inexact, len(found.matches.pairs), kind,
                      found.decimals if reading.decimals == "auto" else None)
    if arguments.notices:
        write_notices(notices, arguments.notices, arguments.overwrite)
    table = rows.table(left, right, found, question, arguments.attributes, arguments.geometry)
    outputs.write(table, arguments.output, arguments.overwrite)
    return notices


def check_outputs(arguments: argparse.Namespace) -> None:
    """Refuses, before anything is read, outputs that cannot be written."""
    output, notices = arguments.output, arguments.notices
    files = [path for path in (output, notices) if path not in (None, outputs.STANDARD_OUTPUT)]
    for path in files:
        if not path.parent.is_dir():
            raise ArgumentError(f"{path.parent} is no folder")
        outputs.refuse_taken(path, arguments.overwrite)
    if notices == outputs.STANDARD_OUTPUT:
        raise ArgumentError("--notices needs a file")
    if notices and notices.resolve() == output.resolve():
        raise ArgumentError("--output and --notices are the same file")
    outputs.check_kind(output, arguments.geometry)


def layers(arguments: argparse.Namespace, rounds: bool) -> List[Any]:
    """Both layers, their indices what identifies the features."""
    from rjoin import files, streams

    given: Tuple[str, ...] = arguments.xy or arguments.geometry_column or ()
    if {arguments.left, arguments.right} <= set(streams.STANDARD_INPUT):
        raise ArgumentError("standard input can be one of the two layers alone")
    left, right = (files.place_of(text, side) for text, side in (
        (arguments.left, "left"), (arguments.right, "right")))
    if given and not any(files.is_table(place, given) for place in (left, right)):
        raise ArgumentError("--xy and --geometry-column are for tables, and both layers have "
                            "geometries by themselves")
    return [layer(place, side, field, rounds, given)
            for place, side, field in ((left, "left", arguments.left_id),
                                       (right, "right", arguments.right_id))]


def layer(place: "files.Place", side: str, field: Optional[str], rounds: bool,
          given: Tuple[str, ...]) -> Any:
    """The layer, its index what identifies the features."""
    from rjoin import files

    frame = files.read(place, side, rounds, given)
    if field is None and files.is_plain(place):
        field = "id"
    if field is None:
        return frame
    files.check_field([name for name in frame.columns if name != frame.geometry.name], field, side)
    return frame.set_index(field, drop=False)


def write_notices(notices: Notices, path: Path, overwrite: bool) -> None:
    with outputs.placed(path, overwrite) as part:
        with open(part, "w", newline="", encoding="utf-8") as file:
            rows = csv.writer(file, lineterminator="\n")
            rows.writerow(("what", *Notice._fields))
            rows.writerows(notices.lines())


def tell(notices: Notices, warned: List[str], file: TextIO) -> None:
    """Says what differs from a plain join; of many features, only the first."""
    for text in warned:
        print(f"rjoin: warning: {text.splitlines()[0]}", file=file)
    if notices.decimals is not None:
        print(f"rjoin: coordinates are rounded to {notices.decimals} decimals", file=file)
    for name, some in (("left out", notices.left_out), ("replaced by envelope", notices.enveloped)):
        for notice in some[:SHOWN]:
            print(f"rjoin: {name}: {notice.side}: row {notice.row} (feature {notice.feature!r}): "
                  f"{notice.reason}", file=file)
        if len(some) > SHOWN:
            print(f"rjoin: {name}: {len(some) - SHOWN} more; --notices lists all", file=file)
    if notices.enveloped:
        print(f"rjoin: {notices.inexact} of {notices.rows} {notices.kind} rest on an envelope, as "
              "the field exact says", file=file)
