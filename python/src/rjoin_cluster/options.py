"""What may be written on the command line of rjoin-cluster."""
from __future__ import annotations

import argparse
import os
from typing import Any, Sequence

from rjoin_cluster import __version__
from rjoin_cluster.commands import BOUNDS, EDITS, JOIN, NEAR, NEAREST, PAIRS, STATS, WINDOW

BLOCK_BYTES = 32 * 2**20
MOST_SECONDS = 10**6
OF_LAYERS = ("LEFT", "RIGHT")
OF_LAYER = ("LAYER",)

EPILOG = """\
The report is that of one run of rjoin {command} over the same layers, which may have any number of
features, files and bytes; the limits of a run are those of each tile. It appears whole, or not at
all. A pattern such as 'left-*.csv', in quotes, stands for the files whose names fit it, in their
order; a URL such as s3://bucket/left.csv is read by the Python module fsspec.

Exit status: 0 for success, 1 for a fault, with a line on standard error, 2 for invalid arguments,
129, 130 and 143 where it was interrupted"""


def parser() -> argparse.ArgumentParser:
    """What is read of the command line."""
    outer = argparse.ArgumentParser(
        prog="rjoin-cluster", description="Joins layers that are larger than one run takes"
    )
    outer.add_argument("--version", action="version", version=f"%(prog)s {__version__}")
    inner = outer.add_subparsers(dest="command", required=True, metavar="COMMAND")
    by_relation = add_command(inner, JOIN, "joins two layers by a relation")
    by_relation.add_argument(
        "--relation", required=True, help="name of a relation, or mask of nine letters"
    )
    by_relation.add_argument(
        PAIRS, action="store_true", help="only the ids of the pairs, without their matrices"
    )
    near = add_command(inner, NEAR, "joins two layers by a distance")
    near.add_argument("--apart", action="store_true", help="only pairs that share no point")
    nearest = add_command(inner, NEAREST, "finds the nearest right features of each left one")
    nearest.add_argument(
        "--most",
        default="1",
        metavar="N",
        help="how many for each left feature, beside those as far as the last (default: 1)",
    )
    for command in (near, nearest):
        command.add_argument(
            "--distance", required=command is near, metavar="D", help="greatest distance of a pair"
        )
    of_two = (by_relation, near, nearest)
    for command in of_two:
        add_options_of_two_layers(command)
    for command in (*of_two, *layer_commands(inner)):
        add_reading_options(command)
        add_cluster_options(command)
        add_tls_options(command)
        add_output_options(command)
    return outer


def layer_commands(commands: Any) -> Sequence[argparse.ArgumentParser]:
    """The commands of one layer."""
    window = add_command(commands, WINDOW, "finds the features that meet a geometry", OF_LAYER)
    window.add_argument("window", metavar="WKT", help="the geometry, as well-known text")
    stats = add_command(commands, STATS, "counts the features by kind", OF_LAYER)
    bounds = add_command(commands, BOUNDS, "writes the corners of the features", OF_LAYER)
    for command in (window, stats, bounds):
        command.set_defaults(edits=None, skip=None, files=False, tiles=None)
    return window, stats, bounds


def add_command(
    commands: Any, name: str, text: str, layers: Sequence[str] = OF_LAYERS
) -> argparse.ArgumentParser:
    """A command with the files that it reads and writes."""
    command: argparse.ArgumentParser = commands.add_parser(
        name,
        help=text,
        epilog=EPILOG.format(command=name),
        formatter_class=argparse.RawDescriptionHelpFormatter,
    )
    for layer in layers:
        command.add_argument(
            layer.lower(), metavar=layer, help="CSV file, pattern of CSV files, or URL of the layer"
        )
    command.add_argument(
        "--out",
        required=True,
        type=file_name,
        metavar="REPORT",
        help="file or URL that the report is written to",
    )
    return command


def add_options_of_two_layers(options: argparse.ArgumentParser) -> None:
    """Options of joins alone."""
    options.add_argument(
        EDITS, metavar="FILE", help="CSV file of edits, which are applied before the join"
    )
    options.add_argument(
        "--skip",
        type=file_name,
        metavar="FILE",
        help="leave out rows whose geometry cannot be read, and list them in FILE",
    )
    options.add_argument(
        "--tiles",
        type=at_least_one,
        metavar="N",
        help="the least number of tiles (default: chosen by the data)",
    )
    options.add_argument(
        "--files",
        action="store_true",
        help="make REPORT a folder of many files, each with the header, and a manifest",
    )


def add_reading_options(options: argparse.ArgumentParser) -> None:
    """Options of the program, which checks their values."""
    options.add_argument(
        "--scale", default="0", metavar="K", help="decimals that a coordinate may have, 0 to 6, or "
        "to 15 with --geometry any",
    )
    options.add_argument(
        "--round", action="store_true", help="read numbers as the nearest ones of K decimals"
    )
    options.add_argument(
        "--geometry", metavar="KIND", help="box, the default, or any: points, lines and polygons"
    )
    options.add_argument(
        "--rings", metavar="RULE", help="rule for rings of any geometry: proper or even-odd"
    )


def add_cluster_options(options: argparse.ArgumentParser) -> None:
    options.add_argument(
        "--scheduler",
        metavar="ADDRESS",
        help="address of a dask scheduler; without it, threads of this command are the workers",
    )
    options.add_argument(
        "--workers",
        type=at_least_one,
        default=len(os.sched_getaffinity(0)),
        metavar="N",
        help="workers on this machine, without a scheduler (default: one per core)",
    )
    folders = options.add_mutually_exclusive_group()
    folders.add_argument(
        "--folder",
        metavar="FOLDER",
        help="folder or URL that all workers share, for temporary files (default: that of REPORT)",
    )
    folders.add_argument(
        "--resume",
        metavar="FOLDER",
        help="folder of this join, which all workers share and which stays where the join is ended:"
        " the same command then goes on with what is there",
    )
    options.add_argument(
        "--block",
        type=at_least_one,
        default=BLOCK_BYTES,
        metavar="BYTES",
        help="bytes of a file that one task reads (default: %(default)s)",
    )
    options.add_argument(
        "--program",
        metavar="PATH",
        help="the program rjoin (default: $RJOIN, else rjoin on the PATH)",
    )
    options.add_argument(
        "--patience",
        type=seconds,
        default=60.0,
        metavar="SECONDS",
        help="how long to wait for a scheduler, a worker or a sign of life (default: 60)",
    )


def add_tls_options(options: argparse.ArgumentParser) -> None:
    """Options of the names that dask's own commands have."""
    for name, metavar, text in (
        ("ca-file", "FILE", "certificate of the scheduler's and the workers' authority"),
        ("cert", "FILE", "certificate of this command"),
        ("key", "FILE", "private key of this certificate"),
    ):
        options.add_argument(
            f"--tls-{name}", metavar=metavar, help=f"{text}, for a scheduler at tls://"
        )


def add_output_options(options: argparse.ArgumentParser) -> None:
    options.add_argument(
        "--json", action="store_true", help="write figures of the join as JSON to standard output"
    )
    options.add_argument(
        "--verbose", action="store_true", help="write a line per task to standard error"
    )
    options.add_argument(
        "--dashboard",
        action="store_true",
        help="serve dask's dashboard on this machine's loopback address, or print the scheduler's",
    )


def file_name(text: str) -> str:
    """The name of a file, which appears as a whole: standard output would show it in parts."""
    if text == "-":
        raise argparse.ArgumentTypeError("standard output is no file; name one")
    return text


def at_least_one(text: str) -> int:
    if not (text.isascii() and text.isdigit() and int(text) > 0):
        raise argparse.ArgumentTypeError(f"{text!r} is not a whole number, 1 or more")
    return int(text)


def seconds(text: str) -> float:
    try:
        number = float(text)
    except ValueError:
        number = 0.0
    if not 0 < number <= MOST_SECONDS:  # nan is neither
        raise argparse.ArgumentTypeError(
            f"{text!r} is not a number of seconds above 0 and up to {MOST_SECONDS}"
        )
    return number
