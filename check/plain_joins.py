#!/usr/bin/env python3
"""Joins of layers of any geometry, computed plainly and slowly: all pairs, with their matrices by fractions.

    check/plain_joins.py join LEFT RIGHT --relation R [--edits F] [--scale K] [--round]
    check/plain_joins.py near LEFT RIGHT --distance D [--apart] [--edits F] [--scale K] [--round]
    check/plain_joins.py nearest LEFT RIGHT [--most N] [--distance D] [--edits F] [--scale K] [--round]
    check/plain_joins.py window LAYER WKT [--scale K] [--round]
    check/plain_joins.py bounds LAYER [--scale K] [--round]

write what rjoin has to write for these words with `--geometry any`. Rings are read by the even-odd rule, which agrees
with the other rule wherever that one reads them. The files and words are valid.
"""
import argparse
import csv
import io
import math
import re
import struct
import sys
from collections import Counter
from collections.abc import Callable, Iterator, Sequence
from dataclasses import dataclass
from fractions import Fraction
from itertools import combinations
from pathlib import Path
from typing import Any

ROOT = Path(__file__).resolve().parent.parent
sys.path.append(str(ROOT / "crates/shape_tests/reference"))

from matrix import AREAS, LINES, POINTS, Edge, Geometry, Vertex, matrix, meeting  # noqa: E402
from pairs import stepped  # noqa: E402
from geometry_distances import rounded_root, square_of  # noqa: E402

KINDS = {"POINT": POINTS, "LINESTRING": LINES, "POLYGON": AREAS}
# A list of points with no list in it.
LIST = re.compile(r"\(([^()]*)\)")
# An SRID before a text, and the flag of one in binary.
PREFIX = re.compile(r"^SRID=\d+;", re.IGNORECASE)
SRID = 0x20000000
# Geometries by their ids. What is inserted comes last, as in a layer, also where its id was deleted before.
Layer = dict[str, Geometry]


@dataclass(frozen=True)
class Scale:
    """How decimal numbers become whole ones: in units of the last of some decimals, rounded or not."""

    digits: int = 0
    rounds: bool = False

    def units(self, number: str) -> int:
        """The number in units: the nearest whole one if it is rounded, half a unit away from zero."""
        units = Fraction(number) * Fraction(10) ** self.digits
        if not self.rounds:
            assert units.denominator == 1
            return units.numerator
        nearest = math.floor(abs(units) + Fraction(1, 2))
        return nearest if units >= 0 else -nearest

    def vertex(self, text: str) -> Vertex:
        """The vertex of two decimal numbers."""
        x, y = map(self.units, text.split())
        return x, y


WHOLE = Scale()
# The names of the columns of a layer that names no others.
COLUMNS = "id,wkt"


class Binary:
    """The geometry of well-known binary, and of EWKB with an SRID, read from its start on."""

    def __init__(self, content: bytes, scale: Scale) -> None:
        self.content, self.scale = content, scale
        self.order = "<"

    def take(self, form: str) -> tuple[Any, ...]:
        """The next values of this form, by the byte order of the geometry that is being read."""
        size = struct.calcsize(self.order + form)
        taken, self.content = self.content[:size], self.content[size:]
        return struct.unpack(self.order + form, taken)

    def code(self) -> int:
        """The code of the geometry that begins here; an SRID is read over."""
        [order] = self.take("B")
        self.order = "<" if order else ">"
        [code] = self.take("I")
        if code & SRID:
            self.take("I")
        return int(code & ~SRID)

    def points(self, count: int) -> list[Vertex]:
        """So many points. A double is the number of its shortest decimal, which is that of `repr`."""
        return [self.scale.vertex("{!r} {!r}".format(*self.take("dd"))) for _ in range(count)]

    def lists(self, code: int) -> list[list[Vertex]]:
        """The lists of points of a geometry with this code."""
        if code > len(KINDS):
            return [points for _ in range(self.take("I")[0]) for points in self.lists(self.code())]
        if code == 1:
            return [self.points(1)]
        return [self.points(self.take("I")[0]) for _ in range(1 if code == 2 else self.take("I")[0])]


def geometry_of(text: str, scale: Scale = WHOLE) -> Geometry:
    """The geometry of a well-known text, or of hexadecimal well-known binary. Which polygon a ring belongs to doesn't
    matter to the even-odd rule."""
    text = PREFIX.sub("", text.strip())
    if text.startswith("0"):
        binary = Binary(bytes.fromhex(text), scale)
        code = binary.code()
        return formed(list(KINDS.values())[(code - 1) % len(KINDS)], binary.lists(code))
    kind = KINDS[text.partition("(")[0].strip().upper().removeprefix("MULTI")]
    return formed(kind, [[scale.vertex(point) for point in found.split(",")] for found in LIST.findall(text)])


def formed(kind: int, lists: list[list[Vertex]]) -> Geometry:
    """The geometry of a kind with these lists of points."""
    if kind == POINTS:
        return Geometry(kind, tuple((vertex,) for vertices in lists for vertex in vertices))
    return Geometry(kind, tuple(stepped(vertices) for vertices in lists))


def table_of(content: bytes, delimiter: str = ",") -> list[list[str]]:
    """The header of a file, and its rows."""
    return list(csv.reader(io.StringIO(content.decode("utf-8-sig"), newline=""), delimiter=delimiter))


def rows_of(content: bytes) -> list[list[str]]:
    """The rows of a file behind its header."""
    return table_of(content)[1:]


def layer_of(content: bytes, scale: Scale = WHOLE, columns: str = COLUMNS, delimiter: str = ",") -> Layer:
    """The features of a file, by the columns of these names; a row's id is its number where one column is named."""
    header, *rows = table_of(content, "\t" if delimiter == "tab" else delimiter)
    names = [name.lower() for name in header]
    *ids, geometries = (names.index(name.lower()) for name in columns.split(","))
    return {row[ids[0]] if ids else str(number): geometry_of(row[geometries], scale)
            for number, row in enumerate(rows, 1)}


def add_layout(command: argparse.ArgumentParser) -> None:
    """The options for how the files of layers are laid out."""
    command.add_argument("--columns", default=COLUMNS)
    command.add_argument("--delimiter", default=",")
    for side in ("left", "right"):
        command.add_argument(f"--{side}-columns")
        command.add_argument(f"--{side}-delimiter")


def layouts_of(options: argparse.Namespace) -> list[tuple[str, str]]:
    """The columns of each layer and the character between its fields, by its own options or else those of both."""
    return [(options.left_columns or options.columns, options.left_delimiter or options.delimiter),
            (options.right_columns or options.columns, options.right_delimiter or options.delimiter)]


def edit(left: Layer, right: Layer, content: bytes, scale: Scale = WHOLE) -> None:
    """Makes the edits of a file in order."""
    for operation, side, name, text in rows_of(content):
        layer = {"left": left, "right": right}[side]
        if operation == "delete":
            del layer[name]
        else:
            assert operation == "insert" and name not in layer
            layer[name] = geometry_of(text, scale)


def masks_of(relation: str, a: int, b: int) -> list[str]:
    """The masks of OGC 06-103r4, and of JTS beyond it, for geometries of two dimensions; one of them fits where the
    relation holds."""
    crosses = ["0********"] if a == 1 else []
    overlaps = ["1*T***T**" if a == 1 else "T*T***T**"]
    named = {
        "intersects": ["T********", "*T*******", "***T*****", "****T****"],
        "touches": ["FT*******", "F**T*****", "F***T****"] if a + b > 0 else [],
        "crosses": crosses if a == b else ["T*T******" if a < b else "T*****T**"],
        "within": ["T*F**F***"],
        "contains": ["T*****FF*"],
        "overlaps": overlaps if a == b else [],
        "equals": ["T*F**FFF*"],
        "covers": ["T*****FF*", "*T****FF*", "***T**FF*", "****T*FF*"],
        "covered_by": ["T*F**F***", "*TF**F***", "**FT*F***", "**F*TF***"],
        "contains_properly": ["T**FF*FF*"],
    }
    return named.get(relation, [relation.upper()])


def fits(mask: str, letters: str) -> bool:
    """Whether each place of the mask allows the letter."""
    return all(place in ("*", letter) or (place == "T" and letter != "F") for place, letter in zip(mask, letters))


def matches(left: Layer, right: Layer, relation: str) -> Iterator[tuple[str, str, str]]:
    """The pairs that the relation holds for, each with the letters of its matrix, in the order of the layers."""
    for one, first in left.items():
        for other, second in right.items():
            letters = matrix(first, second)
            if any(fits(mask, letters) for mask in masks_of(relation, first.kind, second.kind)):
                yield one, other, letters


def field_of(text: str) -> str:
    """A field of CSV, with quotes where it needs some."""
    return '"' + text.replace('"', '""') + '"' if set(text) & set(',"\r\n') else text


def near_pairs(left: Layer, right: Layer, asked: argparse.Namespace, scale: Scale) -> Iterator[tuple[str, str, str]]:
    """The pairs that are at most a distance apart, each with its rounded distance, in the order of the layers."""
    units = scale.units(asked.distance)
    for one, first in left.items():
        for other, second in right.items():
            square = square_of(first, second)
            if square <= units * units and not (asked.apart and square == 0):
                yield one, other, decimal_of(rounded_root(square), scale.digits)


def nearest_pairs(left: Layer, right: Layer, asked: argparse.Namespace, scale: Scale) -> Iterator[tuple[str, str, str]]:
    """For each left feature the nearest right ones, and those that are as far away as the last of these."""
    units = scale.units(asked.distance) if asked.distance else None
    for one, first in left.items():
        # A stable sort: features that are as far away as each other stay in the order of the layer.
        row = sorted(((square_of(first, second), other) for other, second in right.items()), key=lambda it: it[0])
        for square, other in row:
            nearer = sum(found < square for found, _ in row)
            if nearer < asked.most and (units is None or square <= units * units):
                yield one, other, decimal_of(rounded_root(square), scale.digits)


def decimal_of(units: int, digits: int) -> str:
    """A number of units as a decimal number, without the zeros at its end."""
    whole, rest = divmod(abs(units), 10 ** digits)
    decimals = f"{rest:0{digits}}".rstrip("0") if digits else ""
    return ("-" if units < 0 else "") + str(whole) + (f".{decimals}" if decimals else "")


def report(rows: Sequence[tuple[str, ...]]) -> bytes:
    return "".join(",".join(map(field_of, row)) + "\n" for row in rows).encode()


def joined(left: Layer, right: Layer, asked: argparse.Namespace) -> bytes:
    """What a join writes of its pairs: all of them or the first of each left feature, or of each left feature how many
    it has, or that it has none."""
    found = list(matches(left, right, asked.relation))
    counts = Counter(one for one, _, _ in found)
    if asked.count:
        return report([("left", "count"), *((one, str(counts[one])) for one in left)])
    if asked.unmatched:
        return report([("left",), *((one,) for one in left if not counts[one])])
    firsts: dict[str, tuple[str, str, str]] = {}
    for record in found:
        firsts.setdefault(record[0], record)
    records = [("left", "right", "matrix"), *(firsts.values() if asked.first else found)]
    if asked.pairs:
        return report([record[:2] for record in records])
    return report(records)


def window(layer: Layer, geometry: Geometry) -> bytes:
    """The list of the features that share a point with a geometry."""
    names = (one for one, _, _ in matches(layer, {"": geometry}, "intersects"))
    return "".join(f"{name}\n" for name in ("id", *map(field_of, names))).encode()


def bounds(layer: Layer) -> bytes:
    """The least and the greatest coordinates of each feature."""
    rows = ["id,x1,y1,x2,y2\n"]
    for name, geometry in layer.items():
        vertices = [vertex for path in geometry.paths for vertex in path]
        corners = (end(vertex[axis] for vertex in vertices) for end in (min, max) for axis in (0, 1))
        rows.append(f"{field_of(name)},{','.join(map(str, corners))}\n")
    return "".join(rows).encode()


def meet_properly(e: Edge, f: Edge) -> bool:
    """Whether two edges share no point, or just one that is an end of one of them."""
    place = meeting(e, f)
    if place is not None:
        return place in {(Fraction(x), Fraction(y)) for x, y in (*e, *f)}
    (ax, ay), (bx, by) = e
    if any((bx - ax) * (y - ay) != (by - ay) * (x - ax) for x, y in f):
        return True  # not on one line
    return max(min(e), min(f)) >= min(max(e), max(f))


def has_proper_rings(geometry: Geometry) -> bool:
    """Whether its rings neither cross, nor run along each other, nor are flat. What isn't an area has no rings."""
    return geometry.kind != AREAS or all(meet_properly(e, f) for e, f in combinations(geometry.edges(), 2))


def options_of(words: list[str]) -> argparse.Namespace:
    """The words as the program reads them; what doesn't change the answer is taken and left."""
    parser = argparse.ArgumentParser(description=__doc__, formatter_class=argparse.RawDescriptionHelpFormatter)
    commands = parser.add_subparsers(dest="command", required=True)
    for name, layers in (("join", 2), ("near", 2), ("nearest", 2), ("window", 1), ("bounds", 1)):
        command = commands.add_parser(name)
        command.add_argument("layers", nargs=layers)
        for option in ("--geometry", "--rings"):
            command.add_argument(option)
        command.add_argument("--scale", type=int, default=0)
        command.add_argument("--round", action="store_true")
        add_layout(command)
    commands.choices["window"].add_argument("wkt")
    commands.choices["join"].add_argument("--relation", required=True)
    for flag in ("--pairs", "--first", "--count", "--unmatched"):
        commands.choices["join"].add_argument(flag, action="store_true")
    commands.choices["near"].add_argument("--distance", required=True)
    commands.choices["near"].add_argument("--apart", action="store_true")
    commands.choices["nearest"].add_argument("--distance")
    commands.choices["nearest"].add_argument("--most", type=int, default=1)
    for name in ("join", "near", "nearest"):
        for option in ("--edits", "--workers", "--batch", "--cut"):
            commands.choices[name].add_argument(option)
    return parser.parse_args(words)


def answer(words: list[str], read: Callable[[str], bytes]) -> bytes:
    """What the program has to write for these words, over the files that lie at the paths."""
    options = options_of(words)
    scale = Scale(options.scale, options.round)
    first, *others = (layer_of(read(path), scale, *layout) for path, layout in zip(options.layers, layouts_of(options)))
    if options.command == "bounds":
        return bounds(first)
    if options.command == "window":
        return window(first, geometry_of(options.wkt, scale))
    if options.edits:
        edit(first, others[0], read(options.edits), scale)
    if options.command == "near":
        return report([("left", "right", "distance"), *near_pairs(first, others[0], options, scale)])
    if options.command == "nearest":
        return report([("left", "right", "distance"), *nearest_pairs(first, others[0], options, scale)])
    return joined(first, others[0], options)


def main(words: list[str]) -> int:
    sys.stdout.buffer.write(answer(words, lambda path: Path(path).read_bytes()))
    return 0


if __name__ == "__main__":
    sys.exit(main(sys.argv[1:]))
