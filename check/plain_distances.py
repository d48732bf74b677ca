#!/usr/bin/env python3
"""Joins of layers of boxes by distance, computed plainly and slowly: all pairs, with their distances.

    check/plain_distances.py near LEFT RIGHT --distance D [--apart] [--edits F] [--scale K] [--round]
    check/plain_distances.py nearest LEFT RIGHT [--most N] [--distance D] [--edits F] [--scale K] [--round]

write what rjoin has to write for these words. The files and words are valid.
"""
import argparse
import sys
from bisect import bisect_left
from collections.abc import Callable, Iterator
from math import isqrt
from pathlib import Path

from plain_joins import Layer, Scale, add_layout, decimal_of, edit, field_of, layer_of, layouts_of

Box = tuple[int, int, int, int]
# The ids of a pair, and the square of its distance.
Pair = tuple[str, str, int]


def boxes_of(layer: Layer) -> dict[str, Box]:
    """The least and the greatest coordinates of each feature."""
    boxes = {}
    for name, geometry in layer.items():
        xs, ys = zip(*(vertex for path in geometry.paths for vertex in path))
        boxes[name] = (min(xs), min(ys), max(xs), max(ys))
    return boxes


def square_of(a: Box, b: Box) -> int:
    """The square of the distance of two boxes, by how far they are apart along each axis."""
    across = max(0, a[0] - b[2], b[0] - a[2])
    along = max(0, a[1] - b[3], b[1] - a[3])
    return across * across + along * along


def near(left: dict[str, Box], right: dict[str, Box], within: int, apart: bool) -> Iterator[Pair]:
    """The pairs that are at most this far apart; if `apart`, those that share no point."""
    for one, first in left.items():
        for other, second in right.items():
            square = square_of(first, second)
            if square <= within * within and not (apart and square == 0):
                yield one, other, square


def nearest(left: dict[str, Box], right: dict[str, Box], most: int, within: int | None) -> Iterator[Pair]:
    """For each left feature the nearest right ones, and those that are as far away as the last of these."""
    for one, first in left.items():
        # A stable sort: features that are as far away as each other stay in the order of the layer.
        row = sorted(((square_of(first, second), other) for other, second in right.items()), key=lambda it: it[0])
        squares = [square for square, _ in row]
        for square, other in row:
            nearer = bisect_left(squares, square)
            if nearer < most and (within is None or square <= within * within):
                yield one, other, square


def root_of(square: int) -> int:
    """The nearest whole number to the root: from half a unit above a whole number on, the next one."""
    root = isqrt(square)
    return root + 1 if 4 * square >= (2 * root + 1) ** 2 else root


def report(pairs: Iterator[Pair], digits: int) -> bytes:
    rows = ((field_of(one), field_of(other), decimal_of(root_of(square), digits)) for one, other, square in pairs)
    return "".join(["left,right,distance\n", *(",".join(row) + "\n" for row in rows)]).encode()


def options_of(words: list[str]) -> argparse.Namespace:
    """The words as the program reads them; what doesn't change the answer is taken and left."""
    parser = argparse.ArgumentParser(description=__doc__, formatter_class=argparse.RawDescriptionHelpFormatter)
    commands = parser.add_subparsers(dest="command", required=True)
    for name in ("near", "nearest"):
        command = commands.add_parser(name)
        command.add_argument("layers", nargs=2)
        command.add_argument("--distance", required=name == "near")
        command.add_argument("--scale", type=int, default=0)
        command.add_argument("--round", action="store_true")
        add_layout(command)
        for option in ("--edits", "--workers", "--batch", "--cut"):
            command.add_argument(option)
    commands.choices["near"].add_argument("--apart", action="store_true")
    commands.choices["nearest"].add_argument("--most", type=int, default=1)
    return parser.parse_args(words)


def answer(words: list[str], read: Callable[[str], bytes]) -> bytes:
    """What the program has to write for these words, over the files that lie at the paths."""
    options = options_of(words)
    scale = Scale(options.scale, options.round)
    layouts = layouts_of(options)
    first, second = (layer_of(read(path), scale, *layout) for path, layout in zip(options.layers, layouts))
    if options.edits:
        edit(first, second, read(options.edits), scale)
    left, right = boxes_of(first), boxes_of(second)
    within = None if options.distance is None else scale.units(options.distance)
    if options.command == "near":
        assert within is not None
        return report(near(left, right, within, options.apart), options.scale)
    return report(nearest(left, right, options.most, within), options.scale)


def main(words: list[str]) -> int:
    sys.stdout.buffer.write(answer(words, lambda path: Path(path).read_bytes()))
    return 0


if __name__ == "__main__":
    sys.exit(main(sys.argv[1:]))
