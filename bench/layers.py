"""Pairs of layers to join, made anew the same from a kind and a size.

Random numbers come from SplitMix64 with a fixed seed, so that every machine makes the same files. Of the kinds that
are regular, `expected` gives the number of pairs by arithmetic.
"""
from __future__ import annotations

from collections.abc import Callable, Iterable, Iterator
from dataclasses import dataclass
from math import isqrt
from pathlib import Path

import irregular
from splitmix import Random


# Coordinates are whole numbers, or texts of decimal ones, here and below.
def point(x: int | str, y: int | str) -> str:
    return f"POINT ({x} {y})"


def segment(x1: int | str, y1: int | str, x2: int | str, y2: int | str) -> str:
    return f"LINESTRING ({x1} {y1}, {x2} {y2})"


def rectangle(x1: int | str, y1: int | str, x2: int | str, y2: int | str) -> str:
    return f"POLYGON (({x1} {y1}, {x2} {y1}, {x2} {y2}, {x1} {y2}, {x1} {y1}))"


def random_points(size: int, random: Random) -> Iterator[str]:
    side = 10 * isqrt(size)
    for _ in range(size):
        yield point(random.below(side), random.below(side))


def random_rectangles(size: int, random: Random) -> Iterator[str]:
    """Rectangles that cover the square about once."""
    side = 10 * isqrt(size)
    for _ in range(size):
        x, y = random.below(side), random.below(side)
        yield rectangle(x, y, x + 1 + random.below(20), y + 1 + random.below(20))


def random_small_rectangles(size: int, random: Random) -> Iterator[str]:
    """Rectangles that cover a sixteenth of the square."""
    side = 10 * isqrt(size)
    for _ in range(size):
        x, y = random.below(side), random.below(side)
        yield rectangle(x, y, x + 1 + random.below(4), y + 1 + random.below(4))


def random_mixture(size: int, random: Random) -> Iterator[str]:
    """Points, segments along either axis and rectangles on a coarse grid, where ends and sides often coincide."""
    side = 4 * isqrt(size)
    for _ in range(size):
        x, y = random.below(side), random.below(side)
        width, height = random.below(5), random.below(5)
        yield shape(x, y, x + width, y + height)


def shape(x1: int | str, y1: int | str, x2: int | str, y2: int | str) -> str:
    if (x1, y1) == (x2, y2):
        return point(x1, y1)
    if x1 == x2 or y1 == y2:
        return segment(x1, y1, x2, y2)
    return rectangle(x1, y1, x2, y2)


PARCEL = 20
BLOCK_PARCELS = 2


def blocks_along(size: int) -> int:
    """How many blocks lie along a side of the cadastre that has about this number of parcels."""
    return max(1, isqrt(size) // BLOCK_PARCELS)


def squares(along: int, side: int) -> Iterator[str]:
    for row in range(along):
        for column in range(along):
            yield rectangle(column * side, row * side, (column + 1) * side, (row + 1) * side)


def parcels(size: int, _random: Random) -> Iterator[str]:
    yield from squares(blocks_along(size) * BLOCK_PARCELS, PARCEL)


def blocks(size: int, _random: Random) -> Iterator[str]:
    """Squares of two by two parcels, which share their sides with each other."""
    yield from squares(blocks_along(size), PARCEL * BLOCK_PARCELS)


TRACKS = 8
PITCH = 10
CELL = 200


def cells(size: int) -> Iterator[tuple[int, int]]:
    """The corners of the cells of a chip, in rows."""
    count = max(1, size // TRACKS)
    along = max(1, isqrt(count))
    for cell in range(count):
        yield (cell % along) * CELL, (cell // along) * CELL


def chip_bars(size: int, _random: Random) -> Iterator[str]:
    """Horizontal bars, eight a cell, that end inside the cell."""
    for x, y in cells(size):
        for track in range(TRACKS):
            low = y + 10 + track * PITCH
            yield rectangle(x + 5, low, x + 95, low + 4)


def chip_wires(size: int, _random: Random) -> Iterator[str]:
    """Vertical wires, eight a cell, every second one without a width, that run over all bars of their cell."""
    for x, y in cells(size):
        for track in range(TRACKS):
            left = x + 10 + track * PITCH
            width = 0 if track % 2 else 4
            yield shape(left, y + 5, left + width, y + 95)


# Joins by distance, by what `Kind.geometry` says of them.
NEAR = ("near", "near any")


@dataclass(frozen=True)
class Kind:
    """Two layers and the relation that they are joined by."""

    left: Callable[[int, Random], Iterator[str]]
    right: Callable[[int, Random], Iterator[str]]
    relation: str
    # What `--geometry` says of the layers; or `near` for boxes and `near any` for any geometry within a distance, and
    # `nearest` for the nearest boxes.
    geometry: str = "box"

    @property
    def distance(self) -> int | None:
        """The distance within which the features of a pair lie, where that is what they are joined by."""
        return int(self.relation.split()[1]) if self.geometry in NEAR else None

    @property
    def most(self) -> int | None:
        """How many of the nearest features are sought, where that is what they are joined by."""
        return int(self.relation.split()[1]) if self.geometry == "nearest" else None


KINDS = {
    "points": Kind(random_points, random_rectangles, "within"),
    "rectangles": Kind(random_rectangles, random_rectangles, "overlaps"),
    "mixture": Kind(random_mixture, random_mixture, "touches"),
    "cadastre": Kind(parcels, blocks, "touches"),
    "chip": Kind(chip_bars, chip_wires, "intersects"),
    "close": Kind(random_small_rectangles, random_small_rectangles, "within 5", "near"),
    "wide": Kind(random_small_rectangles, random_small_rectangles, "within 22", "near"),
    "nearest": Kind(random_points, random_points, "nearest 1", "nearest"),
    "nearest-ten": Kind(random_points, random_points, "nearest 10", "nearest"),
    "parcels": Kind(irregular.parcels, irregular.shifted_parcels, "intersects", "any"),
    "neighbours": Kind(irregular.parcels, irregular.parcels, "touches", "any"),
    "roads": Kind(irregular.roads, irregular.parcels, "crosses", "any"),
    "crossings": Kind(irregular.roads, irregular.roads, "crosses", "any"),
    "zones": Kind(irregular.points, irregular.blobs, "within", "any"),
    "districts": Kind(irregular.points, irregular.districts, "within", "any"),
    "strands": Kind(irregular.left_strands, irregular.right_strands, "intersects", "any"),
    "spirals": Kind(irregular.left_spiral, irregular.right_spiral, "touches", "any"),
    "spikes": Kind(irregular.spots, irregular.spikes, "within", "any"),
    "giants": Kind(irregular.giants, irregular.parcels, "contains", "any"),
    "near-any": Kind(irregular.giants, irregular.parcels, "within 20000", "near any"),
}
BOX_KINDS = {kind: made for kind, made in KINDS.items() if made.geometry == "box"}


def expected(kind: str, relation: str, size: int) -> int | None:
    """The number of pairs where arithmetic tells it, else None."""
    if kind == "cadastre":
        return cadastre_pairs(relation, blocks_along(size))
    if kind == "chip" and relation == "intersects":
        return max(1, size // TRACKS) * TRACKS * TRACKS
    if kind == "neighbours" and relation == "touches":
        return irregular.neighbours(size)
    return {("strands", "intersects"): 0, ("spirals", "touches"): 1}.get((kind, relation))


def cadastre_pairs(relation: str, along: int) -> int | None:
    """Along one axis a block lies over two parcels and meets one more at either end, but for the border's two ends."""
    meeting = (4 * along - 2) ** 2
    inside = (2 * along) ** 2
    return {"intersects": meeting, "within": inside, "touches": meeting - inside, "overlaps": 0}.get(relation)


def write_layer(path: Path, prefix: str, texts: Iterable[str]) -> None:
    with open(path, "w", encoding="ascii") as file:
        file.write("id,wkt\n")
        for number, text in enumerate(texts):
            quoted = f'"{text}"' if "," in text else text
            file.write(f"{prefix}{number},{quoted}\n")


def write_pair(folder: str | Path, kind: str, size: int, seed: int = 2026) -> tuple[Path, Path]:
    """Writes the two layers of a kind and gives their paths."""
    random = Random(seed)
    left, right = Path(folder, f"{kind}-left.csv"), Path(folder, f"{kind}-right.csv")
    write_layer(left, "a", KINDS[kind].left(size, random))
    write_layer(right, "b", KINDS[kind].right(size, random))
    return left, right
