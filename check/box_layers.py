"""Layers of boxes, made from their kind and size: points, segments parallel to an axis, and rectangles.

Each kind has another way in which many of its ends, sides and corners coincide.
"""
import random
from collections.abc import Callable, Iterator
from math import isqrt

Vertex = tuple[int, int]
Box = tuple[int, int, int, int]
Boxes = Iterator[Box]
Making = Callable[[int, random.Random], Boxes]


def side_of(size: int) -> int:
    """The side of a square in which so many features lie near each other, and not all on one heap."""
    return 4 * isqrt(size) + 4


def placed(size: int, source: random.Random, widths: tuple[int, ...], heights: tuple[int, ...]) -> Boxes:
    side = side_of(size)
    for _ in range(size):
        x, y = source.randrange(side), source.randrange(side)
        yield x, y, x + source.choice(widths), y + source.choice(heights)


def points(size: int, source: random.Random) -> Boxes:
    return placed(size, source, (0,), (0,))


def segments(size: int, source: random.Random) -> Boxes:
    for x1, y1, x2, y2 in placed(size, source, (2, 3, 4), (2, 3, 4)):
        yield (x1, y1, x2, y1) if source.random() < 0.5 else (x1, y1, x1, y2)


def rectangles(size: int, source: random.Random) -> Boxes:
    return placed(size, source, (1, 2, 3, 5), (1, 2, 3, 5))


def mixture(size: int, source: random.Random) -> Boxes:
    return placed(size, source, (0, 1, 2, 4), (0, 1, 2, 4))


def tiles(size: int, _source: random.Random) -> Boxes:
    """Squares side by side."""
    along = isqrt(size) + 1
    return ((4 * x, 4 * y, 4 * x + 4, 4 * y + 4) for x in range(along) for y in range(along))


def blocks(size: int, _source: random.Random) -> Boxes:
    """Two by two such squares each."""
    along = isqrt(size) // 2 + 1
    return ((8 * x, 8 * y, 8 * x + 8, 8 * y + 8) for x in range(along) for y in range(along))


def nests(size: int, source: random.Random) -> Boxes:
    """Rectangles in rectangles, eight a nest, some with a side in common."""
    for at in range(size):
        left, deep = 40 * (at // 8), at % 8
        yield left + deep, deep - source.randrange(2), left + 36 - deep, 36 - deep


def heaps(size: int, source: random.Random) -> Boxes:
    """A few boxes that occur again and again."""
    for at in range(size):
        x = 8 * (at // 16)
        yield x, 0, x + source.choice((0, 4)), source.choice((0, 4))


def combs(size: int, source: random.Random) -> Boxes:
    """Long thin boxes across each other."""
    side = side_of(size)
    for at in range(size):
        long, thin = 40 + source.randrange(9), source.randrange(2)
        x, y = source.randrange(side), source.randrange(side)
        yield (x, y, x + long, y + thin) if at % 2 else (x, y, x + thin, y + long)


def far(size: int, source: random.Random) -> Boxes:
    """Boxes about the corner of the plane where both coordinates are greatest."""
    most = 10 ** 12
    for x1, y1, x2, y2 in mixture(size, source):
        yield most - x2, most - y2, most - x1, most - y1


# The left layer and the right one.
KINDS: dict[str, tuple[Making, Making]] = {
    "points with points": (points, points),
    "points with segments": (points, segments),
    "points with rectangles": (points, rectangles),
    "segments with segments": (segments, segments),
    "segments with rectangles": (segments, rectangles),
    "mixture with mixture": (mixture, mixture),
    "tiles with blocks": (tiles, blocks),
    "nests with nests": (nests, nests),
    "heaps with combs": (heaps, combs),
    "far with far": (far, far),
}


def text_of(box: Box, source: random.Random) -> str:
    """The well-known text, from either end of a segment and any point of a ring, in either direction. Some have further
    points along their sides, of which some stand twice."""
    x1, y1, x2, y2 = box
    if (x1, y1) == (x2, y2):
        return f"POINT ({x1} {y1})"
    corners = [(x1, y1), (x2, y1), (x2, y2), (x1, y2)] if x1 < x2 and y1 < y2 else [(x1, y1), (x2, y2)]
    corners = corners[::source.choice((1, -1))]
    if len(corners) == 2:
        start, end = corners
        return f"LINESTRING ({listed([*side_points(start, end, source), end])})"
    sides = zip(corners, corners[1:] + corners[:1])
    ring = [it for start, end in sides for it in side_points(start, end, source)]
    at = source.randrange(len(ring))
    return f"POLYGON (({listed([*ring[at:], *ring[:at], ring[at]])}))"


def side_points(start: Vertex, end: Vertex, source: random.Random) -> list[Vertex]:
    """The start of a side, and at times one more point of it."""
    if source.random() < 0.8:
        return [start]
    (x1, y1), (x2, y2) = start, end
    return [start, (source.randint(min(x1, x2), max(x1, x2)), source.randint(min(y1, y2), max(y1, y2)))]


def listed(vertices: list[Vertex]) -> str:
    return ", ".join(f"{x} {y}" for x, y in vertices)


def files_of(kind: str, size: int) -> dict[str, bytes]:
    """Both layers of a kind, each of about so many features."""
    source = random.Random(f"{kind} {size}")
    files = {}
    for side, making in zip(("left", "right"), KINDS[kind]):
        rows = (f'{side[0]}{at},"{text_of(box, source)}"\n' for at, box in enumerate(making(size, source)))
        files[f"{side}.csv"] = "".join(["id,wkt\n", *rows]).encode()
    return files
