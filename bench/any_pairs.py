#!/usr/bin/env python3
"""Makes pairs of geometries of any direction, to time what relates them.

    bench/any_pairs.py >FILE     a line for each pair: its name, and both as well-known text, with tabs between

Coordinates are whole, and the seed is fixed. Rings are star-shaped: their vertices go round a centre at angles that
ascend, at random distances, so that no two sides cross.
"""
import math
import random
from collections.abc import Iterator

RADIUS = 1_000_000
Vertex = tuple[int, int]
# A name, and both texts.
Pair = tuple[str, str, str]


def star(source: random.Random, size: int, centre: Vertex, radius: int = RADIUS) -> list[Vertex]:
    """The vertices of a ring, from the half of the radius to all of it away from the centre."""
    turns = [(place + source.uniform(0.1, 0.9)) * math.tau / size for place in range(size)]
    lengths = [source.uniform(radius / 2, radius) for _ in turns]
    return [(centre[0] + round(length * math.cos(turn)), centre[1] + round(length * math.sin(turn)))
            for turn, length in zip(turns, lengths)]


def zigzag(source: random.Random, size: int) -> list[Vertex]:
    """The vertices of a line that goes from the left of a ring about (0, 0) to the right of it, up and down."""
    step = 3 * RADIUS // (size - 1)
    return [(place * step - 3 * RADIUS // 2, source.randint(-RADIUS // 2, RADIUS // 2)) for place in range(size)]


def listed(vertices: list[Vertex]) -> str:
    return ", ".join(f"{x} {y}" for x, y in vertices)


def polygon(vertices: list[Vertex]) -> str:
    return f"POLYGON (({listed([*vertices, vertices[0]])}))"


def pairs() -> Iterator[Pair]:
    """All pairs, in order."""
    source = random.Random(20)
    for size in (10, 50, 500):
        ring, other = star(source, size, (0, 0)), star(source, size, (RADIUS // 2, RADIUS // 3))
        yield f"overlapping rings {size}", polygon(ring), polygon(other)
        yield f"rings apart {size}", polygon(ring), polygon(star(source, size, (3 * RADIUS, 0)))
        yield f"line across ring {size}", f"LINESTRING ({listed(zigzag(source, size))})", polygon(ring)
        yield f"ring in ring {size}", polygon(star(source, size, (0, 0), RADIUS // 4)), polygon(ring)
    for size in (10, 100, 1_000, 10_000):
        yield f"point in ring {size}", f"POINT ({RADIUS // 8} {RADIUS // 9})", polygon(star(source, size, (0, 0)))


if __name__ == "__main__":
    for pair in pairs():
        print(*pair, sep="\t")
