"""Texts of layers of any geometry: parcels that share their sides, roads, points, and areas of many vertices.

All lie in one square, whose side grows with the size, so that a layer is as dense at each size. Parcels lie in rows
between streets. A street is a polyline that the parcels of the rows on both sides of it share, but each row is cut into
parcels at other vertices of its streets, as in a cadastre that grew. Parcels of one seed are the same in each layer.
"""
import math
from collections.abc import Iterator
from itertools import pairwise
from math import isqrt

from splitmix import Random

Vertex = tuple[int, int]
# Between two vertices of a street, about; how many of these steps a parcel is long on average, and a row deep.
STEP = 10_000
STEPS = 4
DEPTH = STEPS * STEP
# How far a vertex is away from where it would be in a grid, at most. No two sides can cross.
JITTER = STEP // 4
PARCEL_SEED, SHIFTED_SEED = 7, 11
DIRECTIONS = 64
WAYS = [(round(1_000 * math.cos(turn * math.tau / DIRECTIONS)), round(1_000 * math.sin(turn * math.tau / DIRECTIONS)))
        for turn in range(DIRECTIONS)]
# Vertices of an area, and for a giant, how many features of the other layer there are to one.
BLOB_VERTICES = 100
GIANT_VERTICES = 100_000
FEATURES_A_GIANT = 6_000
# How many points there are to a district.
POINTS_A_DISTRICT = 100
# How many features of the other kinds there are to a strand, to two spikes and to a spot, and how many vertices of a
# spiral to a feature.
FEATURES_A_STRAND, FEATURES_A_SPIKE, FEATURES_A_SPOT, VERTICES_A_FEATURE = 10, 5, 200, 6
STRAND_VERTICES = 10
LEAST_VERTICES = 100


def side_of(size: int) -> int:
    """The side of the square for so many features."""
    return isqrt(size) * DEPTH


def listed(vertices: list[Vertex]) -> str:
    return ", ".join(f"{x} {y}" for x, y in vertices)


def polygon(vertices: list[Vertex]) -> str:
    return f"POLYGON (({listed([*vertices, vertices[0]])}))"


def cuts_of(size: int, seed: int) -> list[list[int]]:
    """For each row of parcels, at which vertices of its streets it is cut, its two ends among them."""
    random, along, rows = Random(seed), isqrt(size), []
    for _ in range(along):
        cuts = [0]
        while STEPS * along - cuts[-1] > STEPS + 2:
            cuts.append(cuts[-1] + 2 + random.below(STEPS + 1))
        rows.append([*cuts, STEPS * along])
    return rows


def street(row: int, length: int, random: Random) -> list[Vertex]:
    """The vertices of the street below a row."""
    return [(random.about(at * STEP, JITTER), random.about(row * DEPTH, JITTER)) for at in range(length + 1)]


def fence(row: int, at: int, random: Random) -> list[Vertex]:
    """Up to four vertices between two streets, upwards."""
    count = random.below(5)
    return [(random.about(at * STEP, JITTER), row * DEPTH + JITTER + (DEPTH - 2 * JITTER) * place // (count + 1))
            for place in range(1, count + 1)]


def cadastre(size: int, seed: int) -> Iterator[list[Vertex]]:
    """The rings of all parcels, row by row."""
    random = Random(seed + 1)
    rows = cuts_of(size, seed)
    below = street(0, rows[0][-1], random)
    for row, cuts in enumerate(rows):
        above = street(row + 1, cuts[-1], random)
        fences = {at: fence(row, at, random) for at in cuts}
        for left, right in pairwise(cuts):
            yield [*below[left:right + 1], *fences[right], *above[left:right + 1][::-1], *fences[left][::-1]]
        below = above


def parcels(size: int, _random: Random) -> Iterator[str]:
    return (polygon(ring) for ring in cadastre(size, PARCEL_SEED))


def shifted_parcels(size: int, _random: Random) -> Iterator[str]:
    """Other parcels, half a row away."""
    for ring in cadastre(size, SHIFTED_SEED):
        yield polygon([(x + DEPTH // 2, y + DEPTH // 2) for x, y in ring])


def neighbours(size: int) -> int:
    """How many pairs of two parcels touch, each in both orders.

    Two do in a row one after the other. Of two rows with m and n parcels, m + n - 1 pairs would share a stretch of the
    street between them if no two cuts were at one vertex; for each such vertex there is one more, as two pairs share
    the vertex alone, and one fewer shares a stretch.
    """
    rows = cuts_of(size, PARCEL_SEED)
    inner = [set(cuts[1:-1]) for cuts in rows]
    in_rows = sum(map(len, inner))
    across = sum(len(one) + len(other) + 1 + len(one & other) for one, other in pairwise(inner))
    return 2 * (in_rows + across)


def roads(size: int, random: Random) -> Iterator[str]:
    """Polylines of 2 to 33 vertices that turn a little at each."""
    side = side_of(size)
    for _ in range(size):
        x, y, heading = random.below(side), random.below(side), random.below(DIRECTIONS)
        vertices = [(x, y)]
        for _ in range(1 + random.below(2 << random.below(5))):
            heading = random.about(heading, DIRECTIONS // 10) % DIRECTIONS
            length = STEP + random.below(2 * STEP)
            x, y = (number + length * part // 1_000 for number, part in zip((x, y), WAYS[heading]))
            vertices.append((x, y))
        yield f"LINESTRING ({listed(vertices)})"


def points_in(count: int, side: int, random: Random) -> Iterator[str]:
    return (f"POINT ({random.below(side)} {random.below(side)})" for _ in range(count))


def points(size: int, random: Random) -> Iterator[str]:
    return points_in(size, side_of(size), random)


def on_circle(centre: Vertex, radius: float, turn: float) -> Vertex:
    return centre[0] + round(radius * math.cos(turn)), centre[1] + round(radius * math.sin(turn))


def star(centre: Vertex, radius: int, size: int, random: Random) -> list[Vertex]:
    """The vertices of a ring that goes once round its centre, from half of the radius to all of it away from it."""
    length, most, vertices = radius, 1 + 12 * radius // size, []
    for place in range(size):
        length = min(max(random.about(length, most), radius // 2), radius)
        vertices.append(on_circle(centre, length, place * math.tau / size))
    return vertices


def areas(count: int, side: int, radius: int, random: Random) -> Iterator[str]:
    for _ in range(count):
        centre = random.below(side), random.below(side)
        yield polygon(star(centre, radius, BLOB_VERTICES, random))


def blobs(size: int, random: Random) -> Iterator[str]:
    """Areas of a hundred vertices, as large as parcels."""
    return areas(size, side_of(size), 3 * DEPTH // 5, random)


def districts(size: int, random: Random) -> Iterator[str]:
    """Few such areas, each as large as a hundred parcels."""
    return areas(max(1, size // POINTS_A_DISTRICT), side_of(size), 3 * DEPTH // 5 * isqrt(POINTS_A_DISTRICT), random)


def giants(size: int, random: Random) -> Iterator[str]:
    """A few areas of a hundred thousand vertices, each as wide as half of the square."""
    quarter = side_of(size) // 4
    for _ in range(max(1, size // FEATURES_A_GIANT)):
        centre = quarter + random.below(2 * quarter), quarter + random.below(2 * quarter)
        yield polygon(star(centre, quarter, GIANT_VERTICES, random))


def strand(start: int, length: int, random: Random) -> str:
    """A polyline across the square, aslant."""
    steps = range(STRAND_VERTICES)
    vertices = [(random.about(start + at * length // steps[-1], JITTER), at * length // steps[-1]) for at in steps]
    return f"LINESTRING ({listed(vertices)})"


def strands(size: int, place: int, random: Random) -> Iterator[str]:
    """Every second one of polylines beside each other, from this place on: the boxes of all meet, and no lines do."""
    count = max(1, size // FEATURES_A_STRAND)
    for at in range(count):
        yield strand((2 * at + place) * STEP, 2 * count * STEP, random)


def left_strands(size: int, random: Random) -> Iterator[str]:
    return strands(size, 0, random)


def right_strands(size: int, random: Random) -> Iterator[str]:
    return strands(size, 1, random)


def spiral(size: int, turned: float) -> Iterator[str]:
    """A polyline from (0, 0) outwards, of as many turns as a turn has vertices. This number is even, so that the
    vertices of two spirals lie on the same rays, and no edges cross."""
    count = max(LEAST_VERTICES, VERTICES_A_FEATURE * size)
    turn = math.tau / (isqrt(count) // 2 * 2)
    yield f"LINESTRING ({listed([on_circle((0, 0), STEP * at, turned + at * turn) for at in range(count)])})"


def left_spiral(size: int, _random: Random) -> Iterator[str]:
    return spiral(size, 0)


def right_spiral(size: int, _random: Random) -> Iterator[str]:
    """Between the turns of the left one; they share their first point."""
    return spiral(size, math.pi)


def spikes(size: int, _random: Random) -> Iterator[str]:
    """One star of long thin spikes."""
    count, radius = max(3, 2 * size // FEATURES_A_SPIKE), side_of(size) // 2
    yield polygon([on_circle((radius, radius), radius // 10 if at % 2 else radius, at * math.pi / count)
                   for at in range(2 * count)])


def spots(size: int, random: Random) -> Iterator[str]:
    """A few points."""
    return points_in(max(1, size // FEATURES_A_SPOT), side_of(size), random)
