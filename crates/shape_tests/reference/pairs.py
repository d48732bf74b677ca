"""Pairs of geometries to compare on: random ones by their number, and all of a small grid."""
import random
from collections.abc import Iterator
from itertools import combinations, product

from matrix import AREAS, LINES, POINTS, Geometry, Path, Vertex

# Of coordinates, in units.
LIMIT = 10**18
# Up to where geometries are taken from a grid: each of these sizes of numbers has a way of its own in the program.
REACHES = (10**9, 10**12, 10**15, LIMIT, LIMIT)
KINDS = (POINTS, LINES, AREAS)
# How many vertices a random path has at most, and how many paths a geometry.
MOST_VERTICES = 6
MOST_PATHS = 3
SINGLE = {POINTS: "POINT", LINES: "LINESTRING", AREAS: "POLYGON"}
# The grid of the pairs that are all there.
SIDE = 3

Pair = tuple[Geometry, Geometry]


def text_of(geometry: Geometry) -> str:
    """The well-known text. Two rings are one polygon, and three are three, which is the same by the even-odd rule."""
    lists = ["(" + ", ".join(f"{x} {y}" for x, y in path) + ")" for path in geometry.paths]
    name = SINGLE[geometry.kind]
    if geometry.kind == AREAS and len(lists) < 3:
        return f"{name} ({', '.join(lists)})"
    if geometry.kind == AREAS:
        return f"MULTI{name} (({'), ('.join(lists)}))"
    return f"{name} {lists[0]}" if len(lists) == 1 else f"MULTI{name} ({', '.join(lists)})"


def stepped(vertices: list[Vertex]) -> Path:
    """Vertices without those that are equal to the one before."""
    return tuple(vertex for at, vertex in enumerate(vertices) if at == 0 or vertex != vertices[at - 1])


class Maker:
    """Makes random geometries from vertices of a square grid, some of which it takes from those made before."""

    def __init__(self, source: random.Random, side: int) -> None:
        self.source = source
        self.side = side
        self.made: list[Path] = []

    def vertex(self) -> Vertex:
        return self.source.randrange(self.side), self.source.randrange(self.side)

    def vertices(self, size: int) -> list[Vertex]:
        """Vertices of a path: random, or with a stretch of one made before, in either direction."""
        if not self.made or self.source.random() < 0.5:
            return [self.vertex() for _ in range(size)]
        path = self.source.choice(self.made)
        stretch = list(path[self.source.randrange(len(path)):][:size])
        if self.source.random() < 0.5:
            stretch.reverse()
        return stretch + [self.vertex() for _ in range(size - len(stretch))]

    def path(self, kind: int) -> Path:
        """A path of a kind. A ring may cross itself, double back or be flat."""
        if kind == POINTS:
            return self.vertices(1)[0],
        while True:
            vertices = self.vertices(self.source.randint(2 if kind == LINES else 3, MOST_VERTICES))
            is_closed = kind == AREAS or self.source.random() < 0.2
            path = stepped([*vertices, vertices[0]] if is_closed else vertices)
            if len(path) > 1:
                return path

    def geometry(self, kind: int) -> Geometry:
        paths = [self.path(kind) for _ in range(self.source.choice(range(1, MOST_PATHS + 1)))]
        self.made += paths
        # A point that stands twice in a row is read as one.
        return Geometry(kind, tuple(path for at, path in enumerate(paths)
                                    if kind != POINTS or at == 0 or path != paths[at - 1]))


def moved(geometry: Geometry, move: dict[Vertex, Vertex]) -> Geometry:
    return Geometry(geometry.kind, tuple(stepped([move[vertex] for vertex in path]) for path in geometry.paths))


def directions(source: random.Random, most: int) -> tuple[Vertex, Vertex]:
    """Where a linear map takes (1, 0) and (0, 1): anywhere, or to directions that are parallel but for some units, so
    that all lines of the grid are nearly parallel."""
    first = source.randint(-most, most), source.randint(-most, most)
    if source.random() < 0.7:
        return first, (source.randint(-most, most), source.randint(-most, most))
    return first, (first[0] // 2 + source.randint(-3, 3), first[1] // 2 + source.randint(-3, 3))


def spread(source: random.Random, side: int, slip: int) -> dict[Vertex, Vertex]:
    """Where each vertex of a grid goes: by one linear map to coordinates near a limit, and then by up to some units.
    Without these, lines stay lines and what meets still meets."""
    reach = source.choice(REACHES)
    (ax, ay), (bx, by) = directions(source, reach // (2 * side))
    places = {(x, y): (ax * x + bx * y, ay * x + by * y) for x, y in product(range(side), repeat=2)}
    # The whole is moved so that it reaches up to a limit of each coordinate.
    shifts = []
    for values in zip(*places.values()):
        shifts.append(source.choice((reach - slip - max(values), slip - reach - min(values))))
    return {vertex: (x + shifts[0] + source.randint(-slip, slip), y + shifts[1] + source.randint(-slip, slip))
            for vertex, (x, y) in places.items()}


def is_kept(geometry: Geometry) -> bool:
    """Whether each path of it has two vertices still."""
    return geometry.kind == POINTS or all(len(path) > 1 for path in geometry.paths)


def random_pair(number: int) -> Pair:
    """The random pair of a number. Of three in a row the first is on a grid of 3 to 12; the others are taken from such
    a grid to coordinates near a limit, and in the last each vertex is moved by up to two units, so that what would
    meet misses by a hair."""
    source = random.Random(number)
    side = source.randint(3, 12)
    maker = Maker(source, side)
    kinds = KINDS[number // 3 % 3], KINDS[number // 9 % 3]
    pair = maker.geometry(kinds[0]), maker.geometry(kinds[1])
    if number % 3 == 0:
        return pair
    while True:
        move = spread(source, side, 0 if number % 3 == 1 else source.randint(1, 2))
        first, second = (moved(geometry, move) for geometry in pair)
        if is_kept(first) and is_kept(second):
            return first, second


def small_geometries() -> Iterator[Geometry]:
    """All points, segments and triangles of a grid of 3 by 3, flat triangles too, each from one of its vertices in one
    direction."""
    vertices: list[Vertex] = list(product(range(SIDE), range(SIDE)))
    yield from (Geometry(POINTS, ((vertex,),)) for vertex in vertices)
    yield from (Geometry(LINES, (ends,)) for ends in combinations(vertices, 2))
    yield from (Geometry(AREAS, ((*corners, corners[0]),)) for corners in combinations(vertices, 3))


def small_pairs() -> list[Pair]:
    """All pairs of these."""
    return list(product(small_geometries(), small_geometries()))


def turned(geometry: Geometry, number: int) -> Geometry:
    """The same points, segment or triangle from another of its vertices, or in the other direction."""
    path, = geometry.paths
    if geometry.kind == LINES:
        return Geometry(LINES, (path[::-1] if number % 2 else path,))
    if geometry.kind == AREAS:
        corners = (path[:-1] * 2)[number // 2 % 3:][:3]
        corners = corners[::-1] if number % 2 else corners
        return Geometry(AREAS, ((*corners, corners[0]),))
    return geometry
