"""The matrix of two geometries, computed plainly and slowly with fractions.

The plane is cut by the vertical lines through all vertices and all points that edges share. Between two neighbouring
lines no two edges meet, so the plane is made of cells: points and open segments of these lines, and open segments and
trapezoids between them. A part of a geometry that holds one point of a cell holds the cell, so one point of each tells
what the parts of two geometries share.
"""
from collections.abc import Iterator
from dataclasses import dataclass
from fractions import Fraction
from itertools import combinations

INTERIOR, BOUNDARY, EXTERIOR = range(3)
POINTS, LINES, AREAS = range(3)

Vertex = tuple[int, int]
Path = tuple[Vertex, ...]
Edge = tuple[Vertex, Vertex]
Place = tuple[Fraction, Fraction]
# The place (x / w, y / w) by whole numbers, of which w is above 0.
Point = tuple[int, int, int]


@dataclass(frozen=True)
class Geometry:
    """A geometry by its dimension: points, lines or areas.

    Each path of points is a single vertex. A path of lines is a polyline. A path of areas is a ring, whose last vertex
    is its first one again. No two vertices in a row are equal.
    """

    kind: int
    paths: tuple[Path, ...]

    def edges(self) -> list[Edge]:
        return [edge for path in self.paths for edge in zip(path, path[1:])]


def point_at(place: Place) -> Point:
    x, y = place
    return x.numerator * y.denominator, y.numerator * x.denominator, x.denominator * y.denominator


def side(edge: Edge, point: Point) -> int:
    """The cross product of the edge and of the way from its first end to the point, times w."""
    (ax, ay), (bx, by) = edge
    x, y, w = point
    return (bx - ax) * (y - ay * w) - (by - ay) * (x - ax * w)


def is_at(vertex: Vertex, point: Point) -> bool:
    x, y, w = point
    return vertex[0] * w == x and vertex[1] * w == y


def is_on(edge: Edge, point: Point) -> bool:
    """Whether the point is on the edge, its ends included."""
    (ax, ay), (bx, by) = edge
    x, y, w = point
    return (min(ax, bx) * w <= x <= max(ax, bx) * w and min(ay, by) * w <= y <= max(ay, by) * w
            and side(edge, point) == 0)


def is_below(edge: Edge, point: Point) -> bool:
    """Whether the edge is strictly below the point. Its left end counts and its right end doesn't."""
    a, b = sorted(edge)
    x, _, w = point
    return a[0] * w <= x < b[0] * w and side((a, b), point) > 0


def part_of(geometry: Geometry, point: Point) -> int:
    """The part of the geometry in which the point lies."""
    paths = geometry.paths
    if geometry.kind == POINTS:
        return INTERIOR if any(is_at(path[0], point) for path in paths) else EXTERIOR
    edges = geometry.edges()
    is_on_edge = any(is_on(edge, point) for edge in edges)
    if geometry.kind == LINES:
        ends = sum(is_at(path[0], point) + is_at(path[-1], point) for path in paths)
        if ends % 2 == 1:
            return BOUNDARY
        return INTERIOR if is_on_edge else EXTERIOR
    if is_on_edge:
        return BOUNDARY
    return INTERIOR if sum(is_below(edge, point) for edge in edges) % 2 == 1 else EXTERIOR


def meeting(e: Edge, f: Edge) -> Place | None:
    """The place that two edges share, where they share just one and aren't parallel."""
    (ax, ay), (bx, by) = e
    (cx, cy), (dx, dy) = f
    turn = (bx - ax) * (dy - cy) - (by - ay) * (dx - cx)
    if turn == 0:
        return None
    t = Fraction((cx - ax) * (dy - cy) - (cy - ay) * (dx - cx), turn)
    place = ax + t * (bx - ax), ay + t * (by - ay)
    return place if all(is_on(edge, point_at(place)) for edge in (e, f)) else None


def height(edge: Edge, x: Fraction) -> Fraction:
    """The second coordinate of an edge that isn't vertical, over a first one."""
    (ax, ay), (bx, by) = edge
    return ay + (by - ay) * (x - ax) / (bx - ax)


def between(heights: list[Fraction]) -> list[Fraction]:
    """A number below all of some ascending ones, one between each two neighbours, and one above all."""
    return [heights[0] - 1, *((low + high) / 2 for low, high in zip(heights, heights[1:])), heights[-1] + 1]


def nodes_of(a: Geometry, b: Geometry) -> set[Place]:
    """All vertices, and the places where edges meet."""
    vertices = {(Fraction(x), Fraction(y)) for it in (a, b) for path in it.paths for x, y in path}
    edges = a.edges() + b.edges()
    return vertices | {place for e, f in combinations(edges, 2) if (place := meeting(e, f)) is not None}


def samples(a: Geometry, b: Geometry) -> Iterator[tuple[Place, int]]:
    """A place in each cell with the dimension of the cell, but of those to the left and to the right of everything."""
    nodes = nodes_of(a, b)
    slanted = [sorted(edge) for edge in a.edges() + b.edges() if edge[0][0] != edge[1][0]]
    columns = sorted({x for x, _ in nodes})
    for x in columns:
        heights = sorted({y for column, y in nodes if column == x}
                         | {height((low, high), x) for low, high in slanted if low[0] <= x <= high[0]})
        yield from (((x, y), 0) for y in heights)
        yield from (((x, y), 1) for y in between(heights))
    for left, right in zip(columns, columns[1:]):
        x = (left + right) / 2
        heights = sorted({height((low, high), x) for low, high in slanted if low[0] < x < high[0]})
        yield from (((x, y), 1) for y in heights)
        yield from (((x, y), 2) for y in between(heights or [Fraction(0)]))


def matrix(a: Geometry, b: Geometry) -> str:
    """The nine letters, row by row."""
    entries = [[-1] * 3 for _ in range(3)]
    # To the left of everything there is nothing of either.
    entries[EXTERIOR][EXTERIOR] = 2
    for place, dimension in samples(a, b):
        point = point_at(place)
        row, column = part_of(a, point), part_of(b, point)
        entries[row][column] = max(entries[row][column], dimension)
    return "".join("F012"[entry + 1] for row in entries for entry in row)
