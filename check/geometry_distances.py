"""The distance of two geometries, computed plainly and slowly by fractions.

plain_joins has made the folder of `matrix` known.
"""
import math
from fractions import Fraction
from itertools import product

from matrix import POINTS, Edge, Geometry, Vertex, matrix

# The entries of a matrix for the interiors and boundaries of both.
SHARED = (0, 1, 3, 4)


def edges_of(geometry: Geometry) -> list[Edge]:
    """The edges of a geometry, and its single points as edges without a length."""
    if geometry.kind == POINTS:
        return [(vertex, vertex) for path in geometry.paths for vertex in path]
    return list(geometry.edges())


def to_edge(vertex: Vertex, edge: Edge) -> Fraction:
    """The squared distance of a vertex and the nearest point of an edge."""
    (x, y), ((ax, ay), (bx, by)) = vertex, edge
    run, rise = bx - ax, by - ay
    length = run * run + rise * rise
    along = Fraction((x - ax) * run + (y - ay) * rise, length) if length else Fraction(0)
    part = min(max(along, Fraction(0)), Fraction(1))
    return (x - ax - part * run) ** 2 + (y - ay - part * rise) ** 2


def square_of(first: Geometry, second: Geometry) -> Fraction:
    """The squared distance of two closed geometries: 0 where they share a point, by their matrix; where they share
    none, that of the nearest end of an edge and the other's edge."""
    letters = matrix(first, second)
    if any(letters[place] != "F" for place in SHARED):
        return Fraction(0)
    pairs = list(product(edges_of(first), edges_of(second)))
    ends = [to_edge(end, f) for e, f in pairs for end in e] + [to_edge(end, e) for e, f in pairs for end in f]
    return min(ends)


def rounded_root(square: Fraction) -> int:
    """The whole number nearest to the root, the greater of two."""
    doubled = math.isqrt(math.floor(4 * square))
    return (doubled + 1) // 2
