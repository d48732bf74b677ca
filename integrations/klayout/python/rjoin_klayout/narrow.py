"""The narrow place between two shapes that share no point, or between a shape and the outline of
one around it: an edge pair at their least distance."""
from __future__ import annotations

from itertools import product
from math import inf
from typing import List, NamedTuple, Tuple

import pya

from .shapes import Geometry

# The ends of an edge, x and y of each, or the least and the greatest coordinates of a box.
Edge = Tuple[float, float, float, float]
Point = Tuple[float, float]
# Squared distances that differ by less than this share of them, or than this, are the same, since
# they are floats.
SHARE, SLACK = 1e-9, 1e-12


class Narrow(NamedTuple):
    """Two edges that face each other at the least distance, or two points, as edges without a
    length: the first on the left shape, the other on the right one. They run in opposite
    directions, as those of KLayout do."""

    left: Edge
    right: Edge

    def text(self, unit: float) -> str:
        """The edge pair as KLayout writes it, in micrometres."""
        x1, y1, x2, y2 = self.left
        x3, y3, x4, y4 = self.right
        return (f"({x1 * unit:.12g},{y1 * unit:.12g};{x2 * unit:.12g},{y2 * unit:.12g})/"
                f"({x3 * unit:.12g},{y3 * unit:.12g};{x4 * unit:.12g},{y4 * unit:.12g})")

    def edge_pair(self) -> pya.EdgePair:
        """The edge pair in whole database units."""
        return pya.EdgePair(*(pya.Edge(*(round(number) for number in edge)) for edge in self))


def between_boxes(one: Edge, other: Edge) -> Narrow:
    """The narrow place between two boxes: along each axis what they share, or else their nearest
    ends."""
    (west, south, east, north), (west2, south2, east2, north2) = one, other
    if east < west2 or east2 < west:
        x1, x3 = (east, west2) if east < west2 else (west, east2)
        x2, x4 = x1, x3
    else:
        x1 = x3 = west if west > west2 else west2
        x2 = x4 = east if east < east2 else east2
    if north < south2 or north2 < south:
        y1, y3 = (north, south2) if north < south2 else (south, north2)
        y2, y4 = y1, y3
    else:
        y1 = y3 = south if south > south2 else south2
        y2 = y4 = north if north < north2 else north2
    return Narrow((x1, y1, x2, y2), (x4, y4, x3, y3))


class Outline(NamedTuple):
    """The edges of a shape, or the boxes that they are where all are along an axis; of a rectangle
    itself alone. And the bounds of all."""

    edges: List[Edge]
    is_upright: bool
    bounds: Edge

    def near(self, bounds: Edge, reach: float) -> List[Edge]:
        """The edges that are at most so far from a box along both axes."""
        west, south, east, north = (bounds[0] - reach, bounds[1] - reach, bounds[2] + reach,
                                    bounds[3] + reach)
        return [edge for edge in self.edges
                if (edge[0] <= east or edge[2] <= east) and (edge[0] >= west or edge[2] >= west)
                and (edge[1] <= north or edge[3] <= north)
                and (edge[1] >= south or edge[3] >= south)]


def outline_of_box(box: Edge) -> Outline:
    return Outline([box], True, box)


def outline_of(geometry: Geometry) -> Outline:
    """The outline of a shape."""
    figure = geometry.figure
    if geometry.is_box():
        return outline_of_box((figure.left, figure.bottom, figure.right, figure.top))
    if isinstance(figure, pya.Path):
        points = [(point.x, point.y) for point in figure.each_point()]
        return _outline([(*one, *other) for one, other in zip(points, points[1:])])
    return _outline([(edge.x1, edge.y1, edge.x2, edge.y2)
                     for area in geometry.areas for edge in area.each_edge()])


def outline_of_merged(text: str) -> Outline:
    """The outline of a merged area, by its text."""
    edges: List[Edge] = []
    for ring in text[1:-1].split("/"):
        numbers = [int(number) for number in ring.replace(";", ",").split(",")]
        numbers += numbers[:2]
        edges += zip(numbers[::2], numbers[1::2], numbers[2::2], numbers[3::2])
    return _outline(edges)


def _outline(edges: List[Edge]) -> Outline:
    if all(x1 == x2 or y1 == y2 for x1, y1, x2, y2 in edges):
        boxes = [(x1, y1, x2, y2) if x1 <= x2 and y1 <= y2 else (x2, y2, x1, y1)
                 for x1, y1, x2, y2 in edges]
        return Outline(boxes, True, _bounds(boxes))
    return Outline(edges, False, _bounds(edges))


def _bounds(edges: List[Edge]) -> Edge:
    west, south, east, north = zip(*edges)
    return (min(*west, *east), min(*south, *north), max(*west, *east), max(*south, *north))


def edges_of(outline: Outline) -> Outline:
    """The outline by edges also where it is a rectangle, which counts as a box else."""
    if outline.edges != [outline.bounds]:
        return outline
    west, south, east, north = outline.bounds
    return outline._replace(edges=[(west, south, east, south), (east, south, east, north),
                                   (west, north, east, north), (west, south, west, north)])


def between(one: Outline, other: Outline, reach: float) -> Narrow:
    """The narrow place between two shapes or outlines, which are at most `reach` apart; of several,
    one at which edges face each other along most of their length."""
    measure = _between_boxes
    if not (one.is_upright and other.is_upright):
        one, other, measure = edges_of(one), edges_of(other), _between_edges
    least, found = inf, Narrow(one.edges[0], other.edges[0])
    for edge, there in product(one.near(other.bounds, reach), other.near(one.bounds, reach)):
        squared, narrow = measure(edge, there)
        if squared < least * (1 - SHARE) - SLACK or (
                squared <= least * (1 + SHARE) + SLACK and _length(narrow) > _length(found)):
            least, found = squared, narrow
    return found


def _between_boxes(one: Edge, other: Edge) -> Tuple[float, Narrow]:
    """The squared distance of two boxes and their narrow place."""
    narrow = between_boxes(one, other)
    (x1, y1, _, _), (_, _, x2, y2) = narrow
    return (x1 - x2) ** 2 + (y1 - y2) ** 2, narrow


def _between_edges(one: Edge, other: Edge) -> Tuple[float, Narrow]:
    """The squared distance of two edges that don't cross and their narrow place; parallel ones face
    each other along a part of them."""
    ends = [(one[:2], _foot(one[:2], other)), (one[2:], _foot(one[2:], other)),
            (_foot(other[:2], one), other[:2]), (_foot(other[2:], one), other[2:])]
    apart = [(x1 - x2) ** 2 + (y1 - y2) ** 2 for (x1, y1), (x2, y2) in ends]
    least = min(apart)
    nearest = sorted(pair for pair, squared in zip(ends, apart)
                     if squared <= least * (1 + SHARE) + SLACK)
    first, last = nearest[0], nearest[-1]
    return least, Narrow((*first[0], *last[0]), (*last[1], *first[1]))


def _foot(point: Point, edge: Edge) -> Point:
    """The point of an edge that is nearest to a point."""
    (x, y), (x1, y1, x2, y2) = point, edge
    across, up = x2 - x1, y2 - y1
    length = across * across + up * up
    if length == 0:
        return x1, y1
    share = min(1.0, max(0.0, ((x - x1) * across + (y - y1) * up) / length))
    return (x2, y2) if share == 1 else (x1 + share * across, y1 + share * up)


def _length(narrow: Narrow) -> float:
    x1, y1, x2, y2 = narrow.left
    return abs(x1 - x2) + abs(y1 - y2)
