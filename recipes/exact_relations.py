"""The relations of two geometries, computed plainly and slowly with fractions.

All edges of both are cut where they meet. Then the middle of each piece and each end of it lies in one part of either
geometry, and so does the plane on each side of a piece: these places tell all that the parts of both share. A polygon
has what the even-odd rule calls its inside.
"""
from collections import Counter, defaultdict
from collections.abc import Callable, Iterable, Iterator
from fractions import Fraction
from typing import Any

INTERIOR, BOUNDARY, EXTERIOR = range(3)
POINTS, LINES, AREAS = range(3)
KINDS = {"Point": POINTS, "LineString": LINES, "Polygon": AREAS}
# How many strips the edges of a geometry are sorted into.
STRIPS = 64

Place = tuple[Fraction, Fraction]
Edge = tuple[Place, Place]
# What a double stands for, such as Fraction itself, or the shortest decimal that reads as it.
Reading = Callable[[float], Fraction]


def decimal(number: float) -> Fraction:
    """The shortest decimal that reads as a double."""
    return Fraction(repr(number))


class Geometry:
    """A geometry of Shapely by its paths; a path of points is a single place."""

    def __init__(self, geometry: Any, reading: Reading) -> None:
        parts = list(getattr(geometry, "geoms", [geometry]))
        self.kind = KINDS[parts[0].geom_type]
        rings = [ring for part in parts for ring in (
            [part.exterior, *part.interiors] if self.kind == AREAS else [part])]
        self.paths = [[(reading(x), reading(y)) for x, y, *_ in ring.coords] for ring in rings]
        self.edges = [(one, two) for path in self.paths for one, two in zip(path, path[1:]) if one != two]
        ends = Counter(end for path in self.paths for end in (path[0], path[-1]))
        self.ends = {end for end, count in ends.items() if count % 2 == 1} if self.kind == LINES else set()
        self.places = {place for path in self.paths for place in path}
        self.strips = Strips(self.edges)

    def part(self, place: Place) -> int:
        """The part in which a place lies."""
        if self.kind == POINTS:
            return INTERIOR if place in self.places else EXTERIOR
        if place in self.ends:
            return BOUNDARY
        near = self.strips.at(place[0])
        if any(is_on(edge, place) for edge in near):
            return BOUNDARY if self.kind == AREAS else INTERIOR
        return INTERIOR if self.kind == AREAS and parity(near, place) else EXTERIOR

    def sides(self, piece: Edge) -> tuple[int, int]:
        """The parts in which the plane lies beside the middle of a piece, which no edge meets but along it."""
        if self.kind != AREAS:
            return EXTERIOR, EXTERIOR
        (ax, ay), (bx, by) = piece
        x, y = (ax + bx) / 2, (ay + by) / 2
        if ax == bx:  # the plane to the left and to the right of a piece that goes upwards
            left = sum(is_across(edge, y, x) for edge in self.edges) % 2
            along = sum(edge[0][0] == x == edge[1][0] and is_on(edge, (x, y)) for edge in self.edges) % 2
            return (INTERIOR if left else EXTERIOR), (INTERIOR if left ^ along else EXTERIOR)
        near = self.strips.at(x)
        below = parity(near, (x, y))
        along = sum(is_on(edge, (x, y)) for edge in near) % 2
        return (INTERIOR if below else EXTERIOR), (INTERIOR if below ^ along else EXTERIOR)


class Strips:
    """Edges by upright strips of the plane, so that few are looked at for one place."""

    def __init__(self, edges: list[Edge]) -> None:
        numbers = [float(x) for edge in edges for x, _ in edge]
        self.low = min(numbers, default=0.0)
        self.width = (max(numbers, default=0.0) - self.low) / STRIPS or 1.0
        self.edges: dict[int, list[Edge]] = defaultdict(list)
        for edge in edges:
            first, last = sorted(self.strip(x) for x, _ in edge)
            for strip in range(first - 1, last + 2):  # doubles may be beside their fractions
                self.edges[strip].append(edge)

    def strip(self, x: Fraction) -> int:
        return int((float(x) - self.low) / self.width)

    def at(self, x: Fraction) -> list[Edge]:
        return self.edges.get(self.strip(x), [])


def side(edge: Edge, place: Place) -> Fraction:
    (ax, ay), (bx, by) = edge
    return (bx - ax) * (place[1] - ay) - (by - ay) * (place[0] - ax)


def is_on(edge: Edge, place: Place) -> bool:
    (ax, ay), (bx, by) = edge
    x, y = place
    return min(ax, bx) <= x <= max(ax, bx) and min(ay, by) <= y <= max(ay, by) and side(edge, place) == 0


def parity(edges: Iterable[Edge], place: Place) -> int:
    """Whether an odd number of edges lies strictly below a place; their left ends count."""
    count = 0
    for edge in edges:
        low, high = sorted(edge)
        count += low[0] <= place[0] < high[0] and side((low, high), place) > 0
    return count % 2


def is_across(edge: Edge, y: Fraction, x: Fraction) -> bool:
    """Whether an edge crosses the level of y strictly to the left of x; its lower end counts."""
    low, high = sorted(edge, key=lambda place: place[1])
    return low[1] <= y < high[1] and side((low, high), (x, y)) < 0


def meetings(edges: list[Edge]) -> Iterator[tuple[Edge, Place]]:
    """Each edge with each place within it at which another edge meets it."""
    def bounds(edge: Edge) -> tuple[float, ...]:
        (ax, ay), (bx, by) = ((float(x), float(y)) for x, y in edge)
        return min(ax, bx), max(ax, bx), min(ay, by), max(ay, by)
    known = sorted(((*bounds(edge), edge) for edge in edges), key=lambda it: it[:4])
    for number, (_, right, low, high, one) in enumerate(known):
        for other_left, _, other_low, other_high, two in known[number + 1:]:
            if other_left > right:
                break
            if other_low <= high and low <= other_high:
                for place in met(one, two):
                    yield one, place
                    yield two, place


def met(one: Edge, two: Edge) -> list[Place]:
    """The places at which two edges meet, or the ends of what they have in common."""
    (ax, ay), (bx, by) = one
    (cx, cy), (dx, dy) = two
    turn = (bx - ax) * (dy - cy) - (by - ay) * (dx - cx)
    if turn == 0:
        return [end for end in (*one, *two) if is_on(one, end) and is_on(two, end)]
    share = ((cx - ax) * (dy - cy) - (cy - ay) * (dx - cx)) / turn
    if not 0 <= share <= 1:
        return []
    place = ax + share * (bx - ax), ay + share * (by - ay)
    return [place] if is_on(two, place) else []


def pieces(edges: list[Edge]) -> set[Edge]:
    """The edges, cut where they meet."""
    cuts: dict[Edge, set[Place]] = {edge: set(edge) for edge in edges}
    for edge, place in meetings(list(cuts)):
        cuts[edge].add(place)
    return {pair for places in cuts.values() for it in [sorted(places)] for pair in zip(it, it[1:])}


def matrix(one: Geometry, two: Geometry) -> str:
    """The nine letters of DE-9IM."""
    found = [[-1] * 3 for _ in range(3)]
    found[EXTERIOR][EXTERIOR] = 2

    def note(parts: tuple[int, int], dimension: int) -> None:
        row, column = parts
        found[row][column] = max(found[row][column], dimension)
    places = {*one.places, *two.places}
    for piece in pieces(one.edges + two.edges):
        (ax, ay), (bx, by) = piece
        middle = (ax + bx) / 2, (ay + by) / 2
        note((one.part(middle), two.part(middle)), 1)
        for parts in zip(one.sides(piece), two.sides(piece)):
            note(parts, 2)
        places |= {*piece}
    for place in places:
        note((one.part(place), two.part(place)), 0)
    return "".join("F012"[dimension + 1] for row in found for dimension in row)


def fits(letters: str, mask: str) -> bool:
    return all(wanted == "*" or letter == wanted or (wanted == "T" and letter in "012")
               for letter, wanted in zip(letters, mask))


# The masks of each relation; of some they depend on the dimensions of both geometries.
MASKS = {"intersects": ("T********", "*T*******", "***T*****", "****T****"),
         "within": ("T*F**F***",), "contains": ("T*****FF*",), "equals": ("T*F**FFF*",),
         "touches": ("FT*******", "F**T*****", "F***T****"),
         "covers": ("T*****FF*", "*T****FF*", "***T**FF*", "****T*FF*"),
         "covered_by": ("T*F**F***", "*TF**F***", "**FT*F***", "**F*TF***"),
         "contains_properly": ("T**FF*FF*",)}


def stands(relation: str, letters: str, one: int, two: int) -> bool:
    """Whether geometries of these dimensions stand in a relation, by their letters."""
    if relation == "crosses":
        masks = ("0********",) if one == two == LINES else ("T*T******",) if one < two else (
            ("T*****T**",) if one > two else ())
    elif relation == "overlaps":
        masks = () if one != two else ("1*T***T**",) if one == LINES else ("T*T***T**",)
    else:
        masks = MASKS[relation]
    return any(fits(letters, mask) for mask in masks)


RELATIONS = (*MASKS, "crosses", "overlaps")
