"""Small joins of layers of any geometry, each made from its number.

Features lie on a coarse grid and take stretches of each other, so that ends, sides and vertices coincide; of some joins
the grid is taken to coordinates near a limit, with each vertex moved by up to two units.
"""
import random
import re
from collections.abc import Callable, Iterator
from dataclasses import dataclass

from plain_joins import Layer, decimal_of, field_of, has_proper_rings
# plain_joins has made the folder of these known.
from matrix import AREAS, LINES, POINTS, Geometry, Path
from pairs import LIMIT, Maker, is_kept, moved, spread, text_of

NAMES = ("intersects", "touches", "crosses", "within", "contains", "overlaps", "equals", "covers", "covered_by",
         "contains_properly")
# Entries of a matrix that are empty for disjoint geometries, so that a mask that asks for one of them may be joined by.
SHARED = (0, 1, 3, 4)
IDS = ("north field, upper", 'the "old" mill', "Südweg", "a", " ", "x y")
# Areas with holes, several shells or rings that touch in points: a list of rings each, and of a vertex both digits.
RINGS = (
    "00 60 66 06 00, 22 42 44 24 22",  # a hole
    "00 60 66 06 00, 11 21 22 12 11, 44 54 55 45 44",  # two holes
    "00 40 44 04 00, 42 23 21 42",  # a hole that touches a side
    "00 40 44 04 00, 20 42 24 02 20",  # a hole with each corner on a side
    "00 20 02 00, 40 62 60 40, 22 44 24 22",  # three parts
    "00 40 22 00, 22 44 04 22",  # two parts that touch in a point
    "00 60 66 06 00, 11 51 55 15 11, 22 42 44 24 22",  # an area in the hole of an area
    "00 50 05 00, 11 21 12 11, 21 31 22 21",  # two holes that touch in a point
)
AREAS_OF_RINGS = [[[(int(it[0]), int(it[1])) for it in ring.split()] for ring in rings.split(", ")] for rings in RINGS]


@dataclass(frozen=True)
class Join:
    """Two layers as files, how they are joined, and a window for the left one."""

    name: str
    files: dict[str, bytes]
    relation: str
    digits: int
    rings: str
    window: str


def text_at(geometry: Geometry, digits: int) -> str:
    return re.sub(r"-?\d+", lambda number: decimal_of(int(number[0]), digits), text_of(geometry))


def turned(ring: Path, start: int) -> Path:
    """A ring from another of its vertices, in the other direction."""
    *vertices, _ = ring
    vertices = [*vertices[start:], *vertices[:start]][::-1]
    return *vertices, vertices[0]


class Features:
    """Makes the features of a join: geometries on a grid, and ids."""

    def __init__(self, source: random.Random, rings: str) -> None:
        self.source = source
        self.is_proper = rings == "proper"
        self.side = source.randint(4, 9)
        self.maker = Maker(source, self.side)
        self.drawings: list[Geometry] = []
        self.move = self.moves()

    def moves(self) -> Callable[[Geometry], Geometry]:
        """Where geometries go from the grid: nowhere, to coordinates near a limit, or there with a slip."""
        slip = self.source.choice((None, None, None, 0, 2))
        if slip is None:
            return lambda geometry: geometry
        to = spread(self.source, self.side + 7, slip)
        return lambda geometry: moved(geometry, to)

    def rings(self) -> Geometry:
        """One of the areas of several rings, turned and put somewhere."""
        dx, dy = self.source.randrange(self.side), self.source.randrange(self.side)
        turn, mirror = self.source.random() < 0.5, self.source.random() < 0.5
        made = []
        for ring in self.source.choice(AREAS_OF_RINGS):
            places = ((y, x) if turn else (x, y) for x, y in ring)
            made.append(tuple((dx + (6 - x if mirror else x), dy + y) for x, y in places))
        self.maker.made += made
        return Geometry(AREAS, tuple(made))

    def taken(self, geometry: Geometry) -> Geometry:
        """A geometry that is made of another: the same from another vertex or in the other direction, vertices of it,
        a stretch of it, one of its rings, or an area round it."""
        path = self.source.choice(geometry.paths)
        start = self.source.randrange(len(path))
        match self.source.randrange(5):
            case 0 if geometry.kind == AREAS:
                return Geometry(AREAS, tuple(turned(ring, start % len(ring)) for ring in geometry.paths))
            case 0:
                return Geometry(geometry.kind, tuple(it[::-1] for it in geometry.paths))
            case 1:
                return Geometry(POINTS, tuple((vertex,) for vertex in path[start:start + 2]))
            case 2 if len(path[start:]) > 1:
                return Geometry(LINES, (path[start:],))
            case 3 if geometry.kind == AREAS:
                return Geometry(AREAS, (path,))
        (x, y), (a, b) = ((end(it[0] for it in path), end(it[1] for it in path)) for end in (min, max))
        return Geometry(AREAS, (((x, y), (a + 1, y), (a + 1, b + 1), (x, b + 1), (x, y)),))

    def drawn(self) -> Geometry:
        if self.drawings and self.source.random() < 0.4:
            return self.taken(self.source.choice(self.drawings))
        if self.source.random() < 0.2:
            geometry = self.rings()
        else:
            geometry = self.maker.geometry(self.source.choice((POINTS, LINES, LINES, AREAS, AREAS)))
        self.drawings.append(geometry)
        return geometry

    def geometry(self) -> Geometry:
        """A geometry whose rings are proper if they have to be."""
        while True:
            geometry = self.move(self.drawn())
            is_read = is_kept(geometry) and (not self.is_proper or has_proper_rings(geometry))
            if is_read and all(abs(number) <= LIMIT for path in geometry.paths for it in path for number in it):
                return geometry

    def layer(self) -> Layer:
        """A layer of a few features, some with numbers as ids and some with texts."""
        texts = list(IDS)
        self.source.shuffle(texts)
        names = [str(at) if self.source.random() < 0.8 else texts.pop() for at in range(self.source.randint(2, 7))]
        return {name: self.geometry() for name in names}


def layer_file(layer: Layer, digits: int) -> bytes:
    rows = (f"{field_of(name)},{field_of(text_at(it, digits))}\n" for name, it in layer.items())
    return "".join(["id,wkt\n", *rows]).encode()


def edits_of(features: Features, layers: dict[str, Layer], digits: int) -> Iterator[str]:
    """Rows of edits: deletions, and insertions of ids that are new or were deleted before."""
    held = {side: list(layer) for side, layer in layers.items()}
    gone: dict[str, list[str]] = {side: [] for side in layers}
    for number in range(features.source.randint(1, 8)):
        side = features.source.choice(("left", "right"))
        if held[side] and features.source.random() < 0.5:
            name = held[side].pop(features.source.randrange(len(held[side])))
            gone[side].append(name)
            yield f"delete,{side},{field_of(name)},\n"
        else:
            name = gone[side].pop() if gone[side] and features.source.random() < 0.6 else f"new {number}"
            held[side].append(name)
            yield f"insert,{side},{field_of(name)},{field_of(text_at(features.geometry(), digits))}\n"


def mask_of(source: random.Random) -> str:
    """A mask that doesn't fit for disjoint geometries."""
    letters = [source.choice("TT012F" + 20 * "*") for _ in range(9)]
    letters[source.choice(SHARED)] = source.choice("TTT012")
    return "".join(letters)


def join_of(number: int) -> Join:
    """The join of a number. Of eight in a row seven are by a name and one by a mask; each third has the even-odd rule,
    and each second edits."""
    source = random.Random(f"join {number}")
    rings = "even-odd" if number % 3 == 2 else "proper"
    turn = number % (len(NAMES) + 1)
    relation = NAMES[turn] if turn < len(NAMES) else mask_of(source)
    digits = source.choice((0, 0, 1, 6, 15))
    features = Features(source, rings)
    layers = {"left": features.layer(), "right": features.layer()}
    files = {f"{side}.csv": layer_file(layer, digits) for side, layer in layers.items()}
    if number % 2 == 1:
        rows = edits_of(features, layers, digits)
        files["edits.csv"] = "".join(["op,layer,id,wkt\n", *rows]).encode()
    return Join(f"join {number}", files, relation, digits, rings, text_at(features.geometry(), digits))
