#!/usr/bin/env python3
"""Tests the plain computation of matrices by the worked examples of the crate, and the pairs that are compared."""
import ast
import re
import unittest
from collections import Counter
from pathlib import Path

from matrix import AREAS, LINES, POINTS, Geometry, matrix
from pairs import LIMIT, KINDS, SIDE, random_pair, small_geometries, small_pairs, text_of, turned

EXAMPLES = Path(__file__).resolve().parents[1] / "src/plane_matrices.rt"
DRAWN = r"Drawn<'_> = (.*?);\s*"
EXAMPLE = re.compile(rf'fn (\w+)\(rt: HostRuntime\).*?let a: {DRAWN}let b: {DRAWN}check\(&rt, a, b, b"(.{{9}})"',
                     re.DOTALL)
NUMBERS = (*range(9), 100, 1_000, 19_999)


def drawn(source: str) -> Geometry:
    """The geometry of a kind and the vertices of its paths, as the examples write it."""
    kind, paths = ast.literal_eval(re.sub(r"Kind::(\w+)", r"'\1'", source).replace("&", ""))
    return Geometry({"Points": POINTS, "Lines": LINES, "Areas": AREAS}[kind], tuple(map(tuple, paths)))


def mirrored(geometry: Geometry) -> Geometry:
    """Its mirror image, with the axes exchanged."""
    return Geometry(geometry.kind, tuple(tuple((y, x) for x, y in path) for path in geometry.paths))


class Matrices(unittest.TestCase):
    def test_worked_examples(self) -> None:
        text = EXAMPLES.read_text(encoding="utf-8")
        examples = EXAMPLE.findall(text)
        self.assertEqual(len(examples), text.count("#[test]"))
        for name, a, b, letters in examples:
            with self.subTest(name):
                self.assertEqual(matrix(drawn(a), drawn(b)), letters)

    def test_exchanged(self) -> None:
        for number in NUMBERS:
            first, second = random_pair(number)
            letters = matrix(first, second)
            self.assertEqual(matrix(second, first), "".join(letters[row::3] for row in range(3)))

    def test_mirrored(self) -> None:
        """What is inside of rings doesn't depend on the direction in which edges are counted."""
        for number in NUMBERS:
            first, second = random_pair(number)
            self.assertEqual(matrix(mirrored(first), mirrored(second)), matrix(first, second))


class Pairs(unittest.TestCase):
    def check(self, geometry: Geometry) -> None:
        for path in geometry.paths:
            self.assertTrue(all(abs(x) <= LIMIT and abs(y) <= LIMIT for x, y in path))
            self.assertTrue(all(before != after for before, after in zip(path, path[1:])))
            self.assertTrue(len(path) == 1 if geometry.kind == POINTS else len(path) > 1)
            self.assertTrue(geometry.kind != AREAS or path[0] == path[-1])

    def test_random_pairs(self) -> None:
        kinds: Counter[tuple[int, int]] = Counter()
        for number in range(810):
            first, second = random_pair(number)
            kinds[first.kind, second.kind] += 1
            self.check(first)
            self.check(second)
        self.assertEqual(set(kinds.values()), {90})
        self.assertEqual(len(kinds), len(KINDS) ** 2)

    def test_small_pairs(self) -> None:
        places = SIDE ** 2
        self.assertEqual(len(set(small_pairs())), (places + places * (places - 1) // 2 + 84) ** 2)
        for geometry in small_geometries():
            self.check(geometry)

    def test_turned(self) -> None:
        """A triangle is read from each of its corners in both directions, and has the same sides."""
        triangle = Geometry(AREAS, (((0, 0), (2, 0), (0, 1), (0, 0)),))
        ways = {turned(triangle, number) for number in range(6)}
        self.assertEqual(len(ways), 6)
        sides = {frozenset(frozenset(edge) for edge in way.edges()) for way in ways}
        self.assertEqual(len(sides), 1)

    def test_texts(self) -> None:
        ring, hole = ((0, 0), (4, 0), (0, 4), (0, 0)), ((1, 1), (2, 1), (1, 2), (1, 1))
        self.assertEqual(text_of(Geometry(POINTS, (((1, -2),),))), "POINT (1 -2)")
        self.assertEqual(text_of(Geometry(POINTS, (((1, 2),), ((3, 4),)))), "MULTIPOINT ((1 2), (3 4))")
        self.assertEqual(text_of(Geometry(LINES, (ring[:3],))), "LINESTRING (0 0, 4 0, 0 4)")
        self.assertEqual(text_of(Geometry(AREAS, (ring, hole))),
                         "POLYGON ((0 0, 4 0, 0 4, 0 0), (1 1, 2 1, 1 2, 1 1))")
        self.assertEqual(text_of(Geometry(AREAS, (hole, hole, hole))),
                         f"MULTIPOLYGON ({', '.join(['((1 1, 2 1, 1 2, 1 1))'] * 3)})")


if __name__ == "__main__":
    unittest.main()
