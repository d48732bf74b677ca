"""Boxes that are written anew for a run."""
from __future__ import annotations

import numpy as np
import pytest
from conftest import Tools, quoted, write_layer

from rjoin_cluster.answers import Boxes
from rjoin_cluster.box_layers import ROWS_AT_ONCE, Numerals, Spelling, layer_texts, spelling_of
from rjoin_cluster.run_ids import letters_of

BOXES = np.array([[1_000_007, -9_000_001, 1_000_107, -9_000_001], [1_000_000, -9_000_005] * 2])


def text_of(boxes: Boxes, spelling: Spelling) -> bytes:
    return b"".join(rows.tobytes() for rows in layer_texts(boxes, spelling))


def test_boxes_are_moved_together() -> None:
    """By one vector, so that the least corner of all is the origin, and then written shorter."""
    spelling = spelling_of([BOXES[:1], BOXES[1:]], Numerals(7, True))
    assert spelling == Spelling(Numerals(3, False), (1_000_000, -9_000_005))
    for boxes, begin in (
        (BOXES[:1], b'0000,"LINESTRING(007 004,107 004) '), (BOXES[1:], b'0000,"POINT(000 000) ')
    ):
        text = text_of(boxes, spelling)
        assert text.startswith(begin) and text.endswith(b' "\n')


@pytest.mark.parametrize("low, high", [(0, 9), (-(10**12), 10**12)])
def test_boxes_whose_numbers_get_no_shorter_stay(low: int, high: int) -> None:
    """Also where they would leave the plane."""
    boxes = [np.array([[low, low, low, low]]), np.array([[high, high, high, high]])]
    numerals = Numerals(len(str(high)), low < 0)
    assert spelling_of(boxes, numerals) == Spelling(numerals)
    assert spelling_of([boxes[0], boxes[1][:0]], numerals) == Spelling(numerals)


def spelled(box: list[int], digits: int) -> str:
    """A box in numbers of so many digits."""
    x1, y1, x2, y2 = (f"{number:0{digits}}" for number in box)
    if box[:2] == box[2:]:
        return f"POINT({x1} {y1})"
    if box[0] == box[2] or box[1] == box[3]:
        return f"LINESTRING({x1} {y1},{x2} {y2})"
    return f"POLYGON(({x1} {y1},{x2} {y1},{x2} {y2},{x1} {y2},{x1} {y1}))"


@pytest.mark.parametrize("least", [0, 1])
@pytest.mark.parametrize("digits", range(1, 10))
def test_rows_of_numbers_of_each_length(digits: int, least: int) -> None:
    """Of all forms, and of rectangles alone."""
    chance = np.random.default_rng(digits)
    low = chance.integers(0, 10**digits - 4, (ROWS_AT_ONCE + 9, 2))
    boxes = np.concatenate([low, low + chance.integers(least, 4, low.shape)], axis=1)
    text = text_of(boxes, Spelling(Numerals(digits, False)))
    rows = [line.split(",", 1) for line in text.decode().splitlines()]
    assert "".join(name for name, _ in rows).encode() == letters_of(len(boxes)).tobytes()
    shapes = [f'"{spelled(box, digits)}"' for box in boxes.tolist()]
    assert [shape[:-1].rstrip() + shape[-1] for _, shape in rows] == shapes


def test_far_from_the_origin(tools: Tools) -> None:
    """At the ends of the plane, where ranges are small and coordinates long."""
    far = 10**12
    rows = []
    for number in range(200):
        x, y = far - 90 + number % 80, -far + number % 70
        shape = f"POLYGON (({x} {y}, {x + 9} {y}, {x + 9} {y + 7}, {x} {y + 7}, {x} {y}))"
        rows.append((f"n{number}", quoted(shape)))
    left = write_layer(tools.folder / "left.csv", rows)
    right = write_layer(tools.folder / "right.csv", [*rows[::-3], ("origin", "POINT (0 0)")])
    for relation in ("touches", "overlaps", "equals"):
        tools.check_same(left, right, relation, "0", "--tiles", "9", "--block", "3000")
