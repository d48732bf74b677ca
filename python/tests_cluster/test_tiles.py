"""Tiles: each point in one of them, each feature dealt where it reaches, and none too full."""
from __future__ import annotations

import numpy as np
import pytest

from rjoin_cluster.answers import Boxes
from rjoin_cluster.tiles import Sample, Tiles, Want, make_tiles


def boxes_of(seed: int, count: int, side: int, size: int) -> Boxes:
    random = np.random.default_rng(seed)
    corners = random.integers(-side, side, (count, 2))
    return np.hstack([corners, corners + random.integers(0, size, (count, 2))])


def tiles_of(left: Boxes, right: Boxes, tiles: int, features: int = 10**6) -> Tiles:
    return make_tiles(Sample(left, 1.0), Sample(right, 1.0), Want(tiles, features))


@pytest.mark.parametrize("wanted", [1, 2, 7, 64])
def test_each_pair_has_its_reference_point_in_one_tile_that_got_both(wanted: int) -> None:
    left, right = boxes_of(1, 300, 40, 12), boxes_of(2, 300, 40, 12)
    tiles = tiles_of(left, right, wanted)
    assert tiles.count >= wanted
    dealt = [
        {tile: set(rows.tolist()) for tile, rows in tiles.deal(side, np.arange(len(side)))}
        for side in (left, right)
    ]
    ones, others = np.mgrid[0:300, 0:300].reshape(2, -1)
    meets = ((left[ones, :2] <= right[others, 2:]) & (right[others, :2] <= left[ones, 2:])).all(1)
    ones, others = ones[meets], others[meets]
    x, y = (np.maximum(left[ones, axis], right[others, axis]) for axis in (0, 1))
    holders = np.zeros(ones.size, dtype=int)
    for tile, region in enumerate(tiles.regions()):
        inside = region.holds(x, y)
        holders += inside
        assert set(ones[inside].tolist()) <= dealt[0].get(tile, set())
        assert set(others[inside].tolist()) <= dealt[1].get(tile, set())
    assert (holders == 1).all()


def test_a_crowd_gets_tiles_of_its_own() -> None:
    crowd = boxes_of(3, 9000, 10, 2)
    spread = boxes_of(4, 1000, 10**6, 2)
    left = np.concatenate([crowd, spread])
    tiles = tiles_of(left, spread, 1, features=800)
    assert max(rows.size for _, rows in tiles.deal(left, np.arange(len(left)))) <= 800


def test_features_that_cover_all_are_not_cut() -> None:
    everywhere = np.tile(np.array([[-5, -5, 5, 5]]), (1000, 1))
    assert tiles_of(everywhere, everywhere, 64, features=10).count == 1


def test_features_in_one_place_are_not_cut() -> None:
    same = np.tile(np.array([[3, 4, 3, 4]]), (1000, 1))
    assert tiles_of(same, same, 64, features=10).count == 1


def test_without_features_there_is_one_tile() -> None:
    none = np.zeros((0, 4), dtype=np.int64)
    assert tiles_of(none, none, 64).count == 1
