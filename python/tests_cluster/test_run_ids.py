"""Ids of the features of a run."""
from __future__ import annotations

import numpy as np
import pytest

from rjoin_cluster.program import MOST_FEATURES
from rjoin_cluster.run_ids import ID_BYTES, letters_of, numbers_of

ALPHABET = bytes(range(ord("0"), ord("o") + 1))


def spelled(number: int) -> bytes:
    """Four digits to the base of 64, the highest first."""
    return bytes(ALPHABET[number // 64**place % 64] for place in (3, 2, 1, 0))


def test_the_id_of_each_feature() -> None:
    assert len(ALPHABET) == 64
    letters = letters_of(MOST_FEATURES)
    assert (numbers_of(letters) == np.arange(MOST_FEATURES)).all()
    text = letters.tobytes()
    for number in (0, 1, 63, 64, 4095, 4096, 262_143, 262_144, MOST_FEATURES - 1):
        assert text[ID_BYTES * number:][:ID_BYTES] == spelled(number)


def test_no_id_is_quoted() -> None:
    assert not set(ALPHABET) & set(b',"\r\n')


@pytest.mark.parametrize("place", range(ID_BYTES))
def test_other_bytes_are_no_letters(place: int) -> None:
    for byte in set(range(256)) - set(ALPHABET):
        text = np.frombuffer(b"0o0o", dtype=np.uint8).copy()
        text[place] = byte
        with pytest.raises(ValueError):
            numbers_of(text.view("<u4"))
