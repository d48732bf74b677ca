"""Where records end: beside a reader that goes byte by byte, as csv-core does."""
from __future__ import annotations

import itertools
import random

import numpy as np
import pytest

from rjoin_cluster.records import (
    Bytes,
    State,
    block_begins,
    record_ends,
    scan,
    scan_ends,
    second_fields,
)

ENDS = "\r\n"
STATES = {
    "start of record": State.FREE,
    "start of field": State.FREE,
    "behind quote": State.FREE,
    "bare": State.BARE,
    "quoted": State.QUOTED,
}


def step(state: str, letter: str) -> str:
    if state == "quoted":
        return "behind quote" if letter == '"' else "quoted"
    if letter == '"' and state != "bare":
        return "quoted"
    if letter in ENDS:
        return "start of record"
    return "start of field" if letter == "," else "bare"


def states_of(text: str, state: str) -> list[str]:
    """The state before each letter, and that behind the last one."""
    return list(itertools.accumulate(text, step, initial=state))


def ends_of(text: str) -> list[int]:
    """The place behind each record."""
    states = states_of(text, "start of record")
    ends = [
        place + 1
        for place, letter in enumerate(text)
        if letter in ENDS and states[place] not in ("quoted", "start of record")
    ]
    return ends + [len(text)] * (states[-1] != "start of record")


def first_line_end(text: str, state: str) -> int | None:
    states = states_of(text, state)
    places = (p + 1 for p, letter in enumerate(text) if letter in ENDS and states[p] != "quoted")
    return next(places, None)


def array_of(text: str) -> Bytes:
    return np.frombuffer(text.encode(), dtype=np.uint8)


@pytest.mark.parametrize("length", [1, 2, 3, 4])
def test_every_short_text_from_every_state(length: int) -> None:
    for letters in itertools.product('a",\n', repeat=length):
        text = "".join(letters)
        passages = scan(array_of(text)).passages
        for name, state in STATES.items():
            assert passages[state].after is STATES[states_of(text, name)[-1]], (text, name)
            assert passages[state].first_end == first_line_end(text, name), (text, name)
        assert record_ends(array_of(text)).tolist() == ends_of(text), text


def test_blocks_hold_whole_records() -> None:
    random.seed(4180)
    for _ in range(800):
        text = "".join(random.choices('a",\n\r"', k=random.randint(1, 60)))
        size = random.randint(1, 12)
        segments = [scan(array_of(text[at:at + size])) for at in range(0, len(text), size)]
        begins = block_begins(segments, size)
        found = []
        for begin, end in zip(begins, [*begins[1:], len(text)]):
            found += [begin + place for place in record_ends(array_of(text[begin:end])).tolist()]
        assert found == ends_of(text), (text, size)


def test_both_ends_tell_what_the_whole_does() -> None:
    """Or nothing, as where a quote of the middle decides."""
    random.seed(4181)
    told = 0
    for _ in range(1500):
        part = array_of("".join(random.choices('a",\n)', k=random.randint(8, 60))))
        ends = random.randint(1, part.size)
        found = scan_ends(part[:ends], part[-ends:], part.size)
        if found is not None:
            assert found.passages == scan(part).passages
            told += 1
    assert told > 150


def test_a_quote_between_both_ends() -> None:
    line = array_of('a,"b,c"\n')
    for middle in ("", '"', '""', ',"', 'a"'):
        text = np.concatenate([line, array_of(middle), line])
        found = scan_ends(line, line, text.size)
        assert found is not None and found.passages == scan(text).passages
    plain = array_of("a,b\n")
    assert scan_ends(plain, plain, 100) is None


def second_fields_by_letters(text: str) -> list[tuple[int, int]]:
    """Where the second field of each record lies, letter by letter."""
    fields: list[tuple[int, int]] = []
    state, begin, comma = "start of record", 0, -1
    for place, letter in enumerate(text + "\n"):
        state = step(state, letter)
        if state == "start of field":
            comma = place
        if state == "start of record":
            if place > begin:
                fields.append((comma + 1, place))
            begin = place + 1
    return fields


@pytest.mark.parametrize("seed", range(300))
def test_second_fields(seed: int) -> None:
    """Of ids that are all bare, and of some that are quoted; between records are empty lines."""
    chance = random.Random(seed)
    names = ["a", "a long name", 'x"y', "", *(['"q"', '"a,b"', '"l\nm"', '"d""d"'] * (seed % 2))]
    shapes = ["POINT (1 2)", '"POLYGON ((0 0, 1 1))"', '"a\nb, c"', '""', "x\ty", '"a""b,c"']
    ends = ["\n", "\r\n", "\n\n", "\r"]
    rows = [
        f"{chance.choice(names)},{chance.choice(shapes)}{chance.choice(ends)}"
        for _ in range(chance.randint(0, 9))
    ]
    text = "".join(rows)
    text = text.rstrip(ENDS) if chance.random() < 0.3 else text
    found = second_fields(np.frombuffer(text.encode(), dtype=np.uint8))
    assert list(map(tuple, found.tolist())) == second_fields_by_letters(text)
