"""What `rjoin bounds` answers is read as it is written, and refused where it has another form."""
from __future__ import annotations

import random
from typing import Sequence

import numpy as np
import pytest

from rjoin_cluster import answers
from rjoin_cluster.faults import RunFailed
from rjoin_cluster.records import Bytes

LIMIT = 10**18
LETTERS = 'a",\n\r ü-'
HEADER = answers.HEADER.decode()

Row = tuple[str, list[int]]


def random_rows(count: int, seed: int) -> list[Row]:
    """Ids of which most need quotes, and numbers of all lengths."""
    chance = random.Random(seed)
    rows = []
    for _ in range(count):
        name = "".join(chance.choices(LETTERS, k=chance.randint(1, 20)))
        most = 10 ** chance.randint(0, 18)
        rows.append((name, [chance.randint(-most, most) for _ in range(4)]))
    return rows


def bytes_of(text: str) -> Bytes:
    return np.frombuffer(text.encode(), dtype=np.uint8)


def field_of(name: str) -> str:
    doubled = name.replace('"', '""')
    return f'"{doubled}"' if set(name) & set('",\r\n') else name


def answer_of(rows: Sequence[Row]) -> Bytes:
    lines = (",".join([field_of(name), *map(str, box)]) for name, box in rows)
    return bytes_of(HEADER + "".join(f"{line}\n" for line in lines))


def names_in(features: answers.Features) -> list[str]:
    return [bytes(row).rstrip(b"\xff").decode() for row in features.ids]


@pytest.mark.parametrize("rows_at_once", [1, 7, 1000])
def test_each_row_is_read(monkeypatch: pytest.MonkeyPatch, rows_at_once: int) -> None:
    monkeypatch.setattr(answers, "ROWS_AT_ONCE", rows_at_once)
    rows = [("n", [-LIMIT, LIMIT, 0, -1]), *random_rows(300, rows_at_once)]
    for count in (0, 1, len(rows)):
        some = rows[:count]
        features = answers.read_answer(answer_of(some))
        assert features.boxes.tolist() == [box for _, box in some]
        assert names_in(features) == [field_of(name) for name, _ in some]


@pytest.mark.parametrize(
    "text",
    [
        "",
        HEADER[:-1],
        "name,x1,y1,x2,y2\na,1,2,3,4\n",
        f"{HEADER}a,1,2,3,4",
        f"{HEADER}a,1,2,3\n",
        f"{HEADER}a,1,2,3,4,5\n",
        f"{HEADER}a,1,2,3\nb,1,2,3,4,5\n",
        f"{HEADER}a,1,2,3,4\r\n",
        f"{HEADER}a,1,2,3,4\r",
        f'{HEADER}a,1,2,3,"4"\n',
        f'{HEADER}"a,1,2,3,4\n',
    ],
)
def test_another_form_is_refused(text: str) -> None:
    with pytest.raises(RunFailed):
        answers.read_answer(bytes_of(text))


@pytest.mark.parametrize(
    "number", ["", "-", "--1", "+1", " 1", "1 ", "1.0", "1e3", "1-", "/", ":", "ü", "1" * 20, "-x"]
)
@pytest.mark.parametrize("place", range(4))
def test_what_is_no_number_is_refused(number: str, place: int) -> None:
    numbers = ["10", "20", "30", "40"]
    numbers[place] = number
    with pytest.raises(RunFailed):
        answers.read_answer(bytes_of(f"{HEADER}a,1,2,3,4\nb,{','.join(numbers)}\nc,5,6,7,8\n"))
