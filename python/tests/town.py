"""The town under data/, read without the package."""
from __future__ import annotations

import csv
from pathlib import Path
from typing import List, Tuple

TOP = Path(__file__).resolve().parents[2]
TOWN = TOP / "data/town"
NAMES = ("parcels", "roads", "stations", "zones")


def rows_of(name: str) -> Tuple[List[str], List[str]]:
    """The ids and the texts of a layer."""
    with open(TOWN / f"{name}.csv", newline="", encoding="utf-8") as file:
        rows = list(csv.reader(file))[1:]
    return [row[0] for row in rows], [row[1] for row in rows]
