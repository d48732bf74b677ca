"""The town's layers, and the joins of them that the tests compare."""
from __future__ import annotations

from pathlib import Path
from typing import NamedTuple

ROOT = Path(__file__).resolve().parents[2]
TOWN = ROOT / "data/town"
VERSION = "0.2.0"


def stand_in(path: Path, text: str) -> Path:
    """A program that tells rjoin's version, and does else what the lines of a shell script say."""
    path.write_text(f"#!/bin/sh\n[ $1 = --version ] && echo rjoin {VERSION} && exit\n{text}\n",
                    encoding="utf-8")
    path.chmod(0o755)
    return path


class Join(NamedTuple):
    """Two layers of the town and a relation."""

    left: str
    right: str
    relation: str


JOINS = (
    Join("parcels", "roads", "touches"),
    Join("parcels", "roads", "crosses"),
    Join("parcels", "parcels", "touches"),
    Join("parcels", "parcels", "equals"),
    Join("stations", "parcels", "intersects"),
    Join("parcels", "stations", "contains"),
    Join("roads", "roads", "crosses"),
    Join("parcels", "parcels", "within"),
    Join("parcels", "parcels", "overlaps"),
)
COVERING = (
    Join("parcels", "stations", "covers"),
    Join("stations", "parcels", "covered_by"),
    Join("parcels", "stations", "contains_properly"),
)
