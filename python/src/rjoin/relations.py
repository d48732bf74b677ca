"""The relations that a join can ask for."""
from __future__ import annotations

import re

from rjoin.errors import ArgumentError

NAMES = ("intersects", "touches", "crosses", "within", "contains", "overlaps", "equals", "covers",
         "covered_by", "contains_properly")
MASK = re.compile(r"[TF*012]{9}")
REFUSED = {
    "disjoint": "nearly all pairs are disjoint; take the features without a pair of intersects",
}


def check(relation: str) -> None:
    """Refuses what is neither a name nor a mask of DE-9IM."""
    if not isinstance(relation, str):
        raise ArgumentError(f"relation must be a text, not {relation!r}")
    if relation in REFUSED:
        raise ArgumentError(f"relation {relation!r} is refused: {REFUSED[relation]}")
    if relation not in NAMES and not MASK.fullmatch(relation):
        names = ", ".join(NAMES)
        raise ArgumentError(f"relation {relation!r} is none of {names}, nor a mask as 'T*F**F***'")
