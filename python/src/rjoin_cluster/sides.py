"""The two layers of a join, and the one of a command of one layer."""
from __future__ import annotations

import enum


class Side(enum.Enum):
    """Left or right, or the only layer, by the word that fault lines have for it."""

    LEFT = "left"
    RIGHT = "right"
    ONLY = "layer"


SIDES = (Side.LEFT, Side.RIGHT)
