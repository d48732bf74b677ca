"""A picture that a notebook shows by itself."""
from __future__ import annotations

import os
from dataclasses import dataclass
from pathlib import Path
from typing import Optional, Tuple

from rjoin.errors import Notice


@dataclass(frozen=True)
class Picture:
    """Two layers with the features that occur in a pair highlighted, as SVG 1.1.

    A notebook shows it where it is the value of a cell. Features have their labels as titles, which
    a browser shows under the pointer.
    """

    svg: str
    left_out: Tuple[Notice, ...] = ()
    enveloped: Tuple[Notice, ...] = ()
    decimals: Optional[int] = None

    def _repr_svg_(self) -> str:
        return self.svg

    def __repr__(self) -> str:
        return f"<Picture of {len(self.svg)} characters>"

    def save(self, path: "str | os.PathLike[str]") -> None:
        """Writes the SVG to a file."""
        Path(path).write_text(self.svg, encoding="utf-8")
