"""Geometries as texts that Shapely reads: well-known text, also with the number of a reference
system as PostGIS has it, and hexadecimal well-known binary.

GEOS reads more than a geometry: it overlooks what follows one, and takes hexadecimal numbers and
NaN. Here a text is one geometry, in decimal numbers.
"""
from __future__ import annotations

import re
from typing import Any, Iterable, List, Optional, Sequence, Tuple

import numpy as np
import pandas

from rjoin import binary, decimals
from rjoin.limits import ANY
from rjoin.shapes import Objects

NO_TEXT = "not a geometry text"

NUMBER = r"[-+]?[0-9]+(?:\.[0-9]*)?"
POSITION = rf"\s*{NUMBER}\s+{NUMBER}\s*"
POSITIONS = rf"\s*\({POSITION}(?:,{POSITION})*\)\s*"
# The program's own grammar.
PLAIN = re.compile(rf"\s*(?:POINT\s*\({POSITION}\)|LINESTRING{POSITIONS}|"
                   rf"POLYGON\s*\({POSITIONS}(?:,{POSITIONS})*\))\s*", re.ASCII | re.IGNORECASE)
# All that well-known text is made of; a number has at least a digit.
FREE = r"[-+]?(?=\.?[0-9])[0-9]*(?:\.[0-9]*)?(?:E[-+]?[0-9]+)?"
KIND = r"(?:(?:MULTI)?(?:POINT|LINESTRING|POLYGON)|GEOMETRYCOLLECTION)(?:\s+(?:Z|M|ZM))?(?![A-Z])"
NOTHING = r"EMPTY(?!\s*[(A-Z])"
TOKENS = re.compile(rf"(?:\s|[(),]|{KIND}|{NOTHING}|{FREE}(?=[\s(),]))*",
                    re.ASCII | re.IGNORECASE)
NUMBERS = re.compile(FREE, re.ASCII | re.IGNORECASE)
FIRST_TWO = re.compile(rf"[(,]\s*({FREE})\s+({FREE})", re.ASCII | re.IGNORECASE)
# What stands before a text in the extended form of PostGIS (EWKT).
SRID = re.compile(r"\s*SRID\s*=\s*([0-9]{1,9})\s*;", re.ASCII | re.IGNORECASE)
EMPTY = re.compile(rf"\s*{KIND}\s+EMPTY\s*", re.ASCII | re.IGNORECASE)
FINE = re.compile(r"\.[0-9]{%d,}[1-9]" % ANY.decimals)
EXPONENT = re.compile(r"[0-9.]E", re.IGNORECASE)
# Numbers that aren't in range with all decimals, by their digits, and all that have an exponent.
GREAT = re.compile(r"(?<![0-9.])(?:[0-9]{%d,}\.?[0-9]*(?:E[-+]?[0-9]+)?|"
                   r"(?:[0-9]+\.?[0-9]*|\.[0-9]+)E[-+]?[0-9]+)"
                   % len(str(int(ANY.greatest(ANY.decimals)))), re.ASCII | re.IGNORECASE)


def first_unwritable(texts: Sequence[str]) -> int:
    """The row, counted from 1, of the first text that UTF-8 doesn't write, or 0."""
    if is_writable("".join(texts)):
        return 0
    return next(row for row, text in enumerate(texts, start=1) if not is_writable(text))


def is_writable(text: str) -> bool:
    try:
        text.encode()
    except UnicodeEncodeError:
        return False
    return True


def is_number(text: str) -> bool:
    """Whether the text is one number, in decimal digits."""
    return NUMBERS.fullmatch(text) is not None


def is_plain(text: str) -> bool:
    """Whether the text has the program's own grammar."""
    return PLAIN.fullmatch(text) is not None


def is_whole(text: str) -> bool:
    """Whether the text is made of what well-known text is made of, and ends with its geometry."""
    if is_plain(text) or EMPTY.fullmatch(text):
        return True
    if not TOKENS.fullmatch(text) or not text.rstrip().endswith(")"):
        return False
    depth, ends = 0, 0
    for sign in re.findall(r"[()]", text):
        depth += 1 if sign == "(" else -1
        ends += depth == 0
    return ends == 1


def fewest_decimals(texts: Sequence[str]) -> Tuple[int, Optional[Tuple[int, str]]]:
    """The fewest decimals for all numbers of some texts; the first row with too many, and why.

    Rows count from 1. Of a text that only Shapely reads, heights and exponents matter once it is
    read.
    """
    needed = decimals.fewest_of_text("\n".join(texts))
    if needed <= ANY.decimals:
        return needed, None
    for row, text in enumerate(texts, start=1):
        reason = too_fine(text)
        if reason:
            return needed, (row, reason)
    few = [decimals.fewest_of_text(text) for text in texts if not FINE.search(text)]
    return max(few, default=0), None


def too_fine(text: str) -> Optional[str]:
    """The fault of the first coordinate with too many decimals; heights and measures are none."""
    if not FINE.search(text) and not EXPONENT.search(text):
        return None
    numbers = (number for pair in FIRST_TWO.findall(text) for number in pair)
    return next((decimals.too_fine(number) for number in numbers
                 if decimals.count_of(number) > ANY.decimals), None)


def greatest(texts: Iterable[str]) -> float:
    """A number that no coordinate of some texts, but for those of binary, exceeds by its absolute
    value.

    It is 0 where all are in range with all decimals; a height may count as a coordinate.
    """
    great = (number for text in texts if not binary.is_binary(text)
             for number in GREAT.findall(text))
    return max(map(float, great), default=0.0)


def geometries_of(texts: Objects, rounds: bool = False) -> Tuple[Objects, Optional[str]]:
    """The geometries of texts, None where there is none, up to the first fault, and its reason.

    Too many decimals are none where they will be rounded.
    """
    geometries: List[Any] = []
    for text in texts:
        try:
            geometries.append(None if pandas.isna(text) else geometry_of(text, rounds))
        except ValueError as fault:
            return np.fromiter(geometries, object), str(fault)
    return np.fromiter(geometries, object), None


def geometry_of(text: str, rounds: bool) -> Any:
    """The geometry of a text; a ValueError says why it is none."""
    from shapely import wkt

    if binary.is_binary(text):
        return binary_of(text)
    named = SRID.match(text)
    text = text[named.end():] if named else text
    if not is_whole(text):
        raise ValueError(NO_TEXT)
    reason = None if rounds else too_fine(text)
    if reason:
        raise ValueError(reason)
    try:
        return wkt.loads(text)
    except Exception as fault:
        raise ValueError(NO_TEXT) from fault


def binary_of(text: str) -> Any:
    """The geometry of hexadecimal well-known binary; a ValueError says that it is none."""
    try:
        return binary.geometry_of(text)
    except Exception as fault:
        raise ValueError(NO_TEXT) from fault


def srid_of(text: str) -> int:
    """The number of the reference system that a text names; 0 where it names none."""
    if binary.is_binary(text):
        return binary.srid_of(text)
    named = SRID.match(text)
    return int(named[1]) if named else 0
