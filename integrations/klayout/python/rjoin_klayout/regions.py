"""Calls on regions, for scripts in Python, and by files for those in Ruby and DRC."""
from __future__ import annotations

import json
from pathlib import Path
from typing import Any, Dict, List

import pya

from .join import Request, join_layers
from .layers import JoinError, Reading
from .program import ProgramError
from .report import Mark

LEFT, RIGHT, RESULT = "1/0", "2/0", "3/0"
REQUEST, LAYERS, ANSWER, FAULT = "request", "layers.oas", "answer", "fault"


def select(left: pya.Region, relation: str, right: pya.Region) -> pya.Region:
    """The areas of a region that stand in a relation to some area of another.

    Both are merged first, unless the left one has no merged semantics.
    """
    return pya.Region(_marks(left, right, relation=relation))


def space(left: pya.Region, right: pya.Region, limit: int) -> pya.EdgePairs:
    """The narrow places between areas of two regions, or of one with itself, that share no point
    and are closer than a number of database units."""
    return pya.EdgePairs(_marks(left, right, space=str(limit)))


def enclosing(left: pya.Region, right: pya.Region, limit: int) -> pya.EdgePairs:
    """The narrow places between the outlines of areas of a region and areas of another that lie in
    these and are closer to the outlines than a number of database units."""
    return pya.EdgePairs(_marks(left, right, enclosing=str(limit)))


def _marks(left: pya.Region, right: pya.Region, **condition: str) -> List[Mark]:
    layout = pya.Layout()
    layout.dbu = 1.0
    cell = layout.create_cell("TOP")
    for number, region in ((1, left), (2, right)):
        cell.shapes(layout.layer(number, 0)).insert(region)
    second = LEFT if left is right else RIGHT
    return marks_of(layout, second, left.merged_semantics, condition)


def marks_of(layout: pya.Layout, second: str, merged: bool, condition: Dict[str, str]
             ) -> List[Mark]:
    """The result as shapes, of a layout whose unit is a micrometre, with both layers."""
    request = Request(LEFT, second, reading=Reading(merged=merged), layer=RESULT, matrices=False,
                      **condition)
    report = join_layers(layout, layout.top_cell(), request)
    return [mark for marks in report.marks.values() for mark in marks]


def answer(folder: str) -> None:
    """Answers the request of a folder, a file beside that of its layers, by the file `answer`, with
    a line for each shape, or by `fault`."""
    place = Path(folder)
    given: Dict[str, Any] = json.loads((place / REQUEST).read_text(encoding="utf-8"))
    layout = pya.Layout()
    layout.read(str(place / LAYERS))
    layout.dbu = 1.0
    try:
        marks = marks_of(layout, given["second"], given["merged"], given["condition"])
    except (JoinError, ProgramError) as fault:
        (place / FAULT).write_text(str(fault), encoding="utf-8")
        return
    (place / ANSWER).write_text("".join(f"{mark}\n" for mark in marks), encoding="ascii")
