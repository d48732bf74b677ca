"""Joins two layers of a layout file in batch mode. KLayout runs it:

    klayout -b -r integrations/klayout/join.py -rd file=chip.gds -rd left=1/0 -rd right=2/0 \\
        -rd relation=overlaps -rd output=pairs.lyrdb

`-rd space=0.2`, in micrometres, in place of `-rd relation=..` gives the shapes that share no point
and are closer than that; `-rd enclosing=0.2` gives the left areas with a right shape in them that
is closer to their outlines. The shapes of each layer are merged first; `-rd merged=0` takes them as
they are drawn. `-rd mode=cell` joins the shapes of each cell by themselves, in place of all below
the top cell. `-rd others=envelope` takes the bounding boxes of shapes that rjoin doesn't read,
`others=skip` lists them in a category of their own; without it the first one ends the run. Texts
are listed in any case. `-rd cell=NAME` takes another cell than the top cells, each of which is
joined by itself. `-rd matrices=0` puts all pairs of a relation into one category, in place of one
for each matrix. `-rd layer=100/0 -rd layout=marked.gds` also puts the result as shapes into a layer
of the layout, and writes that. It prints the number of items of each category, and of pairs that
rest on a bounding box.
"""
from __future__ import annotations

import os
import sys
from pathlib import Path
from typing import Callable, Dict, List, Sequence

import pya

sys.path.insert(0, str(Path(__file__).resolve().parent / "python"))

from rjoin_klayout.found import VERSION  # noqa: E402
from rjoin_klayout.join import Request, join_cells  # noqa: E402
from rjoin_klayout.layers import ENVELOPE, ERROR, FLAT, JoinError, Reading  # noqa: E402
from rjoin_klayout.program import ProgramError, staleness  # noqa: E402

SWITCH = {"0": False, "1": True}
WORDS = ("file", "left", "right", "relation", "space", "enclosing", "output", "merged", "mode",
         "others", "cell", "matrices", "layer", "layout", "version")


def check_words(arguments: Sequence[str]) -> None:
    """Refuses the name of a variable that says nothing here, by the command line of KLayout."""
    for option, variable in zip(arguments, arguments[1:]):
        name = variable.partition("=")[0]
        if option == "-rd" and name not in WORDS:
            raise JoinError(f"-rd {name} is unknown; there are {', '.join(WORDS)}")


def word(given: Dict[str, object], name: str, default: str | None = None) -> str:
    """The value of `-rd NAME=VALUE`."""
    value = given.get(name, default)
    if value is None:
        raise JoinError(f"-rd {name}=.. is missing")
    return str(value)


def switch(given: Dict[str, object], name: str) -> bool:
    """The value of `-rd NAME=0` or `-rd NAME=1`, which is also that of a name that isn't given."""
    value = word(given, name, "1")
    if value not in SWITCH:
        raise JoinError(f"{name} must be 0 or 1")
    return SWITCH[value]


def read(path: str) -> pya.Layout:
    """The layout of a file."""
    layout = pya.Layout()
    try:
        layout.read(path)
    except RuntimeError as fault:
        raise JoinError(f"{path} can't be read: {fault}") from fault
    return layout


def cells_of(layout: pya.Layout, name: str) -> List[pya.Cell]:
    """The named cell, or all top cells."""
    if name:
        cell = layout.cell(name)
        if cell is None:
            raise JoinError(f"the layout has no cell {name}")
        return [cell]
    tops = sorted(layout.top_cells(), key=lambda cell: str(cell.name))
    if not tops:
        raise JoinError("the layout has no cell")
    return tops


def save(path: str, write: Callable[[str], None]) -> None:
    """Writes a file; one that is there is replaced only by a whole one."""
    part = f"{path}.part"
    try:
        write(part)
        os.replace(part, path)
    except (OSError, RuntimeError) as fault:
        raise JoinError(f"{path} can't be written: {fault}") from fault


def save_layout(layout: pya.Layout, path: str) -> None:
    """Writes the layout in the format that the name of the file tells."""
    options = pya.SaveLayoutOptions()
    options.set_format_from_filename(path)

    def write(part: str) -> None:
        layout.write(part, options)

    save(path, write)


def request_of(given: Dict[str, object]) -> Request:
    """The request of the variables of the command line."""
    reading = Reading(word(given, "others", ERROR), switch(given, "merged"),
                      word(given, "mode", FLAT))
    layer = word(given, "layer", "")
    if bool(layer) != ("layout" in given):
        raise JoinError("layer and layout are given together, or neither")
    return Request(word(given, "left"), word(given, "right"), word(given, "relation", ""),
                   word(given, "space", ""), reading, switch(given, "matrices"), layer,
                   word(given, "enclosing", ""))


def join(given: Dict[str, object]) -> None:
    """Joins as the variables of the command line say."""
    check_words(pya.Application.instance().arguments())
    if "version" in given:
        print(f"rjoin for KLayout {VERSION}")
        return
    request = request_of(given)
    stale = staleness()
    if stale:
        print(f"join.py: warning: {stale}", file=sys.stderr)
    output = word(given, "output")
    layout = read(word(given, "file"))
    report = join_cells(layout, cells_of(layout, word(given, "cell", "")), request)
    if request.layer:
        save_layout(layout, word(given, "layout"))
    save(output, lambda part: report.write(Path(part)))
    for path, count in report.counts():
        print(f"{path}: {count}")
    if request.reading.others == ENVELOPE:
        print(f"pairs that rest on a bounding box: {report.inexact}")


def main(given: Dict[str, object]) -> int:
    """Joins, and answers the status; a fault is one line on standard error."""
    try:
        join(given)
    except (JoinError, ProgramError) as fault:
        print(f"join.py: {fault}", file=sys.stderr)
        return 1
    return 0


# KLayout 0.28 ends with status 0 where an exit is raised while an exception is handled.
status = main(globals())
if status != 0:
    sys.exit(status)
