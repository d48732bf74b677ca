"""Makes a layout of the town under data/town, to try the join on. KLayout runs it:

    klayout -b -r integrations/klayout/town.py -rd output=town.oas

Parcels are layer 1/0, roads 2/0, stations 3/0, zones 4/0; a metre of the town is a micrometre.
Segments and points become boxes without a width or height, or without both.
"""
from __future__ import annotations

import csv
import re
from pathlib import Path

import pya

TOWN = Path(__file__).resolve().parents[2] / "data/town"
LAYERS = {"parcels": 1, "roads": 2, "stations": 3, "zones": 4}
UNITS_A_METRE = 1000
NUMBER = re.compile(r"-?\d+")


def box_of(wkt: str) -> pya.Box:
    """The box of a geometry of the town, whose coordinates are whole metres."""
    numbers = [UNITS_A_METRE * int(text) for text in NUMBER.findall(wkt)]
    xs, ys = numbers[::2], numbers[1::2]
    return pya.Box(min(xs), min(ys), max(xs), max(ys))


def main(path: str) -> None:
    """Writes the layout."""
    layout = pya.Layout()
    layout.dbu = 1 / UNITS_A_METRE
    cell = layout.create_cell("TOWN")
    for name, number in LAYERS.items():
        shapes = cell.shapes(layout.layer(pya.LayerInfo(number, 0, name)))
        with open(TOWN / f"{name}.csv", encoding="utf-8", newline="") as file:
            for row in csv.DictReader(file):
                shapes.insert(box_of(row["wkt"]))
    layout.write(path)


main(globals()["output"])
