"""The shapes of a layer of a layout, drawn or merged, as rjoin joins them."""
from __future__ import annotations

import re
from dataclasses import dataclass, field
from pathlib import Path
from typing import List, NamedTuple, Optional, Set, Tuple

import pya

from .shapes import (
    Bounds,
    Geometry,
    NotRead,
    Rectangles,
    area_of,
    envelope_of,
    geometry_of,
    geometry_of_merged,
    merged_areas,
    merged_wkt,
    outline_of_text,
    rectangles_of,
    texts_of,
)

# Texts, edges, points and all other kinds of shapes that cover no area.
OTHER_KINDS = pya.Shapes.SAll & ~(pya.Shapes.SBoxes | pya.Shapes.SPolygons | pya.Shapes.SPaths)
NUMBERS = re.compile(r"(\d+)/(\d+)")
# The column of the files that are written.
GEOMETRY = "wkt"
ERROR, ENVELOPE, SKIP = OTHERS = ("error", "envelope", "skip")
FLAT, CELL = MODES = ("flat", "cell")


class JoinError(Exception):
    """The join can't be done as it was asked for."""


class Reading(NamedTuple):
    """How layers are read.

    `others` is the treatment of shapes that rjoin doesn't read. `merged` has the shapes of each
    layer merged first, so that it doesn't matter how an area is drawn. `mode` takes the shapes
    below a cell through all instances, or those that are drawn in the cell itself.
    """

    others: str = ERROR
    merged: bool = True
    mode: str = FLAT


def origin_of(cell: str, trans: Optional[pya.ICplxTrans]) -> str:
    """The cell that a shape is drawn in, and how that lies in the top cell, unless it is merged."""
    return f"{cell} {trans or 'merged'}"


class Placed(NamedTuple):
    """A shape as it lies in the top cell, and where it comes from, unless it is a merged one."""

    geometry: Geometry
    cell: str
    trans: Optional[pya.ICplxTrans]

    def origin(self) -> str:
        return origin_of(self.cell, self.trans)


class LeftOut(NamedTuple):
    """A shape that doesn't take part."""

    placed: Placed
    reason: str


@dataclass
class Layer:
    """The shapes of a layer: merged rectangles by their bounds, other merged areas by the texts
    that KLayout has for them, and behind them all shapes as they are drawn.

    The number of a shape is its place in this order. `envelopes` has the numbers of those whose
    bounding box stands in for them. No coordinate is further from 0 than `reach`.
    """

    name: str
    cell: str
    reach: int
    rectangles: Rectangles = field(default_factory=Rectangles)
    areas: List[str] = field(default_factory=list)
    drawn: List[Placed] = field(default_factory=list)
    left_out: List[LeftOut] = field(default_factory=list)
    envelopes: Set[int] = field(default_factory=set)

    def count(self) -> int:
        return self.merged_count() + len(self.drawn)

    def merged_count(self) -> int:
        """The number of the first shape that isn't merged."""
        return len(self.rectangles) + len(self.areas)

    def placed(self, number: int) -> Placed:
        """A shape by its number."""
        if number < len(self.rectangles):
            return Placed(Geometry(pya.Box(*self.rectangles[number])), self.cell, None)
        if number < self.merged_count():
            text = self.areas[number - len(self.rectangles)]
            return Placed(geometry_of_merged(text), self.cell, None)
        return self.drawn[number - self.merged_count()]

    def area(self, number: int) -> Optional[str]:
        """The text of a merged area that is no rectangle."""
        is_area = len(self.rectangles) <= number < self.merged_count()
        return self.areas[number - len(self.rectangles)] if is_area else None

    def box(self, number: int) -> Optional[Bounds]:
        """The bounds of a shape that is a box."""
        if number < len(self.rectangles):
            return self.rectangles[number]
        if number < self.merged_count():
            return None
        geometry = self.placed(number).geometry
        box = geometry.figure
        return (box.left, box.bottom, box.right, box.top) if geometry.is_box() else None

    def is_of_boxes(self) -> bool:
        """Whether each shape is a box."""
        return not self.areas and all(placed.geometry.is_box() for placed in self.drawn)

    def is_area(self, number: int) -> bool:
        return number < self.merged_count() or self.placed(number).geometry.is_area()

    def write(self, path: Path) -> None:
        """Writes the geometries in database units, one a row; their ids are the rows' numbers."""
        with open(path, "w", encoding="ascii", newline="\n") as file:
            file.write(f"{GEOMETRY}\n")
            file.writelines(self.rectangles.lines())
            file.writelines(f'"{merged_wkt(text)}"\n' for text in self.areas)
            file.writelines(f'"{placed.geometry.wkt()}"\n' for placed in self.drawn)

    def write_outlines(self, path: Path) -> None:
        """The same with the outlines of areas, as lines."""
        with open(path, "w", encoding="ascii", newline="\n") as file:
            file.write(f"{GEOMETRY}\n")
            file.writelines(map(outline_of_text, self.rectangles.lines()))
            file.writelines(f'"{outline_of_text(merged_wkt(text))}"\n' for text in self.areas)
            file.writelines(f'"{placed.geometry.outline_wkt()}"\n' for placed in self.drawn)


def read_layer(layout: pya.Layout, cell: pya.Cell, name: str, reading: Reading) -> Layer:
    """The shapes of a layer below a cell, or in it."""
    index = layer_index(layout, name)
    layer = Layer(name, cell.name, _reach(cell.bbox_per_layer(index)))
    if reading.merged:
        areas = _areas_alone(_shapes(cell, index, reading))
        if areas is None:
            areas = _add_all(layer, _shapes(cell, index, reading), reading)
        else:
            _add_all(layer, _shapes(cell, index, reading, OTHER_KINDS), reading)
        _add_merged(layer, areas)
    else:
        _add_all(layer, _shapes(cell, index, reading), reading)
    return layer


def _reach(box: pya.Box) -> int:
    if box.empty():
        return 0
    sides: Tuple[int, ...] = (box.left, box.bottom, box.right, box.top)
    return max(abs(side) for side in sides)


def _shapes(cell: pya.Cell, index: int, reading: Reading, kinds: int = pya.Shapes.SAll
            ) -> pya.RecursiveShapeIterator:
    """The shapes of some kinds, through all instances and arrays of them in the flat mode."""
    shapes = cell.begin_shapes_rec(index)
    shapes.shape_flags = kinds
    if reading.mode == CELL:
        shapes.max_depth = 0
    return shapes


def _areas_alone(shapes: pya.RecursiveShapeIterator) -> Optional[pya.Region]:
    """The boxes, polygons and paths, if all of them cover an area."""
    areas = pya.Region(shapes)
    areas.merged_semantics = False
    if not areas.with_area(0, 1, False).is_empty():
        return None
    areas.merged_semantics = True
    return areas


def _add_all(layer: Layer, shapes: pya.RecursiveShapeIterator, reading: Reading) -> pya.Region:
    """Adds the shapes as they are drawn, but those that are to be merged, which are returned."""
    areas = pya.Region()
    while not shapes.at_end():
        shape, trans = shapes.shape(), shapes.trans()
        area = area_of(shape, trans) if reading.merged else None
        if area is None:
            _add(layer, shape, shapes.cell().name, trans, reading.others)
        else:
            areas.insert(area)
        shapes.next()
    return areas


def _add(layer: Layer, shape: pya.Shape, cell: str, trans: pya.ICplxTrans, others: str) -> None:
    if shape.is_text():
        point = Geometry(envelope_of(shape, trans))
        layer.left_out.append(LeftOut(Placed(point, cell, trans), "a text"))
        return
    try:
        layer.drawn.append(Placed(geometry_of(shape, trans), cell, trans))
    except NotRead as reason:
        placed = Placed(Geometry(envelope_of(shape, trans)), cell, trans)
        _add_other(layer, placed, f"{reason}: {shape}", str(reason), others)


def _add_other(layer: Layer, placed: Placed, name: str, reason: str, others: str) -> None:
    """Takes the bounding box of a shape, or leaves it out, or ends the run."""
    if others == ERROR:
        raise JoinError(f"layer {layer.name}, cell {placed.cell}: not a shape that rjoin reads, "
                        f"but {name}. Choose to take bounding boxes, or to leave such shapes out.")
    if others == ENVELOPE and not placed.geometry.bbox().empty():
        layer.envelopes.add(len(layer.drawn))
        layer.drawn.append(placed)
    else:
        layer.left_out.append(LeftOut(placed, reason))


def _add_merged(layer: Layer, areas: pya.Region) -> None:
    """Adds merged areas, before the shapes that are drawn."""
    merged = merged_areas(areas)
    layer.rectangles = rectangles_of(merged.rectangles())
    layer.areas = texts_of(merged.non_rectangles())
    layer.envelopes = {layer.merged_count() + number for number in layer.envelopes}


def layer_index(layout: pya.Layout, name: str) -> int:
    """The index of the layer that is named, as KLayout writes it, by its name or its numbers.

    LayerInfo.from_string isn't used: it takes what it cannot read for any layer.
    """
    for index in layout.layer_indexes():
        info = layout.get_info(index)
        numbers = f"{info.layer}/{info.datatype}"
        if name and name in (str(info), info.name, "" if info.is_named() else numbers):
            return int(index)
    raise JoinError(f"the layout has no layer {name!r}")


def result_layer(layout: pya.Layout, name: str) -> int:
    """The index of the layer of a name or of numbers, which is made if it isn't there."""
    try:
        return layer_index(layout, name)
    except JoinError:
        numbers = NUMBERS.fullmatch(name)
        info = pya.LayerInfo(*map(int, numbers.groups())) if numbers else pya.LayerInfo(name)
        return int(layout.layer(info))


def layer_names(layout: pya.Layout) -> List[str]:
    """The layers of a layout, by number."""
    infos = [layout.get_info(index) for index in layout.layer_indexes()]
    return [str(info) for info in sorted(infos, key=lambda i: (i.layer, i.datatype, i.name))]
