"""Joins two layers below a cell and reports the pairs."""
from __future__ import annotations

import tempfile
from pathlib import Path
from typing import Dict, Iterator, List, NamedTuple, Sequence

import pya

from . import program
from .conditions import Condition, Enclosure, Relation, Row, Space
from .layers import (
    CELL,
    ENVELOPE,
    GEOMETRY,
    MODES,
    OTHERS,
    JoinError,
    Layer,
    Reading,
    layer_index,
    read_layer,
    result_layer,
)
from .markers import Side, marker_of
from .report import Category, Place, Report, text_value

# Asks for the pairs of which the right shape lies in the left one.
COVERS = ("join", "--relation=covers", "--pairs")
EXACT, INEXACT = text_value("exact: true"), text_value("exact: false")


class Request(NamedTuple):
    """What is to be joined.

    A layer is named as KLayout names it: `1/0`, `METAL`, `METAL (1/0)`. The condition is either a
    relation, by its name or a mask of nine letters, or a spacing, in micrometres, or an enclosure
    of the right layer's shapes by the left one's, in micrometres too. `matrices` sorts
    the pairs of a relation by their matrices. `layer` names the layer, by its numbers or a name,
    into which the result is put as shapes, if it is given.
    """

    left: str
    right: str
    relation: str = ""
    space: str = ""
    reading: Reading = Reading()
    matrices: bool = True
    layer: str = ""
    enclosing: str = ""

    def condition(self, dbu: float) -> Condition:
        """The condition, for a layout with this database unit."""
        if sum(map(bool, (self.relation, self.space, self.enclosing))) != 1:
            raise JoinError("one of relation, space and enclosing is needed")
        if self.enclosing:
            return Enclosure(self.enclosing, dbu)
        return Space(self.space, dbu) if self.space else Relation(self.relation, self.matrices)


def join_layers(layout: pya.Layout, cell: pya.Cell, request: Request) -> Report:
    """The pairs below a cell, and the shapes that were left out.

    Raises JoinError or ProgramError where the join can't be done.
    """
    return join_cells(layout, [cell], request)


def join_cells(layout: pya.Layout, tops: Sequence[pya.Cell], request: Request) -> Report:
    """The pairs below each of some cells by itself, in one report.

    Raises JoinError or ProgramError where the join can't be done.
    """
    for name, value, choices in (("others", request.reading.others, OTHERS),
                                 ("mode", request.reading.mode, MODES)):
        if value not in choices:
            raise JoinError(f"{name} must be one of {', '.join(choices)}")
    condition = request.condition(layout.dbu)
    condition.check()
    target = result_layer(layout, request.layer) if request.layer else None
    join = _Join(layout, tops, request, condition)
    with tempfile.TemporaryDirectory(prefix="rjoin-") as folder:
        for one in _cells(layout, tops, request):
            join.add(one, Path(folder))
    join.report.description = join.description()
    if target is not None:
        join.report.insert(layout, target)
    return join.report


def _cells(layout: pya.Layout, tops: Sequence[pya.Cell], request: Request) -> Iterator[pya.Cell]:
    """The cells alone, or with all that they call, each once."""
    found = {top.cell_index(): top for top in tops}
    if request.reading.mode == CELL:
        for top in tops:
            found.update((index, layout.cell(index)) for index in top.called_cells())
    return iter(found.values())


def _placements(layout: pya.Layout, top: pya.Cell) -> Dict[int, pya.DCplxTrans]:
    """A place in the top cell for each cell below it."""
    found = {top.cell_index(): pya.DCplxTrans()}
    for index in layout.each_cell_top_down():
        if index not in found:
            continue
        for instance in layout.cell(index).each_inst():
            found.setdefault(instance.cell_index, found[index] * instance.dcplx_trans)
    return found


class _Join:
    """A join, cell by cell, and its report."""

    def __init__(self, layout: pya.Layout, tops: Sequence[pya.Cell], request: Request,
                 condition: Condition) -> None:
        self.layout = layout
        self.request = request
        self.condition = condition
        title = f"{request.left} {condition.title} {request.right}"
        if request.reading.merged:
            title += ", merged"
        if request.reading.mode == CELL:
            title += ", by cells"
        self.report = Report(title, [top.name for top in tops])
        self.about = Place(title, condition.about)
        self.pairs = 0
        self.replaced = {request.left: 0, request.right: 0}
        self.left_out = {request.left: 0, request.right: 0}
        if request.reading.mode == CELL:
            for top in tops:
                for index, trans in _placements(layout, top).items():
                    self.report.add_cell(layout.cell(index).name, top.name, trans)

    def add(self, cell: pya.Cell, folder: Path) -> None:
        """Joins the layers of a cell."""
        layers = self._read(cell)
        if all(layer.count() for layer in layers):
            self._add_pairs(cell, layers, self._run(layers, folder))
        for layer in layers[:1] if layers[0] is layers[1] else layers:
            self._add_left_out(cell, layer)

    def _read(self, cell: pya.Cell) -> List[Layer]:
        """The two layers, which are one where both names are of the same."""
        request = self.request
        left = read_layer(self.layout, cell, request.left, request.reading)
        if layer_index(self.layout, request.left) == layer_index(self.layout, request.right):
            if self.condition.is_of_outlines:
                raise JoinError("an enclosure is of two layers")
            return [left, left]
        return [left, read_layer(self.layout, cell, request.right, request.reading)]

    def _run(self, layers: Sequence[Layer], folder: Path) -> Iterator[Row]:
        """The rows of the program's report."""
        left, right = layers
        paths = folder / "left.csv", folder / "right.csv"
        left.write(paths[0])
        if right is left:
            paths = paths[0], paths[0]
        else:
            right.write(paths[1])
        words, columns = self.condition.words(layers), self.condition.columns
        report = folder / "report.csv"
        is_of_boxes = all(layer.is_of_boxes() for layer in layers)
        if not self.condition.is_of_outlines:
            return _asked(words, paths, is_of_boxes, report, columns)
        inside = {(row.left, row.right)
                  for row in _asked(COVERS, paths, is_of_boxes, report, columns[:2])}
        outlines = folder / "outlines.csv"
        left.write_outlines(outlines)
        rows = _asked(words, (outlines, paths[1]), False, report, columns)
        return (row for row in rows if (row.left, row.right) in inside)

    def _add_pairs(self, cell: pya.Cell, layers: Sequence[Layer], rows: Iterator[Row]) -> None:
        left, right = (Side(layer, title, self.layout.dbu)
                       for layer, title in zip(layers, ("left", "right")))
        has_exact = self.request.reading.others == ENVELOPE
        categories: Dict[str, Category] = {}
        kept = list(self.condition.kept(rows, layers))
        for row in kept:
            word = row.text if self.condition.is_sorted else ""
            if word not in categories:
                categories[word] = self.report.category(self.about, *self.condition.places(word))
            values = self.condition.values(row, left, right)
            if has_exact:
                by_box = row.left in left.layer.envelopes or row.right in right.layer.envelopes
                self.report.inexact += by_box
                values += INEXACT if by_box else EXACT
            self.report.add(categories[word], cell.name, values)
        self.pairs += len(kept)
        if self.request.layer:
            self.report.marks[cell.name] = self.condition.marks(kept, left, right)

    def _add_left_out(self, cell: pya.Cell, layer: Layer) -> None:
        self.replaced[layer.name] += len(layer.envelopes)
        self.left_out[layer.name] += len(layer.left_out)
        parent = Place(f"left out of layer {layer.name}", "shapes that take no part, by reason")
        for gone in layer.left_out:
            category = self.report.category(parent, Place(gone.reason, ""))
            self.report.add(category, cell.name, marker_of(gone.placed, self.layout.dbu)
                            + text_value(gone.placed.origin()))

    def description(self) -> str:
        """The description of the whole join."""
        text = f"Pairs of shapes, layer {self.request.left} {self.condition.title} layer "
        text += f"{self.request.right}{', merged' * self.request.reading.merged}"
        if self.request.reading.others == ENVELOPE:
            text += (f"; pairs that rest on a bounding box: {self.report.inexact} of "
                     f"{self.pairs}")
        for name, count in self.replaced.items():
            if count:
                text += f"; layer {name}: {count} shapes by bounding boxes"
        for name, count in self.left_out.items():
            if count:
                text += f"; layer {name}: {count} shapes left out"
        return text


def _asked(words: Sequence[str], paths: Sequence[Path], is_of_boxes: bool, report: Path,
           columns: Sequence[str]) -> Iterator[Row]:
    """The rows of the program's report on two files."""
    command, *options = words
    options += ["--columns", GEOMETRY]
    if not is_of_boxes:
        options += ["--geometry", "any", "--rings", "even-odd"]
    program.run([command, *map(str, paths), *options], report)
    return _rows(report, columns)


def _rows(report: Path, columns: Sequence[str]) -> Iterator[Row]:
    """The rows of the program's report, whose ids count from 1."""
    with open(report, encoding="ascii") as file:
        if next(file, None) != ",".join(columns) + "\n":
            raise program.ProgramError(f"{program.find_program()} wrote no report")
        for line in file:
            left, right, *text = line[:-1].split(",")
            yield Row(int(left) - 1, int(right) - 1, "".join(text))
