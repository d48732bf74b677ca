"""How shapes and pairs of them are shown: as values of the items of a report database."""
from __future__ import annotations

import re
from typing import Dict, NamedTuple, Optional
from xml.sax.saxutils import escape

import pya

from .layers import Layer, Placed, origin_of
from .narrow import (
    Narrow,
    Outline,
    between,
    between_boxes,
    edges_of,
    outline_of,
    outline_of_box,
    outline_of_merged,
)
from .report import text_value
from .shapes import Bounds

NUMBER = re.compile(r"-?\d+")


def marker_of(placed: Placed, dbu: float) -> str:
    """A shape as a value of an item, in micrometres: a segment is an edge."""
    figure = placed.geometry.figure
    scaled = figure.to_dtype(dbu)
    if isinstance(figure, pya.Box) and (figure.width() == 0) != (figure.height() == 0):
        scaled = pya.DEdge(scaled.p1, scaled.p2)
    elif isinstance(figure, pya.Path) and figure.num_points() == 2:
        scaled = pya.DEdge(*scaled.each_point())
    return f"<value>{escape(pya.RdbItemValue(scaled).to_s())}</value>"


def area_marker(text: str, dbu: float) -> str:
    """A merged area, by its text, as a value of an item, in micrometres."""
    scaled = NUMBER.sub(lambda number: f"{int(number[0]) * dbu:.12g}", text)
    return f"<value>polygon: {scaled}</value>"


def rectangle_marker(bounds: Bounds, dbu: float) -> str:
    """A rectangle as a value of an item, in micrometres."""
    left, bottom, right, top = bounds
    return (f"<value>box: ({left * dbu:.12g},{bottom * dbu:.12g};"
            f"{right * dbu:.12g},{top * dbu:.12g})</value>")


class Values(NamedTuple):
    """The marker of a shape, and the cell that it comes from, as values of an item."""

    marker: str
    origin: str


class Side:
    """The values of the shapes of a layer; each is written once, in however many pairs it is."""

    def __init__(self, layer: Layer, title: str, dbu: float) -> None:
        self.layer = layer
        self.title = title
        self.dbu = dbu
        self.merged = text_value(f"{title}: {origin_of(layer.cell, None)}")
        self.known: Dict[int, Values] = {}
        self.outlines: Dict[int, Outline] = {}
        self.rectangle_count = len(layer.rectangles)
        self.merged_count = layer.merged_count()

    def values(self, number: int) -> Values:
        """The values of a shape."""
        values = self.known.get(number)
        if values is None:
            values = self.known[number] = self._values(number)
        return values

    def narrow(self, number: int, other: "Side", number_there: int, distance: float) -> Narrow:
        """The narrow place between a shape and one of another side, by their distance."""
        if number < self.rectangle_count and number_there < other.rectangle_count:
            return between_boxes(self.layer.rectangles[number],
                                 other.layer.rectangles[number_there])
        return between(self.outline(number), other.outline(number_there), distance + 1)

    def narrow_within(self, number: int, other: "Side", number_there: int, distance: float
                      ) -> Narrow:
        """The narrow place between the outline of a shape and one of another side in it."""
        return between(edges_of(self.outline(number)), other.outline(number_there), distance + 1)

    def outline(self, number: int) -> Outline:
        """The outline of a shape, which is found once."""
        if number < self.rectangle_count:
            return outline_of_box(self.layer.rectangles[number])
        if number not in self.outlines:
            text = self.layer.area(number)
            self.outlines[number] = outline_of(self.layer.placed(number).geometry) if (
                text is None) else outline_of_merged(text)
        return self.outlines[number]

    def origin(self, number: int) -> str:
        """Where a shape comes from, if it is one as it is drawn."""
        return "" if number < self.merged_count else self.values(number).origin

    def polygon(self, number: int) -> Optional[pya.Polygon]:
        """A shape as a polygon, if it covers an area."""
        figure = self.layer.placed(number).geometry.figure
        polygon = pya.Polygon(figure) if isinstance(figure, pya.Box) else figure
        return polygon if isinstance(polygon, pya.Polygon) and polygon.area2() > 0 else None

    def _values(self, number: int) -> Values:
        if number < self.rectangle_count:
            return Values(rectangle_marker(self.layer.rectangles[number], self.dbu), self.merged)
        text = self.layer.area(number)
        if text is not None:
            return Values(area_marker(text, self.dbu), self.merged)
        placed = self.layer.placed(number)
        return Values(marker_of(placed, self.dbu), text_value(f"{self.title}: {placed.origin()}"))
