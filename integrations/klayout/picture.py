"""Draws the markers of a report database over its layout, as a PNG. KLayout runs it:

    QT_QPA_PLATFORM=offscreen klayout -b -r integrations/klayout/picture.py -rd file=town.oas \\
        -rd pairs=pairs.lyrdb -rd output=docs/klayout.png [-rd category=212101212]

With a category it draws the markers of that alone.
"""
from __future__ import annotations

from typing import Iterator, Tuple

import pya

WIDTH, HEIGHT = 900, 620
HOLLOW, FINE_DOTS = 1, 5
LAYER_COLOUR, LEFT_COLOUR, RIGHT_COLOUR = 0xA8B8C8, 0x1F5FA0, 0xE07000


def figure(value: pya.RdbItemValue) -> pya.DBox | pya.DEdge | pya.DPolygon | pya.DPath | None:
    """The figure that a value is, if it is one."""
    for is_one, of in ((value.is_box(), value.box), (value.is_edge(), value.edge),
                       (value.is_polygon(), value.polygon), (value.is_path(), value.path)):
        if is_one:
            return of()
    return None


def figures(database: pya.ReportDatabase, category: str) -> Iterator[Tuple[int, object]]:
    """Each item's left and right shape, with the colour of its side."""
    for item in database.each_item():
        path = database.category_by_id(item.category_id()).path()
        if category and category not in path:
            continue
        shown = [found for found in map(figure, item.each_value()) if found is not None]
        yield from zip((LEFT_COLOUR, RIGHT_COLOUR), shown)


def paint_layers(view: pya.LayoutView) -> None:
    """Gives all layers of the view hollow shapes of one quiet colour."""
    layer = view.begin_layers()
    while not layer.at_end():
        properties = layer.current().dup()
        properties.fill_color = properties.frame_color = LAYER_COLOUR
        properties.dither_pattern = HOLLOW
        view.set_layer_properties(layer, properties)
        layer.next()


def draw(file: str, pairs: str, category: str, output: str) -> None:
    """Writes the picture."""
    view = pya.LayoutView()
    view.set_config("background-color", "#ffffff")
    view.set_config("grid-visible", "false")
    view.load_layout(file, True)
    paint_layers(view)
    database = pya.ReportDatabase("pairs")
    database.load(pairs)
    markers = []
    for colour, shape in figures(database, category):
        marker = pya.Marker(view)
        marker.set(shape)
        marker.color = colour
        marker.line_width = 2
        marker.dither_pattern = FINE_DOTS if colour == LEFT_COLOUR else HOLLOW
        markers.append(marker)
    view.max_hier()
    view.zoom_fit()
    view.save_image(output, WIDTH, HEIGHT)


given = globals()
draw(given["file"], given["pairs"], str(given.get("category", "")), given["output"])
