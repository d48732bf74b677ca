#!/usr/bin/python3
"""Draws docs/qgis.png: the step of docs/QGIS.md, run and rendered without a display.

    integrations/qgis/picture.py [OUTPUT]

Needs QGIS's Python modules and the program rjoin (RJOIN, or on the PATH).
"""
from __future__ import annotations

import os
import sys
from pathlib import Path
from typing import Any, List

from qgis.core import (
    QgsApplication,
    QgsCoordinateReferenceSystem,
    QgsMapRendererSequentialJob,
    QgsMapSettings,
    QgsPalLayerSettings,
    QgsTextBufferSettings,
    QgsTextFormat,
    QgsVectorLayer,
    QgsVectorLayerSimpleLabeling,
)
from qgis.PyQt.QtCore import QSize
from qgis.PyQt.QtGui import QColor

HERE = Path(__file__).resolve().parent
ROOT = HERE.parent.parent
TOWN = ROOT / "data/town"
SIZE = QSize(900, 620)
CONTAINS = 4

sys.path[:0] = [str(HERE), "/usr/share/qgis/python/plugins"]


def town_layer(name: str) -> QgsVectorLayer:
    """A layer of the town."""
    return QgsVectorLayer(str(TOWN / f"{name}.csv"), name, "ogr")


def joined() -> QgsVectorLayer:
    """The parcels that contain a station, by the algorithm."""
    import processing
    from processing.core.Processing import Processing
    from rjoin_processing.provider import RjoinProvider

    Processing.initialize()
    provider = RjoinProvider()
    QgsApplication.processingRegistry().addProvider(provider)
    return processing.run("rjoin:joinbyrelation", {
        "INPUT": town_layer("parcels"), "JOIN": town_layer("stations"), "RELATION": CONTAINS,
        "DISCARD_NONMATCHING": True, "PREFIX": "station_", "OUTPUT": "memory:joined"})["OUTPUT"]


def coloured(layer: QgsVectorLayer, colour: str, outline: str) -> QgsVectorLayer:
    """The layer with a symbol of these colours."""
    symbol = layer.renderer().symbol()
    symbol.setColor(QColor(colour))
    symbol.symbolLayer(0).setStrokeColor(QColor(outline))
    return layer


def labelled(layer: QgsVectorLayer, field: str) -> QgsVectorLayer:
    """The layer with a field's text at each feature."""
    text = QgsTextFormat()
    text.setSize(8)
    halo = QgsTextBufferSettings()
    halo.setEnabled(True)
    text.setBuffer(halo)
    settings = QgsPalLayerSettings()
    settings.fieldName = field
    settings.setFormat(text)
    layer.setLabeling(QgsVectorLayerSimpleLabeling(settings))
    layer.setLabelsEnabled(True)
    return layer


def draw(layers: List[Any], path: str) -> None:
    """Renders layers, the first on top, into a PNG."""
    settings = QgsMapSettings()
    settings.setLayers(layers)
    settings.setDestinationCrs(QgsCoordinateReferenceSystem())
    settings.setOutputSize(SIZE)
    extent = layers[-1].extent()
    extent.scale(1.08)
    settings.setExtent(extent)
    job = QgsMapRendererSequentialJob(settings)
    job.start()
    job.waitForFinished()
    if not job.renderedImage().save(path, "PNG"):
        raise SystemExit(f"{path} can't be written")


def main(path: str) -> None:
    """Runs the step and draws its result."""
    application = QgsApplication([], False)
    application.initQgis()
    stations = coloured(town_layer("stations"), "#e07000", "#803000")
    found = labelled(coloured(joined(), "#7fb2e5", "#1f5fa0"), "station_id")
    draw([stations, found, coloured(town_layer("parcels"), "#eef3f8", "#9ab0c4")], path)


if __name__ == "__main__":
    os.environ.setdefault("QT_QPA_PLATFORM", "offscreen")
    main(sys.argv[1] if len(sys.argv) > 1 else str(ROOT / "docs/qgis.png"))
