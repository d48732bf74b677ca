"""The algorithm Features in window."""
from __future__ import annotations

from pathlib import Path
from typing import Any, Dict, Iterator, List, Set

from qgis.core import (
    QgsFeature,
    QgsProcessing,
    QgsProcessingContext,
    QgsProcessingException,
    QgsProcessingFeatureSource,
    QgsProcessingFeedback,
    QgsProcessingOutputNumber,
    QgsProcessingParameterExtent,
    QgsProcessingParameterFeatureSink,
    QgsProcessingParameterFeatureSource,
    QgsRectangle,
)

from . import decimals as units
from . import program
from .algorithm import (
    COMMON_HELP,
    RjoinAlgorithm,
    Steps,
    check_program,
    faults_shown,
    with_fields,
)
from .answers import exact_field
from .boxes import Box
from .layers import (
    Layer,
    Others,
    are_boxes,
    common_decimals,
    format_words,
    read_layer,
    tell,
    wkt,
    write_layer,
)


class FeaturesInWindow(RjoinAlgorithm):
    """Extracts the features that meet a rectangle."""

    def name(self) -> str:
        return "featuresinwindow"

    def displayName(self) -> str:  # noqa: N802 - the name is QGIS's
        return "Features in window"

    def tags(self) -> List[str]:
        return ["extract", "extent", "window", "filter", "intersects"]

    def shortHelpString(self) -> str:  # noqa: N802 - the name is QGIS's
        return """<p>Extracts the features that share a point with a rectangle, its sides \
included, as rjoin does, whose answer is proved.</p>
<p>A window of another reference system than that of the layer is reprojected to the rectangle \
around it. A window that was drawn on the map has more decimals than the layer has. For points, \
axis-parallel segments and rectangles alone it is narrowed to the layer's decimals, which leaves \
the same features in it; else it is rounded to as many decimals as rjoin can read, and the log \
says so.</p>""" + COMMON_HELP

    def initAlgorithm(self, _configuration: Any = None) -> None:  # noqa: N802
        self.addParameter(QgsProcessingParameterFeatureSource(
            "INPUT", "Layer", [QgsProcessing.TypeVectorAnyGeometry]))
        self.addParameter(QgsProcessingParameterExtent("WINDOW", "Window"))
        self.add_common_parameters()
        self.addParameter(QgsProcessingParameterFeatureSink("OUTPUT", "Features in the window"))
        self.add_left_out("LEFT_OUT", "Features left out, with the reason")
        self.addOutput(QgsProcessingOutputNumber("COUNT", "Number of features in the window"))

    def processAlgorithm(self, parameters: Dict[str, Any],  # noqa: N802 - the name is QGIS's
                         context: QgsProcessingContext, feedback: QgsProcessingFeedback
                         ) -> Dict[str, Any]:
        with faults_shown() as folder:
            return self._run(parameters, context, Steps(3, feedback), folder)

    def _run(self, parameters: Dict[str, Any], context: QgsProcessingContext, steps: Steps,
             folder: Path) -> Dict[str, Any]:
        check_program(steps.feedback)
        source = self.source_of(parameters, "INPUT", context)
        extent = self._extent(parameters, context, source)
        feedback = steps.begin(f"Reading {source.sourceName()}")
        rules = self.rules_of(parameters, "INPUT", context)
        layer = read_layer(source, self.title_of("INPUT", source), rules, feedback)
        feedback = steps.begin("Searching the window")
        decimals = common_decimals([layer], rules.decimals, feedback)
        tell(layer, bool(parameters.get("LEFT_OUT")), feedback)
        found = _search(folder, layer, extent, decimals, feedback)
        feedback = steps.begin("Writing the output")
        envelopes = rules.others == Others.ENVELOPE
        if envelopes:
            feedback.pushInfo("Features that rest on an envelope, where the field exact is false: "
                              f"{len(found & layer.envelopes)} of {len(found)}")
        fields = with_fields(source.fields(), [exact_field()] if envelopes else [])
        output = self.sink_of(parameters, "OUTPUT", context, fields, source.sourceCrs(),
                              source.wkbType())
        output.add(_chosen(layer, found, envelopes), lambda done: steps.check_cancelled())
        return {**output.result(), "COUNT": len(found),
                **self.write_left_out(parameters, "LEFT_OUT", context, source, layer,
                                      source.sourceCrs())}

    def _extent(self, parameters: Dict[str, Any], context: QgsProcessingContext,
                source: QgsProcessingFeatureSource) -> QgsRectangle:
        extent = self.parameterAsExtent(parameters, "WINDOW", context, source.sourceCrs())
        if extent.isNull():
            raise QgsProcessingException("The window has no extent")
        return extent


def _search(folder: Path, layer: Layer, extent: QgsRectangle, decimals: int,
            feedback: QgsProcessingFeedback) -> Set[int]:
    """The numbers of the features that meet the window."""
    bounds = Box(extent.xMinimum(), extent.yMinimum(), extent.xMaximum(), extent.yMaximum())
    try:
        units.check_limit(bounds, decimals)
    except units.CoordinateError as fault:
        raise QgsProcessingException(f"Window: coordinate {fault}") from fault
    if are_boxes([layer], decimals, bounds):
        bounds = _narrowed(bounds, decimals)
    else:
        decimals = _window_decimals(layer, bounds, decimals, feedback)
    path, answer = folder / "layer.csv", folder / "window.csv"
    write_layer(path, layer, decimals)
    feedback.setProgress(50)
    program.run(["window", str(path), wkt(bounds, decimals),
                 *format_words([layer], decimals, bounds)], answer, feedback.isCanceled)
    with open(answer, encoding="ascii") as file:
        next(file)
        return set(map(int, file))


def _window_decimals(layer: Layer, bounds: Box, least: int, feedback: QgsProcessingFeedback) -> int:
    """The decimals for a window over a layer that isn't read as boxes, which are those of the layer
    if these are rounded, else the fewest that write the window exactly, else the most there may be.
    """
    decimals = least
    if layer.rules.decimals is None:
        most = min(units.most_decimals(bounds), units.most_decimals(layer.coordinates))
        while decimals < most and _is_rounded(bounds, decimals):
            decimals += 1
    if _is_rounded(bounds, decimals):
        feedback.pushWarning(f"The window is rounded to {decimals} decimals")
    return decimals


def _is_rounded(bounds: Box, decimals: int) -> bool:
    return units.rounded_places(bounds, decimals).size > 0


def _narrowed(bounds: Box, decimals: int) -> Box:
    """The largest window of whole units within the bounds.

    A box of whole units meets the bounds exactly where it meets this window, unless no whole unit
    lies within.
    """
    west, south, east, north = bounds
    power = 10**decimals
    window = Box(_up(west, decimals) / power, _up(south, decimals) / power,
                 _down(east, decimals) / power, _down(north, decimals) / power)
    if window.west > window.east or window.south > window.north:
        raise QgsProcessingException("The window is narrower than a unit of the last decimal "
                                     f"(decimals: {decimals}); give more decimals")
    return window


def _up(value: float, decimals: int) -> int:
    """The least whole number of units that isn't below the value."""
    power: int = 10**decimals
    nearest = round(value * power)
    return nearest if nearest / power >= value else nearest + 1


def _down(value: float, decimals: int) -> int:
    """The greatest whole number of units that isn't above the value."""
    return -_up(-value, decimals)


def _chosen(layer: Layer, numbers: Set[int], has_exact: bool) -> Iterator[QgsFeature]:
    """The features with these numbers, perhaps with a field that says which are no envelope."""
    for number, feature in enumerate(layer.features):
        if number in numbers:
            chosen = QgsFeature(feature)
            if has_exact:
                chosen.setAttributes(feature.attributes() + [number not in layer.envelopes])
            yield chosen
