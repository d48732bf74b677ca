"""The algorithm Layer statistics."""
from __future__ import annotations

from pathlib import Path
from typing import Any, Dict, List

from qgis.core import (
    QgsProcessing,
    QgsProcessingContext,
    QgsProcessingFeedback,
    QgsProcessingOutputNumber,
    QgsProcessingParameterFeatureSource,
)

from . import program
from .algorithm import COMMON_HELP, RjoinAlgorithm, Steps, check_program, faults_shown
from .layers import common_decimals, format_words, read_layer, tell, write_layer

COUNTS = {
    "features": "Number of features",
    "points": "Number of points",
    "segments": "Number of segments",
    "rectangles": "Number of rectangles",
    "lines": "Number of lines",
    "areas": "Number of polygons",
    "vertices": "Number of vertices",
    "height": "Height of the layer's R-tree",
}


class LayerStatistics(RjoinAlgorithm):
    """Counts the features of a layer by their dimension."""

    def name(self) -> str:
        return "layerstatistics"

    def displayName(self) -> str:  # noqa: N802 - the name is QGIS's
        return "Layer statistics"

    def tags(self) -> List[str]:
        return ["count", "statistics", "check", "points", "lines", "polygons", "rectangles"]

    def shortHelpString(self) -> str:  # noqa: N802 - the name is QGIS's
        return """<p>Counts the points, axis-parallel segments and rectangles of a layer that has \
no other geometries, else the points, lines, polygons and vertices, and reports the height of the \
layer's R-tree and the decimals of its coordinates. With <i>Leave them out and list them</i> it \
lists the features that rjoin can't read, and why.</p>""" + COMMON_HELP

    def initAlgorithm(self, _configuration: Any = None) -> None:  # noqa: N802
        self.addParameter(QgsProcessingParameterFeatureSource(
            "INPUT", "Layer", [QgsProcessing.TypeVectorAnyGeometry]))
        self.add_common_parameters()
        self.add_left_out("LEFT_OUT", "Features left out, with the reason")
        for word, title in COUNTS.items():
            self.addOutput(QgsProcessingOutputNumber(word.upper(), title))
        self.addOutput(QgsProcessingOutputNumber("DECIMALS_FOUND", "Decimals of the coordinates"))
        self.addOutput(QgsProcessingOutputNumber("LEFT_OUT_COUNT", "Number of features left out"))

    def processAlgorithm(self, parameters: Dict[str, Any],  # noqa: N802 - the name is QGIS's
                         context: QgsProcessingContext, feedback: QgsProcessingFeedback
                         ) -> Dict[str, Any]:
        with faults_shown() as folder:
            return self._run(parameters, context, Steps(2, feedback), folder)

    def _run(self, parameters: Dict[str, Any], context: QgsProcessingContext, steps: Steps,
             folder: Path) -> Dict[str, Any]:
        check_program(steps.feedback)
        source = self.source_of(parameters, "INPUT", context)
        feedback = steps.begin(f"Reading {source.sourceName()}")
        layer = read_layer(source, self.title_of("INPUT", source),
                           self.rules_of(parameters, "INPUT", context), feedback)
        feedback = steps.begin("Counting")
        decimals = common_decimals([layer], layer.rules.decimals, feedback)
        tell(layer, bool(parameters.get("LEFT_OUT")), feedback)
        path, answer = folder / "layer.csv", folder / "statistics"
        write_layer(path, layer, decimals)
        program.run(["stats", str(path), *format_words([layer], decimals)], answer,
                    feedback.isCanceled)
        results: Dict[str, Any] = {"DECIMALS_FOUND": decimals,
                                   "LEFT_OUT_COUNT": len(layer.left_out)}
        for line in answer.read_text(encoding="ascii").splitlines():
            word, count = line.split()
            feedback.pushInfo(f"{COUNTS[word]}: {count}")
            results[word.upper()] = int(count)
        results.update(self.write_left_out(parameters, "LEFT_OUT", context, source, layer,
                                           source.sourceCrs()))
        return results
