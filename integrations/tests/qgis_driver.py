"""Runs Processing algorithms inside one QGIS without a display; the tests call it by QGIS's Python.

Each line of standard input is a JSON list of runs, each with `algorithm`, `parameters` and perhaps
`cancel_at`, a progress at which to cancel, `program`, the value of RJOIN, `invalid`, the number of
the filtering of invalid features, and `selected`, by the names of parameters the expressions of the
features that are selected, which take part alone. Standard output gets a line for it, a list of the
same length: `results`, the text of an `error`, `progress`, `log`, and in `rows` the attributes and
the well-known text of each feature of every output layer, in `systems` its reference system, and in
`types` those of its fields. A run of `parameters_of` alone tells the parameters of an algorithm, in
`parameters` the inputs and in `added` those that only rjoin's has.
"""
from __future__ import annotations

import json
import os
import sys
from typing import Any, Dict, List

from qgis.core import (
    NULL,
    QgsApplication,
    QgsFeature,
    QgsFeatureRequest,
    QgsProcessingContext,
    QgsProcessingException,
    QgsProcessingFeatureSourceDefinition,
    QgsProcessingFeedback,
    QgsProject,
    QgsVectorLayer,
)


class Recorder(QgsProcessingFeedback):
    """Keeps what an algorithm says, and cancels it where that is asked for."""

    def __init__(self, cancel_at: float | None) -> None:
        super().__init__(False)
        self.cancel_at = cancel_at
        self.log: List[str] = []
        self.values: List[float] = []
        self.progressChanged.connect(self.moved)

    def moved(self, value: float) -> None:
        self.values.append(value)
        if self.cancel_at is not None and value >= self.cancel_at:
            self.cancel()

    def pushInfo(self, info: str) -> None:  # noqa: N802 - the name is QGIS's
        self.log.append(info)

    def pushWarning(self, warning: str) -> None:  # noqa: N802 - the name is QGIS's
        self.log.append(warning)


def row(names: List[str], feature: QgsFeature) -> Dict[str, Any]:
    """The attributes and geometry of a feature."""
    values = [None if value == NULL else value for value in feature.attributes()]
    geometry = feature.geometry()
    return {**dict(zip(names, values)), "geometry": None if geometry.isNull() else geometry.asWkt()}


def layer_of(result: Any, context: QgsProcessingContext) -> QgsVectorLayer | None:
    """An output layer."""
    layer = result if isinstance(result, QgsVectorLayer) else context.getMapLayer(str(result))
    if layer is None and isinstance(result, str) and os.path.exists(result):
        layer = QgsVectorLayer(result, "output", "ogr")
    return layer if layer is not None and layer.isValid() else None


def rows_of(layer: QgsVectorLayer) -> List[Dict[str, Any]]:
    """The features of a layer."""
    names = [field.name() for field in layer.fields()]
    return [row(names, feature) for feature in layer.getFeatures()]


def selected(path: str, expression: str) -> QgsProcessingFeatureSourceDefinition:
    """A layer of which the features that fit an expression are selected."""
    layer = QgsVectorLayer(path, "selected", "ogr")
    QgsProject.instance().addMapLayer(layer)
    layer.selectByExpression(expression)
    return QgsProcessingFeatureSourceDefinition(layer.id(), True)


RJOINS = {"OTHERS", "DECIMALS", "INCOMPLETE", "WORKERS", "INPUT_LEFT_OUT", "JOIN_LEFT_OUT"}


def parameters_of(algorithm: str) -> Dict[str, Any]:
    """The parameters of an algorithm, in their order."""
    found: Dict[str, Any] = {"parameters": [], "added": []}
    definitions = QgsApplication.processingRegistry().algorithmById(algorithm)
    for parameter in definitions.parameterDefinitions():
        told = {"name": parameter.name(), "words": parameter.description(),
                "kind": parameter.type(), "default": str(parameter.defaultValue()).strip("[]"),
                "flags": int(parameter.flags()), "metadata": parameter.metadata(),
                "advanced": bool(parameter.flags() & parameter.FlagAdvanced),
                "choices": parameter.options() if parameter.type() == "enum" else []}
        found["added" if parameter.name() in RJOINS else "parameters"].append(told)
    return found


def run(request: Dict[str, Any]) -> Dict[str, Any]:
    """One run."""
    import processing

    if "parameters_of" in request:
        return parameters_of(request["parameters_of"])
    context, feedback = QgsProcessingContext(), Recorder(request.get("cancel_at"))
    context.setProject(QgsProject.instance())
    context.setInvalidGeometryCheck(QgsFeatureRequest.InvalidGeometryCheck(
        request.get("invalid", 0)))
    answer: Dict[str, Any] = {"error": None, "results": {}, "rows": {}}
    program = os.environ["RJOIN"]
    parameters = dict(request["parameters"])
    for name, expression in request.get("selected", {}).items():
        parameters[name] = selected(parameters[name], expression)
    try:
        os.environ["RJOIN"] = request.get("program", program)
        results = processing.run(request["algorithm"], parameters, context=context,
                                 feedback=feedback)
        layers = {name: layer_of(value, context) for name, value in results.items()}
        answer["rows"] = {name: layer and rows_of(layer) for name, layer in layers.items()}
        answer["systems"] = {name: layer and layer.crs().authid()
                             for name, layer in layers.items()}
        answer["types"] = {name: layer and [field.typeName() for field in layer.fields()]
                           for name, layer in layers.items()}
        answer["results"] = {name: value for name, value in results.items()
                             if isinstance(value, (int, float, str))}
    except QgsProcessingException as fault:
        answer["error"] = str(fault)
    finally:
        os.environ["RJOIN"] = program
    return {**answer, "progress": feedback.values, "log": feedback.log}


def main() -> None:
    """Starts QGIS with the plugin and works the lists off; what QGIS prints goes elsewhere."""
    answers = os.fdopen(os.dup(sys.stdout.fileno()), "w", encoding="utf-8")
    os.dup2(sys.stderr.fileno(), sys.stdout.fileno())
    sys.path[:0] = [os.environ["QGIS_PLUGINPATH"], "/usr/share/qgis/python/plugins"]
    application = QgsApplication([], False)
    application.initQgis()
    from processing.core.Processing import Processing
    from rjoin_processing.provider import RjoinProvider

    Processing.initialize()
    provider = RjoinProvider()
    QgsApplication.processingRegistry().addProvider(provider)
    for line in sys.stdin:
        found = [run(request) for request in json.loads(line)]
        print(json.dumps(found, default=str), file=answers, flush=True)


main()
