"""The base of all algorithms: common parameters, the output of features left out, a run."""
from __future__ import annotations

import os
import tempfile
from contextlib import contextmanager
from itertools import islice
from pathlib import Path
from typing import Any, Callable, Dict, Iterator, List

from qgis.core import (
    QgsCoordinateReferenceSystem,
    QgsFeature,
    QgsFeatureSink,
    QgsField,
    QgsFields,
    QgsFileUtils,
    QgsProcessingAlgorithm,
    QgsProcessingContext,
    QgsProcessingException,
    QgsProcessingFeatureSource,
    QgsProcessingFeatureSourceDefinition,
    QgsProcessingFeedback,
    QgsProcessingMultiStepFeedback,
    QgsProcessingParameterDefinition,
    QgsProcessingParameterEnum,
    QgsProcessingParameterFeatureSink,
    QgsProcessingParameterNumber,
    QgsProcessingUtils,
    QgsWkbTypes,
)
from qgis.PyQt.QtCore import QVariant

from . import decimals as units
from . import found, program
from .layers import Invalid, Layer, LeftOut, Others, Rules

OTHERS = "OTHERS"
DECIMALS = "DECIMALS"
WORKERS = "WORKERS"
MOST_WORKERS = 16
# How many features are written by one call.
BATCH = 256

COMMON_HELP = """
<p>rjoin reads points, lines and polygons, single or of several parts. Heights and measures are \
ignored.</p>
<h3>Other geometries</h3>
<p>Curves, collections of several geometries, lines without a length and rings that aren't closed \
stop the run with an error that names the feature; or their envelopes (bounding boxes) stand in \
for them, and the field <i>exact</i> says which rows rest on none; or they are left out. The \
features left out go to an output of their own with the reason. So do features without a \
geometry, and those with coordinates out of range, unless they stop the run.</p>
<h3>Invalid polygons</h3>
<p>By the setting <i>Invalid features filtering</i> of the input, or else of Processing: invalid \
polygons stop the run; or are left out; or, without filtering, are read by the even-odd rule: a \
point is inside if a ray from it crosses the rings an odd number of times.</p>
<h3>Decimals</h3>
<p>rjoin computes with decimal numbers. Unless the number of decimals is given, it is the \
fewest, 0 to 15, that write every coordinate exactly; where 15 don't, it is 15, or as many as \
the size of the coordinates allows. Coordinates with more are rounded, half a unit away from zero, \
and the log says how many features changed.</p>
"""


class RjoinAlgorithm(QgsProcessingAlgorithm):
    """An algorithm that runs rjoin on vector layers."""

    def createInstance(self) -> "RjoinAlgorithm":  # noqa: N802 - the name is QGIS's
        return type(self)()

    def group(self) -> str:
        return ""

    def groupId(self) -> str:  # noqa: N802 - the name is QGIS's
        return ""

    def add_common_parameters(self) -> None:
        """Adds the treatment of other geometries, and the number of decimals."""
        self.addParameter(QgsProcessingParameterEnum(
            OTHERS, "Curves, collections and other geometries that rjoin doesn't read",
            ["Stop with an error", "Take their envelopes", "Leave them out and list them"],
            defaultValue=0))
        self.addParameter(QgsProcessingParameterNumber(
            DECIMALS, "Decimals to round coordinates to (all that the data has, or as many as fit, "
            "unless given)",
            QgsProcessingParameterNumber.Integer, None, True, 0, units.ANY.decimals))

    def add_workers(self) -> None:
        """Adds the number of threads that join."""
        self.addParameter(QgsProcessingParameterNumber(
            WORKERS, "Threads", QgsProcessingParameterNumber.Integer, 4, False, 1, MOST_WORKERS))
        self.make_advanced(WORKERS)

    def make_advanced(self, *names: str) -> None:
        """Shows parameters among the advanced ones of the dialog alone."""
        for name in names:
            self.parameterDefinition(name).setFlags(
                self.parameterDefinition(name).flags()
                | QgsProcessingParameterDefinition.FlagAdvanced)

    def add_left_out(self, name: str, title: str, by_default: bool = True) -> None:
        """Adds an output of features left out, which the dialog asks for by default or not."""
        self.addParameter(QgsProcessingParameterFeatureSink(name, title, optional=True,
                                                            createByDefault=by_default))

    def source_of(self, parameters: Dict[str, Any], name: str, context: QgsProcessingContext
                  ) -> QgsProcessingFeatureSource:
        """An input layer, which has geometries."""
        source = self.parameterAsSource(parameters, name, context)
        if source is None:
            raise QgsProcessingException(self.invalidSourceError(parameters, name))
        if source.wkbType() == QgsWkbTypes.NoGeometry:
            raise QgsProcessingException(f"{self.title_of(name, source)} has no geometries")
        return source

    def title_of(self, name: str, source: QgsProcessingFeatureSource) -> str:
        """How messages name an input layer: by its parameter and its own name."""
        return f"{self.parameterDefinition(name).description()} {source.sourceName()}"

    def given_decimals(self, parameters: Dict[str, Any], context: QgsProcessingContext
                       ) -> int | None:
        """The number of decimals, or None where it is to be found."""
        if parameters.get(DECIMALS) is None:
            return None
        return int(self.parameterAsInt(parameters, DECIMALS, context))

    def rules_of(self, parameters: Dict[str, Any], name: str, context: QgsProcessingContext
                 ) -> Rules:
        """How the geometries of an input are read."""
        return Rules(Others(self.parameterAsEnum(parameters, OTHERS, context)),
                     _invalid_of(parameters.get(name), context),
                     self.given_decimals(parameters, context))

    def sink_of(self, parameters: Dict[str, Any], name: str, context: QgsProcessingContext,
                fields: QgsFields, system: QgsCoordinateReferenceSystem, kind: int) -> "Output":
        """A sink with a reference system and a type of geometries.

        A key such as a GeoPackage's `fid` is made anew, since a feature may be written twice.
        """
        sink, identifier = self.parameterAsSink(parameters, name, context, fields, kind, system,
                                                QgsFeatureSink.RegeneratePrimaryKey)
        if sink is None and parameters.get(name):
            raise QgsProcessingException(self.invalidSinkError(parameters, name))
        return Output(name, sink, identifier)

    def write_left_out(self, parameters: Dict[str, Any], name: str, context: QgsProcessingContext,
                       source: QgsProcessingFeatureSource, layer: Layer,
                       system: QgsCoordinateReferenceSystem) -> Dict[str, Any]:
        """Writes the features that were left out, with their fields and the reason."""
        fields = with_fields(source.fields(), [QgsField("reason", QVariant.String)])
        output = self.sink_of(parameters, name, context, fields, system, source.wkbType())
        output.add(map(_with_reason, layer.left_out))
        return output.result()


def _invalid_of(given: Any, context: QgsProcessingContext) -> Invalid:
    """The filtering of invalid features of an input: its own, else that of Processing."""
    overrides = QgsProcessingFeatureSourceDefinition.FlagOverrideDefaultGeometryCheck
    if isinstance(given, QgsProcessingFeatureSourceDefinition) and given.flags & overrides:
        return Invalid(int(given.geometryCheck))
    return Invalid(int(context.invalidGeometryCheck()))


def _with_reason(gone: LeftOut) -> QgsFeature:
    feature = QgsFeature(gone.feature)
    feature.setAttributes(gone.feature.attributes() + [gone.reason])
    return feature


def with_fields(fields: QgsFields, more: List[QgsField]) -> QgsFields:
    """Fields with more behind them; a name that is taken gets a number, as elsewhere in QGIS."""
    added = QgsFields()
    for definition in more:
        added.append(definition)
    return QgsProcessingUtils.combineFields(fields, added)


class Output:
    """A sink of an algorithm, which may be absent."""

    def __init__(self, name: str, sink: QgsFeatureSink | None, identifier: str) -> None:
        self.name = name
        self.sink = sink
        self.identifier = identifier

    def add(self, features: Iterator[QgsFeature],
            advance: Callable[[int], None] = lambda done: None) -> None:
        """Writes features; a refused one is an error. No part of a file stays after an error.

        advance: is told how many are written, and may end the run.
        """
        try:
            done = 0
            advance(done)
            while self.sink is not None and (batch := list(islice(features, BATCH))):
                if not self.sink.addFeatures(batch, QgsFeatureSink.FastInsert):
                    raise QgsProcessingException(
                        f"the output {self.name} could not be written: {self.sink.lastError()}")
                done += len(batch)
                advance(done)
        except Exception:
            self._discard()
            raise

    def _discard(self) -> None:
        """Closes the sink, and removes the file that it has made."""
        if self.result() and os.path.isfile(self.identifier):
            for path in (*QgsFileUtils.sidecarFilesForPath(self.identifier), self.identifier):
                os.remove(path)

    def result(self) -> Dict[str, Any]:
        """What the algorithm answers for this output; it closes the sink."""
        if self.sink is None:
            return {}
        self.sink.flushBuffer()
        self.sink = None
        return {self.name: self.identifier}


def system_name(system: QgsCoordinateReferenceSystem) -> str:
    """How messages name a reference system: by its code, if it has one, and its description."""
    return str(system.userFriendlyIdentifier())


def check_program(feedback: QgsProcessingFeedback) -> None:
    """Ends the run where there is no program, and tells of one that is older than its sources."""
    stale = found.staleness(program.find_program())
    if stale:
        feedback.pushWarning(stale)


@contextmanager
def faults_shown() -> Iterator[Path]:
    """A folder for the files of a run; faults of the program become those of Processing."""
    with tempfile.TemporaryDirectory(prefix="rjoin-") as folder:
        try:
            yield Path(folder)
        except program.ProgramError as fault:
            raise QgsProcessingException(str(fault)) from fault
        except program.Cancelled as fault:
            raise QgsProcessingException("cancelled") from fault
        except OSError as fault:
            raise QgsProcessingException(f"rjoin could not be run: {fault}") from fault


class Steps:
    """The steps of a run, each with its share of the progress."""

    def __init__(self, count: int, feedback: QgsProcessingFeedback) -> None:
        self.feedback = QgsProcessingMultiStepFeedback(count, feedback)
        self.done = 0

    def begin(self, text: str) -> QgsProcessingMultiStepFeedback:
        """Begins the next step, unless the user has cancelled."""
        self.check_cancelled()
        self.feedback.setCurrentStep(self.done)
        self.feedback.setProgressText(text)
        self.done += 1
        return self.feedback

    def check_cancelled(self) -> None:
        """Ends the run where the user has cancelled."""
        if self.feedback.isCanceled():
            raise program.Cancelled
