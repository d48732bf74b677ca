"""The base of the algorithms that join two layers: parameters, the run and its output."""
from __future__ import annotations

from enum import Enum
from pathlib import Path
from typing import Any, Dict, Iterator, List

from qgis.core import (
    QgsCoordinateReferenceSystem,
    QgsFeature,
    QgsField,
    QgsFields,
    QgsProcessing,
    QgsProcessingContext,
    QgsProcessingException,
    QgsProcessingFeatureSource,
    QgsProcessingFeedback,
    QgsProcessingOutputNumber,
    QgsProcessingParameterBoolean,
    QgsProcessingParameterEnum,
    QgsProcessingParameterFeatureSink,
    QgsProcessingParameterFeatureSource,
    QgsProcessingParameterField,
    QgsProcessingParameterString,
    QgsProcessingUtils,
    QgsWkbTypes,
)

from . import joined, overlaps, program, report, sheet, summaries
from .algorithm import (
    OTHERS,
    WORKERS,
    Output,
    RjoinAlgorithm,
    Steps,
    check_program,
    faults_shown,
    system_name,
    with_fields,
)
from .answers import JoinFields, Pairs
from .conditions import Condition
from .layers import (
    Layer,
    Others,
    System,
    attributes_of,
    format_words,
    read_layer,
    tell,
    write_layer,
)

INCOMPLETE = "INCOMPLETE"
INCOMPLETE_STOPS = 0
INCOMPLETE_IS_MARKED = 1
NON_MATCHING = "NON_MATCHING"


class Form(Enum):
    """What the output has: a feature for each pair, the pairs alone, a base feature with its first
    partner or the one it shares most with, or with summaries of all its partners."""

    EACH = 0
    PAIRS_ALONE = 1
    FIRST = 2
    LARGEST_OVERLAP = 3
    SUMMARY = 4


FORMS = [Form.EACH, Form.PAIRS_ALONE, Form.FIRST]

JOIN_HELP = """
<p>A join layer of another reference system is reprojected to that of the base layer.</p>
<h3>Base features without a partner</h3>
<p>A join feature that is left out may be the partner of a base feature that has none in the \
output. Where join features are left out, such base features stop the run unless they are \
discarded, or kept with <i>false</i> in the field <i>known</i>.</p>"""


class JoinAlgorithm(RjoinAlgorithm):
    """Joins two layers by a condition, with the fields of both for each pair.

    JOIN and JOIN_FIELDS are the parameters of the join layer and of the fields of it to add.
    """

    JOIN = "JOIN"
    JOIN_FIELDS = "JOIN_FIELDS"

    def initAlgorithm(self, _configuration: Any = None) -> None:  # noqa: N802
        vector = [QgsProcessing.TypeVectorAnyGeometry]
        self.addParameter(QgsProcessingParameterFeatureSource("INPUT", "Base layer", vector))
        self.addParameter(QgsProcessingParameterFeatureSource("JOIN", "Join layer", vector))
        self.add_condition_parameters()
        self._add_output_parameters()
        self.add_common_parameters()
        self.add_workers()
        self.addParameter(QgsProcessingParameterFeatureSink("OUTPUT", "Joined layer"))
        self.addParameter(QgsProcessingParameterFeatureSink(
            NON_MATCHING, "Base features without a partner", optional=True, createByDefault=False))
        self.add_left_out("INPUT_LEFT_OUT", "Base features left out, with the reason")
        self.add_left_out("JOIN_LEFT_OUT", "Join features left out, with the reason")
        self.add_counts()

    def add_counts(self) -> None:
        """Adds the numbers that the algorithm answers."""
        for name, title in (("PAIRS", "Number of pairs"),
                            ("JOINED_COUNT", "Number of base features with a partner"),
                            ("UNJOINABLE_COUNT", "Number of base features without a partner")):
            self.addOutput(QgsProcessingOutputNumber(name, title))

    def add_condition_parameters(self) -> None:
        """Adds the parameters of the condition."""
        raise NotImplementedError

    def condition_of(self, parameters: Dict[str, Any], context: QgsProcessingContext) -> Condition:
        """The condition that the parameters give."""
        raise NotImplementedError

    def form_of(self, parameters: Dict[str, Any], context: QgsProcessingContext) -> Form:
        """What the output has."""
        return FORMS[int(self.parameterAsEnum(parameters, "METHOD", context))]

    def summaries_of(self, parameters: Dict[str, Any], context: QgsProcessingContext
                     ) -> List[str]:
        """The names of the summaries that the output has, in their order."""
        return []

    def add_incomplete(self) -> QgsProcessingParameterEnum:
        """Adds the treatment of base features without a partner if join features are left out."""
        parameter = QgsProcessingParameterEnum(
            INCOMPLETE, "Base features without a partner where join features are left out",
            ["Stop with an error", "Keep them, marked in the field known"],
            defaultValue=INCOMPLETE_STOPS)
        self.addParameter(parameter)
        return parameter

    def _add_output_parameters(self) -> None:
        self.addParameter(QgsProcessingParameterEnum(
            "METHOD", "Output",
            ["A base feature with the fields of both layers for each pair",
             "The pairs alone, as a table of two ids",
             "A base feature with the fields of its first partner alone"],
            defaultValue=0))
        self.addParameter(QgsProcessingParameterField(
            "JOIN_FIELDS", "Fields to add (all unless given)", parentLayerParameterName="JOIN",
            allowMultiple=True, optional=True))
        self.addParameter(QgsProcessingParameterBoolean(
            "DISCARD_NONMATCHING", "Discard base features without a partner", False))
        self.add_incomplete()
        self.addParameter(QgsProcessingParameterString(
            "PREFIX", "Prefix of added fields", optional=True))
        self.addParameter(QgsProcessingParameterField(
            "INPUT_ID", "Id of the base layer in a table of pairs (feature id unless given)",
            parentLayerParameterName="INPUT", optional=True))
        self.addParameter(QgsProcessingParameterField(
            "JOIN_ID", "Id of the join layer in a table of pairs (feature id unless given)",
            parentLayerParameterName="JOIN", optional=True))

    def processAlgorithm(self, parameters: Dict[str, Any],  # noqa: N802 - the name is QGIS's
                         context: QgsProcessingContext, feedback: QgsProcessingFeedback
                         ) -> Dict[str, Any]:
        with faults_shown() as folder:
            return _Run(self, parameters, context, feedback).run(folder)


class _Run:
    """One run of an algorithm."""

    def __init__(self, algorithm: JoinAlgorithm, parameters: Dict[str, Any],
                 context: QgsProcessingContext, feedback: QgsProcessingFeedback) -> None:
        self.algorithm = algorithm
        self.parameters = parameters
        self.context = context
        self.steps = Steps(4, feedback)
        self.condition = algorithm.condition_of(parameters, context)
        self.left = algorithm.source_of(parameters, "INPUT", context)
        self.right = algorithm.source_of(parameters, algorithm.JOIN, context)
        self.others = Others(algorithm.parameterAsEnum(parameters, OTHERS, context))
        self.form = algorithm.form_of(parameters, context)
        self.meaning = self.condition.meaning
        if self.form == Form.SUMMARY:
            self.meaning = self.meaning._replace(needs_all="may count in a summary")
        self.incomplete = algorithm.parameterAsEnum(parameters, INCOMPLETE, context)
        self.keeps_lonely = self.form != Form.PAIRS_ALONE and not algorithm.parameterAsBoolean(
            parameters, "DISCARD_NONMATCHING", context)
        self.shows_incomplete = (self.keeps_lonely or bool(parameters.get(NON_MATCHING))
                                 or bool(self.meaning.needs_all))
        self.system = QgsCoordinateReferenceSystem()

    def run(self, folder: Path) -> Dict[str, Any]:
        """Joins the layers; no output is made before the pairs are known."""
        check_program(self.steps.feedback)
        self.system = _common_system(self.left, self.right, self.steps.feedback)
        self.condition.check()
        left = self._read(self.left, "INPUT")
        right = self._read(self.right, self.algorithm.JOIN)
        decimals = self._decimals([left, right])
        self._check_complete(right)
        pairs = self._join(folder, left, right, decimals)
        firsts = pairs.firsts()
        if self.form == Form.FIRST:
            pairs = pairs.chosen(firsts)
        elif self.form == Form.LARGEST_OVERLAP:
            pairs = pairs.chosen(overlaps.largest(left, right, pairs, self.steps))
        results = self._write(left, right, pairs)
        results.update(self.algorithm.write_left_out(
            self.parameters, "INPUT_LEFT_OUT", self.context, self.left, left, self.system))
        results.update(self.algorithm.write_left_out(
            self.parameters, "JOIN_LEFT_OUT", self.context, self.right, right, self.system))
        results["PAIRS"] = pairs.left.size
        results["JOINED_COUNT"] = firsts.size
        results["UNJOINABLE_COUNT"] = len(left.features) - firsts.size
        return results

    def _read(self, source: QgsProcessingFeatureSource, name: str) -> Layer:
        feedback = self.steps.begin(f"Reading {source.sourceName()}")
        rules = self.algorithm.rules_of(self.parameters, name, self.context)
        system = None
        if source.sourceCrs() != self.system and source.sourceCrs().isValid():
            system = System(self.system, self.context.transformContext())
        layer = read_layer(source, self.algorithm.title_of(name, source), rules, feedback, system)
        self.steps.check_cancelled()
        return layer

    def _decimals(self, layers: List[Layer]) -> int:
        """The decimals of the run; what they don't reach is left out, and all that is is told."""
        given = self.algorithm.given_decimals(self.parameters, self.context)
        decimals = self.condition.decimals(layers, given, self.steps.feedback)
        for layer, name in zip(layers, ("INPUT_LEFT_OUT", "JOIN_LEFT_OUT")):
            tell(layer, bool(self.parameters.get(name)), self.steps.feedback)
        return decimals

    def _check_complete(self, right: Layer) -> None:
        """Stops where a feature that was left out may change a row."""
        if not (right.left_out and self.shows_incomplete and self.incomplete == INCOMPLETE_STOPS):
            return
        if self.meaning.needs_all:
            raise QgsProcessingException(
                f"{right.name}: features left out: {len(right.left_out)}, each of which "
                f"{self.meaning.needs_all}. Keep the rows, marked in the field known.")
        raise QgsProcessingException(
            f"{right.name}: features left out: {len(right.left_out)}, each of which may be the "
            "partner of a base feature without one. Discard base features without a partner, "
            "or keep them, marked in the field known.")

    def _join(self, folder: Path, left: Layer, right: Layer, decimals: int) -> Pairs:
        feedback = self.steps.begin(f"Joining by {self.condition.title}")
        paths = folder / "base.csv", folder / "join.csv"
        for path, layer in zip(paths, (left, right)):
            write_layer(path, layer, decimals)
            feedback.setProgress(40 if layer is left else 80)
        workers = self.algorithm.parameterAsInt(self.parameters, WORKERS, self.context)
        digits = sheet.id_digits(len(left.features)), sheet.id_digits(len(right.features))
        found = []
        for number, (command, *words) in enumerate(self.condition.commands()):
            path = folder / f"report{number}.csv"
            program.run([command, *map(str, paths), *words, *format_words([left, right], decimals),
                         "--workers", str(workers)], path, feedback.isCanceled)
            rows = report.read(path, self.condition.columns, digits)
            found.append(self.condition.pairs(rows, left, right))
        return joined.merged(found, len(right.features))

    def _write(self, left: Layer, right: Layer, pairs: Pairs) -> Dict[str, Any]:
        feedback = self.steps.begin("Writing the output")
        added = JoinFields(left, right, self.condition.fields(), self.meaning,
                           self.others == Others.ENVELOPE,
                           self.shows_incomplete and self.incomplete == INCOMPLETE_IS_MARKED)
        if self.form == Form.PAIRS_ALONE:
            output, features = self._pairs_alone(added, pairs)
        elif self.form == Form.SUMMARY:
            output, features = self._summarized(added, pairs)
        else:
            output, features = self._joined(added, pairs)
        count = pairs.left.size
        if added.has_exact:
            inexact = count - int(added.are_exact(pairs).sum())
            feedback.pushInfo("Pairs that rest on an envelope, where the field exact is false: "
                              f"{inexact} of {count}")
        output.add(features, lambda done: self._advance(done / max(1, count)))
        return {**output.result(), **self._write_lonely(added, pairs)}

    def _advance(self, share: float) -> None:
        """Shows the progress, unless the user has cancelled."""
        self.steps.feedback.setProgress(min(100.0, 100 * share))
        self.steps.check_cancelled()

    def _write_lonely(self, added: JoinFields, pairs: Pairs) -> Dict[str, Any]:
        if self.algorithm.parameterDefinition(NON_MATCHING) is None:
            return {}
        output = self.algorithm.sink_of(
            self.parameters, NON_MATCHING, self.context,
            with_fields(self.left.fields(), added.flags()), self.system, self.left.wkbType())
        output.add(joined.lonely_features(added, pairs))
        return output.result()

    def _joined(self, added: JoinFields, pairs: Pairs
                ) -> tuple[Output, Iterator[QgsFeature]]:
        places = self._join_places(added)
        prefix = self.algorithm.parameterAsString(self.parameters, "PREFIX", self.context)
        right = QgsFields()
        for place in places:
            right.append(self.right.fields()[place])
        fields = with_fields(QgsProcessingUtils.combineFields(self.left.fields(), right, prefix),
                             added.fields())
        nothing = [None] * (len(places) + len(added.of_values)) if self.keeps_lonely else None
        return self._output(fields, self.left.wkbType()), joined.joined_features(
            added, attributes_of(added.right, places), pairs, nothing)

    def _join_places(self, added: JoinFields) -> List[int]:
        """The places of the fields of the join layer that are asked for."""
        names = self.algorithm.parameterAsFields(self.parameters, self.algorithm.JOIN_FIELDS,
                                                 self.context)
        return _places(self.right.fields(), names, added.right)

    def _summarized(self, added: JoinFields, pairs: Pairs
                    ) -> tuple[Output, Iterator[QgsFeature]]:
        chosen = self.algorithm.summaries_of(self.parameters, self.context)
        places = self._join_places(added)
        columns = [summaries.Column(self.right.fields()[place], chosen) for place in places]
        fields = QgsFields()
        for field in (field for column in columns for field in column.fields()):
            fields.append(field)
        fields = with_fields(QgsProcessingUtils.combineFields(self.left.fields(), fields),
                             added.flags())
        return self._output(fields, self.left.wkbType()), summaries.features(
            added, attributes_of(added.right, places), columns, pairs, self.keeps_lonely)

    def _pairs_alone(self, added: JoinFields, pairs: Pairs
                     ) -> tuple[Output, Iterator[QgsFeature]]:
        left_id = self.algorithm.parameterAsString(self.parameters, "INPUT_ID", self.context)
        right_id = self.algorithm.parameterAsString(self.parameters, "JOIN_ID", self.context)
        fields = QgsFields()
        for field in (_id_field(self.left.fields(), left_id, "left", added.left),
                      _id_field(self.right.fields(), right_id, "right", added.right),
                      *added.fields()):
            fields.append(field)
        return self._output(fields, QgsWkbTypes.NoGeometry), joined.pair_features(
            added, _ids(added.left, self.left.fields(), left_id),
            _ids(added.right, self.right.fields(), right_id), pairs)

    def _output(self, fields: QgsFields, kind: int) -> Output:
        return self.algorithm.sink_of(self.parameters, "OUTPUT", self.context, fields, self.system,
                                      kind)


def _common_system(left: QgsProcessingFeatureSource, right: QgsProcessingFeatureSource,
                   feedback: QgsProcessingFeedback) -> QgsCoordinateReferenceSystem:
    """The reference system of the base layer, or of the join layer if that alone has one."""
    one, other = left.sourceCrs(), right.sourceCrs()
    if one.isValid() and other.isValid() and one != other:
        feedback.pushInfo(f"The join layer is reprojected from {system_name(other)} to "
                          f"{system_name(one)}, that of the base layer")
    system = one if one.isValid() else other
    if one.isValid() != other.isValid():
        without, other_one = ("join", "base") if one.isValid() else ("base", "join")
        feedback.pushWarning(f"The {without} layer has no reference system; that of the "
                             f"{other_one} layer is taken: {system_name(system)}")
    return system


def _places(fields: QgsFields, names: List[str], layer: Layer) -> List[int]:
    """The places of named fields of a layer, or of all of them."""
    if not names:
        return list(range(fields.count()))
    places = [fields.lookupField(name) for name in names]
    if -1 in places:
        raise QgsProcessingException(f"{layer.name} has no field {names[places.index(-1)]}")
    return places


def _id_field(fields: QgsFields, name: str, title: str, layer: Layer) -> QgsField:
    if not name:
        return joined.feature_id_field(title)
    field = QgsField(fields[_places(fields, [name], layer)[0]])
    field.setName(title)
    return field


def _ids(layer: Layer, fields: QgsFields, name: str) -> List[Any]:
    if not name:
        return [feature.id() for feature in layer.features]
    (place,) = _places(fields, [name], layer)
    return [feature.attribute(place) for feature in layer.features]
