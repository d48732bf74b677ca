"""Joins with the names, parameters and words of QGIS's own algorithms, which they can replace in a
model or a script."""
from __future__ import annotations

from typing import Any, Dict, List

from qgis.core import (
    QgsProcessing,
    QgsProcessingContext,
    QgsProcessingParameterBoolean,
    QgsProcessingParameterDistance,
    QgsProcessingParameterEnum,
    QgsProcessingParameterFeatureSink,
    QgsProcessingParameterFeatureSource,
    QgsProcessingParameterField,
    QgsProcessingParameterNumber,
    QgsProcessingParameterString,
)

from .algorithm import COMMON_HELP, DECIMALS, OTHERS
from .conditions import Condition, Nearest, Relations
from .distance_algorithms import DISTANCE_HELP, MOST_NEIGHBORS
from .joins import INCOMPLETE, JOIN_HELP, NON_MATCHING, Form, JoinAlgorithm
from .summaries import SUMMARIES

PREDICATES = ["intersects", "contains", "equals", "touches", "overlaps", "within", "crosses"]
METHODS = [Form.EACH, Form.FIRST, Form.LARGEST_OVERLAP]
JOIN_TYPES = ["Create separate feature for each matching feature (one-to-many)",
              "Take attributes of the first matching feature only (one-to-one)",
              "Take attributes of the feature with largest overlap only (one-to-one)"]

SAME_HELP = """<p>The parameters and the output are those of QGIS's own algorithm of this name; \
which features are joined is decided by rjoin, whose answer is proved.</p>"""


class NativeJoin(JoinAlgorithm):
    """A join with the parameters of an algorithm of QGIS, and those of rjoin as advanced ones."""

    def add_vector(self, name: str, title: str) -> None:
        self.addParameter(QgsProcessingParameterFeatureSource(
            name, title, [QgsProcessing.TypeVectorAnyGeometry]))

    def add_join_fields(self, title: str) -> None:
        self.addParameter(QgsProcessingParameterField(
            self.JOIN_FIELDS, title, parentLayerParameterName=self.JOIN, allowMultiple=True,
            optional=True))

    def add_predicate(self) -> None:
        predicate = QgsProcessingParameterEnum(
            "PREDICATE", "Geometric predicate", PREDICATES, allowMultiple=True, defaultValue=[0])
        predicate.setMetadata({"widget_wrapper": {"useCheckBoxes": True, "columns": 2}})
        self.addParameter(predicate)

    def add_discard(self) -> None:
        self.addParameter(QgsProcessingParameterBoolean(
            "DISCARD_NONMATCHING", "Discard records which could not be joined", False))

    def add_prefix(self) -> None:
        self.addParameter(QgsProcessingParameterString(
            "PREFIX", "Joined field prefix", optional=True))

    def add_output(self, is_optional: bool) -> None:
        """Adds the output, and what rjoin has beside QGIS's own algorithm."""
        self.addParameter(QgsProcessingParameterFeatureSink("OUTPUT", "Joined layer",
                                                            optional=is_optional))
        if is_optional:
            self.addParameter(QgsProcessingParameterFeatureSink(
                NON_MATCHING, "Unjoinable features from first layer", optional=True,
                createByDefault=False))
        self.add_common_parameters()
        self.add_incomplete()
        self.add_workers()
        self.add_left_out("INPUT_LEFT_OUT", "Features of the first layer left out, with the reason",
                          by_default=False)
        self.add_left_out("JOIN_LEFT_OUT", "Features of the second layer left out, with the reason",
                          by_default=False)
        self.make_advanced(OTHERS, DECIMALS, INCOMPLETE, "INPUT_LEFT_OUT", "JOIN_LEFT_OUT")
        self.add_counts()

    def form_of(self, parameters: Dict[str, Any], context: QgsProcessingContext) -> Form:
        return Form.EACH

    def condition_of(self, parameters: Dict[str, Any], context: QgsProcessingContext) -> Condition:
        chosen = self.parameterAsEnums(parameters, "PREDICATE", context)
        return Relations([PREDICATES[number] for number in sorted(set(chosen))], matrices=False)


class JoinByLocation(NativeJoin):
    """native:joinattributesbylocation, by rjoin."""

    def name(self) -> str:
        return "joinattributesbylocation"

    def displayName(self) -> str:  # noqa: N802 - the name is QGIS's
        return "Join attributes by location (exact)"

    def tags(self) -> List[str]:
        return ["join", "intersects", "intersecting", "touching", "within", "contains", "overlaps",
                "relation", "spatial"]

    def shortHelpString(self) -> str:  # noqa: N802 - the name is QGIS's
        return """<p>Joins each feature of the base layer with those of the join layer that stand \
in one of some relations to it.</p>""" + SAME_HELP + """<p>The largest overlap is measured by \
QGIS, which rounds.</p>""" + JOIN_HELP + COMMON_HELP

    def initAlgorithm(self, _configuration: Any = None) -> None:  # noqa: N802
        self.add_vector("INPUT", "Base Layer")
        self.add_vector(self.JOIN, "Join Layer")
        self.add_predicate()
        self.add_join_fields("Fields to add (leave empty to use all fields)")
        self.addParameter(QgsProcessingParameterEnum("METHOD", "Join type", JOIN_TYPES,
                                                     defaultValue=0))
        self.add_discard()
        self.add_prefix()
        self.add_output(is_optional=True)

    def form_of(self, parameters: Dict[str, Any], context: QgsProcessingContext) -> Form:
        return METHODS[int(self.parameterAsEnum(parameters, "METHOD", context))]


class JoinByLocationSummary(NativeJoin):
    """qgis:joinbylocationsummary, by rjoin."""

    def name(self) -> str:
        return "joinbylocationsummary"

    def displayName(self) -> str:  # noqa: N802 - the name is QGIS's
        return "Join attributes by location (summary, exact)"

    def tags(self) -> List[str]:
        return ["summary", "aggregate", "join", "intersects", "within", "contains", "overlaps",
                "relation", "spatial", "statistics", "sum", "mean", "count", "histogram"]

    def shortHelpString(self) -> str:  # noqa: N802 - the name is QGIS's
        return """<p>Joins each feature of the base layer with summaries of the fields of those \
of the join layer that stand in one of some relations to it, such as their number, sum or mean.\
</p>""" + SAME_HELP + """<p>The summaries are QGIS's own. Where join features are left out, each \
may count in a summary: the run stops, or all rows have <i>false</i> in the field <i>known</i>.\
</p>""" + JOIN_HELP + COMMON_HELP

    def initAlgorithm(self, _configuration: Any = None) -> None:  # noqa: N802
        self.add_vector("INPUT", "Base layer")
        self.add_vector(self.JOIN, "Join layer")
        self.add_predicate()
        self.add_join_fields("Fields to summarise (leave empty to use all fields)")
        self.addParameter(QgsProcessingParameterEnum(
            "SUMMARIES", "Summaries to calculate (leave empty to use all available)", SUMMARIES,
            allowMultiple=True, optional=True))
        self.add_discard()
        self.add_output(is_optional=False)

    def form_of(self, parameters: Dict[str, Any], context: QgsProcessingContext) -> Form:
        return Form.SUMMARY

    def summaries_of(self, parameters: Dict[str, Any], context: QgsProcessingContext) -> List[str]:
        chosen = self.parameterAsEnums(parameters, "SUMMARIES", context)
        return [SUMMARIES[number] for number in sorted(set(chosen))] or SUMMARIES


class JoinByNearest(NativeJoin):
    """native:joinbynearest, by rjoin."""

    JOIN = "INPUT_2"
    JOIN_FIELDS = "FIELDS_TO_COPY"

    def name(self) -> str:
        return "joinbynearest"

    def displayName(self) -> str:  # noqa: N802 - the name is QGIS's
        return "Join attributes by nearest (exact)"

    def tags(self) -> List[str]:
        return ["join", "connect", "attributes", "values", "fields", "tables", "proximity",
                "closest", "neighbour", "neighbor", "n-nearest", "distance"]

    def shortHelpString(self) -> str:  # noqa: N802 - the name is QGIS's
        return """<p>Joins each feature of a layer with the nearest ones of another, and all that \
are as near as the last of them. Where a layer is joined with itself, a feature isn't its own \
neighbour.</p>""" + SAME_HELP + """<p><i>feature_x</i>, <i>feature_y</i>, <i>nearest_x</i> and \
<i>nearest_y</i> are the ends of a shortest line between the two, from QGIS.</p>""" + (
            DISTANCE_HELP + JOIN_HELP + COMMON_HELP)

    def initAlgorithm(self, _configuration: Any = None) -> None:  # noqa: N802
        self.add_vector("INPUT", "Input layer")
        self.add_vector(self.JOIN, "Input layer 2")
        self.add_join_fields("Layer 2 fields to copy (leave empty to copy all fields)")
        self.add_discard()
        self.add_prefix()
        self.addParameter(QgsProcessingParameterNumber(
            "NEIGHBORS", "Maximum nearest neighbors", QgsProcessingParameterNumber.Integer, 1,
            False, 1, MOST_NEIGHBORS))
        self.addParameter(QgsProcessingParameterDistance(
            "MAX_DISTANCE", "Maximum distance", None, "INPUT", True, 0.0))
        self.add_output(is_optional=True)

    def condition_of(self, parameters: Dict[str, Any], context: QgsProcessingContext) -> Condition:
        distance = None
        if parameters.get("MAX_DISTANCE") is not None:
            distance = self.parameterAsDouble(parameters, "MAX_DISTANCE", context)
        return Nearest(self.parameterAsInt(parameters, "NEIGHBORS", context), distance,
                       parameters["INPUT"] == parameters[self.JOIN])
