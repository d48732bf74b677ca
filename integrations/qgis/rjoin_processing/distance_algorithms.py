"""The algorithms Join within distance and Join nearest."""
from __future__ import annotations

from typing import Any, Dict, List

from qgis.core import (
    QgsProcessingContext,
    QgsProcessingParameterBoolean,
    QgsProcessingParameterDistance,
    QgsProcessingParameterNumber,
)

from .algorithm import COMMON_HELP
from .conditions import Nearest, Within
from .joins import JOIN_HELP, JoinAlgorithm

MOST_NEIGHBORS = 1_000_000

DISTANCE_HELP = """
<h3>Distances</h3>
<p>Distances are those of the plane (Euclid), in the units of the coordinates, and 0 where two \
features share a point. They are compared exactly. The field <i>distance</i> is rounded to the \
decimals of the run: those given, else as many as the coordinates and the greatest distance have, \
and up to 6 where the size of the coordinates allows them.</p>"""


class JoinWithinDistance(JoinAlgorithm):
    """Joins two layers by the distance of their features."""

    def name(self) -> str:
        return "joinwithindistance"

    def displayName(self) -> str:  # noqa: N802 - the name is QGIS's
        return "Exact join within distance"

    def tags(self) -> List[str]:
        return ["join", "distance", "near", "within", "buffer", "proximity", "spacing"]

    def shortHelpString(self) -> str:  # noqa: N802 - the name is QGIS's
        return """<p>Joins each feature of the base layer with those of the join layer that are \
at most a distance away, as rjoin does, whose answer is proved: each pair once, and no other. \
</p>""" + DISTANCE_HELP + JOIN_HELP + COMMON_HELP

    def add_condition_parameters(self) -> None:
        self.addParameter(QgsProcessingParameterDistance(
            "DISTANCE", "Greatest distance of a pair", 10.0, "INPUT", False, 0.0))
        self.addParameter(QgsProcessingParameterBoolean(
            "APART", "Leave out pairs that share a point", False))

    def condition_of(self, parameters: Dict[str, Any], context: QgsProcessingContext) -> Within:
        return Within(self.parameterAsDouble(parameters, "DISTANCE", context),
                      self.parameterAsBoolean(parameters, "APART", context))


class JoinNearest(JoinAlgorithm):
    """Joins the features of a layer with the nearest ones of another."""

    def name(self) -> str:
        return "joinnearest"

    def displayName(self) -> str:  # noqa: N802 - the name is QGIS's
        return "Exact join of nearest features"

    def tags(self) -> List[str]:
        return ["join", "nearest", "neighbor", "neighbour", "distance", "proximity", "closest"]

    def shortHelpString(self) -> str:  # noqa: N802 - the name is QGIS's
        return """<p>Joins each feature of the base layer with the nearest ones of the join layer, \
and all that are as near as the last of them, as rjoin does, whose answer is proved. Where a \
layer is joined with itself, a feature isn't its own neighbour.</p>
<p>The field <i>n</i> counts the neighbours of a feature from 1. <i>feature_x</i>, \
<i>feature_y</i>, <i>nearest_x</i> and <i>nearest_y</i> are the ends of a shortest line between \
the two, from QGIS, and rounded as QGIS does.</p>
<p>Where join features are left out, each may be nearer than those that are found: the run stops, \
or all rows have <i>false</i> in the field <i>known</i>.</p>
""" + DISTANCE_HELP + JOIN_HELP + COMMON_HELP

    def add_condition_parameters(self) -> None:
        self.addParameter(QgsProcessingParameterNumber(
            "NEIGHBORS", "Number of nearest features", QgsProcessingParameterNumber.Integer, 1,
            False, 1, MOST_NEIGHBORS))
        self.addParameter(QgsProcessingParameterDistance(
            "MAX_DISTANCE", "Greatest distance (any unless given)", None, "INPUT", True, 0.0))

    def condition_of(self, parameters: Dict[str, Any], context: QgsProcessingContext) -> Nearest:
        distance = None
        if parameters.get("MAX_DISTANCE") is not None:
            distance = self.parameterAsDouble(parameters, "MAX_DISTANCE", context)
        return Nearest(self.parameterAsInt(parameters, "NEIGHBORS", context), distance,
                       parameters["INPUT"] == parameters["JOIN"])
