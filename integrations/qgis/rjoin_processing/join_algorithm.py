"""The algorithm Exact join by relation."""
from __future__ import annotations

from typing import Any, Dict, List

from qgis.core import (
    QgsProcessingContext,
    QgsProcessingParameterBoolean,
    QgsProcessingParameterEnum,
    QgsProcessingParameterString,
)

from .algorithm import COMMON_HELP
from .conditions import Relations
from .joins import JOIN_HELP, JoinAlgorithm

# QGIS stores the number of a relation, so a new one comes last.
RELATIONS = ["intersects", "touches", "crosses", "within", "contains", "overlaps", "equals",
             "covers", "covered_by", "contains_properly"]


class JoinByRelation(JoinAlgorithm):
    """Joins two layers by relations of DE-9IM."""

    def name(self) -> str:
        return "joinbyrelation"

    def displayName(self) -> str:  # noqa: N802 - the name is QGIS's
        return "Exact join by relation"

    def tags(self) -> List[str]:
        return ["join", "relation", "DE-9IM", "touches", "overlaps", "within", "matrix", "relate"]

    def shortHelpString(self) -> str:  # noqa: N802 - the name is QGIS's
        return """<p>Joins each feature of the base layer with those of the join layer that stand \
in a spatial relation to it, as rjoin does, whose answer is proved: each pair once, and no other. \
The output has the nine letters of each pair's DE-9IM matrix (OGC 06-103r4) in the field \
<i>matrix</i>, unless <i>Add the matrix of each pair</i> is switched off: the program computes \
none then, and joins of other geometries than boxes take less time. Of several relations, a pair \
has to stand in one at least.</p>
<h3>Own mask</h3>
<p>Nine of the letters T, F, *, 0, 1, 2, in place of named relations. A mask that features \
without a common point may fit is refused.</p>""" + JOIN_HELP + COMMON_HELP

    def add_condition_parameters(self) -> None:
        self.addParameter(QgsProcessingParameterEnum(
            "RELATION", "Base feature .. join feature", RELATIONS, allowMultiple=True,
            defaultValue=[0]))
        self.addParameter(QgsProcessingParameterString(
            "MASK", "Own mask, in place of the relations", optional=True))
        self.addParameter(QgsProcessingParameterBoolean(
            "MATRIX", "Add the matrix of each pair", True))

    def condition_of(self, parameters: Dict[str, Any], context: QgsProcessingContext) -> Relations:
        mask = self.parameterAsString(parameters, "MASK", context)
        chosen = self.parameterAsEnums(parameters, "RELATION", context)
        return Relations([mask] if mask else [RELATIONS[number] for number in sorted(set(chosen))],
                         self.parameterAsBoolean(parameters, "MATRIX", context))
