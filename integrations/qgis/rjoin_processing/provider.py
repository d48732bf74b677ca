"""The Processing provider with its algorithms."""
from __future__ import annotations

from qgis.core import QgsProcessingProvider

from .distance_algorithms import JoinNearest, JoinWithinDistance
from .join_algorithm import JoinByRelation
from .native_algorithms import JoinByLocation, JoinByLocationSummary, JoinByNearest
from .statistics_algorithm import LayerStatistics
from .window_algorithm import FeaturesInWindow


class RjoinProvider(QgsProcessingProvider):
    """What the toolbox shows under the name rjoin."""

    def id(self) -> str:
        return "rjoin"

    def name(self) -> str:
        return "rjoin"

    def longName(self) -> str:  # noqa: N802 - the name is QGIS's
        return "rjoin: exact spatial joins"

    def loadAlgorithms(self) -> None:  # noqa: N802 - the name is QGIS's
        for algorithm in (JoinByLocation, JoinByLocationSummary, JoinByNearest, JoinByRelation,
                          JoinWithinDistance, JoinNearest, FeaturesInWindow, LayerStatistics):
            self.addAlgorithm(algorithm())
