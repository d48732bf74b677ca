"""The partner with which a base feature shares most, as QGIS measures what they share."""
from __future__ import annotations

from typing import TYPE_CHECKING

import numpy as np
from qgis.core import QgsAbstractGeometry, QgsFeature, QgsGeometry, QgsWkbTypes

from .answers import Pairs
from .layers import Layer

if TYPE_CHECKING:
    from .algorithm import Steps
    from .columns import Numbers, Places

CHECK_EVERY = 1000


def largest(left: Layer, right: Layer, pairs: Pairs, steps: Steps) -> Places:
    """The place of a pair of each base feature that has some: of the one that shares the largest
    area, or the greatest length, and of equal ones the first. A base feature with one partner is
    not measured."""
    firsts = pairs.firsts()
    counts = np.diff(firsts, append=pairs.left.size)
    chosen = firsts.copy()
    for number in np.flatnonzero(counts > 1).tolist():
        if number % CHECK_EVERY == 0:
            steps.check_cancelled()
        some = slice(firsts[number], firsts[number] + counts[number])
        base = left.features[int(pairs.left[firsts[number]])]
        chosen[number] += int(_sizes(base, right, pairs.right[some]).argmax())
    return chosen


def _sizes(base: QgsFeature, right: Layer, numbers: Places) -> Numbers:
    """What a feature shares with some of the join layer."""
    engine = QgsGeometry.createGeometryEngine(base.geometry().constGet())
    engine.prepareGeometry()
    return np.array([_size(engine.intersection(right.features[number].geometry().constGet()))
                     for number in numbers.tolist()])


def _size(shared: QgsAbstractGeometry | None) -> float:
    """The area of a polygon, the length of a line, and 0 of all else, as the native join has it."""
    kind = QgsWkbTypes.NullGeometry
    if shared is not None:
        kind = QgsWkbTypes.geometryType(shared.wkbType())
    if kind == QgsWkbTypes.PolygonGeometry:
        return float(shared.area())
    return float(shared.length()) if kind == QgsWkbTypes.LineGeometry else 0.0
