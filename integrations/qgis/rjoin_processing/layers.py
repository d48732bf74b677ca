"""Reads the features of a vector layer, and writes them as a layer file of rjoin."""
from __future__ import annotations

from dataclasses import dataclass, field
from enum import IntEnum
from functools import cached_property
from itertools import compress
from math import isfinite
from pathlib import Path
from typing import TYPE_CHECKING, Any, List, NamedTuple, Sequence, Set

import numpy as np
from qgis.core import (
    QgsCoordinateReferenceSystem,
    QgsCoordinateTransformContext,
    QgsFeature,
    QgsFeatureRequest,
    QgsGeometry,
    QgsProcessingException,
    QgsProcessingFeatureSource,
    QgsProcessingFeedback,
)

from . import columns, sheet
from . import decimals as units
from .boxes import Box, NotABox, box_of
from .columns import Columns
from .shapes import NotRead, shape_of
from .wkb import Kind

if TYPE_CHECKING:
    from .columns import Flags, Numbers, Places
    from .decimals import Coordinates

# How rjoin reads layers that have other geometries than boxes.
SHAPES = ("--geometry", "any", "--rings", "even-odd")
CHECK_EVERY = 1000
# How many features are read at once.
BLOCK = 1 << 12
MOST_NAMED = 5


class Others(IntEnum):
    """The treatment of a geometry that rjoin doesn't read; the numbers are the parameter's."""

    STOP = 0
    ENVELOPE = 1
    LEAVE_OUT = 2


class Invalid(IntEnum):
    """The treatment of polygons that QGIS calls invalid; the numbers are those of QGIS."""

    EVEN_ODD = int(QgsFeatureRequest.GeometryNoCheck)
    LEAVE_OUT = int(QgsFeatureRequest.GeometrySkipInvalid)
    STOP = int(QgsFeatureRequest.GeometryAbortOnInvalid)


class Rules(NamedTuple):
    """How geometries are read; `decimals` are those to round to, if that is asked for."""

    others: Others
    invalid: Invalid
    decimals: int | None


class System(NamedTuple):
    """A reference system into which a layer is reprojected, by the transformations of a project."""

    system: QgsCoordinateReferenceSystem
    transforms: QgsCoordinateTransformContext


class LeftOut(NamedTuple):
    """A feature that isn't in the result, and why."""

    feature: QgsFeature
    reason: str


@dataclass
class Layer:
    """The features of a source that take part, in its order, and those that don't.

    The number of a feature, by which rjoin knows it, is its place in `features`, and that of its
    geometry in `columns`. `envelopes` has the numbers of those whose envelope stands in for their
    shape. `is_reprojected` if it is read in another reference system than its own.
    """

    name: str
    rules: Rules
    features: List[QgsFeature] = field(default_factory=list)
    parts: List[Columns] = field(default_factory=list)
    left_out: List[LeftOut] = field(default_factory=list)
    envelopes: Set[int] = field(default_factory=set)
    is_reprojected: bool = False

    @cached_property
    def columns(self) -> Columns:
        """The geometries, once all are read."""
        parts, self.parts = self.parts, []
        return columns.joined(parts) if parts else columns.nothing()

    @property
    def has_shapes(self) -> bool:
        """Whether some are more than boxes."""
        return bool((self.columns.form != columns.BOX).any())

    @property
    def coordinates(self) -> Numbers:
        """All coordinates, x and y in turn."""
        return self.columns.points.reshape(-1)

    def label(self, feature: QgsFeature) -> str:
        """How messages name a feature."""
        return f"{self.name}, feature {feature.id()}"

    def features_at(self, places: Places) -> Places:
        """The numbers of the features that places in the coordinates belong to."""
        ends = np.cumsum(self.columns.size)
        return np.searchsorted(ends, places // 2, side="right")

    def take_out(self, numbers: Places, reason: str) -> None:
        """Leaves out features that were taken in."""
        stays = np.ones(len(self.features), np.bool_)
        stays[numbers] = False
        moved = (np.cumsum(stays) - 1).tolist()
        self.left_out += [LeftOut(self.features[number], reason) for number in numbers.tolist()]
        self.features = list(compress(self.features, stays.tolist()))
        self.columns = self.columns.chosen(stays)
        self.envelopes = {moved[number] for number in self.envelopes if stays[number]}

    def round_to(self, decimals: int) -> None:
        """Has the coordinates rounded; where that may leave a line or ring no length, all features
        are read once more, since such a geometry is one that rjoin doesn't read."""
        self.rules = self.rules._replace(decimals=decimals)
        if not columns.may_be_points(self.columns, decimals):
            return
        features, self.features, self.envelopes = self.features, [], set()
        del self.columns
        for begin in range(0, len(features), BLOCK):
            self.add(features[begin:begin + BLOCK])

    def add(self, features: List[QgsFeature]) -> None:
        """Takes features in or leaves them out."""
        wkbs = [feature.geometry().asWkb().data() for feature in features]
        found, certain = columns.read(wkbs, self.rules.decimals)
        invalid = self._are_invalid(features, found)
        begin = 0
        for place in np.flatnonzero(~certain | invalid).tolist():
            self._append(features[begin:place], found.part(begin, place))
            begin = place + 1
            if invalid[place]:
                self._add_invalid(features[place])
            else:
                self._add_one(features[place], wkbs[place])
        self._append(features[begin:], found.part(begin, len(features)))

    def _are_invalid(self, features: List[QgsFeature], found: Columns) -> Flags:
        """Which polygons the rules call invalid."""
        invalid = np.zeros(len(features), np.bool_)
        if self.rules.invalid != Invalid.EVEN_ODD:
            places = np.flatnonzero(found.form == Kind.MULTI_POLYGON)
            invalid[places] = [not features[place].geometry().isGeosValid()
                               for place in places.tolist()]
        return invalid

    def _append(self, features: List[QgsFeature], found: Columns) -> None:
        if features:
            self.features += features
            self.parts.append(found)

    def _add_one(self, feature: QgsFeature, wkb: bytes) -> None:
        """Takes a feature in or leaves it out, of which nothing is known."""
        try:
            if feature.geometry().isNull():
                raise NotRead("no geometry" + ", or one that can't be reprojected"
                              * self.is_reprojected)
            try:
                self._append([feature], columns.of_box(box_of(wkb)))
            except NotABox:
                self._add_shape(feature, wkb)
        except NotRead as reason:
            self._add_other(feature, str(reason))

    def _add_shape(self, feature: QgsFeature, wkb: bytes) -> None:
        shape = shape_of(wkb, self.rules.decimals)
        if shape.form.kind == Kind.POLYGON and self.rules.invalid != Invalid.EVEN_ODD and (
                not feature.geometry().isGeosValid()):
            self._add_invalid(feature)
        else:
            self._append([feature], columns.of_shape(shape))

    def _add_invalid(self, feature: QgsFeature) -> None:
        if self.rules.invalid == Invalid.STOP:
            raise QgsProcessingException(
                f"{self.label(feature)}: an invalid polygon. Fix it, or change “Invalid features "
                "filtering” of this input or in the Processing settings: “Do not filter” reads "
                "polygons by the even-odd rule.")
        self.left_out.append(LeftOut(feature, "an invalid polygon"))

    def _add_other(self, feature: QgsFeature, reason: str) -> None:
        if self.rules.others == Others.ENVELOPE and _has_envelope(feature.geometry()):
            bounds = feature.geometry().boundingBox()
            self.envelopes.add(len(self.features))
            self._append([feature], columns.of_box(Box(
                bounds.xMinimum(), bounds.yMinimum(), bounds.xMaximum(), bounds.yMaximum())))
        elif self.rules.others == Others.STOP:
            raise QgsProcessingException(
                f"{self.label(feature)}: not points, lines or polygons that rjoin reads, but "
                f"{reason}. Choose to take envelopes, or to leave such features out.")
        else:
            self.left_out.append(LeftOut(feature, reason))


def _has_envelope(geometry: QgsGeometry) -> bool:
    """Whether there are points, and all are finite; QGIS has bounds that pass over some others."""
    return not geometry.isEmpty() and all(
        isfinite(point.x()) and isfinite(point.y()) for point in geometry.vertices())


def read_layer(source: QgsProcessingFeatureSource, name: str, rules: Rules,
               feedback: QgsProcessingFeedback, system: System | None = None) -> Layer:
    """Reads all features, in another reference system than that of the source if one is given; the
    result is partial where the user has cancelled."""
    layer = Layer(name, rules, is_reprojected=system is not None)
    request = QgsFeatureRequest()
    if system is not None:
        request.setDestinationCrs(system.system, system.transforms)
    count = max(source.featureCount(), 1)
    flags = QgsProcessingFeatureSource.FlagSkipGeometryValidityChecks  # `Layer` has its own
    waiting: List[QgsFeature] = []
    for number, feature in enumerate(source.getFeatures(request, flags)):
        if number % CHECK_EVERY == 0:
            if feedback.isCanceled():
                break
            feedback.setProgress(min(100.0, 100 * number / count))
        waiting.append(feature)
        if len(waiting) == BLOCK:
            layer.add(waiting)
            waiting = []
    layer.add(waiting)
    return layer


def tell(layer: Layer, has_list: bool, feedback: QgsProcessingFeedback) -> None:
    """Logs how many features were replaced or left out; without a list of them it names some."""
    if layer.envelopes:
        feedback.pushInfo(f"{layer.name}: features replaced by their envelopes: "
                          f"{len(layer.envelopes)}")
    if not layer.left_out:
        return
    text = f"{layer.name}: features left out: {len(layer.left_out)}"
    if not has_list:
        named = [f"feature {gone.feature.id()} ({gone.reason})"
                 for gone in layer.left_out[:MOST_NAMED]]
        more = ", .." if len(layer.left_out) > MOST_NAMED else ""
        text += f", namely {', '.join(named)}{more}"
    feedback.pushWarning(text)


def common_decimals(layers: Sequence[Layer], given: int | None, feedback: QgsProcessingFeedback,
                    most: int = units.ANY.decimals) -> int:
    """The decimals of a run: the given ones, else the fewest that write all exactly, or if these
    are more than the range of the numbers allows, or than `most`, as many as are allowed.

    What is out of range with them is left out, or ends the run, and all others are rounded.
    """
    leave_out_far(layers, 0)
    decimals = _fewest_decimals(layers, most) if given is None else given
    leave_out_far(layers, decimals)
    for layer in layers:
        places = units.rounded_places(layer.coordinates, decimals)
        _tell_rounded(layer, places, decimals, feedback)
        if places.size and given is None:
            layer.round_to(decimals)
    feedback.pushInfo(f"Decimals of the coordinates: {decimals}")
    return decimals


def leave_out_far(layers: Sequence[Layer], decimals: int) -> None:
    """Leaves out the features out of rjoin's range at these decimals, or ends the run at the first
    of them. An envelope of such a feature is as far out."""
    for layer in layers:
        places = units.far_places(layer.coordinates, decimals)
        if not places.size:
            continue
        if layer.rules.others == Others.STOP:
            place = int(places[0])
            number = float(layer.coordinates[place])
            raise _fault_at(layer, place,
                            units.far_text(number, decimals, most_decimals(layers)))
        layer.take_out(np.unique(layer.features_at(places)), "a coordinate out of range"
                       + f" with {decimals} decimals" * (decimals > 0))


def most_decimals(layers: Sequence[Layer]) -> int:
    """The most decimals at which all coordinates of all layers are in range."""
    return min(units.most_decimals(layer.coordinates) for layer in layers)


def _fewest_decimals(layers: Sequence[Layer], most: int) -> int:
    """The fewest decimals that write the coordinates of all layers exactly, or the most there may
    be."""
    decimals = 0
    for layer in layers:
        decimals = units.fewest_decimals(layer.coordinates, decimals)
    return min(decimals, most, most_decimals(layers))


def _fault_at(layer: Layer, place: int, text: str) -> QgsProcessingException:
    """The fault of a coordinate, by its place."""
    (number,) = layer.features_at(np.array([place]))
    return QgsProcessingException(
        f"{layer.label(layer.features[number])}: coordinate {text}")


def _tell_rounded(layer: Layer, places: Places, decimals: int, feedback: QgsProcessingFeedback
                  ) -> None:
    rounded = np.unique(layer.features_at(places))
    if rounded.size:
        feedback.pushWarning(f"{layer.name}: features with coordinates rounded to {decimals} "
                             f"decimals: {rounded.size}")


def are_boxes(layers: Sequence[Layer], decimals: int, *others: Coordinates) -> bool:
    """Whether rjoin may read the layers as boxes, beside other coordinates; else it reads any
    geometry, which takes longer."""
    numbers = [*(layer.coordinates for layer in layers), *others]
    return not any(layer.has_shapes for layer in layers) and all(
        units.BOXES.fit(some, decimals) for some in numbers)


def format_words(layers: Sequence[Layer], decimals: int, *others: Coordinates) -> List[str]:
    """The words of rjoin that say how it reads the files of the layers, and other coordinates."""
    words = ["--scale", str(decimals), "--round"]
    if not are_boxes(layers, decimals, *others):
        words += SHAPES
    return words


def write_layer(path: Path, layer: Layer, decimals: int) -> None:
    """Writes the geometries, rounded to the decimals, with their numbers as ids."""
    sheet.write(path, layer.columns, decimals)


def wkt(box: Box, decimals: int) -> str:
    """The well-known text of a box; one that is flat once it is rounded is a segment or a point."""
    x1, y1, x2, y2 = map(units.text, box)
    is_thin = units.are_equal(box.west, box.east, decimals)
    is_low = units.are_equal(box.south, box.north, decimals)
    if is_thin and is_low:
        return f"POINT({x1} {y1})"
    if is_thin:
        return f"LINESTRING({x1} {y1},{x1} {y2})"
    if is_low:
        return f"LINESTRING({x1} {y1},{x2} {y1})"
    return f"POLYGON(({x1} {y1},{x2} {y1},{x2} {y2},{x1} {y2},{x1} {y1}))"


def attributes_of(layer: Layer, places: List[int]) -> List[List[Any]]:
    """The attributes of each feature at some places of its fields, in the order of the layer."""
    if layer.features and places == list(range(layer.features[0].fields().count())):
        return [feature.attributes() for feature in layer.features]
    return [[values[place] for place in places]
            for values in (feature.attributes() for feature in layer.features)]
