"""The features of a join's output."""
from __future__ import annotations

from itertools import islice
from typing import Any, Iterator, List, Sequence

import numpy as np
from qgis.core import QgsFeature, QgsField, QgsGeometry
from qgis.PyQt.QtCore import QVariant

from .answers import BLOCK, JoinFields, Pairs


def merged(answers: Sequence[Pairs], count: int) -> Pairs:
    """Each pair of several answers once, in layer order; count: the features of the join layer."""
    if len(answers) == 1:
        return answers[0]
    left, right = (np.concatenate([answer[side] for answer in answers]) for side in (0, 1))
    values = tuple([value for column in columns for value in column]
                   for columns in zip(*(answer.values for answer in answers)))
    _, places = np.unique(left * count + right, return_index=True)
    return Pairs(left, right, values).chosen(places)


def joined_features(added: JoinFields, right: List[List[Any]], pairs: Pairs,
                    nothing: List[Any] | None) -> Iterator[QgsFeature]:
    """A feature for each pair; with `nothing`, the values of no partner, also one for each base
    feature without one."""
    more = added.of_pairs(pairs)
    counts = np.bincount(pairs.left, minlength=len(added.left.features)).tolist()
    partners = map(right.__getitem__, _numbers(pairs.right))
    for number, feature in enumerate(added.left.features):
        if counts[number]:
            geometry, own = feature.geometry(), feature.attributes()
            for partner, values in zip(islice(partners, counts[number]), more):
                joined = QgsFeature()  # not by `feature_of`, as there are many
                joined.setGeometry(geometry)
                joined.setAttributes(own + partner + values)
                yield joined
        elif nothing is not None:
            yield feature_of(feature.geometry(),
                             feature.attributes() + nothing + added.of_lonely(number))


def _numbers(numbers: Any) -> Iterator[int]:
    """The numbers of an array, without a list of all of them."""
    for begin in range(0, numbers.size, BLOCK):
        yield from numbers[begin:begin + BLOCK].tolist()


def lonely_features(added: JoinFields, pairs: Pairs) -> Iterator[QgsFeature]:
    """The base features without a partner."""
    is_lonely = np.ones(len(added.left.features), np.bool_)
    is_lonely[pairs.left] = False
    for number in np.flatnonzero(is_lonely).tolist():
        feature = added.left.features[number]
        yield feature_of(feature.geometry(), feature.attributes() + added.of_lonely(number))


def feature_of(geometry: QgsGeometry, attributes: List[Any]) -> QgsFeature:
    feature = QgsFeature()
    feature.setGeometry(geometry)
    feature.setAttributes(attributes)
    return feature


def feature_id_field(title: str) -> QgsField:
    return QgsField(title, QVariant.LongLong)


def pair_features(added: JoinFields, left: List[Any], right: List[Any], pairs: Pairs
                  ) -> Iterator[QgsFeature]:
    """A row without a geometry for each pair."""
    for one, other, values in zip(_numbers(pairs.left), _numbers(pairs.right),
                                  added.of_pairs(pairs)):
        pair = QgsFeature()
        pair.setAttributes([left[one], right[other], *values])
        yield pair
