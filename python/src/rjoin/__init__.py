"""Exact spatial joins of points, lines and polygons, by the proved program rjoin.

`sjoin` and `sjoin_nearest` join GeoPandas frames, `pairs` layers of any kind, `window` and `stats`
look at one layer, `relate` at two geometries, and `draw` shows two layers. rjoin.calls says what
they have in common.
"""
from rjoin.calls import Stats, draw, pairs, relate, stats, window
from rjoin.errors import ArgumentError, EnvelopeWarning, ImproperRingsWarning, InputError
from rjoin.errors import LeftOutWarning, Notice, RjoinError, StaleProgramWarning
from rjoin.found import VERSION as __version__
from rjoin.picture import Picture
from rjoin.sjoins import sjoin, sjoin_nearest

__all__ = [
    "ArgumentError", "EnvelopeWarning", "ImproperRingsWarning", "InputError", "LeftOutWarning",
    "Notice", "Picture", "RjoinError", "StaleProgramWarning", "Stats", "__version__", "draw",
    "pairs", "relate", "sjoin", "sjoin_nearest", "stats", "window",
]
