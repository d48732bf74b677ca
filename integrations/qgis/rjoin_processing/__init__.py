"""QGIS plugin that offers rjoin's commands as Processing algorithms."""
from __future__ import annotations

from typing import Any


def classFactory(_interface: Any) -> Any:  # noqa: N802 - the name is QGIS's
    """Gives QGIS the plugin; `qgis_process` calls it too."""
    from .plugin import RjoinPlugin

    return RjoinPlugin()
