"""The plugin as QGIS loads and unloads it: it only registers the provider."""
from __future__ import annotations

from qgis.core import QgsApplication

from .provider import RjoinProvider


class RjoinPlugin:
    """The object that `classFactory` returns."""

    def __init__(self) -> None:
        self.provider: RjoinProvider | None = None

    def initProcessing(self) -> None:  # noqa: N802 - the name is QGIS's
        """Registers the provider; `qgis_process` calls this alone."""
        self.provider = RjoinProvider()
        QgsApplication.processingRegistry().addProvider(self.provider)

    def initGui(self) -> None:  # noqa: N802 - the name is QGIS's
        """Called by the desktop application."""
        self.initProcessing()

    def unload(self) -> None:
        """Removes the provider, which the registry owns and deletes."""
        if self.provider is not None:
            QgsApplication.processingRegistry().removeProvider(self.provider)
            self.provider = None
