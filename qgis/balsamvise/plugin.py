"""Registers the provider: QGIS calls initGui in its window, and initProcessing in qgis_process."""
from __future__ import annotations

from typing import Optional

from qgis.core import QgsApplication

from .provider import Provider


class Plugin:
    """The plugin, as QGIS holds it."""

    def __init__(self) -> None:
        self.provider: Optional[Provider] = None

    def initProcessing(self) -> None:
        self.provider = Provider()
        QgsApplication.processingRegistry().addProvider(self.provider)

    def initGui(self) -> None:
        self.initProcessing()

    def unload(self) -> None:
        if self.provider is not None:
            QgsApplication.processingRegistry().removeProvider(self.provider)
            self.provider = None
