"""The provider `balsamvise`: its algorithms, its icon, and the one setting, where the program is."""
from __future__ import annotations

from qgis.core import QgsProcessingProvider
from qgis.PyQt.QtGui import QIcon

from . import program
from .base import icon
from .commands import Las2las, Lasinfo, Lasmerge, Lassplit, Laszip
from .describing import Describe
from .folders import LasBatch


class Provider(QgsProcessingProvider):
    """The provider, as the Processing toolbox shows it."""

    def id(self) -> str:
        return "balsamvise"

    def name(self) -> str:
        return "Balsamvise"

    def longName(self) -> str:
        return "Balsamvise (LAS and LAZ point clouds)"

    def icon(self) -> QIcon:
        return icon("balsamvise")

    def load(self) -> bool:
        from processing.core.ProcessingConfig import ProcessingConfig, Setting
        ProcessingConfig.settingIcons[self.name()] = self.icon()
        ProcessingConfig.addSetting(Setting(
            self.name(), program.VARIABLE, "Program las (if empty, it is looked for on the path)", "",
            valuetype=Setting.FILE))
        ProcessingConfig.readSettings()
        self.refreshAlgorithms()
        return True

    def unload(self) -> None:
        from processing.core.ProcessingConfig import ProcessingConfig
        ProcessingConfig.removeSetting(program.VARIABLE)

    def loadAlgorithms(self) -> None:
        for algorithm in (Laszip(), Las2las(), Lasinfo(), Lassplit(), Lasmerge(), Describe(), LasBatch()):
            self.addAlgorithm(algorithm)
