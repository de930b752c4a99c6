"""Balsamvise in QGIS: a provider of Processing algorithms over the program `las`.

QGIS calls `classFactory`. The zip has the Python package `balsamvise` inside, as `package`. QGIS finds this plugin
before a package of the same name that is installed, so each name of the package is handed on: `balsamvise.read` is
there in QGIS's Python too.
"""
import importlib
from typing import Any


def classFactory(iface: Any) -> Any:
    """The plugin, for QGIS."""
    from .plugin import Plugin
    return Plugin()


def __getattr__(name: str) -> Any:
    if name.startswith("_") or name == "package":
        raise AttributeError(f"module {__name__!r} has no attribute {name!r}")
    return getattr(importlib.import_module(".package", __name__), name)
