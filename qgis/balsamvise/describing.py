"""`describe` as an algorithm: what is in files, without reading their points, and where they lie."""
from __future__ import annotations

import importlib
import json
import os
from collections.abc import Iterator
from typing import Any, Optional

from qgis.core import (QgsCoordinateReferenceSystem, QgsCoordinateTransform, QgsCsException, QgsFeature,
                       QgsFeatureSink, QgsField, QgsFields, QgsGeometry, QgsPointXY, QgsProcessing,
                       QgsProcessingContext, QgsProcessingException, QgsProcessingFeedback, QgsProcessingOutputNumber,
                       QgsProcessingOutputString, QgsProcessingParameterCrs, QgsProcessingParameterFeatureSink,
                       QgsProcessingParameterFile, QgsProcessingParameterFileDestination,
                       QgsProcessingParameterMultipleLayers, QgsWkbTypes)
from qgis.PyQt.QtCore import QVariant

from . import options, program, running, words
from .base import Algorithm, setting, with_help

FIELDS = [("name", QVariant.String), ("las", QVariant.String), ("format", QVariant.Int), ("points", QVariant.LongLong),
          ("packed", QVariant.Bool), ("size", QVariant.LongLong), ("created", QVariant.String), ("epsg", QVariant.Int),
          ("crs", QVariant.String), ("z_min", QVariant.Double), ("z_max", QVariant.Double),
          ("refused", QVariant.String)]
WGS_84 = "EPSG:4326"
ABOUT = ("Tells where tiles lie, in which coordinate reference system and from when, their scale, offset, box, VLRs, "
         "extra bytes and chunks, by their heads and chunk tables alone: no point is read, so a bad chunk is not seen.")


def package(name: str) -> Any:
    """A module of the Python package in the zip."""
    return importlib.import_module(f".package.{name}", __package__)


def load_library(folders: list[str]) -> None:
    """Loads liblaz: the one that the environment names, or beside the program, or where the package looks for it."""
    library = package("library")
    named = os.environ.get(library.VARIABLE)
    there = next((folder for folder in folders if os.path.exists(os.path.join(folder, "liblaz.so"))), None)
    try:
        if named is None and there:
            os.environ[library.VARIABLE] = there
        library.table_room(0)  # any call loads it
    finally:
        if named is None:
            os.environ.pop(library.VARIABLE, None)


def system_of(facts: dict[str, Any]) -> Optional[QgsCoordinateReferenceSystem]:
    """The coordinate reference system of a file as QGIS has it; None if it has none."""
    crs = facts["crs"] or {}
    if crs.get("epsg"):
        found = QgsCoordinateReferenceSystem.fromEpsgId(crs["epsg"])
    else:
        found = QgsCoordinateReferenceSystem.fromWkt(crs.get("wkt") or "")
    return found if found.isValid() else None


class Describe(Algorithm):
    """What is in files."""

    command = "describe"

    def displayName(self) -> str:
        return "describe: tells what is in files, without reading their points"

    def known(self) -> list[options.Option]:
        return []

    def about(self) -> str:
        return ABOUT

    def initAlgorithm(self, configuration: Any = None) -> None:
        self.addParameter(with_help(
            QgsProcessingParameterMultipleLayers("INPUT", "Files", QgsProcessing.TypeFile, optional=True),
            "LAS and LAZ files."))
        self.addParameter(with_help(
            QgsProcessingParameterFile("FOLDER", "Folder", QgsProcessingParameterFile.Folder, optional=True),
            "All files below it whose names end in .las or .laz."))
        self.addParameter(with_help(
            QgsProcessingParameterCrs("CRS", "Coordinate reference system of the boxes", WGS_84, optional=True),
            f"The boxes of all files are moved to this one, by QGIS. Without one: {WGS_84}."))
        self.addParameter(with_help(
            QgsProcessingParameterFileDestination("OUTPUT", "Report", "Text (*.txt);;JSON (*.json)", optional=True),
            "A page for one file, and a table for many; or as JSON if the name ends in .json."))
        self.addParameter(with_help(
            QgsProcessingParameterFeatureSink("FOOTPRINTS", "Boxes", QgsProcessing.TypeVectorPolygon, optional=True),
            "A polygon for each file, with its name, number of points, day and system. A file that is refused, or of "
            "which no system is known, has none."))
        self.addOutput(QgsProcessingOutputString("REPORT", "Report"))
        self.addOutput(QgsProcessingOutputNumber("DESCRIBED", "Number of files that are described"))
        self.addOutput(QgsProcessingOutputNumber("REFUSED", "Number of files that are not"))

    def inputs(self, parameters: dict[str, Any], context: QgsProcessingContext) -> list[str]:
        names = list(self.parameterAsFileList(parameters, "INPUT", context)) if parameters.get("INPUT") else []
        folder = self.parameterAsString(parameters, "FOLDER", context)
        return names + (package("describe").files_below(folder) if folder else [])

    def wrong(self, parameters: dict[str, Any], context: QgsProcessingContext) -> str:
        """A file that is not there or can't be read is listed, as one that is refused."""
        names, output = self.inputs(parameters, context), self.output(parameters, context)
        if not names:
            return "Files and Folder: there is no LAS or LAZ file."
        same = words.same_file(output, names) if output else None
        return f"Report: {output} is the file {same}. It needs a name of its own." if same else ""

    def processAlgorithm(self, parameters: dict[str, Any], context: QgsProcessingContext,
                         feedback: QgsProcessingFeedback) -> dict[str, Any]:
        names, output = self.inputs(parameters, context), self.output(parameters, context)
        try:
            folders = program.find(setting()).libraries
        except program.NoProgram:  # the library may be there without the program
            folders = []
        try:
            load_library(folders)
        except ImportError as error:
            raise QgsProcessingException(f"{error}\nInstall liblaz: it comes with the program.") from None
        found = list(self.described(names, feedback))
        if feedback.isCanceled():
            raise QgsProcessingException("Cancelled: no output was written.")
        report = self.report(found, output.lower().endswith(".json"))
        for line in report.splitlines() if not output.lower().endswith(".json") else ():
            feedback.pushConsoleInfo(line)
        results: dict[str, Any] = {"REPORT": report}
        if output:
            try:
                running.write_whole(output, report.encode(errors="surrogateescape"))
            except OSError as error:
                raise QgsProcessingException(f"write fault: {output}: {error.strerror}") from None
            results["OUTPUT"] = output
        target = self.parameterAsCrs(parameters, "CRS", context)
        target = target if target.isValid() else QgsCoordinateReferenceSystem(WGS_84)
        sink, where = self.parameterAsSink(parameters, "FOOTPRINTS", context, self.fields(), QgsWkbTypes.MultiPolygon,
                                           target)
        if sink is not None:
            self.draw(found, sink, target, context, feedback)
            results["FOOTPRINTS"] = where
        failed = sum(package("describe").line_of(facts) is not None for facts in found)
        return {**results, "DESCRIBED": len(found) - failed, "REFUSED": failed}

    def described(self, names: list[str], feedback: QgsProcessingFeedback) -> Iterator[dict[str, Any]]:
        """What is in each file; what is wrong with one is told in the words of `las help`."""
        describe = package("describe")
        for number, name in enumerate(names):
            if feedback.isCanceled():
                return
            facts = describe.one(name)
            line = describe.line_of(facts)
            if line:
                cause = options.cause(facts["refused"]["number"], self.help_folder()) if "refused" in facts else ""
                feedback.reportError(f"{package('tables').shown(line)}\n{cause}".strip())
            elif facts["crs"]:
                system = system_of(facts)
                facts["crs"]["name"] = facts["crs"]["name"] or (system.description() if system else None)
            feedback.setProgress(100 * (number + 1) / len(names))
            yield facts

    @staticmethod
    def report(found: list[dict[str, Any]], as_json: bool) -> str:
        if as_json:
            return json.dumps({"balsamvise_describe": 1, "files": found}, allow_nan=False, indent=1) + "\n"
        tables = package("tables")
        if len(found) == 1 and package("describe").line_of(found[0]) is None:
            return str(tables.text_of_facts(found[0]))
        return "".join(tables.table_of(found))

    @staticmethod
    def fields() -> QgsFields:
        fields = QgsFields()
        for name, kind in FIELDS:
            fields.append(QgsField(name, kind))
        return fields

    def draw(self, found: list[dict[str, Any]], sink: QgsFeatureSink, target: QgsCoordinateReferenceSystem,
             context: QgsProcessingContext, feedback: QgsProcessingFeedback) -> None:
        """Puts a feature for each file into the sink."""
        for facts in found:
            feature = QgsFeature(self.fields())
            line = package("describe").line_of(facts)
            if line:
                feature.setAttributes([facts["name"], *[None] * (len(FIELDS) - 2), line])
            else:
                crs, box = facts["crs"] or {}, facts["box"]
                feature.setAttributes([
                    facts["name"], facts["las"], facts["point_data_format"], facts["points"], facts["packed"],
                    facts["size"], facts["created"]["date"], crs.get("epsg"), crs.get("name"), box["min"][2],
                    box["max"][2], None])
                self.place(feature, facts, target, context, feedback)
            sink.addFeature(feature, QgsFeatureSink.FastInsert)

    @staticmethod
    def place(feature: QgsFeature, facts: dict[str, Any], target: QgsCoordinateReferenceSystem,
              context: QgsProcessingContext, feedback: QgsProcessingFeedback) -> None:
        """Gives a feature the box of its file, if QGIS knows a way from its system to the one that is wanted."""
        footprints = package("footprints")
        system = system_of(facts)
        try:
            if system is None:
                raise footprints.NoFootprint("no coordinate reference system that QGIS knows is named in the head")
            ring = [QgsPointXY(x, y) for x, y in footprints.ring_of(facts, 4)]
            geometry = QgsGeometry.fromMultiPolygonXY([[ring]])
            geometry.transform(QgsCoordinateTransform(system, target, context.transformContext()))
            feature.setGeometry(geometry)
        except footprints.NoFootprint as error:
            feedback.pushWarning(f"{facts['name']}: no box: {error}")
        except QgsCsException as error:
            feedback.pushWarning(f"{facts['name']}: no box: {error}")
