"""`las-batch` over a folder as an algorithm."""
from __future__ import annotations

import os
import re
import shutil
import tempfile
from typing import Any

from qgis.core import (QgsProcessingContext, QgsProcessingException, QgsProcessingFeedback, QgsProcessingOutputNumber,
                       QgsProcessingParameterBoolean, QgsProcessingParameterEnum, QgsProcessingParameterFile,
                       QgsProcessingParameterFolderDestination, QgsProcessingParameterNumber)

from . import options, running, words
from .base import Algorithm, advanced, extra_parameter, guarded, order_parameter, parameter_of, with_help
from .commands import ENDINGS

COMMANDS = ["laszip", "las2las", "lasinfo"]
KINDS: dict[str, list[str]] = {"as the input": [], "packed": ["-olaz"], "plain": ["-olas"]}
MOST_SHOWN = 20
Row = tuple[str, str, str]
FLAGS = {"VERIFY": "-verify", "KEEP_TIMES": "-keep-times", "FORCE": "-force", "ADOPT": "-adopt"}


def files_below(folder: str) -> list[str]:
    """The LAS and LAZ files below a folder, which las-batch takes."""
    return [os.path.join(place, name) for place, _, names in os.walk(folder) for name in names
            if name.lower().endswith(ENDINGS)]


def batch_text(flag: str, folder: str) -> str:
    """What the help of las-batch says of one of its options."""
    with open(os.path.join(folder, "batch"), encoding="utf-8") as file:
        found = re.search(rf"^  {re.escape(flag)}(?: [A-Z]+)?  +(.*)$", file.read(), re.MULTILINE)
    return found[1].capitalize() if found else ""


def not_done_text(rows: list[Row], count: int, folder: str) -> list[str]:
    """What is not done: a line for each input, and for each cause what it means in the words of `las help`."""
    told, meant = [f"{len(rows)} of {count} inputs are not done; the others are."], {}
    for status, name, line in rows[:MOST_SHOWN]:
        told.append(line if name in line else f"{name}: {line or 'status ' + status}")
    if len(rows) > MOST_SHOWN:
        told.append(f"and {len(rows) - MOST_SHOWN} more: las-batch.log in the folder of the outputs has all.")
    for _, _, line in rows:
        found = re.search(r"refused: .*: ((\d+) \w+)(?: \d+)?$", line)
        if found:
            meant[found[1]] = options.cause(int(found[2]), folder)
    return told + [f"{name}: {text}" for name, text in meant.items()]


class LasBatch(Algorithm):
    """A command over all files of a folder, several at a time."""

    command = "las-batch"
    group_name = "Folders of point clouds"

    def groupId(self) -> str:
        return "folders"

    def displayName(self) -> str:
        return "las-batch: packs, filters or reports all files of a folder"

    def about(self) -> str:
        return ("Runs one command over all LAS and LAZ files below a folder, several at a time, by GNU parallel. An "
                "output has the name of its input with another ending. One that was made from this very input by these "
                "very words stays as it is, and one that las-batch did not make is not written over. What is not done "
                "is listed with its cause.")

    def known(self) -> list[options.Option]:
        """The options of the three commands, each once."""
        every = {option.name: option for command in COMMANDS for option in self.known_of(command)}
        return list(every.values())

    def known_of(self, command: str) -> list[options.Option]:
        return options.of_command(command, self.help_folder())

    def initAlgorithm(self, configuration: Any = None) -> None:
        self.addParameter(QgsProcessingParameterEnum("COMMAND", "Command", options=COMMANDS, defaultValue="laszip",
                                                     usesStaticStrings=True))
        self.addParameter(
            QgsProcessingParameterFile("INPUT", "Folder of the inputs", QgsProcessingParameterFile.Folder))
        self.addParameter(with_help(
            QgsProcessingParameterEnum("KIND", "Outputs of las2las", options=list(KINDS), defaultValue="as the input",
                                       usesStaticStrings=True), "Packed or plain, whatever the inputs are."))
        for option in self.known():
            if option.name != "-cores":
                made = parameter_of(option)
                of = [command for command in COMMANDS if option.name in [one.name for one in self.known_of(command)]]
                made.setHelp(f"Of {' and '.join(of)}. {made.help()}")
                self.addParameter(advanced(made) if of == ["laszip"] else made)
        self.addParameter(order_parameter(self.known()))
        for key, flag in FLAGS.items():
            self.addParameter(advanced(with_help(
                QgsProcessingParameterBoolean(key, flag[1:].replace("-", " ").capitalize(), False),
                batch_text(flag, self.help_folder()))))
        self.addParameter(advanced(with_help(
            QgsProcessingParameterNumber("JOBS", "Jobs", defaultValue=None, optional=True, minValue=1, maxValue=1024),
            batch_text("-jobs", self.help_folder()))))
        self.addParameter(extra_parameter())
        self.addParameter(QgsProcessingParameterFolderDestination("OUTPUT", "Folder of the outputs"))
        self.addOutput(QgsProcessingOutputNumber("NOT_DONE", "Number of inputs that are not done"))

    def inputs(self, parameters: dict[str, Any], context: QgsProcessingContext) -> list[str]:
        return []

    def output(self, parameters: dict[str, Any], context: QgsProcessingContext) -> str:
        return ""  # a folder: las-batch looks whether an output is an input

    def wrong(self, parameters: dict[str, Any], context: QgsProcessingContext) -> str:
        why = super().wrong(parameters, context)
        command = self.parameterAsEnumString(parameters, "COMMAND", context)
        of_command = [option.name for option in self.known_of(command)]
        for option in self.known():
            value = self.given(parameters, [option], context).get(option.key)
            if option.name not in of_command and words.of_option(option, value):
                why = why or f"{option.title}: {option.name} is no option of {command}."
        if self.kind(parameters, context) and command != "las2las":
            why = why or f"Outputs of las2las: the command is {command}."
        folder = self.parameterAsString(parameters, "INPUT", context)
        if not why and not files_below(folder):
            why = f"Folder of the inputs: no file below {folder} ends in .las or .laz."
        return why

    def kind(self, parameters: dict[str, Any], context: QgsProcessingContext) -> list[str]:
        return list(KINDS.get(self.parameterAsEnumString(parameters, "KIND", context), []))

    def line(self, parameters: dict[str, Any], context: QgsProcessingContext, failed: str) -> list[str]:
        """The words of las-batch, which writes the list of what is not done to the file `failed`."""
        text = self.parameterAsString
        line = ["las-batch", self.parameterAsEnumString(parameters, "COMMAND", context),
                "-odir", text(parameters, "OUTPUT", context), "-r", "-quiet", "-failed", failed]
        line += [flag for key, flag in FLAGS.items() if self.parameterAsBool(parameters, key, context)]
        if words.is_set(parameters.get("JOBS")):
            line += ["-jobs", str(self.parameterAsInt(parameters, "JOBS", context))]
        return [*line, *self.kind(parameters, context), *self.option_words(parameters, context), "--",
                text(parameters, "INPUT", context)]

    def processAlgorithm(self, parameters: dict[str, Any], context: QgsProcessingContext,
                         feedback: QgsProcessingFeedback) -> dict[str, Any]:
        found = self.find()
        if not os.access(found.batch, os.X_OK):
            raise QgsProcessingException(f"There is no {found.batch}, which runs las over a folder.")
        folder = self.parameterAsString(parameters, "OUTPUT", context)
        count = len(files_below(self.parameterAsString(parameters, "INPUT", context)))
        temporary = tempfile.mkdtemp()
        try:
            failed = os.path.join(temporary, "failed")
            line = self.line(parameters, context, failed)
            feedback.pushInfo(f"{found.batch}, version {found.version}")
            feedback.pushCommandInfo(words.shown(line))
            progress = running.by_log(os.path.join(folder, "las-batch.log"), count)
            ended = guarded(lambda: running.run([found.batch, *line[1:]], feedback, progress, [],
                                                {"LAS_SAFE": "", "LAS_HINTS": ""}))
            rows = self.not_done(failed)
        finally:
            shutil.rmtree(temporary)
        self.tell_end(ended, rows, count, feedback, found.help)
        return {"OUTPUT": folder, "NOT_DONE": 0}

    @staticmethod
    def not_done(path: str) -> list[Row]:
        """The rows of the list of what is not done, without its head: status, input, line."""
        try:
            with open(path, encoding="utf-8", errors="replace") as file:
                lines = file.read().splitlines()[1:]
        except OSError:
            return []
        return [(parts[0], parts[1], parts[2]) for parts in (line.split("\t", 2) + ["", ""] for line in lines)]

    @staticmethod
    def tell_end(ended: running.Ended, rows: list[Row], count: int, feedback: QgsProcessingFeedback,
                 folder: str) -> None:
        """Tells how the run ended; an exception with the causes if an input is not done."""
        if ended.status != 0:
            told = not_done_text(rows, count, folder) if rows else [ended.line, ended.hints]
            raise QgsProcessingException("\n".join(filter(None, told)))
        feedback.setProgress(100)
        feedback.pushInfo(f"{count} inputs are done.")
