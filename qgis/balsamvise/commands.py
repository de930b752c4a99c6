"""The commands of `las` as algorithms."""
from __future__ import annotations

import glob
import os
from typing import Any

from qgis.core import (QgsProcessing, QgsProcessingContext, QgsProcessingException, QgsProcessingFeedback,
                       QgsProcessingOutputString, QgsProcessingParameterEnum, QgsProcessingParameterFile,
                       QgsProcessingParameterFileDestination, QgsProcessingParameterFolderDestination,
                       QgsProcessingParameterMultipleLayers, QgsProcessingParameterString, QgsProcessingUtils)

from . import options, running, words
from .base import (FILES, Algorithm, destination, extra_parameter, is_temporary, load_parameter, order_parameter,
                   parameter_of, with_help)

ENDINGS = (".las", ".laz")


def is_packed(name: str) -> Any:
    """Whether a file says that it is packed, by bit 7 of its format byte; None if it has none."""
    try:
        with open(name, "rb") as file:
            head = file.read(105)
    except OSError:
        return None
    return bool(head[104] & 128) if len(head) == 105 else None


class OneFile(Algorithm):
    """A command of one input."""

    def initAlgorithm(self, configuration: Any = None) -> None:
        self.addParameter(QgsProcessingParameterFile("INPUT", "Input", fileFilter=FILES))
        for option in self.known():
            if option.use != "one of":
                self.addParameter(parameter_of(option))
        self.add_more()
        self.addParameter(extra_parameter())
        self.add_output()

    def add_more(self) -> None:
        """Parameters that are of this command alone."""

    def add_output(self) -> None:
        self.addParameter(destination())
        self.addParameter(load_parameter())

    def passes(self, line: list[str]) -> int:
        """How often the command reads its input."""
        return 2 if "-lowest" in line or "-highest" in line else 1

    def processAlgorithm(self, parameters: dict[str, Any], context: QgsProcessingContext,
                         feedback: QgsProcessingFeedback) -> dict[str, Any]:
        source, output = self.inputs(parameters, context)[0], self.output(parameters, context)
        line = [self.command, "-i", source, "-o", output, *self.option_words(parameters, context)]
        total = self.passes(line) * os.path.getsize(source)
        ended = self.run_program(self.find(), line, feedback, total, [os.path.dirname(os.path.realpath(output))])
        self.tell(feedback, [source], output)
        self.load(output, parameters, context, feedback)
        return {"OUTPUT": output, **({"REPORT": ended.out} if ended.out else {})}


class Laszip(OneFile):
    """Packs, or unpacks."""

    command = "laszip"

    def ending(self, source: str) -> str:
        return {True: ".las", False: ".laz", None: ""}[is_packed(source)]

    def output(self, parameters: dict[str, Any], context: QgsProcessingContext) -> str:
        if is_temporary(parameters):  # QGIS would name it .laz in any case
            ending = self.ending(self.inputs(parameters, context)[0])
            return str(QgsProcessingUtils.generateTempFilename("output" + ending))
        return super().output(parameters, context)

    def wrong(self, parameters: dict[str, Any], context: QgsProcessingContext) -> str:
        why = super().wrong(parameters, context)
        if why or is_temporary(parameters):
            return why
        wanted = self.ending(self.inputs(parameters, context)[0])
        if wanted and os.path.splitext(self.output(parameters, context))[1].lower() not in (wanted, ""):
            kinds = ("packed", "plain") if wanted == ".las" else ("plain", "packed")
            return f"Output: the input is {kinds[0]}, so the output is {kinds[1]} and its name ends in {wanted}."
        return ""


class Las2las(OneFile):
    """Filters, thins and changes."""

    command = "las2las"

    def add_more(self) -> None:
        self.addParameter(order_parameter(self.known()))
        self.addOutput(QgsProcessingOutputString("REPORT", "Tallies"))


class Lasinfo(OneFile):
    """Reports what is in a file, to the log and to a file."""

    command = "lasinfo"

    def add_output(self) -> None:
        self.addParameter(QgsProcessingParameterFileDestination("OUTPUT", "Report", "Text (*.txt)", optional=True))
        self.addOutput(QgsProcessingOutputString("REPORT", "Report"))

    def processAlgorithm(self, parameters: dict[str, Any], context: QgsProcessingContext,
                         feedback: QgsProcessingFeedback) -> dict[str, Any]:
        source, output = self.inputs(parameters, context)[0], self.output(parameters, context)
        line = [self.command, "-i", source, *self.option_words(parameters, context)]
        ended = self.run_program(self.find(), line, feedback, os.path.getsize(source), [])
        if not output:
            return {"REPORT": ended.out}
        try:
            running.write_whole(output, ended.out.encode())
        except OSError as error:
            raise QgsProcessingException(f"write fault: {output}: {error.strerror}") from None
        return {"OUTPUT": output, "REPORT": ended.out}


class Lassplit(OneFile):
    """Splits a file into parts in a folder."""

    command = "lassplit"

    def ways(self) -> list[options.Option]:
        return [option for option in self.known() if option.use == "one of"]

    def add_more(self) -> None:
        text = " ".join(f"{option.title}: {option.text}" for option in self.ways())
        self.addParameter(with_help(QgsProcessingParameterEnum(
            "WAY", "How the file is split", options=[option.title for option in self.ways()]), text))
        for option in self.ways():
            if option.values:
                self.addParameter(parameter_of(option))
        self.addParameter(with_help(
            QgsProcessingParameterString("NAME", "Name of the parts", "part.las"),
            "The name that parts are named after: p.las gives p_0000000.las and so on."))

    def add_output(self) -> None:
        self.addParameter(QgsProcessingParameterFolderDestination("OUTPUT", "Folder of the parts"))

    def output(self, parameters: dict[str, Any], context: QgsProcessingContext) -> str:
        return ""  # the folder is no file; `wrong` looks at the names of parts

    def name_of_parts(self, parameters: dict[str, Any], context: QgsProcessingContext) -> str:
        return os.path.join(self.parameterAsString(parameters, "OUTPUT", context),
                            self.parameterAsString(parameters, "NAME", context))

    def option_words(self, parameters: dict[str, Any], context: QgsProcessingContext) -> list[str]:
        way = self.ways()[self.parameterAsEnum(parameters, "WAY", context)]
        value = parameters.get(way.key) if way.values else True
        if way.values and not words.is_set(value):
            raise words.WrongValue(f"{way.title}: a number is needed for this way to split.")
        others = {key: value for key, value in parameters.items() if key not in [one.key for one in self.ways()]}
        return words.of_option(way, value) + super().option_words(others, context)

    def wrong(self, parameters: dict[str, Any], context: QgsProcessingContext) -> str:
        why = super().wrong(parameters, context)
        name = self.parameterAsString(parameters, "NAME", context)
        if not why and (os.path.basename(name) != name or not name.lower().endswith(".las")):
            why = "Name of the parts: a name without a folder that ends in .las is needed, since parts are plain."
        stem = os.path.splitext(self.name_of_parts(parameters, context))[0]
        for part in [] if why or is_temporary(parameters) else glob.glob(glob.escape(stem) + "_*"):
            same = words.same_file(part, self.inputs(parameters, context))
            why = why or (f"Name of the parts: {part} is the input {same}." if same else "")
        return why

    def processAlgorithm(self, parameters: dict[str, Any], context: QgsProcessingContext,
                         feedback: QgsProcessingFeedback) -> dict[str, Any]:
        source = self.inputs(parameters, context)[0]
        folder = self.parameterAsString(parameters, "OUTPUT", context)
        try:
            os.makedirs(folder, exist_ok=True)
        except OSError as error:
            raise QgsProcessingException(f"write fault: {folder}: {error.strerror}") from None
        name = self.name_of_parts(parameters, context)
        line = [self.command, "-i", source, "-o", name, *self.option_words(parameters, context)]
        self.run_program(self.find(), line, feedback, os.path.getsize(source), [os.path.realpath(folder)])
        stem = os.path.splitext(name)[0]
        parts = sorted(glob.glob(glob.escape(stem) + "_[0-9]*"))
        feedback.pushInfo(f"{folder}: {len(parts)} files of this name, {sum(map(os.path.getsize, parts))} bytes")
        return {"OUTPUT": folder}


class Lasmerge(OneFile):
    """Joins files, in their order."""

    command = "lasmerge"

    def initAlgorithm(self, configuration: Any = None) -> None:
        self.addParameter(with_help(
            QgsProcessingParameterMultipleLayers("INPUT", "Inputs, in their order", QgsProcessing.TypeFile),
            f"At most {options.most_inputs(self.command, self.help_folder())}. The records come in their order."))
        for option in self.known():
            self.addParameter(parameter_of(option))
        self.addParameter(extra_parameter())
        self.add_output()

    def inputs(self, parameters: dict[str, Any], context: QgsProcessingContext) -> list[str]:
        return list(self.parameterAsFileList(parameters, "INPUT", context))

    def wrong(self, parameters: dict[str, Any], context: QgsProcessingContext) -> str:
        most = options.most_inputs(self.command, self.help_folder())
        count = len(self.inputs(parameters, context))
        return f"Inputs: {count}, and not 1 to {most}" if not 1 <= count <= most else super().wrong(parameters, context)

    def processAlgorithm(self, parameters: dict[str, Any], context: QgsProcessingContext,
                         feedback: QgsProcessingFeedback) -> dict[str, Any]:
        sources, output = self.inputs(parameters, context), self.output(parameters, context)
        line = [self.command, *(word for name in sources for word in ("-i", name)), "-o", output,
                *self.option_words(parameters, context)]
        total = sum(map(os.path.getsize, sources))
        self.run_program(self.find(), line, feedback, total, [os.path.dirname(os.path.realpath(output))])
        self.tell(feedback, sources, output)
        self.load(output, parameters, context, feedback)
        return {"OUTPUT": output}
