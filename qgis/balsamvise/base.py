"""What the algorithms share: parameters made of options, the run of the program, and how its end is told."""
from __future__ import annotations

import html
import os
from collections.abc import Callable, Sequence
from typing import Any, Optional

from qgis.core import (QgsProcessing, QgsProcessingAlgorithm, QgsProcessingContext, QgsProcessingException,
                       QgsProcessingFeedback, QgsProcessingParameterBoolean, QgsProcessingParameterDefinition,
                       QgsProcessingParameterEnum, QgsProcessingParameterFileDestination, QgsProcessingParameterNumber,
                       QgsProcessingParameterString, QgsProcessingUtils, QgsProviderRegistry)
from qgis.PyQt.QtGui import QIcon

from . import options, program, running, words
from .options import Option

FILES = "LAS and LAZ (*.las *.laz *.LAS *.LAZ)"
PACKED_OR_PLAIN = "LAZ, packed (*.laz);;LAS, plain (*.las)"
_SPIN_BOX = 2**31 - 1
"""What the number box of QGIS holds. It takes the number below the least one for a value that is not set."""
_MOST_NAMED = 255
_ADVANCED = ("-chunk_size", "-cores", "-copy_chunks")
Line = dict[str, Any]


def icon(name: str) -> QIcon:
    """One of the icons of the plugin."""
    return QIcon(os.path.join(os.path.dirname(__file__), "icons", f"{name}.svg"))


def setting() -> str:
    """The program that the setting names, or nothing."""
    try:
        from processing.core.ProcessingConfig import ProcessingConfig
        return str(ProcessingConfig.getSetting(program.VARIABLE) or "")
    except ImportError:
        return ""


def advanced(parameter: QgsProcessingParameterDefinition) -> QgsProcessingParameterDefinition:
    """A parameter below the fold of the dialog."""
    parameter.setFlags(parameter.flags() | QgsProcessingParameterDefinition.FlagAdvanced)
    return parameter


def with_help(parameter: QgsProcessingParameterDefinition, text: str) -> QgsProcessingParameterDefinition:
    parameter.setHelp(text)
    return parameter


def in_number_box(option: Option) -> bool:
    """Whether QGIS's number box holds all numbers that an option takes, and one for none; else it has a text."""
    return (option.least is not None and option.most is not None and option.least > -_SPIN_BOX
            and option.most <= _SPIN_BOX)


def parameter_of(option: Option) -> QgsProcessingParameterDefinition:
    """The parameter of an option, with its range, default and text."""
    key, title, optional = option.key, option.title, option.use != "needed by"
    number = QgsProcessingParameterNumber.Integer
    if not option.values:
        made = QgsProcessingParameterBoolean(key, title, defaultValue=False)
    elif option.values == ["N..."] and option.most is not None and option.most <= _MOST_NAMED:
        names = [f"{n} {option.named.get(str(n), '')}".strip() for n in range(option.most + 1)]
        made = QgsProcessingParameterEnum(key, title, options=names, allowMultiple=True, optional=optional)
    elif option.values == ["NAME"] and option.named:
        made = QgsProcessingParameterEnum(key, title, options=list(option.named), allowMultiple=option.repeated,
                                          optional=optional, usesStaticStrings=True)
    elif option.values == ["N"] and in_number_box(option):
        made = QgsProcessingParameterNumber(key, title, number, option.default, optional or option.default is None,
                                            option.least, option.most)
    else:
        made = QgsProcessingParameterString(key, f"{title} ({' '.join(option.values)})", optional=True)
    made.setHelp(option.text)
    return advanced(made) if option.name in _ADVANCED else made


def extra_parameter() -> QgsProcessingParameterDefinition:
    """The field for words of the command line."""
    return advanced(with_help(
        QgsProcessingParameterString("EXTRA", "More words, as on the command line", optional=True),
        "Words after all others, with blanks between them and quotation marks as in a shell: options that this dialog "
        "does not have. What stands here is passed as it is."))


def order_parameter(known: Sequence[Option]) -> QgsProcessingParameterDefinition:
    """The list in which the user drags changes into their order."""
    names = [option.name[1:] for option in known if option.is_change]
    return with_help(
        QgsProcessingParameterEnum("ORDER", "Order of the changes", options=names, allowMultiple=True, optional=True,
                                   usesStaticStrings=True),
        "In which order the changes are made: check them, and drag them up or down. Those that are not checked come "
        "last, in the order of this dialog. A change without a value is not made.")


def layer_place(name: str) -> str:
    """Where a file is found by the provider of this QGIS that reads files of its name; nothing if there is none."""
    found = QgsProviderRegistry.instance().preferredProvidersForUri(name)
    return str(QgsProcessingUtils.encodeProviderKeyAndUri(found[0].metadata().key(), name)) if found else ""


def load_parameter() -> QgsProcessingParameterDefinition:
    return with_help(QgsProcessingParameterBoolean("LOAD", "Put the output into the project", defaultValue=False),
                     "Where this QGIS has a provider for LAS and LAZ files. Else the output is a file alone.")


class Algorithm(QgsProcessingAlgorithm):
    """An algorithm over one command. A subclass names the command, its inputs and its outputs."""

    command = ""
    group_name = "Point clouds"

    def createInstance(self) -> "Algorithm":
        return type(self)()

    def name(self) -> str:
        return self.command

    def displayName(self) -> str:
        return f"{self.command}: {options.about(self.command, self.help_folder())[0]}"

    def group(self) -> str:
        return self.group_name

    def groupId(self) -> str:
        return "pointclouds"

    def icon(self) -> QIcon:
        return icon(self.command)

    def tags(self) -> list[str]:
        return ["las", "laz", "lidar", "laszip", "point cloud", self.command]

    def help_folder(self) -> str:
        return program.help_folder(setting())

    def known(self) -> list[Option]:
        """The options of the command."""
        return options.of_command(self.command, self.help_folder())

    def about(self) -> str:
        """What the command does."""
        return options.about(self.command, self.help_folder())[1]

    def shortHelpString(self) -> str:
        """The page of the command: what it does, each parameter, and how a run ends."""
        text = [f"<p>{html.escape(self.about())}</p>"]
        for definition in self.parameterDefinitions():
            if definition.help():
                title, told = html.escape(definition.description()), html.escape(definition.help())
                text.append(f"<p><b>{title}</b><br>{told}</p>")
        text.append("<p>An output gets its name when it is whole and on the disk. A file that is refused is named with "
                    "the cause, and nothing of it is written.</p>")
        return "".join(text)

    def given(self, parameters: dict[str, Any], known: Sequence[Option],
              context: QgsProcessingContext) -> dict[str, Any]:
        """The values that were given, by the keys of options: not those that QGIS makes of what is not given."""
        return {option.key: value_of(self.parameterDefinition(option.key), parameters[option.key]) if option.values
                else self.parameterAsBool(parameters, option.key, context)  # as `1` and `true`, which are texts
                for option in known if words.is_set(parameters.get(option.key))}

    def option_words(self, parameters: dict[str, Any], context: QgsProcessingContext) -> list[str]:
        """The options that are set, as words, with the changes in their order, and the words of EXTRA after them."""
        known = self.known()
        order = []
        if words.is_set(parameters.get("ORDER")):
            order = self.parameterAsEnumStrings(parameters, "ORDER", context)
        extra = words.of_extra(self.parameterAsString(parameters, "EXTRA", context))
        return words.of_options(known, self.given(parameters, known, context), order) + extra

    def inputs(self, parameters: dict[str, Any], context: QgsProcessingContext) -> list[str]:
        return [self.parameterAsFile(parameters, "INPUT", context)]

    def output(self, parameters: dict[str, Any], context: QgsProcessingContext) -> str:
        return str(self.parameterAsFileOutput(parameters, "OUTPUT", context))

    def checkParameterValues(self, parameters: dict[str, Any], context: QgsProcessingContext) -> tuple[bool, str]:
        good, why = super().checkParameterValues(parameters, context)
        if good:
            try:
                why = self.wrong(parameters, context)
            except words.WrongValue as error:
                why = str(error)
        return not why, why

    def wrong(self, parameters: dict[str, Any], context: QgsProcessingContext) -> str:
        """What is wrong with the parameters together; nothing if all is well."""
        self.option_words(parameters, context)
        for name in self.inputs(parameters, context):
            if not os.path.isfile(name):
                return f"Input: there is no file {name}"
        output = self.output(parameters, context)
        same = words.same_file(output, self.inputs(parameters, context)) if output else None
        return f"Output: {output} is the input {same}. It needs a name of its own." if same else ""

    def find(self) -> program.Program:
        try:
            return program.find(setting())
        except program.NoProgram as error:
            raise QgsProcessingException(str(error)) from None

    def run_program(self, found: program.Program, line: Sequence[str], feedback: QgsProcessingFeedback, total: int,
                    folders: Sequence[str]) -> running.Ended:
        """Runs the program, and tells what it prints; a run that fails is an exception with the cause."""
        feedback.pushInfo(f"{found.path}, version {found.version}")
        feedback.pushCommandInfo(f"las {words.shown(line)}")
        ended = guarded(lambda: running.run([found.path, *line], feedback, running.by_bytes(total), folders))
        if ended.status != 0:
            why = words.explained(ended, line, self.known(), found.help)
            # what `las help` says of a part that keeps its name is of runs without drafts
            part = "\nNo output was written: one gets its name when it is whole." if ended.status == 5 else ""
            raise QgsProcessingException(why + (part if "-o" in line else ""))
        for text in ended.out.splitlines():
            feedback.pushConsoleInfo(text)
        feedback.setProgress(100)
        return ended

    def tell(self, feedback: QgsProcessingFeedback, inputs: Sequence[str], output: str) -> None:
        read = sum(os.path.getsize(name) for name in inputs)
        feedback.pushInfo(f"{output}: {os.path.getsize(output)} bytes, of {read} read")

    def load(self, output: str, parameters: dict[str, Any], context: QgsProcessingContext,
             feedback: QgsProcessingFeedback) -> None:
        """Puts an output into the project, if that is wanted and a provider is there for it."""
        if not self.parameterAsBool(parameters, "LOAD", context):
            return
        place = layer_place(output)
        if not place:
            feedback.pushWarning("This QGIS has no provider for LAS and LAZ files: the output is a file alone.")
            return
        details = QgsProcessingContext.LayerDetails(os.path.basename(output), context.project(), "OUTPUT",
                                                    QgsProcessingUtils.LayerHint.PointCloud)
        context.addLayerToLoadOnCompletion(place, details)


def value_of(definition: Optional[QgsProcessingParameterDefinition], value: Any) -> Any:
    """A value of an enumeration as words: of names the names, else the numbers."""
    if isinstance(definition, QgsProcessingParameterEnum):
        parts = value if isinstance(value, (list, tuple)) else str(value).split(",")
        return [str(part).strip() for part in parts]
    return value


def guarded(call: Callable[[], running.Ended]) -> running.Ended:
    """Makes exceptions of QGIS of those that a run may raise."""
    try:
        return call()
    except running.Cancelled as error:
        raise QgsProcessingException(str(error)) from None
    except OSError as error:
        raise QgsProcessingException(f"{error.filename}: {error.strerror}") from None


def destination(label: str = "Output") -> QgsProcessingParameterDefinition:
    return QgsProcessingParameterFileDestination("OUTPUT", label, PACKED_OR_PLAIN)


def is_temporary(parameters: dict[str, Any]) -> bool:
    return parameters.get("OUTPUT") == QgsProcessing.TEMPORARY_OUTPUT
