"""Cases of the plugin inside QGIS, with its own Python: parameters, runs, cancelling, causes. .ci/check_qgis starts it.

The plugin is the one of the profile in HOME. BALSAMVISE_PROGRAM names the program, SAMPLE a packed file.
"""
import json
import os
import shutil
import subprocess
import sys
import tempfile
import threading
import time
import unittest

sys.dont_write_bytecode = True
os.environ.setdefault("QT_QPA_PLATFORM", "offscreen")
PLUGINS = os.path.expanduser("~/.local/share/QGIS/QGIS3/profiles/default/python/plugins")
sys.path[:0] = ["/usr/share/qgis/python/plugins", PLUGINS]
from qgis.core import (QgsApplication, QgsProcessingContext, QgsProcessingException,  # noqa: E402
                       QgsProcessingFeedback, QgsProcessingUtils, QgsProject, QgsProviderRegistry, QgsVectorLayer)

TOP = os.path.dirname(os.path.dirname(os.path.dirname(os.path.realpath(__file__))))
PROGRAM, SAMPLE = os.environ["BALSAMVISE_PROGRAM"], os.environ["SAMPLE"]
QGIS = QgsApplication([], False)
QGIS.initQgis()
from processing.core.Processing import Processing  # noqa: E402
from processing.core.ProcessingConfig import ProcessingConfig  # noqa: E402
Processing.initialize()
import balsamvise  # noqa: E402
from balsamvise import options, program  # noqa: E402
from balsamvise.provider import Provider  # noqa: E402

PROVIDER = Provider()
QgsApplication.processingRegistry().addProvider(PROVIDER)
COMMANDS = ("laszip", "las2las", "lasinfo", "lassplit", "lasmerge")
HIDDEN = {"-i", "-o", "-olas", "-olaz"}


class Feedback(QgsProcessingFeedback):
    """Keeps what an algorithm tells."""

    def __init__(self):
        super().__init__(False)
        self.progress, self.errors, self.warnings = [], [], []
        self.progressChanged.connect(self.progress.append)

    def reportError(self, error, fatalError=False):
        self.errors.append(error)

    def pushWarning(self, warning):
        self.warnings.append(warning)


def write_node(folder, packed):
    """EPT data of one node: a packed file of format 1 whose scales are a hundredth."""
    far = [-1e7] * 3 + [1e7] * 3
    schema = [{"name": name, "type": "signed", "size": 4, "scale": 0.01, "offset": 0} for name in "XYZ"]
    settings = {"bounds": far, "boundsConforming": far, "dataType": "laszip", "hierarchyType": "json",
                "points": 20493, "schema": schema, "span": 128, "srs": {}, "version": "1.0.0"}
    os.mkdir(os.path.join(folder, "ept-data"))
    os.mkdir(os.path.join(folder, "ept-hierarchy"))
    for name, text in (("ept.json", settings), ("ept-hierarchy/0-0-0-0.json", {"0-0-0-0": 20493})):
        with open(os.path.join(folder, name), "w", encoding="ascii") as file:
            json.dump(text, file)
    shutil.copy(packed, os.path.join(folder, "ept-data", "0-0-0-0.laz"))


class Case(unittest.TestCase):
    def setUp(self):
        self.kept = []
        self.folder = tempfile.mkdtemp(prefix="a blank and é ")
        self.addCleanup(shutil.rmtree, self.folder)

    def file(self, name):
        return os.path.join(self.folder, name)

    def las(self, *words):
        subprocess.run([PROGRAM, *words], check=True, stdout=subprocess.PIPE)

    def algorithm(self, name):
        """A new algorithm, which is kept: with it go its parameters."""
        self.kept.append(QgsApplication.processingRegistry().createAlgorithmById("balsamvise:" + name))
        return self.kept[-1]

    def context(self):
        context = QgsProcessingContext()
        context.setProject(QgsProject.instance())
        return context

    def layers(self, context):
        """The layers that are put into the project when a run has ended: the name of each, and its points."""
        found = []
        for place, details in context.layersToLoadOnCompletion().items():
            layer = QgsProcessingUtils.mapLayerFromString(place, context, typeHint=details.layerTypeHint)
            self.assertTrue(layer.isValid())
            found.append((details.name, layer.pointCount()))
        return found

    def run_it(self, name, feedback=None, context=None, **parameters):
        algorithm, context = self.algorithm(name), context or self.context()
        good, why = algorithm.checkParameterValues(parameters, context)
        if not good:
            raise ValueError(why)
        results, _ = algorithm.run(parameters, context, feedback or Feedback(), {}, False)
        return results

    def same(self, a, b):
        with open(a, "rb") as x, open(b, "rb") as y:
            self.assertTrue(x.read() == y.read(), f"{a} and {b} differ")

    def names(self):
        return sorted(os.listdir(self.folder))


class Parameters(Case):
    def test_every_option_is_a_parameter_with_its_text_range_and_default(self):
        for command in COMMANDS:
            listed = subprocess.run([PROGRAM, "help", command], stdout=subprocess.PIPE, check=True).stdout.decode()
            found = {one.name(): one for one in self.algorithm(command).parameterDefinitions()}
            for option in options.of_command(command, program.help_of(PROGRAM)):
                self.assertIn(option.name, listed)
                if option.use == "one of" and not option.values:
                    self.assertIn(option.title, found["WAY"].options())
                    continue
                self.assertEqual(found[option.key].help(), option.text)
                if option.values == ["N"] and option.least >= 0 and option.most < 2**31:
                    parameter = found[option.key]
                    self.assertEqual((parameter.minimum(), parameter.maximum()), (option.least, option.most))
                    self.assertEqual(parameter.defaultValue(), option.default)
            of_help = {word for line in listed.splitlines() for word in line.split()[:1]
                       if line.startswith("  -") and word not in HIDDEN}
            self.assertEqual(of_help, {one.name for one in options.of_command(command, program.help_of(PROGRAM))})

    def test_names_help_and_icons(self):
        for name in (*COMMANDS, "describe", "las-batch"):
            algorithm = self.algorithm(name)
            self.assertIn(name, algorithm.displayName())
            self.assertGreater(len(algorithm.shortHelpString()), 200)
            self.assertFalse(algorithm.icon().isNull())

    def test_names_of_the_package_are_in_qgis_too(self):
        self.assertEqual(balsamvise.Refused("a", 9).cause, "Count")


class Runs(Case):
    def test_packs_and_unpacks(self):
        self.run_it("laszip", INPUT=SAMPLE, OUTPUT=self.file("a b.las"))
        self.las("laszip", "-i", SAMPLE, "-o", self.file("b.las"))
        self.same(self.file("a b.las"), self.file("b.las"))
        self.run_it("laszip", INPUT=self.file("b.las"), OUTPUT=self.file("ü.laz"), CHUNK_SIZE=5000, CORES=2)
        self.las("laszip", "-i", self.file("b.las"), "-o", self.file("b.laz"), "-chunk_size", "5000")
        self.same(self.file("ü.laz"), self.file("b.laz"))
        self.assertEqual(self.names(), ["a b.las", "b.las", "b.laz", "ü.laz"])

    def test_filters_as_the_program_does(self):
        results = self.run_it("las2las", INPUT=SAMPLE, OUTPUT=self.file("a.laz"), KEEP_CLASS=[2, 5], THIN_RAW=200,
                              KEEP_INTENSITY="10 60000", LOWEST=True, TRANSLATE_RAW_XYZ="-5 3 0", SET_USER_DATA=0,
                              TALLY=["class"])
        self.las("las2las", "-i", SAMPLE, "-o", self.file("b.laz"), "-keep_class", "2", "5", "-thin_raw", "200",
                 "-lowest", "-keep_intensity", "10", "60000", "-translate_raw_xyz", "-5", "3", "0", "-set_user_data",
                 "0")
        self.same(self.file("a.laz"), self.file("b.laz"))
        self.assertRegex(results["REPORT"], r"^tally class\n2 \d+\n5 \d+\n$")

    def test_without_options_nothing_is_left_out(self):
        """QGIS reads a list that is not set as [0]."""
        self.run_it("las2las", INPUT=SAMPLE, OUTPUT=self.file("a.laz"))
        self.las("las2las", "-i", SAMPLE, "-o", self.file("b.laz"))
        self.same(self.file("a.laz"), self.file("b.laz"))
        self.assertGreater(os.path.getsize(self.file("a.laz")), 50000)

    def test_forms_of_yes_and_no(self):
        """As qgis_process and models hand them over."""
        self.las("las2las", "-i", SAMPLE, "-o", self.file("yes.laz"), "-keep_first")
        self.las("las2las", "-i", SAMPLE, "-o", self.file("no.laz"))
        for value, wanted in ((True, "yes"), ("1", "yes"), ("true", "yes"), ("TRUE", "yes"), (1, "yes"), (False, "no"),
                              ("0", "no"), ("false", "no"), (0, "no"), (None, "no")):
            self.run_it("las2las", INPUT=SAMPLE, OUTPUT=self.file("a.laz"), KEEP_FIRST=value)
            self.same(self.file("a.laz"), self.file(f"{wanted}.laz"))

    def test_order_of_changes_is_kept(self):
        """The greatest raw X is 40999: it may go up to 2^31 - 1 and down again, and not one up and down."""
        up = 2**31 - 1 - 40999
        changes = {"TRANSLATE_RAW_XYZ": f"{up} 0 0", "TRANSLATE_RAW_X": 1}
        with self.assertRaisesRegex(QgsProcessingException, "22 RawRange 5511\n(.|\n)*No output was written"):
            self.run_it("las2las", INPUT=SAMPLE, OUTPUT=self.file("a.laz"), **changes)
        changes["TRANSLATE_RAW_X"] = -1
        self.run_it("las2las", INPUT=SAMPLE, OUTPUT=self.file("a.laz"), **changes)
        changes["TRANSLATE_RAW_XYZ"] = f"{up + 1} 0 0"
        self.run_it("las2las", INPUT=SAMPLE, OUTPUT=self.file("b.laz"), ORDER=["translate_raw_x"], **changes)
        with self.assertRaisesRegex(QgsProcessingException, "22 RawRange"):
            self.run_it("las2las", INPUT=SAMPLE, OUTPUT=self.file("c.laz"),
                        ORDER=["translate_raw_xyz", "translate_raw_x"], **changes)
        self.assertEqual(self.names(), ["a.laz", "b.laz"])

    def test_report(self):
        results = self.run_it("lasinfo", INPUT=SAMPLE, OUTPUT=self.file("r.txt"), TALLY=["class", "return"])
        wanted = subprocess.run([PROGRAM, "lasinfo", "-i", SAMPLE, "-tally", "class", "-tally", "return"],
                                stdout=subprocess.PIPE, check=True).stdout
        with open(self.file("r.txt"), "rb") as file:
            self.assertEqual(file.read(), wanted)
        self.assertEqual(results["REPORT"], wanted.decode())
        self.assertEqual(self.run_it("lasinfo", INPUT=SAMPLE)["REPORT"].split()[0], "version")

    def test_splits_and_joins(self):
        ways = self.algorithm("lassplit").parameterDefinition("WAY").options()
        self.run_it("lassplit", INPUT=SAMPLE, OUTPUT=self.file("parts"), WAY=ways.index("By flightline"),
                    NAME="line.las")
        self.assertEqual(sorted(os.listdir(self.file("parts"))), ["line_0000041.las", "line_0000042.las"])
        lines = [self.file(f"parts/line_000004{number}.las") for number in (2, 1)]
        self.run_it("lasmerge", INPUT=lines, OUTPUT=self.file("a.laz"))
        self.las("lasmerge", "-i", lines[0], "-i", lines[1], "-o", self.file("b.laz"))
        self.same(self.file("a.laz"), self.file("b.laz"))
        self.run_it("lassplit", INPUT=SAMPLE, OUTPUT=self.file("parts"), WAY=ways.index("Split"), SPLIT="10000")
        self.assertEqual(len(os.listdir(self.file("parts"))), 5)
        with self.assertRaisesRegex(ValueError, "Split: a number is needed"):
            self.run_it("lassplit", INPUT=SAMPLE, OUTPUT=self.file("parts"), WAY=ways.index("Split"))

    def test_temporary_output_has_the_right_ending(self):
        out = self.run_it("laszip", INPUT=SAMPLE, OUTPUT="TEMPORARY_OUTPUT")["OUTPUT"]
        self.assertTrue(out.endswith(".las"), out)
        again = self.run_it("laszip", INPUT=out, OUTPUT="TEMPORARY_OUTPUT")["OUTPUT"]
        self.assertTrue(again.endswith(".laz"), again)

    def test_more_words(self):
        self.run_it("las2las", INPUT=SAMPLE, OUTPUT=self.file("a.laz"), EXTRA="-set_user_data 9", STOP_AT_POINT="100")
        self.las("las2las", "-i", SAMPLE, "-o", self.file("b.laz"), "-stop_at_point", "100", "-set_user_data", "9")
        self.same(self.file("a.laz"), self.file("b.laz"))

    def test_output_that_no_provider_reads_is_a_file(self):
        feedback, context = Feedback(), self.context()
        self.run_it("laszip", feedback, context, INPUT=SAMPLE, OUTPUT=self.file("a.las"), LOAD=True)
        self.assertTrue(os.path.exists(self.file("a.las")))
        if QgsProviderRegistry.instance().preferredProvidersForUri(self.file("a.las")):
            self.assertEqual((feedback.warnings, self.layers(context)), ([], [("a.las", 20493)]))
        else:  # as in Debian's QGIS 3.22
            self.assertEqual(len(feedback.warnings), 1)
            self.assertIn("no provider", feedback.warnings[0])
            self.assertEqual(self.layers(context), [])

    def test_output_that_a_provider_reads_is_put_into_the_project(self):
        """Debian's QGIS reads no LAS or LAZ file, but EPT data, which keep the sample as LAZ."""
        write_node(self.folder, SAMPLE)
        algorithm, feedback = self.algorithm("laszip"), Feedback()
        for wanted, layers in ((False, []), (True, [("ept.json", 20493)])):
            context = self.context()
            algorithm.load(self.file("ept.json"), {"LOAD": wanted}, context, feedback)
            self.assertEqual(self.layers(context), layers)
        self.assertEqual(feedback.warnings, [])


class Refusals(Case):
    def test_refused_file_is_told_in_the_words_of_las_help(self):
        self.las("laszip", "-i", SAMPLE, "-o", self.file("a.las"))
        os.truncate(self.file("a.las"), 10000)
        with open(self.file("a.laz"), "w") as file:
            file.write("older")
        told = subprocess.run([PROGRAM, "help", "9"], stdout=subprocess.PIPE, check=True).stdout.decode()
        with self.assertRaises(QgsProcessingException) as caught:
            self.run_it("laszip", INPUT=self.file("a.las"), OUTPUT=self.file("a.laz"))
        text = str(caught.exception)
        self.assertIn(f"refused: {self.file('a.las')}: 9 Count\n", text)
        self.assertIn(" ".join(told.partition("\n\n")[2].split()), text)
        self.assertEqual(self.names(), ["a.las", "a.laz"])
        with open(self.file("a.laz")) as file:
            self.assertEqual(file.read(), "older")

    def test_wrong_word_names_its_parameter(self):
        with self.assertRaisesRegex(QgsProcessingException, "The parameter 'Lowest'.*\n.*\n.*>>>-lowest<<<"):
            self.run_it("las2las", INPUT=SAMPLE, OUTPUT=self.file("a.laz"), LOWEST=True)

    def test_unequal_inputs_and_write_faults(self):
        self.las("laszip", "-i", SAMPLE, "-o", self.file("a.las"))
        with open(self.file("a.las"), "rb") as file:
            data = bytearray(file.read())
        data[131:139] = bytes(8)
        with open(self.file("b.las"), "wb") as file:
            file.write(data)
        with self.assertRaisesRegex(QgsProcessingException, "Inputs: unequal: .*b.las: scales\nThe scale "):
            self.run_it("lasmerge", INPUT=[self.file("a.las"), self.file("b.las")], OUTPUT=self.file("c.laz"))
        with self.assertRaisesRegex(QgsProcessingException, "Output: write fault\nThere is no folder"):
            self.run_it("las2las", INPUT=SAMPLE, OUTPUT=self.file("none/c.laz"))
        self.assertEqual(self.names(), ["a.las", "b.las"])

    def test_output_that_is_an_input_is_refused_before_the_run(self):
        self.las("laszip", "-i", SAMPLE, "-o", self.file("a.las"))
        os.symlink("a.las", self.file("b.laz"))
        os.link(self.file("a.las"), self.file("c.laz"))
        for name in ("a.las", "b.laz", "c.laz"):
            with self.assertRaisesRegex(ValueError, "is the input"):
                self.run_it("las2las", INPUT=self.file("a.las"), OUTPUT=self.file(name))
        with self.assertRaisesRegex(ValueError, "packed, so the output is plain"):
            self.run_it("laszip", INPUT=SAMPLE, OUTPUT=self.file("d.laz"))
        with self.assertRaisesRegex(ValueError, "Keep intensity takes LOW HIGH"):
            self.run_it("las2las", INPUT=SAMPLE, OUTPUT=self.file("d.laz"), KEEP_INTENSITY="5")

    def test_program_that_does_not_fit(self):
        with open(self.file("las"), "w") as file:
            file.write("#!/bin/sh\necho 'las 0.9.0'\n")
        os.chmod(self.file("las"), 0o755)
        for path, told in ((self.file("none"), "there is no such file"), (self.file("las"), "it is las 0.9.0, and")):
            os.environ["BALSAMVISE_PROGRAM"] = path
            try:
                with self.assertRaisesRegex(QgsProcessingException, told):
                    self.run_it("laszip", INPUT=SAMPLE, OUTPUT=self.file("a.las"))
            finally:
                os.environ["BALSAMVISE_PROGRAM"] = PROGRAM
        self.assertEqual(self.names(), ["las"])

    def test_program_that_the_setting_names_comes_first(self):
        with open(self.file("las"), "w") as file:
            file.write("#!/bin/sh\necho 'las 3.0.0'\n")
        os.chmod(self.file("las"), 0o755)
        ProcessingConfig.setSettingValue("BALSAMVISE_PROGRAM", self.file("las"))
        try:
            with self.assertRaisesRegex(QgsProcessingException, "The program las that was named.*\n.*it is las 3.0.0"):
                self.run_it("laszip", INPUT=SAMPLE, OUTPUT=self.file("a.las"))
        finally:
            ProcessingConfig.setSettingValue("BALSAMVISE_PROGRAM", "")


class Cancelled(Case):
    def setUp(self):
        super().setUp()
        self.las("make", "-o", self.file("a.las"), "-z", self.file("b.laz"), "-points", "4000000", "-seed", "1")

    def cancelled(self, name, path, **parameters):
        """Runs an algorithm that is cancelled when it has begun to write below a folder; answers what was there."""
        feedback, seen = Feedback(), []

        def cancel():
            while not seen and not feedback.isCanceled():
                seen.extend(name for _, _, names in os.walk(path) for name in names if name.endswith(".part"))
                time.sleep(0.05)
            feedback.cancel()

        thread = threading.Thread(target=cancel)
        thread.start()
        start = time.monotonic()
        try:
            with self.assertRaisesRegex(QgsProcessingException, "Cancelled"):
                self.run_it(name, feedback, **parameters)
        finally:
            feedback.cancel()
            thread.join()
        self.assertTrue(seen)
        self.assertLess(time.monotonic() - start, 20)
        shown = subprocess.run(["ps", "-eo", "args"], stdout=subprocess.PIPE, check=True).stdout
        self.assertNotIn(os.fsencode(self.folder), shown)
        return feedback

    def test_cancel_removes_the_draft_and_ends_the_program(self):
        self.cancelled("laszip", self.folder, INPUT=self.file("a.las"), OUTPUT=self.file("c.laz"))
        self.assertEqual(self.names(), ["a.las", "b.laz"])

    def test_cancel_of_lassplit_and_of_a_folder(self):
        # (large enough that it is not done before the cancel is seen)
        self.las("make", "-o", self.file("large.las"), "-z", self.file("large.laz"), "-points", "10000000",
                 "-seed", "1")
        ways = self.algorithm("lassplit").parameterDefinition("WAY").options()
        self.cancelled("lassplit", self.folder, INPUT=self.file("large.las"), OUTPUT=self.file("parts"),
                       WAY=ways.index("Split"), SPLIT="250000")
        self.assertEqual(os.listdir(self.file("parts")), [])
        os.mkdir(self.file("in"))
        for number in range(8):
            os.link(self.file("a.las"), self.file(f"in/{number}.las"))
        self.cancelled("las-batch", self.file("out"), INPUT=self.file("in"), OUTPUT=self.file("out"), COMMAND="laszip")
        left = [name for _, _, names in os.walk(self.file("out")) for name in names]
        self.assertEqual([name for name in left if name.endswith((".part", ".back"))], [])

    def test_progress(self):
        feedback = Feedback()
        self.run_it("laszip", feedback, INPUT=self.file("a.las"), OUTPUT=self.file("c.laz"))
        self.assertTrue(any(0 < percent < 100 for percent in feedback.progress), feedback.progress)
        self.assertEqual(feedback.progress[-1], 100)
        self.same(self.file("c.laz"), self.file("b.laz"))


class Folders(Case):
    def setUp(self):
        super().setUp()
        os.mkdir(self.file("tiles"))
        self.las("lassplit", "-i", SAMPLE, "-o", self.file("tiles/tile.las"), "-split", "4000")

    def test_packs_filters_and_reports_a_folder(self):
        tiles, count = self.file("tiles"), len(os.listdir(self.file("tiles")))
        feedback = Feedback()
        self.run_it("las-batch", feedback, INPUT=tiles, OUTPUT=self.file("packed"), COMMAND="laszip", VERIFY=True)
        packed = [name for name in os.listdir(self.file("packed")) if name.endswith(".laz")]
        self.assertEqual(len(packed), count)
        self.assertEqual(feedback.progress[-1], 100)
        self.las("laszip", "-i", self.file("tiles/tile_0000001.las"), "-o", self.file("b.laz"))
        self.same(self.file("packed/tile_0000001.laz"), self.file("b.laz"))
        self.run_it("las-batch", INPUT=tiles, OUTPUT=self.file("ground"), COMMAND="las2las", KIND="packed",
                    KEEP_CLASS=[2])
        self.las("las2las", "-i", self.file("tiles/tile_0000001.las"), "-o", self.file("c.laz"), "-keep_class", "2")
        self.same(self.file("ground/tile_0000001.laz"), self.file("c.laz"))
        self.run_it("las-batch", INPUT=tiles, OUTPUT=self.file("reports"), COMMAND="lasinfo", TALLY=["class"])
        self.assertEqual(len([name for name in os.listdir(self.file("reports")) if name.endswith(".txt")]), count)
        with self.assertRaisesRegex(ValueError, "Keep class: -keep_class is no option of laszip"):
            self.run_it("las-batch", INPUT=tiles, OUTPUT=self.file("x"), COMMAND="laszip", KEEP_CLASS=[2])

    def test_the_one_bad_tile_is_told_with_its_cause(self):
        with open(self.file("tiles/tile_0000001.las"), "ab") as file:
            file.write(b"more")
        with self.assertRaises(QgsProcessingException) as caught:
            self.run_it("las-batch", INPUT=self.file("tiles"), OUTPUT=self.file("packed"), COMMAND="laszip")
        text = str(caught.exception)
        self.assertIn("1 of 6 inputs are not done; the others are.", text)
        self.assertIn("tile_0000001.las: 10 Trailing", text)
        self.assertIn("10 Trailing: The plain file goes on after the last record that its header counts.", text)
        self.assertEqual(len([name for name in os.listdir(self.file("packed")) if name.endswith(".laz")]), 5)

    def test_describes_a_folder(self):
        with open(self.file("tiles/tile_0000001.las"), "ab") as file:
            file.write(b"more")
        feedback = Feedback()
        results = self.run_it("describe", feedback, FOLDER=self.file("tiles"), OUTPUT=self.file("r.json"),
                              FOOTPRINTS=self.file("boxes.geojson"))
        self.assertEqual((results["DESCRIBED"], results["REFUSED"]), (5, 1))
        self.assertEqual(len(feedback.errors), 1)
        self.assertRegex(feedback.errors[0], "tile_0000001.las: 10 Trailing\nThe plain file goes on after the last ")
        with open(self.file("r.json"), encoding="utf-8") as file:
            found = json.load(file)["files"]
        self.assertEqual([one.get("points") for one in found], [4000, None, 4000, 4000, 4000, 493])
        self.assertEqual(found[0]["crs"]["name"], "ETRS89 / UTM zone 32N")
        layer = QgsVectorLayer(self.file("boxes.geojson"), "boxes", "ogr")
        self.assertTrue(layer.isValid())
        features = list(layer.getFeatures())
        self.assertEqual([feature.geometry().isEmpty() for feature in features], [False, True, *[False] * 4])
        box = features[0].geometry().boundingBox()
        self.assertTrue(9.16 < box.xMinimum() < box.xMaximum() < 9.18, box.toString())
        self.assertTrue(48.78 < box.yMinimum() < box.yMaximum() < 48.79, box.toString())
        self.assertEqual(features[1]["refused"], f"refused: {self.file('tiles/tile_0000001.las')}: 10 Trailing")

    def test_geojson_of_the_python_package_opens(self):
        environment = dict(os.environ, PYTHONPATH=os.path.join(TOP, "python", "src"),
                           BALSAMVISE_LIBRARY=os.path.normpath(os.path.join(os.path.dirname(PROGRAM), "..", "lib")))
        for words, system, low, high in ((["--geojson"], "EPSG:4326", 9.16, 9.18),
                                         (["--geojson", "--native-crs"], "EPSG:25832", 512300, 512410)):
            line = ["/usr/bin/python3", "-m", "balsamvise", "describe", self.file("tiles"), *words]
            told = subprocess.run(line, env=environment, stdout=subprocess.PIPE, check=True).stdout
            with open(self.file("b.geojson"), "wb") as file:
                file.write(told)
            layer = QgsVectorLayer(self.file("b.geojson"), "boxes", "ogr")
            self.assertEqual((layer.isValid(), layer.featureCount(), layer.crs().authid()), (True, 6, system))
            extent = layer.extent()
            self.assertTrue(low < extent.xMinimum() < extent.xMaximum() < high, extent.toString())

    def test_describes_one_file_as_a_page(self):
        results = self.run_it("describe", INPUT=[SAMPLE], OUTPUT=self.file("r.txt"))
        with open(self.file("r.txt"), encoding="utf-8") as file:
            text = file.read()
        self.assertEqual(results["REPORT"], text)
        self.assertIn("  points      20493 of format 1, 28 bytes each\n", text)
        self.assertIn("EPSG 25832", text)
        with self.assertRaisesRegex(ValueError, "there is no LAS or LAZ file"):
            self.run_it("describe", OUTPUT=self.file("r.txt"))
        os.symlink(SAMPLE, self.file("tiles/link.laz"))
        with self.assertRaisesRegex(ValueError, "Report: .* is the file"):
            self.run_it("describe", INPUT=[SAMPLE], OUTPUT=self.file("tiles/link.laz"))
        os.symlink("none", self.file("tiles/lost.laz"))
        results = self.run_it("describe", FOLDER=self.file("tiles"))
        self.assertEqual((results["DESCRIBED"], results["REFUSED"]), (7, 1))


if __name__ == "__main__":
    done = unittest.main(exit=False, verbosity=2).result
    sys.stdout.flush()
    sys.stderr.flush()
    os._exit(0 if done.wasSuccessful() and done.testsRun else 1)  # QGIS may end by a signal when Python lets it go
