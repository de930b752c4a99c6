"""The plugin for QGIS, as far as it needs no QGIS: its zip, options and words, and how it finds and runs the program.

What needs QGIS is run in QGIS, by .ci/check_qgis.
"""
import fcntl
import importlib
import importlib.util
import os
import re
import shutil
import stat
import subprocess
import sys
import threading
import time
import zipfile

import pytest

import commands
import needs
import shared
from describe_files import CAUSES
from las_files import FILE, ONE, changed
from programs import LAUNCHER, TOP

VERSION = (TOP / "help" / "version").read_text().strip()
HELP = str(TOP / "help")
COMMANDS = ["laszip", "las2las", "lasinfo", "lassplit", "lasmerge"]
HIDDEN = {"-i", "-o", "-olas", "-olaz"}
SOURCES = TOP / "qgis" / "balsamvise"


def make_zip(folder):
    commands.good([sys.executable, "-B", TOP / "qgis" / "make_zip", folder])
    return folder / f"balsamvise-qgis-{VERSION}.zip"


@pytest.fixture(scope="session")
def folder(tmp_path_factory):
    """The plugin as the zip has it; or a folder that BALSAMVISE_PLUGIN names, in which a fault is planted."""
    if os.environ.get("BALSAMVISE_PLUGIN"):
        return os.environ["BALSAMVISE_PLUGIN"]

    def make(place):
        with zipfile.ZipFile(make_zip(place)) as archive:
            archive.extractall(place)

    return str(shared.once(tmp_path_factory, "plugin", make) / "balsamvise")


@pytest.fixture
def plugin(folder, monkeypatch):
    """A module of the plugin by its name. The plugin has another name here than the Python package."""
    needs.module("numpy", "python3-numpy")  # which QGIS has
    spec = importlib.util.spec_from_file_location("plugin", f"{folder}/__init__.py",
                                                  submodule_search_locations=[folder])
    module = importlib.util.module_from_spec(spec)
    monkeypatch.setitem(sys.modules, "plugin", module)
    spec.loader.exec_module(module)
    yield lambda name: importlib.import_module(f"plugin.{name}") if name else module
    for name in [name for name in sys.modules if name.startswith("plugin.")]:
        del sys.modules[name]


@pytest.fixture
def known(plugin):
    """The options of a command by name."""
    return lambda command: {option.name: option for option in plugin("options").of_command(command, HELP)}


class Feedback:
    """What QGIS hands over, without QGIS."""

    def __init__(self, cancelled=lambda: False):
        self.isCanceled, self.progress = cancelled, []

    def setProgress(self, percent):
        self.progress.append(percent)


# the zip


def test_zip_is_the_same_bytes_on_each_run(tmp_path):
    first, second = make_zip(tmp_path / "a"), make_zip(tmp_path / "b")
    assert first.read_bytes() == second.read_bytes()
    assert (tmp_path / "a" / "SHA256SUMS").read_text().endswith(f"  {first.name}\n")


def test_zip_has_the_plugin_the_help_the_package_and_the_licences(folder):
    for name in ["options", "values", "causes", "batch", "version", "commands/las2las"]:
        assert open(f"{folder}/help/{name}", "rb").read() == (TOP / "help" / name).read_bytes()
    package = TOP / "python" / "src" / "balsamvise"
    names = sorted(path.name for path in package.iterdir() if path.suffix in (".py", ".json"))
    assert sorted(name for name in os.listdir(f"{folder}/package") if name.endswith((".py", ".json"))) == names
    for name in ("LICENSE-MIT", "LICENSE-APACHE"):
        assert open(f"{folder}/{name}", "rb").read() == (TOP / name).read_bytes()
    icons = os.listdir(f"{folder}/icons")
    assert {f"{name}.svg" for name in [*COMMANDS, "describe", "las-batch", "balsamvise"]} == set(icons)
    assert not [name for _, _, names in os.walk(folder) for name in names if name.endswith((".so", ".pyc"))]


def test_metadata(folder):
    text = open(f"{folder}/metadata.txt", encoding="utf-8").read()
    found = dict(re.findall(r"^(\w+)=(.*)$", text, re.MULTILINE))
    assert (found["version"], found["qgisMinimumVersion"]) == (VERSION, "3.22")
    assert {"name", "description", "about", "author", "email", "icon", "hasProcessingProvider"} <= set(found)
    assert os.path.exists(f"{folder}/{found['icon']}")


def test_names_of_the_package_are_handed_on(plugin):
    needs.module("numpy", "python3-numpy")
    assert plugin("").Refused("a", 10).cause == "Trailing"
    assert plugin("").read is importlib.import_module("plugin.package").read
    with pytest.raises(AttributeError):
        plugin("").nothing_of_this_name


# options and words


@pytest.mark.parametrize("command", COMMANDS)
def test_every_option_of_help_is_known(known, command):
    page = commands.good([LAUNCHER, "help", command]).partition("Options:\n")[2].partition("\n\n")[0]
    listed = dict(re.findall(r"^  (-\w+)((?: [A-Z]+(?:\.\.\.)?)*)", page, re.MULTILINE))
    assert len(listed) > 2
    assert {name: option.values for name, option in known(command).items()} == {
        name: values.split() for name, values in listed.items() if name not in HIDDEN}


def test_a_new_option_needs_no_line_in_the_plugin(plugin, tmp_path):
    shutil.copytree(HELP, tmp_path / "help")
    with open(tmp_path / "help" / "options", "a", encoding="ascii") as file:
        file.write("\n-keep_user_data LOW HIGH\nallowed by las2las\n0 to 255 each: keeps them.\n")
    found = plugin("options").of_command("las2las", str(tmp_path / "help"))[-1]
    assert (found.key, found.title, found.values, found.least, found.most, found.text) == (
        "KEEP_USER_DATA", "Keep user data", ["LOW", "HIGH"], 0, 255, "0 to 255 each: keeps them.")
    assert plugin("words").of_option(found, "3 9") == ["-keep_user_data", "3", "9"]


RANGES = {"-chunk_size": (256, 250000, 50000), "-cores": (1, 8, 1), "-keep_class": (0, 31, None),
          "-stop_at_point": (0, 2**32 - 1, None), "-translate_raw_x": (-2**31, 2**31 - 1, None),
          "-keep_first": (None, None, None)}


@pytest.mark.parametrize("name", RANGES)
def test_ranges_and_defaults(known, name):
    option = known("las2las")[name]
    assert (option.least, option.most, option.default) == RANGES[name]


def test_names_of_values_and_inputs(plugin, known):
    assert known("las2las")["-keep_class"].named["2"] == "ground"
    assert list(known("lasinfo")["-tally"].named) == ["class", "source", "return", "intensity"]
    assert [plugin("options").most_inputs(command, HELP) for command in COMMANDS] == [1, 1, 1, 1, 32]
    assert {option.name for option in known("lassplit").values() if option.use == "one of"} == {
        "-split", "-by_classification", "-by_flightline", "-by_return"}


WORDS = {
    "nothing": ({}, [], ""),
    "empty lists and texts": ({"KEEP_CLASS": [], "KEEP_INTENSITY": "", "THIN_RAW": None, "LOWEST": False}, [], ""),
    "a list": ({"KEEP_CLASS": ["0", "5"]}, [], "-keep_class 0 5"),
    "a default": ({"CHUNK_SIZE": 50000, "CORES": 4}, [], "-cores 4"),
    "two values": ({"KEEP_INTENSITY": "100, 4000"}, [], "-keep_intensity 100 4000"),
    "a number past 31 bits": ({"STOP_AT_POINT": "4000000000"}, [], "-stop_at_point 4000000000"),
    "a number of a number box": ({"THIN_RAW": 200.0, "LOWEST": True}, [], "-thin_raw 200 -lowest"),
    "again and again": ({"TALLY": ["class", "return"]}, [], "-tally class -tally return"),
    "zero": ({"SET_USER_DATA": 0, "TRANSLATE_RAW_X": -2**31}, [], "-translate_raw_x -2147483648 -set_user_data 0"),
    "changes in the dialog's order": ({"SET_USER_DATA": 1, "TRANSLATE_RAW_Z": 2, "KEEP_FIRST": True}, [],
                                      "-keep_first -translate_raw_z 2 -set_user_data 1"),
    "changes in another order": (
        {"SET_USER_DATA": 1, "TRANSLATE_RAW_Z": 2, "SET_CLASSIFICATION": 3, "TRANSLATE_RAW_X": 4, "CORES": 2},
        ["set_user_data", "translate_raw_z", "set_point_source"],
        "-cores 2 -set_user_data 1 -translate_raw_z 2 -translate_raw_x 4 -set_classification 3"),
}


@pytest.mark.parametrize("name", WORDS)
def test_words(plugin, known, name):
    values, order, wanted = WORDS[name]
    assert " ".join(plugin("words").of_options(list(known("las2las").values()), values, order)) == wanted


def test_order_of_changes_is_kept_by_the_program(plugin, known, place):
    """Raw X of 2^31 - 6 may be moved down and then up, and not up and then down."""
    words = plugin("words")
    place.write("a.las", changed(ONE, 227, "<i", 2**31 - 6))
    values = {"TRANSLATE_RAW_XYZ": "100 0 0", "TRANSLATE_RAW_X": -100}
    for order, status in ((["translate_raw_x"], 0), (["translate_raw_xyz"], 5)):
        line = words.of_options(list(known("las2las").values()), values, order)
        assert place.las("las2las", "-i", "a.las", "-o", f"{status}.las", *line).returncode == status
    assert place.read("0.las") == place.read("a.las")


WRONG = {
    "too large": ("-keep_class", ["32"], "Keep class: 32 is not 0 to 31"),
    "no number": ("-stop_at_point", "many", "Stop at point: many is no whole number"),
    "one too few": ("-keep_intensity", "5", "Keep intensity takes LOW HIGH: 2 whole numbers with blanks between"),
    "below": ("-translate_raw_xyz", "1 2 -2147483649",
              "Translate raw xyz: -2147483649 is not -2147483648 to 2147483647"),
}


@pytest.mark.parametrize("name", WRONG)
def test_wrong_values_are_told_before_the_run(plugin, known, name):
    option, value, told = WRONG[name]
    with pytest.raises(plugin("words").WrongValue, match=re.escape(told)):
        plugin("words").of_option(known("las2las")[option], value)


def test_words_of_the_extra_field(plugin):
    assert plugin("words").of_extra("-cores 2 'a b'  ") == ["-cores", "2", "a b"]
    assert plugin("words").of_extra(None) == []
    with pytest.raises(plugin("words").WrongValue, match="quotation mark"):
        plugin("words").of_extra("'open")


def test_output_that_is_an_input(plugin, tmp_path):
    (tmp_path / "a.las").write_bytes(FILE)
    (tmp_path / "sub").mkdir()
    (tmp_path / "soft.laz").symlink_to("a.las")
    os.link(tmp_path / "a.las", tmp_path / "hard.laz")
    source = str(tmp_path / "a.las")
    for name in ("a.las", "./sub/../a.las", "soft.laz", "hard.laz"):
        assert plugin("words").same_file(f"{tmp_path}/{name}", ["none.las", source]) == source
    assert plugin("words").same_file(f"{tmp_path}/other.laz", [source]) is None


# how a run is told


@pytest.fixture
def run(plugin, monkeypatch):
    """A run by the plugin: how it has ended."""
    def of(*words, cancelled=lambda: False, folders=(), feedback=None, progress=lambda pids: 0.0):
        line = [str(LAUNCHER), *map(str, words)]
        return plugin("running").run(line, feedback or Feedback(cancelled), progress, folders)
    return of


def explained(plugin, ended, words, command):
    known = plugin("options").of_command(command, HELP)
    return plugin("words").explained(ended, [command, *map(str, words)], known, HELP)


@pytest.mark.parametrize("cause", CAUSES)
def test_cause_is_told_in_the_words_of_las_help(plugin, run, tmp_path, cause):
    (tmp_path / "bad tile.las").write_bytes(CAUSES[cause])
    words = ["-i", tmp_path / "bad tile.las", "-o", tmp_path / "o.laz"]
    ended = run("laszip", *words)
    told = explained(plugin, ended, words, "laszip")
    page = commands.good([LAUNCHER, "help", cause.split()[0]]).partition("\n\n")[2]
    assert told == f"Input: refused: {tmp_path}/bad tile.las: {cause}\n{' '.join(page.split())}"
    assert ended.status == 5
    assert os.listdir(tmp_path) == ["bad tile.las"]


def test_wrong_word_names_its_parameter(plugin, run, tmp_path):
    (tmp_path / "a.las").write_bytes(FILE)
    words = ["-i", tmp_path / "a.las", "-o", tmp_path / "o.laz", "-lowest", "-cores", "2"]
    told = explained(plugin, run("las2las", *words), words, "las2las")
    assert told.startswith("The parameter 'Lowest' (-lowest) is wrong or does not go with the others: With -thin_raw")
    assert "This option goes with -thin_raw N, which is not given." in told
    assert "o.laz >>>-lowest<<< -cores 2" in told
    words = ["-i", tmp_path / "a.las", "-o", tmp_path / "o.laz", "-cores", "9"]
    told = explained(plugin, run("laszip", *words), words, "laszip")
    assert told.startswith("The parameter 'Cores' (-cores) is wrong")
    assert "-cores >>>9<<<" in told


def test_other_endings_are_told(plugin, run, tmp_path):
    (tmp_path / "a.las").write_bytes(FILE)
    (tmp_path / "b.las").write_bytes(changed(FILE, 131, "<d", 5.0))
    a, b, o = (tmp_path / name for name in ("a.las", "b.las", "o.laz"))
    told = explained(plugin, run("lasmerge", "-i", a, "-i", b, "-o", o), ["-i", a, "-i", b, "-o", o], "lasmerge")
    assert told.startswith(f"Inputs: unequal: {b}: scales\nThe scale factors are others than those of the first ")
    told = explained(plugin, run("laszip", "-i", a, "-o", tmp_path / "none" / "o.laz"), [], "laszip")
    assert told.startswith("Output: write fault\nThere is no folder ")
    told = explained(plugin, run("laszip", "-i", tmp_path / "none.las", "-o", o), [], "laszip")
    assert told.startswith(f"Input: read fault: {tmp_path}/none.las\nThere is no file ")
    assert sorted(os.listdir(tmp_path)) == ["a.las", "b.las"]


# the run


@pytest.fixture
def large(tmp_path, program):
    """A plain file that takes the program more than a second to pack."""
    commands.good([program, "make", "-o", tmp_path / "a.las", "-z", tmp_path / "b.laz", "-points", "4000000", "-seed",
                   "1"])
    (tmp_path / "b.laz").unlink()
    return tmp_path / "a.las"


def drafts(folder):
    return [name for name in os.listdir(folder) if name.endswith(".part")]


def still_named(path):
    """Whether a process has a name in its command line."""
    shown = subprocess.run(["ps", "-eo", "args"], stdout=subprocess.PIPE, check=True).stdout
    return os.fsencode(path) in shown


def test_cancel_ends_the_program_and_removes_its_draft(plugin, run, large, tmp_path):
    (tmp_path / "c.laz").write_bytes(b"older")
    seen = []

    def cancelled():
        seen.extend(drafts(tmp_path))
        return bool(seen)

    began = time.monotonic()
    with pytest.raises(plugin("running").Cancelled, match="no output was written"):
        run("laszip", "-i", large, "-o", tmp_path / "c.laz", cancelled=cancelled, folders=[str(tmp_path)])
    assert time.monotonic() - began < 5
    assert seen
    assert sorted(os.listdir(tmp_path)) == ["a.las", "c.laz"]
    assert (tmp_path / "c.laz").read_bytes() == b"older"
    assert not still_named(large)


def test_killed_program_leaves_no_draft(plugin, run, large, tmp_path):
    """Even if the launcher can't remove it: it is killed, as everything that was started."""
    feedback, seen = Feedback(), []

    def kill():
        while not drafts(tmp_path):
            time.sleep(0.01)
        seen.extend(drafts(tmp_path))
        looks = len(feedback.progress)
        while len(feedback.progress) < looks + 2:  # so that the plugin has seen which processes the run has
            time.sleep(0.01)
        pids = subprocess.run(["pgrep", "-f", f"laszip -i {large}"], stdout=subprocess.PIPE, check=True).stdout.split()
        for pid in pids:
            os.kill(int(pid), 9)

    thread = threading.Thread(target=kill)
    thread.start()
    ended = run("laszip", "-i", large, "-o", tmp_path / "c.laz", folders=[str(tmp_path)], feedback=feedback)
    thread.join()
    assert ended.status != 0
    assert seen
    assert os.listdir(tmp_path) == ["a.las"]


def test_drafts_of_others_stay(plugin, tmp_path):
    begun = time.time()
    for name in (".a.laz.las-77-1.part", ".b.laz.las-78-1.part", ".c.laz.las-77-2.part", "d.laz.las-77-3.part"):
        (tmp_path / name).write_bytes(b"")
    (tmp_path / ".link.las-77-4.part").symlink_to("d.laz.las-77-3.part")
    (tmp_path / ".old.las-77-5.part").write_bytes(b"")
    os.utime(tmp_path / ".old.las-77-5.part", (1, 1))
    with open(tmp_path / ".c.laz.las-77-2.part", "rb") as held:
        fcntl.flock(held, fcntl.LOCK_EX)
        left = plugin("running").remove_drafts([str(tmp_path), f"{tmp_path}/none"], {77}, begun)
    assert left == [str(tmp_path / ".c.laz.las-77-2.part")]
    assert sorted(os.listdir(tmp_path)) == [".b.laz.las-78-1.part", ".c.laz.las-77-2.part", ".link.las-77-4.part",
                                            ".old.las-77-5.part", "d.laz.las-77-3.part"]


def test_progress_is_what_was_read(plugin, run, large, tmp_path):
    feedback = Feedback()
    ended = run("laszip", "-i", large, "-o", tmp_path / "c.laz", feedback=feedback,
                progress=plugin("running").by_bytes(large.stat().st_size))
    assert ended.status == 0
    assert feedback.progress == sorted(feedback.progress)
    assert len({percent for percent in feedback.progress if 0 < percent < 100}) > 2
    assert stat.S_IMODE((tmp_path / "c.laz").stat().st_mode) == 0o666 & ~current_umask()


def current_umask():
    umask = os.umask(0)
    os.umask(umask)
    return umask


def test_progress_by_the_log_of_las_batch(plugin, tmp_path):
    needs.command("parallel", "parallel")
    (tmp_path / "tiles").mkdir()
    for number in range(3):
        (tmp_path / "tiles" / f"{number}.las").write_bytes(ONE)
    log = plugin("running").by_log(str(tmp_path / "out" / "las-batch.log"), 4)
    assert log([]) == 0
    commands.good([TOP / "las-batch", "laszip", "-odir", tmp_path / "out", "-quiet", "-r", tmp_path / "tiles"])
    assert log([]) == 75


def test_output_is_written_whole(plugin, tmp_path):
    (tmp_path / "a.txt").write_bytes(b"older")
    plugin("running").write_whole(str(tmp_path / "a.txt"), b"new")
    assert (tmp_path / "a.txt").read_bytes() == b"new"
    with pytest.raises(TypeError):
        plugin("running").write_whole(str(tmp_path / "a.txt"), None)
    assert os.listdir(tmp_path) == ["a.txt"]
    assert (tmp_path / "a.txt").read_bytes() == b"new"


# finding the program


def script(path, text):
    path.parent.mkdir(parents=True, exist_ok=True)
    path.write_text(f"#!/bin/sh\n{text}\n")
    path.chmod(0o755)
    return str(path)


@pytest.fixture
def find(plugin, tmp_path, monkeypatch):
    """The program that is found for a setting, with a path of its own folder and the usual folders empty."""
    monkeypatch.setenv("PATH", f"{tmp_path}/path:/usr/bin:/bin")
    monkeypatch.setenv("HOME", str(tmp_path))
    monkeypatch.delenv("BALSAMVISE_PROGRAM", raising=False)
    monkeypatch.setattr(plugin("program"), "_USUAL", ())
    monkeypatch.setattr(plugin("program"), "_HERE", str(tmp_path / "plugins" / "balsamvise"))
    return plugin("program").find


GOOD = f"echo 'las {VERSION}'"


def test_program_is_found_in_order(find, tmp_path, monkeypatch):
    beside = script(tmp_path / "plugins" / "balsamvise-1.2.0-linux" / "bin" / "las", GOOD)
    assert find().path == beside
    within = script(tmp_path / "plugins" / "balsamvise" / "bin" / "las", GOOD)
    assert find().path == within
    on_path = script(tmp_path / "path" / "las", GOOD)
    assert (find().path, find().version) == (on_path, VERSION)
    named = script(tmp_path / "named", GOOD)
    monkeypatch.setenv("BALSAMVISE_PROGRAM", named)
    assert find().path == named
    set_ = script(tmp_path / "set" / "las", GOOD)
    assert find(set_).path == set_
    assert find(str(tmp_path / "set")).path == set_


UNFIT = {
    "another program": ("echo 'LAS tools 2.0'",
                        "it is another program: --version prints 'LAS tools 2.0' with status 0"),
    "a failing one": ("exit 3", "with status 3"),
    "an older one": ("echo 'las 1.1.9'", "it is las 1.1.9, and 1.2.0 or a later one before 2 is needed"),
    "one too new": ("echo 'las 2.0.0'", "it is las 2.0.0, and 1.2.0 or a later one before 2 is needed"),
}


@pytest.mark.parametrize("name", UNFIT)
def test_program_that_does_not_fit_is_refused_with_what_was_found(find, plugin, tmp_path, name):
    text, told = UNFIT[name]
    path = script(tmp_path / "path" / "las", text)
    for setting in (path, ""):
        with pytest.raises(plugin("program").NoProgram) as caught:
            find(setting)
        assert f"{path}: " in str(caught.value)
        assert told in str(caught.value)
    good = script(tmp_path / "plugins" / "balsamvise" / "bin" / "las", GOOD)
    assert find().path == good  # one on the path that does not fit is passed over, one that was named is not
    with pytest.raises(plugin("program").NoProgram):
        find(path)


def test_program_that_is_not_there(find, plugin, tmp_path):
    with pytest.raises(plugin("program").NoProgram, match="there is no such file"):
        find(f"{tmp_path}/none")
    with pytest.raises(plugin("program").NoProgram, match="No program las that fits was found.\nName it in Settings"):
        find()


def test_help_is_that_of_the_program_else_the_copy(plugin, tmp_path):
    assert plugin("program").help_of(str(LAUNCHER)) == HELP
    commands.good([TOP / "install", tmp_path])
    assert plugin("program").help_of(f"{tmp_path}/bin/las") == f"{tmp_path}/share/las/help"
    found = plugin("options").of_command("las2las", f"{tmp_path}/share/las/help")
    assert [(option.name, option.named) for option in found] == [
        (option.name, option.named) for option in plugin("options").of_command("las2las", HELP)]
    assert (tmp_path / "share" / "las" / "help" / "values").read_bytes() == (TOP / "help" / "values").read_bytes()
    assert plugin("program").help_of(f"{tmp_path}/none") == plugin("options").OWN_HELP
    assert plugin("program").Program(f"{tmp_path}/bin/las", VERSION).libraries[0] == f"{tmp_path}/lib"


def test_environment_of_a_run(plugin, monkeypatch):
    for name in ("LD_LIBRARY_PATH", "PYTHONHOME", "LAS_SAFE"):
        monkeypatch.setenv(name, "/bundle")
    found = plugin("program").environment()
    assert "LD_LIBRARY_PATH" not in found and "PYTHONHOME" not in found
    assert (found["LAS_SAFE"], found["LAS_HINTS"]) == ("1", "1")


# planted faults: each is found by the case that is named

PLANTED = {
    "an option dropped": (
        "test_every_option_of_help_is_known", "options.py",
        {"if match and command in": 'if match and words[0] != "-keep_last" and command in'}),
    "the order of changes lost": (
        "test_order_of_changes_is_kept_by_the_program", "words.py", {"ranks.get(option.name, len(ranks))": "0"}),
    "a draft left after a kill": (
        "test_killed_program_leaves_no_draft", "running.py",
        {"        remove_drafts(folders, seen, begun)\n    return": "        pass\n    return"}),
    "a draft left after cancel": (  # neither the launcher nor the plugin removes it
        "test_cancel_ends_the_program_and_removes_its_draft", "running.py",
        {"(signal.SIGTERM, signal.SIGKILL)": "(signal.SIGKILL,)",
         "left = remove_drafts(folders, seen, begun)": "left = []"}),
    "a program that goes on after cancel": (
        "test_cancel_ends_the_program_and_removes_its_draft", "running.py",
        {"os.killpg(child.pid, number)": "os.kill(child.pid, 9)"}),
    "a cause not shown": (
        "test_cause_is_told_in_the_words_of_las_help", "words.py",
        {"options.cause(int(found[2]), folder) or ended.hints": "str()"}),
    "empty lists as class 0": (
        "test_words", "words.py", {'value not in (None, "", [], ())': 'value not in (None, "")'}),
    "a wrong version taken": (
        "test_program_that_does_not_fit_is_refused_with_what_was_found", "program.py",
        {"numbers >= OLDEST and numbers[0] == MAJOR": "True"}),
}


@pytest.mark.slow
@pytest.mark.parametrize("fault", PLANTED)
def test_planted_fault_is_found(folder, tmp_path, fault):
    case, name, edits = PLANTED[fault]
    shutil.copytree(folder, tmp_path / "balsamvise", ignore=shutil.ignore_patterns("__pycache__"))
    text = (tmp_path / "balsamvise" / name).read_text()
    for old, new in edits.items():
        assert text.count(old) == 1
        text = text.replace(old, new)
    compile(text, name, "exec")  # a fault is no error of syntax
    (tmp_path / "balsamvise" / name).write_text(text)
    line = [sys.executable, "-B", "-m", "pytest", "-c", TOP / "checks" / "pytest.ini", "-k", case,
            TOP / "checks" / "test_qgis_plugin.py"]
    planted = commands.quiet([*line, "--basetemp", tmp_path / "run"],
                             env={**os.environ, "BALSAMVISE_PLUGIN": str(tmp_path / "balsamvise")})
    assert planted.returncode == 1, planted.stdout.decode()
    assert "FAILED" in planted.stdout.decode()
