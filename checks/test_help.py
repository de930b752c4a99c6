"""The pages of help, the manual page and the completion: that they are one with what the program accepts and gives."""
import re
import shutil

import pytest

import commands
import needs
from places import Place
from programs import LAUNCHER, TOP

COMMANDS = ["laszip", "las2las", "lasinfo", "lassplit", "lasmerge", "make"]
WORDS_SOURCE = TOP / "crates" / "las_words" / "src" / "table.rt"
CAUSES = TOP / "crates" / "las_header" / "specs" / "Causes.antt"
PAGES = [([], "las"), (["-h"], "las"), (["--help"], "las"), (["help"], "las")] + [
    (words, command) for command in COMMANDS
    for words in (["help", command], [command, "-h"], [command, "--help"])]


def page(*words, **options):
    """What the launcher shows: the status and both texts."""
    run = commands.quiet([LAUNCHER, *words], cwd=TOP, **options)
    return run.returncode, (run.stdout or b"").decode(), run.stderr.decode()


def options_of(command):
    """The options that the page of a command lists: name, names of values, text."""
    _, text, _ = page("help", command)
    found = []
    for line in text.split("Options:\n")[1].split("\n\n")[0].split("\n"):
        match = re.match(r"  (-\w+)((?: [A-Z]+(?:\.\.\.)?)*)(?:  +(.*))?$", line)
        if match:
            found.append([match[1], match[2].split(), match[3] or ""])
        else:
            found[-1][2] += " " + line.strip()
    return [(name, values, text.strip()) for name, values, text in found]


@pytest.fixture
def wrong_word(program):
    """The index that the program gives of the first wrong word, or None if none is wrong (all name a missing input)."""
    def of(*words):
        run = commands.quiet([program, *words], cwd=TOP)
        return int(re.fullmatch(rb"usage: word (\d+)\n", run.stderr)[1]) if run.returncode == 2 else None
    return of


@pytest.fixture
def accepted(wrong_word):
    """Whether an option with these values is right: no word up to its last value is a wrong one."""
    def of(command, option, *values):
        index = wrong_word(command, option, *values)
        return index is None or index > 1 + len(values)
    return of


def known_options():
    return set(re.findall(r'"(-[a-z_0-9]+)"', WORDS_SOURCE.read_text())) | {
        name for command in COMMANDS for name, _, _ in options_of(command)}


@pytest.mark.parametrize("command", COMMANDS)
def test_options_of_the_page_are_those_that_the_program_takes(wrong_word, command):
    listed = [name for name, _, _ in options_of(command)]
    assert sorted(listed) == sorted(name for name in known_options() if wrong_word(command, name) != 1)


def test_sources_name_options():
    assert len(re.findall(r'"(-[a-z_0-9]+)"', WORDS_SOURCE.read_text())) > 30


@pytest.mark.parametrize("command", COMMANDS)
def test_ranges_of_the_page(accepted, wrong_word, command):
    for name, values, text in options_of(command):
        text = text.removeprefix("Needed. ")
        found = re.match(r"(-?\d+) to (\d+)", text)
        if name in ("-i", "-o", "-z"):
            assert accepted(command, name, "none/any name"), name
            assert not accepted(command, name, ""), name
        elif name == "-tally":
            for tap in re.match(r"Counts records by (\w+), (\w+), (\w+) or (\w+)", text).groups():
                assert accepted(command, name, tap), tap
            assert not accepted(command, name, "gps_time")
        elif found:
            low, high = int(found[1]), int(found[2])
            count = 1 if values == ["N..."] else len(values)
            for number in (low, high):
                assert accepted(command, name, *[str(number)] * count), f"{name} {number}"
            for number in (low - 1, high + 1):
                assert not accepted(command, name, *[str(number)] * count), f"{name} {number}"
            assert wrong_word(command, name, *[str(high)] * (count - 1)) == 1 + count, name
        else:
            assert not values, name
            assert accepted(command, name), name


@pytest.mark.parametrize("command", COMMANDS)
def test_needed_options_of_the_page(wrong_word, command):
    """With all of them the words are right, and wrong without one."""
    needed = [name for name, _, text in options_of(command) if text.startswith("Needed. ")]
    value = {"-i": "none/a.las", "-o": "none/b", "-z": "none/c", "-points": "1", "-seed": "1"}
    way = ["-by_return"] if command == "lassplit" else []
    words = [word for name in needed for word in (name, value[name])]
    assert wrong_word(command, *words, *way) is None
    for left_out in needed:
        fewer = [word for name in needed if name != left_out for word in (name, value[name])]
        assert wrong_word(command, *fewer, *way) is not None, f"without {left_out}"
    if way:
        assert wrong_word(command, *words) is not None, "a way to split is needed"


@pytest.mark.parametrize("words, topic", PAGES, ids=lambda value: None if isinstance(value, str) else
                         " ".join(["las", *value]))
def test_page(words, topic):
    status, text, said = page(*words)
    assert (status, said) == (0, "")
    assert text.startswith(f"las {topic}: " if topic != "las" else "las: ")
    assert max(map(len, text.split("\n"))) <= 80
    if topic != "las":
        for part in ("Options:\n", "Examples:\n  las ", "Exit status"):
            assert part in text


def causes():
    return re.findall(r"(?m)^cause_number \(?cause\.(\w+)(?: _\))? = (\d+)$", CAUSES.read_text())


def test_list_of_causes():
    listed = re.findall(r"(?m)^(\d+) (\w+)$", (TOP / "help" / "causes").read_text())
    assert listed == [(number, name) for name, number in causes()]
    assert len(listed) >= 27


def test_pages_of_all_causes():
    for name, number in causes():
        by_name = page("help", name)
        assert by_name[0] == 0
        assert by_name[1].startswith(f"las: cause {number} {name}\n")
        assert page("help", number) == by_name


@pytest.mark.parametrize("words", [["28"], ["0"], ["lasunzip"], ["laszip", "las2las"]], ids=" ".join)
def test_no_page_of(words):
    status, text, said = page("help", *words)
    assert (status, text) == (2, "")
    assert said.startswith("las: there is no help on")


def test_page_on_a_full_device():
    with open("/dev/full", "wb") as full:
        status, _, said = page("help", stdout=full)
    assert (status, said) == (4, "write fault\n")


def test_manual_page_and_completion_are_up_to_date():
    commands.good([TOP / "help" / "make", "--check"])


def test_manual_page_has_every_option():
    text = (TOP / "help" / "las.1").read_text().replace("\\-", "-")
    missing = [name for command in COMMANDS for name, _, _ in options_of(command) if f"\\fB{name}" not in text]
    assert missing == []


def test_manual_page_is_laid_out():
    needs.command("man", "man-db")
    run = commands.quiet(["man", "--warnings", "-l", TOP / "help" / "las.1"])
    assert (run.returncode, run.stderr) == (0, b"")


COMPLETIONS = [
    (["la"], COMMANDS[:5]), (["laszip", "-c"], ["-chunk_size", "-cores"]), (["lasinfo", "-tally", "s"], ["source"]),
    (["help", "Tra"], ["Trailing"]), (["laszip", "-i", "-"], []), (["lassplit", "-by_f"], ["-by_flightline"]),
]


@pytest.mark.parametrize("words, wanted", COMPLETIONS, ids=lambda value: " ".join(value) or "nothing")
def test_completion_after(words, wanted):
    script = 'source "$1"; shift; COMP_WORDS=(las "$@"); COMP_CWORD=$#; _las; printf "%s\\n" "${COMPREPLY[@]}"'
    run = commands.quiet(["bash", "-c", script, "bash", TOP / "help" / "las.bash", *words])
    assert run.stderr == b""
    assert sorted(run.stdout.decode().split()) == sorted(wanted)


@pytest.mark.parametrize("command", COMMANDS)
def test_examples_of_the_page(program, tmp_path, command):
    """They work on the sample, after those of the commands before."""
    place = Place(tmp_path, program)
    (tmp_path / "examples").mkdir()
    shutil.copy(TOP / "examples" / "tile.laz", tmp_path / "examples")
    for other in COMMANDS[:COMMANDS.index(command) + 1]:
        lines = re.findall(r"(?m)^  (las " + other + r" .*)$", page("help", other)[1].split("Examples:\n")[1])
        assert len(lines) in (2, 3)
        for line in lines:
            run = place.las(*line.split()[1:])
            assert (run.returncode, run.stderr) == (0, b""), line
