"""The completions for bash, zsh and fish: commands, options, and the values of options."""
import re
import subprocess
from pathlib import Path

import pytest

import needs
from programs import TOP

HELP = TOP / "help"
COMMANDS = {"laszip", "las2las", "lasinfo", "lassplit", "lasmerge", "make"}
CLASSES = {"0", "1", "2", "3", "4", "5", "6", "7", "8", "9", "12"}

# what was typed, with the word that is begun last: what has to be offered, and what must not be
TYPED: "dict[str, tuple[list[str], set[str], set[str]]]" = {
    "a command": ([""], COMMANDS | {"help", "--safe"}, {"-i"}),
    "a command after --safe": (["--safe", ""], COMMANDS, {"--safe"}),
    "an option": (["las2las", "-"], {"-keep_class", "-thin_raw", "-i"}, {"-split"}),
    "an option after --safe": (["--safe", "lassplit", "-"], {"-split", "-by_return"}, {"-keep_class"}),
    "a class": (["las2las", "-keep_class", ""], CLASSES, {"-i"}),
    "another class": (["las2las", "-keep_class", "2", ""], CLASSES, set()),
    "a class to set": (["las2las", "-set_classification", ""], CLASSES, {"-i"}),
    "a return": (["las2las", "-keep_return", ""], {"1", "7"}, {"8"}),
    "what is counted": (["lasinfo", "-tally", ""], {"class", "source", "return", "intensity"}, {"-i"}),
    "a format": (["make", "-format", ""], {"0", "1", "2", "3"}, {"4"}),
    "workers": (["laszip", "-cores", ""], {"1", "8"}, {"9"}),
    "a topic of help": (["help", ""], COMMANDS | {"BadChunk", "las-batch"}, {"-i"}),
}


def bash(words: "list[str]") -> "set[str]":
    script = 'source "$1"; shift; COMP_WORDS=(las "$@"); COMP_CWORD=$#; _las; printf "%s\\n" "${COMPREPLY[@]}"'
    done = subprocess.run(["bash", "-c", script, "bash", HELP / "las.bash", *words], stdout=subprocess.PIPE,
                          stderr=subprocess.PIPE, check=True)
    assert done.stderr == b""
    return set(done.stdout.decode().split())


def zsh(words: "list[str]") -> "set[str]":
    """The functions of zsh that show what is offered are replaced by ones that print it."""
    needs.command("zsh", "zsh")
    script = """_describe() { local name=${@[-1]}; print -rl -- ${(P)name}; }
_files() { print -r -- FILES; }
_las() { source $file; }
file=$1; shift; words=(las "$@"); CURRENT=$#words; _las"""
    done = subprocess.run(["zsh", "-f", "-c", script, "zsh", str(HELP / "las.zsh"), *words], stdout=subprocess.PIPE,
                          stderr=subprocess.PIPE, check=False)
    assert done.stderr == b""
    return {line.split(":")[0] for line in done.stdout.decode().splitlines()}


def fish(words: "list[str]", home: Path) -> "set[str]":
    needs.command("fish", "fish")
    line = " ".join(["las", *words])
    done = subprocess.run(["fish", "--no-config", "-c", f"source {HELP / 'las.fish'}; complete -C '{line}'"],
                          env={"HOME": str(home), "PATH": "/usr/bin:/bin"}, stdout=subprocess.PIPE, cwd=home,
                          stderr=subprocess.PIPE, check=False)
    assert done.stderr == b""
    return {line.split("\t")[0] for line in done.stdout.decode().splitlines()}


# (fish completes one value of an option)
@pytest.mark.parametrize("shell, name", [(shell, name) for shell in ("bash", "zsh", "fish") for name in TYPED
                                         if (shell, name) != ("fish", "another class")])
def test_what_is_offered(shell: str, name: str, tmp_path: Path) -> None:
    words, wanted, others = TYPED[name]
    found = fish(words, tmp_path) if shell == "fish" else (bash if shell == "bash" else zsh)(words)
    if shell == "fish" and name == "a command":
        found.add("--safe")  # offered once a dash is typed
    assert wanted - found == set()
    assert others & found == set()


@pytest.mark.parametrize("option", ["-i", "-o"])
def test_zsh_offers_files_for_names(option: str) -> None:
    assert "FILES" in zsh(["laszip", option, ""])


def test_classes_are_those_of_the_standard() -> None:
    """The classes of LAS 1.4 for the point data formats 0 to 5, with its numbers; 10, 11 and 13 on are reserved."""
    text = (HELP / "values").read_text().split("\n\n")[0]
    assert re.findall(r"(?m)^(\d+) ", text) == ["0", "1", "2", "3", "4", "5", "6", "7", "8", "9", "12"]
    assert "\n2 ground\n" in text and "\n6 building\n" in text and "\n9 water\n" in text


def test_the_page_of_las_batch_has_each_option() -> None:
    text = (HELP / "las-batch.1").read_text().replace("\\-", "-")
    options = re.findall(r"(?m)^  (-[\w-]+)", (HELP / "batch").read_text())
    assert len(options) > 10
    assert [name for name in options if f"\n\\fB{name}" not in text] == []


def test_the_page_of_las_batch_is_laid_out() -> None:
    needs.command("man", "man-db")
    done = subprocess.run(["man", "--warnings", "-l", HELP / "las-batch.1"], stdout=subprocess.PIPE,
                          stderr=subprocess.PIPE, check=True)
    assert done.stderr == b""
    assert b"EXIT STATUS" in done.stdout
    assert b"SEE ALSO" in done.stdout


def test_point_files_in_a_checkout_are_not_taken_for_sources(tmp_path: Path) -> None:
    needs.command("git", "git")
    if not (TOP / ".git").exists():
        pytest.skip("not a checkout of git")
    table = {"a.las": True, "b.laz": True, "docs/a.laz": True, "examples/tile.laz": False,
             "examples/exchange/a.laz": False, "crates/las/data/a.las": False}
    for name, ignored in table.items():
        done = subprocess.run(["git", "check-ignore", "-q", "--no-index", name], cwd=TOP, check=False)
        assert (done.returncode == 0) == ignored, name
