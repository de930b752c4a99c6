"""The documents: their commands are run, their links resolved, and what they name is looked up in the sources."""
import json
import os
import re
import shutil
import subprocess

import pytest

import needs
import shared
from pages import (LINK, QUOTED, SPAN, contracts, link_problem, listed_crates, missing_clauses, pages, rows_of,
                   steps_of, text_of, without_code)
from programs import TOP

MOST_WORDS = 800
STEPS = [step for page in pages() for step in steps_of(page)]


@pytest.fixture(scope="session")
def page_runs(tmp_path_factory):
    """Runs the commands of a page, in their order and in one folder: a status and a text for each step."""
    def of(page):
        def run(place):
            (place / "lines").write_text(json.dumps(run_page(page, place / "place")))
            shutil.rmtree(place / "place")
        place = shared.once(tmp_path_factory, "page " + page.replace("/", " "), run)
        return [tuple(line) for line in json.loads((place / "lines").read_text())]
    return of


def run_page(page, place):
    place.mkdir()
    for name in ("las", "las-batch"):
        os.symlink(TOP / name, place / name)
    shutil.copytree(TOP / "examples", place / "examples")
    runs = []
    for step in steps_of(page):
        if step.reason is None:
            run = subprocess.run(["bash", "-e", "-c", step.commands], cwd=place, timeout=600, check=False,
                                 stdin=subprocess.DEVNULL, stdout=subprocess.PIPE, stderr=subprocess.STDOUT)
            runs.append((step.name, run.returncode, run.stdout.decode(errors="replace")))
    return runs


@pytest.mark.parametrize("step", [step for step in STEPS if step.reason is None], ids=lambda step: step.name)
def test_commands(page_runs, step):
    if "las-batch" in "".join(other.commands for other in steps_of(step.page)):
        needs.command("parallel", "parallel")
    found = {name: (status, text) for name, status, text in page_runs(step.page)}
    status, text = found[step.name]
    assert status == 0, text
    if step.printed is not None:
        assert text == step.printed


@pytest.mark.parametrize("step", [step for step in STEPS if step.reason], ids=lambda step: step.name)
def test_commands_that_are_not_run_are_of_programs_that_are_there(step):
    """What takes too long here is at least no name of a program that is gone."""
    for line in step.commands.splitlines():
        name = (line.split() or ["#"])[0]
        if (TOP / name.partition("/")[0]).is_dir() and not name.startswith((".", "/")):
            assert (TOP / name).exists(), line


@pytest.mark.parametrize("page", pages())
def test_links(page):
    found = LINK.findall(without_code(text_of(page)))
    assert {link: link_problem(page, link) for link in found if link_problem(page, link)} == {}


@pytest.mark.parametrize("page", [page for page in pages() if QUOTED.search(text_of(page))])
def test_quotations(page):
    for path, quoted in QUOTED.findall(text_of(page)):
        assert path, f"of no file: {quoted.splitlines()[0]}"
        assert quoted in text_of(path)


def sections():
    """The parts of docs/guarantees.md that are of one crate."""
    parts = re.split(r"^### ", text_of("docs/guarantees.md"), flags=re.MULTILINE)[1:]
    found = [(re.match(r"`(\w+)`", part), part) for part in parts]
    return [(crate.group(1), part) for crate, part in found if crate]


@pytest.mark.parametrize("crate, section", sections(), ids=lambda value: value if "\n" not in value else "")
def test_guarantees(crate, section):
    """Every call and clause that a row names stands in the sources."""
    for cells in rows_of(section.split("\n## ")[0]):
        if len(cells) == 3 and cells[0] != "Call":
            clauses = SPAN.findall(cells[1]) + ([""] if "its clause" in cells[1] else [])
            assert missing_clauses(crate, SPAN.findall(cells[0]), clauses) == []


def test_guarantees_of_every_crate():
    parts = re.split(r"^### ", text_of("docs/guarantees.md"), flags=re.MULTILINE)[1:]
    named = {name for part in parts for name in re.findall(r"`((?:la[sz]|tests)\w*)`", part)}
    assert [crate for crate in listed_crates() if crate not in named] == []


def test_edits():
    """docs/gate.md names each edit of the gate, beside its crate, and no other, and three or more for each promise."""
    section = text_of("docs/gate.md").partition("## Which edits turn which promise\n")[2].partition("\n## ")[0]
    named = {f"{crate}/{edit}" for group, crate in re.findall(r"((?:`\w+`(?:, | and )?)+) \(`(\w+)`\)", section)
             for edit in SPAN.findall(group)}
    there = {f"{path.parent.name}/{path.stem}" for path in (TOP / "edits" / "gate").glob("*/*.edit")}
    assert there
    assert sorted(named) == sorted(there)
    rows = {cells[0]: len(SPAN.findall(re.sub(r"\(`\w+`\)", "", cells[1]))) for cells in rows_of(section)[1:]}
    assert {promise: number for promise, number in rows.items() if number < 3} == {}


def test_words_of_the_readme():
    words = [word for word in re.split(r"[\s|]+", text_of("README.md")) if re.search(r"\w", word)]
    assert len(words) <= MOST_WORDS


def test_promises_of_the_readme():
    known = contracts("las_run")
    laws = {name for name in known if name != "run" and "" in known[name]}
    promises = text_of("README.md").partition("\n## What is promised\n")[2].partition("\n## ")[0]
    names = [name for words in re.findall(r"\(((?:`\w+`,?\s*)+)\)", promises) for name in re.findall(r"\w+", words)]
    assert names
    assert [name for name in names if name not in known["run"] | laws] == []


@pytest.mark.parametrize("crate", listed_crates())
def test_row_of_the_table_of_crates(crate):
    table = text_of("docs/architecture.md").partition("\nWhat is proved of each")[2].partition("\n## ")[0]
    rows = {cells[0].strip("`"): cells for cells in rows_of(table)}
    assert crate in rows
    calls = set(contracts(crate)) | {call.partition("::")[0] for call in contracts(crate)}
    assert [call for call in SPAN.findall("".join(rows[crate][2:3])) if call not in calls] == []
