"""Runs cut off between the removal of an input and the note of it: what -resume and other runs make of them."""
import json
import os
import sqlite3

import pytest

import needs
from batch_places import Tiles
from batch_tiles import ended

WORDS = ["laszip", "-odir", "out", "-verify", "-delete", "tiles/a.las"]


@pytest.fixture
def tiles(program, tmp_path):
    """A tile that was packed and removed; a second name of it is left."""
    needs.command("parallel", "parallel")
    made = Tiles(tmp_path, program)
    made.make("tiles/a.las")
    os.link(made.path("tiles/a.las"), made.path("kept"))
    ended(made.batch(*WORDS), 0, b"1 done, 0 not")
    return made


def change_state(tiles, line):
    base = sqlite3.connect(tiles.path("out/.las-batch/state.db"))
    with base:
        base.execute(line)
    base.close()


def test_an_input_that_was_removed_before_its_job_was_noted(tiles):
    change_state(tiles, "UPDATE job SET state = 1, removal = 0")
    ended(tiles.batch("-resume", "-odir", "out"), 0, b"1 done, 0 not")
    assert tiles.path("out/a.laz").exists()


@pytest.fixture
def hidden(tiles):
    """The input has its hidden name still, and the state knows it."""
    base = sqlite3.connect(tiles.path("out/.las-batch/state.db"))
    name = base.execute("SELECT hidden FROM job").fetchone()[0]
    base.close()
    change_state(tiles, "UPDATE job SET removal = 1")
    os.link(tiles.path("kept"), tiles.folder / os.fsdecode(name))
    return tiles.folder / os.fsdecode(name)


def test_resume_finishes_the_removal_of_a_hidden_input(tiles, hidden):
    ended(tiles.batch("-resume", "-odir", "out"), 0, b"is finished")
    assert not hidden.exists() and not tiles.path("tiles/a.las").exists()


def test_resume_puts_a_hidden_input_back_that_is_another_file(tiles, hidden):
    data = tiles.make("other.las", seed=2)
    os.replace(tiles.path("other.las"), hidden)
    run = tiles.batch("-resume", "-odir", "out")
    assert b"it is there again" in run.stderr
    assert tiles.path("tiles/a.las").read_bytes() == data and not hidden.exists()


def test_resume_puts_a_hidden_input_back_whose_place_in_the_trash_was_taken(tiles, hidden):
    tiles.path("trash").mkdir()
    tiles.path("trash/a.las").write_bytes(b"another's")
    base = sqlite3.connect(tiles.path("out/.las-batch/state.db"))
    with base:
        settings = json.loads(base.execute("SELECT settings FROM run").fetchone()[0])
        settings.update(delete=False, trash=str(tiles.path("trash")))
        base.execute("UPDATE run SET settings = ?", (json.dumps(settings),))
    base.close()
    run = tiles.batch("-resume", "-odir", "out")
    assert b"is there already, and the input stays" in run.stderr and b"Traceback" not in run.stderr
    assert tiles.path("tiles/a.las").read_bytes() == tiles.path("kept").read_bytes() and not hidden.exists()
    assert tiles.path("trash/a.las").read_bytes() == b"another's"


def test_another_run_puts_a_hidden_input_back(tiles, hidden):
    run = tiles.batch("laszip", "-odir", "out", "tiles/a.las")
    assert b"it is there again" in run.stderr
    assert tiles.path("tiles/a.las").exists() and not hidden.exists()
