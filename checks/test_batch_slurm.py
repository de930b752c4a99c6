"""las-batch as a Slurm job array, on a Slurm of one node."""
import os
import shutil
import signal
import subprocess
import tempfile
from pathlib import Path

import pytest

from batch_places import wait_until
from batch_servers import Slurm
from batch_tiles import Stock, StockTiles, ended

pytestmark = [pytest.mark.servers, pytest.mark.root, pytest.mark.alone, pytest.mark.slow]
BAD = "bad/a'b\"c.las"


@pytest.fixture(scope="module")
def cluster():
    folder = Path(tempfile.mkdtemp(prefix="las-batch-"))
    folder.chmod(0o755)
    with Slurm(folder / "slurm") as started:
        yield started
    shutil.rmtree(folder)


@pytest.fixture(scope="module")
def stock(program, tmp_path_factory):
    return Stock(tmp_path_factory, program)


@pytest.fixture
def tiles(stock, tmp_path):
    return StockTiles(tmp_path, stock)


def queued(cluster):
    found = subprocess.run(["squeue", "-h"], env=dict(os.environ, **cluster.environment), stdout=subprocess.PIPE,
                           check=True)
    return bool(found.stdout.strip())


def test_a_job_array_and_its_resume(tiles, cluster):
    names = [name for name in tiles.names(0, 12) if name != "tiles/a'b\"c.las"]
    tiles.path("bad").mkdir()
    tiles.path(BAD).write_bytes(tiles.plain["a'b\"c.las"][:-1])
    run = tiles.batch("laszip", "-odir", "out", "-slurm", "-verify", *names, BAD, environment=cluster.environment)
    wanted = tiles.stock.some(12)
    whole = wanted.pop("a'b\"c.laz")
    ended(run, 1, b"9 Count")
    assert tiles.outputs("out") == wanted
    tiles.path(BAD).write_bytes(tiles.plain["a'b\"c.las"])
    ended(tiles.batch("-resume", "-odir", "out", "-slurm", environment=cluster.environment), 0, b"12 done, 0 not")
    assert tiles.outputs("out") == {**wanted, "a'b\"c.laz": whole}


def test_an_array_goes_on_after_a_kill_and_resume_takes_its_rows_in(tiles, cluster):
    words = ["laszip", "-odir", "out", "-slurm", "-verify", "-delete", *tiles.names(0, 12)]
    las = str(tiles.command("las", f'[ "$1" != --version ] || exit 1\necho "$1" >>{tiles.path("ran")}\nsleep 0.5\n'
                            f'exec {tiles.program} "$@"'))
    with tiles.running(*words, las=las, environment=cluster.environment) as run:
        assert wait_until(lambda: queued(cluster))
        assert wait_until(lambda: list(tiles.path("out/.las-batch").glob("run.*/rows.*")))
        os.kill(run.pid, signal.SIGKILL)
        run.wait()
    assert wait_until(lambda: tiles.free("out"), 20)
    refused = tiles.batch("-resume", "-odir", "out", "-slurm", environment=cluster.environment)
    ended(refused, 2, b"the job array still runs")
    assert wait_until(lambda: not queued(cluster))
    assert len(tiles.path("ran").read_text().splitlines()) == 24
    ended(tiles.batch("-resume", "-odir", "out", las=las, environment=cluster.environment), 0, b"12 done, 0 not")
    assert len(tiles.path("ran").read_text().splitlines()) == 24, "the jobs ran again"
    assert tiles.outputs("out") == tiles.stock.some(12)
    assert len(tiles.outputs("tiles")) == 188
    assert tiles.parts() == []


def test_an_interrupt_cancels_the_array(tiles, cluster):
    with tiles.running("laszip", "-odir", "out", "-slurm", *tiles.names(0, 40), las=tiles.slow(1),
                       environment=cluster.environment) as run:
        assert wait_until(lambda: tiles.outputs("out", hidden=False))
        os.kill(run.pid, signal.SIGINT)
        assert run.wait(90) == 130
    assert not queued(cluster)
    assert len(tiles.outputs("out", hidden=False)) < 40
    assert tiles.parts() == []
