"""las-batch on other machines by ssh: two names of an own server on loopback, with shared files and with files sent."""
import os
import shutil
import signal
import tempfile
from pathlib import Path

import pytest

from batch_places import processes_with, wait_until
from batch_servers import SshServer
from batch_tiles import Stock, StockTiles, ended

pytestmark = [pytest.mark.servers, pytest.mark.root, pytest.mark.slow(seconds=4)]


@pytest.fixture(scope="module")
def server():
    folder = Path(tempfile.mkdtemp(prefix="las-batch-"))
    folder.chmod(0o755)
    with SshServer(folder / "ssh") as started:
        yield started
    shutil.rmtree(folder)


@pytest.fixture(scope="module")
def stock(program, tmp_path_factory):
    return Stock(tmp_path_factory, program)


@pytest.fixture
def tiles(stock, tmp_path):
    made = StockTiles(tmp_path, stock)
    made.path("hosts").write_text("2/localhost\n2/127.0.0.1\n")
    return made


def kept_on_hosts(server):
    return [path for path, _, files in os.walk(server.home)
            if any(file.endswith((".las", ".laz", ".part")) for file in files)]


@pytest.mark.parametrize("words", [
    [], *(pytest.param(it, marks=pytest.mark.huge) for it in (["-ship"], ["-ship", "-verify"])), ["-verify", "-delete"],
    ["-ship", "-verify", "-delete"]], ids=" ".join)
def test_two_hosts(tiles, server, words):
    run = tiles.batch("laszip", "-odir", "out", "-hosts", "hosts", *words, *tiles.names(0, 8),
                      environment=server.environment)
    ended(run, 0, b"8 done, 0 not")
    assert tiles.outputs("out") == tiles.stock.some(8)
    log = tiles.path("out/las-batch.log").read_bytes()
    assert b"\tlocalhost\t" in log and b"\t127.0.0.1\t" in log
    assert kept_on_hosts(server) == []
    assert len(tiles.outputs("tiles")) == (192 if "-delete" in words else 200)


def test_a_bad_tile_that_was_sent(tiles, server):
    tiles.path("bad").mkdir()
    tiles.path("bad/a'b\"c.las").write_bytes(tiles.plain["a'b\"c.las"][:-1])
    run = tiles.batch("laszip", "-odir", "out", "-hosts", "hosts", "-ship", *tiles.names(10, 13), "bad/a'b\"c.las",
                      environment=server.environment)
    ended(run, 1, b"9 Count")
    ended(run, 1, b"3 done, 1 not")
    assert kept_on_hosts(server) == []


@pytest.mark.alone
def test_a_host_that_does_not_answer(tiles, server):
    tiles.path("hosts").write_text("2/none.invalid\n")
    run = tiles.batch("laszip", "-odir", "out", "-hosts", "hosts", *tiles.names(10, 12), environment=server.environment)
    ended(run, 1, b"255")
    assert tiles.outputs("out") == {}
    tiles.path("hosts").write_text("2/localhost\n")
    run = tiles.batch("-resume", "-odir", "out", "-hosts", "hosts", environment=server.environment)
    ended(run, 0, b"2 done, 0 not")


@pytest.mark.alone
@pytest.mark.parametrize("words", [[], ["-ship"]], ids=" ".join)
@pytest.mark.parametrize("number", [signal.SIGKILL, signal.SIGTERM])
def test_jobs_over_ssh_end_with_las_batch(tiles, server, words, number):
    las = tiles.slow(1.5)
    with tiles.running("laszip", "-odir", "out", "-hosts", "hosts", *words, *tiles.names(0, 16), las=las,
                       environment=server.environment) as run:
        assert wait_until(lambda: len(tiles.outputs("out", hidden=False)) > 0, 90)
        token, = (path.suffix[1:] for path in tiles.path("out/.las-batch").glob("run.*"))
        os.kill(run.pid, number)
        run.wait(60)
        assert wait_until(lambda: tiles.free("out"), 20)
        assert wait_until(lambda: not processes_with(token), 20), processes_with(token)
        assert len(tiles.outputs("out", hidden=False)) < 16
        assert tiles.parts() == []
    assert wait_until(lambda: kept_on_hosts(server) == [], 10)
