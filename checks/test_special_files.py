"""An output that is there and is no regular file is a write fault, and an input that is none a read fault."""
import os
import socket
import tempfile
import threading
from pathlib import Path

import pytest

import runs
from places import Place
from real_inputs import COMMANDS, WITH_OUTPUTS, with_inputs

WRITE_FAULT = (4, b"write fault\n")
TARGETS = ["/dev/null", "/dev/full", "fifo", "folder", "socket"]
targets = pytest.mark.parametrize("target", TARGETS)


@pytest.fixture
def special(program):
    """A place with a folder, a FIFO and a socket, whose name has to be short."""
    with tempfile.TemporaryDirectory() as folder, socket.socket(socket.AF_UNIX) as listener:
        place = Place(Path(folder), program)
        with_inputs(place)
        place.path("folder").mkdir()
        os.mkfifo(place.path("fifo"))
        listener.bind(str(place.path("socket")))
        yield place


def at_once(place, *words):
    """A run that may not wait for another process."""
    return place.las(*words, timeout=20)


@targets
@pytest.mark.parametrize("command", WITH_OUTPUTS)
def test_output_is_a_link_to(special, command, target):
    words, outputs = COMMANDS[command]
    os.symlink(target, special.path(outputs[-1]))
    runs.ended(at_once(special, command, *words), *WRITE_FAULT)
    assert special.path(outputs[-1]).is_symlink()


@targets
def test_output_is(special, target):
    runs.ended(at_once(special, "laszip", "-i", "in.las", "-o", target), *WRITE_FAULT)


@pytest.fixture
def drained(special):
    """Reads the FIFO until the case is over: what came."""
    fifo = os.open(special.path("fifo"), os.O_RDONLY | os.O_NONBLOCK)
    stop, got = threading.Event(), []

    def drain():
        while not stop.wait(0.01):
            try:
                got.append(os.read(fifo, 65_536))
            except BlockingIOError:
                pass

    reader = threading.Thread(target=drain)
    reader.start()

    def ended():
        stop.set()
        reader.join()
        return b"".join(got)

    yield ended
    ended()
    os.close(fifo)


def test_output_is_a_fifo_with_a_reader(special, drained):
    runs.ended(at_once(special, "laszip", "-i", "in.las", "-o", "fifo"), *WRITE_FAULT)
    assert drained() == b""


READERS = [["laszip", "-i", "SOURCE", "-o", "new"], ["lasinfo", "-i", "SOURCE"],
           ["lasmerge", "-i", "in.las", "-i", "SOURCE", "-o", "new"]]


@pytest.mark.parametrize("words", READERS, ids=lambda words: words[0])
@pytest.mark.parametrize("source", ["fifo", "/dev/zero", "folder"])
def test_input_is(special, source, words):
    run = at_once(special, *[source if word == "SOURCE" else word for word in words])
    runs.ended(run, 3, f"read fault: {source}\n".encode())
    assert not special.path("new").exists()
