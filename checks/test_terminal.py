"""What the launcher shows on a terminal: hints after a line of the program, and nothing else; signals, and input."""
import os
import pty
import select
import signal
import time

import pytest

from checkouts import Checkout
from las_files import FILE

# the words, the status and the line of the program, and parts of what is shown after it
HINTS = {
    "a value out of range": (["laszip", "-i", "a.las", "-o", "b", "-cores", "9"], 2, "usage: word 6", [
        "las laszip -i a.las -o b -cores >>>9<<<\n", "-cores N", "1 to 8", "las laszip -i NAME -o NAME"]),
    "a missing option": (["laszip", "-i", "a b"], 2, "usage: word 3", [
        "las laszip -i 'a b' >>>here<<<\n", "not given: -o\n"]),
    "no such command": (["lasunzip"], 2, "usage: word 0", ["las >>>lasunzip<<<\n", "lassplit"]),
    "a name that would colour the terminal": (["laszip", "-i", "\x1b[31m"], 2, "usage: word 3", [
        "las laszip -i '?[31m' >>>here<<<\n"]),
    "a missing file": (["laszip", "-i", "none.las", "-o", "b"], 3, "read fault: none.las", [
        "There is no file 'none.las'."]),
    "a file in a missing folder": (["laszip", "-i", "none/a.las", "-o", "b"], 3, "read fault: none/a.las", [
        "There is no folder"]),
    "an input that is a folder": (["laszip", "-i", "folder", "-o", "b"], 3, "read fault: folder", [
        "'folder' is a folder."]),
    "an output in a missing folder": (["laszip", "-i", "a.las", "-o", "none/b"], 4, "write fault", [
        "There is no folder"]),
    "an output that is a folder": (["laszip", "-i", "a.las", "-o", "folder"], 4, "write fault", [
        "'folder' is a folder."]),
    "an output that is the input": (["laszip", "-i", "a.las", "-o", "./a.las"], 4, "write fault", [
        "'./a.las' is the file 'a.las' under another name."]),
    "an output that is a device": (["laszip", "-i", "a.las", "-o", "/dev/full"], 4, "write fault", [
        "'/dev/full' is no regular file."]),
    "a refused file": (["laszip", "-i", "a.las", "-o", "b"], 5, "refused: a.las: 10 Trailing", [
        "goes on after the last record"]),
    "a file with the name of a refusal": (["laszip", "-i", "a: 1 Short", "-o", "b"], 5,
                                          "refused: a: 1 Short: 21 BadChunk 3", ["A chunk does not hold"]),
    "a run that is done": (["laszip", "-i", "a.las", "-o", "b"], 0, "", []),
}
ENDS = {
    "SIGTERM": (signal.SIGTERM, None),
    "SIGHUP": (signal.SIGHUP, None),
    "SIGINT": (signal.SIGINT, None),
    "the terminal's interrupt": (signal.SIGINT, b"\x03"),
    "the terminal's quit": (signal.SIGQUIT, b"\x1c"),
}


@pytest.fixture
def checkout(tmp_path):
    return Checkout(tmp_path)


@pytest.fixture
def there(tmp_path):
    """A folder with a file and a folder."""
    place = tmp_path / "there"
    place.mkdir()
    (place / "a.las").write_bytes(FILE)
    (place / "folder").mkdir()
    return place


def on_terminal(line, environment, folder, kill=None, typed=None):
    """Runs a command line on a terminal, and returns its status as wait gives it, and what the terminal shows."""
    pid, terminal = pty.fork()
    if pid == 0:
        try:
            os.chdir(folder)
            # as a shell on a terminal starts it, also if the suite itself is run in the background
            for number in (signal.SIGHUP, signal.SIGINT, signal.SIGQUIT):
                signal.signal(number, signal.SIG_DFL)
            os.execve(line[0], line, environment)
        finally:
            os._exit(99)
    shown, start, done = b"", time.monotonic(), False
    while time.monotonic() - start < 60:
        ready, _, _ = select.select([terminal], [], [], 0.1)
        if not done and os.path.exists(environment["TOLD"]) and time.monotonic() - start > 0.5:
            done = True
            if kill:
                os.kill(pid, kill)
            if typed:
                os.write(terminal, typed)
        if ready:
            try:
                got = os.read(terminal, 65536)
            except OSError:
                break
            if not got:
                break
            shown += got
    _, status = os.waitpid(pid, 0)
    os.close(terminal)
    return status, shown.decode(errors="replace").replace("\r\n", "\n")


@pytest.mark.parametrize("hint", HINTS)
def test_hint(checkout, there, hint):
    words, status, line, parts = HINTS[hint]
    told = {**checkout.without_rt(), "SAYS": line, "ENDS": str(status)}
    found, shown = on_terminal([str(checkout.path("las")), *words], told, there)
    assert os.WIFEXITED(found) and os.WEXITSTATUS(found) == status
    if line:
        assert shown.startswith(line + "\n")
        for part in parts:
            assert part in shown
    else:
        assert shown == ""


@pytest.mark.parametrize("end", ENDS)
def test_signal_ends_the_program_and_the_launcher(checkout, there, end):
    number, typed = ENDS[end]
    told = {**checkout.without_rt(), "WAITS": "50"}
    start = time.monotonic()
    found, _ = on_terminal([str(checkout.path("las")), "lasinfo"], told, there, None if typed else number, typed)
    assert os.WIFSIGNALED(found) and os.WTERMSIG(found) == number
    assert time.monotonic() - start < 40


def test_standard_input_is_the_program_s(checkout, there):
    told = {**checkout.without_rt(), "READS": str(there / "line")}
    found, _ = on_terminal([str(checkout.path("las")), "lasinfo"], told, there, typed=b"typed\n")
    assert found == 0
    assert (there / "line").read_bytes() == b"typed\n"
