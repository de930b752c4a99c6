"""Each call of the kernel fails in turn in whole runs of the static programs. Nothing can be preloaded into them, so
strace has the call fail. What may be left is known by a run of the program that is checked, with the preloaded library.
"""
import errno

import pytest

import failing_calls
import needs
import systems
from failing_calls import Runs
from test_failing_calls import COMMANDS, is_met

pytestmark = pytest.mark.systems
# The calls of the kernel that the calls of the C library of each kind come down to.
CALLS = {"open": "open,openat", "stat": "statx,stat,lstat,fstat,newfstatat", "read": "pread64", "write": "pwrite64",
         "text": "write", "truncate": "ftruncate", "close": "close", "pipe": "pipe,pipe2"}
NAMED = ["open", "stat", "read", "write", "truncate", "close"]
ERRORS = {"EIO": errno.EIO, "ENOSPC": errno.ENOSPC, "EINTR": errno.EINTR, "nothing is taken or given": 0}


class Injected(Runs):
    """Runs of a static program in which strace has calls fail."""

    def under(self, program):
        """From now on runs are those of this program."""
        self.traced = program
        self.is_finished(self.run())

    def run(self, words=None, stood=False, **settings):
        if not hasattr(self, "traced"):
            return super().run(words, stood, **settings)
        for name in self.outputs:
            if stood:
                self.place.write(name, failing_calls.STOOD)
            else:
                self.place.path(name).unlink(missing_ok=True)
        kind = settings.get("FAULT_CALL", "text")
        error = errno.errorcode.get(settings.get("FAULT_ERROR", 0))
        log = self.place.path("strace")
        line = ["strace", "-f", "-e", "quiet=all", "-o", str(log), "-e", f"trace={CALLS[kind]}"]
        if "FAULT_AT" in settings:
            fault = f"error={error}" if error else "retval=0"
            line += ["-e", f"inject={CALLS[kind]}:{fault}:when={settings['FAULT_AT']}"]
        if kind in NAMED:  # the emulator and the start of a program have calls of their own
            for name in [*self.inputs, *self.outputs]:
                line += ["-P", name, "-P", str(self.place.path(name))]
        run = self.place.las(*line[1:], self.traced, *(words or self.words), program=line[0])
        if "FAULT_DONE" in settings and "(INJECTED)" in log.read_text():
            settings["FAULT_DONE"].touch()
        return run


@pytest.fixture(scope="session")
def preloaded(tmp_path_factory):
    return failing_calls.library(tmp_path_factory)


@pytest.mark.parametrize("command", COMMANDS)
@pytest.mark.parametrize("name", ["las-x86-64-static", "las-aarch64-static"])
def test_each_call_fails_in_turn(preloaded, place, tmp_path_factory, command, name):
    needs.command("strace", "strace")
    words, outputs = COMMANDS[command]
    tried = Injected(preloaded, place, [*words, "-cores", "1"], outputs)
    tried.under(systems.runnable(systems.unpacked(name, tmp_path_factory.mktemp("static"))))
    for kind in CALLS if name == "las-x86-64-static" else NAMED:
        errors = ERRORS if kind in ("read", "write") else ["EIO"]
        for error in errors:
            assert tried.sweep(kind, ERRORS[error]) > 0 or not is_met(command, kind), (kind, error)
