#!/usr/bin/env python3
"""Plants faults in the program, by a wrapper around it: checks/planted_faults.py prints which cases find each.

The wrapper runs the program and then, for one command, does one thing wrong. The cases of test_whole_runs.py are run on
it, and the case that is named for the fault has to fail. A process that has read pytest and these cases forks for each
run, so that they are read once.
"""
import importlib
import json
import os
import re
import subprocess
import sys
import tempfile
from pathlib import Path
from shlex import quote
from types import TracebackType
from typing import Optional

import programs

COMMANDS = ["laszip", "las2las", "lasinfo", "lassplit", "lasmerge", "make"]
# the fault: the case that has to find it, and the commands that can't have it
FAULTS: dict[str, tuple[str, list[str]]] = {
    "a wrong status": ("test_status_of_a_run_that_is_done", []),
    "a changed line on standard error": ("test_line_on_standard_error", []),
    "a changed line on standard output": ("test_standard_output", []),
    "one changed byte of an output": ("test_each_byte_of_the_outputs", ["lasinfo"]),
    "an output that is cut": ("test_length_of_the_outputs", ["lasinfo"]),
    "one file too many": ("test_no_file_more_if_it_is_done", []),
    "an input that is touched": ("test_inputs_stay", ["make"]),
}
PLANTED = [(command, fault) for command in COMMANDS for fault in FAULTS if command not in FAULTS[fault][1]]

WRAPPER = '''#!/bin/sh
[ "${{1-}}" = {command} ] || exec {program} "$@"
exec {python} -IS {planted} "$@"
'''

PLANTED_FAULT = '''import os, pathlib, subprocess, sys
program, command, fault = {program!r}, {command!r}, {fault!r}
words = sys.argv[1:]
def files():
    return {{name: pathlib.Path(name).read_bytes() for name in sorted(os.listdir(".")) if os.path.isfile(name)}}
before = files()
run = subprocess.run([program, *words], stdin=subprocess.DEVNULL, stdout=subprocess.PIPE, stderr=subprocess.PIPE)
status, out, line = run.returncode, run.stdout, run.stderr
outputs = [name for name, data in files().items() if before.get(name) != data]
if fault == "a wrong status":
    status += 1
if fault == "a changed line on standard error":
    line = line.replace(b": ", b" : ", 1)
if fault == "a changed line on standard output":
    out = out.replace(b"1", b"2", 1) if out else b"done\\n"
if fault == "one changed byte of an output" and outputs:
    data = bytearray(pathlib.Path(outputs[-1]).read_bytes())
    data[-1] ^= 1
    pathlib.Path(outputs[-1]).write_bytes(data)
if fault == "an output that is cut" and outputs:
    os.truncate(outputs[-1], os.path.getsize(outputs[-1]) - 1)
if fault == "one file too many":
    pathlib.Path("more").write_bytes(b"")
if fault == "an input that is touched" and before:
    with open(words[words.index("-i") + 1], "ab") as file:
        file.write(b"x")
sys.stdout.buffer.write(out)
sys.stderr.buffer.write(line)
sys.stdout.flush()
sys.exit(status)
'''


def fork_for_each_line() -> None:
    """Runs pytest by the words of each line of standard input, in a folder, and answers with its status and what it
    said. The cases are read before.
    """
    pytest = importlib.import_module("pytest")
    importlib.import_module("test_whole_runs")
    for line in sys.stdin:
        folder, words = json.loads(line)
        with tempfile.TemporaryFile() as said:
            process = os.fork()
            if process == 0:
                os.chdir(folder)
                os.dup2(os.open(os.devnull, os.O_RDONLY), 0)
                os.dup2(said.fileno(), 1)
                os.dup2(said.fileno(), 2)
                status = pytest.main(words)
                sys.stdout.flush()
                os._exit(status)
            status = os.waitstatus_to_exitcode(os.waitpid(process, 0)[1])
            said.seek(0)
            print(json.dumps([status, said.read().decode(errors="replace")]), flush=True)


class Planter:
    """Plants faults, and tells which cases fail."""

    def __init__(self) -> None:
        # no plugin is needed
        bare = {name: text for name, text in os.environ.items() if not name.startswith("PYTEST_")}
        self.process = subprocess.Popen(
            [sys.executable, __file__, "fork"], text=True, stdin=subprocess.PIPE, stdout=subprocess.PIPE,
            env={**bare, "PYTHONDONTWRITEBYTECODE": "1", "PYTEST_DISABLE_PLUGIN_AUTOLOAD": "1"})

    def __enter__(self) -> "Planter":
        return self

    def __exit__(self, kind: Optional[type[BaseException]], error: Optional[BaseException],
                 trace: Optional[TracebackType]) -> None:
        self.process.communicate()

    def found_by(self, program: str, folder: Path, command: str, fault: str) -> list[str]:
        """The cases that fail if a fault is planted in a command."""
        wrapper, planted = folder / "las", folder / "planted_fault.py"
        wrapper.write_text(WRAPPER.format(command=command, program=quote(program), python=quote(sys.executable),
                                          planted=quote(str(planted))))
        planted.write_text(PLANTED_FAULT.format(program=program, command=command, fault=fault))
        wrapper.chmod(0o755)
        here = programs.TOP / "checks"
        # names alone are read: no assertion has to tell what it found
        words = ["-c", f"{here}/pytest.ini", "--rootdir", f"{here}", "--assert=plain", "-rfE", "--tb=no",
                 f"--program={wrapper}", f"{here}/test_whole_runs.py"]
        assert self.process.stdin and self.process.stdout
        self.process.stdin.write(json.dumps([str(folder), words]) + "\n")
        self.process.stdin.flush()
        status, said = json.loads(self.process.stdout.readline())
        if status not in (0, 1) or " passed" not in said:
            raise RuntimeError(said)
        return re.findall(r"^(?:FAILED|ERROR) \S*::(\S+)", said, re.MULTILINE)


def main() -> int:
    missed = 0
    print("| Command | Fault | Found by |\n|---|---|---|")
    with Planter() as planter:
        for command, fault in PLANTED:
            with tempfile.TemporaryDirectory() as folder:
                found = planter.found_by(programs.found(), Path(folder), command, fault)
            missed += f"{FAULTS[fault][0]}[{command}]" not in found
            print(f"| `{command}` | {fault} | {', '.join(f'`{name}`' for name in found) or '**none**'} |", flush=True)
    return 1 if missed else 0


if __name__ == "__main__":
    if sys.argv[1:] == ["fork"]:
        fork_for_each_line()
    else:
        sys.exit(main())
