"""A minute of coverage-guided fuzzing of the proved decoder: the LLVM module that the library is compiled from, with
counters of what was reached. fuzz/README.md says how to run it for hours.
"""
import os
import re
import subprocess
from pathlib import Path

import pytest

import needs
from programs import TOP

SECONDS = 60

pytestmark = pytest.mark.kit


def needs_fuzzer() -> None:
    needs.command("clang", "clang")
    if not needs.runs("sh", "-c", "test -f \"$(clang -print-file-name=libclang_rt.fuzzer-x86_64.a)\" || "
                      "test -f \"$(clang -print-resource-dir)/lib/linux/libclang_rt.fuzzer-x86_64.a\""):
        needs.missing("clang has no libFuzzer", "libclang-rt-14-dev")


def built(folder: Path, *module: Path) -> Path:
    """The fuzzer of a module, or of the proved code."""
    done = subprocess.run([TOP / "fuzz" / "build", folder, *module], stdin=subprocess.DEVNULL, stdout=subprocess.PIPE,
                          stderr=subprocess.PIPE, timeout=5400, check=False)
    assert done.returncode == 0, done.stderr[-3000:].decode(errors="replace")
    return folder / "decode"


def run_for(seconds: int, program: Path, folder: Path) -> "tuple[int, str]":
    """Runs the fuzzer. The corpus of the repository comes first, and grows in a folder of the check."""
    (folder / "grown").mkdir()
    line = [str(program), f"-max_total_time={seconds}", "-max_len=4096", "-timeout=60", "-rss_limit_mb=2048",
            "-print_final_stats=1", f"-artifact_prefix={folder}/", str(folder / "grown"), str(TOP / "fuzz" / "corpus")]
    done = subprocess.run(line, stdin=subprocess.DEVNULL, stdout=subprocess.PIPE, stderr=subprocess.PIPE,
                          timeout=seconds + 600, check=False)
    return done.returncode, done.stderr.decode(errors="replace")


@pytest.mark.huge
@pytest.mark.alone
def test_a_fault_that_eight_bytes_guard_is_found(tmp_path: Path) -> None:
    """The fuzzer finds what it is for: a write of one byte too many, where a chunk begins in a certain way."""
    needs_fuzzer()
    kit = Path(subprocess.check_output(["rt", "doc"]).decode().strip()).parent
    headers = subprocess.check_output(["clang", "-print-resource-dir"]).decode().strip()
    subprocess.run([kit / "toolchain" / "bin" / "clang", "-O1", "-x", "c", "-c", "-emit-llvm", f"-I{TOP / 'c'}",
                    "-I/usr/include", f"-I{headers}/include", TOP / "checks" / "planted_fault.c", "-o",
                    tmp_path / "planted.bc"], check=True)
    status, said = run_for(300, built(tmp_path, tmp_path / "planted.bc"), tmp_path)
    assert status != 0
    assert "heap-buffer-overflow" in said
    assert "in laz_c_unpack" in said


@pytest.fixture(scope="module")
def decode(tmp_path_factory: pytest.TempPathFactory) -> Path:
    """The fuzzer, built of the module that LAS_LLVM_MODULE names, as `release/make --check` leaves it; else of what
    `rt ci` has left, for which laz_c is proved once more.
    """
    needs_fuzzer()
    module = os.environ.get("LAS_LLVM_MODULE")
    if module:
        return built(tmp_path_factory.mktemp("fuzz"), Path(module).resolve())
    if not (TOP / "crates" / "laz_chunk" / "out" / "rlib").is_dir():
        needs.missing("the crates below laz_c are not built", "to be run after rt ci")
    return built(tmp_path_factory.mktemp("fuzz"))


@pytest.mark.slow(seconds=185)  # of which laz_c, if it is proved once more for it, takes two minutes
def test_a_minute_finds_nothing(decode: Path, tmp_path: Path) -> None:
    status, said = run_for(SECONDS, decode, tmp_path)
    assert status == 0, said[-5000:]
    counters = re.search(r"Loaded \d+ modules\s+\((\d+) inline 8-bit counters\)", said)
    runs = re.search(r"stat::number_of_executed_units:\s+(\d+)", said)
    reached = re.findall(r"cov: (\d+)", said)
    assert counters and runs and reached, said[-2000:]
    # decode.c has some hundred counters of its own
    assert int(counters[1]) > 500
    assert int(runs[1]) > 100
    assert int(reached[-1]) > 300
    print(f"{runs[1]} inputs, {reached[-1]} of {counters[1]} places reached")
