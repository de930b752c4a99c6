"""Numbers that specifications name: each stands in a worked value, so that no proof follows one that is turned."""
import shutil
import subprocess
from pathlib import Path

import pytest

from programs import TOP

pytestmark = pytest.mark.slow(seconds=3)


def listed(top: Path) -> "subprocess.CompletedProcess[str]":
    return subprocess.run([top / ".ci" / "unpinned_constants"], stdout=subprocess.PIPE, stderr=subprocess.STDOUT,
                          check=False, text=True)


def test_each_constant_of_the_specifications_is_pinned() -> None:
    run = listed(TOP)
    assert run.returncode == 0, run.stdout


@pytest.mark.parametrize("crate, constant", [("las_header", "LASZIP_RECORD_ID"), ("laz_c", "BAD")])
def test_a_constant_without_a_worked_value_is_listed(tmp_path: Path, crate: str, constant: str) -> None:
    for name in (".ci", "crates"):
        shutil.copytree(TOP / name, tmp_path / name, ignore=shutil.ignore_patterns("out"))
    examples = tmp_path / "crates" / crate / "proofs" / "Examples.antt"
    examples.write_text("\n".join(line for line in examples.read_text().split("\n")
                                  if constant not in line or line.startswith("use ")))
    run = listed(tmp_path)
    assert run.returncode == 1
    assert f"not pinned: {crate}.{constant} = " in run.stdout
