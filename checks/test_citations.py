"""The crates: each definition and lemma is cited, a name that two of them share has its reason, and their table is that
of crates.txt."""
import shutil
import subprocess
from pathlib import Path

import pytest

from programs import TOP

pytestmark = pytest.mark.slow(seconds=6)

UNUSED = {
    "las_header/proofs/Cutting.antt": ("pub unused : (n : ℕ) → n ≡ n\nunused n = refl\n", ["unused"]),
    "las_header/specs/Numbers.antt": ("abbrev pub Unused : ℕ → Type 0\nUnused n = n ≡ n\n", ["Unused"]),
    "laz_file/proofs/Taking.antt": (
        "first_unused : (n : ℕ) → n ≡ n\nfirst_unused n = refl\n\n"
        "pub next_unused : (n : ℕ) → n ≡ n\nnext_unused n = first_unused n\n", ["first_unused", "next_unused"]),
    "las_run/proofs/make/make/Answers.antt": ("unused : (n : ℕ) → n ≡ n\nunused n = refl\n", ["unused"]),
}


def listed(top: Path, *script: str) -> "subprocess.CompletedProcess[str]":
    return subprocess.run([top / ".ci" / script[0], *script[1:]], stdout=subprocess.PIPE, stderr=subprocess.STDOUT,
                          check=False, text=True)


def copied(folder: Path) -> Path:
    for name in (".ci", "crates", "docs"):
        shutil.copytree(TOP / name, folder / name, ignore=shutil.ignore_patterns("out"))
    shutil.copy(TOP / "crates.txt", folder)
    return folder


def test_each_definition_and_lemma_is_cited() -> None:
    run = listed(TOP, "uncited")
    assert run.returncode == 0, run.stdout


def test_what_nothing_cites_and_what_is_passed_on_to_no_crate_is_listed(tmp_path: Path) -> None:
    top = copied(tmp_path)
    for file, (more, _) in UNUSED.items():
        with open(top / "crates" / file, "a", encoding="utf-8") as changed:
            changed.write(f"\n{more}")
    with open(top / "crates" / "las_header" / "proofs" / "Public.antt", "a", encoding="utf-8") as changed:
        changed.write("pub use Rattle.las_header.proofs.Cutting.{cut_none as cut_again}\n")
    run = listed(top, "uncited")
    assert run.returncode == 1
    passed_on = "no crate imports cut_again: crates/las_header/proofs/Public.antt"
    assert passed_on in run.stdout.splitlines()
    found = sorted(line.rpartition(":")[0] for line in run.stdout.splitlines()[:-1] if line != passed_on)
    assert found == sorted(f"nothing cites {name}: crates/{file}" for file, (_, names) in UNUSED.items()
                           for name in names)


def test_each_shared_name_has_its_reason() -> None:
    run = listed(TOP, "shared_names")
    assert run.returncode == 0, run.stdout


def test_a_name_in_a_second_crate_is_listed(tmp_path: Path) -> None:
    top = copied(tmp_path)
    with open(top / "crates" / "las_thin" / "specs" / "Cells.antt", "a", encoding="utf-8") as changed:
        changed.write("\nabbrev pub IsSorted : ℕ → Type 0\nIsSorted n = n ≡ n\n")
    table = top / "docs" / "names.md"
    table.write_text("".join(line for line in table.read_text().splitlines(True) if "| `Kept` |" not in line))
    run = listed(top, "shared_names")
    assert run.returncode == 1
    assert [line.split(":")[0] for line in run.stdout.splitlines()[:-1]] == ["IsSorted", "Kept"]


def test_the_table_of_crates_is_that_of_their_list() -> None:
    run = listed(TOP, "crate_table", "--check")
    assert run.returncode == 0, run.stdout


def test_another_list_of_crates_is_another_table(tmp_path: Path) -> None:
    top = copied(tmp_path)
    crates = top / "crates.txt"
    crates.write_text(crates.read_text().replace("\nlas_points: las_header", "\nlas_points: las_header las_outside"))
    assert "not as .ci/crate_table writes it" in listed(top, "crate_table", "--check").stdout
    assert listed(top, "crate_table").returncode == 0
    assert "in place, and counted | `las_header`, `las_outside` |" in (top / "docs" / "architecture.md").read_text()
    assert listed(top, "crate_table", "--check").returncode == 0
