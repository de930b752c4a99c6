"""One version everywhere, a licence that is told everywhere, and the SPDX document of the release."""
import json
import re
import shutil
import subprocess

import pytest

from programs import LAUNCHER, TOP

LICENCE = "Apache-2.0 OR MIT"
VERSION = (TOP / "help" / "version").read_text().strip()
NUMBER = sum(int(part) * weight for part, weight in zip(VERSION.split("."), (10_000, 100, 1)))


def text(*names: str) -> str:
    return TOP.joinpath(*names).read_text(encoding="utf-8")


def found(pattern: str, *names: str) -> str:
    match = re.search(pattern, text(*names), re.MULTILINE)
    assert match, f"{'/'.join(names)} has no {pattern}"
    return match.group(1)


def test_version_has_three_numbers():
    assert re.fullmatch(r"\d+\.\d+\.\d+", VERSION)


# where the version stands again: what it has to be, a pattern, and a file
PLACES = {
    "header for C, as text": (VERSION, r'^#define LAZ_LIBRARY_VERSION "(.*)"$', ["c", "las.h"]),
    "header for C, as a number": (str(NUMBER), r"^#define LAZ_LIBRARY_VERSION_NUMBER (\d+)$", ["c", "las.h"]),
    "library for C": (str(NUMBER), r"^    ensures \{ result ≡ (\d+) \}$", ["crates", "laz_c", "src", "version.rt"]),
    "package for Python": (VERSION, r'^__version__ = "(.*)"$', ["python", "src", "balsamvise", "__init__.py"]),
    "package for Node": (VERSION, r'^    "version": "(.*)",$', ["web", "package.json"]),
    "page of las": (VERSION, r'^\.TH LAS 1 "[^"]*" "las (.*?)"', ["help", "las.1"]),
    "citation": (VERSION, r"^version: (.*)$", ["CITATION.cff"]),
    "changes": (VERSION, r"^## (\d+\.\d+\.\d+), \d{4}-\d\d-\d\d$", ["CHANGELOG.md"]),
    "pkg-config": ("@version@", r"^Version: (.*)$", ["c", "liblaz.pc.in"]),
    "pyproject": ("balsamvise.__version__", r'^version = \{ attr = "(.*)" \}$', ["python", "pyproject.toml"]),
}


@pytest.mark.parametrize("place_", PLACES)
def test_version_stands_in(place_):
    wanted, pattern, names = PLACES[place_]
    assert found(pattern, *names) == wanted


def test_version_is_printed_by_the_launcher():
    said = subprocess.run([LAUNCHER, "--version"], stdin=subprocess.DEVNULL, stdout=subprocess.PIPE, check=True).stdout
    assert said.decode().splitlines()[0] == f"las {VERSION}"


def test_citation_has_the_date_of_the_changes():
    assert found(r"^date-released: (.*)$", "CITATION.cff") == found(r"^## \d+\.\d+\.\d+, (\S+)$", "CHANGELOG.md")


def test_version_is_set_everywhere_by_one_script(tmp_path):
    names = ["c/las.h", "python/src/balsamvise/__init__.py", "CITATION.cff", "crates/laz_c/src/version.rt",
             "web/package.json", "release/set_version"]
    shutil.copytree(TOP / "help", tmp_path / "help")
    for name in names:
        (tmp_path / name).parent.mkdir(parents=True, exist_ok=True)
        (tmp_path / name).write_bytes((TOP / name).read_bytes())
        (tmp_path / name).chmod(0o755)
    subprocess.run([tmp_path / "release" / "set_version", "3.14.7"], stdout=subprocess.DEVNULL, check=True)
    assert (tmp_path / "help/version").read_text() == "3.14.7\n"
    header = (tmp_path / "c/las.h").read_text()
    assert '#define LAZ_LIBRARY_VERSION "3.14.7"\n#define LAZ_LIBRARY_VERSION_NUMBER 31407\n' in header
    assert '__version__ = "3.14.7"' in (tmp_path / "python/src/balsamvise/__init__.py").read_text()
    assert '    "version": "3.14.7",\n' in (tmp_path / "web/package.json").read_text()
    assert "version: 3.14.7\n" in (tmp_path / "CITATION.cff").read_text()
    assert '"las 3.14.7"' in (tmp_path / "help/las.1").read_text()
    assert "= 31_407;" in (tmp_path / "crates/laz_c/src/version.rt").read_text()


def test_set_version_refuses_what_is_no_version(tmp_path):
    for word in ["", "1", "1.2", "1.2.3.4", "1.2.x", "1..2", ".1.2", "1.2."]:
        run = subprocess.run([TOP / "release" / "set_version", word], stderr=subprocess.PIPE, check=False)
        assert (run.returncode, run.stderr.startswith(b"usage: ")) == (2, True), word


def test_licence_texts_are_whole():
    apache = text("LICENSE-APACHE")
    assert "Apache License\n                           Version 2.0, January 2004" in apache
    assert "END OF TERMS AND CONDITIONS" in apache
    assert text("LICENSE-MIT").startswith("MIT License\n\nCopyright (c) 2026 The Balsamvise developers\n")


LICENSED = ["README.md", "docs/licences.md", "python/pyproject.toml", "c/liblaz.pc.in", "help/las.1"]


@pytest.mark.parametrize("name", LICENSED)
def test_licence_is_told_in(name):
    assert LICENCE in text(name)


def document():
    printed = subprocess.run([TOP / "release" / "spdx"], stdout=subprocess.PIPE, check=True).stdout
    return printed, json.loads(printed)


def test_spdx_document_is_that_of_the_release():
    printed, _ = document()
    assert (TOP / "release" / "balsamvise.spdx.json").read_bytes() == printed


def test_spdx_document_names_each_released_file_with_its_sum():
    built = dict(line.split(" ", 1) for line in text("release", "BUILT_FROM").splitlines())
    sums = {name: value for name, value in built.items()
            if name not in ("kit", "linker", "compiler", "tools", "packages", "sources", "c_sources")
            and not name.startswith("verdict:")}
    listed = {re.sub(r"\./release/(.*)\.gz#unpacked", r"\1", file["fileName"]): file["checksums"][0]["checksumValue"]
              for file in document()[1]["files"]}
    assert listed == sums


def test_spdx_document_is_sound():
    printed = document()[1]
    assert printed["spdxVersion"] == "SPDX-2.3"
    parts = [*printed["packages"], *printed["files"]]
    names = [part["SPDXID"] for part in parts]
    assert len(set(names)) == len(names)
    assert all(re.fullmatch(r"SPDXRef-[A-Za-z0-9.-]+", name) for name in names)
    for relation in printed["relationships"]:
        assert {relation["spdxElementId"], relation["relatedSpdxElement"]} <= {*names, "SPDXRef-DOCUMENT"}


def crates_linked_in() -> set[str]:
    """The crates of the kit that the program and the library stand on, by crates.txt."""
    lines = [line.split(":", 1) for line in text("crates.txt").splitlines() if line and not line.startswith("#")]
    listed = {name.split()[0]: words.split() for name, words in lines}
    found: "list[str]" = ["las_run", "laz_c"]
    for name in found:
        found += [word for word in listed.get(name, []) if word not in found]
    return {name for name in found if name not in listed}


def test_each_crate_of_the_kit_is_named_with_its_licence():
    named = set(re.findall(r"`(\w+)`(?=[^|]*\|)", text("docs", "licences.md").split("| Part |")[1]))
    assert crates_linked_in() <= named


def test_library_and_header_have_one_version(tmp_path):
    import ctypes
    import gzip

    import needs
    shared = tmp_path / "liblaz.so"
    shared.write_bytes(gzip.decompress((TOP / "release" / "liblaz.so.gz").read_bytes()))
    if not needs.runs("sh", "-c", f". '{TOP}/release/processor.sh' && runs_v2"):
        pytest.skip("this processor does not run x86-64-v2")
    assert ctypes.CDLL(str(shared)).laz_c_version() == NUMBER
