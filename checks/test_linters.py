"""No source of the repository has what a linter warns of. The sources are found, so that a new one is tried too."""
import os

import pytest

import commands
import needs
import sources
from programs import TOP

SHELL = sources.scripts("sh", "bash")
PYTHON = sources.scripts("python3")
C = [path for path in sources.files() if path.suffix == ".c"]
# what mypy takes as one program: the plugin for QGIS has a package of the same name as the Python package
PROGRAMS = {"the plugin for QGIS": [path for path in PYTHON if path.parts[0] == "qgis"],
            "all others": [path for path in PYTHON if path.parts[0] not in ("qgis", ".ci")]}


@pytest.mark.parametrize("kind, name", [
    (SHELL, "las"), (SHELL, "check"), (SHELL, "release/make"), (SHELL, "help/las.bash"), (SHELL, ".ci/run"),
    (PYTHON, "checks/needs.py"), (PYTHON, "docs/plot_performance.py"), (PYTHON, "examples/make_tile.py"),
    (PYTHON, "python/src/balsamvise/library.py"), (PYTHON, ".ci/times"), (C, "c/check.c"),
    (C, "checks/failing_calls.c")], ids=lambda value: value if isinstance(value, str) else "")
def test_source_is_found(kind, name):
    assert name in [str(path) for path in kind]


def clean(*line, **options):
    run = commands.quiet(line, cwd=options.pop("cwd", TOP), **options)
    assert run.returncode == 0, (run.stdout + run.stderr).decode()


pytestmark = pytest.mark.slow  # they look at the sources, and not at the program


@pytest.mark.parametrize("script", SHELL, ids=str)
def test_shellcheck(script):
    needs.command("shellcheck", "shellcheck")
    shell = {".sh": ["-s", "sh"], ".bash": ["-s", "bash"]}.get(script.suffix, [])
    clean("shellcheck", *shell, script)


@pytest.mark.parametrize("folder", sorted({str(path.parent) for path in PYTHON}))
def test_flake8(folder):
    needs.command("flake8", "flake8")
    clean("flake8", "--isolated", "--jobs=1", "--max-line-length", "120",
          *[path for path in PYTHON if str(path.parent) == folder])


@pytest.mark.parametrize("name", [pytest.param(name, marks=pytest.mark.slow(seconds=30 if "all" in name else 3))
                                  for name in PROGRAMS])
def test_mypy(name, tmp_path):
    """Modules are found in the folder of each source, or in that of its package."""
    needs.command("mypy", "mypy")
    files = PROGRAMS[name]
    folders = {"python": "python/src", "qgis": "qgis"}
    found = dict.fromkeys(str(TOP / folders.get(path.parts[0], path.parent)) for path in files)
    clean("mypy", "--config-file", TOP / "checks" / "mypy.ini", "--ignore-missing-imports", "--scripts-are-modules",
          "--cache-dir", tmp_path / "cache", *[TOP / path for path in files], cwd=tmp_path,
          env={**os.environ, "MYPYPATH": os.pathsep.join(found)})


@pytest.mark.parametrize("file", C, ids=str)
def test_cppcheck(file):
    needs.command("cppcheck", "cppcheck")
    clean("cppcheck", "--enable=warning,style,performance,portability", "--error-exitcode=1", "--quiet", "--std=c11",
          "--inline-suppr", "-Ic", file)


# release/heap_wasm.c is for WebAssembly alone, whose calls gcc does not have; release/wasm compiles it without warnings
@pytest.mark.parametrize("file", [path for path in C if path.name != "heap_wasm.c"], ids=str)
def test_analyzer_of_gcc(file, tmp_path):
    needs.command("gcc", "gcc")
    clean("gcc", "-std=c11", "-O1", "-Wall", "-Wextra", "-Werror", "-fanalyzer", "-fPIC", "-Ic", "-c", file, "-o",
          tmp_path / "object")
