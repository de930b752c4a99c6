"""Packages, made of the release alone: Debian's, the wheel, the sdist, and the archive that runs from any folder."""
import hashlib
import os
import shutil
import subprocess
import tarfile
import time
import zipfile
from pathlib import Path

import pytest

import needs
import pages
import shared
from programs import TOP

SAMPLE = TOP / "examples" / "tile.laz"
VERSION = (TOP / "help" / "version").read_text().strip()
DEBIAN = "/usr/bin/python3"  # the one that Debian's numpy and pip are for


def made_by(script: str, tmp_path_factory: pytest.TempPathFactory, name: str = "") -> dict[str, Path]:
    """What a script of release/ puts in a folder, by name. It is made once for all processes of this run."""
    def make(folder: Path) -> None:
        subprocess.run([TOP / "release" / script, folder], stdin=subprocess.DEVNULL, stdout=subprocess.DEVNULL,
                       check=True)

    if script == "deb":
        needs.command("dpkg-deb", "dpkg")
    folder = shared.once(tmp_path_factory, f"made by {script}{name}", make)
    return {name: folder / name for name in sorted(os.listdir(folder)) if name != "made"}


SCRIPTS = ["deb", "wheel", "tar"]


@pytest.mark.parametrize("script", [
    pytest.param(it, marks=pytest.mark.huge if it == "deb" else pytest.mark.slow(seconds=4)) for it in SCRIPTS])
def test_package_has_the_same_bytes_again(tmp_path_factory, script):
    first, second = (made_by(script, tmp_path_factory, name) for name in ("", " again"))
    assert list(first) == list(second)
    for name in first:
        assert first[name].read_bytes() == second[name].read_bytes(), name


@pytest.mark.parametrize("script", [pytest.param("deb", marks=pytest.mark.slow(seconds=9)), "wheel", "tar"])
def test_sums_are_those_of_the_packages(tmp_path_factory, script):
    made = made_by(script, tmp_path_factory)
    lines = dict(reversed(line.split("  ")) for line in made["SHA256SUMS"].read_text().splitlines())
    assert lines == {name: hashlib.sha256(path.read_bytes()).hexdigest() for name, path in made.items()
                     if name != "SHA256SUMS"}


@pytest.fixture(scope="module")
def packages(tmp_path_factory):
    return made_by("deb", tmp_path_factory)


def debs(packages, end=".deb"):
    return [path for name, path in packages.items() if name.endswith(end)]


@pytest.mark.slow(seconds=1)
def test_debian_packages_are_four_for_each_processor(packages):
    wanted = [f"{name}_{VERSION}_{architecture}.deb"
              for name in ("balsamvise", "liblaz-dev", "liblaz1", "python3-balsamvise")
              for architecture in ("amd64", "arm64")]
    assert sorted(path.name for path in debs(packages)) == wanted


@pytest.mark.slow(seconds=1)
def test_packages_for_arm64_hold_programs_of_aarch64_and_no_static_one(packages, tmp_path):
    for name, place in (("balsamvise", "usr/libexec/las"), ("liblaz1", "usr/lib/aarch64-linux-gnu")):
        tree = tmp_path / name
        subprocess.run(["dpkg-deb", "-x", packages[f"{name}_{VERSION}_arm64.deb"], tree], check=True)
        files = [path for path in (tree / place).rglob("*") if path.is_file() and not path.is_symlink()]
        assert {path.name for path in files} == ({"las-aarch64"} if name == "balsamvise" else {f"liblaz.so.{VERSION}"})
        assert {machine_of(path) for path in files} == {AARCH64}


AARCH64, X86_64 = 183, 62


def machine_of(path: Path) -> int:
    """The processor that a program or shared library is for, by its ELF head."""
    head = path.read_bytes()[:20]
    assert head[:4] == b"\x7fELF"
    return int.from_bytes(head[18:20], "little")


@pytest.mark.parametrize("machine", [pytest.param("amd64", marks=pytest.mark.slow(seconds=9)),
                                     pytest.param("arm64", marks=pytest.mark.huge)])
def test_lintian_has_no_error_and_no_warning(packages, machine):
    needs.command("lintian", "lintian")
    run = subprocess.run(["lintian", "--allow-root", "--fail-on", "error,warning", *debs(packages, f"_{machine}.deb")],
                         stdout=subprocess.PIPE, stderr=subprocess.STDOUT, check=False)
    assert run.stdout.decode() == ""
    assert run.returncode == 0


@pytest.fixture(scope="module")
def debian(tmp_path_factory):
    """A folder with Debian 12 and nothing else."""
    needs.root()
    needs.command("debootstrap", "debootstrap")
    root = tmp_path_factory.mktemp("debian") / "root"
    with open(root.with_suffix(".log"), "wb") as log:
        run = subprocess.run(["debootstrap", "--variant=minbase", "bookworm", root, mirror()], stdin=subprocess.DEVNULL,
                             stdout=log, stderr=subprocess.STDOUT, check=False)
    if run.returncode != 0:
        needs.missing("debootstrap could not fetch Debian 12", "to reach Debian's packages")
    sources = Path("/etc/apt")
    for name in ("sources.list", "sources.list.d", "apt.conf.d", "trusted.gpg.d", "auth.conf.d"):
        if (sources / name).is_file():
            shutil.copy(sources / name, root / "etc" / "apt" / name)
        elif (sources / name).is_dir():
            shutil.copytree(sources / name, root / "etc" / "apt" / name, dirs_exist_ok=True)
    for name in ("hosts", "resolv.conf"):
        shutil.copy(Path("/etc") / name, root / "etc" / name)
    (root / "usr" / "sbin" / "policy-rc.d").write_text("#!/bin/sh\nexit 101\n")
    (root / "usr" / "sbin" / "policy-rc.d").chmod(0o755)
    return root


def mirror() -> str:
    """Where this machine gets Debian's packages from."""
    said = subprocess.run(["apt-get", "indextargets", "--format", "$(SITE)", "Created-By: Packages"],
                          stdout=subprocess.PIPE, check=False).stdout.decode().split()
    return next((site for site in said if "security" not in site), "http://deb.debian.org/debian")


def inside(root: Path, script: str, **more: str) -> str:
    """What a script prints in the folder, as its root; it has to end with status 0."""
    environment = {"PATH": "/usr/sbin:/usr/bin:/sbin:/bin", "HOME": "/root", "DEBIAN_FRONTEND": "noninteractive",
                   **more}
    for name in ("http_proxy", "https_proxy"):
        if name in os.environ:
            environment[name] = os.environ[name]
    run = subprocess.run(["chroot", root, "/bin/sh", "-ec", script], env=environment, stdin=subprocess.DEVNULL,
                         stdout=subprocess.PIPE, stderr=subprocess.STDOUT, check=False, timeout=900)
    assert run.returncode == 0, run.stdout.decode(errors="replace")[-3000:]
    return run.stdout.decode(errors="replace")


@pytest.fixture(scope="module")
def installed(debian, packages):
    """The folder with all four packages."""
    (debian / "packages").mkdir()
    for path in debs(packages, "_amd64.deb"):
        shutil.copy(path, debian / "packages")
    inside(debian, "apt-get update && apt-get install -y --no-install-recommends /packages/*.deb")
    shutil.copy(SAMPLE, debian / "tile.laz")
    return debian


@pytest.mark.huge
@pytest.mark.root
class TestCleanDebian:
    """Debian 12 with these packages and what they depend on."""

    def test_program_unpacks_and_packs_the_sample(self, installed):
        inside(installed, "mount -t proc proc /proc 2>/dev/null || true; las laszip -i tile.laz -o a.las && "
                          "las laszip -i a.las -o b.laz -cores 2 && cmp tile.laz b.laz; umount /proc || true")

    def test_version_is_that_of_the_package(self, installed):
        assert inside(installed, "las --version").splitlines()[0] == f"las {VERSION}"

    def test_manual_page_and_help_are_there(self, installed):
        assert "laszip" in inside(installed, "las help && zcat /usr/share/man/man1/las.1.gz")

    def test_python_reads_the_sample(self, installed):
        said = inside(installed, "python3 -c 'import balsamvise; print(len(balsamvise.read(\"tile.laz\", threads=2)))'")
        assert said == "20493\n"

    def test_c_program_is_compiled_and_starts(self, installed):
        inside(installed, "apt-get install -y --no-install-recommends gcc libc6-dev pkg-config")
        shutil.copy(TOP / "c" / "heights.c", installed / "heights.c")
        script = "cc heights.c $(pkg-config --cflags --libs liblaz) -o heights && ./heights tile.laz"
        assert inside(installed, script).startswith("points 20493\n")

    def test_removal_leaves_nothing(self, installed):
        inside(installed, "apt-get purge -y balsamvise liblaz1 liblaz-dev python3-balsamvise")
        left = [path for name in ("bin/las", "share/las", "libexec/las", "include/las.h", "share/doc/balsamvise")
                for path in [installed / "usr" / name] if path.exists()]
        assert left == []


PAGE = pages.steps_of("README.md")


@pytest.fixture(scope="module")
def clone(debian):
    """A fresh clone in the folder, with /proc as every system has it, and nothing of the kit."""
    data = subprocess.run(["git", "-C", TOP, "archive", "HEAD"], stdout=subprocess.PIPE, check=True).stdout
    (debian / "clone").mkdir()
    subprocess.run(["tar", "-x", "-C", debian / "clone"], input=data, check=True)
    subprocess.run(["mount", "-t", "proc", "proc", debian / "proc"], check=True)
    subprocess.run(["mount", "-t", "devpts", "-o", "newinstance,ptmxmode=0666", "devpts", debian / "dev" / "pts"],
                   check=True)
    (debian / "dev" / "ptmx").unlink(missing_ok=True)
    (debian / "dev" / "ptmx").symlink_to("pts/ptmx")
    yield debian
    for name in ("dev/pts", "proc"):
        subprocess.run(["umount", "-l", debian / name], check=False)


@pytest.mark.huge
@pytest.mark.root
class TestReadme:
    """The README, followed line by line by somebody who has a clean Debian 12."""

    def test_first_command_takes_less_than_two_seconds(self, clone):
        began = time.monotonic()
        inside(clone, "cd clone && " + PAGE[0].commands.splitlines()[0] + " && rm tile.las")
        assert time.monotonic() - began < 2

    def test_each_command_prints_what_the_page_says(self, clone):
        for step in PAGE:
            if step.reason is None:
                began = time.monotonic()
                said = inside(clone, f"cd clone && {{ {step.commands}\n}}")
                print(f"{time.monotonic() - began:.2f} s: {step.name}")
                assert step.printed in (None, said), step.name

    def test_installation_runs_without_the_clone(self, clone):
        inside(clone, "cd clone && ./install /opt/las")
        inside(clone, "/opt/las/bin/las laszip -i clone/examples/tile.laz -o o.las")

    def test_checks_pass_with_python_and_pytest_alone(self, clone):
        inside(clone, "apt-get update && apt-get install -y --no-install-recommends python3-pytest "
                      "python3-pytest-xdist")
        began = time.monotonic()
        said = inside(clone, "cd clone && ./check")
        print(f"{time.monotonic() - began:.0f} s: ./check")
        assert " passed" in said
        assert " failed" not in said


@pytest.fixture(scope="module")
def wheels(tmp_path_factory):
    return made_by("wheel", tmp_path_factory)


def environment(folder: Path) -> Path:
    """Python of an environment that sees Debian's numpy and pip."""
    for name, package in (("numpy", "python3-numpy"), ("pip", "python3-pip"), ("setuptools", "python3-setuptools"),
                          ("venv", "python3-venv")):
        if not needs.runs(DEBIAN, "-c", f"import {name}"):
            needs.missing(f"{DEBIAN} has no {name}", package)
    subprocess.run([DEBIAN, "-m", "venv", "--without-pip", "--system-site-packages", folder], check=True)
    return folder / "bin" / "python"


READS = "import balsamvise; print(len(balsamvise.read('tile.laz', threads=2)), balsamvise.__version__)"


@pytest.mark.slow
@pytest.mark.parametrize("form", ["wheel", "sdist"])
def test_python_package_is_installed_and_reads_the_sample(wheels, form, tmp_path):
    python = environment(tmp_path / "venv")
    name, = (name for name in wheels if name.endswith("_x86_64.whl" if form == "wheel" else ".tar.gz"))
    words = ["--no-build-isolation"] if form == "sdist" else []
    subprocess.run([python, "-m", "pip", "install", "-q", "--no-index", *words, wheels[name]], check=True)
    shutil.copy(SAMPLE, tmp_path / "tile.laz")
    clean = {name: value for name, value in os.environ.items() if not name.startswith(("BALSAMVISE", "PYTHON"))}
    run = subprocess.run([python, "-c", READS], cwd=tmp_path, env=clean, stdout=subprocess.PIPE, check=True)
    assert run.stdout.decode() == f"20493 {VERSION}\n"


TAGS = {"manylinux_2_14_x86_64": X86_64, "manylinux_2_17_aarch64": AARCH64}


@pytest.mark.parametrize("tag", TAGS)
def test_wheel_says_what_it_holds(wheels, tmp_path, tag):
    name, = (name for name in wheels if name.endswith(f"-py3-none-{tag}.whl"))
    with zipfile.ZipFile(wheels[name]) as archive:
        names = archive.namelist()
        record = archive.read(f"balsamvise-{VERSION}.dist-info/RECORD").decode().splitlines()
        said = archive.read(f"balsamvise-{VERSION}.dist-info/WHEEL").decode()
        archive.extract("balsamvise/liblaz.so", tmp_path)
    assert f"\nTag: py3-none-{tag}\n" in said
    assert sorted(line.split(",")[0] for line in record) == sorted(names)
    assert {"balsamvise/liblaz.so", f"balsamvise-{VERSION}.dist-info/licenses/LICENSE-MIT"} <= set(names)
    assert ("balsamvise/glibc-hwcaps/x86-64-v3/liblaz.so" in names) == (TAGS[tag] == X86_64)
    assert machine_of(tmp_path / "balsamvise" / "liblaz.so") == TAGS[tag]


def test_import_on_an_old_processor_says_so(tmp_path):
    needs.module("numpy", "python3-numpy")
    (tmp_path / "cpuinfo").write_text("processor\t: 0\nflags\t\t: fpu sse sse2 ssse3 cx16\n")
    script = (f"import sys; sys.path.insert(0, {str(TOP / 'python' / 'src')!r})\n"
              "import builtins, io\n"
              "true_open = open\n"
              "def opened(name, *words, **more):\n"
              f"    here = {str(tmp_path / 'cpuinfo')!r}\n"
              "    return true_open(here if name == '/proc/cpuinfo' else name, *words, **more)\n"
              "builtins.open = opened\n"
              "import balsamvise\n")
    run = subprocess.run([DEBIAN, "-B", "-c", script], stdout=subprocess.PIPE, stderr=subprocess.PIPE, check=False)
    assert run.returncode == 1
    assert "ProcessorTooOld: balsamvise needs a processor of x86-64-v2 or later" in run.stderr.decode()
    assert "lahf_lm, popcnt, sse4_1, sse4_2" in run.stderr.decode()


@pytest.fixture(scope="module")
def archives(tmp_path_factory):
    return made_by("tar", tmp_path_factory)


def unpacked_for(machine, archives, tmp_path):
    """The archive for a machine, unpacked in a folder with a blank in its name."""
    name, = (name for name in archives if name.endswith(f"-linux-{machine}.tar.gz"))
    place = tmp_path / "a folder"
    with tarfile.open(archives[name]) as archive:
        archive.extractall(place)
    return place / name[:-len(".tar.gz")]


@pytest.fixture
def unpacked(archives, tmp_path):
    return unpacked_for("x86_64", archives, tmp_path)


ARCHIVED = {"x86_64": ("las-x86-64-static", "las-x86-64-v2", "las-x86-64-v3"),
            "aarch64": ("las-aarch64", "las-aarch64-static")}


@pytest.mark.parametrize("machine", ARCHIVED)
def test_archive_has_the_programs_of_one_processor(archives, tmp_path, machine):
    root = unpacked_for(machine, archives, tmp_path)
    assert tuple(sorted(os.listdir(root / "libexec" / "las"))) == ARCHIVED[machine]
    files = [*(root / "libexec" / "las").iterdir(), *(root / "lib").rglob("liblaz.so")]
    assert {machine_of(path) for path in files} == {X86_64 if machine == "x86_64" else AARCH64}


def test_archive_runs_where_it_lies(unpacked, tmp_path):
    moved = tmp_path / "moved"
    unpacked.rename(moved)
    for words in (["-i", SAMPLE, "-o", "a.las"], ["-i", "a.las", "-o", "b.laz"]):
        subprocess.run([moved / "bin" / "las", "laszip", *words], cwd=tmp_path, check=True)
    assert (tmp_path / "b.laz").read_bytes() == SAMPLE.read_bytes()


def test_archive_names_no_folder_of_the_machine_that_made_it(unpacked):
    for path in unpacked.rglob("*"):
        if path.is_file():
            assert str(TOP).encode() not in path.read_bytes(), path


def test_archive_serves_pkg_config_where_it_lies(unpacked, tmp_path):
    needs.command("pkg-config", "pkg-config")
    needs.command("cc", "gcc")
    moved = tmp_path / "moved"
    unpacked.rename(moved)
    settings = dict(os.environ, PKG_CONFIG_PATH=str(moved / "lib" / "pkgconfig"))
    flags = subprocess.run(["pkg-config", "--cflags", "--libs", "liblaz"], env=settings, stdout=subprocess.PIPE,
                           check=True)
    program = tmp_path / "heights"
    subprocess.run(["cc", TOP / "c" / "heights.c", *flags.stdout.decode().split(), "-o", program], check=True)
    run = subprocess.run([program, SAMPLE], env=dict(os.environ, LD_LIBRARY_PATH=str(moved / "lib")),
                         stdout=subprocess.PIPE, check=True)
    assert run.stdout.startswith(b"points 20493\n")
