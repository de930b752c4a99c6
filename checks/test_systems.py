"""The released programs for other systems: aarch64, and static ones. They give the answers and the bytes of the program
that is checked, and say what is wrong on a machine that can't run them.
"""
import os
import random
import re
import shutil
import subprocess
from pathlib import Path

import pytest

import commands
import needs
import shared
import systems
from las_files import counted, lidar, long_head
from places import Place
from programs import TOP
from systems import LINKED

COMPILERS = {"x86-64": "gcc", "aarch64": "aarch64-linux-gnu-gcc"}
STRICT = ["-std=gnu11", "-O2", "-Wall", "-Wextra", "-Werror", "-c"]


@pytest.mark.parametrize("processor", COMPILERS)
def test_numbers_and_layouts_of_the_program_are_those_of(processor, tmp_path):
    """A static program has the same C library, and so the same headers."""
    compiler = COMPILERS[processor]
    needs.command(compiler, systems.CROSS if processor == "aarch64" else "gcc libc6-dev")
    layouts = TOP / "c" / "system" / "layouts.c"
    commands.good([compiler, *STRICT, layouts, "-o", tmp_path / "object"])
    other = layouts.read_text().replace("IS(O_EXCL, 0200);", "IS(O_EXCL, 0400);")
    (tmp_path / "other.c").write_text(other)
    run = commands.quiet([compiler, *STRICT, tmp_path / "other.c", "-o", tmp_path / "object"])
    assert "O_EXCL is not 0400" in run.stderr.decode()


@pytest.mark.kit
def test_calls_in_the_place_of_the_kits_answer_as_the_kits(tmp_path):
    """Words, variables, errors and memory, also where there is no room or no memory for them."""
    needs.command("gcc", "gcc libc6-dev")
    kit = Path(commands.good(["rt", "doc"]).strip()).parent / "c"
    calls, system = TOP / "checks" / "system_calls.c", TOP / "c" / "system"
    commands.good(["gcc", "-O1", "-o", tmp_path / "kit", calls, kit / "libos_c.a", kit / "liblibc_c.a"])
    commands.good(["gcc", "-O1", "-o", tmp_path / "ours", calls, system / "words.c", system / "heap.c"])
    said = []
    for name in ("kit", "ours"):
        words = ["", "a word", "x" * 40, "\xff"]
        run = commands.quiet([tmp_path / name, *words], env={"A": "", "LONG": "y" * 40, "B": "c"})
        assert run.returncode == 0, run.stderr
        said.append(run.stdout)
    assert said[0].count(b"\n") > 100
    assert said[1] == said[0]


@pytest.fixture(scope="session")
def linked(tmp_path_factory):
    """The released programs for other systems, each as a program that runs here."""
    def make(folder: Path) -> None:
        for name in LINKED:
            systems.runnable(systems.unpacked(name, folder))

    folder = shared.once(tmp_path_factory, "linked", make)
    return {name: folder / (f"{name}-emulated" if systems.is_foreign(name) else name) for name in LINKED}


def lines(name):
    """Commands over the files of one layout: packing and unpacking, and each tool on what that gives."""
    las, laz = f"{name}.las", f"{name}.laz"
    for cores in "1", "4":
        last = ("-cores", cores)
        yield "laszip", "-i", las, "-o", f"p{laz}", "-chunk_size", "256", *last
        yield "laszip", "-i", f"p{laz}", "-o", f"u{las}", *last
        yield "lasinfo", "-i", f"p{laz}", "-tally", "class", "-tally", "return", *last
        yield "las2las", "-i", f"p{laz}", "-o", f"k{laz}", "-keep_class", "2", "3", *last
        yield "las2las", "-i", f"p{laz}", "-o", f"t{las}", "-thin_raw", "150", "-lowest", *last
        yield "las2las", "-i", las, "-o", f"r{laz}", "-start_at_point", "123", "-stop_at_point", "777", *last
        yield "lassplit", "-i", f"p{laz}", "-o", f"c{las}", "-by_classification", *last
        yield "lasmerge", "-i", f"p{laz}", "-i", las, "-o", f"m{laz}", *last
        yield "lasmerge", "-i", f"p{laz}", "-i", f"p{laz}", "-o", f"y{laz}", "-copy_chunks", *last


FAULTS = [["laszip", "-i", "none", "-o", "x"], ["laszip", "-i", ".", "-o", "x"], ["laszip", "-i", "a0.las"], [],
          ["laszip", "-i", "a0.las", "-o", "none/x"], ["laszip", "-i", "a0.las", "-o", "/dev/full"],
          ["laszip", "-i", "a0.las", "-o", "x", "-cores", "9"], ["lasinfo", "-i", "cut.laz"],
          ["laszip", "-i", "cut.laz", "-o", "cut.las", "-cores", "2"],
          ["make", "-o", "m.las", "-z", "m.laz", "-points", "5000", "-seed", "7", "-format", "3", "-extra", "2"]]
SAFE = [["laszip", "-i", "a1.las", "-o", "safe.laz"], ["laszip", "-i", "a1.las", "-o", "none/safe.laz"],
        ["laszip", "-i", "cut.laz", "-o", "safe.las"]]


def fill(place):
    """Writes a plain file of each format, one with extra bytes, and a packed one that is cut."""
    for format_, extra in ((0, 0), (1, 4), (2, 0), (3, 1)):
        points = lidar(format_, extra, 1100)
        header = counted(long_head(2, format_, extra, points), points)
        place.write(f"a{format_}.las", header + b"".join(points))
    place.write("cut.laz", (TOP / "examples" / "tile.laz").read_bytes()[:60_000])


def compared(ours, theirs, words, **options):
    """A run in two places, which have to be alike after it. Answers the status."""
    one, other = ours.las(*words, **options), theirs.las(*words, **options)
    assert (one.returncode, one.stdout, one.stderr) == (other.returncode, other.stdout, other.stderr), words
    assert ours.files() == theirs.files(), words
    return one.returncode


@pytest.mark.parametrize("name", [
    pytest.param(it, marks=pytest.mark.slow(seconds=10)) if systems.is_foreign(it) else it for it in LINKED])
def test_answers_and_bytes_are_those_of_the_program_that_is_checked(linked, program, tmp_path, name):
    places = []
    for folder, runs in (("ours", linked[name]), ("theirs", program)):
        (tmp_path / folder).mkdir()
        places.append(Place(tmp_path / folder, str(runs)))
        fill(places[-1])
    statuses = {compared(*places, words) for words in FAULTS}
    statuses |= {compared(*places, words, env={**os.environ, "LAS_SAFE": "1"}) for words in SAFE}
    assert statuses == {0, 2, 3, 4, 5}
    for layout in ("a0", "a1", "a2", "a3"):
        assert {compared(*places, words) for words in lines(layout)} == {0}


@pytest.mark.parametrize("pages", [16384, 65536])
@pytest.mark.parametrize("name", ["las-aarch64", "las-aarch64-static"])
def test_pages_of(linked, tmp_path, name, pages):
    """Kernels for aarch64 have pages of 4, 16 or 64 KB."""
    place = Place(tmp_path, str(systems.runnable(systems.unpacked(name, tmp_path), pages)))
    run = place.las("laszip", "-i", TOP / "examples" / "tile.laz", "-o", "a.las", "-cores", "4")
    assert (run.returncode, run.stderr) == (0, b"")
    assert place.las("laszip", "-i", "a.las", "-o", "b.laz").returncode == 0
    assert place.read("b.laz") == (TOP / "examples" / "tile.laz").read_bytes()


@pytest.mark.parametrize("name", ["las-x86-64-v2", "las-x86-64-v3", "las-x86-64-static"])
def test_processor_that_is_too_old_is_told(tmp_path, name):
    needs.command("qemu-x86_64", "qemu-user")
    program = systems.unpacked(name, tmp_path)
    run = commands.quiet(["qemu-x86_64", "-cpu", "core2duo", program, "laszip"])
    level = "x86-64-v3" if name.endswith("v3") else "x86-64-v2"
    assert run.returncode == 127
    assert run.stderr.decode().startswith(f"this machine lacks a feature of {level}")


def test_processor_that_is_just_new_enough_runs_the_static_program(tmp_path):
    needs.command("qemu-x86_64", "qemu-user")
    program = systems.unpacked("las-x86-64-static", tmp_path)
    run = commands.quiet(["qemu-x86_64", "-cpu", "Nehalem", program, "laszip"])
    assert (run.returncode, run.stderr) == (2, b"usage: word 1\n")


@pytest.mark.root
@pytest.mark.parametrize("name", ["las-x86-64-static", "las-aarch64-static"])
def test_static_program_runs_where_there_is_nothing_else(tmp_path, name):
    """A root folder with the program and the sample, and for the other processor the emulator with its libraries."""
    program = systems.unpacked(name, tmp_path)
    shutil.copy(TOP / "examples" / "tile.laz", tmp_path)
    line = ["chroot", str(tmp_path), f"/{name}"]
    if systems.is_foreign(name):
        emulator = needs.command("qemu-aarch64", "qemu-user")
        for file in [emulator, *re.findall(r"(/\S+) \(0x", commands.good(["ldd", emulator]))]:
            Path(f"{tmp_path}{file}").parent.mkdir(parents=True, exist_ok=True)
            shutil.copy(file, f"{tmp_path}{file}")
        line = ["chroot", str(tmp_path), emulator, f"/{name}"]
    for words in (["-i", "tile.laz", "-o", "a.las", "-cores", "2"], ["-i", "a.las", "-o", "b.laz"]):
        run = commands.quiet([*line, "laszip", *words])
        assert (run.returncode, run.stderr) == (0, b"")
    assert (tmp_path / "b.laz").read_bytes() == (tmp_path / "tile.laz").read_bytes()
    assert program.exists()


def test_library_for_c_is_loaded_by_musl(program, tmp_path):
    """A program over musl, with the released liblaz.so, reads and writes whole files by three threads."""
    gcc = needs.command("musl-gcc", "musl-tools")
    library = tmp_path / "liblaz.so.1"
    library.write_bytes(systems.released("liblaz.so"))
    commands.good([gcc, "-std=c11", "-O1", f"-I{TOP / 'c'}", "-Wl,--wrap=malloc,--wrap=calloc,--wrap=realloc",
                   "-Wl,--allow-shlib-undefined,-rpath,$ORIGIN", TOP / "c" / "check_files.c", library, "-o",
                   tmp_path / "files"])
    assert b"/ld-musl-x86_64.so.1\0" in (tmp_path / "files").read_bytes()
    sample = TOP / "examples" / "tile.laz"
    commands.good([tmp_path / "files", "copy", sample, tmp_path / "a.las", "0", "0", "3", "1000"])
    commands.good([tmp_path / "files", "copy", tmp_path / "a.las", tmp_path / "b.laz", "50000", "1", "3", "1000"])
    commands.good([program, "laszip", "-i", sample, "-o", tmp_path / "c.las"])
    assert (tmp_path / "a.las").read_bytes() == (tmp_path / "c.las").read_bytes()
    assert (tmp_path / "b.laz").read_bytes() == sample.read_bytes()


@pytest.mark.parametrize("name", ["las-x86-64-v2", "las-x86-64-static"])
def test_kernel_without_statx(tmp_path, name):
    """As before Linux 4.11: the C library asks by fstatat, and the answers are the same."""
    gcc = needs.command("gcc", "gcc libc6-dev")
    commands.good([gcc, "-O1", "-o", tmp_path / "without_statx", TOP / "checks" / "without_statx.c"])
    program = systems.unpacked(name, tmp_path)
    shutil.copy(TOP / "examples" / "tile.laz", tmp_path)
    run = subprocess.run(["./without_statx", program, "laszip", "-i", "tile.laz", "-o", "a.las"], cwd=tmp_path,
                         stdout=subprocess.PIPE, stderr=subprocess.PIPE, check=False)
    assert (run.returncode, run.stderr) == (0, b"")
    refused = [["-i", "a.las", "-o", "a.las"], ["-i", "none", "-o", "x"], ["-i", ".", "-o", "x"]]
    for words in refused:
        ends = []
        for first in (["./without_statx"], []):
            run = subprocess.run([*first, program, "laszip", *words], cwd=tmp_path, stdout=subprocess.PIPE,
                                 stderr=subprocess.PIPE, check=False)
            ends.append((run.returncode, run.stderr))
        assert ends[0] == ends[1]
        assert ends[0][0] != 0


def spoilt(packed, count):
    """Copies of a packed file with one to three bytes changed, a fifth of them cut."""
    choose = random.Random(5)
    for _ in range(count):
        data = bytearray(packed)
        for _ in range(choose.randint(1, 3)):
            at = choose.randrange(len(data)) if choose.random() < 0.6 else choose.randrange(400)
            data[at] = choose.randrange(256)
        yield bytes(data[:choose.randrange(len(data))] if choose.random() < 0.2 else data)


@pytest.fixture
def both(linked, program, tmp_path, request):
    """Two places with the same files: one for a program of another system, one for the program that is checked."""
    places = []
    for folder, runs in (("ours", linked[request.param]), ("theirs", program)):
        (tmp_path / folder).mkdir()
        places.append(Place(tmp_path / folder, str(runs)))
        fill(places[-1])
    return places


@pytest.mark.systems
@pytest.mark.parametrize("both", LINKED, indirect=True)
def test_spoilt_files(both):
    statuses = set()
    for data in spoilt((TOP / "examples" / "tile.laz").read_bytes(), 300):
        for place in both:
            place.write("bad.laz", data)
        statuses.add(compared(*both, ["laszip", "-i", "bad.laz", "-o", "bad.las", "-cores", "2"]))
    assert {0, 5} <= statuses


@pytest.mark.systems
@pytest.mark.parametrize("cores", ["1", "2", "4", "8"])
@pytest.mark.parametrize("both", LINKED, indirect=True)
def test_workers(both, cores):
    """Chunks enough for each worker, both ways, in each format; a file with a bad chunk in its middle too."""
    for format_ in "0123":
        words = ["-points", "400000", "-seed", "3", "-format", format_, "-extra", "1"]
        assert compared(*both, ["make", "-o", "m.las", "-z", "m.laz", *words, "-cores", cores]) == 0
        assert compared(*both, ["laszip", "-i", "m.las", "-o", "p.laz", "-chunk_size", "9999", "-cores", cores]) == 0
        assert compared(*both, ["laszip", "-i", "p.laz", "-o", "u.las", "-cores", cores]) == 0
        for place in both:
            data = place.read("p.laz")
            place.write("p.laz", data[:len(data) // 2] + bytes(64) + data[len(data) // 2 + 64:])
        compared(*both, ["laszip", "-i", "p.laz", "-o", "u.las", "-cores", cores])


def processor_seconds(*words):
    """Of a run that is done."""
    line = [os.fspath(word) for word in words]
    _, status, used = os.wait4(os.posix_spawn(line[0], line, os.environ), 0)
    assert status == 0, line
    return used.ru_utime + used.ru_stime


@pytest.mark.systems
@pytest.mark.alone
@pytest.mark.parametrize("cores", ["1", "4"], ids=lambda cores: f"{cores} workers")
@pytest.mark.parametrize("points, rounds", [(100_000, 100), (2_000_000, 25)], ids=str)
def test_static_program_takes_at_most_2_percent_longer(tmp_path, points, rounds, cores):
    """Over the program for x86-64-v2: the least of runs in turns, of one of three series, packing and unpacking."""
    names = ("las-x86-64-v2", "las-x86-64-static")
    programs = [systems.unpacked(name, tmp_path) for name in names]
    plain, packed, output = (tmp_path / name for name in ("m.las", "m.laz", "output"))
    words = ["-points", str(points), "-seed", "1", "-format", "1"]
    commands.good([programs[0], "make", "-o", plain, "-z", packed, *words])
    for source in (plain, packed):
        ratios = []
        for _ in range(3):
            least = [min(times) for times in zip(*(
                [processor_seconds(program, "laszip", "-i", source, "-o", output, "-cores", cores)
                 for program in programs] for _ in range(rounds)))]
            ratios.append(least[1] / least[0])
            print(f"{source.name}: {least[1]:.4f} over {least[0]:.4f} s, {ratios[-1]:.3f}")
        assert min(ratios) <= 1.02, ratios


@pytest.fixture(scope="module")
def old_debian(tmp_path_factory):
    """Runs a script in the oldest Debian that is to be had, which has this checkout as /las: its glibc is older than
    2.34, its Python is 3.9 and its numpy 1.19."""
    needs.root()
    needs.command("debootstrap", "debootstrap")
    root = tmp_path_factory.mktemp("debian") / "root"
    run = commands.quiet(["debootstrap", "--variant=minbase", "--include=python3,python3-numpy,python3-pytest,"
                          "python3-hypothesis,gcc,libc6-dev,binutils", "bullseye", root,
                          "http://deb.debian.org/debian"], timeout=7200)
    if run.returncode != 0:
        needs.missing("debootstrap could not fetch Debian 11", "to reach Debian's packages")
    archive = commands.quiet(["git", "-C", TOP, "ls-files", "-coz", "--exclude-standard"]).stdout.split(b"\0")
    for name in (os.fsdecode(it) for it in archive):
        if name and (TOP / name).is_file():
            (root / "las" / name).parent.mkdir(parents=True, exist_ok=True)
            shutil.copy(TOP / name, root / "las" / name)
    commands.good(["mount", "-t", "proc", "proc", root / "proc"])

    def inside(script, status=0):
        ran = commands.quiet(["chroot", root, "/bin/sh", "-ec", script], timeout=7200)
        assert ran.returncode == status, (ran.stdout + ran.stderr).decode()
        return (ran.stdout + ran.stderr).decode()

    yield inside
    commands.quiet(["umount", "-l", root / "proc"])


@pytest.mark.systems
def test_old_debian(old_debian):
    """First command, installation, las-batch."""
    inside = old_debian
    assert "2.31" in inside("ldd --version")
    assert inside("cd /las && ./las laszip -i examples/tile.laz -o /a.las && wc -c </a.las") == "574125\n"
    assert inside("cd /las && ./las --version").splitlines()[-1].endswith("/las-x86-64-static")
    inside("cp -r /las /copy && cd /copy && ./install /opt/las && cp examples/tile.laz / && rm -r /copy")
    inside("/opt/las/bin/las laszip -i a.las -o b.laz -cores 2 && cmp b.laz tile.laz")
    assert "parallel" in inside("/opt/las/bin/las-batch laszip -odir /packed /a.las", 2)


# names that pytest has since 6.2, for the 6.0 there
OLDER_PYTEST = """import pytest
from _pytest import fixtures, monkeypatch, tmpdir
pytest.MonkeyPatch, pytest.TempPathFactory = monkeypatch.MonkeyPatch, tmpdir.TempPathFactory
pytest.FixtureRequest = fixtures.FixtureRequest
"""


@pytest.mark.systems
def test_package_for_python_in_old_debian(old_debian):
    """The cases of the package, by Python 3.9 and numpy 1.19."""
    old_debian(f"mkdir -p /older && cat >/older/older_pytest.py <<'END'\n{OLDER_PYTEST}END\n")
    old_debian("gzip -dc /las/release/las-x86-64-static.gz >/program && chmod 755 /program")
    said = old_debian("cd /las && PYTHONPATH=/older PYTHONDONTWRITEBYTECODE=1 python3 -m pytest -p older_pytest "
                      "-c checks/pytest.ini --rootdir checks --program=/program checks/test_python_*.py "
                      "checks/test_describe.py --alone=without")
    passed = int(said.rpartition(" passed")[0].split()[-1])
    assert passed > 1100
