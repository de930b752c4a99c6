"""Which released program the launcher takes by the processor, the kernel's name of the machine and the C library, in a
checkout and installed; and what it says if there is none.
"""
import os
import shutil
import stat
from pathlib import Path

import pytest

import checkouts
import commands
import needs
import systems
from checkouts import TELLER, Checkout
from programs import TOP
from test_packages import made_by

V2 = "fpu lm cx16 lahf_lm popcnt sse4_1 sse4_2 ssse3"
V3 = V2 + " avx avx2 bmi1 bmi2 f16c fma abm movbe xsave"
X86, ARM = "x86_64", "aarch64"

# It answers as `las` without words, by which the launcher tells that a program starts.
STARTS = TELLER.replace("streams=\n", "[ $# -gt 0 ] || { echo 'usage: word 0' >&2; exit 2; }\nstreams=\n", 1)
ENDS_AT_ONCE = TELLER.replace("streams=\n", "[ $# -gt 0 ] || exit 127\nstreams=\n", 1)
SYSTEMS = "there are programs for Linux on x86_64, of x86-64-v2 or later, and on aarch64"

# what the machine is: the flags of its processor (None: the lines of a processor for aarch64), what `uname -m` prints,
# what a program for glibc does; and the program that is taken, or what is said
MACHINES = {
    "x86-64-v3": (V3, X86, STARTS, "las-x86-64-v3"),
    "x86-64-v2": (V2, X86, STARTS, "las-x86-64-v2"),
    "no flags": ("", X86, STARTS, "las-x86-64-v2"),
    "aarch64": (None, ARM, STARTS, "las-aarch64"),
    "aarch64 without a C library that is new enough": (None, ARM, ENDS_AT_ONCE, "las-aarch64-static"),
    "older than x86-64-v2": (
        "fpu lm cx16 ssse3", X86, STARTS, f"las: this processor is older than x86-64-v2: {SYSTEMS}"),
    "another machine": (None, "riscv64", STARTS, f"las: no program runs on riscv64: {SYSTEMS}"),
}


def called(folder, name):
    """A folder for PATH, in which `uname` prints this name of the machine."""
    folder.mkdir()
    (folder / "uname").write_text(f"#!/bin/sh\necho {name}\n")
    (folder / "uname").chmod(0o755)
    return folder


class Machine:
    """Runs a command as on another machine: with its /proc/cpuinfo and its answer to `uname -m`."""

    def __init__(self, folder, flags, name, path=None):
        needs.root()
        if not needs.runs("unshare", "-m", "true"):
            needs.missing("a process can't have mounts of its own", "a kernel that lets root do so")
        folder.mkdir()
        self.cpuinfo = folder / "cpuinfo"
        lines = "Features\t: fp asimd\n" if flags is None else f"flags\t\t: {flags}\n" if flags else ""
        self.cpuinfo.write_text(f"processor\t: 0\n{lines}")
        self.uname = called(folder / "bin", name)

    def run(self, line, environment):
        environment = {**environment, "PATH": f"{self.uname}:{environment['PATH']}"}
        script = '/bin/mount --bind "$0" /proc/cpuinfo && exec "$@"'
        return commands.quiet([shutil.which("unshare"), "-m", "/bin/sh", "-c", script, self.cpuinfo, *line],
                              env=environment, timeout=60)


def told(at):
    """The name of the program that told how it was started."""
    text = at.told.read_text() if at.told.exists() else ""
    return Path(text.rstrip("\n").rpartition(" program:")[2]).name


@pytest.mark.root
@pytest.mark.parametrize("start", ["in a checkout", "installed"])
@pytest.mark.parametrize("name", MACHINES)
def test_program_on(tmp_path, name, start):
    flags, machine, program, wanted = MACHINES[name]
    at = Checkout(tmp_path, program.encode())
    here = Machine(tmp_path / "machine", flags, machine)
    launcher = at.path("las")
    if start == "installed":
        # the programs of all machines stand there, as nothing but the launcher is tried
        launcher = tmp_path / "installed" / "bin" / "las"
        install(at, tmp_path / "installed", program)
    run = here.run([launcher, "laszip"], at.without_rt())
    if wanted.startswith("las:"):
        assert (run.returncode, run.stderr.decode()) == (1, wanted + "\n")
        assert not at.told.exists()
    else:
        assert (run.returncode, run.stderr) == (0, b"")
        assert told(at) == wanted


@pytest.mark.parametrize("start", ["in a checkout", "installed"])
def test_names_of_the_environment_say_nothing_of_the_machine(tmp_path, start):
    at = Checkout(tmp_path)
    launcher = at.path("las")
    if start == "installed":
        launcher = tmp_path / "installed" / "bin" / "las"
        install(at, tmp_path / "installed", TELLER)
    found = {}
    for name, more in (("without", {}), ("with", {"machine": "riscv64", "flags": " lm ", "program": "x", "held": "1"})):
        at.forget()
        run = commands.quiet([launcher, "laszip"], env={**at.without_rt(), **more}, timeout=60)
        assert (run.returncode, run.stderr) == (0, b"")
        found[name] = told(at)
    assert found["with"] == found["without"]


NAMES_ITSELF = """#!/bin/sh
[ $# -gt 0 ] || { echo 'usage: word 0' >&2; exit 2; }
echo "${0##*/}"
"""


@pytest.mark.root
@pytest.mark.parametrize("start", ["in a checkout", "installed"])
def test_program_where_proc_is_not_mounted(tmp_path, start):
    """As in a root folder of chroot: the program for any processor is taken, and in a checkout it is said why, once."""
    if not needs.runs("unshare", "-m", "true"):
        needs.missing("a process can't have mounts of its own", "a kernel that lets root do so")
    at = Checkout(tmp_path, NAMES_ITSELF.encode())
    launcher, why = at.path("las"), "las: /proc is not mounted, so the processor is taken for one of x86-64-v2\n"
    if start == "installed":
        launcher, why = tmp_path / "installed" / "bin" / "las", ""
        install(at, tmp_path / "installed", NAMES_ITSELF)
    for said in (why, ""):
        script = '/bin/mount -t tmpfs none /proc && exec "$@"'
        run = commands.quiet([shutil.which("unshare"), "-m", "/bin/sh", "-c", script, "sh", launcher, "laszip"],
                             env=at.without_rt())
        assert (run.returncode, run.stdout, run.stderr.decode()) == (0, b"las-x86-64-v2\n", said)


def install(at, prefix, program):
    commands.good([at.path("install"), prefix], env={**at.without_rt(), "PATH": os.environ["PATH"]})
    for name in checkouts.PROGRAMS:
        (prefix / "libexec" / "las" / name).write_text(program)
        (prefix / "libexec" / "las" / name).chmod(0o755)


@pytest.mark.parametrize("named", ["las-x86-64-v2", "las-x86-64-static"])
@pytest.mark.parametrize("start", ["in a checkout", "installed"])
def test_named_program(tmp_path, start, named):
    at = Checkout(tmp_path, STARTS.encode())
    launcher = at.path("las")
    if start == "installed":
        install(at, tmp_path / "installed", STARTS)
        launcher = tmp_path / "installed" / "bin" / "las"
    first, _ = at.start("laszip") if start == "in a checkout" else (None, None)
    assert first is None or first.returncode == 0
    run = commands.quiet([launcher, "laszip"], env={**at.without_rt(), "LAS_PROGRAM": named})
    assert (run.returncode, run.stderr) == (0, b"")
    assert told(at) == named
    # the name is not kept
    at.forget()
    assert commands.quiet([launcher, "laszip"], env=at.without_rt()).returncode == 0
    assert told(at) in ("las-x86-64-v2", "las-x86-64-v3")


REFUSED = {
    "none": "las: LAS_PROGRAM names no released program; there are: las-x86-64-v3 las-x86-64-v2 las-x86-64-static "
            "las-aarch64 las-aarch64-static\n",
    "las-aarch64": "las: las-aarch64, which LAS_PROGRAM names, is not ",
}


@pytest.mark.parametrize("named", REFUSED)
@pytest.mark.parametrize("start", ["in a checkout", "installed"])
def test_named_program_that_is_not_there_or_not_for_this_machine(tmp_path, start, named):
    at = Checkout(tmp_path, STARTS.encode())
    launcher = at.path("las")
    if start == "installed":
        install(at, tmp_path / "installed", STARTS)
        launcher = tmp_path / "installed" / "bin" / "las"
    run = commands.quiet([launcher, "laszip"], env={**at.without_rt(), "LAS_PROGRAM": named})
    assert run.returncode == 1
    assert run.stderr.decode().startswith(REFUSED[named])
    assert run.stderr.count(b"\n") == 1
    assert not at.told.exists()


def test_program_that_does_not_start_is_passed_over(tmp_path):
    """Named, a program is tried; and one that does not start is not the answer."""
    at = Checkout(tmp_path, ENDS_AT_ONCE.encode())
    run = commands.quiet([at.path("las"), "laszip"], env={**at.without_rt(), "LAS_PROGRAM": "las-x86-64-v2"})
    assert (run.returncode, run.stderr.count(b"\n")) == (1, 1)
    assert not at.told.exists()


def installed(start, tmp_path, machine):
    """A run of `install` for a machine: on it, as `uname` says, or staged as packages are made on another one; and the
    folder below which it installs."""
    at = Checkout(tmp_path)
    if start == "staged":
        environment = {**os.environ, "DESTDIR": str(tmp_path / "stage"), "LAS_MACHINE": machine}
        return commands.quiet([at.path("install"), "/usr"], env=environment), tmp_path / "stage" / "usr"
    environment = {**os.environ, "PATH": f"{called(tmp_path / 'bin', machine)}:{os.environ['PATH']}"}
    return commands.quiet([at.path("install"), tmp_path / "usr"], env=environment), tmp_path / "usr"


@pytest.mark.parametrize("start", ["staged", "by uname"])
@pytest.mark.parametrize("machine, names", [
    (X86, {"las-x86-64-v2", "las-x86-64-v3", "las-x86-64-static"}), (ARM, {"las-aarch64", "las-aarch64-static"})])
def test_installed_for(tmp_path, machine, names, start):
    run, root = installed(start, tmp_path, machine)
    assert (run.returncode, run.stderr) == (0, b"")
    assert {path.name for path in (root / "libexec" / "las").iterdir()} == names
    assert (root / "lib" / "liblaz.a").exists()
    assert (root / "lib" / "glibc-hwcaps").exists() == (machine == X86)


@pytest.mark.parametrize("start", ["staged", "by uname"])
def test_installation_on_another_machine(tmp_path, start):
    run, root = installed(start, tmp_path, "riscv64")
    assert run.returncode == 1
    assert run.stderr == b"install: no program runs on riscv64: there are programs for Linux on x86_64 and aarch64\n"
    assert not root.exists()


@pytest.fixture
def small_system(tmp_path):
    """A root folder as Alpine's: busybox with its sh and tools, musl if it is here, and a clone of the project."""
    needs.root()
    busybox = needs.command("busybox", "busybox-static")
    if needs.runs("sh", "-c", f"ldd {busybox}"):
        needs.missing("busybox is not static", "busybox-static")
    root = tmp_path / "root"
    for name in ("bin", "dev", "tmp", "proc", "lib", "etc", "root"):
        (root / name).mkdir(parents=True)
    os.mknod(root / "dev" / "null", 0o666 | stat.S_IFCHR, os.makedev(1, 3))
    shutil.copy(busybox, root / "bin" / "busybox")
    for applet in commands.good([busybox, "--list"]).split():
        if applet != "busybox":
            (root / "bin" / applet).symlink_to("busybox")
    (root / "usr").symlink_to(".")
    musl = Path("/lib/x86_64-linux-musl/libc.so")
    if musl.exists():
        shutil.copy(musl, root / "lib" / "ld-musl-x86_64.so.1")
    data = commands.quiet(["git", "-C", TOP, "ls-files", "-coz", "--exclude-standard"]).stdout.split(b"\0")
    for name in data:
        path = TOP / os.fsdecode(name)
        if name and path.is_file() and not name.startswith((b"crates/tests_", b"docs/", b"fuzz/")):
            (root / "las" / path.relative_to(TOP)).parent.mkdir(parents=True, exist_ok=True)
            shutil.copy(path, root / "las" / path.relative_to(TOP))
    commands.good(["mount", "-t", "proc", "proc", root / "proc"])
    yield root
    commands.quiet(["umount", "-l", root / "proc"])


def ended_in(root, script):
    """A script of the shell of a root folder, run in it."""
    chroot = needs.command("chroot", "coreutils")
    return commands.quiet([chroot, root, "/bin/sh", "-ec", script], env={"PATH": "/bin", "HOME": "/root"})


def good_in(root, script):
    """What a script printed, which has to end with status 0 and without a line on standard error."""
    run = ended_in(root, script)
    assert (run.returncode, run.stderr) == (0, b""), (run.stdout + run.stderr).decode()
    return run.stdout.decode()


@pytest.mark.root
def test_alpines_layout(small_system):
    """First command, installation, the installed program and its removal, in busybox's sh and without glibc."""
    def inside(script):
        return good_in(small_system, script)

    assert inside("cd /las && ./las laszip -i examples/tile.laz -o /tmp/a.las && wc -c </tmp/a.las") == "574125\n"
    assert inside("cd /las && ./las --version").splitlines()[-1].endswith("/las-x86-64-static")
    inside("cd /las && ./install /opt/las && cp examples/tile.laz /tmp && mv /las /gone")
    inside("cd /tmp && /opt/las/bin/las laszip -i a.las -o b.laz -cores 2 && cmp b.laz tile.laz")
    assert inside("/opt/las/bin/las --version").splitlines()[-1].endswith("/las-x86-64-static")
    assert "usage: word 1" in ended_in(small_system, "/opt/las/bin/las laszip").stderr.decode()
    run = ended_in(small_system, "/opt/las/bin/las-batch laszip -odir /packed /tmp/a.las")
    assert (run.returncode, run.stderr.count(b"\n")) == (127, 1)
    assert "python3" in run.stderr.decode()
    inside("mv /gone /las && cd /las && ./install --remove /opt/las && test ! -e /opt/las")
    assert systems.LINKED[1] == "las-x86-64-static"


@pytest.mark.root
@pytest.mark.slow(seconds=5)
def test_archive_in_alpines_layout(small_system, tmp_path_factory):
    """The archive for x86_64 runs where busybox's tar has unpacked it, and needs nothing of a clone."""
    shutil.rmtree(small_system / "las")
    archives = made_by("tar", tmp_path_factory)
    name, = (name for name in archives if name.endswith("-linux-x86_64.tar.gz"))
    shutil.copy(archives[name], small_system / "tmp")
    shutil.copy(TOP / "examples" / "tile.laz", small_system / "tmp")
    las = f"/tmp/{name[:-len('.tar.gz')]}/bin/las"
    good_in(small_system, f"cd /tmp && tar -xzf {name} && {las} laszip -i tile.laz -o a.las")
    good_in(small_system, f"cd /tmp && {las} laszip -i a.las -o b.laz -cores 2 && cmp b.laz tile.laz")
    assert good_in(small_system, f"{las} --version").splitlines()[-1].endswith("/las-x86-64-static")
