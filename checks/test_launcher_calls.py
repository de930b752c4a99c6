"""Words, names, streams and the way that the launcher is called; a limit on file size; what a start takes."""
import os
import shutil
import subprocess
import time
from itertools import product
from pathlib import Path

import pytest

import commands
import needs
from checkouts import Checkout

WORDS = ["laszip", "a b", "", "'\"$x`y`\\", "line\nfeed", "*", "-o", "\udcff"]


@pytest.fixture
def checkout(tmp_path):
    return Checkout(tmp_path)


@pytest.fixture
def odd(checkout):
    """A folder of an odd name, with a link to a link to the launcher, and a copy of the checkout."""
    folder = checkout.folder / "odd ' \"\n=$x"
    (folder / "deep").mkdir(parents=True)
    os.symlink(checkout.path("las"), folder / "deep" / "link to las")
    os.symlink("link to las", folder / "deep" / "las")
    shutil.copytree(checkout.folder, folder / "a=b c", symlinks=True, ignore=shutil.ignore_patterns("odd*"))
    return folder


def ways(at, odd):
    """The ways to call the launcher: the word that names it, the folder, and what stands before PATH."""
    return {
        "by its path": (str(at.path("las")), None, ""),
        "by a symbolic link to a symbolic link": (str(odd / "deep" / "las"), None, ""),
        "in its own folder": ("./las", at.folder, ""),
        "by a path upwards": ("../../las", at.path("crates", "las"), ""),
        "by PATH": ("las", Path("/"), f"{at.folder}:"),
        "by an empty entry of PATH": ("las", at.folder, ":"),
        "in a folder of an odd name": (str(odd / "a=b c" / "las"), None, ""),
    }


WAYS = ["by its path", "by a symbolic link to a symbolic link", "in its own folder", "by a path upwards", "by PATH",
        "by an empty entry of PATH", "in a folder of an odd name"]


@pytest.mark.parametrize("start", ["first start", "second start"])
@pytest.mark.parametrize("way", WAYS)
def test_called(checkout, odd, way, start):
    program, folder, front = ways(checkout, odd)[way]
    environment = {**checkout.without_rt(), "CDPATH": f"{odd}:/:."}
    environment["PATH"] = front + environment["PATH"]
    line = [program, *WORDS]
    if "/" not in program:
        line = [shutil.which("sh"), "-c", 'program=$1; shift; exec "$program" "$@"', "sh", *line]
    for _ in range(2 if start == "second start" else 1):
        checkout.forget()
        run = commands.quiet(line, env=environment, cwd=folder)
    assert (run.returncode, run.stdout, run.stderr) == (0, b"", b"")
    wanted = "".join(f"[{word}]" for word in WORDS).encode(errors="surrogateescape")
    assert checkout.told.read_bytes().startswith(wanted + b" 0 1 2 xfsz ")


def with_closed(at, line, closed):
    """What the program tells if it is started with these streams closed."""
    at.forget()
    pid = os.fork()
    if pid == 0:
        try:
            null = os.open("/dev/null", os.O_RDWR)
            for stream in range(3):
                os.dup2(null, stream)
            os.closerange(3, 100)
            for stream in closed:
                os.close(stream)
            os.execve(line[0], line, at.without_rt())
        finally:
            os._exit(99)
    _, status = os.waitpid(pid, 0)
    assert status == 0
    return at.told.read_text()


@pytest.mark.parametrize("closed", [[stream for stream in range(3) if mask >> stream & 1] for mask in range(8)],
                         ids=lambda closed: "closed " + (" ".join(map(str, closed)) or "none"))
@pytest.mark.parametrize("shell", ["dash", "bash"])
def test_closed_streams_stay_closed(checkout, shell, closed):
    shell = needs.command(shell, shell)
    open_ones = "".join(f" {stream}" for stream in range(3) if stream not in closed)
    for _ in ("first start", "second start"):
        told = with_closed(checkout, [shell, str(checkout.path("las")), "lasinfo"], closed)
        assert told.startswith(f"[lasinfo]{open_ones} xfsz ")


def test_status_and_line_are_those_of_the_program(checkout):
    run, _ = checkout.start("laszip", environment={**checkout.without_rt(), "SAYS": "refused: a: 1 Short", "ENDS": "5"})
    assert (run.returncode, run.stdout, run.stderr) == (5, b"", b"refused: a: 1 Short\n")


def test_limit_on_file_size_is_a_write_fault(program, tmp_path):
    at = Checkout(tmp_path, Path(program).read_bytes())
    words = ["make", "-o", "m.las", "-z", "m.laz", "-points", "5000", "-seed", "1"]
    line = ["sh", "-c", 'ulimit -f 8; exec "$@"', "sh", at.path("las"), *words]
    # (the limit would hold for the program that is unpacked, too)
    commands.quiet([at.path("las"), "laszip"], cwd=tmp_path, env=at.without_rt())
    run = commands.quiet(line, cwd=tmp_path, env=at.without_rt())
    assert (run.returncode, run.stderr) == (4, b"write fault\n")


@pytest.mark.alone
def test_launcher_takes_at_most_10_ms(program, tmp_path, capsys):
    at = Checkout(tmp_path, Path(program).read_bytes())
    environment = at.without_rt()

    def took(path):
        start = time.perf_counter()
        subprocess.run([path, "laszip"], env=environment, stderr=subprocess.DEVNULL, check=False)
        return (time.perf_counter() - start) * 1000

    took(at.path("las"))
    # the least of many, in turns, since other work on the machine only adds to it
    bare, launched = [], []
    while not bare or (min(launched) - min(bare) > 10 and len(bare) < 400):
        for _, path in product(range(40), (program, at.path("las"))):
            (bare if path == program else launched).append(took(path))
    with capsys.disabled():
        print(f"\n  a start takes {min(launched):.1f} ms, of the program alone {min(bare):.1f} ms")
    assert min(launched) - min(bare) <= 10
