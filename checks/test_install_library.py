"""The installed library as a C program finds it: by pkg-config, by its static flags, by CMake; with a version in its
name; and what `install` asks and refuses.
"""
import os
import pty
import select
import subprocess
from pathlib import Path

import pytest

import needs
from install_trials import Trial
from programs import TOP

PREFIXES = ["prefix", "prefix with blanks"]


@pytest.fixture(params=[pytest.param(it, marks=() if " " in it else pytest.mark.huge) for it in PREFIXES])
def trial(tmp_path: Path, request: pytest.FixtureRequest) -> Trial:
    needs.command("cc", "gcc libc6-dev")
    it = Trial(tmp_path, tmp_path / request.param)
    it.real_libraries()
    return it


@pytest.fixture
def small(tmp_path: Path) -> Trial:
    return Trial(tmp_path)


def shell(trial: Trial, script: str) -> "subprocess.CompletedProcess[bytes]":
    """A script that knows the prefix, the source of `heights` and the packed sample."""
    environment = {name: kept for name, kept in os.environ.items() if name != "LD_LIBRARY_PATH"}
    environment.update(P=str(trial.prefix), HEIGHTS=str(TOP / "c" / "heights.c"),
                       TILE=str(TOP / "examples" / "tile.laz"), PKG_CONFIG_PATH=str(trial.prefix / "lib" / "pkgconfig"))
    return subprocess.run(["sh", "-euc", script], env=environment, cwd=trial.temporary, stdin=subprocess.DEVNULL,
                          stdout=subprocess.PIPE, stderr=subprocess.PIPE, timeout=120, check=False)


def with_soname(trial: Trial, soname: str) -> None:
    """Makes the released shared libraries ones of this name, linked out of the released archive."""
    import gzip
    import hashlib
    needs.command("ld", "binutils")
    release = trial.folder / "release"
    archive = trial.temporary / "liblaz.a"
    archive.write_bytes(gzip.decompress((release / "liblaz.a.gz").read_bytes()))
    libc = subprocess.check_output(["cc", "-print-file-name=libc.so.6"]).decode().strip()
    made = trial.temporary / "liblaz.so"
    subprocess.run(["ld", "-shared", "-soname", soname, "--whole-archive", str(archive), "--no-whole-archive",
                    libc, "-o", str(made)], check=True)
    data = made.read_bytes()
    lines = [line for line in (release / "BUILT_FROM").read_text().splitlines() if not line.split()[0].endswith(".so")]
    for name in ("liblaz.so", "liblaz-x86-64-v3.so"):
        (release / f"{name}.gz").write_bytes(gzip.compress(data))
        lines.append(f"{name} {hashlib.sha256(data).hexdigest()}")
    (release / "BUILT_FROM").write_text("".join(line + "\n" for line in lines))


def prints_heights(done: "subprocess.CompletedProcess[bytes]") -> None:
    assert done.returncode == 0, done.stderr.decode()
    assert done.stdout.startswith(b"points 20493\nraw z "), done.stdout


def test_a_program_linked_by_pkg_config_starts(trial: Trial) -> None:
    needs.command("pkg-config", "pkg-config")
    assert trial.install().returncode == 0
    prints_heights(shell(trial, 'eval cc -O1 \\"\\$HEIGHTS\\" "$(pkg-config --cflags --libs liblaz)" -o shared\n'
                                './shared "$TILE"'))


def test_a_program_linked_by_the_static_flags_needs_no_library(trial: Trial) -> None:
    needs.command("pkg-config", "pkg-config")
    assert trial.install().returncode == 0
    done = shell(trial, 'flags=$(pkg-config --static --cflags --libs liblaz)\n'
                        'eval cc -O1 -static \\"\\$HEIGHTS\\" "$flags" -o static\n'
                        'mv "$P" "$P.away"; ./static "$TILE"')
    prints_heights(done)


@pytest.mark.parametrize("target", ["laz::laz", pytest.param("laz::laz_static", marks=pytest.mark.slow(seconds=2))])
def test_a_program_built_by_cmake_starts(trial: Trial, target: str) -> None:
    needs.command("cmake", "cmake")
    needs.command("make", "make")
    assert trial.install().returncode == 0
    project = trial.temporary / "project"
    project.mkdir()
    (project / "heights.c").write_bytes((TOP / "c" / "heights.c").read_bytes())
    (project / "CMakeLists.txt").write_text(
        "cmake_minimum_required(VERSION 3.10)\nproject(heights C)\nfind_package(laz 1 REQUIRED)\n"
        f"add_executable(heights heights.c)\ntarget_link_libraries(heights PRIVATE {target})\n")
    prints_heights(shell(trial, 'quietly() { "$@" >log 2>&1 || { cat log >&2; exit 1; }; }\n'
                                'quietly cmake -S project -B built -DCMAKE_PREFIX_PATH="$P"\n'
                                'quietly cmake --build built\nbuilt/heights "$TILE"'))


def test_cmake_refuses_another_first_number(trial: Trial) -> None:
    needs.command("cmake", "cmake")
    assert trial.install().returncode == 0
    project = trial.temporary / "project"
    project.mkdir()
    (project / "CMakeLists.txt").write_text(
        "cmake_minimum_required(VERSION 3.10)\nproject(heights C)\nfind_package(laz 2 REQUIRED)\n")
    done = shell(trial, 'cmake -S project -B built -DCMAKE_PREFIX_PATH="$P"')
    assert done.returncode != 0
    assert b'requested version "2"' in done.stderr.replace(b"\n", b" ")


@pytest.mark.parametrize("folder", ["lib", "lib/glibc-hwcaps/x86-64-v3"])
def test_a_library_with_a_version_in_its_name_gets_its_links(trial: Trial, folder: str) -> None:
    with_soname(trial, "liblaz.so.1")
    assert trial.install().returncode == 0
    version = (TOP / "help" / "version").read_text().strip()
    there = trial.prefix / folder
    assert os.readlink(there / "liblaz.so") == "liblaz.so.1"
    assert os.readlink(there / "liblaz.so.1") == f"liblaz.so.{version}"
    assert (there / f"liblaz.so.{version}").is_file()
    assert trial.install("--remove").returncode == 0
    assert not trial.prefix.exists()


def test_a_program_linked_to_a_library_with_a_version_starts(trial: Trial) -> None:
    needs.command("pkg-config", "pkg-config")
    with_soname(trial, "liblaz.so.1")
    assert trial.install().returncode == 0
    prints_heights(shell(trial, 'eval cc -O1 \\"\\$HEIGHTS\\" "$(pkg-config --cflags --libs liblaz)" -o shared\n'
                                './shared "$TILE"'))


def test_a_library_of_the_older_name_makes_way_for_one_with_links(trial: Trial) -> None:
    with_soname(trial, "liblaz.so")
    assert trial.install().returncode == 0
    assert not (trial.prefix / "lib" / "liblaz.so").is_symlink()
    with_soname(trial, "liblaz.so.1")
    assert trial.install().returncode == 0
    assert os.readlink(trial.prefix / "lib" / "liblaz.so") == "liblaz.so.1"


@pytest.mark.parametrize("place", ["/usr", "/opt/laz"])
def test_the_loader_is_told_where_it_does_not_look(small: Trial, place: str) -> None:
    """Staged for a package: below /usr nothing is noted in programs, elsewhere the folder is."""
    stage = small.temporary / "stage"
    done = small.run(str(small.folder / "install"), place, DESTDIR=str(stage))
    assert done.returncode == 0, done.stderr
    text = (stage / place[1:] / "lib" / "pkgconfig" / "liblaz.pc").read_text()
    assert ("-rpath" in text) == (place != "/usr")
    assert f"prefix={place}\n" in text


@pytest.mark.parametrize("odd", ['a"b', "a$b", "a\\b", "a;b", "a:b", "a,b", "a#b", "a\nb", "a`b"])
def test_a_prefix_that_the_files_of_the_library_cannot_carry_is_refused(small: Trial, odd: str) -> None:
    done = small.run(str(small.folder / "install"), str(small.temporary / odd))
    assert done.returncode == 1
    assert b"PREFIX has one of the characters" in done.stderr
    assert os.listdir(small.temporary) == []


def test_a_link_that_stands_in_the_place_of_a_file_is_not_followed(small: Trial) -> None:
    (small.prefix / "bin").mkdir(parents=True)
    other = small.temporary / "other"
    other.write_bytes(b"other")
    (small.prefix / "bin" / "las").symlink_to(other)
    done = small.install()
    assert done.returncode == 1
    assert b"is there already" in done.stderr
    assert other.read_bytes() == b"other"
    assert set(small.tree()) == {"bin", "bin/las"}


def test_a_link_put_in_the_place_of_an_installed_file_stays(small: Trial) -> None:
    assert small.install().returncode == 0
    other = small.temporary / "other"
    other.write_bytes((small.prefix / "bin" / "las").read_bytes())
    (small.prefix / "bin" / "las").unlink()
    (small.prefix / "bin" / "las").symlink_to(other)
    done = small.install("--remove")
    assert b"was changed after it was installed, and stays" in done.stderr
    assert set(small.tree()) == {"bin", "bin/las"}
    assert other.exists()


def test_a_changed_file_is_not_written_over(small: Trial) -> None:
    assert small.install().returncode == 0
    (small.prefix / "share" / "las" / "help" / "options").write_bytes(b"mine")
    before = small.tree()
    small.release(2)
    done = small.install()
    assert done.returncode == 1
    assert b"help/options was changed after it was installed; move it away first" in done.stderr
    assert small.tree() == before


def test_a_file_that_an_older_release_had_goes(small: Trial) -> None:
    (small.folder / "help" / "commands" / "older").write_bytes(b"older")
    assert small.install().returncode == 0
    (small.folder / "help" / "commands" / "older").unlink()
    assert small.install().returncode == 0
    assert not (small.prefix / "share" / "las" / "help" / "commands" / "older").exists()


def test_a_second_install_at_the_same_time_is_refused(small: Trial) -> None:
    needs.command("flock", "util-linux")
    assert small.install().returncode == 0
    before = small.tree()
    small.release(2)
    with subprocess.Popen(["flock", str(small.prefix / "share" / "las"), "sleep", "30"]) as holder:
        try:
            taken = ["flock", "-n", str(small.prefix / "share" / "las"), "true"]
            while subprocess.run(taken, check=False).returncode == 0:
                pass
            done = small.install()
        finally:
            holder.kill()
    assert done.returncode == 1
    assert b"another install is at work" in done.stderr
    assert small.tree() == before


def asked(trial: Trial, typed: bytes, *words: str) -> "tuple[int, bytes]":
    """Runs `install` on a terminal, types a line, and answers the status and what the terminal shows."""
    pid, terminal = pty.fork()
    if pid == 0:
        os.environ.update(HOME=str(trial.folder / "home"), TMPDIR=str(trial.temporary))
        os.execv(str(trial.folder / "install"), ["install", *words])
    shown = b""
    while select.select([terminal], [], [], 60)[0]:
        try:
            part = os.read(terminal, 4096)
        except OSError:
            break
        if b"folder? " not in shown and b"folder? " in shown + part:
            os.write(terminal, typed)
        shown += part
    _, status = os.waitpid(pid, 0)
    os.close(terminal)
    return os.waitstatus_to_exitcode(status), shown


def test_on_a_terminal_it_asks_for_the_folder(small: Trial) -> None:
    status, shown = asked(small, f"{small.prefix}\n".encode())
    assert (status, b"Install below which folder? [" in shown) == (0, True)
    assert (small.prefix / "bin" / "las").is_file()
    status, shown = asked(small, f"{small.prefix}\n".encode(), "--remove")
    assert (status, b"Remove from which folder? [" in shown) == (0, True)
    assert not small.prefix.exists()


def test_a_home_folder_may_be_named_as_in_a_shell(small: Trial) -> None:
    (small.folder / "home").mkdir()
    assert asked(small, b"~/.local\n")[0] == 0
    assert (small.folder / "home" / ".local" / "bin" / "las").is_file()


def test_no_answer_installs_nothing(small: Trial) -> None:
    status, shown = asked(small, b"\x04")
    assert status == 1
    assert b"nothing was changed" in shown


def names_below(folder: Path, pattern: str) -> "list[str]":
    return sorted(path.name for path in folder.glob(pattern))


def test_all_that_las_batch_needs_is_installed(small: Trial) -> None:
    assert small.install().returncode == 0
    assert names_below(small.prefix / "share" / "las" / "batch", "*") == names_below(TOP / "batch", "*.py")


def test_pages_and_completions_are_installed(small: Trial) -> None:
    assert small.install().returncode == 0
    share = small.prefix / "share"
    assert names_below(share / "man" / "man1", "*") == ["las-batch.1", "las.1"]
    for name in ("bash-completion/completions/las", "zsh/site-functions/_las", "fish/vendor_completions.d/las.fish"):
        assert (share / name).is_file(), name


def test_the_help_of_each_page_is_there_when_it_is_installed(small: Trial) -> None:
    """The launcher reads files of help by name: each of these is installed."""
    assert small.install().returncode == 0
    text = "".join(path.read_text() for path in [TOP / "las", *(TOP / "help").glob("*.sh")])
    read = {name for name in names_below(TOP / "help", "*") if f"$help/{name}" in text}
    assert {"help.sh", "hints.sh", "outputs.sh", "progress.sh", "render.awk", "version", "batch"} <= read
    assert read <= set(names_below(small.prefix / "share" / "las" / "help", "*"))
