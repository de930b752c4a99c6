"""Which program the launcher runs, as sources, builds and releases come and go, and where it keeps what it unpacks."""
import gzip
import os
import resource
import shutil
import subprocess
import tempfile

import pytest

import checkouts
import commands
import needs
from checkouts import TELLER, Checkout, sum_of

FIRST = "pub fn one() {}\n"


@pytest.fixture
def checkout(tmp_path):
    return Checkout(tmp_path)


def fresh(at):
    pass


def other_build(at):
    at.own()


def changed_source(at):
    at.ran("laszip")
    at.source().write_text("pub fn two() {}\n")


def changed_back(at):
    changed_source(at)
    at.ran("laszip")
    at.source().write_text(FIRST)


def added_source(at):
    at.ran("laszip")
    at.source("las", "more.rt").write_text("")


def other_name(at):
    at.ran("laszip")
    at.source("las").rename(at.source("las", "main.rt"))


def name_again(at):
    other_name(at)
    at.ran("laszip")
    at.source("las", "main.rt").rename(at.source("las"))


def old_time(at):
    at.ran("laszip")
    old = at.source().stat()
    at.source().write_text("pub fn abc() {}\n")
    os.utime(at.source(), ns=(old.st_atime_ns, old.st_mtime_ns))


def other_file(at):
    at.ran("laszip")
    old, new = at.source(), at.path("new.rt")
    new.write_text("pub fn abc() {}\n")
    os.utime(new, ns=(old.stat().st_atime_ns, old.stat().st_mtime_ns))
    new.rename(old)


def link_to_another(at):
    at.path("one.rt").write_text(FIRST)
    at.source().unlink()
    at.source().symlink_to(at.path("one.rt"))
    at.ran("laszip")
    at.path("one.rt").write_text("pub fn abc() {}\n")


def added_folder(at):
    at.ran("laszip")
    at.path("crates", "las", "src", "more").mkdir()
    at.path("crates", "las", "src", "more", "lib.rt").write_text("")


def removed_source(at):
    at.source("las", "more.rt").write_text("")
    at.ran("laszip")
    at.source("las", "more.rt").unlink()


def other_folder(at):
    at.ran("laszip")
    at.path("crates", "low").rename(at.path("old"))
    shutil.copytree(at.path("old"), at.path("crates", "low"))
    at.source().write_text("pub fn abc() {}\n")


def other_crate(at):
    at.ran("laszip")
    at.source("other").write_text("fn main() { }\n")


def built(at):
    at.source().write_text("pub fn three() {}\n")
    assert at.ran("laszip", environment=at.with_rt())[0] == "own"


def built_earlier(at):
    built(at)
    at.source().write_text("pub fn four() {}\n")


def released_again(at):
    built_earlier(at)
    at.ran("laszip")
    at.release()


def stamped(at):
    released_again(at)
    own = at.path("crates", "las", "out", "las")
    own.with_name("las.stamp").write_text("0" * 64 + sum_of(own.read_bytes()))


def stamp_of_another(at):
    stamped(at)
    assert at.ran("laszip")[0] == "own"
    at.path("crates", "las", "out", "las.stamp").write_text("0" * 64 + sum_of(TELLER.encode() + b"x"))


def old_stamp(at):
    stamped(at)
    at.source().write_text("pub fn five() {}\n")
    os.utime(at.path("crates", "las", "out", "las.stamp"), ns=(1, 1))


# what it shows: how the checkout comes there, and the program that has to run
STATES = {
    "a fresh clone runs the released program": (fresh, "released"),
    "beside a build of which nothing is noted": (other_build, "released"),
    "a changed source: without rt nothing runs": (changed_source, None),
    "a source that is changed back: the release again": (changed_back, "released"),
    "an added source": (added_source, None),
    "a source of another name": (other_name, None),
    "a source that has its name again": (name_again, "released"),
    "a changed source with its old time": (old_time, None),
    "another file in the place of a source, of its time and size": (other_file, None),
    "a changed source that is named by a link": (link_to_another, None),
    "an added folder of sources": (added_folder, None),
    "a source that is removed: the release again": (removed_source, "released"),
    "another folder in the place of a crate": (other_folder, None),
    "a changed source of a crate that the program does not stand on": (other_crate, "released"),
    "a build runs without rt": (built, "own"),
    "a build that is older than a source": (built_earlier, None),
    "a release of the changed source": (released_again, "released"),
    "a build that rt run has stamped": (stamped, "own"),
    "a stamp of another program": (stamp_of_another, "released"),
    "a stamp that is older than a source": (old_stamp, None),
}


@pytest.mark.parametrize("state", STATES)
def test_program_that_runs(checkout, state):
    make, wanted = STATES[state]
    make(checkout)
    for start in ("first", "second"):
        found, said = checkout.ran("laszip")
        assert found == wanted, (start, said)


@pytest.mark.parametrize("start", ["first start", "second start"])
def test_changed_source_is_built_with_rt(checkout, start):
    changed_source(checkout)
    found, said = checkout.ran("laszip", environment=checkout.with_rt())
    if start == "second start":
        found, said = checkout.ran("laszip", environment=checkout.with_rt())
        assert said == ""
    assert found == "own"
    assert checkout.builds.read_text() == "built\n"


@pytest.mark.parametrize("damage", [
    lambda stamp: b"", lambda stamp: bytes(len(stamp)), lambda stamp: stamp[:len(stamp) // 2], lambda stamp: stamp[:20],
    lambda stamp: stamp.splitlines(True)[0], lambda stamp: stamp[:stamp.index(b" && held=")],
    lambda stamp: stamp + b"(", lambda stamp: stamp.replace(b"program='release/out/las", b"program='release/out/gone"),
    lambda stamp: b"return 3\n" + stamp, lambda stamp: stamp.replace(b" = '1", b" = '2"),
    lambda stamp: stamp.replace(b"low/src/lib.rt ", b"")],
    ids=["empty", "zeros", "half of it", "its first bytes", "its first line", "without its end", "a word too many",
         "a program that is not there", "words that end it", "other times", "without a source"])
def test_stamp_that_is_damaged_is_passed_over(checkout, damage):
    assert checkout.ran("laszip") == ("released", "")
    stamp = checkout.path("release", "out", "stamp.sh")
    whole = stamp.read_bytes()
    assert b" = '1" in whole and b" low/src/lib.rt " in whole and b" other/" not in whole
    stamp.write_bytes(damage(whole))
    assert [checkout.ran("laszip") for _ in range(2)] == [("released", "")] * 2
    checkout.source().write_text("pub fn two() {}\n")
    stamp.write_bytes(damage(whole))
    assert checkout.ran("laszip")[0] is None


def test_stamp_of_an_older_launcher_is_not_run(checkout):
    """It has another name, and was no words of the shell: its first line was the path of the program."""
    assert checkout.ran("laszip") == ("released", "")
    checkout.path("release", "out", "stamp").write_text(": >ran\nboot\ncrates.txt f 1 2 3 4 5\n")
    assert checkout.ran("laszip") == ("released", "")
    assert not checkout.path("ran").exists()


@pytest.mark.parametrize("name", ["a b.rt", "it's.rt", "'.rt", "$x`y`.rt", "a\\nb.rt", "ä.rt", "\udcff.rt", "-L", "~"])
def test_source_of_an_odd_name_is_watched(checkout, name):
    checkout.source(name=name).write_text("pub fn one() {}\n")
    checkout.release()
    assert [checkout.ran("laszip") for _ in range(2)] == [("released", "")] * 2
    assert b"held=1" in checkout.path("release", "out", "stamp.sh").read_bytes()
    checkout.source(name=name).write_text("pub fn two() {}\n")
    assert checkout.ran("laszip")[0] is None


def test_build_says_how_far_it_is(checkout):
    changed_source(checkout)
    _, said = checkout.ran("laszip", environment=checkout.with_rt())
    for part in ("90 minutes", "las: proving low (crate 1 of 2)", "las: proving las (crate 2 of 2)"):
        assert part in said


def test_build_of_which_nothing_is_noted_is_passed_over_silently(checkout):
    other_build(checkout)
    assert [checkout.ran("laszip") for _ in range(2)] == [("released", "")] * 2


@pytest.fixture
def read_only():
    """A checkout that can't be written, the environment of a user who has a cache, and how the user is become."""
    with tempfile.TemporaryDirectory() as name:
        os.chmod(name, 0o777)
        folder = os.path.join(name, "nobody")
        os.mkdir(folder)
        os.chmod(folder, 0o777)
        at = Checkout(commands.Path(name))
        environment = {**at.without_rt(), "XDG_CACHE_HOME": folder, "TMPDIR": folder}
        subprocess.run(["chmod", "-R", "a-w", at.path("release"), at.path("crates")], check=True)
        yield at, environment, {"preexec_fn": commands.become_nobody} if os.getuid() == 0 else {}
        subprocess.run(["chmod", "-R", "u+w", at.folder], check=True)


def test_checkout_that_cannot_be_written_keeps_the_program_in_the_cache(read_only):
    at, environment, user = read_only
    assert [at.ran("laszip", environment=environment, **user) for _ in range(2)] == [("kept", "")] * 2


def test_no_place_that_can_be_written(read_only):
    at, environment, user = read_only
    temporary = environment["TMPDIR"]
    run, told = at.start("laszip", "a b", environment={**environment, "XDG_CACHE_HOME": "/proc/none", "ENDS": "5"},
                         **user)
    assert run.returncode == 5
    assert told.startswith("[laszip][a b] 0 1 2 xfsz")
    assert os.listdir(temporary) == []


@pytest.mark.parametrize("shell", ["dash", "bash"])
def test_stamp_that_cannot_be_written_is_not_spoken_of(checkout, shell):
    shell = needs.command(shell, shell)
    assert checkout.ran("laszip") == ("released", "")
    out = checkout.path("release", "out")
    stamp = out / "stamp.sh"
    size = stamp.stat().st_size
    stamp.unlink()
    checkout.forget()
    # a limit under which the program can tell how it was started, and no stamp is whole
    run = commands.quiet([shell, checkout.path("las"), "laszip"], env=checkout.without_rt(),
                         preexec_fn=lambda: resource.setrlimit(resource.RLIMIT_FSIZE, (size - 1, size - 1)))
    assert (run.returncode, run.stderr) == (0, b"")
    assert checkout.told.read_text().startswith("[laszip]")
    assert not stamp.exists()
    assert [path.name for path in out.iterdir() if path.name.startswith(".")] == []


def test_twelve_first_starts_at_once(checkout):
    line = [checkout.path("las"), "laszip"]
    starts = [subprocess.Popen(line, env=checkout.without_rt(), stderr=subprocess.PIPE) for _ in range(12)]
    ends = [(it.communicate()[1], it.returncode) for it in starts]
    assert ends == [(b"", 0)] * 12
    assert [name for name in os.listdir(checkout.path("release", "out")) if name.startswith(".")] == []


def test_unpacked_program_that_was_damaged_is_unpacked_again(checkout):
    for name in checkouts.PROGRAMS:
        assert checkout.ran("laszip") == ("released", "")
        place = checkout.path("release", "out", name)
        if place.exists():
            place.write_bytes(b"damaged")
    assert checkout.ran("laszip") == ("released", "")


@pytest.fixture
def other_release(checkout):
    """A checkout with a release that does not unpack to what it says."""
    checkout.ran("laszip")
    shutil.rmtree(checkout.path("release", "out"))
    for name in checkouts.PROGRAMS:
        checkout.path("release", f"{name}.gz").write_bytes(gzip.compress(b"#!/bin/sh\necho other\n"))
    return checkout


def test_release_that_is_not_the_one_it_says(other_release):
    found, said = other_release.ran("laszip")
    assert found is None
    assert "no released program could be unpacked and started" in said


def test_release_that_is_not_the_one_it_says_is_built_instead(other_release):
    found, said = other_release.ran("laszip", environment=other_release.with_rt())
    assert found == "own", said


def test_checkout_without_the_program_s_crate_ends(checkout):
    """It says what is missing, and looks for no folder for ever."""
    shutil.rmtree(checkout.path("crates", "las"))
    run = commands.quiet([checkout.path("las"), "laszip"], env=checkout.without_rt(), timeout=20)
    assert run.returncode != 0 and b"las: " in run.stderr
