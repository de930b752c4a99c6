"""Manifests, bags, the trash, times, counts by cause, odd names, and drafts that are cleaned."""
import fcntl
import hashlib
import os
import subprocess
import time

import pytest

import needs
import programs
from batch_places import Tiles, wait_until
from batch_tiles import ODD, ended
from batch_trials import faults_library


@pytest.fixture
def tiles(program, tmp_path):
    needs.command("parallel", "parallel")
    return Tiles(tmp_path, program)


def checked(tiles, name):
    return subprocess.run(["sha256sum", "--strict", "-c", name], cwd=tiles.folder, stdout=subprocess.PIPE,
                          stderr=subprocess.PIPE, check=False)


@pytest.mark.parametrize("words", [[], ["-verify"]], ids=" ".join)
def test_a_manifest_is_one_of_sha256sum_and_so_is_that_of_the_plain_bytes(tiles, words):
    plain = {name: tiles.make(f"tiles/{name}", 100, at) for at, name in enumerate(ODD)}
    ended(tiles.batch("laszip", "-odir", "out", "-manifest", "sums", *words, "-r", "tiles"), 0, b"7 done")
    run = checked(tiles, "sums")
    assert (run.returncode, run.stdout.count(b": OK")) == (0, 7), run.stderr
    for name, data in plain.items():
        tiles.path(f"out/{name}").write_bytes(data)
    run = checked(tiles, "sums.plain")
    assert (run.returncode, run.stdout.count(b": OK")) == (0, 7), run.stderr


def test_a_manifest_has_what_stays_too_and_what_las2las_packed(tiles):
    tiles.make_all(3)
    tiles.batch("laszip", "-odir", "out", "tiles/000.las")
    ended(tiles.batch("laszip", "-odir", "out", "-manifest", "sums", "-r", "tiles"), 0, b"2 done")
    assert checked(tiles, "sums").stdout.count(b": OK") == 3
    assert len(tiles.path("sums.plain").read_bytes().splitlines()) == 3
    words = ["las2las", "-odir", "kept", "-manifest", "kept_sums", "-olaz", "-keep_class", "1", "--", "tiles/000.las"]
    ended(tiles.batch(*words), 0)
    subprocess.run([tiles.program, "laszip", "-i", "kept/000.laz", "-o", "kept/000.las"], cwd=tiles.folder, check=True)
    assert checked(tiles, "kept_sums.plain").returncode == 0


def test_no_manifest_is_written_over_another_file(tiles):
    tiles.make("tiles/a.las")
    tiles.path("notes").write_bytes(b"a line\n")
    ended(tiles.batch("laszip", "-odir", "out", "-manifest", "notes", "tiles/a.las"), 2)
    assert tiles.path("notes").read_bytes() == b"a line\n"


@pytest.fixture
def archive(tiles):
    """An archive of four outputs, two with odd names, and its manifest."""
    for at, name in enumerate(["a.las", "b.las", *ODD[2:4]]):
        tiles.make(f"tiles/{name}", 500, at)
    ended(tiles.batch("laszip", "-odir", "out", "-manifest", "sums", "-r", "tiles"), 0)
    return tiles


def test_verify_reads_all_back(archive):
    run = archive.batch("verify", "-manifest", "sums")
    assert (run.returncode, run.stdout) == (0, b"las-batch: 4 as they were, 0 lost, 0 changed, 0 new\n")


def test_verify_finds_what_is_lost_changed_and_new(archive):
    archive.path("out/a.laz").unlink()
    with open(archive.path("out/b.laz"), "r+b") as file:
        file.seek(500)
        byte = file.read(1)
        file.seek(500)
        file.write(bytes([byte[0] ^ 1]))
    archive.path("out/new.laz").write_bytes(b"x")
    run = archive.batch("verify", "-manifest", "sums")
    assert run.returncode == 1
    assert run.stdout.splitlines() == [b"lost        out/a.laz", b"changed     out/b.laz", b"new         out/new.laz",
                                       b"las-batch: 2 as they were, 1 lost, 1 changed, 1 new"]


def packed_anew(archive, name):
    """Packs an output again in chunks of another size: other bytes, the same points."""
    line = [archive.program, "laszip", "-i", f"tiles/{name}.las", "-o", f"out/{name}.laz", "-chunk_size", "300"]
    subprocess.run(line, cwd=archive.folder, check=True)


def test_verify_tells_a_file_that_was_packed_anew_from_a_damaged_one(archive):
    packed_anew(archive, "a")
    archive.path("out/b.laz").write_bytes(b"LASF, but no more")
    run = archive.batch("verify", "-manifest", "sums")
    assert run.returncode == 1
    assert run.stdout.splitlines() == [
        b"changed     out/b.laz", b"packed anew out/a.laz: the same plain bytes",
        b"las-batch: 2 as they were, 1 packed anew, 0 lost, 1 changed, 0 new"]
    assert archive.parts() == []


def test_verify_is_content_with_files_that_were_packed_anew(archive):
    packed_anew(archive, "a")
    assert archive.batch("verify", "-manifest", "sums").returncode == 0


def test_a_file_of_other_points_is_not_packed_anew(archive):
    archive.make("tiles/a.las", 500, seed=77)
    packed_anew(archive, "a")
    run = archive.batch("verify", "-manifest", "sums")
    assert (run.returncode, run.stdout.splitlines()[0]) == (1, b"changed     out/a.laz")


def test_verify_without_the_plain_sums_compares_what_is_packed_alone(archive):
    packed_anew(archive, "a")
    archive.path("sums.plain").unlink()
    run = archive.batch("verify", "-manifest", "sums")
    assert (run.returncode, run.stdout.splitlines()[0]) == (1, b"changed     out/a.laz")


def test_verify_says_where_the_plain_bytes_of_a_lost_file_are(archive):
    for name in "a", "b":
        archive.path(f"out/{name}.laz").unlink()
    archive.path("out/a.las").write_bytes(archive.path("tiles/a.las").read_bytes())
    archive.path("out/b.las").write_bytes(archive.path("tiles/a.las").read_bytes())
    run = archive.batch("verify", "-manifest", "sums")
    assert run.returncode == 1
    assert run.stdout.splitlines()[:2] == [b"lost        out/a.laz: out/a.las has its plain bytes",
                                           b"lost        out/b.laz"]


def started(archive):
    """A program that notes each of its starts, and the starts."""
    las = archive.command("las", f'echo "$1" >>{archive.path("starts")}\nexec {archive.program} "$@"')
    return str(las), lambda: archive.path("starts").read_text().split().count("laszip")


def test_verify_unpacks_a_file_that_is_as_it_was_only_if_that_is_asked_for(archive):
    las, starts = started(archive)
    archive.path("starts").touch()
    ended(archive.batch("verify", "-manifest", "sums", las=las), 0)
    assert starts() == 0
    ended(archive.batch("verify", "-unpack", "-manifest", "sums", las=las), 0)
    assert starts() == 4
    assert archive.parts() == []


def test_verify_unpack_finds_a_program_that_unpacks_something_else(archive):
    las = archive.command("las", f'[ "$1" != --version ] || exit 1\n{archive.program} "$@" || exit\n'
                          'case $3 in out/a.laz) printf x | dd of="$5" bs=1 seek=340 conv=notrunc status=none;; esac')
    run = archive.batch("verify", "-unpack", "-manifest", "sums", las=str(las))
    assert (run.returncode, run.stdout.splitlines()) == (1, [
        b"changed     out/a.laz: it unpacks to other bytes than those of sums.plain",
        b"las-batch: 3 as they were, 0 lost, 1 changed, 0 new"])


def test_verify_unpack_where_it_can_not_be_done_is_not_read(archive):
    las = archive.command("las", f'[ "$3" != out/a.laz ] || {{ echo "write fault: $5" >&2; exit 4; }}\n'
                          f'exec {archive.program} "$@"')
    run = archive.batch("verify", "-unpack", "-manifest", "sums", las=str(las))
    assert (run.returncode, run.stdout.splitlines()[-1]) == (
        1, b"las-batch: 3 as they were, 0 lost, 0 changed, 1 not read, 0 new")
    assert run.stdout.startswith(b"not read    out/a.laz: write fault: ")


def test_verify_unpack_without_the_plain_sums(archive):
    archive.path("sums.plain").unlink()
    ended(archive.batch("verify", "-unpack", "-manifest", "sums"), 2, b"sums.plain")


def test_verify_of_plain_sums_that_are_none(archive):
    archive.path("sums.plain").write_bytes(b"a line\n")
    ended(archive.batch("verify", "-manifest", "sums"), 2, b"sums.plain")


@pytest.mark.root
def test_verify_in_a_folder_that_can_not_be_written(archive):
    """As an archive on a disk that is mounted to be read: what is unpacked lies in TMPDIR."""
    packed_anew(archive, "a")
    archive.path("tmp").mkdir()
    line = ('mount --bind "$0" "$0" && mount -o remount,bind,ro "$0" && mount -t tmpfs none "$0/tmp" && cd "$0" && '
            'exec "$@"')
    environment = dict(os.environ, LAS=archive.program, TMPDIR=str(archive.path("tmp")))
    run = subprocess.run(["unshare", "-m", "sh", "-c", line, archive.folder, programs.BATCH, "verify", "-manifest",
                          archive.path("sums")], cwd=archive.folder, env=environment, stdout=subprocess.PIPE,
                         stderr=subprocess.PIPE, check=False)
    assert (run.returncode, b"1 packed anew" in run.stdout) == (0, True), run.stderr


def test_verify_of_what_is_no_manifest(archive):
    ended(archive.batch("verify", "-manifest", "out/a.laz"), 2, b"is none of a manifest")
    ended(archive.batch("verify", "-manifest", "none"), 2, b"can't be read")


def test_manifests_of_an_archive_that_is_there(archive):
    archive.path("out/plain.las").write_bytes(archive.path("tiles/a.las").read_bytes())
    run = archive.batch("manifest", "-r", "out", "-manifest", "again")
    ended(run, 0, b"5 in the manifest, 0 not")
    assert checked(archive, "again").stdout.count(b": OK") == 5
    assert archive.path("again.plain").read_bytes() == archive.path("sums.plain").read_bytes()
    assert archive.parts() == []


def test_a_damaged_file_of_an_archive_is_said(archive):
    archive.path("out/b.laz").write_bytes(b"LASF, but no more")
    ended(archive.batch("manifest", "-r", "out", "-manifest", "again"), 1, b"3 in the manifest, 1 not")


def test_a_bag(tiles):
    for at, name in enumerate(["a.las", "100%.las", "line\nfeed.las"]):
        tiles.make(f"tiles/sub/{name}", 100, at)
    ended(tiles.batch("laszip", "-odir", "out", "-bag", "-r", "tiles"), 0, b"3 done")
    out = tiles.path("out")
    files = {path: path.read_bytes() for path in (out / "data").rglob("*.laz")}
    assert (out / "bagit.txt").read_bytes() == b"BagIt-Version: 1.0\nTag-File-Character-Encoding: UTF-8\n"
    info = (out / "bag-info.txt").read_text()
    assert f"Payload-Oxum: {sum(map(len, files.values()))}.3\n" in info
    for manifest, wanted in (("manifest-sha256.txt", set(files)),
                             ("tagmanifest-sha256.txt", {out / name for name in ("bagit.txt", "bag-info.txt",
                                                                                 "manifest-sha256.txt")})):
        found = {}
        for line in (out / manifest).read_text().splitlines():
            total, _, name = line.partition("  ")
            found[out / name.replace("%0A", "\n").replace("%25", "%")] = total
        assert found == {path: hashlib.sha256(path.read_bytes()).hexdigest() for path in wanted}


def names_in_bag(out):
    """The names that the manifest of a bag has, and those of the files below its folder `data`."""
    lines = (out / "manifest-sha256.txt").read_text().splitlines()
    there = {str(path.relative_to(out)) for path in (out / "data").rglob("*") if path.is_file()}
    return {line.partition("  ")[2] for line in lines}, there


def test_what_stands_in_a_bag(tiles):
    """The layout of RFC 8493: `data` holds the payload, which the manifest has, and what stands beside it are tags."""
    tiles.make("tiles/a.las")
    tiles.make("tiles/sub/b.las", seed=2)
    ended(tiles.batch("laszip", "-odir", "out", "-bag", "-r", "tiles"), 0)
    out = tiles.path("out")
    assert names_in_bag(out) == ({"data/a.laz", "data/sub/b.laz"},) * 2
    assert {path.name for path in out.iterdir()} == {
        "data", "bagit.txt", "bag-info.txt", "manifest-sha256.txt", "tagmanifest-sha256.txt", "las-batch.log",
        ".las-batch"}
    tiles.make("tiles/c.las", seed=3)
    ended(tiles.batch("laszip", "-odir", "out", "-bag", "-r", "tiles"), 0)
    assert names_in_bag(out) == ({"data/a.laz", "data/c.laz", "data/sub/b.laz"},) * 2
    ended(tiles.batch("verify", "-manifest", "../out/manifest-sha256.txt", cwd=out), 0, b"")
    assert checked(tiles, "out/manifest-sha256.txt").returncode == 1  # its names are below `out`
    run = subprocess.run(["sha256sum", "--strict", "-c", "manifest-sha256.txt", "tagmanifest-sha256.txt"], cwd=out,
                         stdout=subprocess.PIPE, check=False)
    assert (run.returncode, run.stdout.count(b": OK")) == (0, 6)


def test_a_bag_with_a_draft_of_another_run_is_not_sealed(tiles):
    tiles.make("tiles/a.las")
    draft = tiles.path("out/data/.b.laz.las-4711-Xy12.part")
    draft.parent.mkdir(parents=True)
    draft.write_bytes(b"x")
    ended(tiles.batch("laszip", "-odir", "out", "-bag", "tiles/a.las"), 1, b"is no bag yet: it has drafts")
    assert not tiles.path("out/bagit.txt").exists()
    draft.unlink()
    ended(tiles.batch("laszip", "-odir", "out", "-bag", "tiles/a.las"), 0)
    assert names_in_bag(tiles.path("out"))[0] == {"data/a.laz"}


def test_a_bag_is_sealed_only_when_all_is_done(tiles):
    tiles.make("tiles/a.las")
    tiles.path("tiles/b.las").write_bytes(b"no tile")
    ended(tiles.batch("laszip", "-odir", "out", "-bag", "-r", "tiles"), 1, b"is no bag yet")
    assert not tiles.path("out/bagit.txt").exists()
    tiles.make("tiles/b.las", seed=2)
    ended(tiles.batch("-resume", "-odir", "out"), 0, b"2 done, 0 not")
    assert b"2" in tiles.path("out/bag-info.txt").read_bytes()


def test_the_trash_has_the_inputs_with_their_paths(tiles):
    wanted = {name: tiles.make(f"in/{name}", 100, at) for at, name in enumerate(["a.las", "sub/b.LAS", "c d.las"])}
    ended(tiles.batch("laszip", "-odir", "out", "-verify", "-trash", "bin", "-r", "in"), 0, b"3 done")
    assert {name: (tiles.path("bin") / name).read_bytes() for name in wanted} == wanted
    assert tiles.outputs("in") == {}


def test_nothing_in_the_trash_is_written_over(tiles):
    data = tiles.make("in/a.las")
    tiles.path("bin").mkdir()
    tiles.path("bin/a.las").write_bytes(b"earlier")
    ended(tiles.batch("laszip", "-odir", "out", "-verify", "-trash", "bin", "-r", "in"), 1, b"is there already")
    assert (tiles.path("bin/a.las").read_bytes(), tiles.path("in/a.las").read_bytes()) == (b"earlier", data)
    assert tiles.outputs("in") == {"a.las": data}


@pytest.mark.root
def test_the_trash_is_on_the_same_disk(tiles, small_disk):
    tiles.make("in/a.las")
    run = tiles.batch("laszip", "-odir", "out", "-verify", "-trash", small_disk(100_000), "-r", "in")
    ended(run, 2, b"another disk")
    assert tiles.path("in/a.las").exists()


def test_keep_times(tiles):
    tiles.make("tiles/a.las")
    os.utime(tiles.path("tiles/a.las"), ns=(1, 1_234_567_890_123_456_789))
    ended(tiles.batch("laszip", "-odir", "out", "-keep-times", "tiles/a.las"), 0)
    assert tiles.path("out/a.laz").stat().st_mtime_ns == 1_234_567_890_123_456_789
    ended(tiles.batch("laszip", "-odir", "out", "-keep-times", "tiles/a.las"), 0, b"1 of 1 outputs")


def test_many_failures_of_one_cause_are_one_line(tiles):
    tiles.make("tiles/good.las")
    bad = bytearray(tiles.path("tiles/good.las").read_bytes())
    bad[104] = 6
    for at in range(300):
        tiles.path(f"tiles/{at:03}.las").write_bytes(bad)
    run = tiles.batch("laszip", "-odir", "out", "-failed", "failed", "-r", "tiles")
    lines = run.stderr.splitlines()
    assert (run.returncode, lines[-1]) == (1, b"las-batch: 1 done, 300 not")
    assert lines[1].split()[:2] == [b"5", b"300"]
    assert len(lines) < 30
    failed = tiles.path("failed").read_bytes().splitlines()
    assert (failed[0], len(failed)) == (b"status\tinput\tline", 301)
    assert {line.split(b"\t")[0] for line in failed[1:]} == {b"5"}


@pytest.mark.parametrize("words", [[], ["-verify", "-delete"]], ids=" ".join)
def test_names_that_are_not_utf_8(tiles, words):
    wanted = {}
    for at, name in enumerate([b"\xff\xfe.las", b"m\xfcnchen.las", "ümläut.las".encode(), b"sub\xff/a.las"]):
        data = tiles.make("made.las", 100, at)
        path = os.path.join(os.fsencode(tiles.folder), b"tiles", name)
        os.makedirs(os.path.dirname(path), exist_ok=True)
        os.rename(tiles.path("made.las"), path)
        wanted[name[:-1] + b"z"] = tiles.packed(data)
    ended(tiles.batch("laszip", "-odir", b"out\xe4", *words, "-manifest", "sums", "-r", "tiles"), 0, b"4 done, 0 not")
    out = os.path.join(os.fsencode(tiles.folder), b"out\xe4")
    for name, data in wanted.items():
        with open(os.path.join(out, name), "rb") as file:
            assert file.read() == data
    assert tiles.parts() == []
    assert checked(tiles, "sums").stdout.count(b": OK") == 4


def test_a_name_that_is_not_utf_8_is_said_as_it_is(tiles):
    path = os.path.join(os.fsencode(tiles.folder), b"\xff.las")
    with open(path, "wb") as file:
        file.write(b"no tile")
    run = tiles.batch("laszip", "-odir", "out", b"\xff.las")
    ended(run, 1, b"refused: ")
    assert b"las-batch: 0 done, 1 not" in run.stderr and b".link" not in run.stderr


def test_clean_removes_drafts_that_nobody_holds(tiles):
    tiles.path("out/sub").mkdir(parents=True)
    names = [".las-0123456789abcdef-12.part", "sub/.a.laz.las-4711-Xy12.part", ".las-0123456789abcdef-12.back"]
    kept = ["a.laz", ".hidden.part", "sub/las-12.part", ".las-0123456789abcdef-held.part"]
    for name in names + kept:
        tiles.path(f"out/{name}").write_bytes(b"x")
    with open(tiles.path("out/.las-0123456789abcdef-held.part"), "rb") as held:
        fcntl.flock(held, fcntl.LOCK_EX)
        ended(tiles.batch("clean", "out"), 0, b"3 drafts removed, 1 are in use")
    assert sorted(tiles.outputs("out")) == sorted(kept)


def test_drafts_that_nobody_holds_are_named_before_a_run(tiles):
    tiles.make("tiles/a.las")
    tiles.path("out").mkdir()
    names = [".las-0123456789abcdef-1.part", ".b.laz.las-4711-Xy12.part", ".c.laz.las-4711-held.part",
             ".d.laz.las-4711-new.part"]
    for name in names:
        tiles.path(f"out/{name}").write_bytes(b"x")
    for name in names[:3]:  # the last one is perhaps not locked yet
        os.utime(tiles.path(f"out/{name}"), (0, time.time() - 120))
    line = b"las-batch: out has 2 drafts of runs that have ended; to remove them: las-batch clean out\n"
    with open(tiles.path(f"out/{names[2]}"), "rb") as held:
        fcntl.flock(held, fcntl.LOCK_EX)
        ended(tiles.batch("laszip", "-odir", "out", "tiles/a.las"), 0, line)
    assert sorted(tiles.parts()) == sorted(str(tiles.path(f"out/{name}")) for name in names)
    tiles.batch("clean", "out")
    tiles.make("tiles/a.las", seed=2)
    assert b"drafts" not in tiles.batch("laszip", "-odir", "out", "tiles/a.las").stderr


def test_clean_is_refused_while_a_run_lives(tiles):
    tiles.make("tiles/a.las")
    tiles.batch("laszip", "-odir", "out", "tiles/a.las")
    with open(tiles.path("out/.las-batch/lock"), "rb") as held:
        fcntl.flock(held, fcntl.LOCK_EX)
        ended(tiles.batch("clean", "out"), 2, b"a las-batch works in")


@pytest.mark.parametrize("linked", [False, True], ids=["a folder below", "a folder elsewhere, by a link"])
def test_clean_of_a_folder_below_leaves_what_a_run_above_makes(tiles, linked):
    for number in range(8):
        tiles.make(f"tiles/sub/{number}.las")
    tiles.path("out").mkdir()
    tiles.path("elsewhere").mkdir()
    if linked:
        tiles.path("out/sub").symlink_to(tiles.path("elsewhere"))
    go = tiles.path("go")
    las = tiles.command("waiting_las", f'[ "$1" != --version ] || exit 1\nwhile [ ! -e {go} ]; do sleep 0.05; done\n'
                                       f'exec {tiles.program} "$@"')
    with tiles.running("laszip", "-odir", "out", "-jobs", "2", "-r", "tiles", las=str(las)) as run:
        assert wait_until(tiles.parts)
        cleaned = tiles.batch("clean", "elsewhere" if linked else "out/sub")
        assert b"las-batch: 0 drafts removed, " in cleaned.stderr and b" 0 are in use" not in cleaned.stderr
        go.touch()
        assert run.wait(60) == 0
    assert sorted(path.name for path in tiles.path("out/sub").iterdir()) == [f"{number}.laz" for number in range(8)]


@pytest.mark.parametrize("linked", [False, True], ids=["a folder below", "a folder elsewhere, by a link"])
def test_clean_leaves_what_waits_for_its_name(tiles, linked):
    """Its job has ended, and holds the draft locked no more."""
    tiles.make("tiles/sub/a.las")
    folder, said = tiles.path("elsewhere" if linked else "out/sub"), tiles.path("said")
    folder.mkdir(parents=True)
    if linked:
        tiles.path("out").mkdir()
        tiles.path("out/sub").symlink_to(folder)
    # before the draft gets its name
    fault = {"LD_PRELOAD": str(faults_library(tiles.folder)), "FAULT_FOLDER": str(tiles.folder), "FAULT_AT": "1",
             "FAULT_NAME": "renameat2", "FAULT_RUN": f"{programs.BATCH} clean '{folder}' 2>'{said}'"}
    ended(tiles.batch("laszip", "-odir", "out", "-r", "tiles", environment=fault), 0, b"1 done, 0 not")
    assert said.read_bytes() == b"las-batch: 0 drafts removed, 1 are in use\n"


def test_clean_of_a_folder_below_removes_what_a_killed_run_above_left(tiles):
    tiles.path("out/sub").mkdir(parents=True)
    tiles.path("out/.las-batch/run.0123456789abcdef").mkdir(parents=True)
    tiles.path("out/.las-batch/lock").write_bytes(b"")
    draft = tiles.path("out/sub/.las-0123456789abcdef-12.part")
    draft.write_bytes(b"x")
    with open(tiles.path("out/.las-batch/lock"), "rb") as held:
        fcntl.flock(held, fcntl.LOCK_EX)
        ended(tiles.batch("clean", "out/sub"), 0, b"0 drafts removed, 1 are in use")
    assert draft.exists()
    ended(tiles.batch("clean", "out/sub"), 0, b"1 drafts removed, 0 are in use")
    assert not draft.exists()


@pytest.mark.alone
def test_verify_reads_the_draft_from_the_disk(tiles):
    """When the draft is unpacked again, none of it is in the cache."""
    needs.command("fincore", "util-linux")
    disk = os.environ.get("TMPDIR", "/var/tmp")
    if subprocess.run(["findmnt", "-n", "-o", "FSTYPE", "-T", tiles.folder], stdout=subprocess.PIPE,
                      check=False).stdout.strip() == b"tmpfs":
        needs.missing(f"{tiles.folder} is in memory", f"a folder on a disk, as {disk}")
    tiles.make("tiles/a.las", 20_000)
    las = tiles.command("las", '[ "$1" != --version ] || exit 1\ncase $3 in *.part) '
                        f'fincore -nbo RES "$3" >>{tiles.path("cached")};; esac\nexec {tiles.program} "$@"')
    ended(tiles.batch("laszip", "-odir", "out", "-verify", "tiles/a.las", las=str(las)), 0)
    assert tiles.path("cached").read_text().split() == ["0"]


def test_a_log_of_each_job(tiles):
    tiles.make("tiles/a b.las")
    tiles.path("tiles/b.las").write_bytes(b"no tile")
    ended(tiles.batch("laszip", "-odir", "out", "-log", "log", "-r", "tiles"), 1)
    head, *lines = [line.split("\t") for line in tiles.path("log").read_text().splitlines()]
    assert head == ["Seq", "Host", "Starttime", "JobRuntime", "Send", "Receive", "Exitval", "Signal", "Command"]
    assert {(fields[8], fields[6], fields[7]) for fields in lines} == {
        ("'tiles/./a b.las'", "0", "0"), ("tiles/./b.las", "5", "0")}
    tiles.path("log").unlink()
    ended(tiles.batch("-resume", "-odir", "out"), 1)
    assert len(tiles.path("log").read_text().splitlines()) == 3
