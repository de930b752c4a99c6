"""las-batch on this machine: both directions, what stays, lists, folders, options of `las`, and reports."""
import re
import subprocess

import pytest

import needs
import programs
from batch_tiles import Stock, StockTiles, ended, packed


@pytest.fixture(scope="module")
def stock(program, tmp_path_factory):
    return Stock(tmp_path_factory, program)


@pytest.fixture
def tiles(stock, tmp_path):
    return StockTiles(tmp_path, stock)


def test_200_tiles_are_packed(tiles):
    run = tiles.batch("laszip", "-odir", "packed", *tiles.names())
    ended(run, 0, b"200 done, 0 not")
    assert tiles.outputs("packed") == tiles.all_packed


def test_outputs_of_these_inputs_stay(tiles):
    names = tiles.names(0, 40)
    tiles.batch("laszip", "-odir", "packed", *names)
    times = {path: path.stat().st_mtime_ns for path in tiles.path("packed").glob("*.laz")}
    run = tiles.batch("laszip", "-odir", "packed", *names)
    ended(run, 0, b"40 of 40 outputs")
    assert tiles.outputs("packed") == tiles.stock.some(40)
    assert times == {path: path.stat().st_mtime_ns for path in tiles.path("packed").glob("*.laz")}


def test_force_runs_them_again(tiles):
    names = tiles.names(0, 20)
    tiles.batch("laszip", "-odir", "packed", *names)
    times = {path: path.stat().st_mtime_ns for path in tiles.path("packed").glob("*.laz")}
    run = tiles.batch("laszip", "-odir", "packed", "-force", "-quiet", *names)
    ended(run, 0)
    assert tiles.outputs("packed") == tiles.stock.some(20)
    assert len(tiles.path("packed/las-batch.log").read_bytes().splitlines()) == 21
    assert all(path.stat().st_mtime_ns > time for path, time in times.items())


def test_a_list_with_nuls_from_standard_input(tiles):
    tiles.path("packed").mkdir()
    for name, data in tiles.stock.some(60).items():
        tiles.path(f"packed/{name}").write_bytes(data)
    listed = b"".join(f"packed/{name}\0".encode() for name in tiles.stock.some(60))
    run = tiles.batch("laszip", "-odir", "plain", "-lof", "-", input=listed)
    ended(run, 0)
    assert tiles.outputs("plain") == {name: tiles.plain[name] for name in list(tiles.plain)[:60]}


def test_a_list_of_lines(tiles):
    names = [name for name in tiles.names(0, 60) if "\n" not in name]
    tiles.path("list.txt").write_text("\n".join(names) + "\n")
    run = tiles.batch("laszip", "-odir", "listed", "-jobs", "2", "-lof", "list.txt")
    ended(run, 0)
    assert tiles.outputs("listed") == {name: data for name, data in tiles.stock.some(60).items() if "\n" not in name}


@pytest.fixture
def walk(tiles):
    for place in ["one/x.las", "one/two/x.LAS", "y.las"]:
        path = tiles.path("walk") / place
        path.parent.mkdir(parents=True, exist_ok=True)
        path.write_bytes(tiles.plain["100.las"])
    return {place: tiles.all_packed["100.laz"] for place in ["one/x.laz", "one/two/x.laz", "y.laz"]}


def test_a_folder_is_walked(tiles, walk):
    run = tiles.batch("laszip", "-odir", "walk/out", "-r", "walk")
    ended(run, 0, b"3 done, 0 not")
    assert tiles.outputs("walk/out") == walk


def test_outputs_in_a_walked_folder_are_no_inputs(tiles, walk):
    tiles.batch("laszip", "-odir", "walk/out", "-r", "walk")
    run = tiles.batch("laszip", "-odir", "walk/out", "-r", "-force", "walk")
    ended(run, 0, b"3 done, 0 not")
    assert tiles.outputs("walk/out") == walk


def test_las2las_with_options(tiles):
    tiles.batch("laszip", "-odir", "packed", "tiles/100.las")
    sources = {"a b.laz": "tiles/a b.las", "100.laz": "packed/100.laz"}
    run = tiles.batch("las2las", "-odir", "kept", "-keep_class", "1", "2", "-olaz", "--", *sources.values())
    ended(run, 0)
    for name, source in sources.items():
        subprocess.run([tiles.program, "las2las", "-i", source, "-o", "alone.laz", "-keep_class", "1", "2"],
                       cwd=tiles.folder, check=True)
        assert tiles.outputs("kept")[name] == tiles.path("alone.laz").read_bytes()


def test_reports(tiles):
    run = tiles.batch("lasinfo", "-odir", "reports", "-tally", "class", "--", "tiles/100.las")
    alone = subprocess.run([tiles.program, "lasinfo", "-i", "tiles/100.las", "-tally", "class"], cwd=tiles.folder,
                           stdout=subprocess.PIPE, check=True).stdout
    ended(run, 0)
    assert tiles.outputs("reports") == {"100.txt": alone}


# what is said: the words, refused before anything runs
REFUSED = {
    "two inputs have one output": ["laszip", "-odir", "no", "tiles/100.las", "walk/../tiles/100.las"],
    "is the input": ["las2las", "-odir", "tiles", "-keep_class", "2", "--", "tiles/100.las"],
    "ends in .las or .laz": ["laszip", "-odir", "no", "tiles/100.txt"],
    "-r walks it": ["laszip", "-odir", "no", "tiles"],
    "stand before --": ["laszip", "-odir", "no", "-chunk_size", "500", "tiles/100.las"],
    "-verify is for files to pack": ["laszip", "-odir", "no", "-verify", "packed/100.laz"],
    "-delete goes with -verify": ["laszip", "-odir", "no", "-delete", "tiles/100.las"],
    "its lines have no file": ["las2las", "-odir", "no", "-tally", "class", "--", "tiles/100.las"],
    "-jobs needs a number": ["laszip", "-odir", "no", "-jobs", "0", "tiles/100.las"],
    "no inputs": ["laszip", "-odir", "no"],
    "-odir FOLDER": ["laszip", "tiles/100.las"],
    "laszip, las2las or lasinfo": ["lassplit", "-odir", "no", "tiles/100.las"],
    "no run to go on with": ["-resume", "-odir", "no"],
    "-trash goes with -verify": ["laszip", "-odir", "no", "-trash", "bin", "tiles/100.las"],
    "-delete and -trash exclude": ["laszip", "-odir", "no", "-verify", "-delete", "-trash", "bin", "tiles/100.las"],
    "takes the words and inputs": ["-resume", "-odir", "no", "-delete", "-verify"],
}


@pytest.fixture(scope="module")
def unchanged(stock, tmp_path_factory):
    """A folder that no refused line changes, so that one serves all of them."""
    tiles = StockTiles(tmp_path_factory.mktemp("refused"), stock)
    tiles.path("walk").mkdir()
    return tiles


@pytest.mark.parametrize("text", REFUSED)
def test_refused(unchanged, text):
    run = unchanged.batch(*REFUSED[text])
    ended(run, 2, text.encode())
    assert not unchanged.path("no").exists()
    assert unchanged.outputs("tiles") == unchanged.plain


@pytest.fixture
def bad(tiles):
    """The first 30 tiles, of which three lack a byte: the names of all, and what the good ones are packed to."""
    tiles.path("bad").mkdir()
    for at, name in enumerate(list(tiles.plain)[:30]):
        tiles.path(f"bad/{name}").write_bytes(tiles.plain[name][:-1] if at < 3 else tiles.plain[name])
    good = {packed(name): tiles.all_packed[packed(name)] for name in list(tiles.plain)[3:30]}
    return [f"bad/{name}" for name in list(tiles.plain)[:30]], good


def test_bad_tiles_among_good_ones(tiles, bad):
    names, good = bad
    tiles.path("some").mkdir()
    tiles.path("some/a b.laz").write_bytes(b"older")
    run = tiles.batch("laszip", "-odir", "some", "-force", *names)
    ended(run, 1, b"27 done, 3 not")
    ended(run, 1, b"refused: bad/a b.las: 9 Count")
    assert tiles.outputs("some") == {**good, "a b.laz": b"older"}


def test_resume_runs_again_what_failed(tiles, bad):
    names, good = bad
    tiles.batch("laszip", "-odir", "some", *names)
    tiles.path("bad/a b.las").write_bytes(tiles.plain["a b.las"])
    run = tiles.batch("-resume", "-odir", "some")
    ended(run, 1, b"28 done, 2 not")
    assert tiles.outputs("some") == {**good, "a b.laz": tiles.all_packed["a b.laz"]}


def test_a_run_that_fails_once_is_tried_again(tiles):
    flaky = tiles.command("flaky", '[ "$1" != --version ] || exit 1\n'
                          f'if [ -e "$3.tried" ]; then exec {tiles.program} "$@"; fi\n'
                          '>"$3.tried"; echo "no memory" >&2; exit 1')
    run = tiles.batch("laszip", "-odir", "again", "-retries", "2", *tiles.names(100, 110), las=str(flaky))
    ended(run, 0, b"10 done, 0 not")
    assert tiles.outputs("again") == {f"{at}.laz": tiles.all_packed[f"{at}.laz"] for at in range(100, 110)}


def test_an_output_that_was_damaged_is_not_named_and_its_input_stays(tiles):
    damaging = tiles.command("damaging", f'[ "$1" != --version ] || exit 1\n{tiles.program} "$@" || exit\n'
                             'case $5 in *.part) printf x | dd of="$5" bs=1 seek=340 conv=notrunc status=none;; esac')
    run = tiles.batch("laszip", "-odir", "broken", "-verify", "-delete", *tiles.names(100, 103), las=str(damaging))
    ended(run, 1, b"unpacked again, it is not the input")
    assert tiles.outputs("broken") == {}
    assert tiles.outputs("tiles") == tiles.plain


def test_verify_and_delete(tiles):
    names = tiles.names(100, 110)
    run = tiles.batch("laszip", "-odir", "verified", "-verify", "-delete", *names)
    ended(run, 0, b"10 done, 0 not")
    assert tiles.outputs("verified") == {f"{at}.laz": tiles.all_packed[f"{at}.laz"] for at in range(100, 110)}
    assert not any(tiles.path(name).exists() for name in names)


@pytest.mark.parametrize("words", [["-verify"], *(pytest.param(it, marks=pytest.mark.slow(seconds=3)) for it in (
    [], ["-retries", "2"], ["-manifest", "sums"]))], ids=lambda it: " ".join(it))
def test_each_draft_is_synced_before_it_gets_its_name_and_the_folder_after_it(tiles, words):
    needs.command("strace", "strace")
    tiles.path("again").write_text(f'exec strace -f -qq -y -e trace=fsync,renameat2 -o {tiles.path("calls")} "$@"\n')
    line = ["sh", tiles.path("again"), programs.BATCH, "laszip", "-odir", "out", "-jobs", "2", *words,
            *tiles.names(100, 140)]
    subprocess.run(line, check=True, **tiles.options(None, {"stderr": subprocess.DEVNULL}))
    synced, named = set(), []
    for call in tiles.path("calls").read_text().splitlines():
        draft = re.search(r"-([1-9]\d*)\.part\b", call)
        if "fsync(" in call and draft:
            synced.add(draft.group(1))
        elif "renameat2(" in call and draft:
            assert draft.group(1) in synced, call
            named.append(draft.group(1))
        elif re.search(r"fsync\(\d+<[^>]*/out>", call):
            named.clear()
    assert len(synced) == 40 and named == []


def synced(tiles, script):
    """A run over 40 tiles, one by one, with a script in the place of `sync`, and the drafts that each call has."""
    tiles.command("sync", f'shift; echo "${{@##*-}}" >>{tiles.path("synced")}\n{script}')
    run = tiles.batch("laszip", "-odir", "out", "-jobs", "1", "-retries", "2", *tiles.names(100, 140),
                      path=str(tiles.path("bin")))
    return run, [line.split() for line in tiles.path("synced").read_text().splitlines()]


def test_drafts_of_small_inputs_are_synced_together(tiles):
    run, calls = synced(tiles, 'exec /usr/bin/sync -- "$@"')
    ended(run, 0, b"40 done, 0 not")
    assert sorted(name for call in calls for name in call) == sorted(f"{at}.part" for at in range(1, 41))
    assert 2 <= len(calls) <= 20


def test_if_drafts_can_not_be_synced_together_each_is_made_again_and_synced_alone(tiles):
    run, calls = synced(tiles, '[ $# -eq 1 ] && exec /usr/bin/sync -- "$@"; echo "sync: error" >&2; exit 1')
    ended(run, 0, b"40 done, 0 not")
    assert sorted(name for call in calls if len(call) == 1 for name in call) == sorted(
        f"{at}.part" for at in range(1, 41))
    assert tiles.outputs("out") == {f"{at}.laz": tiles.all_packed[f"{at}.laz"] for at in range(100, 140)}


def test_a_draft_that_can_not_be_synced_gets_no_name(tiles):
    run, _ = synced(tiles, 'for name; do case $name in *-7.part) echo "sync: error syncing: Input/output error" >&2; '
                    'exit 1;; esac; done')
    ended(run, 1, b"39 done, 1 not")
    ended(run, 1, b"sync: error syncing: Input/output error")
    assert tiles.outputs("out") == {f"{at}.laz": tiles.all_packed[f"{at}.laz"] for at in range(100, 140) if at != 106}


@pytest.mark.root
def test_a_full_folder_and_resume_after_there_is_room(tiles, small_disk):
    full = small_disk(300_000)
    run = tiles.batch("laszip", "-odir", full, *tiles.names())
    ended(run, 1)
    found = tiles.outputs(str(full))
    assert 0 < len(found) < 200
    assert {name: data for name, data in found.items() if tiles.all_packed.get(name) != data} == {}
    subprocess.run(["mount", "-o", "remount,size=20m", full], check=True)
    ended(tiles.batch("-resume", "-odir", full), 0, b"200 done, 0 not")
    assert tiles.outputs(str(full)) == tiles.all_packed
