"""Wrong bodies, of the gate, beside it, and those that tests have to find: each can be applied, and what tries them
fails if one is not refused, or not found.
"""
import fcntl
import os
import re
import shutil
import signal
import subprocess
import sys
import time
from pathlib import Path

import pytest

from programs import TOP

pytestmark = pytest.mark.slow(seconds=1)

GATE = sorted(TOP.glob("edits/gate/*/*.edit"))
EDITS = sorted([*GATE, *(path for path in TOP.glob("edits/*/*.edit") if path.parent.name != "gate")])
TESTED = sorted(TOP.glob("edits/tests/*/*.edit"))
# Crates without a contract of their own: a program of one call, and a crate of one law.
BARE = {"las", "laz_copied"}


def crate_of(edit: Path) -> str:
    return edit.parent.name


def pairs(edit: Path) -> "list[tuple[str, str, str]]":
    """The file, the old text and the new one of each change."""
    found, path, old = [], "", ""
    for line in edit.read_text().splitlines():
        kind, _, text = line.partition(": ")
        if kind == "file":
            path = text.strip()
        elif kind == "old":
            old = text
        elif line.startswith("new:"):
            found.append((path, old, text))
    return found


@pytest.mark.parametrize("crate", sorted({crate_of(edit) for edit in [*EDITS, *TESTED]}))
def test_each_edit_of_a_crate_can_be_applied(crate: str) -> None:
    wrong = []
    for edit in (edit for edit in [*EDITS, *TESTED] if crate_of(edit) == crate):
        changes = pairs(edit)
        if not changes:
            wrong.append(f"{edit.name}: no change")
        for path, old, new in changes:
            source = (TOP / "crates" / crate / path).read_text()
            if source.count(old) != 1:
                wrong.append(f"{edit.name}: its text is {source.count(old)} times in {path}")
            if old.split() == new.split():
                wrong.append(f"{edit.name}: it changes nothing")
    assert wrong == []


def test_names_tell_edits_of_a_crate_apart() -> None:
    names = [(crate_of(edit), edit.stem) for edit in [*EDITS, *TESTED]]
    assert len(names) == len(set(names))
    assert all(re.fullmatch(r"[a-z][a-z0-9_]*[a-z0-9]", name) for _, name in names)


def test_each_crate_of_the_product_has_two_edits_in_the_gate() -> None:
    crates = {path.name for path in (TOP / "crates").iterdir() if (path / "src").is_dir()}
    product = {crate for crate in crates if not crate.startswith("tests_")} - BARE
    number = {crate: sum(crate_of(edit) == crate for edit in GATE) for crate in product}
    assert {crate: found for crate, found in number.items() if found < 2} == {}
    assert {crate_of(edit) for edit in GATE} <= product


RATTLE = r"""#!/bin/sh
# says of each function that --only names what $SAID tells
whole=1
names=
while [ $# -gt 0 ]; do
    case $1 in
    --only) whole=; shift; names="$names $1" ;;
    -o) mkdir -p "$2"; : >"$2/format"; echo built >>"$LOG"; exit 0 ;;
    esac
    shift
done
echo "check$names" >>"$LOG"
case "$names" in *"${UNNAMED-none}"*) echo "rattle: error: \`one\` has no function \`$UNNAMED\`: help"; exit 2 ;; esac
[ -z "${WAITS-}" ] || { sleep 60 & wait; }
number=0
for name in $names ${whole:+f}; do
    number=$((number + 1))
    case $SAID in
    proved) echo "fn one::$name: proved" ;;
    answers) echo "./proofs/$name/Answers.antt:3:1: error: this does not fit"; echo "fn one::$name: not proved" ;;
    cites) echo "./proofs/$name/Answers.antt:3:1: error: \`g\` was not admitted"; echo "fn one::$name: not proved" ;;
    unread) echo "src/lib.rt:1:8: error: \`f\`: \`h\` is not in scope"; echo "fn one::$name: not proved" ;;
    compile) echo "src/lib.rt:1:8: error[unknown-name]: no h"; exit 1 ;;
    limit) echo "src/lib.rt:1:8: error: antt ran out of stack"; exit 3 ;;
    killed) kill -9 $$ ;;
    *) echo "note: src/lib.rt:1:8: it is not proved that $SAID (\`it\`)"; echo "fn one::$name: no proof: expected" ;;
    esac
done
case $SAID in
proved) [ -n "$whole" ] && echo logic=proved || echo "only=$number proved=$number"; exit 0 ;;
*) [ -n "$whole" ] && echo logic=not-proved || echo "only=$number proved=0"; exit 1 ;;
esac
"""


@pytest.fixture
def tree(tmp_path: Path) -> Path:
    """A checkout of one crate with an edit of the gate and one beside it, and a kit whose prover says $SAID of each."""
    for name, text in [("crates.txt", "one:\nupper: one\n"),
                       ("crates/one/src/lib.rt", "fn f() { g(1) }\n\nfn h() { g(2) }\n"),
                       ("crates/upper/src/lib.rt", "fn f() { g(1) }\n"),
                       ("edits/gate/one/two.edit", "file: src/lib.rt\nold: g(1)\nnew: g(3)\n"),
                       ("edits/one/three.edit", "file: src/lib.rt\nold: g(2)\nnew: g(3)\n"),
                       ("kit/KIT-ID", "a kit"), ("kit/START-HERE.md", ""), ("kit/bin/rattle", RATTLE),
                       ("bin/rt", f"#!/bin/sh\necho {tmp_path}/kit/START-HERE.md\n"), ("log", "")]:
        (tmp_path / name).parent.mkdir(parents=True, exist_ok=True)
        (tmp_path / name).write_text(text)
    (tmp_path / ".ci").mkdir()
    (tmp_path / "tmp").mkdir()
    for name in ("edits", "edit_results.py", "edit_tests.py", "scratch.py"):
        shutil.copy2(TOP / ".ci" / name, tmp_path / ".ci")
    for name in ("bin/rt", "kit/bin/rattle"):
        (tmp_path / name).chmod(0o755)
    return tmp_path


def begun(tree: Path, said: str, *words: str, **more: str) -> "subprocess.Popen[str]":
    environment = {**os.environ, "SAID": said, "LOG": str(tree / "log"), "TMPDIR": str(tree / "tmp"),
                   "XDG_CACHE_HOME": str(tree / "cache"), "PATH": f"{tree / 'bin'}:{os.environ['PATH']}", **more}
    return subprocess.Popen([sys.executable, tree / ".ci" / "edits", "--jobs", "1", *words], env=environment, cwd=tree,
                            text=True, stdout=subprocess.PIPE, stderr=subprocess.PIPE)


def tried(tree: Path, said: str, *words: str) -> "tuple[int, list[list[str]], str]":
    """The status, the rows of the table, and what was said besides."""
    run = begun(tree, said, *words)
    out, err = run.communicate(timeout=60)
    rows = [line.strip("| ").split(" | ")[:3] for line in out.splitlines() if line.startswith("| `")]
    assert list((tree / "tmp").iterdir()) == []
    return run.returncode, rows, err


def log(tree: Path) -> "list[str]":
    return (tree / "log").read_text().splitlines()


@pytest.mark.parametrize("said, place", [
    ("what the function ensures holds when it returns", "clause"),
    ("the invariant of the loop holds", "invariant"),
    ("what `g` requires holds at this call", "requires"),
    ("the sum fits its type", "requires"),
    ("answers", "proof"),
    ("limit", "limit"),
])
def test_a_refused_edit_is_told_with_its_place(tree: Path, said: str, place: str) -> None:
    status, rows, _ = tried(tree, said)
    assert status == 0
    assert rows == [["`one`", "`three`", place], ["`one`", "`two`", place]]


def test_edits_of_two_functions_share_a_check(tree: Path) -> None:
    assert tried(tree, "what the function ensures holds")[0] == 0
    assert log(tree) == ["check f h"]


@pytest.mark.parametrize("said, place", [
    ("proved", "proved"),
    ("unread", "bad edit"),
    ("compile", "bad edit"),
    ("killed", "not tried"),
])
def test_an_edit_that_is_not_refused_fails(tree: Path, said: str, place: str) -> None:
    status, rows, err = tried(tree, said)
    assert status == 1
    assert rows == [["`one`", "`three`", place], ["`one`", "`two`", place]]
    assert f"edits: one/two: {place}: " in err
    assert f"edits: one/three: {place}: " in err


def test_an_edit_that_passes_by_itself_is_tried_in_the_whole_crate(tree: Path) -> None:
    assert tried(tree, "proved", "--gate")[0] == 1
    assert log(tree) == ["check f", "check"]


def test_an_edit_of_a_function_that_the_prover_does_not_know_is_tried_in_the_whole_crate(tree: Path) -> None:
    (tree / "crates" / "one" / "src" / "lib.rt").write_text("fn f() { g(1) }\n\nfn h() { g(2) }\n\nfn i() { g(4) }\n")
    (tree / "edits" / "one" / "six.edit").write_text("file: src/lib.rt\nold: g(4)\nnew: g(5)\n")
    run = begun(tree, "what the function ensures holds", UNNAMED="i")
    run.communicate(timeout=60)
    assert run.returncode == 0
    assert log(tree) == ["check f h i", "check f h", "check i", "check"]


def test_what_another_proof_cites_counts_for_that_one_alone(tree: Path) -> None:
    assert tried(tree, "cites")[0] == 0
    assert log(tree) == ["check f h", "check f", "check h"]


@pytest.mark.parametrize("text, place", [
    ("file: src/lib.rt\nold: g(2)\nnew: g( 2 ) // the same\n", "changes nothing"),
    ("file: src/lib.rt\nold: g(4)\nnew: g(5)\n", "bad edit"),
    ("file: src/lib.rt\nold: g(\nnew: h(\n", "bad edit"),
    ("file: src/other.rt\nold: g(2)\nnew: g(5)\n", "bad edit"),
    ("g(2)\n", "bad edit"),
])
def test_an_edit_that_cannot_be_tried_fails(tree: Path, text: str, place: str) -> None:
    (tree / "edits" / "one" / "three.edit").write_text(text)
    status, rows, _ = tried(tree, "what the function ensures holds")
    assert status == 1
    assert rows == [["`one`", "`three`", place], ["`one`", "`two`", "clause"]]


def test_those_of_the_gate_alone_and_one_by_its_name(tree: Path) -> None:
    assert tried(tree, "answers", "--gate")[1] == [["`one`", "`two`", "proof"]]
    assert tried(tree, "answers", "one/three")[1] == [["`one`", "`three`", "proof"]]


def test_what_is_not_there(tree: Path) -> None:
    assert tried(tree, "answers", "four") == (1, [], "edits: there is no crate four\n")
    assert tried(tree, "answers", "one/four") == (1, [], "edits: there is no edit one/four\n")


def test_a_run_goes_on_where_an_earlier_one_was(tree: Path) -> None:
    assert tried(tree, "answers", "one/two")[0] == 0
    assert tried(tree, "proved")[1] == [["`one`", "`three`", "proved"], ["`one`", "`two`", "proof"]]
    assert tried(tree, "proved", "--anew", "one/two")[0] == 1
    (tree / "crates" / "one" / "src" / "lib.rt").write_text("fn f() { g(1) }\n\nfn h() { g(2) }\n\nfn i() {}\n")
    assert tried(tree, "proved", "one/two")[0] == 1


def test_a_library_is_taken_if_it_is_of_these_sources_and_else_built(tree: Path) -> None:
    (tree / "edits" / "upper").mkdir()
    (tree / "edits" / "upper" / "five.edit").write_text("file: src/lib.rt\nold: g(1)\nnew: g(2)\n")
    assert tried(tree, "answers", "upper")[0] == 0
    assert log(tree) == ["built", "check f"]
    library = tree / "crates" / "one" / "out" / "rlib" / "one.rlib"
    library.mkdir(parents=True)
    (library / "format").write_text("")
    assert tried(tree, "answers", "--anew", "upper")[0] == 0
    assert log(tree) == ["built", "check f", "check f"]
    later = time.time() + 10
    os.utime(tree / "crates" / "one" / "src" / "lib.rt", (later, later))
    assert tried(tree, "answers", "--anew", "upper")[0] == 0
    assert log(tree) == ["built", "check f", "check f", "built", "check f"]


@pytest.mark.parametrize("number", [signal.SIGINT, signal.SIGTERM])
def test_nothing_is_left_after_an_interrupt(tree: Path, number: signal.Signals) -> None:
    run = begun(tree, "answers", WAITS="1")
    end = time.monotonic() + 30
    while not log(tree) and time.monotonic() < end:
        time.sleep(0.05)
    run.send_signal(number)
    run.communicate(timeout=30)
    assert run.returncode == 128 + number
    assert list((tree / "tmp").iterdir()) == []


def test_what_a_killed_run_left_is_removed_unless_it_is_held(tree: Path) -> None:
    mark = "a folder of .ci/edits or .ci/plant\n"
    for name, held in (("balsamvise-killed", mark), ("balsamvise-held", mark), ("balsamvise-of-another", "")):
        (tree / "tmp" / name / "one-1").mkdir(parents=True)
        (tree / "tmp" / name / "lock").write_text(held)
    with (tree / "tmp" / "balsamvise-held" / "lock").open() as lock:
        fcntl.flock(lock, fcntl.LOCK_EX)
        begun(tree, "answers").communicate(timeout=60)
        assert {path.name for path in (tree / "tmp").iterdir()} == {"balsamvise-held", "balsamvise-of-another"}
    begun(tree, "answers").communicate(timeout=60)
    assert [path.name for path in (tree / "tmp").iterdir()] == ["balsamvise-of-another"]
    assert (tree / "tmp" / "balsamvise-of-another" / "one-1").is_dir()


def test_an_edit_of_a_program_that_a_test_has_to_find_names_a_case() -> None:
    crates = TOP / "crates"
    for edit in (it for it in TESTED if (crates / crate_of(it) / "src" / "main.rt").is_file()):
        case = re.search(r"^test: (checks/\w+\.py)::(\w+)$", edit.read_text(), re.M)
        assert case and f"def {case[2]}(" in (TOP / case[1]).read_text()


# Edits that tests have to find

SLOW = pytest.mark.slow(seconds=2)

PROVER = r"""#!/bin/sh
# proves all sources but one that says `refused`, and what it makes has the sources and those of the libraries
for word; do
    case $before in --crate-name) name=$word ;; --extern) from="$from ${word#*=}/format" ;; esac
    before=$word
done
echo "build $name" >>"$LOG"
[ "${WAITS-}" != "$name" ] || { sleep 60 & wait; }
if grep -q refused src/*.rt; then
    echo "note: src/lib.rt:1:8: it is not proved that what the function ensures holds (\`it\`)"
    printf 'logic=not-proved\nrattle build: nothing was built\n'
    exit 1
fi
! grep -q unknown src/*.rt || { echo "src/lib.rt:1:8: error[unknown-name]: no h"; exit 1; }
case $word in
*.rlib) mkdir -p "$word"; cat src/*.rt >"$word/format" ;;
*) cat src/*.rt >"$word"; for file in $from; do [ ! -f "$file" ] || cat "$file" >>"$word"; done ;;
esac
"""
LINKER = r"""#!/bin/sh
for word; do
    [ "$before" != -o ] || program=$word
    case $word in *.o) made=$word ;; esac
    before=$word
done
cp "$made" "$program"
"""
TESTS = r"""#!/bin/sh
for word; do program=$word; done
echo run >>"$LOG"
[ -z "$(ls)" ] || exit 3
! grep -q wrong "$program" || { echo "test all::scripts ... FAILED"; exit 101; }
echo "test all::scripts ... ok"
"""
SUITE = r"""#!/bin/sh
for word; do [ "$before" != -k ] || name=$word; before=$word; done
echo "case $name" >>"$LOG"
! grep -q wrong "$word" || exit 1
! grep -q killed "$word" || exit 3
"""


@pytest.fixture
def built(tree: Path) -> Path:
    """The checkout with a crate of tests, a program, an edit of each that tests find, and a kit that builds."""
    for name, text in [("crates.txt", "one:\ntests_one: one\nupper: one\n"),
                       ("crates/tests_one/src/lib.rt", "fn scripts() {}\n"),
                       ("edits/tests/one/four.edit", "file: src/lib.rt\nold: g(1)\nnew: wrong()\n"),
                       ("edits/tests/upper/five.edit",
                        "test: checks/test_it.py::test_it\nfile: src/main.rt\nold: g(1)\nnew: wrong()\n"),
                       ("checks/test_it.py", "def test_it():\n    pass\n"), ("check", SUITE),
                       ("kit/bin/rattle", PROVER), ("kit/bin/rattle-link", LINKER), ("kit/bin/rattle-test", TESTS)]:
        (tree / name).parent.mkdir(parents=True, exist_ok=True)
        (tree / name).write_text(text)
    (tree / "crates" / "upper" / "src" / "lib.rt").rename(tree / "crates" / "upper" / "src" / "main.rt")
    for name in ("check", "kit/bin/rattle", "kit/bin/rattle-link", "kit/bin/rattle-test"):
        (tree / name).chmod(0o755)
    return tree


def of_one(new: str) -> str:
    return f"file: src/lib.rt\nold: g(1)\nnew: {new}\n"


@SLOW
def test_an_edit_is_told_with_the_test_that_finds_it(built: Path) -> None:
    status, rows, _ = tried(built, "", "--tests")
    assert status == 0
    assert rows == [["`one`", "`four`", "`tests_one: all::scripts`"],
                    ["`upper`", "`five`", "`checks/test_it.py: test_it`"]]


@SLOW
def test_the_crate_as_it_stands_and_its_tests_come_first(built: Path) -> None:
    assert tried(built, "", "--tests", "one")[0] == 0
    assert log(built) == ["build one", "build tests_one", "run"] * 2


@SLOW
@pytest.mark.parametrize("new, place, said", [
    ("g(3)", "not found", "it is proved, and each test passes with it"),
    ("refused()", "refused", "the prover refuses it, so it belongs in edits/one: note: src/lib.rt:1:8: it is not"),
    ("unknown()", "bad edit", "it did not reach the prover: src/lib.rt:1:8: error[unknown-name]: no h"),
    ("g( 1 )", "changes nothing", "the new text is the old one"),
])
def test_an_edit_that_no_test_finds_fails(built: Path, new: str, place: str, said: str) -> None:
    (built / "edits" / "tests" / "one" / "four.edit").write_text(of_one(new))
    status, rows, err = tried(built, "", "--tests", "one")
    assert (status, rows) == (1, [["`one`", "`four`", place]])
    assert f"edits: one/four: {place}: {said}" in err


@SLOW
def test_an_edit_whose_old_text_is_not_there_fails(built: Path) -> None:
    (built / "edits" / "tests" / "one" / "four.edit").write_text("file: src/lib.rt\nold: g(4)\nnew: wrong()\n")
    assert tried(built, "", "--tests", "one")[:2] == (1, [["`one`", "`four`", "bad edit"]])
    assert log(built) == []


@SLOW
def test_nothing_is_found_by_tests_that_fail_without_an_edit(built: Path) -> None:
    (built / "crates" / "tests_one" / "src" / "lib.rt").write_text("fn scripts() { wrong() }\n")
    status, rows, err = tried(built, "", "--tests", "one")
    assert (status, rows) == (1, [["`one`", "`four`", "not tried"]])
    assert "edits: one/four: not tried: the tests do not pass as it stands" in err


@SLOW
@pytest.mark.parametrize("new, place", [("g(3)", "not found"), ("killed()", "not tried"), ("refused()", "refused")])
def test_an_edit_of_a_program_that_its_case_does_not_find_fails(built: Path, new: str, place: str) -> None:
    edit = built / "edits" / "tests" / "upper" / "five.edit"
    edit.write_text(edit.read_text().replace("wrong()", new))
    assert tried(built, "", "--tests", "upper/five")[:2] == (1, [["`upper`", "`five`", place]])


@SLOW
@pytest.mark.parametrize("test", ["", "test: checks/test_it.py::test_other\n", "test: checks/none.py::test_it\n"])
def test_an_edit_of_a_program_names_a_case_that_is_there(built: Path, test: str) -> None:
    edit = built / "edits" / "tests" / "upper" / "five.edit"
    edit.write_text(edit.read_text().replace("test: checks/test_it.py::test_it\n", test))
    assert tried(built, "", "--tests", "upper")[:2] == (1, [["`upper`", "`five`", "not tried"]])


@SLOW
def test_the_program_as_it_stands_is_taken_from_the_tree_and_its_case_has_to_pass(built: Path) -> None:
    program = built / "crates" / "upper" / "out" / "upper"
    program.parent.mkdir()
    program.write_text("wrong")
    status, _, err = tried(built, "", "--tests", "upper")
    assert status == 1
    assert "upper/five: not tried: its case does not pass on the program as it stands" in err
    program.write_text("right")
    assert tried(built, "", "--tests", "upper")[0] == 0
    assert log(built) == ["build one", "case test_it", "build one", "case test_it", "build upper", "case test_it"]


@SLOW
def test_a_found_edit_is_not_tried_again_until_a_source_changes(built: Path) -> None:
    first = tried(built, "", "--tests")
    number = len(log(built))
    assert tried(built, "", "--tests") == (*first[:2], "")
    assert len(log(built)) == number
    (built / "crates" / "tests_one" / "src" / "lib.rt").write_text("fn scripts() { g() }\n")
    assert tried(built, "", "--tests")[0] == 0
    assert log(built)[number:] == ["build one", "build tests_one", "run"] * 2
    assert tried(built, "", "--tests", "--anew", "one")[0] == 0
    assert len(log(built)) == number + 12


@SLOW
def test_tests_and_the_gate_exclude_each_other(built: Path) -> None:
    assert tried(built, "", "--tests", "--gate") == (1, [], "edits: --gate and --tests exclude each other\n")
    assert tried(built, "", "--tests", "one/two") == (1, [], "edits: there is no edit one/two\n")


@SLOW
@pytest.mark.parametrize("number", [signal.SIGINT, signal.SIGTERM])
@pytest.mark.parametrize("name", ["one", "tests_one"])
def test_nothing_is_left_after_an_interrupt_of_a_build(built: Path, number: signal.Signals, name: str) -> None:
    run = begun(built, "", "--tests", "one", WAITS=name)
    end = time.monotonic() + 30
    while f"build {name}" not in log(built) and time.monotonic() < end:
        time.sleep(0.05)
    run.send_signal(number)
    run.communicate(timeout=30)
    assert run.returncode == 128 + number
    assert list((built / "tmp").iterdir()) == []
