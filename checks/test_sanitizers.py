"""The programs over the library for C, and the fuzzer's calls on its first inputs, with AddressSanitizer and
UndefinedBehaviorSanitizer: no finding on whole, cut and damaged files.
"""
import gzip
import random
import subprocess
from pathlib import Path

import pytest

import needs
from programs import TOP

CORPUS = TOP / "fuzz" / "corpus"
WORDS = ["-std=gnu11", "-O1", "-g", "-Wall", "-Wextra", "-Werror", "-fsanitize=address,undefined",
         "-fno-sanitize-recover=all"]


@pytest.fixture(scope="module")
def built(tmp_path_factory: pytest.TempPathFactory) -> Path:
    """A folder with the programs `heights`, `times` and `replay`."""
    needs.command("gcc", "gcc libc6-dev")
    folder = tmp_path_factory.mktemp("sanitized")
    archive = folder / "liblaz.a"
    archive.write_bytes(gzip.decompress((TOP / "release" / "liblaz.a.gz").read_bytes()))
    for name, sources in {"heights": ["c/heights.c"], "times": ["c/times.c"],
                          "replay": ["fuzz/decode.c", "fuzz/replay.c"]}.items():
        subprocess.run(["gcc", *WORDS, f"-I{TOP / 'c'}", *[str(TOP / it) for it in sources], str(archive), "-o",
                        str(folder / name)], check=True)
    return folder


def found_by(program: Path, *words: object) -> "tuple[int, str]":
    """The status, and what a sanitizer says."""
    done = subprocess.run([program, *map(str, words)], stdin=subprocess.DEVNULL, stdout=subprocess.PIPE,
                          stderr=subprocess.PIPE, timeout=300, check=False)
    said = done.stderr.decode(errors="replace")
    finding = "Sanitizer" in said or "runtime error" in said or "decode:" in said
    return done.returncode, said if finding else ""


@pytest.fixture(scope="module")
def packed(program: str, tmp_path_factory: pytest.TempPathFactory) -> Path:
    folder = tmp_path_factory.mktemp("packed")
    subprocess.run([program, "make", "-o", folder / "m.las", "-z", folder / "m.laz", "-points", "700", "-seed", "3",
                    "-format", "3", "-extra", "3", "-chunk_size", "256"], stdout=subprocess.DEVNULL, check=True)
    return folder / "m.laz"


def test_heights_of_a_whole_file(built: Path, packed: Path) -> None:
    assert found_by(built / "heights", packed) == (0, "")


def test_heights_of_the_sample(built: Path) -> None:
    assert found_by(built / "heights", TOP / "examples" / "tile.laz") == (0, "")


@pytest.mark.parametrize("share", range(4))
def test_heights_of_files_that_are_cut(built: Path, packed: Path, tmp_path: Path, share: int) -> None:
    data = packed.read_bytes()
    for length in list(range(0, len(data), 97))[share::4]:
        (tmp_path / "cut.laz").write_bytes(data[:length])
        status, said = found_by(built / "heights", tmp_path / "cut.laz")
        assert (status in (0, 2), said) == (True, ""), length


@pytest.mark.parametrize("seed", range(4))
def test_heights_of_damaged_files(built: Path, packed: Path, tmp_path: Path, seed: int) -> None:
    data, chance = packed.read_bytes(), random.Random(seed)
    for _ in range(20):
        damaged = bytearray(data)
        for _ in range(chance.randint(1, 4)):
            at = chance.choice([chance.randrange(len(data)), chance.randrange(400), len(data) - chance.randrange(1, 9)])
            damaged[at] = chance.choice([0, 1, 127, 128, 255, chance.randrange(256)])
        (tmp_path / "damaged.laz").write_bytes(damaged)
        status, said = found_by(built / "heights", tmp_path / "damaged.laz")
        assert (status in (0, 1, 2), said) == (True, ""), bytes(damaged)


def test_the_program_that_times_the_coder(built: Path, packed: Path) -> None:
    assert found_by(built / "times", packed.with_suffix(".las"), 256) == (0, "")


def test_the_first_inputs_of_the_fuzzer(built: Path) -> None:
    inputs = sorted(CORPUS.iterdir())
    assert len(inputs) >= 40
    assert found_by(built / "replay", *inputs) == (0, "")


@pytest.mark.parametrize("seed", range(4))
def test_the_first_inputs_of_the_fuzzer_changed_at_random(built: Path, tmp_path: Path, seed: int) -> None:
    chance = random.Random(seed)
    inputs = [path.read_bytes() for path in sorted(CORPUS.iterdir())]
    names = []
    for number in range(200):
        data = bytearray(chance.choice(inputs))
        for _ in range(chance.randint(1, 6)):
            data[chance.randrange(len(data))] = chance.randrange(256)
        names.append(tmp_path / str(number))
        names[-1].write_bytes(data[:chance.choice([len(data), chance.randrange(1, len(data) + 1)])])
    assert found_by(built / "replay", *names) == (0, "")


def test_a_wrong_answer_is_found(tmp_path: Path) -> None:
    """With a library whose unpacking gives other records the fuzzer's calls fail, so they can."""
    needs.command("gcc", "gcc libc6-dev")
    archive = tmp_path / "liblaz.a"
    archive.write_bytes(gzip.decompress((TOP / "release" / "liblaz.a.gz").read_bytes()))
    (tmp_path / "wrong.c").write_text("""#include <las.h>
uint32_t __real_laz_c_unpack(uint8_t, uint16_t, const uint8_t *, size_t, uint32_t, uint8_t *, size_t);
uint32_t __wrap_laz_c_unpack(uint8_t f, uint16_t e, const uint8_t *b, size_t n, uint32_t c, uint8_t *r, size_t l);
uint32_t __wrap_laz_c_unpack(uint8_t f, uint16_t e, const uint8_t *b, size_t n, uint32_t c, uint8_t *r, size_t l)
{
    uint32_t answer = __real_laz_c_unpack(f, e, b, n, c, r, l);
    static int times;
    r[l - 1] ^= (uint8_t)times++;
    return answer;
}
""")
    program = tmp_path / "wrong"
    subprocess.run(["gcc", *WORDS, f"-I{TOP / 'c'}", str(TOP / "fuzz" / "decode.c"), str(TOP / "fuzz" / "replay.c"),
                    str(tmp_path / "wrong.c"), str(archive), "-Wl,--wrap=laz_c_unpack", "-o", str(program)], check=True)
    status, said = found_by(program, *sorted(CORPUS.iterdir()))
    assert status != 0
    assert "decode: other records come back" in said
