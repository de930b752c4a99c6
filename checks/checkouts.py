"""Checkouts of two small crates, with this repository's launcher, help and release scripts, and a program that tells
how it was started.
"""
import functools
import gzip
import hashlib
import os
import shutil
from pathlib import Path
from typing import Any, Optional

from commands import good, quiet
from programs import TOP

# Tells its words, its standard streams and whether a limit on file size is ignored; then waits, or ends, as it is told.
TELLER = r"""#!/bin/sh
streams=
for stream in 0 1 2; do [ ! -e /proc/$$/fd/$stream ] || streams="$streams $stream"; done
{
    for word in "$@"; do printf '[%s]' "$word"; done
    printf '%s' "$streams"
    while read -r name mask; do
        case $name in SigIgn:) [ $((0x$mask >> 24 & 1)) -eq 0 ] || printf ' xfsz' ;; esac
    done </proc/$$/status
    printf ' program:%s\n' "$0"
} >"$TOLD"
[ -z "${SAYS-}" ] || printf '%s\n' "$SAYS" >&2
[ -z "${READS-}" ] || { read -r line && printf '%s\n' "$line" >"$READS"; }
[ -z "${WAITS-}" ] || exec sleep "$WAITS"
exit "${ENDS-0}"
"""

# A toolchain that "proves" and builds at once.
RT = r"""#!/bin/sh
case $1 in
version) echo 'kit of a check' ;;
run)
    mkdir -p out
    cp "$TELLER" out/las
    chmod 755 out/las
    echo built >>"$BUILDS"
    printf 'rt: %s\n' 'chose --jobs 1 for low' 'chose --jobs 1 for las' 'running out/las' >&2
    ;;
esac
"""

TOOLS = ("sh awk cat chmod cmp cut df dirname env find grep gzip mkdir mktemp mv readlink rm rmdir sed sha256sum sleep "
         "sort stat tail tee tr true uname wc xargs").split()
RELEASE = ("sources", "choose.sh", "build.sh", "processor.sh", "systems.sh", "make", "build_for", "link", "library",
           "spdx", "module", "wasm")
C_SOURCES = ("c/las.h", "c/laz_file.h", "c/laz_reader.c", "c/laz_writer.c", "c/laz_paths.c")
PROGRAMS = ("las-x86-64-v2", "las-x86-64-v3", "las-x86-64-static", "las-aarch64", "las-aarch64-static")
PACKED = (*PROGRAMS, "las-x86-64.o", "las-aarch64.o", "liblaz.a", "liblaz.so", "liblaz-x86-64-v3.so",
          "liblaz-aarch64.a", "liblaz-aarch64.so", "laz.wasm", "liblaz-x86_64-pc-windows-gnu.a",
          "liblaz-x86_64-apple-macosx11-untried.a", "liblaz-aarch64-apple-macosx11-untried.a")


def sum_of(data: bytes) -> str:
    return hashlib.sha256(data).hexdigest()


@functools.lru_cache(maxsize=None)
def packages() -> str:
    """The cross packages of this machine, with their versions, as release/make notes them."""
    return good(["sh", "-c", ". release/systems.sh; package_versions"], cwd=TOP).strip()


class Checkout:
    """A checkout, the file in which its program tells how it was started, and a folder for what the launcher keeps."""

    def __init__(self, place: Path, program: bytes = TELLER.encode()) -> None:
        self.folder = place / "checkout"
        self.told = place / "told"
        self.builds = self.path("builds")
        self.environment = {**os.environ, "TOLD": str(self.told), "BUILDS": str(self.builds),
                            "TELLER": str(self.path("teller")), "XDG_CACHE_HOME": str(place / "cache")}
        self.folder.mkdir()
        for name in ("las", "install", "las-batch", "las-batch-job"):
            shutil.copy(TOP / name, self.path(name))
        shutil.copytree(TOP / "help", self.path("help"))
        shutil.copytree(TOP / "web", self.path("web"))
        self.path("release").mkdir()
        for name in RELEASE:
            shutil.copy(TOP / "release" / name, self.path("release", name))
        for name in (*C_SOURCES, "c/laz.hpp", "c/liblaz.pc.in", "docs/licences.md", "CHANGELOG.md"):
            self.path(name).parent.mkdir(exist_ok=True)
            shutil.copy(TOP / name, self.path(name))
        self.crates(("low", "pub fn one() {}\n"), ("las", "fn main() {}\n"), ("other", "fn main() {}\n"))
        self.path("teller").write_bytes(program)
        self.path("bin").mkdir()
        self.path("bin", "rt").write_text(RT)
        self.path("bin", "rt").chmod(0o755)
        self.release(program)

    def path(self, *names: str) -> Path:
        return self.folder.joinpath(*names)

    def crates(self, *crates: tuple[str, str]) -> None:
        for crate, text in crates:
            self.path("crates", crate, "src").mkdir(parents=True)
            self.source(crate).write_text(text)
        self.path("crates.txt").write_text("# crates\nlow:\nlas: low\nother: low\n")

    def source(self, crate: str = "low", name: str = "lib.rt") -> Path:
        return self.path("crates", crate, "src", name)

    def release(self, program: bytes = TELLER.encode()) -> None:
        """Makes a release of the present sources, of which each file unpacks to this program."""
        lines = ["kit kit of a check", "linker of a check", f"packages {packages()}", f"sources {self.sources()}",
                 f"c_sources {self.c_sources()}"]
        packed, digest = gzip.compress(program, 1), sum_of(program)
        for name in PACKED:
            self.path("release", name + ".gz").write_bytes(packed)
            lines.append(f"{name} {digest}")
        self.path("release", "BUILT_FROM").write_text("".join(line + "\n" for line in lines))

    def document(self) -> None:
        """Writes the SPDX document of the release as it is."""
        text = good([self.path("release", "spdx")])
        self.path("release", "balsamvise.spdx.json").write_text(text)

    def sources(self) -> str:
        return quiet([self.path("release", "sources")]).stdout.decode().strip()

    def c_sources(self) -> str:
        """The sum of the sources for whole files, as release/make notes it."""
        names = [name.rpartition("/")[2] for name in C_SOURCES]
        return sum_of(good(["sha256sum", *names], cwd=self.path("c")).encode())

    def own(self, program: bytes = TELLER.encode()) -> Path:
        """Puts a build of one's own there, of which nothing is noted, with its object."""
        place = self.path("crates", "las", "out", "las")
        place.parent.mkdir(exist_ok=True)
        for name in ("las.o", "las"):
            place.with_name(name).write_bytes(program)
        place.chmod(0o755)
        return place

    def with_rt(self) -> dict[str, str]:
        return {**self.environment, "PATH": f"{self.path('bin')}:{os.environ['PATH']}"}

    def without_rt(self) -> dict[str, str]:
        """An environment with the tools that the launcher uses, and no rt."""
        tools = self.path("tools")
        if not tools.is_dir():
            tools.mkdir()
            for name in TOOLS:
                found = shutil.which(name)
                assert found, name
                os.symlink(found, tools / name)
        return {**self.environment, "PATH": str(tools)}

    def start(self, *words: str, environment: Optional[dict[str, str]] = None,
              **options: Any) -> tuple[Any, Optional[str]]:
        """Runs the launcher, and returns the run and what the program told of its start, None if it did not start."""
        self.forget()
        run = quiet([self.path("las"), *words], env=environment or self.without_rt(), cwd=self.folder, timeout=60,
                    **options)
        return run, self.told.read_text() if self.told.exists() else None

    def forget(self) -> None:
        """Removes what a program told earlier."""
        self.told.unlink(missing_ok=True)

    def ran(self, *words: str, environment: Optional[dict[str, str]] = None,
            **options: Any) -> tuple[Optional[str], str]:
        """Which program ran: own, released, kept, or None; with what was said."""
        run, told = self.start(*words, environment=environment, **options)
        said = (run.stderr or b"").decode()
        if told is None:
            return None, said
        path = os.path.realpath(told.rstrip("\n").rpartition(" program:")[2])
        for name, place in (("own", "crates/las/out/"), ("released", "release/out/")):
            if path.startswith(os.path.join(os.path.realpath(self.folder), place)):
                return name, said
        return "kept", said
