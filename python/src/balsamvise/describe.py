"""Tells what is in LAS and LAZ files, by their heads and chunk tables: no point is read.

    python -m balsamvise describe tile.laz
    python -m balsamvise describe tiles/ --json
    python -m balsamvise describe tiles/ --geojson >tiles.geojson
"""
from __future__ import annotations

import argparse
import json
import os
import sys
from collections.abc import Iterable, Iterator
from typing import Any, Optional

from . import footprints
from .errors import LibraryMissing, Refused
from .facts import read_facts
from .tables import shown, table_of, text_of_facts

ENDINGS = (".las", ".laz")
DONE, NOT_ALL, USAGE, NO_LIBRARY, NO_OUTPUT = range(5)


def files_below(folder: str) -> list[str]:
    """The files below a folder whose names end in .las or .laz, in the order of their names."""
    found = []
    for place, folders, names in os.walk(folder):
        folders.sort()
        found += [os.path.join(place, name) for name in sorted(names) if name.lower().endswith(ENDINGS)]
    return found


def names_in(data: bytes) -> list[str]:
    """The names of a list: one a line, or with a NUL after each if the list holds a NUL."""
    end = b"\0" if b"\0" in data else b"\n"
    return [os.fsdecode(name) for name in data.split(end) if name]


def _named(options: argparse.Namespace) -> list[str]:
    """The names of the command line and of the lists, with the files below the folders among them."""
    names = list(options.names)
    for name in options.lists or []:
        if name == "-":
            names += names_in(sys.stdin.buffer.read())
        else:
            with open(name, "rb") as file:
                names += names_in(file.read())
    return [file for name in names for file in (files_below(name) or [name] if os.path.isdir(name) else [name])]


def one(name: str) -> dict[str, Any]:
    """What is in a file; or its name with `refused` or `error`, if it is not read here or can't be read."""
    try:
        return read_facts(name)
    except Refused as error:
        return {"name": name, "refused": {"number": error.number, "cause": error.cause}}
    except OSError as error:
        return {"name": name, "error": error.strerror or str(error)}
    except MemoryError:
        return {"name": name, "error": "no memory"}


def line_of(facts: dict[str, Any]) -> Optional[str]:
    """The line on standard error for a file that is not described, as `las` has it; else None."""
    if "refused" in facts:
        return f"refused: {facts['name']}: {facts['refused']['number']} {facts['refused']['cause']}"
    return f"read fault: {facts['name']}: {facts['error']}" if "error" in facts else None


def _put_json(all_facts: Iterator[dict[str, Any]]) -> None:
    """One object with a line for each file, written as each is read."""
    before = '{"balsamvise_describe": 1, "files": ['
    for facts in all_facts:
        sys.stdout.write(f"{before}\n{json.dumps(facts, allow_nan=False)}")
        before = ","
    sys.stdout.write("\n]}\n" if before == "," else f"{before}]}}\n")


def _put_geojson(all_facts: Iterator[dict[str, Any]], native: bool) -> int:
    features = []
    for facts in all_facts:
        line = line_of(facts)
        features.append(footprints.feature(facts, native) if line is None
                        else footprints.refused_feature(facts["name"], line))
    collection: dict[str, Any] = {"type": "FeatureCollection", "features": features}
    found = footprints.systems(features)
    if native and len(found) > 1:
        _say(f"the files have several coordinate reference systems, EPSG {', '.join(map(str, found))}: a GeoJSON by "
             "--native-crs has one")
        return USAGE
    if native and found:
        collection["crs"] = footprints.crs_member(found[0])
    sys.stdout.write(json.dumps(collection, allow_nan=False) + "\n")
    without = [each["properties"] for each in features if each["properties"].get("no_footprint")]
    for properties in without:
        _say(f"no footprint: {properties['name']}: {properties['no_footprint']}")
    return NOT_ALL if without else DONE


def _put_text(all_facts: Iterator[dict[str, Any]], names: int) -> None:
    if names == 1:
        sys.stdout.writelines(text_of_facts(facts) for facts in all_facts if line_of(facts) is None)
    else:
        sys.stdout.writelines(table_of(list(all_facts)))


def _say(line: str) -> None:
    try:
        print(shown(line), file=sys.stderr)
    except OSError:
        pass


def _words(arguments: list[str]) -> argparse.Namespace:
    parser = argparse.ArgumentParser(
        prog="balsamvise describe", formatter_class=argparse.RawDescriptionHelpFormatter,
        description=(__doc__ or "").split("\n")[0],
        epilog="Status: 0 if all files are described, 1 if one is refused, can't be read or has no footprint,\n"
               "2 for wrong words, 3 if liblaz or pyproj is missing, 4 if standard output can't be written.")
    parser.add_argument("names", nargs="*", metavar="FILE", help="a LAS or LAZ file, or a folder of them")
    parser.add_argument("--list", dest="lists", action="append", metavar="FILE",
                        help="names from a file, one a line, or with a NUL after each; - is standard input")
    form = parser.add_mutually_exclusive_group()
    form.add_argument("--json", action="store_true", help="as JSON, by describe.schema.json of the package")
    form.add_argument("--geojson", action="store_true", help="the boxes as GeoJSON in WGS 84, by pyproj")
    parser.add_argument("--native-crs", action="store_true",
                        help="with --geojson: coordinates as in the files, and a member `crs`, as before RFC 7946")
    options = parser.parse_args(arguments)
    if options.native_crs and not options.geojson:
        parser.error("--native-crs goes with --geojson")
    if not options.names and not options.lists:
        parser.error("no file is named")
    return options


def _has_pyproj() -> bool:
    try:
        import pyproj  # noqa: F401
    except ImportError:
        return False
    return True


def _described(names: Iterable[str], failed: list[str]) -> Iterator[dict[str, Any]]:
    for name in names:
        facts = one(name)
        line = line_of(facts)
        if line:
            failed.append(name)
            _say(line)
        yield facts


def _run(options: argparse.Namespace) -> int:
    if options.geojson and not options.native_crs and not _has_pyproj():
        _say("GeoJSON is in WGS 84, which needs pyproj; --native-crs does without")
        return NO_LIBRARY
    try:
        names = _named(options)
    except OSError as error:
        _say(f"read fault: {error.filename}: {error.strerror}")
        return NOT_ALL
    failed: list[str] = []
    all_facts = _described(names, failed)
    status = DONE
    if options.json:
        _put_json(all_facts)
    elif options.geojson:
        status = _put_geojson(all_facts, options.native_crs)
    else:
        _put_text(all_facts, len(names))
    sys.stdout.flush()
    return status or (NOT_ALL if failed else DONE)


def main(arguments: list[str]) -> int:
    """Describes the files that the words name; answers the status."""
    try:
        options = _words(arguments)
    except SystemExit as ended:  # argparse has said what is wrong, or has shown the help
        return ended.code if isinstance(ended.code, int) else USAGE
    try:
        return _run(options)
    except LibraryMissing as error:
        _say(str(error))
        return NO_LIBRARY
    except OSError as error:
        if not isinstance(error, BrokenPipeError):  # as of `head`, which has read enough
            _say(f"write fault: {error.strerror or error}")
        os.dup2(os.open(os.devnull, os.O_WRONLY), 1)  # the interpreter is not to write there again at its end
        return NO_OUTPUT


if __name__ == "__main__":
    sys.exit(main(sys.argv[1:]))
