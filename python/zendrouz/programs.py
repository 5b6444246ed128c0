"""Where the programs are: `comedi`, `comedi_serve`, `comedi_facts` and the device library.

A program is looked for in its variable, in the clone or the pack that this package stands in or was installed from, and
in PATH. Nothing is built here.
"""
from __future__ import annotations

import os
import shutil
import signal
import subprocess
from pathlib import Path
from typing import Dict, Iterator, List, NamedTuple, Optional, Sequence, Tuple


class _Place(NamedTuple):
    """Where one program is looked for, and how it comes there."""

    variable: str
    below: Tuple[str, ...]
    build: str


_PROGRAMS: Dict[str, _Place] = {
    "comedi": _Place("ZENDROUZ_COMEDI", ("crates/comedi/out/comedi", "lib/zendrouz/comedi", "bin/comedi"),
                     "`./comedi --build` in a clone builds it"),
    "comedi_serve": _Place("ZENDROUZ_SERVE", ("crates/comedi_serve/out/comedi_serve", "lib/zendrouz/comedi_serve",
                                              "bin/comedi_serve"),
                           "`./comedi_serve --build` in a clone builds it"),
    "comedi_facts": _Place("ZENDROUZ_FACTS", ("crates/comedi_facts/out/comedi_facts", "lib/zendrouz/comedi_facts",
                                              "bin/comedi_facts"),
                           "`./comedi_facts --build` in a clone builds it"),
    "libzendrouz_comedi.so": _Place("ZENDROUZ_LIBRARY", ("clib/out/libzendrouz_comedi.so",
                                                         "lib/zendrouz/libzendrouz_comedi.so",
                                                         "lib/libzendrouz_comedi.so"),
                                    "`make -s -C clib` in a clone builds it"),
}


class Missing(Exception):
    """A program or a folder that isn't there: its name, where it was looked for, and how it is made."""

    def __init__(self, name: str, places: Sequence[str], build: str) -> None:
        super().__init__(name, places, build)
        self.name = name
        self.places = list(places)
        self.build = build

    def __str__(self) -> str:
        return "%s isn't there (%s). It was looked for in %s" % (self.name, self.build, ", ".join(self.places))


def find(name: str) -> Path:
    """The path of one of the programs or of `libzendrouz_comedi.so`; Missing if it isn't there."""
    place = _PROGRAMS[name]
    given = os.environ.get(place.variable, "")
    if given:
        found = _named(name, given)
        if found is None:
            raise Missing(name, ["%s, which is %s" % (place.variable, given)], place.build)
        return found
    tried = ["the variable %s" % place.variable]
    for top in _tops():
        for below in place.below:
            if _fits(name, top / below):
                return top / below
            tried.append(str(top / below))
    in_path = None if _is_library(name) else shutil.which(name)
    if in_path is None:
        raise Missing(name, tried + ([] if _is_library(name) else ["PATH"]), place.build)
    return Path(in_path).absolute()


def folder(name: str) -> Path:
    """A folder of the clone or of the pack, as `docs`, `scripts` or `examples/boards`."""
    tried: List[str] = []
    for top in _tops():
        for path in (top / name, top / "share" / "zendrouz" / name):
            if path.is_dir():
                return path
            tried.append(str(path))
    raise Missing(name, tried, "a clone and a pack have it")


def kill(process: "subprocess.Popen[bytes]") -> int:
    """Kills a program that has a process group of its own, with all that it started. Answers its status."""
    try:
        os.killpg(process.pid, signal.SIGKILL)
    except ProcessLookupError:
        pass
    return process.wait()


def _is_library(name: str) -> bool:
    return name.endswith(".so")


def _fits(name: str, path: Path) -> bool:
    """Whether a file is there and, but for the library, may be run."""
    return path.is_file() and (_is_library(name) or os.access(path, os.X_OK))


def _named(name: str, given: str) -> Optional[Path]:
    """The file that a variable names: a path, or a program of PATH."""
    if _fits(name, Path(given)):
        return Path(given).absolute()
    found = None if _is_library(name) else shutil.which(given)
    return Path(found).absolute() if found else None


def _tops() -> Iterator[Path]:
    """The folders that may be a clone or a pack.

    They are the one around this package, the one that it was installed from, and those around what is named.
    """
    seen = set()
    named = [os.environ.get("ZENDROUZ_COMEDI", ""), os.environ.get("ZENDROUZ_SERVE", ""), shutil.which("comedi") or ""]
    here = Path(__file__).resolve().parent
    tops = [here.parents[1]] if here.parent.name == "python" else []
    if (here / "place.txt").is_file():
        tops.append(Path((here / "place.txt").read_text(encoding="utf-8").rstrip("\n")))
    for path in [Path(text).resolve() for text in named if text]:
        tops += [parent for parent in list(path.parents)[:4] if _is_top(parent)]
    for top in tops:
        if top not in seen:
            seen.add(top)
            yield top


def _is_top(path: Path) -> bool:
    """Whether a folder looks like a clone, an unpacked archive, or what a package is installed into."""
    return (path / "docs" / "REFUSALS.md").is_file() or (path / "share" / "zendrouz" / "docs").is_dir()
