"""What the scripts here share about the kit: its own module on crates, and libraries that are built already."""
import importlib.machinery
import os
import shutil
import sys
import types
from pathlib import Path


def load():
    """The kit's module about crates, which knows when a library is up to date."""
    rt = shutil.which("rt") or sys.exit("the kit's command rt isn't there")
    path = Path(rt).resolve().parent / "rtlib.py"
    kit = types.ModuleType("rtlib")
    kit.__file__ = str(path)
    importlib.machinery.SourceFileLoader("rtlib", str(path)).exec_module(kit)
    return kit


def take_libraries(kit, top, name):
    """Lets the kit's commands take the libraries below a crate as `rt ci` built them; it leaves no mark that says so. Gives the
    name of one that isn't built, if any."""
    os.chdir(Path(top, "crates", name))
    for library in kit.Crate(os.getcwd(), str(top), {}).below():
        if not os.path.isdir(library.rlib):
            return library.name
        Path(library.rlib).parent.joinpath("stamp").write_text(library.stamp(), encoding="utf-8")
    return None
