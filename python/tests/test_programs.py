"""Where programs are looked for."""
import os
import shutil
import stat
import tempfile
import unittest
import zipfile
from pathlib import Path
from typing import Optional
from unittest import mock

import zendrouz
from needed import TOP, Case, run_python
from zendrouz import Missing, find
from zendrouz.programs import folder

VARIABLES = ("ZENDROUZ_COMEDI", "ZENDROUZ_SERVE", "ZENDROUZ_LIBRARY")


def make_program(path: Path) -> Path:
    path.parent.mkdir(parents=True, exist_ok=True)
    path.write_text("#!/bin/sh\n")
    path.chmod(path.stat().st_mode | stat.S_IXUSR)
    return path


class Find(Case):
    def setUp(self) -> None:
        made = tempfile.TemporaryDirectory()
        self.addCleanup(made.cleanup)
        self.top = Path(made.name).resolve()

    def found(self, name: str, top: Optional[Path] = None, **variables: str) -> str:
        """What a copy of the package in a clone or a pack finds, or what it says is missing."""
        package = (top or self.top) / "python" / "zendrouz"
        if not package.exists():
            shutil.copytree(Path(zendrouz.__file__).parent, package, ignore=shutil.ignore_patterns("__pycache__"))
        script = "import sys, zendrouz\ntry: print(zendrouz.find(sys.argv[1]))\n" \
                 "except zendrouz.Missing as error: print(error)"
        settings = {**dict.fromkeys(VARIABLES, ""), "PATH": "/usr/bin:/bin", **variables, "PYTHONPATH": str(package.parent)}
        return run_python("-c", script, name, cwd="/", variables=settings).stdout.strip()

    def test_a_variable_comes_first(self) -> None:
        program = make_program(self.top / "mine")
        make_program(self.top / "crates/comedi/out/comedi")
        self.assertEqual(self.found("comedi", ZENDROUZ_COMEDI=str(program)), str(program))
        self.assertEqual(self.found("comedi_serve", ZENDROUZ_SERVE=str(program)), str(program))

    def test_a_variable_may_name_a_program_of_path(self) -> None:
        program = make_program(self.top / "folder/mine")
        self.assertEqual(self.found("comedi", ZENDROUZ_COMEDI="mine", PATH="%s:/usr/bin:/bin" % program.parent),
                         str(program))

    def test_a_variable_that_names_nothing_is_an_error(self) -> None:
        make_program(self.top / "crates/comedi/out/comedi")
        said = self.found("comedi", ZENDROUZ_COMEDI="/nowhere/comedi")
        self.assertIn("ZENDROUZ_COMEDI, which is /nowhere/comedi", said)

    def test_a_clone(self) -> None:
        for below, name in (("crates/comedi/out/comedi", "comedi"),
                            ("crates/comedi_serve/out/comedi_serve", "comedi_serve"),
                            ("clib/out/libzendrouz_comedi.so", "libzendrouz_comedi.so")):
            program = make_program(self.top / below)
            self.assertEqual(self.found(name), str(program))

    def test_a_pack(self) -> None:
        for below, name in (("lib/zendrouz/comedi", "comedi"), ("bin/comedi_serve", "comedi_serve"),
                            ("lib/zendrouz/libzendrouz_comedi.so", "libzendrouz_comedi.so")):
            program = make_program(self.top / below)
            self.assertEqual(self.found(name), str(program))

    def test_a_library_needs_no_right_to_run(self) -> None:
        library = self.top / "lib/libzendrouz_comedi.so"
        library.parent.mkdir()
        library.write_text("")
        self.assertEqual(self.found("libzendrouz_comedi.so"), str(library))

    def test_path_leads_to_a_clone_and_its_texts(self) -> None:
        clone = self.top / "clone"
        script = make_program(clone / "comedi")
        other = self.top / "other"
        path = "%s:/usr/bin:/bin" % clone
        self.assertEqual(self.found("comedi", other, PATH=path), str(script))
        (clone / "docs").mkdir()
        (clone / "docs" / "REFUSALS.md").write_text("")
        program = make_program(clone / "crates/comedi/out/comedi")
        self.assertEqual(self.found("comedi", other, PATH=path), str(program))
        library = make_program(clone / "clib/out/libzendrouz_comedi.so")
        self.assertEqual(self.found("libzendrouz_comedi.so", other, PATH=path), str(library))

    def test_what_is_missing_is_named_with_all_places_and_how_to_build_it(self) -> None:
        said = self.found("comedi_serve")
        self.assertTrue(said.startswith("comedi_serve isn't there (`./comedi_serve --build` in a clone builds it)."))
        for place in ("ZENDROUZ_SERVE", str(self.top / "crates/comedi_serve/out/comedi_serve"),
                      str(self.top / "lib/zendrouz/comedi_serve"), "PATH"):
            self.assertIn(place, said)

    def test_folders_of_the_clone(self) -> None:
        self.assertEqual(folder("examples/boards"), TOP / "examples" / "boards")
        with self.assertRaises(Missing) as caught:
            folder("no_such_folder")
        self.assertEqual(caught.exception.name, "no_such_folder")

    def test_in_this_process(self) -> None:
        program = make_program(self.top / "mine")
        with mock.patch.dict(os.environ, ZENDROUZ_COMEDI=str(program)):
            self.assertEqual(find("comedi"), program)


class Installed(Case):
    """The package as `pip install ./python` puts it, without pip."""

    def setUp(self) -> None:
        made = tempfile.TemporaryDirectory()
        self.addCleanup(made.cleanup)
        self.folder = Path(made.name).resolve()

    def made(self, kind: str) -> "zipfile.ZipFile":
        script = "import sys, backend; print(getattr(backend, sys.argv[1])(sys.argv[2]))"
        said = run_python("-c", script, kind, self.folder, cwd=TOP / "python").stdout.strip()
        wheel = zipfile.ZipFile(self.folder / said)
        self.addCleanup(wheel.close)
        self.assertIsNone(wheel.testzip())
        return wheel

    def test_it_finds_the_clone_that_it_was_installed_from(self) -> None:
        self.made("build_wheel").extractall(self.folder / "site")
        script = "import zendrouz.programs; print(zendrouz.__file__, zendrouz.programs.folder('examples/boards'))"
        said = run_python("-c", script, cwd="/", variables={"PYTHONPATH": str(self.folder / "site")}).stdout.split()
        self.assertEqual(said, [str(self.folder / "site/zendrouz/__init__.py"), str(TOP / "examples/boards")])

    def test_the_wheel_has_all_of_the_package_and_its_plugin(self) -> None:
        wheel = self.made("build_wheel")
        files = {"zendrouz/" + path.name for path in (TOP / "python" / "zendrouz").glob("*.py")}
        self.assertEqual({name for name in wheel.namelist() if name.endswith(".py")}, files)
        self.assertIn("zendrouz/py.typed", wheel.namelist())
        self.assertEqual(wheel.read("zendrouz-1.dist-info/entry_points.txt").decode(),
                         "[pytest11]\nzendrouz.pytest_plugin = zendrouz.pytest_plugin\n")
        listed = wheel.read("zendrouz-1.dist-info/RECORD").decode().splitlines()
        self.assertEqual([line.split(",")[0] for line in listed], wheel.namelist())

    def test_an_editable_one_leads_to_the_sources(self) -> None:
        self.assertEqual(self.made("build_editable").read("zendrouz.pth").decode().strip(), str(TOP / "python"))


if __name__ == "__main__":
    unittest.main()
