"""Makes the wheel of this package for `pip install ./python`, with the standard library alone: nothing is downloaded.

The wheel keeps in `zendrouz/place.txt` where the clone or the pack stands, so that its programs are found from
anywhere.
"""
import base64
import hashlib
import re
import tarfile
import zipfile
from pathlib import Path
from typing import Any, Dict, Optional

HERE = Path(__file__).resolve().parent
SETTINGS = (HERE / "pyproject.toml").read_text(encoding="utf-8")


def setting(name: str) -> str:
    """A text of pyproject.toml."""
    return str(re.findall(r'^%s = "(.*)"$' % re.escape(name), SETTINGS, re.M)[0])


def entry_points() -> str:
    """The groups of entry points of pyproject.toml, each with one."""
    found = re.findall(r'^\[project\.entry-points\.(\w+)\]\n"?([\w.]+)"? = "(.*)"$', SETTINGS, re.M)
    return "".join("[%s]\n%s = %s\n" % entry for entry in found)


TITLE = "%s-%s" % (setting("name"), setting("version"))


def own_files() -> Dict[str, str]:
    """What the wheel says of itself."""
    info = TITLE + ".dist-info/"
    return {
        info + "METADATA": "Metadata-Version: 2.1\nName: %s\nVersion: %s\nSummary: %s\nRequires-Python: %s\n" % (
            setting("name"), setting("version"), setting("description"), setting("requires-python")),
        info + "WHEEL": "Wheel-Version: 1.0\nGenerator: zendrouz\nRoot-Is-Purelib: true\nTag: py3-none-any\n",
        info + "entry_points.txt": entry_points(),
    }


def package_files() -> Dict[str, str]:
    """The package's files, and the place of the clone or the pack."""
    files = sorted((HERE / "zendrouz").glob("*.py")) + [HERE / "zendrouz" / "py.typed"]
    made = {"zendrouz/" + path.name: path.read_text(encoding="utf-8") for path in files}
    if (HERE.parent / "docs" / "REFUSALS.md").is_file():
        made["zendrouz/place.txt"] = "%s\n" % HERE.parent
    return made


def make_wheel(folder: str, files: Dict[str, str]) -> str:
    """Writes a wheel of files by their names, and answers its name."""
    rows = []
    name = TITLE + "-py3-none-any.whl"
    with zipfile.ZipFile(Path(folder) / name, "w", zipfile.ZIP_DEFLATED) as wheel:
        for path, text in files.items():
            data = text.encode("utf-8")
            digest = base64.urlsafe_b64encode(hashlib.sha256(data).digest()).decode().rstrip("=")
            rows.append("%s,sha256=%s,%d\n" % (path, digest, len(data)))
            wheel.writestr(zipfile.ZipInfo(path), data)
        record = TITLE + ".dist-info/RECORD"
        wheel.writestr(zipfile.ZipInfo(record), "".join(rows) + record + ",,\n")
    return name


def build_wheel(wheel_directory: str, config_settings: Optional[Dict[str, Any]] = None,
                metadata_directory: Optional[str] = None) -> str:
    """The wheel of the package."""
    return make_wheel(wheel_directory, {**package_files(), **own_files()})


def build_editable(wheel_directory: str, config_settings: Optional[Dict[str, Any]] = None,
                   metadata_directory: Optional[str] = None) -> str:
    """A wheel that leads to this folder, for `pip install -e`."""
    return make_wheel(wheel_directory, {"zendrouz.pth": "%s\n" % HERE, **own_files()})


def build_sdist(sdist_directory: str, config_settings: Optional[Dict[str, Any]] = None) -> str:
    """An archive of this folder's sources."""
    name = TITLE + ".tar.gz"
    with tarfile.open(Path(sdist_directory) / name, "w:gz") as archive:
        for path in [HERE / "pyproject.toml", HERE / "backend.py", *sorted((HERE / "zendrouz").glob("*.py")),
                     HERE / "zendrouz" / "py.typed"]:
            archive.add(path, "%s/%s" % (TITLE, path.relative_to(HERE)))
    return name
