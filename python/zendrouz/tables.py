"""The rows of a sweep in a file of CSV, by which an interrupted sweep goes on."""
from __future__ import annotations

import csv
import hashlib
import json
import os
import tempfile
from pathlib import Path
from typing import Any, Dict, List, Mapping, Optional

from .texts import write_file

_DIGEST = "job"


def cell_of(value: Any) -> str:
    """A value as a cell, from which `value_of` makes the same value: a plain text as it is, and all else as JSON."""
    if hasattr(value, "item"):
        value = value.item()
    if isinstance(value, str) and value.isprintable() and value_of(value) == value:
        return value
    return json.dumps(value, default=str)


def value_of(cell: str) -> Any:
    try:
        return json.loads(cell)
    except ValueError:
        return cell


def digest_of(command: str, point: Mapping[str, Any], job: str) -> str:
    """What a row is known by: it changes where the command, the point or the text of its job does."""
    words = [command] + ["%s=%s" % (name, cell_of(value)) for name, value in point.items()] + [job]
    return hashlib.sha256("\n".join(words).encode()).hexdigest()[:16]


class Table:
    """Rows in a file of CSV, or in none. Its last column has the digest of each row."""

    def __init__(self, path: Optional[Path]) -> None:
        self.path = path
        self._columns: List[str] = []
        self._rows: Dict[str, Dict[str, Any]] = {}
        if path and path.exists():
            self._read(path)
        self._file = open(path, "a", encoding="utf-8", newline="") if path else None
        self._writer = csv.writer(self._file, lineterminator="\n") if self._file else None

    def _read(self, path: Path) -> None:
        whole = path.read_bytes()
        text = whole[:whole.rfind(b"\n") + 1]
        lines = list(csv.reader(text.decode().splitlines()))
        if lines and lines[0][-1:] != [_DIGEST] or whole and not lines:
            raise ValueError("%s: not the rows of a sweep" % path)
        if len(text) < len(whole):  # the line that was being written when the sweep broke off
            os.truncate(path, len(text))
        self._columns = lines[0] if lines else []
        for cells in lines[1:]:
            self._rows[cells[-1]] = dict(zip(self._columns, map(value_of, cells[:-1])))

    def row(self, digest: str) -> Optional[Dict[str, Any]]:
        """All columns of the row that is known by a digest, if it is there."""
        return self._rows.get(digest)

    def append(self, row: Mapping[str, Any], digest: str) -> None:
        """Writes a row. All rows of a table have the same columns."""
        if self._writer is None or self._file is None:
            return
        columns = [*row, _DIGEST]
        if not self._columns:
            self._writer.writerow(columns)
            self._columns = columns
        if columns != self._columns:
            raise ValueError("%s: its columns are %s, and those of a new row %s"
                             % (self.path, ", ".join(self._columns), ", ".join(columns)))
        self._writer.writerow([*map(cell_of, row.values()), digest])
        self._file.flush()

    def leave(self, job: str) -> Path:
        """Leaves the text of a job that failed in a file: beside the table, or where temporary files are."""
        if self.path:
            path = self.path.with_suffix(".failed.txt")
        else:
            path = Path(tempfile.mkdtemp(prefix="zendrouz_"), "failed.txt")
        write_file(path, job)
        return path

    def close(self) -> None:
        if self._file:
            self._file.close()
