"""What the core reads in a text: the facts that `comedi_facts` prints of it (docs/FORMATS.md, "The facts of a board")."""

import os
import shutil
import subprocess

import jobs

TOP = os.path.dirname(os.path.dirname(os.path.abspath(__file__)))


def program(name, given=None):
    """A program: the one that is given, else that of the folder above this one's, else bin/NAME beside that folder, else NAME
    in PATH."""
    near = os.path.join(os.path.dirname(TOP), "bin", name)
    for path in [given] if given else [os.path.join(TOP, name), os.path.join(TOP, "bin", name), near]:
        if os.path.isfile(path) and os.access(path, os.X_OK):
            return os.path.abspath(path)
    found = shutil.which(given or name)
    if not found:
        raise jobs.Fault("%s: No such file or directory" % (given or name))
    return found


class Facts:
    """The facts of a text: of each its key and the words after it."""

    def __init__(self, text):
        made = subprocess.run([program("comedi_facts"), "describe"], input=text, capture_output=True, check=False)
        answer = made.stdout.decode("ascii", "replace")
        if made.returncode:
            raise jobs.Fault(answer.strip() or made.stderr.decode("utf-8", "replace").strip())
        self._lines = [line.split() for line in answer.splitlines()]

    def all(self, key, *indices):
        """The words after these indices, of each fact that has them."""
        head = [key, *map(str, indices)]
        return [words[len(head):] for words in self._lines if words[:len(head)] == head]

    def one(self, key, *indices):
        """The words of a fact that comes once, or none."""
        return (self.all(key, *indices) or [[]])[0]
