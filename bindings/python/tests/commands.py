"""Runs a console script in this process, in a folder of its own, and gives back what it printed."""
from __future__ import annotations

import contextlib
import io
import os
import sys
import tempfile
import unittest
from pathlib import Path
from typing import Callable, List, NamedTuple, Optional, Union

HERE = Path(__file__).resolve().parent
TOP = HERE.parents[2]
sys.path.insert(0, str(HERE.parent))

Content = Union[str, bytes]


class Ended(NamedTuple):
    """How a command ended: its status, standard output and standard error."""

    status: int
    out: str
    err: str


def ran(main: Callable[[Optional[List[str]]], int], *words: str) -> Ended:
    """Runs a command's `main` with these words."""
    out, err = io.StringIO(), io.StringIO()
    with contextlib.redirect_stdout(out), contextlib.redirect_stderr(err):
        status = main(list(words))
    return Ended(status, out.getvalue(), err.getvalue())


class InAFolder(unittest.TestCase):
    """Each test runs in an empty folder."""

    def setUp(self) -> None:
        folder = tempfile.TemporaryDirectory()
        self.addCleanup(folder.cleanup)
        self.folder = Path(folder.name)
        before = Path.cwd()
        os.chdir(self.folder)
        self.addCleanup(os.chdir, before)

    def write(self, name: str, content: Content) -> None:
        """Writes a file of the folder."""
        (self.folder / name).write_bytes(content.encode() if isinstance(content, str) else content)

    def files(self) -> List[str]:
        """The names in the folder."""
        return sorted(path.name for path in self.folder.iterdir())

    def assert_refused(self, ended: Ended, says: str, files: List[str]) -> None:
        """The command ended with 2 and one sentence that has these words, and the folder has these files alone."""
        self.assertEqual(ended.status, 2, ended)
        self.assertEqual(ended.out, "")
        self.assertEqual(ended.err.count("\n"), 1, ended.err)
        self.assertIn(says, ended.err)
        self.assertNotIn("Traceback", ended.err)
        self.assertEqual(self.files(), sorted(files))
