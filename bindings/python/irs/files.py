"""How the commands read and write files. Nothing here is proved.

A file is written whole or not at all: to a file beside it first, which then takes its name.
"""
from __future__ import annotations

import contextlib
import errno
import io
import os
import stat
import sys
import tempfile
from pathlib import Path
from typing import BinaryIO, Iterator, Optional

from .library import MOST_BYTES
from .plain import shown
from .tools import BadInput


def read_regular(path: Path) -> bytes:
    """The bytes of a file, at most one more than the engine takes; OSError where it is no file to be read.

    It is for a run that nobody watches: a pipe that nobody writes to isn't waited for.
    """
    with open(path, "rb", opener=_opened) as file:
        if not stat.S_ISREG(os.fstat(file.fileno()).st_mode):
            raise OSError(errno.EINVAL, "is no regular file", str(path))
        return file.read(MOST_BYTES + 1)


def _opened(path: str, flags: int) -> int:
    return os.open(path, flags | os.O_NONBLOCK)


def read_bytes(path: Path) -> bytes:
    """The bytes of a file; `BadInput` where it can't be read."""
    return _read(path, -1)


def read_for_engine(path: Path) -> bytes:
    """The bytes of a file, at most one more than the engine takes: it says then that the file is too long.

    `BadInput` where it can't be read.
    """
    return _read(path, MOST_BYTES + 1)


def _read(path: Path, most: int) -> bytes:
    try:
        with path.open("rb") as file:
            return file.read(most)
    except OSError as why:
        raise BadInput(f"{shown(str(path))} can't be read: {why.strerror or why}") from why


def read_text(path: Path) -> str:
    """The text of a UTF-8 file, without a byte order mark; `BadInput` where it can't be read as one."""
    try:
        return read_bytes(path).decode("utf-8-sig")
    except UnicodeDecodeError as why:
        raise BadInput(f"{shown(str(path))} isn't UTF-8 text: byte {why.start + 1} can't be read") from why


@contextlib.contextmanager
def whole_file(path: Path) -> Iterator[BinaryIO]:
    """A file to be written, which appears whole at the end, or not at all where something fails.

    A link keeps its place, and what it leads to is replaced. `BadInput` where it can't be written, or is a
    folder, a device or a pipe.
    """
    if path.exists() and not path.is_file():
        raise BadInput(f"{shown(str(path))} can't be written: it isn't a file")
    path = path.resolve()
    unfinished: Optional[str] = None
    try:
        handle, unfinished = tempfile.mkstemp(prefix=f".{path.name[:200]}.", dir=path.parent)
        with os.fdopen(handle, "wb") as out:
            yield out
            out.flush()
            os.fsync(out.fileno())
        os.chmod(unfinished, 0o666 & ~_umask())
        os.replace(unfinished, path)
        unfinished = None
    except OSError as why:
        raise BadInput(f"{shown(str(path))} can't be written: {why.strerror or why}") from why
    finally:
        if unfinished is not None:
            os.unlink(unfinished)


def _umask() -> int:
    now = os.umask(0)
    os.umask(now)
    return now


def write_whole(text: str, path: Optional[Path]) -> None:
    """Writes a text in UTF-8 to a file, which appears whole or not at all, or to standard output for `None`."""
    if path is not None:
        with whole_file(path) as out:
            out.write(text.encode())
        return
    if isinstance(sys.stdout, io.TextIOWrapper):
        sys.stdout.reconfigure(encoding="utf-8", newline="\n")
    sys.stdout.write(text)
    sys.stdout.flush()
