"""The files that a look is made of: a document, fixings, another party's cash flows and calendars.

A file is read only as far as the engine's limit and one byte more, so the engine itself answers
that it is too long. Calendars may be a folder: then the engine says which of its files the
document needs.
"""
from __future__ import annotations

import sys
from pathlib import Path
from typing import Container, Dict, Iterable, List, NamedTuple, Optional, Sequence, Tuple, TypeVar

from .common import lacks_a_centre, left_out, needed, packed, tried
from .files import read_for_engine, read_regular
from .library import MOST_BYTES, MOST_CALENDARS
from .plain import shown
from .tools import BadInput

#: A calendar file: its path, or its name and bytes.
Calendar = TypeVar("Calendar")


class Named(NamedTuple):
    """A file: the name that it is shown by, and its bytes."""

    name: str
    content: bytes


class Inputs(NamedTuple):
    """What a look is made of. `fixings` and `flows` are `None` where there are none; `notes` are
    sentences on calendar files that were left out."""

    document: Named
    fixings: Optional[Named] = None
    flows: Optional[Named] = None
    calendars: Sequence[Named] = ()
    notes: Sequence[str] = ()

    def files(self) -> List[Named]:
        """All files, in the order of a command's words."""
        return [file for file in (self.document, self.fixings, self.flows, *self.calendars) if file is not None]


def read_named(path: Path) -> Named:
    """A file by its path; `-` is standard input. Raises `BadInput`."""
    if str(path) == "-":
        return Named("standard input", sys.stdin.buffer.read(MOST_BYTES + 1))
    return Named(path.name, read_for_engine(path))


def at_most_sixteen(calendars: Sequence[Calendar]) -> List[Calendar]:
    """The calendar files. Raises `BadInput` where there are more than the engine takes."""
    if len(calendars) > MOST_CALENDARS:
        raise BadInput(f"there are {len(calendars)} calendar files, and the engine takes {MOST_CALENDARS}")
    return list(calendars)


def untaken(stem: str, ending: str, taken: Container[str]) -> str:
    """The stem and the ending, with a number between them where that name is taken.

    >>> untaken("a", ".xml", {"a.xml"})
    'a (2).xml'
    """
    name, number = stem + ending, 1
    while name in taken:
        number += 1
        name = f"{stem} ({number}){ending}"
    return name


def _by_word(files: Sequence[Named]) -> Dict[str, Named]:
    """The files by names to show, of which no two are the same."""
    found: Dict[str, Named] = {}
    for file in files:
        found[untaken(shown(file.name), "", found)] = file
    return found


class Calendars:
    """Calendar files, which the engine has tried without a document: those that a person named,
    and those of a folder.

    Files of the folder at fault are left out. So are two files that have the same centre, one of
    them of the folder: which of them is meant isn't known. `notes` has a sentence on each. A fault
    of the named files alone is left to the engine's answer.
    """

    def __init__(self, named: Sequence[Named], folder: Sequence[Named] = (), notes: Sequence[str] = ()) -> None:
        """Tries the files; `notes` are sentences on what couldn't be read. Raises `BadInput` where
        the engine doesn't take so many."""
        self._files = _by_word([*at_most_sixteen(named), *folder])
        words = list(self._files)
        self._named, self._folder = words[: len(named)], words[len(named) :]
        self._faults: List[List[str]] = []
        self.notes = list(notes)
        if self._folder:
            self._try()

    def _try(self) -> None:
        try:
            sound, faults = tried(self._contents(self._files))
            packed(sound)
        except ValueError as why:
            raise BadInput(str(why)) from why
        found = [[word for word, _ in fault] for fault in faults]
        if any(set(fault) <= set(self._named) for fault in found):
            self._folder = []
            return
        self._faults = found
        self.notes += [left_out(fault) for fault in faults]
        taken = {word for word, _ in sound}
        self._named = [word for word in self._named if word in taken]
        self._folder = [word for word in self._folder if word in taken]

    def _contents(self, words: Iterable[str]) -> List[Tuple[str, bytes]]:
        return [(word, self._files[word].content) for word in words]

    @property
    def left_out(self) -> List[Named]:
        """The files that are left out."""
        return [self._files[word] for word in dict.fromkeys(word for fault in self._faults for word in fault)]

    def needed_by(self, document: Named) -> List[Named]:
        """The files for a document: those that were named, and those of the folder without which
        the engine has another answer.

        Where a centre is in none of them and files were left out, the first ones at fault: the
        engine's answer is then that fault.
        """
        named, folder = self._contents(self._named), self._contents(self._folder)
        if self._faults and lacks_a_centre(document.content, [*named, *folder]):
            words = self._faults[0]
        else:
            words = [*self._named, *(word for word, _ in needed(document.content, folder, named))]
        return [self._files[word] for word in words]


def folder_at(path: Path) -> Tuple[List[Named], List[str]]:
    """The calendar files of a folder, and a sentence on each that can't be read."""
    files: List[Named] = []
    notes: List[str] = []
    for file in sorted(path.glob("*.cal")):
        try:
            files.append(Named(file.name, read_regular(file)))
        except OSError as why:
            notes.append(f"left out: {shown(file.name)}: it can't be read: {why.strerror or why}")
    return files, notes


def calendars_at(paths: Sequence[Path]) -> Calendars:
    """The calendar files of paths: a file is named, and a folder has those that a document may
    need. Raises `BadInput`."""
    named = [read_named(path) for path in paths if not path.is_dir()]
    folders = [folder_at(path) for path in paths if path.is_dir()]
    return Calendars(
        named, [file for files, _ in folders for file in files], [note for _, notes in folders for note in notes]
    )
