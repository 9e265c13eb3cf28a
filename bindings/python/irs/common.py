"""What the trades of a book have in common: the calendar files, and a file of fixings for all.

Each trade gets all of them. A calendar file at fault would be a fault of every trade, so the engine first reads the
calendar files without a trade. Those at fault go only to a trade that it refuses without them, as a centre is in
no calendar file (rule K12). Then it reports the fault in place of the broken rule. The calendars of people's commands
are tried in the same way (`irs.inputs`).
"""
from __future__ import annotations

import functools
import json
import logging
from pathlib import Path
from typing import Dict, List, NamedTuple, Optional, Sequence, Tuple, Union

from .end_lines import end_of, inside
from .files import read_regular
from .library import MOST_BYTES, MOST_CALENDARS, Answer, Text, as_bytes
from .many import Calendar, Item, answers
from .plain import shown
from .probes import SOUND

LOG = logging.getLogger("irs.book")

#: How an answer begins where a centre of the trade is in no calendar file that it got.
NO_CALENDAR = b"refused K12 "


class Common(NamedTuple):
    """The calendar files and the fixings that all trades have, as bytes or as paths that each worker reads once.

    `calendars` are pairs of a name and the file. `stamp` differs if what the paths hold changes. With `require_end`
    each calendar file and file of fixings has to end with a true end line, also those of the trades.
    """

    calendars: Tuple[Tuple[str, Union[bytes, Path]], ...] = ()
    fixings: Union[bytes, Path, None] = None
    stamp: str = ""
    require_end: bool = False


def common_of(calendars: Sequence[Union[Text, Path]] = (), fixings: Union[Text, Path, None] = None) -> Common:
    """What trades have in common, of files in memory or of paths."""
    named: Dict[str, Union[bytes, Path]] = {}
    for number, calendar in enumerate(calendars, 1):
        name = shown(calendar.name) if isinstance(calendar, Path) else str(number)
        while name in named:
            name += " again"
        named[name] = calendar if isinstance(calendar, Path) else as_bytes(calendar)
    held = fixings if fixings is None or isinstance(fixings, Path) else as_bytes(fixings)
    paths = [it for it in (*calendars, fixings) if isinstance(it, Path)]
    return Common(tuple(named.items()), held, " ".join(stamp_of(path) for path in paths))


def stamp_of(path: Path) -> str:
    """The size and the time of a file, by which a changed one is seen; `-` where it isn't there."""
    try:
        about = path.stat()
    except OSError:
        return "-"
    return f"{about.st_size}:{about.st_mtime_ns}"


def _held(source: Union[bytes, Path]) -> bytes:
    return read_regular(source) if isinstance(source, Path) else source


def packed(calendars: Sequence[Calendar]) -> List[Calendar]:
    """The calendars in as many files as the engine takes: where there are more, some are joined.

    ValueError where they don't fit.
    """
    if len(calendars) <= MOST_CALENDARS:
        return list(calendars)
    groups: List[List[Calendar]] = [[] for _ in range(MOST_CALENDARS)]
    sizes = [0] * MOST_CALENDARS
    for calendar in sorted(calendars, key=lambda it: len(it[1]), reverse=True):
        least = sizes.index(min(sizes))
        groups[least].append(calendar)
        sizes[least] += len(inside(calendar[1])) + 1
    if max(sizes) > MOST_BYTES + 1:
        raise ValueError(f"{len(calendars)} calendar files don't fit into {MOST_CALENDARS} of {MOST_BYTES} bytes")
    return [(_names(group), b"\n".join(inside(held) for _, held in group)) for group in groups]


def _names(calendars: Sequence[Calendar]) -> str:
    return " and ".join(name for name, _ in calendars)


def _refusal(calendars: Sequence[Calendar]) -> Optional[Answer]:
    """What the engine answers for calendar files that it doesn't take together; `None` where it does."""
    answer = answers("check", [Item(json.dumps(SOUND).encode())], packed(calendars))[0]
    return None if answer.status == 0 else answer


class Tried(NamedTuple):
    """Calendar files: those that the engine takes together, and those at fault.

    The files of one fault are one file, or two that have the same centre.
    """

    sound: List[Calendar]
    faults: List[List[Calendar]]


def tried(calendars: Sequence[Calendar]) -> Tried:
    """Tries calendar files with the engine: each alone, then all that it takes alone."""
    alone = [(calendar, _refusal([calendar])) for calendar in calendars]
    faults = [[calendar] for calendar, refusal in alone if refusal is not None]
    taken = [calendar for calendar, refusal in alone if refusal is None]
    if _refusal(taken) is None:
        return Tried(taken, faults)
    sound: List[Calendar] = []
    twice: List[Calendar] = []
    for calendar in taken:
        others = [other for other in twice if _refusal([other, calendar]) is not None]
        if _refusal([*sound, calendar]) is not None:
            others += [other for other in sound if _refusal([other, calendar]) is not None]
        if not others:
            sound.append(calendar)
            continue
        faults += [[other, calendar] for other in others]
        sound = [it for it in sound if it not in others]
        twice += [it for it in (*others, calendar) if it not in twice]
    return Tried(sound, faults)


def left_out(fault: Sequence[Calendar]) -> str:
    """A sentence on the files of one fault: their names, and what the engine says of them."""
    refusal = _refusal(fault)
    return f"left out: {_names(fault)}: {refusal.sentence if refusal else ''}"


def _checked(document: bytes, calendars: Sequence[Calendar]) -> bytes:
    return answers("check", [Item(document)], packed(calendars))[0].text


def lacks_a_centre(document: bytes, calendars: Sequence[Calendar]) -> bool:
    """Whether the engine says that a centre of the document is in none of these calendar files."""
    return _checked(document, calendars).startswith(NO_CALENDAR)


def needed(document: bytes, calendars: Sequence[Calendar], others: Sequence[Calendar] = ()) -> List[Calendar]:
    """The calendars without which the engine's `check` of the document has another answer than with all of them and
    the others."""
    return _needed(document, calendars, others, _checked(document, [*others, *calendars])) if calendars else []


def _needed(
    document: bytes, calendars: Sequence[Calendar], others: Sequence[Calendar], answer: bytes
) -> List[Calendar]:
    # Halves are left out together, so there are few calls where a folder has many files.
    if not calendars or _checked(document, others) == answer:
        return []
    if len(calendars) == 1:
        return list(calendars)
    first, second = calendars[: len(calendars) // 2], calendars[len(calendars) // 2 :]
    return [
        *_needed(document, first, [*others, *second], answer),
        *_needed(document, second, [*others, *first], answer),
    ]


class Loaded:
    """The common files, read. `calendars` are those that every trade gets."""

    def __init__(self, common: Common) -> None:
        read: List[Calendar] = []
        for name, source in common.calendars:
            try:
                read.append((name, _held(source)))
            except OSError as why:
                LOG.warning("the calendar %s can't be read: %s", name, shown(str(why)))
        sound, self.faults = tried(read)
        for fault in self.faults:
            LOG.warning("%s", left_out(fault))
        self.calendars = packed(sound)
        self.fixings = None if common.fixings is None else _held(common.fixings)
        #: What has no true end line and has to have one: the first such calendar file, and the fixings.
        self.unended_calendar: Optional[str] = None
        self.unended_fixings = False
        self.require_end = common.require_end
        if self.require_end:
            self.unended_calendar = next((name for name, held in read if not end_of(held)), None)
            self.unended_fixings = self.fixings is not None and not end_of(self.fixings)

    def answers(self, command: str, items: Sequence[Item], own: Sequence[Calendar] = ()) -> List[Answer]:
        """The answer of each trade, in order. These trades have their own calendars beside the common ones."""
        calendars = packed([*own, *self.calendars])
        found = answers(command, items, calendars, self.fixings)
        lacking = [place for place, answer in enumerate(found) if answer.text.startswith(NO_CALENDAR)]
        if self.faults and lacking:
            faulty = packed([*own, *self.faults[0]])
            again = answers(command, [items[place] for place in lacking], faulty, self.fixings)
            for place, answer in zip(lacking, again):
                found[place] = answer
        return found


@functools.lru_cache(maxsize=2)
def loaded(common: Common) -> Loaded:
    """The common files, read once in a process."""
    return Loaded(common)
