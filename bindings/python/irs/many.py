"""One command over many trades that have calendars and fixings in common: what a book asks of the library."""
from __future__ import annotations

from typing import Dict, List, NamedTuple, Optional, Sequence, Tuple

from .documents import word_for
from .errors import OutOfMemory, error_of
from .library import Answer, Text, run_each

#: A calendar file: the name that a sentence shows, and its bytes.
Calendar = Tuple[str, bytes]

#: The most trades of a call. Their texts are in memory together, so there are fewer where the texts are long.
MOST_TRADES = 256
MOST_TRADES_OF = {"schedule": 64, "emit": 16, "emit-xml": 8}


class Item(NamedTuple):
    """The files of one trade. Fixings of its own come in the place of the common ones."""

    document: bytes
    flows: Optional[bytes] = None
    fixings: Optional[bytes] = None


def answers(
    command: str, items: Sequence[Item], calendars: Sequence[Calendar] = (), fixings: Optional[bytes] = None
) -> List[Answer]:
    """The answer of each trade, in order: the one that it has alone. Calendars differ in their names.

    Trades whose words are the same go to the library together, which reads the common files once for them.
    `OutOfMemory` where memory runs out for any of them.
    """
    groups: Dict[Tuple[Tuple[str, ...], bool], List[int]] = {}
    for place, item in enumerate(items):
        words = _words(command, item, calendars, fixings)
        groups.setdefault((words, item.fixings is None), []).append(place)
    found: Dict[int, Answer] = {}
    most = MOST_TRADES_OF.get(command, MOST_TRADES)
    for (words, with_common), places in groups.items():
        common = _common_files(calendars, fixings if with_common else None)
        for start in range(0, len(places), most):
            part = places[start : start + most]
            found.update(zip(part, run_each(words, common, [_own_files(items[place]) for place in part])))
    if any(answer.status == OutOfMemory.status for answer in found.values()):
        raise error_of(OutOfMemory.status, "", "")
    return [found[place] for place in range(len(items))]


def _words(command: str, item: Item, calendars: Sequence[Calendar], fixings: Optional[bytes]) -> Tuple[str, ...]:
    """The words of the command for one trade."""
    words = [command, word_for("document", item.document)]
    if command != "check":
        words.append("-" if item.fixings is None and fixings is None else "fixings")
    if command == "audit":
        words.append("flows" if item.flows is None else word_for("flows", item.flows))
    return (*words, *(_calendar_word(name) for name, _ in calendars))


def _calendar_word(name: str) -> str:
    # A sentence shows it.
    return f"calendar {name}"


def _common_files(calendars: Sequence[Calendar], fixings: Optional[bytes]) -> Dict[str, Text]:
    files: Dict[str, Text] = {_calendar_word(name): held for name, held in calendars}
    if fixings is not None:
        files["fixings"] = fixings
    return files


def _own_files(item: Item) -> Dict[str, Text]:
    """The files of a trade's own. One that no word names, as flows of another command than `audit`, isn't read."""
    files: Dict[str, Text] = {word_for("document", item.document): item.document}
    if item.flows is not None:
        files[word_for("flows", item.flows)] = item.flows
    if item.fixings is not None:
        files["fixings"] = item.fixings
    return files
