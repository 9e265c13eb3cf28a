"""Who pays each stream, and what the parties are called, as a document says it.

Sources: FpML's `payerPartyReference` and `receiverPartyReference` of a stream, and `party` of the
document with its `partyName` and `partyId`.
"""
from __future__ import annotations

from typing import Any, Dict, List, NamedTuple, Optional

from .documents import Document, child_of, items_of, leaf_text, streams_of, value_of
from .plain import brief
from .printed import StreamText
from .tools import BadInput


class UnknownParty(BadInput, ValueError):
    """No party of the streams has that name. The text of the error is one plain sentence."""


class Sides(NamedTuple):
    """Who pays a stream and who receives it, as the references of the document name them."""

    payer: str
    receiver: str


class Parties(NamedTuple):
    """The parties of a document: the sides of each stream in order, `None` where they aren't
    stated; and the names of each party, by its id, the first of them to be shown."""

    sides: List[Optional[Sides]]
    names: Dict[str, List[str]]

    def name(self, party: str) -> str:
        """The name to show for a party: its first name, else its id, with hidden characters made
        visible."""
        return brief(self.names.get(party, [party])[0])

    def side(self, stream: int) -> Optional[Sides]:
        """The sides of a stream, which counts from 1; `None` where they aren't stated."""
        return self.sides[stream - 1] if stream <= len(self.sides) else None

    def two(self) -> bool:
        """Whether every stream is between the same two parties, as rule K8 asks."""
        stated = [frozenset(sides) for sides in self.sides if sides is not None]
        return len(stated) == len(self.sides) > 0 and len(set(stated)) == 1 and len(stated[0]) == 2

    def heading(self, stream: StreamText) -> str:
        """A stream in one line: who pays whom, currency, kind of rate and day count."""
        sides = self.side(stream.stream)
        who = "" if sides is None else f"{self.name(sides.payer)} pays {self.name(sides.receiver)}, "
        kind = "floating" if stream.floating else "fixed"
        return f"Stream {stream.stream}: {who}{stream.currency}, {kind}, {stream.day_count}"

    def find(self, name: str) -> str:
        """The id of the party of that id, name or `partyId`; raises `UnknownParty` where there
        is none."""
        ids = list(dict.fromkeys(party for sides in self.sides if sides for party in sides))
        for party in ids:
            if name == party or name in self.names.get(party, []):
                return party
        known = ", ".join(self.name(party) for party in ids) or "none"
        raise UnknownParty(f"no party of the streams is called {brief(name)}; the document has: {known}")


def _href(stream: Any, name: str) -> Optional[str]:
    reference = child_of(stream, name)
    href = reference.get("@href") if isinstance(reference, dict) else None
    return href if isinstance(href, str) else None


def _sides(stream: Any) -> Optional[Sides]:
    payer, receiver = _href(stream, "payerPartyReference"), _href(stream, "receiverPartyReference")
    return None if payer is None or receiver is None else Sides(payer, receiver)


def _names(value: Any) -> Dict[str, List[str]]:
    names: Dict[str, List[str]] = {}
    for holder in (
        value,
        child_of(value, "dataDocument"),
        child_of(value, "trade"),
        child_of(value, "dataDocument", "trade"),
    ):
        for party in items_of(holder, "party"):
            called = [leaf_text(item) for kind in ("partyName", "partyId") for item in items_of(party, kind)]
            known = [name for name in called if name]
            ident = party.get("@id") if isinstance(party, dict) else None
            if isinstance(ident, str) and known:
                names.setdefault(ident, known)
    return names


def parties_of(document: Document) -> Parties:
    """The parties of a document. What it doesn't state is absent."""
    value = value_of(document)
    return Parties([_sides(stream) for stream in streams_of(value)], _names(value))
