"""FpML documents in XML, changed at a few places and byte for byte the same everywhere else. Nothing here is proved.

    >>> from irs import fpml
    >>> for trade in fpml.trades(message):                   # a document for each trade of a message
    ...     cut = fpml.without(trade, ["additionalPayment"])
    ...     cut.left_out                                     # [LeftOut(name='additionalPayment', line=164)]
    ...     answered = fpml.insert(cut.document, flows)      # with the cash flows that were worked out

Each call works on the bytes where an element begins and ends, and reads no date and no number. A document is FpML 5,
in the namespace of one of its views or in none; an element counts where it has the root's namespace. `Fault` is raised
for what isn't XML, for a document type (`<!DOCTYPE`), for another encoding than UTF-8 and for another namespace.
"""
from __future__ import annotations

import re
from typing import Dict, Iterable, List, NamedTuple, Optional, Tuple
from xml.parsers import expat

from .calls import File, content
from .library import Text, as_bytes

#: How the namespace of each view of FpML 5 begins.
FPML_5 = "http://www.fpml.org/FpML-5/"

#: The elements that come after `cashflows` in a stream, in FpML's schema.
AFTER_CASHFLOWS = ("settlementProvision", "formula")

WHITE = b" \t\r\n"

#: The beginning of a tag with a prefix.
PREFIX = re.compile(rb"<([^\s/>:]+:)")


class Fault(ValueError):
    """A document that isn't taken. `line` counts from 1, and is 0 where no line is meant."""

    def __init__(self, why: str, line: int = 0) -> None:
        super().__init__(f"line {line}: {why}" if line else why)
        self.line = line


class LeftOut(NamedTuple):
    """An element that was taken out: its name, and the line of the document where it began."""

    name: str
    line: int


class Without(NamedTuple):
    """A document, and what was taken out of it, in the order of the document."""

    document: bytes
    left_out: List[LeftOut]


class _Element:
    """An element: its name, its line, and the bytes from its first to its last tag."""

    def __init__(self, space: str, name: str, line: int, start: int) -> None:
        self.space, self.name, self.line, self.start = space, name, line, start
        #: Where its end tag begins (its end where its one tag is empty), and where it ends.
        self.close = self.end = start
        self.children: List[_Element] = []
        self.text = False

    def all(self, name: str) -> List[_Element]:
        """The children of that name in the same namespace."""
        return [it for it in self.children if (it.space, it.name) == (self.space, name)]

    def walk(self) -> Iterable[_Element]:
        """The element and all below it, in the order of the document."""
        left = [self]
        while left:
            element = left.pop()
            yield element
            left += reversed(element.children)


class _Reader:
    """Reads a document with expat, which says at which byte an element begins."""

    def __init__(self, data: bytes) -> None:
        self.data = data
        self.opened: List[_Element] = []
        self.roots: List[_Element] = []
        # The encoding is stated, so that no declaration and no mark makes it another one.
        self.parser = expat.ParserCreate("UTF-8", " ")
        self.parser.XmlDeclHandler = self.declared
        self.parser.StartDoctypeDeclHandler = self.document_type
        self.parser.StartElementHandler = self.start
        self.parser.EndElementHandler = self.end
        self.parser.CharacterDataHandler = self.characters

    def root(self) -> _Element:
        """The root element."""
        self.must_be_utf8()
        try:
            self.parser.Parse(self.data, True)
        except expat.ExpatError as why:
            raise Fault(f"this isn't XML: {expat.ErrorString(why.code)}", why.lineno) from None
        return self.roots[0]

    def must_be_utf8(self) -> None:
        """Refuses other encodings, which expat would find out by their first bytes."""
        wrong = self.data.find(b"\0")
        try:
            self.data.decode()
        except UnicodeDecodeError as why:
            wrong = why.start
        if wrong >= 0:
            raise Fault("this isn't UTF-8, or has a byte 0", self.data.count(b"\n", 0, wrong) + 1)

    def declared(self, _version: str, encoding: Optional[str], _standalone: int) -> None:
        """An XML declaration."""
        if encoding is not None and encoding.lower() != "utf-8":
            raise Fault(f"the encoding is {encoding}, and has to be UTF-8", self.parser.CurrentLineNumber)

    def document_type(self, *_told: object) -> None:
        """A document type, which could declare entities and attributes."""
        raise Fault("a document type isn't taken", self.parser.CurrentLineNumber)

    def start(self, name: str, _attributes: Dict[str, str]) -> None:
        """A start tag, or an empty one."""
        space, _, local = name.rpartition(" ")
        element = _Element(space, local, self.parser.CurrentLineNumber, self.parser.CurrentByteIndex)
        (self.opened[-1].children if self.opened else self.roots).append(element)
        self.opened.append(element)

    def end(self, _name: str) -> None:
        """An end tag, at which expat is, or an empty tag, after which it is."""
        element, at = self.opened.pop(), self.parser.CurrentByteIndex
        # No tag of a child ends directly before an end tag here, so that these bytes are its own empty tag's.
        empty = not element.children and not element.text and self.data[at - 2 : at] == b"/>"
        element.close = at
        element.end = at if empty else self.data.index(b">", at) + 1

    def characters(self, _text: str) -> None:
        """Text in an element."""
        self.opened[-1].text = True


def _root_of(data: bytes) -> _Element:
    """The root of an FpML document."""
    root = _Reader(data).root()
    if root.space and not root.space.startswith(FPML_5):
        raise Fault(f"the namespace is {root.space}, and has to be one of FpML 5's", root.line)
    return root


def _bytes_of(document: File) -> bytes:
    return as_bytes(content(document))


def _changed(data: bytes, changes: List[Tuple[int, int, bytes]]) -> bytes:
    """The bytes with others in the place of some of them: (start, end, new), in order and apart from each other."""
    parts, at = [], 0
    for start, end, new in changes:
        parts += [data[at:start], new]
        at = end
    return b"".join([*parts, data[at:]])


def _trades_in(root: _Element) -> List[_Element]:
    found = [root] if root.name in ("trade", "swap") else root.all("trade")
    if not found:
        raise Fault(f"{root.name} has no trade", root.line)
    return found


def trades(document: File) -> List[bytes]:
    """A document for each trade of a message or document, in order.

    Each is the whole document without the elements of the other trades; every other byte stays, so that the parties
    and the namespaces are still there. `Fault` where there is no `trade` in the root, or no root `trade` or `swap`.
    """
    data = _bytes_of(document)
    found = _trades_in(_root_of(data))
    bare = _changed(data, [(it.start, it.end, b"") for it in found])
    parts, taken = [], 0
    for trade in found:
        at = trade.start - taken
        parts.append(bare[:at] + data[trade.start : trade.end] + bare[at:])
        taken += trade.end - trade.start
    return parts


def without(document: File, names: Iterable[str]) -> Without:
    """The document without the elements of these names, wherever they are, and where each of them was.

    It is for what the engine leaves out of its profile (`additionalPayment`, `earlyTerminationProvision`): what is
    taken out is somebody's decision, and `left_out` is its record. An element within one that is taken out isn't
    counted by itself. Every other byte stays. `Fault` where the root has one of the names.
    """
    if isinstance(names, (str, bytes)):
        raise TypeError("names are a list of names: write [name] for one")
    wanted, data = set(names), _bytes_of(document)
    root = _root_of(data)
    if root.name in wanted:
        raise Fault(f"{root.name} is the root, and can't be taken out", root.line)
    found: List[_Element] = []
    for element in root.walk():
        if (element.space, element.name in wanted) == (root.space, True):
            if not found or element.start >= found[-1].end:
                found.append(element)
    cut = _changed(data, [(it.start, it.end, b"") for it in found])
    return Without(cut, [LeftOut(it.name, it.line) for it in found])


def insert(document: File, flows: Text) -> bytes:
    """The document with cash flows in its streams, in place of those that it has.

    `flows` has one element `cashflows` for each stream, in order, without prefixes and namespaces. They get the prefix
    of the stream, and come where FpML's schema has them; every other byte stays. `Fault` where the document has several
    trades, no swap, or another number of streams than `flows` has elements, and where `flows` has anything else.
    """
    data = _bytes_of(document)
    streams = _swap_of(_root_of(data)).all("swapStream")
    given = _OPEN + as_bytes(flows) + _CLOSE
    elements = _flows_of(given)
    if len(streams) != len(elements):
        raise Fault(f"there are {len(elements)} cashflows for {len(streams)} streams")
    return _changed(
        data,
        [_change(data, stream, _prefixed(given, it, _prefix(data, stream))) for stream, it in zip(streams, elements)],
    )


def _swap_of(root: _Element) -> _Element:
    """The swap of the one trade."""
    found = _trades_in(root)
    if len(found) > 1:
        raise Fault(f"there are {len(found)} trades: give one of those that `trades` makes", found[1].line)
    swaps = found if found[0].name == "swap" else found[0].all("swap")
    if len(swaps) != 1:
        raise Fault("the trade has several swaps" if swaps else "the trade has no swap", found[0].line)
    return swaps[0]


#: What makes a document of the text of cash flows.
_OPEN, _CLOSE = b"<cashflowsOfStreams>", b"</cashflowsOfStreams>"


def _flows_of(given: bytes) -> List[_Element]:
    """The elements of a document of cash flows."""
    try:
        root = _Reader(given).root()
    except Fault as why:
        raise Fault(f"the cash flows: {why}") from None
    if any(it.space for it in root.walk()):
        raise Fault("the cash flows are in a namespace, and take that of the document")
    between = _changed(given, [(it.start, it.end, b"") for it in root.children])[len(_OPEN) : -len(_CLOSE)]
    if between.strip(WHITE) or any(it.name != "cashflows" for it in root.children):
        raise Fault("the cash flows have something else than elements named cashflows")
    return root.children


def _change(data: bytes, stream: _Element, flows: bytes) -> Tuple[int, int, bytes]:
    """The change that inserts cash flows into a stream."""
    own = stream.all("cashflows")
    before = [it for it in stream.children if it.space == stream.space and it.name not in AFTER_CASHFLOWS]
    if len(own) > 1 or not before:
        raise Fault("the stream has several cashflows" if own else "the stream has no terms", stream.line)
    if own:
        return own[0].start, own[0].end, flows
    return before[-1].end, before[-1].end, _white_before(data, before[-1].start) + flows


def _prefix(data: bytes, element: _Element) -> bytes:
    """The prefix of an element with its colon; empty where it has none."""
    found = PREFIX.match(data, element.start)
    return found[1] if found else b""


def _prefixed(data: bytes, element: _Element, prefix: bytes) -> bytes:
    """The text of an element, each of its tags with a prefix."""
    at = [it.start + 1 for it in element.walk()]
    at += [it.close + 2 for it in element.walk() if it.close != it.end]
    own = data[element.start : element.end]
    return _changed(own, [(it - element.start, it - element.start, prefix) for it in sorted(at)])


def _white_before(data: bytes, at: int) -> bytes:
    """The white space directly before a place."""
    start = at
    while start > 0 and data[start - 1] in WHITE:
        start -= 1
    return data[start:at]
