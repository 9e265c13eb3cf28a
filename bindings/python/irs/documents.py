"""The elements of a document of terms, read leniently: what isn't there or isn't as expected is absent.

Only the engine says what terms mean, and what XML means as JSON. Names and texts are read here, to show them beside
its answer, and to make calendars and fixings for a document (docs/FORMATS.md, 'The carrier'). Nothing of it is proved.
"""
from __future__ import annotations

import json
from collections.abc import Mapping
from typing import Any, Iterator, List, Optional, Union

from .library import Text, as_bytes, run

Document = Union[Text, Mapping[str, Any]]


#: How the name of a file ends that the engine reads as XML.
XML = ".xml"


class NotRead(ValueError):
    """The engine has no reading of the document. The text of the error is one plain sentence."""


def is_xml(document: Text) -> bool:
    """Whether a document is meant as XML: it begins with `<`, after a byte order mark and white space."""
    return as_bytes(document)[:1024].lstrip(b"\xef\xbb\xbf \t\r\n").startswith(b"<")


def word_for(name: str, document: Text) -> str:
    """The word that names a document to the engine, which reads it as XML where its name ends so."""
    return name + XML if is_xml(document) else name


def json_of(document: bytes) -> bytes:
    """The document as JSON; XML by the engine's `carrier`. Raises `NotRead` for XML that has no reading."""
    if not is_xml(document):
        return document
    words = ["carrier", word_for("document", document)]
    answer = run(words, {words[1]: document})
    if answer.status:
        raise NotRead(answer.sentence or "memory ran out")
    return answer.text


def value_of(document: Document) -> Any:
    """The JSON value of a document, XML among it, its numbers as their texts, or `None` where it has none."""
    try:
        text = json.dumps(document) if isinstance(document, Mapping) else json_of(as_bytes(document)).decode()
        return json.loads(text, parse_int=str, parse_float=str)
    except (ValueError, RecursionError):
        return None


def items_of(value: Any, name: str) -> List[Any]:
    """The values of a member, as a list: a repeated element is an array or a single value."""
    own = value.get(name) if isinstance(value, dict) else None
    if own is None:
        return []
    return list(own) if isinstance(own, list) else [own]


def child_of(value: Any, *names: str) -> Any:
    """The element on this way down, or `None`."""
    for name in names:
        value = next(iter(items_of(value, name)), None)
    return value


def leaf_text(value: Any) -> Optional[str]:
    """The text of a leaf without white space at its ends: a string, `true` or `false`, or an object's `#text`.

    `None` where it is no leaf.
    """
    if isinstance(value, dict):
        value = value.get("#text")
    if isinstance(value, bool):
        return "true" if value else "false"
    return value.strip(" \t\r\n") if isinstance(value, str) else None


def text_at(value: Any, *names: str) -> Optional[str]:
    """The text of the leaf on this way down, or `None`."""
    return leaf_text(child_of(value, *names))


def texts_of(value: Any, name: str) -> Iterator[str]:
    """The texts of every member of this name, wherever it is."""
    if isinstance(value, list):
        for item in value:
            yield from texts_of(item, name)
    elif isinstance(value, dict):
        yield from (text for text in map(leaf_text, items_of(value, name)) if text is not None)
        for member in value.values():
            yield from texts_of(member, name)


def streams_of(value: Any) -> List[Any]:
    """The streams of a document, in order."""
    for way in (("swap",), ("trade", "swap"), ("dataDocument", "trade", "swap")):
        swap = child_of(value, *way)
        if swap is not None:
            return items_of(swap, "swapStream")
    return []
