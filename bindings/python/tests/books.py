"""Trades for the tests of a book: documents of the examples, a longer one, and a book of many kinds of trades."""
from __future__ import annotations

import logging
import os
import sys
from pathlib import Path
from typing import Dict, List, Mapping, NamedTuple, Optional, Sequence

HERE = Path(__file__).resolve().parent
EXAMPLES = HERE.parent.parent.parent / "examples"
sys.path.insert(0, str(HERE.parent))

import irs
from irs import library
from irs.library import Answer, Text


def example(name: str) -> bytes:
    """A file of the examples."""
    return (EXAMPLES / name).read_bytes()


#: A document that kills the process that works it, where `poisoned` replaces the library's call.
POISON = example("fixed_leg/terms.json") + b"\n\n"

#: One that takes for ever there.
ENDLESS = example("fixed_leg/terms.json") + b"\n\n\n"


def monthly(years: int = 20) -> bytes:
    """The fixed leg with monthly periods over this number of years."""
    document = example("fixed_leg/terms.json").replace(b'"2025-01-15"', b'"%d-01-15"' % (2024 + years))
    return document.replace(b'"periodMultiplier":"6"', b'"periodMultiplier":"1"')


def by_one_call_each(
    words: Sequence[Text], common: Mapping[str, Text], trades: Sequence[Mapping[str, Text]]
) -> List[Answer]:
    """What `library.run_each` does, by a call of `library.run` a trade."""
    return [library.run(words, {**own, **common}) for own in trades]


class Kind(NamedTuple):
    """A kind of trade: its document, its cash flows and its own fixings."""

    document: bytes
    flows: Optional[bytes]
    fixings: Optional[bytes] = None


#: The calendars of the mixed book.
CALENDARS = ("business_days/de.cal", "overnight/test.cal", "sofr/usgs.cal", "xml_vanilla/target.cal")

#: Files whose fixings all trades of the mixed book have in common.
COMMON_FIXINGS = ("compounded/fixings", "sofr/daily", "xml_vanilla/fixings")


def kinds() -> Dict[str, Kind]:
    """Trades that agree, depart, are refused, lack fixings or aren't as such files are written."""
    calendars = [example(name) for name in CALENDARS]
    common = b"".join(example(name) for name in COMMON_FIXINGS)
    first, own = common[: common.index(b"\n") + 1], example("two_currencies/fixings")
    fixed, business, floating, sofr, currencies = (
        example(f"{name}/terms.json") for name in ("fixed_leg", "business_days", "compounded", "sofr", "two_currencies")
    )
    leg, vanilla = example("xml_fixed_leg/terms.xml"), example("xml_vanilla/terms.xml")
    audited = example("xml_audited/trade.xml")
    agrees, departs = (example(f"audit_{name}/flows.json") for name in ("agrees", "departs"))
    unknown = floating.replace(b"USD-TEST-INDEX", b"USD-OTHER-INDEX")

    def flows(document: bytes, fixings: bytes = common) -> bytes:
        return irs.emit(document, fixings, calendars)

    return {
        "fixed": Kind(fixed, agrees),
        "fixed, departs": Kind(fixed, departs),
        "monthly": Kind(monthly(), flows(monthly())),
        "calendar": Kind(business, flows(business)),
        "calendar, departs": Kind(business, agrees),
        "a centre that an escape spells": Kind(business.replace(b'"DEFR"', b'"\\u0044EFR"'), flows(business)),
        "a centre in no calendar": Kind(business.replace(b'"DEFR"', b'"DEFX"'), flows(business)),
        "floating": Kind(floating, flows(floating)),
        "floating, departs": Kind(floating, flows(floating, common.replace(b"0.06", b"0.07"))),
        "sofr": Kind(sofr, flows(sofr)),
        "fixings are missing": Kind(unknown, flows(unknown)),
        "one fixing is missing": Kind(floating, flows(floating, first), first),
        "its own fixings": Kind(currencies, flows(currencies, own), own),
        "its own fixings, none": Kind(floating, flows(floating, b""), b""),
        "its own fixings at fault": Kind(floating, flows(floating), b"2024-01-15 x 3M USD-TEST-INDEX\n"),
        "its own fixings twice": Kind(fixed, agrees, own + own),
        "xml": Kind(leg, flows(leg)),
        "xml that states its flows": Kind(audited, audited),
        "xml, flows in json": Kind(vanilla, flows(vanilla)),
        "xml, departs": Kind(vanilla, agrees),
        "xml flows": Kind(fixed, audited),
        "xml with its own fixings": Kind(vanilla, flows(vanilla, b""), b""),
        "xml, not well-formed": Kind(vanilla[:-9], agrees),
        "no cash flows": Kind(fixed, None),
        "xml, no cash flows": Kind(vanilla, None),
        "cash flows at fault": Kind(fixed, b'{"swap":{"swapStream":[{"cashflows":{"what":"1"}}]}}'),
        "cash flows that are no JSON": Kind(fixed, b"["),
        "no JSON": Kind(b"[", agrees),
        "nests deep": Kind(b"[" * 10_000, agrees),
        "empty": Kind(b"", b""),
        "a rule is broken": Kind(fixed.replace(b'"2025-01-15"', b'"2024-01-15"'), agrees),
        "no text": Kind(b"\xff\xfe{}", b"\x00"),
    }


def mixed(folder: Path, count: int) -> None:
    """Writes a book of this number of trades of all kinds, and of some that aren't files."""
    (folder / "calendars").mkdir(parents=True)
    for name in CALENDARS:
        (folder / "calendars" / name.replace("/", "_")).write_bytes(example(name))
    (folder / "fixings").write_bytes(b"".join(example(name) for name in COMMON_FIXINGS))
    of_each = list(kinds().values())
    for number in range(count):
        # Neighbours differ, and each kind has several neighbours.
        kind = of_each[(number * 7 + number // len(of_each)) % len(of_each)]
        for ending, held in ((".json", kind.document), (".flows.json", kind.flows), (".fixings", kind.fixings)):
            if held is not None:
                (folder / f"T{number:04}{ending}").write_bytes(held)
    (folder / "Long.json").write_bytes(b" " * (library.MOST_BYTES + 1))
    (folder / "Folder.json").mkdir()
    (folder / "Dangling.json").symlink_to("gone")
    os.mkfifo(folder / "Pipe.json")


# What dies in a test dies on purpose.
logging.getLogger("irs.book").setLevel(logging.ERROR)
