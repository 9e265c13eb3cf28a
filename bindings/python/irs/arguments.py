"""Words of the command line that several commands take: days, numbers, and what a look is made of."""
from __future__ import annotations

import argparse
from datetime import date
from pathlib import Path

from .plain import brief
from .tools import Parser


def day(text: str) -> date:
    """A day as ``2024-04-15``. Raises `argparse.ArgumentTypeError` for another text."""
    try:
        return date.fromisoformat(text)
    except ValueError:
        raise argparse.ArgumentTypeError(f"{brief(text)} isn't a date as 2024-04-15") from None


def count(text: str) -> int:
    """A whole number from 1. Raises `argparse.ArgumentTypeError` for another text."""
    if not (text.isascii() and text.isdigit() and 1 <= int(text[:9]) == int(text)):
        raise argparse.ArgumentTypeError(f"{brief(text)} isn't a whole number from 1")
    return int(text)


def port(text: str) -> int:
    """A port, from 0 to 65535. Raises `argparse.ArgumentTypeError` for another text."""
    if not (text.isascii() and text.isdigit() and len(text) < 6 and int(text) < 65536):
        raise argparse.ArgumentTypeError(f"{brief(text)} isn't a port from 0 to 65535")
    return int(text)


def parser_of(name: str, description: str) -> Parser:
    """A parser with the options that say what is looked at."""
    made = Parser(prog=name, description=description, formatter_class=argparse.RawDescriptionHelpFormatter)
    made.add_argument("--fixings", type=Path, metavar="FILE", help="a file of fixings")
    made.add_argument(
        "--calendar",
        type=Path,
        metavar="PATH",
        action="append",
        default=[],
        help="a calendar file, or a folder of them; may be repeated",
    )
    made.add_argument(
        "--party",
        metavar="NAME",
        help="the party that the flows are seen from (the payer of stream 1)",
    )
    return made
