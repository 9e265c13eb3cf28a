"""Names and texts from outside, safe to show on a terminal, in a log, on a page and in a cell of a spreadsheet.

The rule is ours: no standard covers all four places. HTML is escaped by the templates, and not here.
"""
from __future__ import annotations

#: A spreadsheet takes a cell that begins with one of these for a formula.
FORMULA = ("=", "+", "-", "@")


def _escaped(character: str) -> str:
    return character if character.isprintable() else character.encode("unicode_escape", "surrogatepass").decode()


def visible(text: str) -> str:
    r"""The text with an escape, as `\x1b`, for each character that isn't printable; what is visible stays as it is.

    Such are control characters, line ends, controls of writing direction, and bytes of a file name that are no
    text. It is for sentences and for lines of a file.
    """
    return text if text.isprintable() else "".join(map(_escaped, text))


def shown(name: str) -> str:
    """A name, visible and each backslash doubled: two names that differ are shown differently."""
    return visible(name.replace("\\", "\\\\"))


def brief(name: str, most: int = 80) -> str:
    """A name as it is shown, cut to `most` characters; `…` says that there are more."""
    return shown(name if len(name) <= most else f"{name[:most - 1]}…")


def cell(name: str) -> str:
    """A name that is shown already as a cell of a spreadsheet: with `'` in front of what would be a formula."""
    return f"'{name}" if name.startswith(FORMULA) else name
