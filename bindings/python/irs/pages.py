"""HTML by Jinja2 templates, which escape whatever a document holds."""
from __future__ import annotations

import base64
import functools
import hashlib
from pathlib import Path
from typing import TYPE_CHECKING, Any, Sequence

from . import palette
from .compare import HEADS, NUMBERS
from .packages import package
from .tables import RIGHT, exchange_table, folded, ledger_table, period_table

if TYPE_CHECKING:
    from .look import Look
    from .looks import Looks

TEMPLATES = Path(__file__).with_name("templates")


@functools.lru_cache(maxsize=None)
def environment() -> Any:
    """The templates, read once. Raises `MissingPackage` where Jinja2 isn't installed."""
    jinja2 = package("jinja2", "a page", "Jinja2", "python3-jinja2")
    made = jinja2.Environment(
        loader=jinja2.FileSystemLoader(TEMPLATES),
        autoescape=True,
        undefined=jinja2.StrictUndefined,
        trim_blocks=True,
        lstrip_blocks=True,
    )
    made.globals.update(right=RIGHT, heads=HEADS, numbers=NUMBERS)
    return made


def style() -> str:
    """The style sheet of report and page: the colours, then the rules."""
    return palette.variables() + (TEMPLATES / "look.css").read_text(encoding="utf-8")


def _style_sum(text: str) -> str:
    return "sha256-" + base64.b64encode(hashlib.sha256(text.encode()).digest()).decode()


def report(looks: Sequence["Look"]) -> str:
    """One HTML file with a section a trade: its style is in it, and it has no script and fetches
    nothing."""
    text = style()
    policy = f"default-src 'none'; style-src '{_style_sum(text)}'; base-uri 'none'; form-action 'none'"
    return str(environment().get_template("report.html").render(looks=looks, style=text, policy=policy))


def notebook(schedule: "Looks") -> str:
    """The tables of a schedule for a notebook."""
    streams = schedule.texts()
    tables = [ledger_table(schedule.flows()), period_table(streams), exchange_table(streams)]
    laid = [(table.title, *folded(table)) for table in tables if table.rows]
    return str(environment().get_template("notebook.html").render(tables=laid))
