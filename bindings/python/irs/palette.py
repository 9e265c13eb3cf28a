"""The colours of report and page, light and dark, and which of them meet.

Every pair of `TEXT` has the contrast that WCAG 2.1 AA asks of text (4.5 to 1), and every pair of
`SHAPES` that of shapes (3 to 1). A test works both out.
"""
from __future__ import annotations

from typing import Dict

LIGHT = {
    "paper": "#ffffff",
    "panel": "#f6f8fa",
    "ink": "#1b1f24",
    "faint": "#57606a",
    "line": "#7d8590",
    "hair": "#d8dee4",
    "accent": "#0550ae",
    "on-accent": "#ffffff",
    "good": "#116329",
    "good-back": "#dafbe1",
    "waits": "#7d4e00",
    "waits-back": "#fff8c5",
    "bad": "#a40e26",
    "bad-back": "#ffebe9",
    "lane": "#ddeaf7",
    "stub": "#b4690e",
    "pay": "#0550ae",
    "reset": "#116329",
    "exchange": "#8250df",
    "today": "#a40e26",
}

DARK = {
    "paper": "#0d1117",
    "panel": "#161b22",
    "ink": "#e6edf3",
    "faint": "#9da7b3",
    "line": "#6e7681",
    "hair": "#30363d",
    "accent": "#79c0ff",
    "on-accent": "#0d1117",
    "good": "#7ee787",
    "good-back": "#0f2a17",
    "waits": "#f2cc60",
    "waits-back": "#2f2607",
    "bad": "#ffa198",
    "bad-back": "#3a1114",
    "lane": "#1d2d44",
    "stub": "#d29922",
    "pay": "#79c0ff",
    "reset": "#7ee787",
    "exchange": "#d2a8ff",
    "today": "#ffa198",
}

#: Text and its background.
TEXT = (
    ("ink", "paper"),
    ("ink", "panel"),
    ("faint", "paper"),
    ("faint", "panel"),
    ("accent", "paper"),
    ("accent", "panel"),
    ("on-accent", "accent"),
    ("good", "good-back"),
    ("waits", "waits-back"),
    ("bad", "bad-back"),
    ("ink", "good-back"),
    ("ink", "waits-back"),
    ("ink", "bad-back"),
    ("waits", "paper"),
    ("waits", "panel"),
    ("bad", "paper"),
    ("bad", "panel"),
    ("faint", "bad-back"),
)

#: Shapes that carry a meaning, and their background.
SHAPES = (
    ("line", "paper"),
    ("line", "panel"),
    ("accent", "paper"),
    ("pay", "paper"),
    ("reset", "paper"),
    ("today", "paper"),
    ("exchange", "paper"),
    ("stub", "paper"),
    ("faint", "lane"),
    ("exchange", "lane"),
    ("stub", "lane"),
)


def _rules(colours: Dict[str, str]) -> str:
    return "".join(f"--{name}:{value};" for name, value in colours.items())


def variables() -> str:
    """The colours as variables of CSS: light, dark where the reader's system asks for it, and
    light on paper."""
    return (
        f":root{{color-scheme:light dark;{_rules(LIGHT)}}}\n"
        f"@media (prefers-color-scheme:dark){{:root{{{_rules(DARK)}}}}}\n"
        f"@media print{{:root{{color-scheme:light;{_rules(LIGHT)}}}}}\n"
    )
