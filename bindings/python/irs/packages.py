"""Packages that only some commands need, asked for where they are used."""
from __future__ import annotations

from importlib import import_module
from typing import Any

from .tools import BadInput


class MissingPackage(BadInput, ImportError):
    """A package isn't installed. The text is one plain sentence that names it."""


def package(module: str, purpose: str, title: str, debian: str) -> Any:
    """The module of a package. Raises `MissingPackage` with what needs it and Debian's name for
    it."""
    try:
        return import_module(module)
    except ImportError as missing:
        sentence = f"{purpose} needs {title}, which isn't installed (Debian: {debian})"
        raise MissingPackage(sentence) from missing
