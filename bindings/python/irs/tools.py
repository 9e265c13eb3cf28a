"""What the commands share: how their words are read, and how a command ends. Nothing here is proved.

Bad input is one sentence on standard error and status 2.
"""
from __future__ import annotations

import argparse
import io
import os
import sys
import traceback
from typing import Callable, List, NoReturn, Optional

from .errors import Error
from .plain import visible


class BadInput(Exception):
    """Input that a command can't use. The text is one sentence for a person."""


class Parser(argparse.ArgumentParser):
    """A parser of command lines whose complaint is one sentence, without the usage lines."""

    def error(self, message: str) -> NoReturn:
        """Raises `BadInput` with the complaint and where to look."""
        raise BadInput(f"{message}; `{self.prog} --help` lists the options")


def ended(command: str, work: Callable[[Optional[List[str]]], int], arguments: Optional[List[str]]) -> int:
    """Runs a command; what it can't use is one sentence on standard error and status 2.

    A fault of the package itself is a traceback and status 2 too: 1 is an answer of some commands.
    """
    if isinstance(sys.stdout, io.TextIOWrapper):
        # A name that the terminal's encoding lacks is escaped.
        sys.stdout.reconfigure(errors="backslashreplace")
    try:
        return work(arguments)
    except (BadInput, ImportError) as why:
        sentence = str(why)
    except Error as why:
        sentence = why.sentence
    except MemoryError:
        sentence = "memory ran out"
    except UnicodeEncodeError:
        sentence = "a word of the command line isn't UTF-8 text"
    except OSError as why:
        sentence = f"the output can't be written: {why.strerror}"
        # What is left in the buffer would be written, and fail, once more at the end.
        os.dup2(os.open(os.devnull, os.O_WRONLY), sys.stdout.fileno())
    except Exception:
        traceback.print_exc()
        return 2
    print(f"{command}: {visible(sentence)}", file=sys.stderr)
    return 2
