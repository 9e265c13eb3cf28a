"""The end line of a calendar file or a file of fixings (docs/FORMATS.md, 'The end line'): `# end N` behind N lines.

The engine refuses a false one. It takes a file without one, so whether there has to be one is asked here.
"""
from __future__ import annotations

import re
from typing import List, Optional

#: The end line: the number of lines before it, in decimal without leading zeros.
_END = re.compile(rb"# end (0|[1-9][0-9]*)")


def _lines(content: bytes) -> List[bytes]:
    """The lines of a file, which end in LF or CRLF; the last one may have no end."""
    *ended, rest = content.split(b"\n")
    lines = [line[:-1] if line.endswith(b"\r") else line for line in ended]
    return [*lines, rest] if rest else lines


def end_of(content: bytes) -> Optional[bool]:
    """Whether the end line of a file is true; `None` where the file has none.

    >>> end_of(b"center A\\n# end 1\\n"), end_of(b"# end 1\\n"), end_of(b"# end 01\\n")
    (True, False, None)
    """
    *before, last = _lines(content) or [b""]
    found = _END.fullmatch(last)
    return None if found is None else found[1] == str(len(before)).encode()


def with_end(text: str) -> str:
    """A text of whole lines, with its end line.

    >>> with_end("center A\\n")
    'center A\\n# end 1\\n'
    """
    return f"{text}# end {text.count(chr(10))}\n"


def inside(content: bytes) -> bytes:
    """A file with a line behind its end line, as a file among others that are joined has it: a comment where the end
    line is true, and a line outside the grammar where it is false."""
    end = end_of(content)
    if end is None:
        return content
    return content.rstrip(b"\r\n") + (b"\n#" if end else b"\n # a false end line")
