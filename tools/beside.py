"""What tools/json_beside and tools/xml_beside share: their options, a run of the program, and changes of documents."""
from __future__ import annotations

import argparse
import hashlib
import os
import random
import subprocess
import sys
from pathlib import Path
from typing import List, NamedTuple, Optional, Sequence

TOP = Path(__file__).resolve().parent.parent


class NoReading(Exception):
    """The bytes are no document, for the reason that is stated."""


class Answer(NamedTuple):
    """How a run of the program ended: its status, and what it wrote on standard output and on standard error."""

    status: int
    out: bytes
    said: bytes


def options(about: Optional[str], count: int) -> argparse.Namespace:
    """How many documents, where the random numbers begin, and the program. It ends with 1 where there is none."""
    parser = argparse.ArgumentParser(description=about, formatter_class=argparse.RawDescriptionHelpFormatter)
    parser.add_argument("--count", type=int, default=count, help=f"how many documents ({count:,})")
    parser.add_argument("--seed", type=int, default=1, help="where the random numbers begin (1)")
    parser.add_argument("--program", type=Path, default=Path(os.environ.get("IRS", TOP / "irs")), help="./irs")
    words = parser.parse_args()
    words.program = words.program.resolve()
    if not os.access(words.program, os.X_OK) or words.program.is_dir():
        print(f"there is no {words.program}: run make")
        sys.exit(1)
    return words


def asked(program: Path, folder: Path, words: List[str]) -> Answer:
    """What the program answers to these words in a folder."""
    done = subprocess.run(
        [str(program), *words],
        cwd=folder,
        stdin=subprocess.DEVNULL,
        stdout=subprocess.PIPE,
        stderr=subprocess.PIPE,
        timeout=60,
        check=False,
    )
    return Answer(done.returncode, done.stdout, done.stderr)


def report(tool: str, suffix: str, document: bytes, answer: Sequence[object], why: str) -> None:
    """Prints a document that differs with the answer to it, and leaves it in build/TOOL."""
    to = TOP / "build" / tool / (hashlib.sha256(document).hexdigest()[:16] + suffix)
    to.parent.mkdir(parents=True, exist_ok=True)
    to.write_bytes(document)
    print(f"{to.relative_to(TOP)}: {document!r}\n  status {answer[0]}, {answer[1]!r}\n  {why}", flush=True)


def changed(document: bytes, chance: random.Random, tokens: Sequence[bytes]) -> bytes:
    """A document with some bytes left out, added, doubled or in another place, or with a token in their place."""
    for _ in range(chance.choice([1, 1, 1, 2, 3])):
        at = chance.randrange(len(document) + 1)
        length = chance.choice([0, 0, 1, 1, 2, 5, 20])
        kind = chance.randrange(5)
        if kind == 0:
            new = b""
        elif kind == 1:
            new = document[at : at + length] * 2
        elif kind == 2:
            other = chance.randrange(len(document) + 1)
            new = document[other : other + chance.randrange(40)]
        elif kind == 3:
            new = bytes([chance.randrange(256)])
        else:
            new = chance.choice(tokens)
        document = document[:at] + new + document[at + length :]
    return document
