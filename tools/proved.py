"""What was proved here and from which files: the record build/proved, which tools/gate and tools/prove write.

A part is what a proof made. The record has the sum of the sources that the proof read, with the kit, and the sum
of each file that it made. A part stands while all of these are as they were; no time of a file counts.
"""
from __future__ import annotations

import hashlib
import json
from dataclasses import dataclass
from pathlib import Path
from typing import Dict, List, Optional

from tree import TOP, Failed, files_of, output_of

RECORD = TOP / "build" / "proved"

#: Each part, and the crate whose proof made it: ./irs, the library for C in bindings/, and what the gate leaves
#: in crates/*/out, which is the program, and the libraries under the one for C.
CRATES = {"program": "irs", "library": "irs_c", "gate's program": "irs", "gate's libraries": "irs_c"}

#: What a crate is proved from.
FOLDERS = ("src", "specs", "proofs", "c")


@dataclass(frozen=True)
class Seen:
    """The sources that a proof reads: the sum of their contents, and one that any write to them changes."""

    contents: str
    touched: str


def lines() -> Dict[str, str]:
    """Each crate of crates.txt, lowest first, and its line."""
    found = {}
    for line in (TOP / "crates.txt").read_text().splitlines():
        line = line.partition("#")[0].strip()
        if ":" in line:
            found[line.replace(":", " ").split()[0]] = line
    return found


def under(crate: str) -> List[str]:
    """The repository's crates under one, lowest first."""
    stated, wanted = lines(), {crate}
    for name in reversed(list(stated)):
        if name in wanted:
            wanted.update(stated[name].partition(":")[2].split())
    return [name for name in stated if name in wanted and name != crate]


def sources(crate: str) -> List[Path]:
    """The files that a crate is proved from."""
    return [path for folder in FOLDERS for path in files_of(TOP / "crates" / crate / folder)]


def kit() -> Path:
    """The folder of the kit, which has the page that `rt doc` names."""
    return Path(output_of(["rt", "doc"]).strip()).parent


def seen(part: str) -> Seen:
    """The sources of a part as they are now: those of its crate and of all under it, and what names the kit."""
    contents, touched, stated, of_kit = hashlib.sha256(), hashlib.sha256(), lines(), kit()
    crates = [*under(CRATES[part]), CRATES[part]]
    paths = [of_kit / "KIT-ID", of_kit / "WHAT", TOP / "HANDLES", *[path for it in crates for path in sources(it)]]
    contents.update(repr([stated[it] for it in crates]).encode())
    for path in paths:
        about, text = path.stat(), path.read_bytes()
        named = path.name if path.parent == of_kit else str(path.relative_to(TOP))
        contents.update(f"{named} {len(text)}\n".encode() + text)
        touched.update(repr((named, about.st_ino, about.st_mtime_ns, about.st_ctime_ns)).encode())
    return Seen(contents.hexdigest(), touched.hexdigest())


def made(part: str) -> List[Path]:
    """The files and folders that a part is."""
    if part == "program":
        return [TOP / "irs"]
    if part == "library":
        return [TOP / "bindings" / "libirs.a", TOP / "bindings" / "libirs.so"]
    if part == "gate's program":
        return [TOP / "crates" / "irs" / "out" / "irs"]
    return [rlib(crate) for crate in under("irs_c")]


def rlib(crate: str) -> Path:
    """Where a crate's proved library is."""
    return TOP / "crates" / crate / "out" / "rlib" / f"{crate}.rlib"


def sum_of(path: Path) -> str:
    """The sum of a file, or of all files in a folder with their names; empty where it isn't there."""
    if path.is_file():
        return hashlib.sha256(path.read_bytes()).hexdigest()
    files = [(str(it.relative_to(path)), sum_of(it)) for it in files_of(path)]
    return hashlib.sha256(repr(files).encode()).hexdigest() if files else ""


def record() -> Dict[str, object]:
    """The record; empty where there is none, or it can't be read."""
    try:
        found = json.loads(RECORD.read_text())
    except (OSError, ValueError):
        return {}
    return found if isinstance(found, dict) else {}


def sums(part: str) -> Dict[str, str]:
    """The sums of what a part is now, by their paths."""
    return {str(path.relative_to(TOP)): sum_of(path) for path in made(part)}


def keep(part: str, proved_by: str, before: Seen) -> bool:
    """Keeps that a part was proved, from the sources as they were seen before; False where they were touched since."""
    if seen(part) != before or not all(sums(part).values()):
        return False
    entry = {"sources": before.contents, "made": sums(part), "by": proved_by}
    RECORD.parent.mkdir(parents=True, exist_ok=True)
    RECORD.write_text(json.dumps({**record(), part: entry}, indent=1))
    return True


def stands(part: str) -> Optional[str]:
    """What proved a part, where it is as it was proved and from these sources; else None."""
    entry = record().get(part)
    if not isinstance(entry, dict):
        return None
    try:
        same = entry.get("sources") == seen(part).contents and entry.get("made") == sums(part)
    except (Failed, OSError, KeyError):
        return None
    return str(entry.get("by")) if same else None


def is_as_proved() -> None:
    """Failed where ./irs or the library for C in bindings/ isn't what was proved here from these sources."""
    for part, how in (("program", "make irs"), ("library", "make library")):
        if stands(part) is None:
            names = " and ".join(str(path.relative_to(TOP)) for path in made(part))
            raise Failed(f"nothing shows that {names} was proved here from these sources: {how}")
