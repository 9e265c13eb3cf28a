"""Runs each folder of examples/ through the installed package, and compares status, text and sentence.

    python3 examples.py FOLDER

Whatever `import irs` finds is what is tried, so that it serves for an installed wheel.
"""
from __future__ import annotations

import sys
from pathlib import Path

import irs


def wrong(folder: Path) -> bool:
    """Whether an example comes to another status, text or sentence than what is stored."""
    words = (folder / "command").read_text().split()[1:]
    stored = folder / "status"
    status = int(stored.read_text()) if stored.is_file() else 0
    files = {word: (folder / word).read_bytes() for word in words[1:] if (folder / word).is_file()}
    said = folder / "said"
    sentence = said.read_text().rstrip("\n") if said.is_file() else ""
    return irs.run(words, files) != (status, (folder / "output").read_bytes(), sentence)


def main(examples: str) -> int:
    """Runs all of them; 1 where one differs or none is there."""
    found = sorted(path.parent for path in Path(examples).glob("*/command"))
    found = [folder for folder in found if " --" not in (folder / "command").read_text()]
    bad = [folder.name for folder in found if wrong(folder)]
    print(f"{len(found)} examples through Python, {len(bad)} wrong", *bad)
    return 1 if bad or not found else 0


if __name__ == "__main__":
    sys.exit(main(sys.argv[1]))
