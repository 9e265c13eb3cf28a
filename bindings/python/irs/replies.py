"""One command of the engine over the files of a look: its status, its text, and its sentence with
the files' names."""
from __future__ import annotations

from typing import Dict, List, NamedTuple, Optional

from .common import packed
from .documents import XML, is_xml
from .inputs import Inputs, Named, untaken
from .library import Text, run
from .plain import brief

#: What each command takes after the document (docs/FORMATS.md, 'Commands, lines and statuses').
_TAKES = {
    "check": (),
    "schedule": ("fixings",),
    "emit": ("fixings",),
    "net": ("fixings",),
    "audit": ("fixings", "flows"),
    "breaks": ("fixings", "flows"),
}

#: The words before the document: `breaks` asks for all rows, whatever their dates.
_BEFORE = {"breaks": ("-",)}


class Reply(NamedTuple):
    """What a command comes to: the status and the text that the program would have, the sentence
    that it would say (empty where there is nothing to say), and the file that each word names."""

    status: int
    text: bytes
    sentence: str
    files: Dict[str, Named]
    words: List[str]

    @property
    def line(self) -> str:
        """The first line of the text."""
        return self.text.decode(errors="replace").partition("\n")[0]


def _word(file: Named, taken: Dict[str, Named]) -> str:
    name = brief(file.name)
    ending = XML if is_xml(file.content) else ""
    stem = name[: len(name) - len(ending)] if name.endswith(ending) else name
    return untaken(stem, ending, {*taken, "-"})


def _by_names(sentence: str, files: Dict[str, Named]) -> str:
    """The sentence with the files' own names, where a word has an ending that its name hasn't."""
    for word, file in files.items():
        if word.endswith(XML) and not brief(file.name).endswith(XML):
            sentence = sentence.replace(word, word[: -len(XML)])
    return sentence


def ask(command: str, inputs: Inputs) -> Reply:
    """Asks the engine `check`, `schedule`, `emit`, `net`, `audit` or `breaks` over the files of a look."""
    files: Dict[str, Named] = {}
    words: List[str] = [command, *_BEFORE.get(command, ())]

    def add(file: Optional[Named]) -> None:
        word = "-" if file is None else _word(file, files)
        words.append(word)
        if file is not None:
            files[word] = file

    add(inputs.document)
    for what in _TAKES[command]:
        add(inputs.fixings if what == "fixings" else inputs.flows)
    for calendar in packed(inputs.calendars):
        add(Named(*calendar))
    contents: Dict[str, Text] = {word: file.content for word, file in files.items()}
    answer = run(words, contents)
    sentence = "memory ran out" if answer.status == 7 else answer.sentence
    return Reply(answer.status, answer.text, _by_names(sentence, files), files, words)
