"""The calls of libirs, by ctypes: words and files in, status, text and sentence out.

It keeps nothing between calls, so threads may call side by side.
"""
from __future__ import annotations

import ctypes
import functools
import os
from typing import Any, Iterator, List, Mapping, NamedTuple, Optional, Sequence, Union

Text = Union[bytes, str]

#: The most bytes of a file, and the most calendar files of a command (docs/FORMATS.md, 'Limits').
MOST_BYTES = 4_194_304
MOST_CALENDARS = 16

#: How much room the first call of :func:`run` has for the text, in bytes; a longer text is worked out twice.
ROOM = 1 << 16

#: The same for a command whose texts are long.
ROOM_OF = {"emit": 1 << 20, "emit-xml": 1 << 21, "schedule": 1 << 18}

#: How much room the first call of :func:`run_each` has for a trade, in bytes: its text and its sentence.
ROOM_OF_EACH = {**ROOM_OF, "net": 1 << 15, "check": 1 << 10, "audit": 1 << 10}

#: How much room the first call of :func:`run` has for the sentence, in bytes.
SENTENCE_ROOM = 1 << 10

#: The calls of the library that this module makes.
CALLS = ("irs_run", "irs_run_each", "irs_version")


class _Bytes(ctypes.Structure):
    _fields_ = [("at", ctypes.c_char_p), ("len", ctypes.c_size_t)]


class _File(ctypes.Structure):
    _fields_ = [("name", _Bytes), ("bytes", _Bytes)]


class _Trade(ctypes.Structure):
    _fields_ = [("files", ctypes.POINTER(_File)), ("n_files", ctypes.c_size_t)]


class _Answer(ctypes.Structure):
    _fields_ = [("status", ctypes.c_uint8), ("text_len", ctypes.c_size_t), ("sentence_len", ctypes.c_size_t)]


class Answer(NamedTuple):
    """What a command comes to: the status of the program, the text that it prints, and what that means in one sentence.

    At status 0 the sentence is empty where each payment has its amount. Where some have none for want of a fixing it
    says how many, and which fixing the first of them lacks.
    """

    status: int
    text: bytes
    sentence: str


@functools.lru_cache(maxsize=None)
def _library() -> ctypes.CDLL:
    """The library, loaded by the first call; ImportError where it isn't there, or lacks a call."""
    here = os.path.dirname(os.path.abspath(__file__))
    path = os.environ.get("IRS_LIBRARY", os.path.join(here, "libirs.so"))
    if not os.path.exists(path):
        raise ImportError(f"there is no {path}: `make library` builds it, and IRS_LIBRARY may name it")
    library = ctypes.CDLL(path)
    for name in CALLS:
        if not hasattr(library, name):
            raise ImportError(f"{path} has no call {name}: it isn't of this package's version")
    size = ctypes.c_size_t
    given: List[Any] = [ctypes.POINTER(_Bytes), size, ctypes.POINTER(_File), size]
    room: List[Any] = [ctypes.c_void_p, size, ctypes.POINTER(size)]
    library.irs_run.restype = ctypes.c_uint8
    library.irs_run.argtypes = [*given, *room, *room]
    library.irs_run_each.restype = None
    library.irs_run_each.argtypes = [*given, ctypes.POINTER(_Trade), size, ctypes.POINTER(_Answer), size, *room]
    library.irs_version.restype = None
    library.irs_version.argtypes = room
    return library


def as_bytes(text: Text) -> bytes:
    """Bytes as they are, and a text in UTF-8; TypeError for anything else, a number among it."""
    if isinstance(text, str):
        return text.encode()
    if isinstance(text, (bytes, bytearray, memoryview)):
        return bytes(text)
    raise TypeError(f"a file or a word is str or bytes, and not {type(text).__name__}")


def _lent(text: Text) -> _Bytes:
    # A structure of ctypes keeps the bytes that it points to, and so does an array of such structures.
    held = as_bytes(text)
    return _Bytes(held, len(held))


def _lent_words(words: Sequence[Text]) -> "ctypes.Array[_Bytes]":
    # One element more than there may be, as no pointer is NULL.
    return (_Bytes * (len(words) + 1))(*map(_lent, words))


def _lent_files(files: Mapping[str, Text]) -> "ctypes.Array[_File]":
    return (_File * (len(files) + 1))(*(_File(_lent(name), _lent(content)) for name, content in files.items()))


def engine() -> str:
    """What `irs --version` prints: the versions, and the logic sum of the kit that proves the library."""
    out, needed = ctypes.create_string_buffer(1024), ctypes.c_size_t()
    _library().irs_version(out, len(out), ctypes.byref(needed))
    return ctypes.string_at(out, min(needed.value, len(out))).decode()


def run(words: Sequence[Text], files: Optional[Mapping[str, Text]] = None) -> Answer:
    """Does what the program does on a command line, with files from memory.

    `words` are the words after the program's name, `files` the bytes of each file that they name. A
    file that isn't in `files` is one that can't be read: status 5. Where memory runs out the status is 7, without text
    and sentence.

    >>> answer = run(["check", "document"], {"document": b"["})
    >>> answer.status, answer.text
    (2, b'refused K1 0 document 0\\n')
    >>> answer.sentence
    "K1: the document isn't JSON (reading stopped at line 1, column 2)"
    """
    lent_words, lent_files = _lent_words(words), _lent_files(files or {})
    needed, said_needed = ctypes.c_size_t(), ctypes.c_size_t()
    library = _library()
    room = ROOM_OF.get(str(words[0]), ROOM) if words else ROOM
    said_room = SENTENCE_ROOM
    while True:
        out, said = ctypes.create_string_buffer(room), ctypes.create_string_buffer(said_room)
        status = library.irs_run(
            lent_words,
            len(words),
            lent_files,
            len(files or {}),
            out,
            room,
            ctypes.byref(needed),
            said,
            said_room,
            ctypes.byref(said_needed),
        )
        if needed.value <= room and said_needed.value <= said_room:
            sentence = ctypes.string_at(said, said_needed.value).decode(errors="replace")
            return Answer(status, ctypes.string_at(out, needed.value), sentence)
        room, said_room = max(room, needed.value), max(said_room, said_needed.value)


def run_each(words: Sequence[Text], common: Mapping[str, Text], trades: Sequence[Mapping[str, Text]]) -> List[Answer]:
    """Does what `run` does for each trade, over the common files and then the trade's own; a name that is in both is
    the common one.

    The fixings and the calendars that the words name are read once, where all of them are common. Where memory runs
    out for a trade its status is 7, without text and sentence. The texts of all trades are in memory at once.

    >>> [answer] = run_each(["check", "document"], {}, [{"document": b"["}])
    >>> answer.sentence
    "K1: the document isn't JSON (reading stopped at line 1, column 2)"
    """
    lent_words, lent_common = _lent_words(words), _lent_files(common)
    lent = [_lent_files(files) for files in trades]
    library, needed = _library(), ctypes.c_size_t()
    room = (ROOM_OF_EACH.get(str(words[0]), ROOM) if words else ROOM) * len(trades)
    found: List[Answer] = []
    while len(found) < len(trades):
        left = range(len(found), len(trades))
        own = (_Trade * len(left))(*(_Trade(lent[k], len(trades[k])) for k in left))
        answers, out = (_Answer * len(left))(), ctypes.create_string_buffer(room)
        library.irs_run_each(
            lent_words,
            len(words),
            lent_common,
            len(common),
            own,
            len(left),
            answers,
            len(left),
            out,
            room,
            ctypes.byref(needed),
        )
        found += _whole_answers(answers, out)
        # The trades whose texts didn't fit are run again, with the room that these texts need.
        room = sum(answer.text_len + answer.sentence_len for answer in answers[len(found) - left.start :])
    return found


def _whole_answers(answers: "ctypes.Array[_Answer]", out: "ctypes.Array[ctypes.c_char]") -> Iterator[Answer]:
    """The answers in order, up to the first whose text or sentence isn't whole in the room."""
    held, place = memoryview(out), 0
    for answer in answers:
        middle = place + answer.text_len
        end = middle + answer.sentence_len
        if end > len(held):
            return
        sentence = bytes(held[middle:end]).decode(errors="replace")
        yield Answer(answer.status, bytes(held[place:middle]), sentence)
        place = end
