"""Processes of this machine that work on chunks, where the end of one process costs nothing but its own chunk.

Each process has one chunk at a time, so it is known which chunk it worked on when it died or took too long. The
items of that chunk are tried again, each alone; what kills its process alone too, or takes too long alone, is
lost, and nothing else is.
"""
from __future__ import annotations

import ctypes
import logging
import multiprocessing
import os
import signal
import threading
import time
from collections import deque
from multiprocessing.connection import Connection, wait
from typing import Any, Callable, Deque, Generic, Iterator, List, NamedTuple, Optional, TypeVar

LOG = logging.getLogger("irs.book")

#: How often an item that is alone is tried where its process, or its worker on an executor, dies.
TRIES = 3

#: PR_SET_PDEATHSIG of Linux: the signal that a process gets when the one that started it ends.
SET_DEATH_SIGNAL = 1

Item = TypeVar("Item")
Result = TypeVar("Result")


class _Chunk(NamedTuple):
    """Items that are worked at once, and how often they were tried alone."""

    items: List[Any]
    tries: int


def _serve(
    pipe: Connection, others: List[Connection], work: Callable[[List[Any]], List[Any]], parent: int, follows: bool
) -> None:
    """What a process does: a chunk in, its results out, until the pipe is closed."""
    signal.signal(signal.SIGINT, signal.SIG_IGN)
    signal.signal(signal.SIGTERM, signal.SIG_DFL)
    for other in others:
        other.close()
    if follows:
        _end_with(parent)
    while True:
        try:
            pipe.send(work(pipe.recv()))
        except (EOFError, OSError):
            return


def _end_with(parent: int) -> None:
    """Has this process end when the one that started it does, also while it works."""
    try:
        ctypes.CDLL(None).prctl(SET_DEATH_SIGNAL, signal.SIGKILL)
    except (OSError, AttributeError):
        return
    if os.getppid() != parent:
        os._exit(1)


class _Process:
    """A process, the chunk that it works on, and since when."""

    def __init__(self, work: Callable[[List[Any]], List[Any]], others: List[Connection]) -> None:
        context = multiprocessing.get_context("fork")
        self.pipe, its = context.Pipe()
        # The kernel counts the end of the thread that starts a process, and only the main one is sure to stay.
        follows = threading.current_thread() is threading.main_thread()
        self.process = context.Process(
            target=_serve, args=(its, [*others, self.pipe], work, os.getpid(), follows), daemon=True
        )
        self.process.start()
        its.close()
        self.chunk: Optional[_Chunk] = None
        self.began = 0.0

    def start(self, chunk: _Chunk) -> bool:
        """Hands over a chunk; False where the process is gone."""
        self.chunk, self.began = chunk, time.monotonic()
        try:
            self.pipe.send(chunk.items)
        except OSError:
            return False
        return True

    def how_it_ended(self) -> str:
        """How the process ended, in words."""
        self.process.join(5)
        code = self.process.exitcode
        if code is None:
            return "the worker doesn't answer"
        return f"the worker ended by {signal.Signals(-code).name}" if code < 0 else f"the worker ended with {code}"

    def end(self) -> None:
        """Ends the process, whatever it does."""
        self.process.kill()
        self.process.join(5)
        self.pipe.close()


class Processes(Generic[Item, Result]):
    """`jobs` processes. `timeout` is the most seconds for an item alone, and for a chunk before its items are tried
    alone; `None` is no limit. `lost` makes the result of an item that can't be worked, of the item and why.
    """

    def __init__(
        self,
        work: Callable[[List[Item]], List[Result]],
        lost: Callable[[Item, str], Result],
        jobs: Optional[int] = None,
        timeout: Optional[float] = None,
    ) -> None:
        self.work, self.lost, self.timeout = work, lost, timeout
        self.jobs = jobs or len(os.sched_getaffinity(0))
        self.running: List[_Process] = []
        self.again: Deque[_Chunk] = deque()

    def results(self, chunks: Iterator[List[Item]]) -> Iterator[List[Result]]:
        """The results of each chunk, as they come. The processes end with the iterator."""
        try:
            while self._feed(chunks):
                yield from self._ended()
        finally:
            self.close()

    def close(self) -> None:
        """Ends all processes."""
        while self.running:
            self.running.pop().end()

    def _next(self, chunks: Iterator[List[Item]]) -> Optional[_Chunk]:
        if self.again:
            return self.again.popleft()
        items = next(chunks, None)
        return None if items is None else _Chunk(items, 0)

    def _feed(self, chunks: Iterator[List[Item]]) -> bool:
        """Gives each idle process a chunk; False where none has any and none is left."""
        for process in self.running:
            if process.chunk is None and not self._hand(process, chunks):
                break
        while len(self.running) < self.jobs:
            chunk = self._next(chunks)
            if chunk is None:
                break
            self.running.append(_Process(self.work, [it.pipe for it in self.running]))
            self.running[-1].start(chunk)
        return any(process.chunk is not None for process in self.running)

    def _hand(self, process: _Process, chunks: Iterator[List[Item]]) -> bool:
        chunk = self._next(chunks)
        if chunk is None:
            return False
        # Where it is gone already, its pipe is at its end, and the chunk is seen as one that was running.
        process.start(chunk)
        return True

    def _ended(self) -> Iterator[List[Result]]:
        """Waits until a process has answered, died or taken too long."""
        busy = [process for process in self.running if process.chunk is not None]
        ready = wait([process.pipe for process in busy], self._patience(busy))
        for process in busy:
            if process.pipe in ready:
                yield from self._received(process)
            elif self.timeout is not None and time.monotonic() - process.began >= self.timeout:
                yield from self._given_up(process, f"it took longer than {self.timeout:g} s", again=False)

    def _patience(self, busy: List[_Process]) -> Optional[float]:
        if self.timeout is None:
            return None
        first = min(process.began for process in busy) + self.timeout
        return max(0.0, first - time.monotonic())

    def _received(self, process: _Process) -> Iterator[List[Result]]:
        try:
            result = process.pipe.recv()
        except (EOFError, OSError):
            yield from self._given_up(process, process.how_it_ended(), again=True)
            return
        process.chunk = None
        yield result

    def _given_up(self, process: _Process, why: str, again: bool) -> Iterator[List[Result]]:
        """Ends a process, and has its items tried again, each alone, or gives them up."""
        items, tries = process.chunk or _Chunk([], 0)
        self.running.remove(process)
        process.end()
        LOG.warning("%s; what it worked on is tried again alone (%d)", why, len(items))
        if len(items) > 1:
            self.again.extend(_Chunk([item], 0) for item in items)
        elif again and tries + 1 < TRIES:
            self.again.append(_Chunk(items, tries + 1))
        else:
            yield [self.lost(item, why) for item in items]
