"""Work that several processes do."""
from __future__ import annotations

import os
import signal
from multiprocessing import get_context
from multiprocessing.connection import Connection, wait
from typing import Any, Callable, Generic, Iterator, List, Optional, Set, TypeVar

from .said import Refusal, Status

ENDING = (signal.SIGTERM, signal.SIGHUP)
Given = TypeVar("Given")
Done = TypeVar("Done")


def processors() -> int:
    """How many processors this process may run on."""
    return len(os.sched_getaffinity(0))


class Processes(Generic[Given, Done]):
    """Processes that each do a work, again and again. It is a context manager, which ends them; they end with this process, too.

    They are forked, and share what is loaded. So no thread may run beside this one.
    """

    def __init__(self, work: Callable[[Optional[Given]], Done], count: int) -> None:
        context = get_context("fork")
        self._ends: List[Any] = []
        self._processes = []
        # What ends this process isn't heard while it forks, where Python drops what a handler raises. Ctrl-C, which reaches each
        # process of a terminal, is heard by this one alone: it ends the others.
        blocked = signal.pthread_sigmask(signal.SIG_BLOCK, [signal.SIGINT, *ENDING])
        try:
            for _ in range(count):
                here, there = context.Pipe()
                self._ends.append(here)
                given = work, there, list(self._ends)
                process = context.Process(target=_serve, args=given, daemon=True)
                process.start()
                there.close()
                self._processes.append(process)
        finally:
            signal.pthread_sigmask(signal.SIG_SETMASK, blocked)

    def each(self, batches: Iterator[Given]) -> Iterator[Done]:
        """What the work gives of each batch, as it comes, and in each process at last of None.

        Raises what the work raises. Refuses a process that ends by itself.
        """
        busy: Set[Any] = set(self._ends)
        last: Set[Any] = set()

        def send(end: Any) -> None:
            batch = next(batches, None)
            end.send(batch)
            if batch is None:
                last.add(end)

        try:
            for end in self._ends:
                send(end)
            while busy:
                for end in wait(list(busy)):
                    done = end.recv()
                    if isinstance(done, BaseException):
                        raise done
                    yield done
                    if end in last:
                        busy.remove(end)
                    else:
                        send(end)
        except (EOFError, ConnectionError):
            raise Refusal("a process of the run was ended", Status.OUTSIDE) from None

    def __enter__(self) -> "Processes[Given, Done]":
        return self

    def __exit__(self, *_: object) -> None:
        for process in self._processes:
            process.terminate()
        for process in self._processes:
            process.join()


def _serve(work: Callable[[Any], Any], end: "Connection", others: "List[Connection]") -> None:
    for number in ENDING:
        signal.signal(number, signal.SIG_DFL)
    signal.pthread_sigmask(signal.SIG_UNBLOCK, ENDING)
    for other in others:
        other.close()
    batch: Any = others
    try:
        while batch is not None:
            batch = end.recv()
            try:
                end.send(work(batch))
            except (MemoryError, OSError) as error:
                end.send(error)
    except (EOFError, ConnectionError):
        # The first process is gone.
        pass
