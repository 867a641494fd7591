"""What the command says: sentences on standard error, and names and texts as a terminal may show them."""
from __future__ import annotations

import os
import sys
from enum import IntEnum
from typing import Any, Callable, Iterable

from ..errors import Error

Run = Callable[[Any], int]


class Status(IntEnum):
    """How a run ends. Of several the largest counts."""

    DONE = 0
    REFUSED = 1
    USAGE = 2
    NOT_WRITTEN = 4
    OUTSIDE = 5
    NO_MEMORY = 6
    INTERRUPTED = 130


class Refusal(Exception):
    """A sentence that says why a file isn't read or written, and the status that it leads to."""

    def __init__(self, sentence: str, status: Status = Status.REFUSED) -> None:
        super().__init__(sentence)
        self.sentence, self.status = sentence, status


def printable(text: str) -> str:
    """The text with an escape for each character that isn't printable, and for each byte of a name that isn't UTF-8."""
    return "".join(it if it.isprintable() else _escape(it) for it in text)


def _escape(character: str) -> str:
    number = ord(character)
    if 0xDC80 <= number <= 0xDCFF:
        return f"\\x{number - 0xDC00:02x}"
    return character.encode("unicode_escape", "surrogatepass").decode()


def say(sentence: str) -> None:
    """Writes a sentence to standard error, whatever that takes."""
    sys.stderr.flush()
    text = f"picky: {sentence}\n".encode(sys.stderr.encoding or "utf-8", "backslashreplace")
    try:
        os.write(2, text)
    except OSError:
        pass


def hand_out(content: bytes) -> None:
    """Writes bytes to standard output, all of them.

    Refuses what standard output doesn't take.
    """
    at = 0
    try:
        while at < len(content):
            at += os.write(1, memoryview(content)[at:])
    except OSError as error:
        raise Refusal(f"standard output: {error.strerror}", Status.NOT_WRITTEN) from None


def hand_out_text(text: str) -> None:
    """Writes a text to standard output, with an escape for what its encoding hasn't."""
    hand_out(text.encode(sys.stdout.encoding or "utf-8", "backslashreplace"))


def each(names: Iterable[str], act: Callable[[str], None]) -> Status:
    """Acts on each file. One that is refused is said with its name, and the others go on."""
    status = Status.DONE
    for name in names:
        try:
            act(name)
        except (Refusal, Error, MemoryError) as error:
            refusal = refusal_of(error)
            say(f"{printable(name)}: {refusal.sentence}")
            status = max(status, refusal.status)
    return status


def refusal_of(error: BaseException) -> Refusal:
    """The refusal that an error of the package, or want of memory, comes to."""
    if isinstance(error, Refusal):
        return error
    if isinstance(error, MemoryError):
        return Refusal("memory ran out", Status.NO_MEMORY)
    return Refusal(str(error))
