"""Passphrases: from a file, a descriptor or the terminal, where they aren't shown."""
from __future__ import annotations

import argparse
import os
import termios
import threading
from typing import Callable, List, Optional, Tuple, TypeVar

from ..answers import wipe
from ..errors import PassphraseNeeded, WrongPassphrase
from . import files
from .said import Refusal, printable, say

T = TypeVar("T")
Opening = Callable[[Optional[bytearray]], T]
TRIES = 3


def descriptor(text: str) -> int:
    """The number of a descriptor."""
    number = int(text)
    if not 0 <= number < 1 << 31:
        raise ValueError(text)
    return number


def add_options(parser: argparse.ArgumentParser) -> None:
    """Adds the options for the passphrase that opens the files."""
    one = parser.add_mutually_exclusive_group()
    one.add_argument(
        "--passphrase-file", metavar="FILE", help="open by the first line of FILE, - is input"
    )
    one.add_argument(
        "--passphrase-fd",
        metavar="N",
        type=descriptor,
        help="open by the first line of descriptor N",
    )


def add_new_options(parser: argparse.ArgumentParser, asks: bool) -> None:
    """Adds the options for the passphrase that is set; where the command asks for one anyway, there is none to ask."""
    one = parser.add_mutually_exclusive_group()
    if not asks:
        one.add_argument("--new-passphrase", action="store_true", help="ask for another passphrase")
    one.add_argument("--new-passphrase-file", metavar="FILE", help="set the first line of FILE")
    one.add_argument(
        "--new-passphrase-fd",
        metavar="N",
        type=descriptor,
        help="set the first line of descriptor N",
    )
    one.add_argument("--no-passphrase", action="store_true", help="write without a passphrase")


class Passphrases:
    """The passphrases of a run. One that opened a file is tried on the next."""

    def __init__(self, arguments: argparse.Namespace) -> None:
        self._file: Optional[str] = arguments.passphrase_file
        self._descriptor: Optional[int] = arguments.passphrase_fd
        self._asks: bool = self._file is None and self._descriptor is None
        self._good: Optional[bytearray] = None

    def open(self, name: str, opening: Opening[T]) -> Tuple[T, Optional[bytearray]]:
        """What opening a file gives, and the passphrase that it took; none where the file isn't encrypted.

        Refuses what `opening` does, and a passphrase that is wrong: one from the terminal at the third time.
        """
        try:
            return opening(None), None
        except PassphraseNeeded:
            pass
        if not self._asks:
            if self._good is None:
                self._good = given(self._file, self._descriptor)
            return apart(lambda: opening(self._good)), self._good
        if self._good is not None:
            try:
                return apart(lambda: opening(self._good)), self._good
            except WrongPassphrase:
                pass
        for left in range(TRIES - 1, -1, -1):
            passphrase = asked(
                f"Passphrase of {printable(name)}: ", "--passphrase-file or --passphrase-fd"
            )
            try:
                answer = apart(lambda: opening(passphrase))
            except WrongPassphrase:
                wipe(passphrase)
                if left:
                    say(f"{printable(name)}: the passphrase is wrong")
                continue
            self._good = passphrase
            return answer, passphrase
        raise Refusal("the passphrase is wrong, three times")


def given(file: Optional[str], descriptor: Optional[int]) -> bytearray:
    """The first line of a file or of a descriptor, without its end.

    Refuses what can't be read.
    """
    if file is not None:
        try:
            content = files.read(file)
        except Refusal as refusal:
            raise Refusal(f"the passphrase of {printable(file)}: {refusal.sentence}") from None
    else:
        assert descriptor is not None
        try:
            content = _line(descriptor)
        except OSError as error:
            raise Refusal(f"the passphrase of descriptor {descriptor}: {error.strerror}") from None
    end = content.find(b"\n")
    line = content if end < 0 else content[:end]
    if line is not content:
        wipe(content)
    if line.endswith(b"\r"):
        del line[-1]
    return line


def new(arguments: argparse.Namespace) -> bytearray:
    """The passphrase that is to be set: given, or asked for twice.

    Refuses an empty one, and two that differ, from the terminal at the third time.
    """
    if arguments.new_passphrase_file is not None or arguments.new_passphrase_fd is not None:
        passphrase = given(arguments.new_passphrase_file, arguments.new_passphrase_fd)
        if not passphrase:
            raise Refusal("the new passphrase is empty; --no-passphrase sets none")
        return passphrase
    options = "--new-passphrase-file, --new-passphrase-fd or --no-passphrase"
    for left in range(TRIES - 1, -1, -1):
        passphrase = asked("New passphrase: ", options)
        if not passphrase:
            why = "the new passphrase is empty; --no-passphrase sets none"
        else:
            again = asked("The same again: ", options)
            same = passphrase == again
            wipe(again)
            if same:
                return passphrase
            wipe(passphrase)
            why = "the two passphrases differ"
        if left:
            say(why)
    raise Refusal(f"{why}, three times")


def asked(prompt: str, options: str) -> bytearray:
    """What is typed on the terminal, which doesn't show it.

    Refuses where there is no terminal, and its end.
    """
    try:
        terminal = os.open("/dev/tty", os.O_RDWR | os.O_NOCTTY | os.O_CLOEXEC)
    except OSError:
        raise Refusal(f"a passphrase is needed, and there is no terminal: give {options}") from None
    try:
        shown = termios.tcgetattr(terminal)
        hidden = shown[:]
        hidden[3] &= ~(termios.ECHO | termios.ECHOE | termios.ECHOK | termios.ECHONL)
        hidden[3] |= termios.ICANON | termios.ISIG
        termios.tcsetattr(terminal, termios.TCSAFLUSH, hidden)
        try:
            os.write(terminal, prompt.encode(errors="backslashreplace"))
            line = _line(terminal)
        finally:
            termios.tcsetattr(terminal, termios.TCSAFLUSH, shown)
            os.write(terminal, b"\n")
    finally:
        os.close(terminal)
    if not line.endswith(b"\n"):
        raise Refusal("the terminal ended before a passphrase")
    del line[-1]
    return line


def _line(descriptor: int) -> bytearray:
    """The bytes up to an LF, with it, or to the end; no byte behind it is taken."""
    line = bytearray()
    room = bytearray(1)
    while not line.endswith(b"\n") and len(line) <= files.LARGEST and os.readv(descriptor, [room]):
        line += room
    return line


def apart(call: Callable[[], T]) -> T:
    """What the call gives. Ctrl-C ends the wait for it: a derivation may take long, and hears no signal."""
    answers: List[T] = []
    errors: List[BaseException] = []

    def work() -> None:
        try:
            answers.append(call())
        except BaseException as error:
            errors.append(error)

    worker = threading.Thread(target=work, daemon=True)
    worker.start()
    worker.join()
    if errors:
        raise errors[0]
    return answers[0]
