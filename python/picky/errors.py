"""The package's errors: a class by cause, all below `Error`.

Each has the number and the name of the library's error (include/picky/errors.h), as 111 and "input.private.MissingPassphrase". An
error that this package finds itself has the number 0 and no name.
"""
from __future__ import annotations

from typing import Dict, Optional, Type


class Error(Exception):
    """A refusal: `cause` says it in words, `number` and `name` are the library's. Where one of several texts is refused, `place` is its
    place among them, counted from 0.
    """

    said = "the library refuses it"
    place: Optional[int] = None

    def __init__(self, cause: str = "", number: int = 0, name: str = "") -> None:
        super().__init__(cause, number, name)
        self.cause, self.number, self.name = cause or self.said, number, name

    def __str__(self) -> str:
        return f"{self.cause} ({self.name})" if self.name else self.cause


class LibraryMissing(Error):
    """libpicky.so.0, or a call of it, isn't there."""

    said = "libpicky.so.0 isn't found"


class LibraryFault(Error):
    """The library and this package don't fit together."""

    said = "the library answers otherwise than its header says"


class NoMemory(Error, MemoryError):
    """Memory ran out."""

    said = "memory ran out"


class NotUtf8(Error):
    """A text, a passphrase or a comment isn't UTF-8."""

    said = "it isn't UTF-8"


class BadKey(Error):
    """The text means no key: it is none, or it was cut or changed."""

    said = "it is no key that is read here"


class Unsupported(Error):
    """The key's kind, its cipher or its derivation isn't one of those that are read or written here."""

    said = "its kind, cipher or derivation isn't supported"


class PassphraseNeeded(Error):
    """The text is encrypted, and no passphrase is given."""

    said = "it is encrypted, and no passphrase is given"


class WrongPassphrase(Error):
    """The text isn't encrypted under this passphrase, or was changed since: nobody can tell which."""

    said = "the passphrase is wrong"


class TooCostly(Error):
    """To derive the key would take more memory or work than this package spends (`answers.MOST_..`)."""

    said = "to derive its key takes too much"


class NoPrivateKey(Error):
    """The text has a public key alone."""

    said = "it has no private key"


class CommentNotCarried(Error):
    """The form can't hold the comment, as a line holds none with an end of a line."""

    said = "this form can't hold the comment"


class TooLong(Error):
    """What is to be written has 2^32 bytes or more, or more lines than PuTTY's file may have."""

    said = "it is too long"


class BadSealing(Error):
    """No key is encrypted with these parameters."""

    said = "bcrypt or Argon2 can't be run with these parameters"


class BadRequest(Error):
    """No certificate is made so."""

    said = "no such certificate is made"


class BadIssuer(Error):
    """The issuer's text means no key."""

    said = "the issuer's text is no key that is read here"


class BadSignature(Error):
    """The signature isn't good."""

    said = "the signature isn't good"


class SignerFault(Error):
    """Who was asked to sign doesn't."""

    said = "the signer doesn't sign"


class BadLine(Error):
    """A line is refused: `line` is its number, counted from 1."""

    said = "a line is refused"

    def __init__(self, cause: str = "", number: int = 0, name: str = "", line: int = 0) -> None:
        super().__init__(cause or (f"line {line} is refused" if line else ""), number, name)
        self.args = (self.cause, number, name, line)
        self.line = line


_CLASSES: Dict[int, Type[Error]] = {
    2: NoMemory,
    **dict.fromkeys((3, 4, 14, 19, 20, 22, 23, 24, 29, 30, 32, 33), NotUtf8),
    8: NoPrivateKey,
    9: CommentNotCarried,
    **dict.fromkeys((11, 12, 28), TooLong),
    **dict.fromkeys((15, 510, 604), BadSealing),
    21: BadRequest,
    31: BadLine,
    **dict.fromkeys((111, 413), PassphraseNeeded),
    **dict.fromkeys((102, 103, 104, 301, 414, 502, 614), Unsupported),
}
_HUNDREDS: Dict[int, Type[Error]] = {
    **dict.fromkeys((1, 2, 3, 4), BadKey),
    8: BadRequest,
    **dict.fromkeys((11, 12, 13, 14), BadIssuer),
}


def error_of(number: int, name: str) -> Error:
    """The error of a number and a name of the library."""
    kind = _CLASSES.get(number, _HUNDREDS.get(number // 100, LibraryFault))
    return kind("", number, name)
