"""Inventories: which keys a list of texts has, each once (picky/inventory.h)."""
from __future__ import annotations

import base64
from dataclasses import dataclass
from typing import Iterable, Iterator, NamedTuple

from . import _library
from .errors import error_of
from .keys import PublicKey, Text, data_of


class Item(NamedTuple):
    """A line of an inventory: a key with its comment, and whether its text has the private key, encrypted or not: `held` is
    "private", "sealed" or "public". That a key is the one of the secret behind "sealed" says the file alone, until it is opened.
    """

    held: str
    key: PublicKey


@dataclass(frozen=True)
class Inventory:
    """An inventory's text. Iterating over it gives its items. `Inventory()` is empty."""

    text: bytes = b""

    @classmethod
    def of(cls, texts: Iterable[Text], *, sealed: bool = True) -> Inventory:
        """The inventory of key texts. Encrypted private keys are listed by the public key that they show, if `sealed`, else refused.
        A text of white space alone has no key.

        Refuses, of the first text that is refused, with its `place` among them, counted from 0: what isn't UTF-8 (`NotUtf8`), what is
        no key (`BadKey`, `Unsupported`), and what is encrypted (`PassphraseNeeded`).
        """
        number, content = _library.inventory_list([data_of(it) for it in texts], sealed)
        if number:
            refusal = error_of(number, _library.error_name(number))
            refusal.place = int(content) if content else None
            raise refusal
        return cls(bytes(content))

    @classmethod
    def read(cls, text: Text) -> Inventory:
        """The inventory of a text. Refuses what isn't UTF-8 (`NotUtf8`), and what is none (`BadLine`)."""
        given = bytes(data_of(text))
        cls.check(given)
        return cls(given)

    @staticmethod
    def check(piece: bytes, before: bytes = b"") -> bytes:
        """The last line of a piece of an inventory, which is `before` of the next piece: so an inventory of any size is checked in
        pieces that are cut behind LF, the first behind no bytes. Refuses as `read`, with the line's number in the piece.
        """
        return bytes(_library.inventory_check(piece, before))

    def merge(self, other: Inventory) -> Inventory:
        """The inventory of the lines of both."""
        return Inventory(bytes(_library.inventory_merge(self.text, other.text)))

    def __iter__(self) -> Iterator[Item]:
        for line in self.text.decode().split("\n")[:-1]:
            held, blob, comment = line.split(" ")
            text = base64.b64decode(comment).decode()
            yield Item(held, PublicKey.of(base64.b64decode(blob), text))
