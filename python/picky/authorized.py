"""Authorized keys (sshd(8), "AUTHORIZED_KEYS FILE FORMAT")."""
from __future__ import annotations

from typing import List, NamedTuple, Optional, Tuple

from . import _library
from .keys import PublicKey, Text, data_of
from .wire import Fields

# The parts of picky_authorized_entry.
KEY_LINE, OPTION_LIST, ALL_ENTRIES = 4, 12, 13


class LineOption(NamedTuple):
    """An option before a key: its name in lower case, and its value, None where it has none."""

    name: str
    value: Optional[str]


class Entry(NamedTuple):
    """A line that is neither blank nor a comment: its number, counted from 1 over all lines; its state, "key", "bad-options", or why
    its key is refused, as "KeyError"; and where the state is "key", its options and its key with the comment.
    """

    line: int
    state: str
    options: Tuple[LineOption, ...]
    key: Optional[PublicKey]


def authorized_keys(text: Text) -> List[Entry]:
    """The entries of authorized keys, in their order.

    Refuses what isn't UTF-8 (`NotUtf8`), and what has 2^32 bytes or more (`TooLong`).
    """
    given = data_of(text)
    fields = Fields(_library.authorized_entry(given, 0, ALL_ENTRIES))
    lines = bytes(given).split(b"\n")
    entries = []
    while fields.left:
        number, state = fields.uint32(), fields.text()
        fields.string()
        fields.string()
        entries.append(_entry(number, state, lines[number - 1]))
    return entries


def _entry(number: int, state: str, line: bytes) -> Entry:
    if state != "key":
        return Entry(number, state, (), None)
    fields, options = Fields(_library.authorized_entry(line, 0, OPTION_LIST)), []
    while fields.left:
        name, has_value, value = fields.text(), fields.byte(), fields.text()
        options.append(LineOption(name, value if has_value else None))
    key = PublicKey.read(_library.authorized_entry(line, 0, KEY_LINE))
    return Entry(number, state, tuple(options), key)
