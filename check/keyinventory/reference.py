"""What keyinventory has to answer: lists and merges of texts, which check/lib/readers.py reads.

`inventory(words, source, passphrase)` gives the exit status and the whole of standard output. The items and causes are for tables
alone: the program names no cause.
"""
from typing import NamedTuple

from lib.readers import LIMIT, WHITE, Fields, Item, Outside, Refused, cut, public_key, read_text, text_of, unbase64

DONE, REFUSED, USAGE, READ_FAULT, WRITE_FAULT, OUTSIDE_FAULT, NO_MEMORY, TOO_LONG, NOT_UTF8 = range(9)
USAGE_LINE = b"usage: keyinventory list|merge\n"


def parts_of(text):
    """What stands between the lines that are exactly %%."""
    parts, (*ended, last) = [[]], text.split("\n")
    for line in ended:
        if line.removesuffix("\r") == "%%":
            parts.append([])
        else:
            parts[-1].append(line + "\n")
    if last != "%%":
        parts[-1].append(last)
    return list(map("".join, parts))


def items_of(text, passphrase):
    """The items of a list of texts."""
    return [read_text(part, passphrase) for part in parts_of(text) if part.strip(WHITE)]


def item_of_line(line):
    """The item that a line of an inventory tells, by which the line is that item's."""
    words = line.split(" ")
    if len(words) != 3 or words[0] not in ("private", "public"):
        raise Refused("inventory", "words")
    try:
        blob, comment = unbase64(words[1], "base64"), text_of(unbase64(words[2], "base64"))
        canonical = public_key(Fields(blob))
    except Refused as refused:
        raise Refused("inventory", *refused.args) from None
    if blob != canonical:
        raise Refused("inventory", "not canonical")
    return Item(words[0], blob, comment)


def items_of_inventory(text):
    *ended, last = text.split("\n")
    if last:
        raise Refused("inventory", "no LF")
    items, before = [], None
    for line in ended:
        items.append(item_of_line(line))
        if before is not None and line.encode() <= before.encode():
            raise Refused("inventory", "order")
        before = line
    return items


def read(word, text, passphrase):
    """The items that the text of a source tells."""
    if word == "list":
        return items_of(text, passphrase)
    left, right = cut(text)
    return items_of_inventory(left) + items_of_inventory(right)


class Answer(NamedTuple):
    status: int
    output: bytes = b""
    items: list = []
    cause: tuple = ()


def inventory(words, source, passphrase=None):
    """What a run ends with. The words and the passphrase come as bytes, the latter as None where there is none."""
    if words not in ((b"list",), (b"merge",)):
        return Answer(USAGE)
    try:
        passphrase = passphrase if passphrase is None else passphrase.decode()
    except UnicodeDecodeError:
        return Answer(USAGE)
    if len(source) > LIMIT:
        return Answer(TOO_LONG)
    try:
        text = source.decode()
    except UnicodeDecodeError:
        return Answer(NOT_UTF8)
    try:
        items = read(words[0].decode(), text, passphrase)
    except Refused as refused:
        return Answer(REFUSED, cause=refused.args)
    except Outside:
        return Answer(OUTSIDE_FAULT)
    return Answer(DONE, b"".join(sorted({item.line() for item in items})), items)
