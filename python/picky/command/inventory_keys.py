"""The keys of files, as lines of an inventory: what each of the processes does."""
from __future__ import annotations

import json
import os
from typing import Callable, List, Optional

from ..answers import wipe
from ..errors import Error, PassphraseNeeded
from ..inventory import Inventory
from ..keys import Target
from . import files
from .inventory_records import Found, Runs, key_record, place_record, unread_record
from .inventory_walk import LIST, File
from .pieces import pieces
from .said import Refusal, refusal_of
from .sources import FOREIGN, PRIVATE, Form, Source, foreign_key, form_of, public_key

# How much of a file is read to see whether it begins as a key.
BEGINNING = 4096
NO_KEY = "it is no key"
Take = Callable[[int, bytes], None]
Refuse = Callable[[int, str], None]


def list_file(file: File, take: Take, refuse: Refuse) -> None:
    """Gives each key of a file to `take`, as a line of an inventory, and what isn't read to `refuse`, with the line of the file where
    it begins. A file that needn't have a key, and doesn't begin as one, has none. Beside keys that are blocks, other text is no
    fault (RFC 7468, section 2).
    """
    try:
        if not file.sure and not _begins_as_key(file.name):
            return
        content = files.read(file.name)
    except (Refusal, MemoryError) as error:
        refuse(1, refusal_of(error).sentence)
        return
    keys, blocks, others, first = 0, 0, 0, 1
    for piece in pieces(content):
        if piece.shaped:
            keys += 1
            blocks += form_of(piece.text) not in (Form.LINE, Form.CERTIFICATE)
            try:
                take(piece.line, line_of(piece.text))
            except (Refusal, Error, MemoryError) as error:
                refuse(piece.line, refusal_of(error).sentence)
        else:
            others += 1
            first = piece.line if others == 1 else first
    if not keys and not LIST.fullmatch(os.path.basename(file.name)):
        refuse(1, NO_KEY if content else "it is empty")
    elif others and not blocks:
        refuse(first, f"{NO_KEY} ({others:,} such lines)" if others > 1 else NO_KEY)
    wipe(content)


def _begins_as_key(name: str) -> bool:
    descriptor = files.opened(name)
    try:
        beginning = os.read(descriptor, BEGINNING)
    except OSError as error:
        raise Refusal(f"it can't be read: {error.strerror}") from None
    finally:
        os.close(descriptor)
    first = next(pieces(beginning), None)
    return first is not None and first.shaped


def line_of(text: bytes) -> bytes:
    """The line of an inventory that a key text has, with its end.

    Refuses what isn't read, and what is encrypted and shows no public key.
    """
    form = form_of(text)
    if form not in FOREIGN:
        return Inventory.of([text]).text
    if form not in PRIVATE:
        return Inventory.of([public_key(Source("", 1, b"", text, form)).write()]).text
    try:
        with foreign_key(text, None) as key:
            opened = key.write(Target.OPENSSH)
    except PassphraseNeeded:
        raise Refusal("it is encrypted, and shows no public key") from None
    line = Inventory.of([opened]).text
    wipe(opened)
    return line


def file_record(file: File) -> bytes:
    """A file, as `Lister` takes it."""
    return json.dumps(file).encode() + b"\n"


class Lister:
    """Lists batches of files: it writes records of their keys, and of what isn't read."""

    def __init__(self, found: Found) -> None:
        self.placed = found.placed
        self.keys, self.unread = Runs(found.key_runs), Runs(found.unread_runs)

    def __call__(self, batch: Optional[List[bytes]]) -> int:
        """Lists the files of a batch, and gives their number. Without a batch it writes what is left."""
        for record in batch or ():
            self._list(File(*json.loads(record)))
        if batch is None:
            self.keys.write()
            self.unread.write()
        return len(batch or ())

    def _list(self, file: File) -> None:
        def take(at: int, line: bytes) -> None:
            places = [place_record(file.name, at)] if self.placed else []
            self.keys.add(key_record(line, *places))

        def refuse(at: int, cause: str) -> None:
            self.unread.add(unread_record(file.name, at, cause))

        list_file(file, take, refuse)
