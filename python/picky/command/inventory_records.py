"""What an inventory is made of: records in files, which `sort` sorts, any number of them in bounded memory.

A record of a key is a line of an inventory (docs/FORMATS.md, "Inventories"), and where places are asked for, a tab and a place: the
name of the key's file and the line there, as JSON. A record of what isn't read is a place with the cause.
"""
from __future__ import annotations

import json
import os
import subprocess
from itertools import groupby
from typing import Iterable, Iterator, List, NamedTuple, Tuple

from ..errors import BadLine, LibraryFault
from ..inventory import Inventory, Item
from .said import Refusal, Status

# How much is checked, or written, at once.
PIECE = 1 << 20
# What a process keeps of records before it writes them, and `sort`.
KEPT = 1 << 22
SORT_SPACE = "16M"


class Place(NamedTuple):
    """A file's name, and a line in it."""

    file: str
    line: int


class Runs:
    """Records that come in any order, and are written to files in a folder, each file sorted."""

    def __init__(self, folder: str) -> None:
        self.folder = folder
        self.kept: List[bytes] = []
        self.size = self.written = 0

    def add(self, record: bytes) -> None:
        """Takes a record."""
        self.kept.append(record)
        self.size += len(record)
        if self.size >= KEPT:
            self.write()

    def write(self) -> None:
        """Writes what is kept."""
        if self.kept:
            self.kept.sort()
            with open(os.path.join(self.folder, f"{os.getpid()}-{self.written}"), "xb") as run:
                run.writelines(self.kept)
            self.kept.clear()
            self.size, self.written = 0, self.written + 1


class Found:
    """What a run finds, in files of a folder: `keys` and `unread` are the records of keys and of what isn't read, sorted, and made by
    `sort` of the files in `key_runs` and `unread_runs`. `placed` says whether keys have places.
    """

    def __init__(self, folder: str, *, placed: bool) -> None:
        self.folder, self.placed = folder, placed
        self.keys, self.unread, self.key_runs, self.unread_runs = (
            os.path.join(folder, name) for name in ("keys", "unread", "key-runs", "unread-runs")
        )
        os.mkdir(self.key_runs)
        os.mkdir(self.unread_runs)
        self._refused = Runs(self.unread_runs)

    def refuse(self, name: str, line: int, cause: str) -> None:
        """Notes that something isn't read."""
        self._refused.add(unread_record(name, line, cause))

    def sort(self) -> None:
        """Sorts the records, each once, and has the library check that the keys' lines are an inventory."""
        self._refused.write()
        for path, runs in ((self.keys, self.key_runs), (self.unread, self.unread_runs)):
            names = [os.path.join(runs, name) for name in os.listdir(runs)]
            sort(path, names, "--merge", "--unique")
        try:
            for _ in checked(in_pieces(lines_of(self.keys))):
                pass
        except BadLine as fault:
            raise LibraryFault(f"what was listed is no inventory: {fault.cause}") from None


def sort(path: str, names: List[str], *words: str) -> None:
    """Writes the records of files to one, as `sort` with these words does it.

    Refuses what `sort` doesn't do.
    """
    space = [f"--buffer-size={SORT_SPACE}", f"--temporary-directory={os.path.dirname(path)}"]
    command = ["sort", *space, *words, f"--output={path}", "--files0-from=-"]
    given = os.fsencode("\0".join(names or [os.devnull]))
    variables = {**os.environ, "LC_ALL": "C"}
    try:
        run = subprocess.run(command, input=given, capture_output=True, env=variables)
    except FileNotFoundError:
        raise Refusal("there is no program sort", Status.OUTSIDE) from None
    if run.returncode:
        cause = run.stderr.decode(errors="backslashreplace").strip() or "it was ended"
        raise Refusal(f"the keys can't be sorted: {cause}", Status.OUTSIDE)


def key_record(line: bytes, *place: bytes) -> bytes:
    """The record of a line of an inventory, and of a place where that is given."""
    return b"\t".join((line[:-1], *place)) + b"\n"


def place_record(name: str, line: int, *more: str) -> bytes:
    """A place, and what is said of it. The records are sorted by names, and then by lines."""
    words = [json.dumps(name), f"{line:9}", *map(json.dumps, more)]
    return f"[{', '.join(words)}]".encode()


def unread_record(name: str, line: int, cause: str) -> bytes:
    """The record of what isn't read."""
    return place_record(name, line, cause) + b"\n"


def line_of(record: bytes) -> bytes:
    """The line of an inventory in a record."""
    line, tab, _ = record.partition(b"\t")
    return line + b"\n" if tab else line


def places_of(records: Iterable[bytes]) -> Iterator[Place]:
    """The places in records."""
    for record in records:
        _, tab, place = record.partition(b"\t")
        if tab:
            yield Place(*json.loads(place))


def lines_of(path: str) -> Iterator[bytes]:
    """The lines of an inventory that sorted records have, each once."""
    with open(path, "rb") as records:
        for line, _ in groupby(records, line_of):
            yield line


def items_of(path: str) -> Iterator[Tuple[Item, Iterator[Place]]]:
    """What sorted records say, and the places of each, which are to be taken before the next."""
    with open(path, "rb") as records:
        for line, group in groupby(records, line_of):
            (item,) = Inventory(line)
            yield item, places_of(group)


def unread_of(path: str) -> Iterator[Tuple[Place, str]]:
    """What isn't read, and why."""
    with open(path, "rb") as records:
        for record in records:
            name, line, cause = json.loads(record)
            yield Place(name, line), cause


def in_pieces(lines: Iterable[bytes]) -> Iterator[bytes]:
    """Lines, joined to pieces."""
    kept: List[bytes] = []
    size = 0
    for line in lines:
        kept.append(line)
        size += len(line)
        if size >= PIECE:
            yield b"".join(kept)
            kept.clear()
            size = 0
    if kept:
        yield b"".join(kept)


def checked(pieces: Iterable[bytes]) -> Iterator[bytes]:
    """The pieces of an inventory, as the library finds them in order.

    Refuses a line that is no inventory's, or isn't greater than the one before it: `BadLine`.
    """
    before, number = b"", 0
    for piece in pieces:
        try:
            before = Inventory.check(piece, before)
        except BadLine as refusal:
            raise BadLine("", refusal.number, refusal.name, number + refusal.line) from None
        number += piece.count(b"\n")
        yield piece
