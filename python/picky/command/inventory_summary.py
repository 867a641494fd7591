"""What a page says of an inventory: counts, and the keys that one should look at."""
from __future__ import annotations

import os
from collections import Counter
from heapq import merge
from itertools import groupby
from typing import Dict, Generic, Iterable, Iterator, List, Optional, Tuple, TypeVar

from ..inventory import Inventory, Item
from ..keys import PublicKey
from .inventory_records import Found, Place, items_of, lines_of, sort, unread_of

# A list on the page has so many entries at most, and an entry so many places and comments. What is more is counted.
ENTRIES, PLACES = 1000, 20
SMALLEST_RSA = 2048
SECRET = ("private", "sealed")
Entry = TypeVar("Entry")


class Some(Generic[Entry]):
    """The first of some entries, and how many there are."""

    def __init__(self, most: int = ENTRIES) -> None:
        self.most, self.count = most, 0
        self.shown: List[Entry] = []

    def add(self, entry: Entry) -> None:
        """Counts an entry."""
        self.count += 1
        if len(self.shown) < self.most:
            self.shown.append(entry)

    @property
    def left(self) -> int:
        """How many aren't shown."""
        return self.count - len(self.shown)


class Key:
    """A key, its comments, and by how it is held ("private", "sealed" or "public") its places."""

    def __init__(self, public: PublicKey) -> None:
        self.public = public
        self.comments: List[str] = []
        self.held: Dict[str, Some[Place]] = {}

    def add(self, item: Item, places: Iterable[Place]) -> None:
        """Takes a line of the inventory."""
        held = self.held.setdefault(item.held, Some(PLACES))
        for place in places:
            held.add(place)
        comment = item.key.comment
        if comment and comment not in self.comments and len(self.comments) < PLACES:
            self.comments.append(comment)

    def count(self, *held: str) -> int:
        """In how many places it is held so."""
        return sum(self.held[it].count for it in held if it in self.held)


class Summary:
    """What is said of all keys, of which each is counted once, however many lines it has.

    `placed` says whether places are known, and `compared` whether there is an earlier inventory: `new` has the lines that it hasn't,
    and `gone` those that it has alone.
    """

    def __init__(self, found: Found, earlier: Optional[str]) -> None:
        self.placed, self.compared = found.placed, earlier is not None
        self.kinds: Counter[Tuple[str, int]] = Counter()
        self.sealed = 0
        self.open: Some[Key] = Some()
        self.copied: Some[Key] = Some()
        self.shared: Some[Key] = Some()
        self.small: Some[Key] = Some()
        self.new: Some[Item] = Some()
        self.gone: Some[Item] = Some()
        self.unread: Some[Tuple[Place, str]] = Some()
        for key in _keys(found):
            self._add(key)
        if earlier is not None:
            for line, new in differences(lines_of(earlier), lines_of(found.keys)):
                (item,) = Inventory(line)
                (self.new if new else self.gone).add(item)
        for unread in unread_of(found.unread):
            self.unread.add(unread)

    def _add(self, key: Key) -> None:
        public = key.public
        self.kinds[public.kind, public.bits] += 1
        if "private" in key.held:
            self.open.add(key)
        elif "sealed" in key.held:
            self.sealed += 1
        if key.count(*SECRET) > 1:
            self.copied.add(key)
        elif key.count("public") > 1:
            self.shared.add(key)
        if public.kind == "ssh-rsa" and public.bits < SMALLEST_RSA:
            self.small.add(key)


def _keys(found: Found) -> Iterator[Key]:
    """Each key once, whose lines stand apart in an inventory."""
    path = os.path.join(found.folder, "by-key")
    sort(path, [found.keys], "--field-separator= ", "--key=2,2")
    for _, group in groupby(items_of(path), lambda pair: pair[0].key.blob):
        key: Optional[Key] = None
        for item, places in group:
            key = key or Key(item.key)
            key.add(item, places)
        assert key is not None
        yield key


def differences(earlier: Iterator[bytes], later: Iterator[bytes]) -> Iterator[Tuple[bytes, bool]]:
    """The lines that one of two inventories has alone, and whether it is the later one."""
    both = merge(((line, False) for line in earlier), ((line, True) for line in later))
    for line, group in groupby(both, lambda pair: pair[0]):
        sides = [new for _, new in group]
        if len(sides) == 1:
            yield line, sides[0]
