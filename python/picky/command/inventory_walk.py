"""The files that an inventory looks at."""
from __future__ import annotations

import os
import re
from typing import Callable, Iterable, Iterator, NamedTuple

from .files import not_opened

# Files that may have no key, or many.
_LISTS = r"(?:authorized_keys|(?:ssh_)?known_hosts)(?:2|\.old)?"
LIST = re.compile(_LISTS)
KNOWN = re.compile(
    r"id_(?:rsa|dsa|ecdsa|ed25519).*|ssh_host_.*key|.*\.(?:pub|ppk)|" + _LISTS, re.DOTALL
)
Refuse = Callable[[str, str], None]


class File(NamedTuple):
    """A file's name, and whether it has to have a key: by its own name, or since it is the one that was asked for."""

    name: str
    sure: bool


def files_of(paths: Iterable[str], refuse: Refuse) -> Iterator[File]:
    """The files that are named, but for standard input ("-"), and those in folders that are. In folders links aren't followed, and of
    pipes, sockets and devices only those stand here that have a key file's name.

    A folder that can't be read is refused, and the others go on.
    """
    for path in paths:
        if path == "-":
            continue
        if os.path.isdir(path):
            yield from _files_below(path, refuse)
        else:
            yield File(path, True)


def _files_below(path: str, refuse: Refuse) -> Iterator[File]:
    folders = [path]
    while folders:
        folder = folders.pop()
        try:
            with os.scandir(folder) as entries:
                for entry in entries:
                    known = KNOWN.fullmatch(entry.name) is not None
                    if entry.is_symlink():
                        continue
                    if entry.is_dir():
                        folders.append(entry.path)
                    elif known or entry.is_file():
                        yield File(entry.path, known)
        except OSError as error:
            refuse(folder, not_opened(folder, error))
