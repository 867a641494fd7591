"""An inventory as text, JSON or CSV: pieces of it, one after another."""
from __future__ import annotations

import csv
import io
import json
from typing import Any, Dict, Iterable, Iterator

from .inventory_records import Place, items_of, unread_of
from .said import printable
from .show import named, of_public, title


def as_text(keys: str, *, places: bool) -> Iterator[bytes]:
    """A line for each key, and below it a line for each place."""
    for item, found in items_of(keys):
        key = item.key
        words = f"{item.held:<7}  {key.bits:>5}  {key.kind}  {key.fingerprints.sha256}  "
        yield f"{words}{printable(key.comment)}".rstrip().encode() + b"\n"
        for place in found if places else ():
            yield f"    {title(fields_of(place))}\n".encode()


def as_csv(keys: str, *, places: bool) -> Iterator[bytes]:
    """A row for each key, or for each place of each."""
    names = ("held", "kind", "bits", "fingerprint", "comment")
    yield _row(*names, *(Place._fields if places else ()))
    for item, found in items_of(keys):
        key = item.key
        cells = (item.held, key.kind, key.bits, key.fingerprints.sha256, key.comment)
        if not places:
            yield _row(*cells)
        for place in found:
            yield _row(*cells, printable(place.file), place.line)


def _row(*cells: object) -> bytes:
    row = io.StringIO()
    csv.writer(row).writerow(cells)
    return row.getvalue().encode()


def as_json(keys: str, unread: str, *, places: bool) -> Iterator[bytes]:
    """An object with a list of the keys, and one of what wasn't read."""
    yield b'{\n  "keys": ['
    begin = "\n    "
    for item, found in items_of(keys):
        fields = json.dumps({"held": item.held, **of_public(item.key)})
        if not places:
            yield f"{begin}{fields}".encode()
        else:
            yield f'{begin}{fields[:-1]}, "places": ['.encode()
            yield from _joined((fields_of(place) for place in found), "", ", ")
            yield b"]}"
        begin = ",\n    "
    yield b'\n  ],\n  "unread": ['
    causes = ({**fields_of(place), "error": cause} for place, cause in unread_of(unread))
    yield from _joined(causes, "\n    ", ",\n    ")
    yield b"\n  ]\n}\n"


def _joined(objects: Iterable[Dict[str, Any]], begin: str, between: str) -> Iterator[bytes]:
    for one in objects:
        yield f"{begin}{json.dumps(one)}".encode()
        begin = between


def fields_of(place: Place) -> Dict[str, Any]:
    """A place, as JSON has it."""
    return {**named(place.file), "line": place.line}
