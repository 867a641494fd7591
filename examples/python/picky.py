#!/usr/bin/env python3
"""picky from Python, by ctypes: a module, and a program that converts a key.

    ./picky.py ppk3-for-putty < key

It takes libpicky.so.0 from its own folder, else from where ./install puts it without a PREFIX, else from where the system has it.
The program takes one of keyconv's "openssh", "ppk2", "ppk3", "ssh-pub" and "putty-pub"; "ppk2-for-putty" or "ppk3-for-putty", a file
for PuTTY, which takes about every second one of an Ed25519 key that "ppk2" and "ppk3" give for another secret; or "fingerprint",
which prints the SHA-256 fingerprint alone. It refuses as keyconv does, with status 1 and a line on standard error, and ends with
status 4 where standard output fails.
"""
from __future__ import annotations

import ctypes
import sys
from pathlib import Path
from typing import Any, Sequence, Union

# What the library reads: any bytes.
Data = Union[bytes, bytearray, memoryview]

TARGETS = {"openssh": 1, "ppk2": 2, "ppk3": 3, "ssh-pub": 4, "putty-pub": 5, "ppk2-for-putty": 6, "ppk3-for-putty": 7}
PARTS = {"type": 1, "blob": 2, "comment": 3}
SHOWN = {
    **PARTS, "line": 4, "fingerprint": 5, "bits": 6, "encrypted": 7, "cipher": 8, "derivation": 9, "rounds": 10, "memory": 11,
    "passes": 12, "lanes": 13, "salt_len": 14,
}
OK, BUFFER_TOO_SMALL = 0, 1


class Bytes(ctypes.Structure):
    _fields_ = [("at", ctypes.c_char_p), ("len", ctypes.c_size_t)]

    def __init__(self, data: Data) -> None:
        kept = data if isinstance(data, bytes) else bytes(memoryview(data))
        super().__init__(kept, len(kept))
        self.kept = kept


class Answer(ctypes.Structure):
    _fields_ = [("error", ctypes.c_uint32), ("len", ctypes.c_size_t)]


class Name(ctypes.Structure):
    _fields_ = [("text", ctypes.c_char * 48)]


class PickyError(Exception):
    """A refusal, by its number and its name."""

    def __init__(self, number: int, name: str) -> None:
        # Both, so that it can be pickled.
        super().__init__(number, name)
        self.number, self.name = number, name

    def __str__(self) -> str:
        return self.name


def library_file(name: str = "libpicky.so.0") -> str:
    """The library's file in this folder or in lib/ of the repository; its name alone, where neither has it."""
    here = Path(__file__).resolve().parent
    return next((str(it) for it in (here / name, here / "../../lib" / name) if it.exists()), name)


def load(path: str = library_file()) -> ctypes.CDLL:
    """The library, with the types of its calls."""
    library = ctypes.CDLL(str(path))
    taken: dict[str, list[Any]] = {
        "picky_convert": [Bytes, ctypes.c_uint32, Bytes, Bytes, Bytes],
        "picky_fingerprint": [Bytes],
        "picky_read_public": [Bytes, ctypes.c_uint32],
        "picky_shown_public": [Bytes, ctypes.c_uint32],
        "picky_with_comment": [Bytes, Bytes],
    }
    for name, given in taken.items():
        call = getattr(library, name)
        call.argtypes, call.restype = [*given, ctypes.c_char_p, ctypes.c_size_t], Answer
    library.picky_error_name.argtypes, library.picky_error_name.restype = [ctypes.c_uint32], Name
    library.picky_version.argtypes, library.picky_version.restype = [], Name
    return library


library = load()


def error_name(number: int) -> str:
    """The name of an error's number; "" where it has none."""
    name: bytes = library.picky_error_name(number).text
    return name.decode()


def version() -> str:
    """The version of the library."""
    text: bytes = library.picky_version().text
    return text.decode()


def handed_out(call: Any, *given: Any) -> bytes:
    """What a call hands out: asked for with no room first, which tells how much it takes."""
    room = 0
    while True:
        out = ctypes.create_string_buffer(max(room, 1))
        answer = call(*given, ctypes.cast(out, ctypes.c_char_p), room)
        if answer.error == OK:
            return out.raw[: answer.len]
        if answer.error != BUFFER_TOO_SMALL:
            raise PickyError(answer.error, error_name(answer.error))
        room = answer.len + 1


def convert(text: Data, target: str, pass_in: Data = b"", pass_out: Data = b"", fresh: Data = b"") -> bytes:
    """The text of a target, one of TARGETS, for the key and the comment that a text means. Another is refused: NoSuchTarget."""
    number = TARGETS.get(target, 0)
    return handed_out(library.picky_convert, Bytes(text), number, Bytes(pass_in), Bytes(pass_out), Bytes(fresh))


def fingerprint(text: Data) -> str:
    """The SHA-256 fingerprint of the key that a text means."""
    return handed_out(library.picky_fingerprint, Bytes(text)).decode()


def read_public(text: Data, part: str) -> bytes:
    """A part, one of PARTS, of the public key that a text means. Another is refused: NoSuchPart."""
    return handed_out(library.picky_read_public, Bytes(text), PARTS.get(part, 0))


def shown_public(text: Data, part: str) -> bytes:
    """A part, one of SHOWN, of what a text shows without a passphrase; b"" where it has none. Another is refused: NoSuchPart."""
    return handed_out(library.picky_shown_public, Bytes(text), SHOWN.get(part, 0))


def with_comment(text: Data, comment: Data) -> bytes:
    """The text with another comment."""
    return handed_out(library.picky_with_comment, Bytes(text), Bytes(comment))


def main(words: Sequence[str]) -> int:
    if len(words) != 1 or words[0] not in {*TARGETS, "fingerprint"}:
        print("usage: picky.py openssh|ppk2|ppk3|ssh-pub|putty-pub|ppk2-for-putty|ppk3-for-putty|fingerprint < KEY", file=sys.stderr)
        return 2
    text = sys.stdin.buffer.read()
    try:
        out = fingerprint(text).encode() + b"\n" if words[0] == "fingerprint" else convert(text, words[0])
    except PickyError as refusal:
        print(f"picky.py: {refusal}", file=sys.stderr)
        return 1
    try:
        # Its own buffer, since Python writes out that of sys.stdout once more at its end.
        with open(1, "wb", closefd=False) as stream:
            stream.write(out)
    except OSError:
        print("picky.py: write fault", file=sys.stderr)
        return 4
    return 0


if __name__ == "__main__":
    sys.exit(main(sys.argv[1:]))
