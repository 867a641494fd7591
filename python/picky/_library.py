"""The calls of libpicky.so.0, one function each.

A function returns the bytes that the call hands out, in a bytearray of their length, or raises the error of the number. Where a
call has bytes beside a number that isn't 0, as a question, its function returns both. What is given is read where it stands, and
the room that a call wrote to is wiped.
"""
from __future__ import annotations

import ctypes
import functools
import os
from ctypes import addressof, c_char, c_char_p, c_size_t, c_uint32, c_uint64, c_void_p
from pathlib import Path
from typing import Any, Callable, NamedTuple, Sequence, Union

from .errors import BadLine, Error, LibraryMissing, error_of

Data = Union[bytes, bytearray]

NAME = "libpicky.so.0"
OK, BUFFER_TOO_SMALL, ASKED, BAD_LINE, DENIED = 0, 1, 13, 31, 900
# What a call has room for at first: the texts of all usual keys.
FIRST_ROOM = 8192


class _Bytes(ctypes.Structure):
    _fields_ = [("at", c_char_p), ("len", c_size_t)]
    kept: Any


class _Answer(ctypes.Structure):
    _fields_ = [("error", c_uint32), ("len", c_size_t)]
    error: int
    len: int


class _Name(ctypes.Structure):
    _fields_ = [("text", c_char * 48)]
    text: bytes


class _Sealing(ctypes.Structure):
    _fields_ = [
        (name, c_uint32)
        for name in ("target", "rounds", "flavour", "memory", "passes", "lanes", "salt_len")
    ]


class Handed(NamedTuple):
    """The number that a call answers, and the bytes beside it."""

    number: int
    content: bytearray


_NONE = _Bytes(b"", 0)


def _load() -> ctypes.CDLL:
    """The library beside the package, else in the folder around it, which is PREFIX/lib; else $PICKY_LIBRARY; else the system's."""
    here = Path(__file__).resolve().parent
    places = [here / NAME, here.parent / NAME, here.parent.parent / NAME]
    named = os.environ.get("PICKY_LIBRARY")
    if named:
        places.append(Path(named))
    for place in places:
        if place.is_file():
            try:
                return ctypes.CDLL(str(place))
            except OSError as fault:
                raise LibraryMissing(f"{place} isn't loaded: {fault}") from None
    try:
        return ctypes.CDLL(NAME)
    except OSError:
        raise LibraryMissing(
            f"{NAME} is none of {', '.join(map(str, places))}, and not the system's"
        ) from None


_library = _load()


def _call(name: str, *given: Any) -> Callable[..., _Answer]:
    call = getattr(_library, f"picky_{name}", None)
    if call is None:
        return functools.partial(_missing, name)
    call.argtypes, call.restype = [*given, c_void_p, c_size_t], _Answer
    return call  # type: ignore[no-any-return]


def _missing(name: str, *_: Any) -> _Answer:
    raise LibraryMissing(f"{NAME} is too old: it has no picky_{name}")


_convert_by = _call("convert_by", _Bytes, c_uint32, _Bytes, _Bytes, _Bytes, _Bytes)
_seal_by = _call("seal_by", _Bytes, c_void_p, _Bytes, _Bytes, _Bytes, _Bytes)
_fingerprint = _call("fingerprint", _Bytes)
_read_public = _call("read_public", _Bytes, c_uint32)
_shown_public = _call("shown_public", _Bytes, c_uint32)
_with_comment = _call("with_comment", _Bytes, _Bytes)
_certificate_part = _call("certificate_part", _Bytes, c_uint32, c_size_t)
_certificate_draft = _call("certificate_draft", c_void_p, c_size_t, _Bytes, _Bytes, _Bytes)
_certify_by = _call("certify_by", c_void_p, c_size_t, _Bytes, _Bytes, _Bytes, _Bytes)
_authorized_entry = _call("authorized_entry", _Bytes, c_size_t, c_uint32, c_size_t)
_decide_by = _call("decide_by", _Bytes, _Bytes, _Bytes, c_uint64, _Bytes)
_ledger_apply = _call("ledger_apply", _Bytes, _Bytes, _Bytes, _Bytes, _Bytes)
_ledger_replies = _call("ledger_replies", _Bytes, _Bytes, _Bytes, _Bytes, _Bytes)
_inventory_list = _call("inventory_list", c_void_p, c_size_t, c_uint32)
_inventory_merge = _call("inventory_merge", _Bytes, _Bytes)
_inventory_check = _call("inventory_check", _Bytes, _Bytes)
_library.picky_error_name.argtypes, _library.picky_error_name.restype = [c_uint32], _Name
_library.picky_version.argtypes, _library.picky_version.restype = [], _Name


def _given(data: Data) -> _Bytes:
    """The bytes where they stand. A bytearray can't be resized as long as the answer lives."""
    if not data:
        return _NONE
    if isinstance(data, bytes):
        return _Bytes(data, len(data))
    at = c_char.from_buffer(data)
    given = _Bytes(addressof(at), len(data))
    given.kept = at
    return given


def _handed(call: Callable[..., _Answer], *given: Any, room: int = FIRST_ROOM) -> Handed:
    while True:
        out = bytearray(room)
        answer = call(*given, addressof(c_char.from_buffer(out)), room)
        number, length = answer.error, answer.len
        if number != BUFFER_TOO_SMALL:
            content = out[:length]
            out[:length] = bytes(length)
            return Handed(number, content)
        room = length + 1


def _bytes_of(call: Callable[..., _Answer], *given: Any) -> bytearray:
    number, content = _handed(call, *given)
    if number:
        raise _error(number, content)
    return content


def _asking(call: Callable[..., _Answer], *given: Any) -> Handed:
    handed = _handed(call, *given)
    if handed.number not in (OK, ASKED):
        raise _error(*handed)
    return handed


def _error(number: int, content: Data) -> Error:
    if number == BAD_LINE:
        return BadLine("", number, error_name(number), int(content))
    return error_of(number, error_name(number))


def error_name(number: int) -> str:
    """The name of an error's number; "" where it has none."""
    name: bytes = _library.picky_error_name(number).text
    return name.decode()


def version() -> str:
    """The version of the library."""
    text: bytes = _library.picky_version().text
    return text.decode()


def convert_by(
    text: Data, target: int, pass_in: Data, pass_out: Data, fresh: Data, answers: Data
) -> Handed:
    """picky_convert_by: the text of the target, or with ASKED a question."""
    given = _given(text), target, _given(pass_in), _given(pass_out), _given(fresh), _given(answers)
    return _asking(_convert_by, *given)


def seal_by(
    text: Data,
    sealing: Sequence[int],
    pass_in: Data,
    pass_out: Data,
    fresh: Data,
    answers: Data,
) -> Handed:
    """picky_seal_by, with the seven numbers of picky_sealing in their order."""
    numbers = _Sealing(*sealing)
    given = _given(pass_in), _given(pass_out), _given(fresh), _given(answers)
    return _asking(_seal_by, _given(text), addressof(numbers), *given)


def fingerprint(text: Data) -> bytearray:
    """picky_fingerprint."""
    return _bytes_of(_fingerprint, _given(text))


def read_public(text: Data, part: int) -> bytearray:
    """picky_read_public."""
    return _bytes_of(_read_public, _given(text), part)


def shown_public(text: Data, part: int) -> bytearray:
    """picky_shown_public; no bytes where the text has no such part."""
    return _bytes_of(_shown_public, _given(text), part)


def with_comment(text: Data, comment: Data) -> bytearray:
    """picky_with_comment."""
    return _bytes_of(_with_comment, _given(text), _given(comment))


def certificate_part(text: Data, part: int, place: int = 0) -> bytearray:
    """picky_certificate_part."""
    return _bytes_of(_certificate_part, _given(text), part, place)


def authorized_entry(text: Data, place: int, part: int, option: int = 0) -> bytearray:
    """picky_authorized_entry."""
    return _bytes_of(_authorized_entry, _given(text), place, part, option)


def certificate_draft(words: Sequence[bytes], issuer: Data, key: Data, fresh: Data) -> bytearray:
    """picky_certificate_draft."""
    array = _array(words)
    given = addressof(array), len(words), _given(issuer), _given(key), _given(fresh)
    return _bytes_of(_certificate_draft, *given)


def certify_by(
    words: Sequence[bytes], issuer: Data, key: Data, fresh: Data, answers: Data
) -> Handed:
    """picky_certify_by: the line, or with ASKED a question."""
    array = _array(words)
    given = _given(issuer), _given(key), _given(fresh), _given(answers)
    return _asking(_certify_by, addressof(array), len(words), *given)


def decide_by(authorized: Data, offer: Data, user: Data, moment: int, answers: Data) -> Handed:
    """picky_decide_by: the lines of a grant; with ASKED a question, and with DENIED and more the lines of a denial."""
    given = _given(authorized), _given(offer), _given(user), moment, _given(answers)
    handed = _handed(_decide_by, *given)
    if handed.number in (OK, ASKED) or DENIED <= handed.number < DENIED + 100:
        return handed
    raise _error(*handed)


def ledger_apply(ledger: Data, issuer: Data, requests: Data, fresh: Data, answers: Data) -> Handed:
    """picky_ledger_apply: the new ledger, or with ASKED the questions."""
    given = _given(ledger), _given(issuer), _given(requests), _given(fresh), _given(answers)
    return _asking(_ledger_apply, *given)


def ledger_replies(
    ledger: Data, issuer: Data, requests: Data, fresh: Data, answers: Data
) -> Handed:
    """picky_ledger_replies: the replies, or with ASKED the questions."""
    given = _given(ledger), _given(issuer), _given(requests), _given(fresh), _given(answers)
    return _asking(_ledger_replies, *given)


def inventory_list(texts: Sequence[Data], sealed: bool) -> Handed:
    """picky_inventory_list: the inventory, or of a text that is refused its place beside the number."""
    array = _array(texts)
    # A line is rarely longer than twice its text.
    room = FIRST_ROOM + 2 * sum(map(len, texts))
    return _handed(_inventory_list, addressof(array), len(texts), int(sealed), room=room)


def inventory_merge(left: Data, right: Data) -> bytearray:
    """picky_inventory_merge."""
    return _bytes_of(_inventory_merge, _given(left), _given(right))


def inventory_check(piece: Data, before: Data) -> bytearray:
    """picky_inventory_check."""
    return _bytes_of(_inventory_check, _given(piece), _given(before))


def _array(items: Sequence[Data]) -> ctypes.Array[_Bytes]:
    given = [_given(it) for it in items]
    array = (_Bytes * max(len(given), 1))(*given)
    setattr(array, "kept", given)
    return array
