"""The library's calls by question and answer, and a device that answers them: OpenSSL, libargon2 and bcrypt.

crates/picky_ask/CALLING.md has the questions and the table; include/picky.h has the calls. Fields are those of RFC 4251, section 5.
"""
from __future__ import annotations

import ctypes
import functools
import shutil
import subprocess
from pathlib import Path
from typing import Any, Callable, NamedTuple

import argon2.low_level  # type: ignore[import]
import bcrypt
from cryptography.hazmat.primitives.ciphers import Cipher, algorithms, modes

OK, BUFFER_TOO_SMALL, NO_CIPHER, ASKED, NO_SUCH_SEALING = 0, 1, 7, 13, 15
BCRYPT, ARGON2, CBC_SEAL, CBC_OPEN, CTR = 1, 2, 3, 4, 5
# Targets, and those that are PuTTY's files; the last two have PuTTY's own layout.
OPENSSH, PPK2, PPK3, SSH_PUB, PUTTY_PUB, PPK2_FOR_PUTTY, PPK3_FOR_PUTTY = range(1, 8)
FILES = (PPK2, PPK3, PPK2_FOR_PUTTY, PPK3_FOR_PUTTY)
PRIVATE = (OPENSSH, *FILES)
FLAVOURS = (argon2.low_level.Type.D, argon2.low_level.Type.I, argon2.low_level.Type.ID)
# A conversion asks at four points at most, so the fifth call is the last.
MOST_CALLS = 5
# How much memory a question may have this device spend, in KiB.
MOST_MEMORY = 1 << 18
UNTOUCHED = b"\xa5"


# ---- fields


def uint32(number: int) -> bytes:
    return number.to_bytes(4, "big")


def string(content: bytes) -> bytes:
    return uint32(len(content)) + content


class Fields:
    """Fields, taken from the front of some bytes."""

    def __init__(self, content: bytes) -> None:
        self.left = content

    def take(self, count: int) -> bytes:
        if count > len(self.left):
            raise ValueError(f"{count} bytes are taken of {len(self.left)}")
        taken, self.left = self.left[:count], self.left[count:]
        return taken

    def byte(self) -> int:
        return self.take(1)[0]

    def uint32(self) -> int:
        return int.from_bytes(self.take(4), "big")

    def string(self) -> bytes:
        return self.take(self.uint32())

    def end(self) -> None:
        if self.left:
            raise ValueError(f"{len(self.left)} bytes stand behind the last field")


# ---- what the device computes


class Question(NamedTuple):
    """A question's operation, its arguments but the text (numbers, and then strings), and the text."""

    operation: int
    numbers: tuple[int, ...]
    strings: tuple[bytes, ...]
    text: bytes


def read_question(content: bytes) -> Question:
    whole = Fields(content)
    head, text = Fields(whole.string()), whole.string()
    whole.end()
    operation = head.byte()
    numbers: tuple[int, ...] = ()
    if operation == BCRYPT:
        numbers = head.uint32(), head.uint32()
    elif operation == ARGON2:
        numbers = head.byte(), head.uint32(), head.uint32(), head.uint32()
    elif operation not in (CBC_SEAL, CBC_OPEN, CTR):
        raise ValueError(f"operation {operation} is none of a conversion")
    strings = tuple(head.string() for _ in range(1 if numbers else 2))
    head.end()
    return Question(operation, numbers, strings, text)


def write_question(question: Question) -> bytes:
    """The bytes of a question: string head, string text."""
    numbers = [uint32(it) for it in question.numbers]
    if question.operation == ARGON2:
        numbers[0] = bytes([question.numbers[0]])
    head = bytes([question.operation]) + b"".join(numbers) + b"".join(map(string, question.strings))
    return string(head) + string(question.text)


@functools.lru_cache(maxsize=None)
def bcrypt_of(pass_: bytes, salt: bytes, length: int, rounds: int) -> bytes:
    return bcrypt.kdf(pass_, salt, length, rounds, ignore_few_rounds=True)


@functools.lru_cache(maxsize=None)
def argon2_of(pass_: bytes, salt: bytes, flavour: int, memory: int, passes: int, lanes: int) -> bytes:
    if memory > MOST_MEMORY:
        raise ValueError(f"{memory} KiB are more than this device spends")
    derived: bytes = argon2.low_level.hash_secret_raw(pass_, salt, passes, memory, lanes, 80, FLAVOURS[flavour], version=0x13)
    return derived


def aes(operation: int, key: bytes, iv: bytes, text: bytes) -> bytes:
    cipher = Cipher(algorithms.AES(key), modes.CTR(iv) if operation == CTR else modes.CBC(iv))
    side = cipher.decryptor() if operation == CBC_OPEN else cipher.encryptor()
    return side.update(text) + side.finalize()


def computed(question: Question) -> bytes:
    """What OpenSSL, libargon2 or bcrypt gives."""
    if question.operation == BCRYPT:
        length, rounds = question.numbers
        return bcrypt_of(question.text, question.strings[0], length, rounds)
    if question.operation == ARGON2:
        flavour, memory, passes, lanes = question.numbers
        return argon2_of(question.text, question.strings[0], flavour, memory, passes, lanes)
    key, iv = question.strings
    return aes(question.operation, key, iv, question.text)


# ---- the calls


class Outcome(NamedTuple):
    """The number that a call answers, and the bytes that it hands out: a text, or a question."""

    error: int
    out: bytes


class Sealing(NamedTuple):
    """What a file is sealed by, with the defaults of PICKY_SEALING."""

    target: int
    rounds: int = 16
    flavour: int = 2
    memory: int = 8192
    passes: int = 34
    lanes: int = 1
    salt_len: int = 16


class Conversion(NamedTuple):
    """What picky_convert is given: all but the buffer."""

    text: bytes
    target: int
    pass_in: bytes = b""
    pass_out: bytes = b""
    fresh: bytes = b""


class _Bytes(ctypes.Structure):
    _fields_ = [("at", ctypes.c_char_p), ("len", ctypes.c_size_t)]

    def __init__(self, content: bytes) -> None:
        super().__init__(content, len(content))
        self.kept = content


class _Answer(ctypes.Structure):
    _fields_ = [("error", ctypes.c_uint32), ("len", ctypes.c_size_t)]


class _Name(ctypes.Structure):
    _fields_ = [("text", ctypes.c_char * 48)]


class _Sealing(ctypes.Structure):
    _fields_ = [(name, ctypes.c_uint32) for name in Sealing._fields]


class Broken(Exception):
    """A call did what the header excludes."""


class Library:
    """The library's calls, each tried with no room first. What a call leaves in the buffer is held to the header."""

    def __init__(self, path: Path, folder: Path) -> None:
        if path.suffix == ".a":
            made = folder / f"{path.stem}.so"
            words = ["ld", "-shared", "-o", str(made), "--whole-archive", str(path), "--no-whole-archive"]
            subprocess.run(words, check=True)
            path = made
        self.library = ctypes.CDLL(str(path.absolute()))
        bytes_, number, sealing = _Bytes, ctypes.c_uint32, ctypes.POINTER(_Sealing)
        taken: dict[str, list[Any]] = {
            "convert": [bytes_, number, bytes_, bytes_, bytes_],
            "convert_by": [bytes_, number, bytes_, bytes_, bytes_, bytes_],
            "seal_by": [bytes_, sealing, bytes_, bytes_, bytes_, bytes_],
            "shown_public": [bytes_, number],
            "with_comment": [bytes_, bytes_],
        }
        for name, given in taken.items():
            call = getattr(self.library, f"picky_{name}", None)
            if call is not None:
                call.argtypes, call.restype = [*given, ctypes.c_char_p, ctypes.c_size_t], _Answer
        self.library.picky_error_name.argtypes, self.library.picky_error_name.restype = [ctypes.c_uint32], _Name

    def has(self, name: str) -> bool:
        return hasattr(self.library, f"picky_{name}")

    def name(self, error: int) -> str:
        """The name of an error's number; the number itself where it has none."""
        text: bytes = self.library.picky_error_name(error).text
        return text.decode() or str(error)

    def _call(self, name: str, room: int, given: tuple[Any, ...]) -> tuple[int, int, bytes]:
        buffer = ctypes.create_string_buffer(UNTOUCHED * (room + 8), room + 8)
        answer = getattr(self.library, f"picky_{name}")(*given, ctypes.cast(buffer, ctypes.c_char_p), room)
        written = answer.len + 1 if answer.error in (OK, ASKED) else 0
        if written > room:
            raise Broken(f"picky_{name} hands out {answer.len} bytes in {room}")
        if buffer.raw[written:] != UNTOUCHED * (room + 8 - written):
            raise Broken(f"picky_{name} wrote behind {written} bytes of {room}")
        if written and buffer.raw[written - 1] != 0:
            raise Broken(f"picky_{name} wrote no zero behind {answer.len} bytes")
        if answer.error not in (OK, ASKED, BUFFER_TOO_SMALL) and answer.len != 0:
            raise Broken(f"picky_{name} says {answer.len} bytes with the reason {answer.error}")
        return answer.error, answer.len, buffer.raw[: max(written - 1, 0)]

    def _handed(self, name: str, *given: Any) -> Outcome:
        error, length, out = self._call(name, 0, given)
        if error != BUFFER_TOO_SMALL:
            return Outcome(error, out)
        if length and self._call(name, length, given)[:2] != (BUFFER_TOO_SMALL, length):
            raise Broken(f"picky_{name} has another answer with a byte less than it wants")
        again, length_again, out = self._call(name, length + 1, given)
        if again not in (OK, ASKED) or length_again != length:
            raise Broken(f"picky_{name} wanted {length} bytes, and then answers {again} and {length_again}")
        return Outcome(again, out)

    def convert(self, it: Conversion) -> Outcome:
        given = _Bytes(it.text), it.target, _Bytes(it.pass_in), _Bytes(it.pass_out), _Bytes(it.fresh)
        return self._handed("convert", *given)

    def convert_by(self, it: Conversion, answers: bytes) -> Outcome:
        given = _Bytes(it.text), it.target, _Bytes(it.pass_in), _Bytes(it.pass_out), _Bytes(it.fresh)
        return self._handed("convert_by", *given, _Bytes(answers))

    def seal_by(self, it: Conversion, sealing: Sealing, answers: bytes) -> Outcome:
        given = _Bytes(it.text), _Sealing(*sealing), _Bytes(it.pass_in), _Bytes(it.pass_out), _Bytes(it.fresh)
        return self._handed("seal_by", *given, _Bytes(answers))

    def shown_public(self, text: bytes, part: int) -> Outcome:
        return self._handed("shown_public", _Bytes(text), part)

    def with_comment(self, text: bytes, comment: bytes) -> Outcome:
        return self._handed("with_comment", _Bytes(text), _Bytes(comment))


# ---- rounds


class Entry(NamedTuple):
    """A question, as bytes, and its answer."""

    question: bytes
    answer: bytes

    def written(self) -> bytes:
        return self.question + string(self.answer)


class Run(NamedTuple):
    """How the rounds ended, and the entries of the table that they made."""

    outcome: Outcome
    entries: tuple[Entry, ...]


def table_of(entries: tuple[Entry, ...]) -> bytes:
    return b"".join(it.written() for it in entries)


def rounds(call: Callable[[bytes], Outcome], device: Callable[[Question], bytes] = computed) -> Run:
    """The rounds of a call: each question is answered by the device, until there is none."""
    entries: tuple[Entry, ...] = ()
    for _ in range(MOST_CALLS):
        outcome = call(table_of(entries))
        if outcome.error != ASKED:
            return Run(outcome, entries)
        if outcome.out in [it.question for it in entries]:
            raise Broken("a question comes twice")
        question = read_question(outcome.out)
        if write_question(question) != outcome.out:
            raise Broken(f"a question isn't spelled as CALLING.md says: {outcome.out.hex()}")
        entries += (Entry(outcome.out, device(question)),)
    raise Broken(f"{MOST_CALLS} calls were asked, and there is no end")


def missing_tools(*names: str) -> list[str]:
    return [it for it in names if not shutil.which(it)]
