"""The answers to the library's questions, by cryptography, bcrypt and argon2 (picky.h, "Questions and answers").

Questions and answers have secrets in them, so they stand in bytearrays, which are wiped. What bcrypt and argon2 take and give are
bytes of Python, which can't be wiped: a copy of the passphrase and of the derived key stays in memory that was freed.
"""
from __future__ import annotations

from typing import Callable, Union

import argon2.exceptions
import argon2.low_level
import bcrypt
from cryptography.hazmat.primitives.ciphers import Cipher, algorithms, modes

from ._library import ASKED, Data, Handed
from .errors import BadSealing, LibraryFault, TooCostly
from .wire import Fields, uint32

BCRYPT, ARGON2, CBC_SEAL, CBC_OPEN, CTR = 1, 2, 3, 4, 5
FLAVOURS = (argon2.low_level.Type.D, argon2.low_level.Type.I, argon2.low_level.Type.ID)
# A conversion asks four questions at most.
MOST_QUESTIONS = 4
# What a derivation may take: Argon2's memory in KiB, this times its passes, and bcrypt's rounds. A file says what it wants, and
# whoever made it may have asked for a week.
MOST_MEMORY, MOST_MEMORY_PASSES, MOST_ROUNDS = 1 << 20, 1 << 26, 1 << 16


def answer_to(question: Data) -> bytearray:
    """The answer to a question: what bcrypt-pbkdf or Argon2 derives, or what AES gives.

    Refuses what takes too much (`TooCostly`), and what bcrypt or Argon2 refuses (`BadSealing`).
    """
    whole = Fields(question)
    head, text = Fields(whole.string()), whole.string()
    operation = head.byte()
    if operation == BCRYPT:
        return _bcrypt(head, text)
    if operation == ARGON2:
        return _argon2(head, text)
    if operation in (CBC_SEAL, CBC_OPEN, CTR):
        return _aes(operation, head, text)
    raise LibraryFault(f"the library asks for operation {operation}")


def _bcrypt(head: Fields, text: memoryview) -> bytearray:
    length, rounds_wanted, salt = head.uint32(), head.uint32(), bytes(head.string())
    if rounds_wanted > MOST_ROUNDS:
        raise TooCostly(f"bcrypt is to run {rounds_wanted} rounds")
    try:
        return bytearray(bcrypt.kdf(bytes(text), salt, length, rounds_wanted, True))
    except ValueError as fault:
        raise BadSealing(f"bcrypt refuses: {fault}") from None


def _argon2(head: Fields, text: memoryview) -> bytearray:
    kind = FLAVOURS[head.byte()]
    memory, passes, lanes, salt = head.uint32(), head.uint32(), head.uint32(), bytes(head.string())
    if memory > MOST_MEMORY or memory * passes > MOST_MEMORY_PASSES:
        raise TooCostly(f"Argon2 is to run {passes} passes over {memory} KiB")
    try:
        derived = argon2.low_level.hash_secret_raw(
            bytes(text), salt, passes, memory, lanes, 80, kind, 0x13
        )
    except argon2.exceptions.HashingError as fault:
        raise BadSealing(f"Argon2 refuses: {fault}") from None
    return bytearray(derived)


def _aes(operation: int, head: Fields, text: memoryview) -> bytearray:
    key, iv = head.string(), head.string()
    mode: Union[modes.CTR, modes.CBC] = modes.CTR(iv) if operation == CTR else modes.CBC(iv)
    cipher = Cipher(algorithms.AES(key), mode)
    side = cipher.decryptor() if operation == CBC_OPEN else cipher.encryptor()
    out = bytearray(len(text) + 15)
    side.update_into(text, out)
    answer = out[: len(text)]
    wipe(out)
    return answer


def wipe(secret: bytearray) -> None:
    """Writes zeros over the bytes."""
    secret[:] = bytes(len(secret))


def entry(question: Data, answer: Data) -> bytearray:
    """The entry of a table of answers: the question, and behind it the answer as a string."""
    return _joined(question, uint32(len(answer)), answer)


def rounds(
    call: Callable[[bytearray], Handed], answer: Callable[[Data], bytearray] = answer_to
) -> bytearray:
    """What a call hands out once its questions are answered.

    `call` takes the answers that there are, and is called again with one more as long as it asks. They are wiped at the end.
    """
    table = bytearray()
    try:
        for _ in range(MOST_QUESTIONS + 1):
            number, content = call(table)
            if number != ASKED:
                return content
            answered = answer(content)
            added = entry(content, answered)
            longer = _joined(table, added)
            for secret in (table, content, answered, added):
                wipe(secret)
            table = longer
    finally:
        wipe(table)
    raise LibraryFault("the library asks more questions than its header says")


def _joined(*parts: Data) -> bytearray:
    """The parts in a bytearray of their length, so that no copy is left where one grew."""
    whole, at = bytearray(sum(map(len, parts))), 0
    for part in parts:
        whole[at : at + len(part)] = part
        at += len(part)
    return whole
