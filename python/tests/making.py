"""The keys that the tests read: each is made once in a run, by ssh-keygen or puttygen."""
from __future__ import annotations

from itertools import chain, repeat
from typing import Dict, Iterator, Tuple

from tools import Made, Tools

CIPHERS = ("aes128-cbc", "aes128-ctr", "aes256-cbc", "aes256-ctr")
FLAVOURS = ("argon2d", "argon2i", "argon2id")
COMMENTS = ("me@host", "", "two words of mine", 'a "quoted" one', "m\u00fcller \U0001f511")
PASSES = ("secret", "p", "p\u00e4ss \U0001f511", "long " * 30, "--", " spaces ")
# How many keys of each kind, of each program.
BY_SSH_KEYGEN = {"rsa1024": 12, "rsa2048": 4, "p256": 36, "p384": 36, "p521": 36, "ed25519": 100}
BY_PUTTYGEN = {"rsa1024": 12, "rsa2048": 2, "p256": 36, "p384": 36, "p521": 36, "ed25519": 72}


def numbered(counts: Dict[str, int]) -> Iterator[Tuple[int, str]]:
    """Each key's number among those of its kind, and its kind."""
    return chain.from_iterable(zip(range(count), repeat(kind)) for kind, count in counts.items())


def sealing_of(number: int) -> Tuple[str, int]:
    """The cipher, and bcrypt's rounds, by which ssh-keygen encrypts a key."""
    return CIPHERS[number % 4], 1 + number // 4 % 3


def params_of(number: int) -> str:
    """What puttygen encrypts a key by: of three files one has version 2, and the others each sort of Argon2, with little memory."""
    if number % 3 == 0:
        return "version=2"
    flavour, lanes = FLAVOURS[number // 3 % 3], 1 + number % 4
    memory, passes = 8 * lanes + number % 57, 1 + number % 5
    return f"version=3,kdf={flavour},memory={memory},passes={passes},parallelism={lanes}"


def by_ssh_keygen(tools: Tools, it: Tuple[int, str]) -> Made:
    """A key that ssh-keygen makes, and encrypts."""
    number, kind = it
    comment, passphrase = COMMENTS[number % len(COMMENTS)], PASSES[number % len(PASSES)]
    text = tools.key(kind, comment)
    line = (tools.folder / "key.pub").read_text().rstrip("\n")
    cipher, rounds = sealing_of(number)
    sealed = tools.sealed(text, cipher, rounds, passphrase.encode())
    return Made(f"ssh-keygen {kind} {number}", kind, comment, passphrase, sealed, text, line)


def by_puttygen(tools: Tools, it: Tuple[int, str]) -> Made:
    """A key that puttygen makes, and encrypts, but for every fifth."""
    number, kind = it
    comment, passphrase = COMMENTS[number % len(COMMENTS)], PASSES[number % len(PASSES)]
    given = passphrase if number % 5 else ""
    ppk = tools.putty_key(kind, comment, given.encode(), params_of(number))
    text = tools.opened_by_putty(ppk, given.encode())
    assert text
    return Made(f"puttygen {kind} {number}", kind, comment, given, ppk, text, tools.putty_line(ppk))
