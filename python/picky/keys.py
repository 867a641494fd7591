"""Private and public keys, and what an encrypted file shows.

A private key's text stands in a bytearray, which `PrivateKey.wipe` overwrites, and so do questions, answers and what is written.
Python can't wipe a `str` or `bytes`: so give texts and passphrases in bytearrays, and wipe these, where that matters. What
`cryptography`, `bcrypt` and `argon2` keep is theirs, and the library doesn't wipe the memory that it frees.
"""
from __future__ import annotations

import base64
import hashlib
import secrets
from dataclasses import astuple, dataclass, field
from enum import Enum
from types import TracebackType
from typing import Any, NamedTuple, Optional, Type, Union

from cryptography.exceptions import UnsupportedAlgorithm
from cryptography.hazmat.primitives import serialization
from cryptography.hazmat.primitives.asymmetric.ec import EllipticCurvePrivateKey
from cryptography.hazmat.primitives.asymmetric.ed25519 import Ed25519PrivateKey
from cryptography.hazmat.primitives.asymmetric.rsa import RSAPrivateKey

from . import _library
from ._library import Data, Handed
from .answers import rounds, wipe
from .errors import BadKey, BadSealing, LibraryFault, Unsupported, WrongPassphrase
from .wire import Fields

Text = Union[bytes, bytearray, str]
Passphrase = Union[str, bytes, bytearray]
# The private keys of cryptography that have a text here.
Key = Union[RSAPrivateKey, EllipticCurvePrivateKey, Ed25519PrivateKey]

# The refusals of a text that was decrypted to something else: its check numbers differ, or its MAC.
WRONG = (107, 405)
FLAVOURS = ("Argon2d", "Argon2i", "Argon2id")
# The most fresh bytes that a text takes beside its salt, as padding or as bcrypt's salt.
FRESH = 64


class Target(Enum):
    """What a key is written as.

    `PPK2` and `PPK3` are PuTTY's own layout, which PuTTY reads as this key. `PPK2_OPENSSH` and `PPK3_OPENSSH` are another one, which
    the library's original has: it writes an Ed25519 secret as a number, and PuTTY takes about every second such file for another
    key. The library reads both layouts as the same key.
    """

    OPENSSH = 1
    PUBLIC = 4
    PUTTY_PUBLIC = 5
    PPK2 = 6
    PPK3 = 7
    PPK2_OPENSSH = 2
    PPK3_OPENSSH = 3


@dataclass(frozen=True)
class Sealing:
    """What a private key is encrypted with: bcrypt's rounds in OpenSSH's form; Argon2's kind, its memory in KiB, passes, lanes and
    the bytes of its salt in PuTTY's version 3 (RFC 9106, section 3.1). Version 2 takes nothing of it.
    """

    rounds: int = 16
    flavour: str = "Argon2id"
    memory: int = 8192
    passes: int = 34
    lanes: int = 1
    salt_len: int = 16

    def numbers(self, target: Target) -> tuple[int, ...]:
        """The numbers of picky_sealing. Refuses what isn't below 2^32, and another kind of Argon2: `BadSealing`."""
        if self.flavour not in FLAVOURS:
            raise BadSealing(f"there is no {self.flavour!r}: take one of {', '.join(FLAVOURS)}")
        words = astuple(self)
        numbers = (target.value, words[0], FLAVOURS.index(self.flavour), *words[2:])
        if not all(0 <= it < 1 << 32 for it in numbers):
            raise BadSealing("a parameter isn't from 0 to 4294967295")
        return numbers


class Fingerprints(NamedTuple):
    """The digests of a public key's blob: "MD5:" and hex without colons, "SHA1:" and "SHA256:" and base64 without padding."""

    md5: str
    sha1: str
    sha256: str


@dataclass(frozen=True)
class PublicKey:
    """A public key: `kind` is its type's name, as "ssh-ed25519"; `bits` as `ssh-keygen -l` counts them; `blob` its bytes (RFC 4253,
    section 6.6) in their one spelling; `comment` what stands beside it. Keys are equal where their blobs are.
    """

    kind: str = field(compare=False)
    bits: int = field(compare=False)
    blob: bytes
    comment: str = field(compare=False, default="")

    @classmethod
    def read(cls, text: Text) -> PublicKey:
        """The public key of a text: a public key line, PuTTY's public key, or a private key that isn't encrypted. Of a certificate
        it is the subject's, and no signature is verified.

        Refuses what isn't UTF-8 (`NotUtf8`), what is no key (`BadKey`, `Unsupported`), and what is encrypted (`PassphraseNeeded`):
        `shown` has what stands open in it.
        """
        given = data_of(text)
        _library.read_public(given, 1)
        return _shown_key(given)

    @classmethod
    def of(cls, blob: Data, comment: str = "") -> PublicKey:
        """The public key of a blob. Refuses one of a certificate (`BadKey`), and what is none (`BadKey`, `Unsupported`)."""
        try:
            kind = bytes(Fields(blob).string())
        except LibraryFault:
            raise BadKey() from None
        key = cls.read(kind + b" " + base64.b64encode(blob))
        if key.kind.encode() != kind:
            raise BadKey()
        return key.with_comment(comment)

    @property
    def fingerprints(self) -> Fingerprints:
        """Its three fingerprints."""
        digests = hashlib.md5(self.blob), hashlib.sha1(self.blob)
        sha1 = base64.b64encode(digests[1].digest()).decode().rstrip("=")
        sha256 = _library.fingerprint(self._plain()).decode()
        return Fingerprints(f"MD5:{digests[0].hexdigest()}", f"SHA1:{sha1}", sha256)

    def write(self, target: Target = Target.PUBLIC) -> bytes:
        """The key and its comment as a line that ends in CR LF (`Target.PUBLIC`), or as PuTTYgen saves it (`Target.PUTTY_PUBLIC`).

        Refuses another target (`NoPrivateKey`), and a comment that the form can't hold (`CommentNotCarried`).
        """
        _, content = _library.convert_by(self._plain(), target.value, b"", b"", b"", b"")
        return bytes(_library.with_comment(content, data_of(self.comment)))

    def line(self) -> str:
        """The key and its comment as a line, without its end. Refuses a comment that a line can't hold: `CommentNotCarried`."""
        return self.write().decode().rstrip("\r\n")

    def with_comment(self, comment: str) -> PublicKey:
        """The same key beside another comment."""
        return PublicKey(self.kind, self.bits, self.blob, comment)

    def _plain(self) -> bytes:
        return f"{self.kind} {base64.b64encode(self.blob).decode()}".encode()


@dataclass(frozen=True)
class Shown:
    """What stands open in a key's text. `cipher` and `derivation` are named as in the file, and "none" where it isn't encrypted;
    what its derivation hasn't is None. Of an encrypted text the public key is what the file says: whether it is the one of the
    secret is known once the text is read. Its comment is empty of an encrypted OpenSSH key, which encrypts that, too.
    """

    public: PublicKey
    encrypted: bool
    cipher: str
    derivation: str
    rounds: Optional[int]
    memory: Optional[int]
    passes: Optional[int]
    lanes: Optional[int]
    salt_len: Optional[int]

    @property
    def sealing(self) -> Sealing:
        """The parameters that the text is encrypted with, and the usual ones of what it hasn't."""
        had = {it: getattr(self, it) for it in ("rounds", "memory", "passes", "lanes", "salt_len")}
        numbers = {name: number for name, number in had.items() if number is not None}
        if self.derivation in FLAVOURS:
            return Sealing(flavour=self.derivation, **numbers)
        return Sealing(**numbers)


def shown(text: Text) -> Shown:
    """What stands open in a key's text, without a passphrase.

    Refuses what isn't UTF-8 (`NotUtf8`), and what is no key (`BadKey`, `Unsupported`).
    """
    given = data_of(text)
    words = [_library.shown_public(given, part).decode() for part in range(7, 15)]
    numbers = [int(it) if it else None for it in words[3:]]
    return Shown(_shown_key(given), words[0] == "1", words[1], words[2], *numbers)


class PrivateKey:
    """A private key and its comment: the OpenSSH text of it, in one bytearray. It is a context manager, which wipes it at its end.

    `PrivateKey.read` and `PrivateKey.of` make one.
    """

    def __init__(self, text: bytearray) -> None:
        self._text = text

    @classmethod
    def read(cls, text: Text, passphrase: Optional[Passphrase] = None) -> PrivateKey:
        """The private key of a text: of OpenSSH's form, or of PuTTY's, version 2 or 3. A passphrase of no characters is none, and one
        that isn't needed is ignored.

        Refuses what isn't UTF-8 (`NotUtf8`), what is no key (`BadKey`, `Unsupported`), what is encrypted, without a passphrase
        (`PassphraseNeeded`) or under another (`WrongPassphrase`), whose derivation takes too much (`TooCostly`) or is refused
        (`BadSealing`), and a public key (`NoPrivateKey`).
        """
        given, pass_in = data_of(text), data_of(passphrase)
        asked = False

        def call(answers: bytearray) -> Handed:
            nonlocal asked
            asked = len(answers) > 0
            return _library.convert_by(given, Target.OPENSSH.value, pass_in, b"", b"", answers)

        try:
            return cls(rounds(call))
        except BadKey as refusal:
            if asked and refusal.number in WRONG:
                raise WrongPassphrase("", refusal.number, refusal.name) from None
            raise

    @classmethod
    def of(cls, key: Key, comment: str = "") -> PrivateKey:
        """The private key of one of cryptography's, with a comment. Refuses another kind or curve: `Unsupported`."""
        if not isinstance(key, (RSAPrivateKey, EllipticCurvePrivateKey, Ed25519PrivateKey)):
            raise Unsupported(f"there is no text of {type(key).__name__}")
        # Some type stubs of cryptography know neither this method nor load_ssh_private_key.
        written: Any = key
        form, open_ = serialization.PrivateFormat.OpenSSH, serialization.NoEncryption()
        try:
            text = written.private_bytes(serialization.Encoding.PEM, form, open_)
        except (UnsupportedAlgorithm, ValueError, TypeError) as fault:
            raise Unsupported(f"cryptography has no such text: {fault}") from None
        with cls.read(text) as read:
            return read.with_comment(comment)

    def key(self) -> Key:
        """cryptography's private key. Refuses one of a security key, and what OpenSSL refuses: `Unsupported`."""
        module: Any = serialization
        try:
            key = module.load_ssh_private_key(self._text, None)
        except (UnsupportedAlgorithm, ValueError, TypeError) as fault:
            raise Unsupported(f"cryptography reads no such key: {fault}") from None
        if not isinstance(key, (RSAPrivateKey, EllipticCurvePrivateKey, Ed25519PrivateKey)):
            raise Unsupported(f"cryptography reads {type(key).__name__}")
        return key

    @property
    def public(self) -> PublicKey:
        """Its public key, with the comment."""
        return _shown_key(self._text)

    @property
    def comment(self) -> str:
        """Its comment."""
        return _library.shown_public(self._text, 3).decode()

    def with_comment(self, comment: str) -> PrivateKey:
        """The same key with another comment. Refuses one that isn't UTF-8: `NotUtf8`."""
        return PrivateKey(_library.with_comment(self._text, data_of(comment)))

    def write(
        self,
        target: Target = Target.PPK3,
        passphrase: Optional[Passphrase] = None,
        *,
        sealing: Optional[Sealing] = None,
    ) -> bytearray:
        """The key and its comment as the text of a target, encrypted where there is a passphrase that has characters: by AES-256, in
        OpenSSH's form in counter mode under bcrypt's key, in PuTTY's in CBC under Argon2's (version 3) or SHA-1's (version 2).
        Of a public target it is the public key. Lines end in LF, but in CR LF of version 2 and of public targets.

        Refuses a passphrase that isn't UTF-8 (`NotUtf8`), a security key for PuTTY, which has none (`Unsupported`), a comment that
        the form can't hold (`CommentNotCarried`), parameters that bcrypt or Argon2 can't run with (`BadSealing`) or that take too
        much (`TooCostly`), a sealing for a public target (`BadSealing`), and what is too long (`TooLong`).
        """
        pass_out = data_of(passphrase)
        if sealing is None:
            fresh = secrets.token_bytes(FRESH) if pass_out else b""
            return rounds(
                lambda answers: _library.convert_by(
                    self._text, target.value, b"", pass_out, fresh, answers
                )
            )
        numbers = sealing.numbers(target)
        fresh = secrets.token_bytes(FRESH + sealing.salt_len) if pass_out else b""
        return rounds(
            lambda answers: _library.seal_by(self._text, numbers, b"", pass_out, fresh, answers)
        )

    def wipe(self) -> None:
        """Writes zeros over the key, which each call refuses then (`BadKey`)."""
        wipe(self._text)

    def __enter__(self) -> PrivateKey:
        return self

    def __exit__(
        self,
        kind: Optional[Type[BaseException]],
        value: Optional[BaseException],
        trace: Optional[TracebackType],
    ) -> None:
        self.wipe()


def data_of(text: Optional[Text]) -> Data:
    """The bytes of a text; what isn't text by Unicode gives bytes that aren't UTF-8, which the library refuses."""
    if text is None:
        return b""
    return text.encode("utf-8", "surrogatepass") if isinstance(text, str) else text


def _shown_key(text: Data) -> PublicKey:
    kind, blob, comment, bits = (_library.shown_public(text, part) for part in (1, 2, 3, 6))
    return PublicKey(kind.decode(), int(bits), bytes(blob), comment.decode())
