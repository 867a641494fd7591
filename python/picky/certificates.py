"""Certificates (OpenSSH's PROTOCOL.certkeys): read, verified, and made."""
from __future__ import annotations

import secrets
from dataclasses import dataclass, field
from typing import NamedTuple, Optional, Protocol, Sequence, Tuple

from . import _library
from ._library import Data
from .answers import rounds
from .errors import BadRequest, BadSignature, LibraryFault
from .keys import PublicKey, Text, data_of
from .signatures import is_good
from .wire import Fields

# The parts of picky_certificate_part.
TYPE, KIND, SERIAL, VALID_AFTER, VALID_BEFORE, KEY_ID, COMMENT, NONCE = range(1, 9)
ISSUER_LINE, FORMAT, BLOB, SIGNATURE, SIGNED = range(11, 16)
PRINCIPAL_LIST, OPTION_LIST, EXTENSION_LIST = range(24, 27)
SUFFIX, FOREVER = "-cert-v01@openssh.com", 2**64 - 1
# How an issuer of a kind signs: the word that asks for it, and the signature's format.
ALGORITHMS = {
    "ssh-rsa": ("rsa-sha2-512", "rsa-sha2-512"),
    "ecdsa-sha2-nistp256": ("ecdsa-sha2-256", "ecdsa-sha2-nistp256"),
    "ecdsa-sha2-nistp384": ("ecdsa-sha2-384", "ecdsa-sha2-nistp384"),
    "ecdsa-sha2-nistp521": ("ecdsa-sha2-512", "ecdsa-sha2-nistp521"),
    "ssh-ed25519": ("ed25519", "ssh-ed25519"),
}
# What a question for a signature asks for: the kind of key and the digest, and the format of RSA's and of Ed25519's.
SIGN, RSA, ECDSA, ED25519 = 6, 1, 2, 3
FORMATS = {(RSA, 4): "rsa-sha2-256", (RSA, 6): "rsa-sha2-512", (ED25519, 0): "ssh-ed25519"}
NONCE_LEN = 32


class Signer(Protocol):
    """Who signs: a key (`signatures.KeySigner`), or an agent's (`agent.AgentSigner`)."""

    public: PublicKey

    def sign(self, message: bytes, form: str) -> bytes:
        """The signature's bytes behind its format's name, as "rsa-sha2-512" or "ssh-ed25519"."""


class Option(NamedTuple):
    """A critical option or an extension: its name, and its data as they stand."""

    name: str
    payload: bytes

    @property
    def value(self) -> Optional[str]:
        """The text of the one string in its data; None of no data, and where they are something else."""
        try:
            fields = Fields(self.payload)
            value = fields.text()
        except (LibraryFault, UnicodeDecodeError):
            return None
        return None if fields.left else value


@dataclass(frozen=True)
class Certificate:
    """A certificate's line, and its fields. Times are in seconds since 1970. `subject` is the key that is certified, `issuer` the one
    that signed it; the comment stands in the line alone, and nobody signed it. Nothing here is verified but by `verify`.
    """

    line: str
    type: str = field(compare=False)
    kind: str = field(compare=False)
    serial: int = field(compare=False)
    key_id: str = field(compare=False)
    principals: Tuple[str, ...] = field(compare=False)
    valid_after: int = field(compare=False)
    valid_before: int = field(compare=False)
    critical_options: Tuple[Option, ...] = field(compare=False)
    extensions: Tuple[Option, ...] = field(compare=False)
    nonce: bytes = field(compare=False, repr=False)
    subject: PublicKey = field(compare=False)
    issuer: PublicKey = field(compare=False)
    signature_format: str = field(compare=False)
    signature_blob: bytes = field(compare=False, repr=False)
    signature: bytes = field(compare=False, repr=False)
    signed: bytes = field(compare=False, repr=False)
    comment: str = field(compare=False)

    @classmethod
    def read(cls, text: Text) -> Certificate:
        """The certificate that a line says; what follows the line is ignored.

        Refuses what isn't UTF-8 (`NotUtf8`), and what is no certificate's line (`BadKey`, `Unsupported`).
        """
        given = data_of(text)

        def content(part: int) -> bytes:
            return bytes(_library.certificate_part(given, part))

        def word(part: int) -> str:
            return content(part).decode()

        def options(part: int) -> Tuple[Option, ...]:
            fields = [bytes(it) for it in Fields(content(part)).strings()]
            pairs = zip(fields[::2], fields[1::2])
            return tuple(Option(name.decode(), payload) for name, payload in pairs)

        return cls(
            type=word(TYPE),
            line=bytes(given).partition(b"\n")[0].decode().rstrip("\r"),
            kind=word(KIND),
            serial=int(word(SERIAL)),
            key_id=word(KEY_ID),
            principals=tuple(
                bytes(it).decode() for it in Fields(content(PRINCIPAL_LIST)).strings()
            ),
            valid_after=int(word(VALID_AFTER)),
            valid_before=int(word(VALID_BEFORE)),
            critical_options=options(OPTION_LIST),
            extensions=options(EXTENSION_LIST),
            nonce=content(NONCE),
            subject=PublicKey.read(given),
            issuer=PublicKey.read(content(ISSUER_LINE)),
            signature_format=word(FORMAT),
            signature_blob=content(BLOB),
            signature=content(SIGNATURE),
            signed=content(SIGNED),
            comment=word(COMMENT),
        )

    def valid_at(self, moment: int) -> bool:
        """Whether it is valid at a moment, in seconds since 1970: from `valid_after` to before `valid_before`."""
        return self.valid_after <= moment < self.valid_before

    def verify(self) -> bool:
        """Whether the signature is the issuer's, by cryptography. One of RSA by SHA-1 isn't good, as of sshd.

        Who the issuer is, and whether it is to be trusted, it doesn't say.
        """
        return is_good(self.issuer.blob, self.signature, self.signed)

    @staticmethod
    def draft(
        issuer: PublicKey,
        key: PublicKey,
        *,
        kind: str = "user",
        after: int = 0,
        before: int = FOREVER,
        serial: int = 0,
        key_id: str = "",
        principals: Sequence[str] = (),
        critical_options: Sequence[str] = (),
        extensions: Optional[Sequence[str]] = None,
    ) -> Draft:
        """What is to be signed for a key, beside the key's comment. `kind` is "user" or "host"; times are in seconds since 1970;
        a critical option is force-command=TEXT, source-address=TEXT or verify-required, and so an extension is a name, or with =TEXT.
        Without a list of extensions a user's certificate has the five that ssh-keygen gives.

        Refuses what no certificate is made of (`BadRequest`), as a user's with an empty list of extensions, a comment that a line can't hold (`CommentNotCarried`), and what is too
        long (`TooLong`). None is made for a key of NIST P-521, and none is signed by a security key.
        """
        if issuer.kind not in ALGORITHMS:
            raise BadRequest(f"a key of {issuer.kind} issues nothing here")
        if kind == "user" and extensions is not None and not extensions:
            raise BadRequest("a user's certificate without extensions isn't made here")
        words = ["--type", key.kind.replace("@openssh.com", "") + SUFFIX]
        words += ["--kind", "client" if kind == "user" else kind, "--serial", str(serial)]
        words += ["--after", str(after), "--before", str(before)]
        words += ["--id", key_id, "--algorithm", ALGORITHMS[issuer.kind][0]]
        listed = (
            ("--principal", principals),
            ("--critical", critical_options),
            ("--extension", extensions or ()),
        )
        for name, values in listed:
            for value in values:
                words += [name, value]
        encoded = tuple(bytes(data_of(it)) for it in words)
        fresh = secrets.token_bytes(NONCE_LEN)
        lines = issuer.with_comment("").write(), key.write()
        content = bytes(_library.certificate_draft(encoded, lines[0], lines[1], fresh))
        return Draft(content, issuer, encoded, lines, fresh)

    def __str__(self) -> str:
        return self.line


@dataclass(frozen=True)
class Draft:
    """A certificate without its signature: `signed` is what is to be signed, by the issuer's key."""

    signed: bytes
    issuer: PublicKey
    _words: Tuple[bytes, ...] = field(repr=False)
    _lines: Tuple[bytes, bytes] = field(repr=False)
    _fresh: bytes = field(repr=False)

    def sign(self, signer: Signer) -> Certificate:
        """The certificate with the issuer's signature, which is verified.

        Refuses a signer that has another key (`BadRequest`), one that doesn't sign (`SignerFault`), and a signature that isn't good
        (`BadSignature`).
        """
        if signer.public != self.issuer:
            raise BadRequest("the signer has another key than the issuer's")
        issuer, key = self._lines
        content = rounds(
            lambda answers: _library.certify_by(self._words, issuer, key, self._fresh, answers),
            lambda question: signed_by(signer, question),
        )
        made = Certificate.read(content)
        if made.signed != self.signed or not made.verify():
            raise BadSignature()
        return made


def signed_by(signer: Signer, question: Data) -> bytearray:
    """The signer's answer to a question for a signature. Refuses one for another key: `BadRequest`."""
    whole = Fields(question)
    head, text = Fields(whole.string()), bytes(whole.string())
    operation, kind, digest, blob = head.byte(), head.byte(), head.byte(), bytes(head.string())
    form = signer.public.kind if kind == ECDSA else FORMATS.get((kind, digest))
    if operation != SIGN or form is None:
        raise LibraryFault(f"the library asks for operation {operation} of {kind} by {digest}")
    if blob != signer.public.blob:
        raise BadRequest("the signer has another key than the issuer's")
    return bytearray(signer.sign(text, form))
