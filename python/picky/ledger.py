"""Ledgers: what an authority issued, each request once (picky/ledger.h)."""
from __future__ import annotations

import base64
import secrets
from dataclasses import dataclass
from typing import List, NamedTuple, Optional, Tuple

from . import _library
from ._library import ASKED
from .answers import entry
from .certificates import NONCE_LEN, Certificate, Signer, signed_by
from .errors import BadSignature, LibraryFault
from .keys import PublicKey, Text, data_of
from .wire import Fields, string

# Who issues nothing: a ledger is read by applying no requests.
NOBODY = PublicKey("ssh-ed25519", 256, string(b"ssh-ed25519") + string(bytes(32)))


class Issued(NamedTuple):
    """A certificate of a ledger: the request's id, the request, and the certificate's line."""

    id: str
    request: str
    line: str


class Reply(NamedTuple):
    """What became of a request. Its `outcome` is

    "issued"    the certificate is in the ledger now, under `serial`
    "again"     the ledger had this very request, under `serial`
    "conflict"  the ledger has another request of this id, under `serial`
    "full"      there is no serial left
    "refused"   no such certificate is made, by `reason`, as "InvalidTime"
    "bad"       the line is no request, and has no id
    """

    outcome: str
    id: Optional[str] = None
    serial: Optional[int] = None
    reason: Optional[str] = None


@dataclass(frozen=True)
class Ledger:
    """A ledger's text. `Ledger()` is one in which nothing was issued."""

    text: bytes = b"next 1\n"

    @classmethod
    def read(cls, text: Text) -> Ledger:
        """The ledger of a text. Refuses what isn't UTF-8 (`NotUtf8`), what is no ledger (`BadLine`), and what has 2^32 bytes or
        more (`TooLong`).
        """
        given = bytes(data_of(text))
        _library.ledger_replies(given, NOBODY.write(), b"", b"", b"")
        return cls(given)

    @property
    def issued(self) -> List[Issued]:
        """The certificates, in the order of their serials."""
        return [_issued(line) for line in self.text.decode().split("\n")[1:-1]]

    def apply(self, requests: Text, signer: Signer) -> Tuple[Ledger, List[Reply]]:
        """The ledger to which requests are applied, a line each, and the replies to them (picky/ledger.h has what a request is).
        Each new certificate's signature is verified. Keep the new ledger where it stays before anybody gets a reply: who goes on
        with the old one issues its serials once more.

        Refuses requests that aren't UTF-8 (`NotUtf8`), an issuer whose key is none (`BadIssuer`), a signer that doesn't sign
        (`SignerFault`), a signature that isn't good (`BadSignature`), and a ledger that would be too long (`TooLong`). Nothing is
        issued then.
        """
        lines = data_of(requests)
        fresh = secrets.token_bytes(NONCE_LEN * (lines.count(b"\n") + 1))
        given = self.text, signer.public.with_comment("").write(), lines, fresh
        answers = b""
        number, content = _library.ledger_apply(*given, answers)
        if number == ASKED:
            asked = Fields(content).strings()
            answers = b"".join(entry(it, signed_by(signer, it)) for it in map(bytes, asked))
            number, content = _library.ledger_apply(*given, answers)
        number_of_replies, replies = _library.ledger_replies(*given, answers)
        if ASKED in (number, number_of_replies):
            raise LibraryFault("the library asks again for what was answered")
        applied = Ledger(bytes(content))
        for new in applied.issued[self.text.count(b"\n") - 1 :]:
            certificate = Certificate.read(new.line)
            if certificate.issuer != signer.public or not certificate.verify():
                raise BadSignature()
        return applied, [_reply(*it.split(" ")) for it in replies.decode().split("\n")[:-1]]


def _issued(line: str) -> Issued:
    name, request, certificate = line.split(" ", 2)
    return Issued(name, base64.b64decode(request).decode(), certificate)


def _reply(outcome: str, name: Optional[str] = None, more: Optional[str] = None) -> Reply:
    if outcome == "refused":
        return Reply(outcome, name, reason=more)
    return Reply(outcome, name, int(more) if more else None)
