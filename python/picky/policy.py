"""Who gets in by authorized keys (sshd(8), "AUTHORIZED_KEYS FILE FORMAT"; OpenSSH's PROTOCOL.certkeys)."""
from __future__ import annotations

import base64
import time
from dataclasses import dataclass
from typing import Optional, Sequence, Tuple, Union

from . import _library
from ._library import Data
from .answers import rounds
from .authorized import LineOption
from .errors import LibraryFault
from .keys import Text, data_of
from .signatures import is_good
from .wire import Fields

VERIFY = 7


@dataclass(frozen=True)
class Grant:
    """The offer gets in by the line of this number, counted from 1 over all lines, as far as whoever lets in does what the rest
    says: `options` are the line's but for cert-authority and principals; `command`, `source` and `verify_required` are a
    certificate's critical options force-command, source-address and verify-required. `fingerprint` is the SHA-256 of the key that
    was judged, of a certificate its subject's.

    A grant isn't a login: that the user has the private key is shown by its signature over the session (RFC 4252, section 7).
    """

    line: int
    options: Tuple[LineOption, ...]
    command: Optional[str]
    source: Optional[str]
    verify_required: bool
    fingerprint: str


@dataclass(frozen=True)
class Denial:
    """The offer doesn't get in: `rule` is the first that fails, as "NoLine" or "Expired". As a condition it is false."""

    rule: str
    fingerprint: str

    def __bool__(self) -> bool:
        return False


def decide(
    authorized: Text, offer: Text, user: str, moment: Optional[int] = None
) -> Union[Grant, Denial]:
    """Whether an offer, a public key's line or a certificate's, gets in by authorized keys, as a user at a moment, in seconds since
    1970; without one it is now. An issuer's signature is verified by cryptography, and one of RSA by SHA-1 isn't good.

    Refuses what isn't UTF-8 (`NotUtf8`), an offer that is none (`BadKey`, `Unsupported`), and authorized keys of 2^32 bytes or
    more (`TooLong`).
    """
    when = int(time.time()) if moment is None else moment
    if not 0 <= when < 1 << 64:
        raise ValueError("a moment is from 0 to 2^64 - 1")
    given = data_of(authorized), data_of(offer), data_of(user)
    content = rounds(lambda answers: _library.decide_by(*given, when, answers), _verdict)
    lines = [line.split(" ") for line in content.decode().split("\n")[:-1]]
    said = {name: rest for name, *rest in lines}
    fingerprint = said["key"][0]
    if "deny" in said:
        return Denial(said["deny"][0], fingerprint)
    options = (rest for name, *rest in lines if name == "option")
    return Grant(
        line=int(said["grant"][0]),
        options=tuple(LineOption(name, _text(value)) for name, *value in options),
        command=_text(said.get("command", ())),
        source=_text(said.get("source", ())),
        verify_required="verify-required" in said,
        fingerprint=fingerprint,
    )


def _text(words: Sequence[str]) -> Optional[str]:
    """The text of the base64 that may stand there."""
    return base64.b64decode(words[0]).decode() if words else None


def _verdict(question: Data) -> bytearray:
    """The answer to the question whether an issuer signed."""
    whole = Fields(question)
    head, text = Fields(whole.string()), bytes(whole.string())
    operation = head.byte()
    if operation != VERIFY:
        raise LibraryFault(f"the library asks for operation {operation}")
    return bytearray([is_good(head.string(), head.string(), text)])
