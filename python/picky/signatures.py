"""Signatures as OpenSSH has them, verified and made by cryptography."""
from __future__ import annotations

import hashlib
from typing import Any, Dict, Tuple

from cryptography.exceptions import InvalidSignature, UnsupportedAlgorithm
from cryptography.hazmat.primitives import hashes
from cryptography.hazmat.primitives.asymmetric import ec, padding, rsa
from cryptography.hazmat.primitives.asymmetric.ed25519 import Ed25519PrivateKey, Ed25519PublicKey
from cryptography.hazmat.primitives.asymmetric.utils import (
    decode_dss_signature,
    encode_dss_signature,
)

from .errors import LibraryFault, SignerFault
from .keys import Key, PrivateKey, PublicKey
from .wire import Data, Fields, mpint

CURVES: Dict[str, Tuple[Any, Any]] = {
    "ecdsa-sha2-nistp256": (ec.SECP256R1, hashes.SHA256),
    "ecdsa-sha2-nistp384": (ec.SECP384R1, hashes.SHA384),
    "ecdsa-sha2-nistp521": (ec.SECP521R1, hashes.SHA512),
}
# Of RSA. SHA-1 is none of them: OpenSSH takes no certificate that is signed so.
DIGESTS: Dict[str, Any] = {"rsa-sha2-256": hashes.SHA256, "rsa-sha2-512": hashes.SHA512}
SK_ECDSA, SK_ED25519 = "sk-ecdsa-sha2-nistp256@openssh.com", "sk-ssh-ed25519@openssh.com"


def is_good(blob: Data, signature: Data, message: bytes) -> bool:
    """Whether a signature of a message is good under the public key of a blob.

    `signature` is string format, string blob, and of a security key a byte of flags and a uint32 counter (RFC 4253, section 6.6;
    PROTOCOL.u2f). One whose format isn't of the key's kind isn't good, nor one of RSA by SHA-1, nor one with bytes behind it.
    """
    try:
        return _verifies(Fields(blob), Fields(signature), message)
    except (InvalidSignature, LibraryFault, UnsupportedAlgorithm, ValueError):
        return False


def _verifies(key: Fields, signature: Fields, message: bytes) -> bool:
    kind, form, content = key.text(), signature.text(), signature.string()
    security = kind in (SK_ECDSA, SK_ED25519)
    trailer = bytes(signature.take(5)) if security else b""
    if signature.left or (form not in DIGESTS if kind == "ssh-rsa" else form != kind):
        return False
    if kind == "ssh-rsa":
        e, n = key.mpint(), key.mpint()
        content_of_n = bytes(content).rjust((n.bit_length() + 7) // 8, b"\0")
        public = rsa.RSAPublicNumbers(e, n).public_key()
        public.verify(content_of_n, message, padding.PKCS1v15(), DIGESTS[form]())
        return True
    if kind in CURVES or kind == SK_ECDSA:
        key.string()
    point = bytes(key.string())
    if security:
        application = hashlib.sha256(key.string()).digest()
        message = application + trailer + hashlib.sha256(message).digest()
    if kind in ("ssh-ed25519", SK_ED25519):
        Ed25519PublicKey.from_public_bytes(point).verify(bytes(content), message)
        return True
    curve, digest = CURVES.get(kind, CURVES["ecdsa-sha2-nistp256"])
    numbers = Fields(content)
    r, s = numbers.mpint(), numbers.mpint()
    if numbers.left:
        return False
    verifier = ec.EllipticCurvePublicKey.from_encoded_point(curve(), point)
    verifier.verify(encode_dss_signature(r, s), message, ec.ECDSA(digest()))
    return True


class KeySigner:
    """Signs by a private key, of RSA by PKCS #1 v1.5. `public` is its public key."""

    def __init__(self, key: PrivateKey) -> None:
        self.public: PublicKey = key.public
        self._key: Key = key.key()

    def sign(self, message: bytes, form: str) -> bytes:
        """The signature's bytes behind its format's name, as "rsa-sha2-512" or "ssh-ed25519". Refuses a format that isn't of the
        key's kind: `SignerFault`."""
        key = self._key
        if isinstance(key, rsa.RSAPrivateKey) and form in DIGESTS:
            return key.sign(message, padding.PKCS1v15(), DIGESTS[form]())
        if isinstance(key, ec.EllipticCurvePrivateKey) and form == self.public.kind:
            curve = CURVES[form]
            r, s = decode_dss_signature(key.sign(message, ec.ECDSA(curve[1]())))
            return mpint(r) + mpint(s)
        if isinstance(key, Ed25519PrivateKey) and form == "ssh-ed25519":
            return key.sign(message)
        raise SignerFault(f"a key of {self.public.kind} makes no signature of {form}")
