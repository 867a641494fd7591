"""Keys that ssh-keygen makes, and sealed files of them by ssh-keygen and puttygen: what check/ask opens, and who opens what it seals."""
from __future__ import annotations

import os
import subprocess
import sys
from pathlib import Path
from typing import NamedTuple

from cryptography.hazmat.primitives.asymmetric.ec import SECP256R1, generate_private_key
from cryptography.hazmat.primitives.asymmetric.ed25519 import Ed25519PrivateKey
from cryptography.hazmat.primitives.serialization import Encoding, PublicFormat

from libpicky.ask_device import string, uint32
from libpicky.ask_reference import Envelope, Plain, padded, read_plain, write_envelope

SECONDS = 120
KINDS = {
    "rsa1024": "rsa -b 1024",
    "rsa2048": "rsa -b 2048",
    "p256": "ecdsa -b 256",
    "p384": "ecdsa -b 384",
    "p521": "ecdsa -b 521",
    "ed25519": "ed25519",
}
FLAVOURS = ("argon2d", "argon2i", "argon2id")


class Key(NamedTuple):
    """A key of ssh-keygen: its text that isn't sealed, the public key's type and body, and what the text says."""

    name: str
    kind: str
    text: bytes
    public: tuple[bytes, ...]
    plain: Plain


class Tools:
    """The programs, which run in a folder of their own."""

    def __init__(self, folder: Path) -> None:
        folder.mkdir(parents=True, exist_ok=True)
        self.folder = folder

    def ran(self, *words: str | bytes) -> subprocess.CompletedProcess[bytes]:
        return subprocess.run(words, cwd=self.folder, stdin=subprocess.DEVNULL, capture_output=True, timeout=SECONDS)

    def done(self, *words: str | bytes) -> bytes:
        """What a program writes that has to succeed."""
        ran = self.ran(*words)
        if ran.returncode:
            sys.exit(f"check/ask: {words}: status {ran.returncode}: {(ran.stdout + ran.stderr).decode(errors='replace')}")
        return ran.stdout

    def put(self, name: str, content: bytes) -> Path:
        """A file that ssh-keygen takes for a private key."""
        path = self.folder / name
        path.unlink(missing_ok=True)
        path.touch(0o600)
        path.write_bytes(content)
        return path

    # ---- what is made

    def key(self, name: str, kind: str, comment: str) -> Key:
        path = self.folder / name
        self.done("ssh-keygen", "-q", "-t", *KINDS[kind].split(), "-N", "", "-C", comment, "-f", name)
        text, line = path.read_bytes(), path.with_name(f"{name}.pub").read_bytes()
        return Key(name, kind, text, tuple(line.split()[:2]), read_plain(text))

    def security_key(self, name: str, comment: str) -> Key:
        """A security key, which no device made: its handle is any bytes (PROTOCOL.u2f)."""
        ecdsa = name.startswith("sk-ecdsa")
        if ecdsa:
            point = generate_private_key(SECP256R1()).public_key().public_bytes(Encoding.X962, PublicFormat.UncompressedPoint)
            front = string(b"sk-ecdsa-sha2-nistp256@openssh.com") + string(b"nistp256") + string(point) + string(b"ssh:")
        else:
            point = Ed25519PrivateKey.generate().public_key().public_bytes(Encoding.Raw, PublicFormat.Raw)
            front = string(b"sk-ssh-ed25519@openssh.com") + string(point) + string(b"ssh:")
        block = uint32(7) * 2 + front + b"\1" + string(os.urandom(70)) + string(b"") + string(comment.encode())
        text = write_envelope(Envelope(b"none", b"none", b"", front, padded(block, 8)))
        return Key(name, "sk", text, self.public_of(text, b""), read_plain(text))

    def by_ssh_keygen(self, key: Key, cipher: str, rounds: int, pass_: bytes) -> bytes:
        """The key, sealed by ssh-keygen."""
        path = self.put("sealing", key.text)
        self.done("ssh-keygen", "-q", "-p", "-P", "", "-N", pass_, "-Z", cipher, "-a", str(rounds), "-f", path.name)
        return path.read_bytes()

    def by_puttygen(self, key: Key, params: str, pass_: bytes) -> bytes:
        """The key, sealed by puttygen."""
        self.put("source", key.text)
        self.put("pass", pass_)
        (self.folder / "made").unlink(missing_ok=True)
        self.done("puttygen", "source", "-O", "private", "-o", "made", "--ppk-param", params, "--new-passphrase", "pass")
        return (self.folder / "made").read_bytes()

    def commented_by_puttygen(self, text: bytes, comment: str) -> bytes:
        """The file with another comment."""
        self.put("source", text)
        (self.folder / "made").unlink(missing_ok=True)
        version = text[20:21].decode()
        self.done("puttygen", "source", "-C", comment, "-O", "private", "-o", "made", "--ppk-param", f"version={version}", "--new-passphrase", os.devnull)
        return (self.folder / "made").read_bytes()

    # ---- what is read

    def public_of(self, text: bytes, pass_: bytes) -> tuple[bytes, ...]:
        """The type and the body of the public key by ssh-keygen -y; what it says where it refuses."""
        self.put("read", text)
        ran = self.ran("ssh-keygen", "-y", "-P", pass_, "-f", "read")
        return tuple(ran.stdout.split()[:2]) if ran.returncode == 0 else (ran.stderr,)

    def shown_by_puttygen(self, text: bytes) -> tuple[bytes, ...]:
        """The same by puttygen -L, which opens nothing."""
        self.put("read", text)
        ran = self.ran("puttygen", "read", "-L")
        return tuple(ran.stdout.split()[:2]) if ran.returncode == 0 else (ran.stderr,)

    def listed(self, text: bytes) -> tuple[bytes, bytes]:
        """The bits and the fingerprint by ssh-keygen -lf, which opens nothing."""
        self.put("read", text)
        bits, fingerprint = self.done("ssh-keygen", "-lf", "read").split()[:2]
        return bits, fingerprint

    def opened_by_ssh_keygen(self, text: bytes, pass_: bytes) -> Plain | bytes:
        """What ssh-keygen opens; what it says where it refuses."""
        path = self.put("opening", text)
        ran = self.ran("ssh-keygen", "-q", "-p", "-P", pass_, "-N", "", "-f", path.name)
        return read_plain(path.read_bytes()) if ran.returncode == 0 else ran.stdout + ran.stderr

    def opened_by_puttygen(self, text: bytes, pass_: bytes) -> Plain | bytes:
        """What puttygen opens, and writes as an OpenSSH private key; what it says where it refuses."""
        self.put("read", text)
        self.put("pass", pass_)
        (self.folder / "made").unlink(missing_ok=True)
        words = "-O", "private-openssh-new", "-o", "made", "--old-passphrase", "pass", "--new-passphrase", os.devnull
        ran = self.ran("puttygen", "read", *words)
        return read_plain((self.folder / "made").read_bytes()) if ran.returncode == 0 else ran.stdout + ran.stderr
