"""Keys that ssh-keygen and puttygen make, and what these read: what the tests hold the package to."""
from __future__ import annotations

import base64
import os
import subprocess
from concurrent.futures import ThreadPoolExecutor
from pathlib import Path
from typing import Any, Callable, Dict, Iterable, List, NamedTuple, Optional, Tuple, TypeVar, Union

from cryptography.hazmat.primitives import serialization
from cryptography.hazmat.primitives.asymmetric.ec import SECP256R1, generate_private_key
from cryptography.hazmat.primitives.asymmetric.ed25519 import Ed25519PrivateKey

SECONDS = 120
Word = Union[str, bytes]
Item = TypeVar("Item")
Result = TypeVar("Result")
# What a kind is made by, of ssh-keygen and of puttygen.
KINDS: Dict[str, List[str]] = {
    "rsa1024": ["rsa", "1024"],
    "rsa2048": ["rsa", "2048"],
    "p256": ["ecdsa", "256"],
    "p384": ["ecdsa", "384"],
    "p521": ["ecdsa", "521"],
    "ed25519": ["ed25519"],
}
NAMES = {
    "rsa1024": "ssh-rsa",
    "rsa2048": "ssh-rsa",
    "p256": "ecdsa-sha2-nistp256",
    "p384": "ecdsa-sha2-nistp384",
    "p521": "ecdsa-sha2-nistp521",
    "ed25519": "ssh-ed25519",
}


class Made(NamedTuple):
    """A key that a program made: its text as the program encrypts it, the OpenSSH text as the program opens it, and its line."""

    name: str
    kind: str
    comment: str
    passphrase: str
    text: bytes
    open_text: bytes
    line: str


class Listed(NamedTuple):
    """What ssh-keygen -lf prints of a key: bits, fingerprint and comment."""

    bits: int
    fingerprint: str
    comment: str


class Tools:
    """The programs, which run in a folder of their own. What they refuse is None where that is of interest, else a failure."""

    def __init__(self, folder: Path) -> None:
        self.folder = folder

    def ran(self, *words: Word) -> subprocess.CompletedProcess[bytes]:
        quiet = subprocess.DEVNULL
        return subprocess.run(
            words, cwd=self.folder, stdin=quiet, capture_output=True, timeout=SECONDS
        )

    def done(self, *words: Word) -> bytes:
        """What a program that has to succeed prints."""
        ran = self.ran(*words)
        assert ran.returncode == 0, (words, ran.stdout, ran.stderr)
        return ran.stdout

    def put(self, name: str, content: bytes) -> Path:
        """A file that nobody else reads, as ssh-keygen wants it."""
        path = self.folder / name
        path.unlink(missing_ok=True)
        path.touch(0o600)
        path.write_bytes(content)
        return path

    # ---- what is made

    def key(self, kind: str, comment: str = "a comment") -> bytes:
        """A key of ssh-keygen, in OpenSSH's form, not encrypted."""
        for name in ("key", "key.pub"):
            (self.folder / name).unlink(missing_ok=True)
        words = ["-t", KINDS[kind][0], *(["-b", KINDS[kind][1]] if KINDS[kind][1:] else [])]
        self.done("ssh-keygen", "-q", *words, "-N", "", "-C", comment, "-f", "key")
        return (self.folder / "key").read_bytes()

    def putty_key(self, kind: str, comment: str, passphrase: bytes, params: str) -> bytes:
        """A key of puttygen, in its form, encrypted where there is a passphrase."""
        (self.folder / "made").unlink(missing_ok=True)
        words = ["-t", KINDS[kind][0], *(["-b", KINDS[kind][1]] if KINDS[kind][1:] else [])]
        words += ["-C", comment, "-q", "--random-device", "/dev/urandom", "--ppk-param", params]
        words += ["-O", "private", "-o", "made", "--new-passphrase", self._pass(passphrase)]
        self.done("puttygen", *words)
        return (self.folder / "made").read_bytes()

    def sealed(self, text: bytes, cipher: str, rounds: int, passphrase: bytes) -> bytes:
        """The key, encrypted by ssh-keygen."""
        path = self.put("sealing", text)
        words = ["-Z", cipher, "-a", str(rounds), "-f", path.name]
        self.done("ssh-keygen", "-q", "-p", "-P", "", "-N", passphrase, *words)
        return path.read_bytes()

    def ppk(self, text: bytes, passphrase: bytes, params: str) -> bytes:
        """The key of ssh-keygen as a file of puttygen's."""
        self.put("source", text)
        (self.folder / "made").unlink(missing_ok=True)
        words = ["-O", "private", "-o", "made", "--ppk-param", params]
        self.done("puttygen", "source", *words, "--new-passphrase", self._pass(passphrase))
        return (self.folder / "made").read_bytes()

    def security_key(self, ed25519: bool, comment: str) -> bytes:
        """A security key, which no device made, since its handle may be any bytes (OpenSSH's PROTOCOL.u2f and PROTOCOL.key)."""
        encodings: Any = serialization.Encoding, serialization.PublicFormat
        if ed25519:
            public: Any = Ed25519PrivateKey.generate().public_key()
            point = public.public_bytes(encodings[0].Raw, encodings[1].Raw)
            front = string(b"sk-ssh-ed25519@openssh.com") + string(point) + string(b"ssh:")
        else:
            public = generate_private_key(SECP256R1()).public_key()
            point = public.public_bytes(encodings[0].X962, encodings[1].UncompressedPoint)
            front = string(b"sk-ecdsa-sha2-nistp256@openssh.com") + string(b"nistp256")
            front += string(point) + string(b"ssh:")
        block = bytes(8) + front + b"\1" + string(os.urandom(70)) + string(b"")
        block += string(comment.encode())
        block += bytes(range(1, 1 + -len(block) % 8))
        content = b"openssh-key-v1\0" + string(b"none") * 2 + string(b"") + b"\0\0\0\1"
        path = self.put("sk", armoured(content + string(front) + string(block)))
        # ssh-keygen reads it, and writes it as it spells it.
        self.done("ssh-keygen", "-q", "-p", "-P", "", "-N", "", "-f", path.name)
        return path.read_bytes()

    # ---- what is read

    def public_line(self, text: bytes, passphrase: bytes = b"") -> Optional[str]:
        """The public key line by ssh-keygen -y; None where it refuses."""
        self.put("read", text)
        ran = self.ran("ssh-keygen", "-y", "-P", passphrase, "-f", "read")
        return ran.stdout.decode().rstrip("\n") if ran.returncode == 0 else None

    def listed(self, text: bytes, digest: str = "sha256") -> Listed:
        """What ssh-keygen -lf lists, without opening it."""
        self.put("read", text)
        words = self.done("ssh-keygen", "-E", digest, "-lf", "read").decode().rstrip("\n")
        bits, fingerprint, rest = words.split(" ", 2)
        return Listed(int(bits), fingerprint, rest.rpartition(" (")[0])

    def opened(self, text: bytes, passphrase: bytes) -> Optional[bytes]:
        """The OpenSSH text that ssh-keygen opens; None where it refuses."""
        path = self.put("opening", text)
        ran = self.ran("ssh-keygen", "-q", "-p", "-P", passphrase, "-N", "", "-f", path.name)
        return path.read_bytes() if ran.returncode == 0 else None

    def opened_by_putty(self, text: bytes, passphrase: bytes) -> Optional[bytes]:
        """The OpenSSH text that puttygen opens; None where it refuses."""
        self.put("read", text)
        (self.folder / "made").unlink(missing_ok=True)
        words = ["-O", "private-openssh-new", "-o", "made", "--new-passphrase", os.devnull]
        old = self._pass(passphrase)
        ran = self.ran("puttygen", "read", *words, "--old-passphrase", old)
        return (self.folder / "made").read_bytes() if ran.returncode == 0 else None

    def putty_line(self, text: bytes) -> str:
        """The public key line by puttygen -L, without opening it."""
        self.put("read", text)
        return self.done("puttygen", "read", "-L").decode().rstrip("\n")

    def _pass(self, passphrase: bytes) -> str:
        return self.put("pass", passphrase).name if passphrase else os.devnull


def string(content: bytes) -> bytes:
    """A string of RFC 4251, section 5."""
    return len(content).to_bytes(4, "big") + content


def armoured(content: bytes) -> bytes:
    """OpenSSH's PEM of some bytes."""
    body = base64.b64encode(content)
    lines = [body[at : at + 70] for at in range(0, len(body), 70)]
    begin, end = (b"-----%s OPENSSH PRIVATE KEY-----" % it for it in (b"BEGIN", b"END"))
    return b"\n".join([begin, *lines, end, b""])


def loaded(text: Union[bytes, bytearray], passphrase: Optional[bytes] = None) -> Any:
    """cryptography's key of an OpenSSH text."""
    module: Any = serialization
    return module.load_ssh_private_key(bytes(text), passphrase)


def numbers(key: Any) -> bytes:
    """All that a key of cryptography has, as bytes that can be compared: PKCS #8."""
    form, none = serialization.PrivateFormat.PKCS8, serialization.NoEncryption()
    content: bytes = key.private_bytes(serialization.Encoding.DER, form, none)
    return content


def each(folder: Path, act: Callable[[Tools, Item], Result], items: Iterable[Item]) -> List[Result]:
    """What is done with each item, by several threads, in a folder of its own."""

    def one(numbered: Tuple[int, Item]) -> Result:
        own = folder / str(numbered[0])
        own.mkdir()
        return act(Tools(own), numbered[1])

    with ThreadPoolExecutor(os.cpu_count()) as pool:
        return list(pool.map(one, enumerate(items)))
