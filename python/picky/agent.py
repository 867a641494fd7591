"""A client of an SSH agent, as SSH_AUTH_SOCK names one (draft-miller-ssh-agent-04): its identities, and signatures by them.

The private keys stay in the agent, or in the device behind it.
"""
from __future__ import annotations

import os
import socket
from types import TracebackType
from typing import List, Optional, Type

from .errors import BadKey, LibraryFault, SignerFault, Unsupported
from .keys import PublicKey
from .wire import Fields, string, uint32

IDENTITIES, IDENTITIES_ANSWER, SIGN, SIGN_ANSWER = 11, 12, 13, 14
# The flags that ask RSA's keys for another digest than SHA-1.
FLAGS = {"rsa-sha2-256": 2, "rsa-sha2-512": 4}
# OpenSSH's agent takes and gives as many bytes at most.
MOST_BYTES = 1 << 18


class Agent:
    """A connection to an agent. It is a context manager, which closes it at its end.

    Refuses, as does each of its calls, what isn't there or doesn't answer by the protocol: `SignerFault`.
    """

    def __init__(self, path: Optional[str] = None) -> None:
        """Connects to the socket at the path, else to the one that SSH_AUTH_SOCK names."""
        at = path or os.environ.get("SSH_AUTH_SOCK", "")
        if not at:
            raise SignerFault("there is no agent: SSH_AUTH_SOCK isn't set")
        self._socket = socket.socket(socket.AF_UNIX, socket.SOCK_STREAM)
        try:
            self._socket.connect(at)
        except OSError as fault:
            self._socket.close()
            raise SignerFault(f"the agent at {at} isn't reached: {fault}") from None

    def identities(self) -> List[PublicKey]:
        """The agent's keys with their comments, in its order, but for certificates and kinds of keys that aren't read here."""
        answer = self._asked(IDENTITIES, b"", IDENTITIES_ANSWER)
        found = []
        try:
            for _ in range(answer.uint32()):
                key = _key(bytes(answer.string()), bytes(answer.string()))
                if key is not None:
                    found.append(key)
        except LibraryFault:
            raise SignerFault("the agent's list of keys is cut") from None
        return found

    def signer(self, key: PublicKey) -> AgentSigner:
        """A signer by one of the agent's keys. Refuses one that it doesn't list."""
        if key not in self.identities():
            raise SignerFault("the agent hasn't the key")
        return AgentSigner(self, key)

    def sign(self, key: PublicKey, message: bytes, form: str) -> bytes:
        """The signature's bytes behind its format's name, as "rsa-sha2-512" or "ssh-ed25519". They aren't verified."""
        request = string(key.blob) + string(message) + uint32(FLAGS.get(form, 0))
        answer = self._asked(SIGN, request, SIGN_ANSWER)
        try:
            signature = Fields(answer.string())
            given, content = bytes(signature.string()), bytes(signature.string())
        except LibraryFault:
            raise SignerFault("the agent's signature is cut") from None
        if given != form.encode():
            raise SignerFault(f"the agent signs by {given!r}, not by {form}")
        return content

    def close(self) -> None:
        """Ends the connection."""
        self._socket.close()

    def __enter__(self) -> Agent:
        return self

    def __exit__(
        self,
        kind: Optional[Type[BaseException]],
        value: Optional[BaseException],
        trace: Optional[TracebackType],
    ) -> None:
        self.close()

    def _asked(self, kind: int, content: bytes, wanted: int) -> Fields:
        try:
            self._socket.sendall(string(bytes([kind]) + content))
            answer = Fields(self._received(Fields(self._received(4)).uint32()))
            if answer.byte() == wanted:
                return answer
        except OSError as fault:
            raise SignerFault(f"the agent doesn't answer: {fault}") from None
        except LibraryFault:
            raise SignerFault("the agent's answer is empty") from None
        raise SignerFault("the agent refuses")

    def _received(self, count: int) -> bytes:
        if count > MOST_BYTES:
            raise SignerFault(f"the agent's answer has {count} bytes")
        received = b""
        while len(received) < count:
            more = self._socket.recv(count - len(received))
            if not more:
                raise SignerFault("the agent's answer is cut")
            received += more
        return received


class AgentSigner:
    """Signs by an agent's key. `public` is that key."""

    def __init__(self, agent: Agent, public: PublicKey) -> None:
        self.public, self._agent = public, agent

    def sign(self, message: bytes, form: str) -> bytes:
        """As `Agent.sign`."""
        return self._agent.sign(self.public, message, form)


def _key(blob: bytes, comment: bytes) -> Optional[PublicKey]:
    """The key of a blob; none of a certificate's, and where it isn't read here."""
    try:
        return PublicKey.of(blob, comment.decode("utf-8", "replace"))
    except (BadKey, Unsupported):
        return None
