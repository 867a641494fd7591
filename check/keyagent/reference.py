"""What keyagent has to answer, by the protocol of agents (draft-miller-ssh-agent-04): an agent that shares nothing with the program.

`agent(stream, signature)` gives the exit status and the reply to each message, where `signature` is the one that was handed in, or
None. What becomes of a message beside its reply is for tables alone. Secrets are read and dropped, since no reply tells of them:
the signature is the handed one. The program's own are the limits, and that each failure of a message is the one reply.
"""
import re
from typing import NamedTuple

from lib.formats import string, uint32
from lib.readers import RSA, SK_ECDSA, SK_ED25519, Fields, Refused, private_fields, public_key

DONE, BAD_FRAME, CUT, READ_FAULT, WRITE_FAULT, NO_MEMORY, TOO_MANY, NOT_HEX = range(8)
LONGEST, MOST = 262_144, 1_024

FAILURE, SUCCESS, IDENTITIES, SIGNED = 5, 6, 12, 14
LIST, SIGN, ADD, REMOVE, REMOVE_ALL, LOCK, UNLOCK = 11, 13, 17, 18, 19, 22, 23
KINDS = {LIST: "list", SIGN: "sign", ADD: "add", REMOVE: "remove", REMOVE_ALL: "remove all", LOCK: "lock", UNLOCK: "unlock"}
SHA2_256, SHA2_512 = 2, 4


class Agent:
    """What an agent keeps from one message to the next."""

    def __init__(self, signature=None):
        self.signature = signature
        # The comment of each canonical public blob, in their order: a new one goes last, and one that is there stays in its place.
        self.identities = {}
        self.passphrase = None

    def answer(self, message):
        """The reply, and what the table counts of it."""
        kind, locked = message[0], self.passphrase is not None
        what = f"{KINDS.get(kind, 'another')}{', locked' if locked else ''}"
        try:
            reply, told = self.reply(kind, Fields(message[1:]), locked)
        except Refused as refused:
            return bytes([FAILURE]), (what, f"failure: {refused.args[0]}")
        return reply, (what, told)

    def reply(self, kind, fields, locked):
        if kind not in KINDS:
            raise Refused("no such message")
        if kind == LIST:
            return self.listing({} if locked else self.identities)
        if kind in (LOCK, UNLOCK):
            return self.turn_lock(kind, fields.string())
        if locked:
            raise Refused("locked")
        return {SIGN: self.sign, ADD: self.add, REMOVE: self.remove, REMOVE_ALL: self.remove_all}[kind](fields)

    def listing(self, shown):
        body = b"".join(string(blob) + string(comment) for blob, comment in shown.items())
        return bytes([IDENTITIES]) + uint32(len(shown)) + body, "none" if not shown else "some"

    def turn_lock(self, kind, passphrase):
        if (kind == LOCK) != (self.passphrase is None):
            raise Refused("locked already" if kind == LOCK else "not locked")
        if kind == UNLOCK and passphrase != self.passphrase:
            raise Refused("another passphrase")
        self.passphrase = passphrase if kind == LOCK else None
        return success("done")

    def known(self, blob):
        """The canonical blob of the identity that has the key of a blob."""
        key = public_key(Fields(blob))
        if key not in self.identities:
            raise Refused("no such key")
        return key

    def sign(self, fields):
        blob, _, flags = fields.string(), fields.string(), fields.number()
        name = Fields(self.known(blob)).text()
        if name in (SK_ECDSA, SK_ED25519):
            raise Refused("security key")
        if self.signature is None:
            raise Refused("no signature")
        if name == RSA:
            name = "rsa-sha2-256" if flags & SHA2_256 else "rsa-sha2-512" if flags & SHA2_512 else RSA
        return bytes([SIGNED]) + string(string(name.encode()) + string(self.signature)), name

    def add(self, fields):
        (key, _), comment = private_fields(fields), fields.text()
        there = key in self.identities
        if not there and len(self.identities) == MOST:
            raise Refused("too many")
        self.identities[key] = comment.encode()
        return success(f"{'replaced' if there else 'added'} {Fields(key).text()}")

    def remove(self, fields):
        del self.identities[self.known(fields.string())]
        return success("done")

    def remove_all(self, _):
        self.identities.clear()
        return success("done")


def success(told):
    return bytes([SUCCESS]), told


class Answer(NamedTuple):
    status: int
    # The framed reply to each message, and what the table counts of it.
    replies: list = []
    told: list = []

    @property
    def output(self):
        return b"".join(self.replies)


def frames(stream):
    """The messages that a stream begins with, what is left behind them, and the status by which the stream ends there."""
    messages, at = [], 0
    while True:
        rest = len(stream) - at
        if rest == 0:
            return messages, b"", DONE
        length = int.from_bytes(stream[at:at + 4], "big")
        if rest >= 4 and not 1 <= length <= LONGEST:
            return messages, stream[at:], BAD_FRAME
        if rest < 4 or rest - 4 < length:
            return messages, stream[at:], CUT
        messages.append(stream[at + 4:at + 4 + length])
        at += 4 + length


def signature_of(value):
    """The signature that the variable's value hands in, and Refused where it isn't hex. None is none."""
    if value is None:
        return None
    if not re.fullmatch(rb"([0-9A-Fa-f]{2})*", value):
        raise Refused("not hex")
    return bytes.fromhex(value.decode())


def agent(stream, value=None):
    """What a run ends with that has the stream on standard input, and a variable of this value for the signature."""
    try:
        served = Agent(signature_of(value))
    except Refused:
        return Answer(NOT_HEX)
    messages, _, status = frames(stream)
    answers = [served.answer(message) for message in messages]
    return Answer(status, [string(reply) for reply, _ in answers], [told for _, told in answers])
