"""What ssh-agent of OpenSSH 9.2 answers, and the random messages that check/agent_with_openssh sends to it and to keyagent.

`step(state, message, rules)` is what keyagent answers and keeps, changed by these rules: under none of them it is keyagent's answer,
under all of them ssh-agent's. So the rules are what the two differ by, and a difference that they don't explain is a new one. Each
rule is a row of docs/DIFFERENCES.md.
"""
import random
from typing import NamedTuple, Optional

from keyagent.reference import ADD, FAILURE, IDENTITIES, LIST, LOCK, REMOVE, REMOVE_ALL, SIGN, SIGNED, SUCCESS, UNLOCK
from lib.formats import string, uint32
from lib.random_texts import some, some_change
from lib.readers import CERT_TYPES, CURVES, RSA, SK_ECDSA, SK_ED25519, Fields, Refused, private_fields, public_key
from lib.texts import render

# Each rule, and how its row of the table in docs/DIFFERENCES.md begins.
RULES = {
    "constrained": "25, a key with constraints",
    "constraints": "17 with bytes behind the comment",
    "certificates": "certificates, which `ssh-add` sends",
    "nine": "9, which `ssh-add -D` sends too",
    "numbers": "an ECDSA key whose point isn't on its curve",
    "DSA": "DSA keys are taken",
    "short": "RSA keys of fewer than 1,024 bits",
    "negative": "13 and 18 with an RSA number without the zero byte",
    "curve": "an identifier that isn't the name's curve",
    "names": "`rsa-sha2-256`, `rsa-sha2-512` and `rsa` are names",
    "copy": "an Ed25519 key is taken whose copy",
    "behind": "bytes behind a public key's blob",
    "text": "a comment needn't be UTF-8",
    "NUL": "a NUL at the end of a comment",
    "passphrase": "22 or 23 with a passphrase that is cut or has NUL",
    "empty": "an empty passphrase doesn't lock",
}
ALL = frozenset(RULES)
REMOVE_ALL_OF_1, CONSTRAINED = 9, 25
SHORT_NAMES = {"rsa-sha2-256": RSA, "rsa-sha2-512": RSA, "rsa": RSA, "ed25519": "ssh-ed25519"}
DSA = "ssh-dss"


class Identity(NamedTuple):
    comment: bytes
    # Whether all numbers are those of a key that was made, and none is constrained.
    is_made: bool
    is_constrained: bool = False


class State(NamedTuple):
    # The identities in their order, each with its canonical blob.
    identities: tuple = ()
    passphrase: Optional[bytes] = None

    def known(self, blob):
        return dict(self.identities).get(blob)

    def added(self, blob, identity):
        """A new one goes last, and one that is there stays in its place."""
        return self._replace(identities=tuple({**dict(self.identities), blob: identity}.items()))

    def removed(self, blob):
        return self._replace(identities=tuple(it for it in self.identities if it[0] != blob))


# ---- fields


def named(content, rules):
    """The name of a key's type, and its fields under it."""
    fields = Fields(content)
    given = fields.string()
    name = c_string(given, rules).decode()
    other = SHORT_NAMES.get(name if "-" in name else name.lower())
    name = other if "names" in rules and other else name
    return name, Fields(string(name.encode()) + content[fields.at:])


def c_string(content, rules):
    """A string of C's, which may have a NUL at its end, that isn't kept."""
    if "NUL" not in rules:
        return content
    if b"\0" in content[:-1]:
        raise Refused("NUL")
    return content.removesuffix(b"\0")


def public_of(blob, rules):
    """The canonical blob."""
    name, fields = named(blob, rules)
    judge(name, fields.content, rules)
    key = public_key(fields)
    if "behind" in rules and fields.left():
        raise Refused("bytes behind")
    return key


def judge(name, content, rules):
    """Refuses a public key that ssh-agent doesn't take."""
    fields = Fields(content)
    fields.string()
    if name == RSA:
        numbers = fields.string(), fields.string()
        if "negative" in rules and any(it[:1] >= b"\x80" for it in numbers):
            raise Refused("negative")
        if "short" in rules and is_short(numbers[1]):
            raise Refused("short")
    if name in CURVES and "curve" in rules and c_string(fields.string(), rules) != CURVES[name].encode():
        raise Refused("another curve")


def is_short(modulus):
    return int.from_bytes(modulus, "big").bit_length() < 1024


def added(state, content, rules, took, made):
    """The state with the key of a message of 17 or 25."""
    name, fields = named(content, rules)
    if name == DSA and "DSA" in rules or name in CERT_TYPES and "certificates" in rules:
        blob = b"".join([fields.string() for _ in range(6 if name == DSA else 4)])
    else:
        if name == "ssh-ed25519" and "copy" in rules:
            fields = with_copy(fields)
        if name in CURVES:
            judge(name, fields.content, rules)
        blob, _ = private_fields(fields)
        if name == RSA and "short" in rules and is_short(Fields(blob[15 + int.from_bytes(blob[11:15], "big"):]).string()):
            raise Refused("short")
    is_made = name in ("ssh-ed25519", SK_ED25519) or fields.content[:fields.at] in made
    if not is_made and not took and ("numbers" in rules or name == DSA or name in CERT_TYPES):
        raise Refused("numbers")
    comment = c_string(fields.string(), rules)
    if "text" not in rules:
        comment.decode()
    return state.added(blob, Identity(comment, is_made, "constraints" in rules and constrained(fields)))


def with_copy(fields):
    """An Ed25519 key's fields, with the public key behind the secret."""
    copied = Fields(fields.content)
    copied.string()
    public, secret = copied.string(), copied.string()
    if len(public) != 32 or len(secret) != 64:
        return fields
    return Fields(fields.content[:copied.at - 32] + public + fields.content[copied.at:])


def constrained(fields):
    """Whether constraints follow, which have to be well formed."""
    seen = set()
    while fields.left():
        kind = fields.number(1)
        if kind not in (1, 2) or kind in seen:
            raise Refused("constraint")
        if kind == 1:
            fields.number()
        seen.add(kind)
    return bool(seen)


# ---- an answer


def step(state, message, rules, took, made):
    """The reply, and the state afterwards; None where the agent ends. `took` is whether ssh-agent took a key, or signed by one, of
    which nobody here judges the numbers, and `made` has the private keys that were made."""
    try:
        return stepped(state, message[0], Fields(message[1:]), rules, took, made)
    except (Refused, UnicodeDecodeError):
        return bytes([FAILURE]), state


def stepped(state, kind, fields, rules, took, made):
    locked = state.passphrase is not None
    if kind == LIST:
        shown = () if locked else state.identities
        return bytes([IDENTITIES]) + uint32(len(shown)) + b"".join(string(blob) + string(it.comment) for blob, it in shown), state
    if locked and kind != UNLOCK:
        raise Refused("locked")
    if kind in (LOCK, UNLOCK):
        try:
            passphrase = fields.string()
        except Refused:
            passphrase = None
        if "passphrase" in rules and (passphrase is None or b"\0" in passphrase[:-1]):
            return None, State()
        if passphrase is None or "empty" in rules and not passphrase or locked == (kind == LOCK):
            raise Refused("passphrase")
        if locked and passphrase != state.passphrase:
            raise Refused("another passphrase")
        return bytes([SUCCESS]), state._replace(passphrase=None if locked else passphrase)
    if kind == SIGN:
        blob, _, flags = fields.string(), fields.string(), fields.number()
        return signed(state, public_of(blob, rules), flags, rules, took)
    if kind == REMOVE:
        blob = public_of(fields.string(), rules)
        if not state.known(blob):
            raise Refused("no such key")
        return bytes([SUCCESS]), state.removed(blob)
    if kind == REMOVE_ALL or kind == REMOVE_ALL_OF_1 and "nine" in rules:
        return bytes([SUCCESS]), state._replace(identities=())
    if kind == ADD or kind == CONSTRAINED and "constrained" in rules:
        return bytes([SUCCESS]), added(state, fields.content, rules, took, made)
    raise Refused("no such message")


def signed(state, blob, flags, rules, took):
    """The reply without the signature's bytes."""
    name, identity = Fields(blob).text(), state.known(blob)
    if not identity or name in (SK_ECDSA, SK_ED25519) or not identity.is_made and "numbers" in rules and not took:
        raise Refused("no signature")
    if name == RSA:
        name = "rsa-sha2-256" if flags & 2 else "rsa-sha2-512" if flags & 4 else RSA
    return bytes([SIGNED]) + string(name.encode()), state


def without_signature(reply):
    """A reply, of which a signature is left out."""
    return reply[:1] + string(Fields(Fields(reply[1:]).string()).string()) if reply and reply[0] == SIGNED else reply


def explained(state, message, took, made):
    """The rules without which ssh-agent would answer or keep something else: as few as explain it."""
    left, theirs = set(ALL), step(state, message, ALL, took, made)
    for rule in RULES:
        if step(state, message, left - {rule}, took, made) == theirs:
            left.discard(rule)
    return tuple(rule for rule in RULES if rule in left)


# ---- random messages

KINDS = {"add": 30, "sign": 28, "list": 10, "remove": 16, "remove all": 1, "lock": 3, "nine": 1, "constrained": 3, "another": 5}
COMMENTS = (b"", b"k", b"me@host", "\u00e9".encode(), b"two words", b"c" * 300)
BAD_COMMENTS = (b"\xe9", b"k\0", b"k\0k", b"\0", b"M\xfcller")
PASSPHRASES = (b"", b"p", b"pp", b"\xff", b"p\0", b"p\0p", b"p" * 300)
FLAGS = {0: 4, 2: 3, 4: 3, 6: 2, 1: 1, 2**31: 1}
CONSTRAINTS = (b"\2", b"\1\0\0\1\0", b"\2\1\0\0\0\x3c", b"\0", b"\2\2", b"x", b"\1\0", b"\1\0\0\0\0")


class Key(NamedTuple):
    """A key that was made, as layouts of inventory_texts."""
    name: str
    public: list
    private: list


def changed_name(rng, nodes):
    return [[rng.choice((b"rsa-sha2-256", b"rsa-sha2-512", b"RSA", b"rsa", b"ED25519", b"ssh-rsa", b"ssh-dss", b"x"))], *nodes[1:]]


def some_key(rng, nodes, share):
    """The nodes of a key, of which a share is changed; those of a device and certificates aren't."""
    if render(nodes)[4:7] == b"sk-" or b"-cert-" in render(nodes)[:60]:
        return nodes
    how = rng.random()
    if how < share:
        return some_change(rng, nodes)
    return changed_name(rng, nodes) if how < share * 1.3 else nodes


def some_message(rng, keys, state):
    kind = some(rng, KINDS)
    if state.passphrase is not None and rng.random() < 0.4:
        return bytes([UNLOCK]) + string(state.passphrase if rng.random() < 0.9 else rng.choice(PASSPHRASES))
    key = rng.choice(keys)
    if kind in ("sign", "remove") and state.identities and rng.random() < 0.7:
        # Mostly one that is there.
        blob = rng.choice(state.identities)[0]
        key = next((it for it in keys if render(it.public) == blob), key)
    if kind in ("add", "constrained"):
        comment = rng.choice(BAD_COMMENTS) if rng.random() < 0.06 else rng.choice(COMMENTS)
        message = bytes([ADD if kind == "add" else CONSTRAINED]) + render(some_key(rng, key.private, 0.06)) + string(comment)
        if rng.random() < (0.04 if kind == "add" else 0.8):
            message += rng.choice(CONSTRAINTS)
    elif kind in ("sign", "remove"):
        nodes = key.public
        if key.name == RSA and rng.random() < 0.1:
            # The modulus without the zero byte.
            nodes = [*nodes[:2], [nodes[2][0].lstrip(b"\0")]]
        public = render(some_key(rng, nodes, 0.06))
        if rng.random() < 0.03:
            public += rng.choice((b"x", b"\0", string(b"")))
        message = bytes([SIGN if kind == "sign" else REMOVE]) + string(public)
        if kind == "sign":
            message += string(rng.randbytes(rng.choice((0, 1, 20, 200, 5000)))) + uint32(some(rng, FLAGS))
    elif kind == "lock":
        message = bytes([LOCK if rng.random() < 0.7 else UNLOCK]) + string(rng.choice(PASSPHRASES))
    elif kind == "another":
        message = bytes([rng.choice((0, 1, 2, 3, 7, 8, 10, 12, 14, 20, 21, 24, 26, 27, 28, 255))])
        message += rng.choice((b"", string(b"x"), string(b"query"), string(b"session-bind@openssh.com") + string(b"")))
    else:
        message = bytes([{"list": LIST, "remove all": REMOVE_ALL, "nine": REMOVE_ALL_OF_1}[kind]])
    how = rng.random()
    if how < 0.02:
        return message[:rng.randrange(1, len(message) + 1)]
    if how < 0.04 and kind not in ("add", "constrained"):
        return message + rng.randbytes(rng.choice((1, 4, 5, 100)))
    return message
