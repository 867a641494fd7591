"""Calls of the library for C about an agent whose state is bytes: what check/c_answers tries.

Nothing wanted comes from the project's own programs. What is replied to a message says check/keyagent/reference.py, a machine that was
written from the protocol. What a state, a question and a message without its secrets are is made here of fields, as docs/FORMATS.md
has them ("States of an agent").
"""
import functools
import itertools

from keyagent import streams as agent_cases
from keyagent import cases as keyagent_cases
from keyagent.streams import KEY, KEYS, LISTS, OTHER, REMOVES_ALL, SIGNATURE, add, add_nodes, lock, message_of, remove, sessions, sign, unlock
from keyagent.random_streams import random_case
from keyagent.reference import ADD, FAILURE, LOCK, LONGEST, MOST, SIGN, Agent, frames, signature_of
from libpicky.calls import Call
from lib.formats import string, uint32
from lib.readers import CURVES, ED25519, KEY_TYPES, RSA, SK_ECDSA, Fields, Refused, mpint, private_fields
from lib.texts import fixed_key, render

SECRETS = ("key_type", "comment", "rsa_n", "rsa_e", "rsa_d", "rsa_iqmp", "rsa_p", "rsa_q", "ec_curve", "ec_point", "ec_secret", "ed_public",
           "ed_secret", "sk_public", "sk_application", "sk_flags", "sk_handle")
# By what a key signs, where no flag tells.
ALGORITHMS = {**{f"ecdsa-sha2-nistp{bits}": f"ecdsa-sha2-{digest}" for bits, digest in ((256, 256), (384, 384), (521, 512))},
              ED25519: "ed25519"}
# Of how many messages a state has to be told, and how long a stream of them and a state are at most, for their time.
MESSAGES, LONG_STREAM, LONG_STATE = 7_500, 4_000, 20_000
FAILED = bytes([FAILURE])


# ---- what is written of a private key (OpenSSH's PROTOCOL.key and PROTOCOL.u2f)

def parts_of(fields):
    """The name and the parts of the private key that comes next."""
    name = fields.name(KEY_TYPES)
    if name == RSA:
        return name, dict(zip(SECRETS[2:8], [fields.mpint() for _ in range(6)]))
    if name in CURVES:
        fields.text()
        return name, {"ec_curve": CURVES[name].encode(), "ec_point": fields.string(), "ec_secret": fields.mpint()}
    if name == ED25519:
        public, both = fields.fixed(32), fields.fixed(64)
        if both[32:] != public:
            raise Refused("secret's copy")
        return name, {"ed_public": public, "ed_secret": both}
    if name == SK_ECDSA:
        fields.text()
    public = fields.string() if name == SK_ECDSA else fields.fixed(32)
    parts = {"sk_public": public, "sk_application": fields.text().encode(), "sk_flags": fields.take(1), "sk_handle": fields.string()}
    fields.string()
    return name, parts


def without_secrets(parts):
    """Numbers that are zero, 32 zeros in place of an Ed25519 secret, and no handle."""
    parts = {word: b"" if word in ("rsa_d", "rsa_iqmp", "rsa_p", "rsa_q", "ec_secret", "sk_handle") else it for word, it in parts.items()}
    if "ed_secret" in parts:
        parts["ed_secret"] = bytes(32) + parts["ed_public"]
    return parts


def blob_of(name, parts):
    """The key's blob in its one spelling."""
    numbers = ("rsa_n", "rsa_e", "rsa_d", "rsa_iqmp", "rsa_p", "rsa_q", "ec_secret")
    fields = [it if word == "sk_flags" else mpint(it) if word in numbers else string(it) for word, it in parts.items()]
    start = string(name.encode()) + (string(b"nistp256") if name == SK_ECDSA else b"")
    return start + b"".join(fields) + (string(b"") if "sk_handle" in parts else b"")


def added(message):
    """The name, the parts and the comment of the identity that a message adds; Refused where it adds none."""
    if message[0] != ADD:
        raise Refused("no such message")
    fields = Fields(message[1:])
    name, parts = parts_of(fields)
    return name, parts, fields.text().encode()


def adding(name, parts, comment):
    return bytes([ADD]) + blob_of(name, parts) + string(comment)


def public_add(message):
    """The message without its secrets, and None where it adds no identity."""
    try:
        name, parts, comment = added(message)
    except Refused:
        return None
    return adding(name, without_secrets(parts), comment)


# ---- the machine, with the bytes of its state

class Kept(Agent):
    """The machine, which keeps the messages that bring it where it is: those with secrets, or without."""

    def __init__(self, signature=None, bare=False):
        # No bytes are no signature.
        super().__init__(signature or None)
        self.bare, self.blobs = bare, {}

    def add(self, fields):
        start = fields.at
        told = super().add(fields)
        fields.at = start
        key, _ = private_fields(fields)
        fields.at = start
        name, parts = parts_of(fields)
        self.blobs[key] = blob_of(name, without_secrets(parts) if self.bare else parts)
        return told

    def state(self):
        adds = [string(bytes([ADD]) + self.blobs[key] + string(comment)) for key, comment in self.identities.items()]
        return b"".join(adds) + (b"" if self.passphrase is None else string(bytes([LOCK]) + string(self.passphrase)))

    def question(self, message):
        """What has to be signed before the message is answered; no bytes where nothing has."""
        if message[0] != SIGN or self.passphrase is not None:
            return b""
        fields = Fields(message[1:])
        try:
            blob, text, flags = fields.string(), fields.string(), fields.number()
            key = self.known(blob)
        except Refused:
            return b""
        form = Fields(key).text()
        algorithm = ALGORITHMS.get(form)
        if form == RSA:
            algorithm = "rsa-sha2-256" if flags & 2 else "rsa-sha2-512" if flags & 4 else "rsa-sha1"
            form = RSA if algorithm == "rsa-sha1" else algorithm
        if algorithm is None:
            return b""
        place = list(self.identities).index(key)
        return uint32(place) + string(key) + string(algorithm.encode()) + string(form.encode()) + string(text)


# ---- calls

def question(name, state, message, wanted):
    return Call(f"{name}, question", "agent_question", (state, message), wanted)


def reply(name, state, message, wanted, signature=b""):
    return Call(f"{name}, reply", "agent_reply", (state, message, signature), wanted)


def next_state(name, state, message, wanted):
    return Call(f"{name}, next", "agent_next", (state, message), wanted)


def bare_add(name, message, wanted):
    return Call(f"{name}, without secrets", "agent_public_add", (message,), wanted)


def secret(name, message, word, wanted):
    number = SECRETS.index(word) + 1 if word in SECRETS else word
    return Call(f"{name}, {word}", "agent_secret", (message, number), wanted)


def over_states(name, state, message, wanted):
    """The three calls over a state, of which each is refused so."""
    yield question(name, state, message, wanted)
    yield reply(name, state, message, wanted)
    yield next_state(name, state, message, wanted)


def of_adds(name, message, wanted):
    """The two calls over a message that adds an identity, of which each is refused so."""
    yield bare_add(name, message, wanted)
    yield from (secret(name, message, word, wanted) for word in SECRETS)


def step(name, served, message, signature):
    """What is answered to one message, which the machine takes: the question, the reply and the next state."""
    state, given = served.state(), message
    if served.bare:
        given = public_add(message) or message
    asked = served.question(message)
    told, _ = served.answer(message)
    yield question(name, state, given, asked)
    yield reply(name, state, given, told, signature)
    if asked:
        yield reply(f"{name}, unsigned", state, given, FAILED)
    yield next_state(name, state, given, served.state())


# ---- sessions

def streams():
    """Messages one after another, with the signature for them: the fixed ones, what OpenSSH's programs sent, and random ones."""
    for group in (agent_cases.blobs, agent_cases.flags, agent_cases.orders, agent_cases.locks, agent_cases.names_changed,
                  agent_cases.comments, agent_cases.fields_changed, agent_cases.cut_and_more, agent_cases.types):
        for at, case in enumerate(group()):
            if at % 3 == 0:
                yield case.name, case.source, case.signature
    for at, (command, stream) in enumerate(sessions()):
        yield f"{command} ({at})", stream, SIGNATURE
    for group in (keyagent_cases.kept, keyagent_cases.signatures, keyagent_cases.locks, keyagent_cases.unfit):
        for case in group():
            yield case.name, case.source, case.env.get("KEYCONV_SIGNATURE", "").encode()
    for number in itertools.count():
        case = random_case("c", number)
        yield case.name, case.source, case.signature


def signed_by(value):
    """The signature that a case hands in, and none where its value isn't hex."""
    try:
        return signature_of(value) or b""
    except Refused:
        return b""


@functools.lru_cache(None)
def session_calls():
    """The calls of all sessions, none of one state and message twice."""
    calls, seen = [], set()
    for at, (name, stream, value) in enumerate(streams()):
        if len(seen) >= MESSAGES:
            return calls
        served, signature = Kept(signed_by(value), at % 2 == 1), signed_by(value)
        for place, message in enumerate(frames(stream[:LONG_STREAM])[0]):
            what = hash((served.state(), message, signature, served.bare))
            more = list(step(f"{name}, message {place}", served, message, signature))
            if what not in seen and len(served.state()) < LONG_STATE:
                seen.add(what)
                calls += more
    return calls


def of_sessions():
    return session_calls()


# ---- a message that adds an identity

@functools.lru_cache(None)
def messages():
    """Messages that add an identity, and that don't, none twice: those of the fixed streams, and of random ones."""
    groups = (agent_cases.fields_changed, agent_cases.names_changed, agent_cases.comments, agent_cases.types, keyagent_cases.kept)
    found = [it for group in groups for case in group() for it in frames(getattr(case, "stream", None) or case.source)[0]]
    found += [it for number in range(40) for it in frames(random_case("add", number).source[:LONG_STREAM])[0]]
    adds = dict.fromkeys(it for it in found if it[0] == ADD and len(it) < LONG_STREAM)
    return [*itertools.islice(adds, 0, None, 2), *itertools.islice(dict.fromkeys(it for it in found if it[0] != ADD), 0, None, 25)]


def parts_calls(name, message, words):
    """What a message that adds an identity is without its secrets, and these parts of it."""
    kind, parts, comment = added(message)
    yield bare_add(name, message, adding(kind, without_secrets(parts), comment))
    parts = {"key_type": kind.encode(), "comment": comment, **parts}
    yield from (secret(name, message, word, parts.get(word, "NoSuchPart")) for word in words or parts)


def of_messages():
    """Each part of keys of each kind, and of keys that are read leniently; and messages that add none."""
    for name, key in KEYS.items():
        for comment in (b"k", b"", "\u00e9 ".encode()):
            message = message_of(add(key, comment))
            yield from parts_calls(f"{name.decode()}, {comment}", message, SECRETS)
            yield from parts_calls(f"{name.decode()}, {comment}, bytes behind", message + b"more", SECRETS)
    for at, message in enumerate(messages()):
        if public_add(message) is None:
            yield from itertools.islice(of_adds(f"message {at}", message, "NotAdd"), 3)
        else:
            yield from parts_calls(f"message {at}", message, ())
    longest = add_nodes(KEY, b"c" * (LONGEST - len(message_of(add(KEY, b"")))))
    yield from parts_calls("the longest", render(longest), ("comment", "ed_secret", "rsa_n"))
    for name, message, wanted in (("no message", b"", "NoMessage"), ("a byte too long", render(longest) + b"\0", "MessageTooLong"),
                                  ("a list", message_of(LISTS), "NotAdd"), ("no public copy", render(add_nodes(KEY))[:-6], "NotAdd")):
        yield from of_adds(name, message, wanted)
        for number in (0, len(SECRETS) + 1, 256, 2**32 - 1):
            yield secret(name, message, number, "NoSuchPart")
    # It isn't asked whether an agent would take it.
    yield bare_add("one of its own bytes", public_add(render(longest)), public_add(render(longest)))


# ---- states

def of_states():
    """States that are none, each with its first reason, before and behind good identities; and what is refused before a state is."""
    one, two, good = add(KEY, b"a"), add(OTHER, b"b"), add(KEY, b"a") + add(OTHER, b"b")
    rsa = KEYS[RSA.encode()]
    zeros = rsa._replace(private=[*rsa.private[:3], [b"\0\0\1"], *rsa.private[4:]])
    token = next(key for name, key in KEYS.items() if name.startswith(b"sk-"))
    reserved = token._replace(private=[*token.private[:-1], [b"reserved"]])
    curve = KEYS[b"ecdsa-sha2-nistp384"]
    curve = curve._replace(private=[*curve.private[:1], [b"nistp256"], *curve.private[2:]])
    reasons = {
        "Short": (b"\0", b"\0\0\0", uint32(1), uint32(5) + b"\x0b" * 4, two[:-1], two[:5], uint32(2**32 - 1), b"\xff" * 9),
        "NotKept": (uint32(0), LISTS, REMOVES_ALL, sign(KEY), remove(KEY), unlock(), string(b"\x16"), string(b"\x16\0\0\0\1"),
                    string(b"\x12"), string(message_of(two)[:-1]), string(b"\x19" + message_of(two)[1:]), add(KEY, b"\xff"), string(b"\0")),
        "NotCanonical": (string(message_of(two) + b"\0"), string(message_of(lock()) + b"\0"), lock() + two, lock() + lock(),
                         lock() + lock(b"q"), add(zeros), add(reserved), add(curve)),
    }
    for wanted, states in reasons.items():
        for at, state in enumerate(states):
            for name, more in (("alone", state), ("behind one", one + state), ("behind two", good + state)):
                yield from over_states(f"{wanted} {at}, {name}", more, message_of(LISTS), f"state.{wanted}")
            for name, message, why in (("no message", b"", "NoMessage"), ("a long message", bytes(LONGEST + 1), "MessageTooLong")):
                yield from over_states(f"{wanted} {at}, {name}", state, message, why)
    for first, second in (("Short", "NotKept"), ("NotKept", "NotCanonical"), ("Short", "NotCanonical")):
        for early, late in itertools.product(reasons[first], reasons[second]):
            # What has another spelling is judged last; of the others the first in the stream is.
            told = first if second == "NotCanonical" else second
            yield from over_states(f"{second} and {first}", late + early, message_of(LISTS), f"state.{told}")
    for end in range(1, len(two)):
        yield question(f"a state cut behind {end}", one + two[:end], message_of(LISTS), "state.Short")


def of_twins():
    """A state may have two identities of one key, which no message leads to: the first is found."""
    a, b, c = add(KEY, b"a"), add(OTHER, b"b"), add(KEY, b"c")
    blob, other = (render(it.public) for it in (KEY, OTHER))
    shown = bytes([12]) + uint32(3) + b"".join(string(key) + string(name) for key, name in ((blob, b"a"), (other, b"b"), (blob, b"c")))
    done, state = b"\6", a + b + c
    fields = [string(it) for it in (blob, b"ed25519", b"ssh-ed25519", b"hello")]
    for name, frame, told, after in (
            ("listed", LISTS, shown, state), ("removed", remove(KEY), done, b + c), ("added", add(KEY, b"d"), done, add(KEY, b"d") + b + c),
            ("another added", add(OTHER, b"d"), done, a + add(OTHER, b"d") + c), ("locked", lock(), done, state + lock()),
            ("all removed", REMOVES_ALL, done, b"")):
        yield reply(f"twins, {name}", state, message_of(frame), told, b"signature")
        yield next_state(f"twins, {name}", state, message_of(frame), after)
        yield question(f"twins, {name}", state, message_of(frame), b"")
    for more, place in ((state, 0), (b + c, 1), (b + c + a, 1)):
        yield question(f"twins, signed at {place}", more, message_of(sign(KEY)), uint32(place) + b"".join(fields))


# ---- limits

@functools.lru_cache(None)
def full_calls():
    """As many identities as there are at most, and the messages that they turn away."""
    served, calls = Kept(b"s"), []
    keys = [fixed_key(ED25519.encode(), b"%d" % at) for at in range(MOST + 1)]
    for key in keys[:MOST - 1]:
        served.answer(message_of(add(key, b"")))
    for at, frame in enumerate((
            add(keys[-2]), add(keys[-1]), LISTS, add(keys[7], b"again"), sign(keys[MOST - 2]), sign(keys[-1]), lock(), add(keys[-1]),
            unlock(), remove(keys[3]), add(keys[-1]), add(keys[3]))):
        calls += step(f"many identities, message {at}", served, message_of(frame), b"s")
    state = served.state()
    calls += over_states("one identity too many", state + add(keys[3]), message_of(LISTS), "state.TooMany")
    calls += over_states("two too many", state + add(keys[3]) + LISTS, message_of(LISTS), "state.TooMany")
    calls += over_states("one too many, which is one more of a key", state + add(keys[7]), message_of(LISTS), "state.TooMany")
    calls += over_states("no message behind as many as may be", state + LISTS, message_of(LISTS), "state.NotKept")
    return calls


def of_limits():
    """The longest messages, passphrases and signatures that are tried, and many identities."""
    yield from full_calls()
    served = Kept(b"s" * 70_000)
    for at, message in enumerate((
            message_of(add(KEY, b"c" * 200_000)), message_of(LISTS), message_of(sign(KEY, b"m" * 260_000)), message_of(lock(b"p" * 262_139)),
            message_of(unlock(b"p" * 262_139)), message_of(LISTS).ljust(LONGEST, b"\0"), bytes(LONGEST))):
        yield from step(f"long, message {at}", served, message, b"s" * 70_000)
    for size in (LONGEST + 1, LONGEST + 4096, 2**20):
        yield from over_states(f"a message of {size}", served.state(), bytes([11]) * size, "MessageTooLong")
    yield from over_states("no message", served.state(), b"", "NoMessage")


def little_memory(long):
    """Calls over a state of about so many bytes, for which there is no memory."""
    comment = b"c" * 200_000
    state = b"".join(add(KEY, comment) for _ in range(long // len(comment)))
    yield from over_states("a long state", state, message_of(LISTS), "NoMemory")


GROUPS = (of_sessions, of_messages, of_states, of_twins, of_limits)
