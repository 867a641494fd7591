"""The random streams that check/agent tries, each by a seed and its number: what clients may ask, some of it damaged."""
import random

from keyagent.streams import KEY, LISTS, REMOVES_ALL, Case, add, add_nodes, framed, lock, remove, remove_nodes, sign, sign_nodes, unlock
from keyagent.streams import spellings
from keyagent.reference import LONGEST
from lib.formats import RSA, string, uint32
from lib.random_texts import some, some_change, some_comment
from lib.texts import BROKEN_COMMENTS, CURVES, KEY_TYPES, SK_ECDSA, SK_ED25519, key_of, render

LENGTHS = {2: 1, 5: 3, 12: 4, 30: 4, 80: 2, 300: 1}
KINDS = {"add": 30, "sign": 26, "list": 14, "remove": 14, "lock": 3, "unlock": 8, "remove all": 2, "another": 2}
PASSPHRASES = (b"", b"p", b"pp", b"q", b"\xff", b"p" * 300)
FLAGS = {0: 4, 2: 3, 4: 3, 6: 2, 1: 1, 8: 1, 2**31: 1, 2**32 - 1: 1}
SIGNATURES = {None: 3, b"": 1, b"5a": 3, b"A5" * 64: 4, b"00" * 256: 2}
BAD_LENGTHS = (0, 0, LONGEST + 1, LONGEST + 2, 2**20, 2**31, 2**32 - 1)


def near(rng, key):
    """A key that is almost this one, of another secret or of another name."""
    how = rng.random()
    if how < 0.4:
        # The same public key, so the same identity.
        *most, last = key_of(key.name, rng.randbytes).private
        if key.name == RSA:
            return key._replace(private=[*key.private[:3], *[[rng.randbytes(9)] for _ in range(4)]])
        if key.name in CURVES:
            return key._replace(private=[*key.private[:3], last])
        if key.name in (SK_ECDSA, SK_ED25519):
            return key._replace(private=[*key.private[:-3], rng.randbytes(1), [rng.randbytes(rng.randrange(40))], last])
        return key._replace(private=[*key.private[:2], [rng.randbytes(32), *key.private[1]]])
    if how < 0.7:
        word = [rng.choice(KEY_TYPES)]
        return key._replace(public=[word, *key.public[1:]], private=[word, *key.private[1:]])
    public = rng.choice([nodes for _, nodes in spellings(key)])
    if key.name in CURVES or key.name == SK_ECDSA:
        return key._replace(public=public, private=[*public[:len(key.public)], *key.private[len(key.public):]])
    return key._replace(public=public)


def some_keys(rng):
    keys = [key_of(rng.choice(KEY_TYPES), rng.randbytes) for _ in range(rng.choice((1, 2, 4, 8, 16)))]
    return keys + [near(rng, rng.choice(keys)) for _ in range(rng.randrange(1 + len(keys)))]


def some_comment_of_any(rng):
    how = rng.random()
    if how < 0.03:
        return rng.randbytes(rng.randrange(1, 9))
    return rng.choice(BROKEN_COMMENTS) if how < 0.08 else b"c" * rng.randrange(5000) if how < 0.09 else some_comment(rng)


def some_nodes(rng, keys, passphrases):
    kind = some(rng, KINDS)
    key = rng.choice(keys)
    if kind == "add":
        return add_nodes(key, some_comment_of_any(rng))
    if kind == "sign":
        return sign_nodes(key, rng.randbytes(rng.choice((0, 1, 20, 200, 5000))), some(rng, FLAGS))
    if kind == "remove":
        return remove_nodes(key)
    if kind in ("lock", "unlock"):
        passphrase = rng.choice(passphrases)
        return [b"\x16" if kind == "lock" else b"\x17", [passphrase]]
    if kind == "another":
        return [bytes([rng.randrange(256)]), rng.choice((b"", b"\0\0\0\1x", render(key.public), render(key.private)))]
    return [b"\x0b" if kind == "list" else b"\x13"]


def some_message(rng, keys, passphrases):
    """A message and its frame, which may be damaged."""
    nodes = some_nodes(rng, keys, passphrases)
    how = rng.random()
    if how < 0.05 and len(nodes) > 1:
        nodes = some_change(rng, nodes)
    message = render(nodes)
    if how > 0.97:
        message = message[:rng.randrange(len(message) + 1)]
    elif how > 0.94:
        message += rng.randbytes(rng.choice((1, 4, 5, 100)))
    elif how > 0.92 and message:
        at = rng.randrange(len(message))
        message = message[:at] + bytes([rng.randrange(256)]) + message[at + 1:]
    return string(message[:LONGEST]) if message else LISTS


def some_end(rng, stream):
    """The stream as it is, cut, or before a length that no message has."""
    how = rng.random()
    if how < 0.8:
        return stream
    if how < 0.9:
        return stream[:rng.randrange(len(stream) + 1)]
    return stream + uint32(rng.choice(BAD_LENGTHS)) + stream[:rng.randrange(40)]


def full_stream(rng):
    """About as many identities as there may be, then a few messages more."""
    keys = [KEY._replace(public=[KEY.public[0], [public]], private=[*KEY.private[:1], [public], [bytes(32), public]])
            for public in (rng.randbytes(32) for _ in range(rng.choice((1_020, 1_023, 1_024, 1_025, 1_040))))]
    stream = b"".join(add(key, b"") for key in keys)
    for _ in range(20):
        key = rng.choice(keys[-30:] + keys[:30])
        new = add(key_of(rng.choice(KEY_TYPES), rng.randbytes), b"new")
        stream += rng.choice((remove(key), add(key, some_comment(rng)), sign(key), new))
    return stream + LISTS


def some_stream(rng):
    if rng.random() < 0.002:
        return full_stream(rng)
    keys, passphrases = some_keys(rng), rng.sample(PASSPHRASES, 2)
    stream = b"".join([add(key, b"%d" % at) for at, key in enumerate(keys)]) if rng.random() < 0.75 else b""
    if rng.random() < 0.1:
        stream += lock(passphrases[0])
    stream += b"".join([some_message(rng, keys, passphrases) for _ in range(rng.randrange(1, 1 + some(rng, LENGTHS)))])
    if rng.random() < 0.9:
        stream += unlock(passphrases[0]) + unlock(passphrases[1]) + LISTS
    if rng.random() < 0.02:
        stream += REMOVES_ALL + framed(add_nodes(keys[0])) + LISTS
    return stream


def random_case(seed, number):
    """The random case of this number, of those that the seed gives."""
    rng = random.Random(f"{seed} {number}")
    stream, value = some_end(rng, some_stream(rng)), some(rng, SIGNATURES)
    odd, words, device = rng.random(), (), None
    if odd < 0.002:
        value = rng.choice((b"0", b"x", b"\xff", b"0 0"))
    elif odd < 0.004:
        words = rng.choice(((b"x",), (b"--help", b""), (b"-l", b"x")))
    elif odd < 0.02:
        device = rng.choice(("a full device", "nobody reads", "in turns", "byte by byte", "a folder"))
    return Case(f"random {number} of seed {seed}", stream, value, words, device)
