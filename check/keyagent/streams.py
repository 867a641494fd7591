"""The fixed streams that check/agent tries: messages of each kind, of which each field is changed, and what they do one after another."""
import base64
import itertools
from pathlib import Path
from typing import NamedTuple, Optional

from keyagent.reference import ADD, LIST, LOCK, LONGEST, MOST, REMOVE, REMOVE_ALL, SIGN, UNLOCK
from lib.formats import RSA, ED25519, string, uint32
from lib.texts import BROKEN_COMMENTS, COMMENTS, CURVES, KEY_TYPES, SK_ECDSA, SK_ED25519, V01
from lib.texts import all_changes, certificate_nodes, fixed_key, number, render


class Case(NamedTuple):
    name: str
    # The stream of messages.
    source: bytes
    # The variable's value, and none where it isn't there.
    signature: Optional[bytes] = None
    words: tuple = ()
    # What standard input or output is where it isn't a file, how the stream comes, or that memory is short.
    device: Optional[str] = None


# ---- messages, as the layouts of inventory_texts


def add_nodes(key, comment=b"k"):
    return [bytes([ADD]), *key.private, [comment]]


def sign_nodes(key, message=b"hello", flags=0):
    return [bytes([SIGN]), key.public, [message], uint32(flags)]


def remove_nodes(key):
    return [bytes([REMOVE]), key.public]


def framed(nodes):
    return string(render(nodes))


def add(key, comment=b"k"):
    return framed(add_nodes(key, comment))


def sign(key, message=b"hello", flags=0):
    return framed(sign_nodes(key, message, flags))


def remove(key):
    return framed(remove_nodes(key))


def lock(passphrase=b"p"):
    return framed([bytes([LOCK]), [passphrase]])


def unlock(passphrase=b"p"):
    return framed([bytes([UNLOCK]), [passphrase]])


LISTS, REMOVES_ALL = string(bytes([LIST])), string(bytes([REMOVE_ALL]))

KEYS = {name: fixed_key(name) for name in KEY_TYPES}
OTHERS = {name: fixed_key(name, b"other") for name in KEY_TYPES}
KEY, OTHER = KEYS[ED25519], OTHERS[ED25519]
SIGNATURE = b"53696721"
ALL = b"".join(add(key, b"k%d" % at) for at, key in enumerate(KEYS.values()))
ONE_OF_EACH = {
    "list": LISTS, "remove all": REMOVES_ALL, "lock": lock(), "unlock": unlock(),
    **{f"{what} {name.decode()}": make(key) for name, key in KEYS.items()
       for what, make in (("add", add), ("sign", sign), ("remove", remove))},
}


def message_of(frame):
    return frame[4:]


def fields_changed():
    """Each field of each message, and what the state is afterwards."""
    for name, key in KEYS.items():
        label = name.decode()
        for at, (what, nodes) in enumerate(all_changes(add_nodes(key))):
            if name == ED25519 or at % 3 == len(name) % 3:
                yield Case(f"add {label} {what}", add(OTHER) + framed(nodes) + LISTS + sign(key, flags=2), SIGNATURE)
        for at, (what, nodes) in enumerate(all_changes(sign_nodes(key))):
            if name == ED25519 or at % 5 == len(name) % 5:
                yield Case(f"sign {label} {what}", add(OTHER) + add(key) + framed(nodes), SIGNATURE)
        for at, (what, nodes) in enumerate(all_changes(remove_nodes(key))):
            if name == ED25519 or at % 5 == len(name) % 5:
                yield Case(f"remove {label} {what}", add(key) + add(OTHER) + framed(nodes) + LISTS)
    for kind, before in (("lock", b""), ("unlock", lock())):
        for what, nodes in all_changes([bytes([LOCK if kind == "lock" else UNLOCK]), [b"p"]]):
            yield Case(f"{kind} {what}", add(KEY) + before + framed(nodes) + LISTS + unlock() + LISTS)


# What a message needs before it, so that it does something.
BEFORE = {"unlock": lock(), "add": b""}


def cut_and_more():
    """The contents of each message cut at each byte, and with bytes that follow; each stream cut at each byte of its message."""
    for what, frame in ONE_OF_EACH.items():
        message, before = message_of(frame), BEFORE.get(what.split()[0], ALL)
        each = 1 if what in ("list", "remove all", "lock", "unlock") or what.endswith(" ssh-ed25519") else 16
        cuts = [string(message[:end]) + LISTS for end in range(1, len(message))]
        for at in range(0, len(cuts), each):
            yield Case(f"{what}, contents of {at + 1} and up", before + b"".join(cuts[at:at + each]), SIGNATURE)
        for end in range(len(frame)):
            if each == 1 or end < 12 or end % 11 == 0 or end > len(frame) - 3:
                yield Case(f"{what}, cut at {end}", before + frame[:end], SIGNATURE)
        for more in (b"\0", b"\0\0\0\1x", b"\xff" * 4, bytes(300), b"\1\0\0\0\10"):
            stream = string(message + more) + LISTS
            yield Case(f"{what}, with {len(more)} bytes {more[:5]} more", before + stream, SIGNATURE)
            yield Case(f"{what}, with {len(more)} bytes {more[:5]} more, locked", ALL + lock() + stream + unlock() + LISTS, SIGNATURE)


def frames_changed():
    """Lengths that no message has, and the greatest that one has."""
    for name, before in (("first", b""), ("behind a message", LISTS), ("behind two", add(KEY) + LISTS)):
        for length in (0, LONGEST + 1, LONGEST + 2, LONGEST + 4096, 2**19, 2**20, 2**24, 2**31 - 1, 2**31, 2**32 - 1, 0x0B000000):
            for rest in (b"", b"\x0b", b"\x0b" * 99, LISTS):
                yield Case(f"length {length}, {name}, {len(rest)} bytes", before + uint32(length) + rest)
        for length in (1, 2, 255, 256, 4095, 4096, 4097, 65_536, LONGEST - 1, LONGEST):
            for here in sorted({0, 1, length // 2, length - 1}):
                yield Case(f"{here} of {length}, {name}", before + uint32(length) + b"\x0b" * here)
            yield Case(f"{length}, {name}", before + uint32(length) + b"\x0b" * length + LISTS)
        for length in (LONGEST + 1, 2**31):
            yield Case(f"{length} and as many bytes, {name}", before + uint32(length) + b"\x0b" * (LONGEST + 1))
        for garbage in (b"SSH-2.0-OpenSSH_9.2\r\n", b"GET / HTTP/1.0\r\n\r\n", b"\n", b"\0\0\0", b"\0" * 5, b"\0\0\0\1", b"-" * 4):
            yield Case(f"{garbage}, {name}", before + garbage)
    for count in (1, 2, 3, 500):
        yield Case(f"{count} lists", LISTS * count)
    yield Case("nothing", b"")


def types():
    """Each type of message, with contents of any kind, not locked and locked."""
    contents = {"nothing": b"", "a blob": string(render(KEY.public)), "a key": message_of(add(KEY))[1:]}
    for kind in range(256):
        for at, (what, content) in enumerate(contents.items()):
            message = string(bytes([kind]) + content)
            if at == kind % 3 or kind < 32:
                yield Case(f"type {kind} with {what}", add(KEY) + message + LISTS, SIGNATURE)
            if at == kind % 2 or kind < 32:
                yield Case(f"type {kind} with {what}, locked", add(KEY) + lock() + message + LISTS + unlock() + LISTS, SIGNATURE)
    yield Case("each type", b"".join(string(bytes([kind])) for kind in range(256)))
    # Adding with constraints, with what they are: a lifetime, a confirmation, an extension; an extension of the protocol; a smartcard.
    for name, constraint in (("none", b""), ("lifetime", b"\1\0\0\0\12"), ("confirm", b"\2"),
                             ("extension", b"\xff" + string(b"sk-provider@openssh.com") + string(b"internal"))):
        message = b"\x19" + message_of(add(KEY))[1:] + constraint
        yield Case(f"add with the constraint {name}", string(message) + LISTS)
        yield Case(f"the same behind a key that is added: {name}", string(message_of(add(KEY)) + constraint) + LISTS)
    for name in (b"query", b"session-bind@openssh.com"):
        yield Case(f"extension {name}", string(b"\x1b" + string(name) + bytes(40)) + LISTS)
    for kind in (20, 21, 26):
        yield Case(f"smartcard {kind}", string(bytes([kind]) + string(b"reader") + string(b"1234")) + LISTS)


def names_changed():
    """Keys under each other's names, and names that aren't read."""
    words = (*KEY_TYPES, *(name + V01 for name in (RSA, ED25519, b"ssh-dss")), b"ssh-dss", b"ssh-ed448", b"", b"ssh-ed25519x",
             b"SSH-ED25519", b"ssh-ed25519\0", b"rsa-sha2-256", b"rsa-sha2-512", b"ecdsa-sha2-nistp224", b"\xff", b"ssh-xmss@openssh.com")
    for word, (name, key) in itertools.product(words, KEYS.items()):
        inner = key._replace(public=[[word], *key.public[1:]], private=[[word], *key.private[1:]])
        stream = add(OTHER) + add(inner) + LISTS + sign(inner, flags=4) + sign(key) + remove(inner) + remove(key) + LISTS
        yield Case(f"{word} with the fields of {name.decode()}", stream, SIGNATURE)
    dsa = [[b"ssh-dss"], *(number(b"\x5a" * size) for size in (128, 20, 128, 128, 20))]
    key = KEY._replace(public=dsa[:-1], private=dsa)
    yield Case("DSA", add(key) + LISTS + sign(key) + remove(key), SIGNATURE)
    for name, kind in ((b"ssh-ed25519", ED25519), (b"ssh-rsa", RSA), (b"ecdsa-sha2-nistp256", b"ecdsa-sha2-nistp256")):
        nodes = certificate_nodes(name, KEYS[kind], OTHER)
        key = KEYS[kind]._replace(public=nodes, private=[[name + V01], nodes, *KEYS[kind].private[1:]])
        yield Case(f"certificate of {name.decode()}", add(KEYS[kind]) + add(key) + LISTS + sign(key) + remove(key), SIGNATURE)
    # The identifier of a curve decides nothing, but is UTF-8.
    for name in (*CURVES, SK_ECDSA):
        for curve in (b"nistp256", b"nistp384", b"nistp521", b"", b"NISTP256", b"x" * 500, "\u00e9".encode(), b"\xff", b"nistp256\0"):
            key = KEYS[name]._replace(public=[[name], [curve], *KEYS[name].public[2:]],
                                      private=[[name], [curve], *KEYS[name].private[2:]])
            yield Case(f"{name.decode()} with the curve {curve}",
                       add(key) + LISTS + sign(KEYS[name]) + sign(key) + add(KEYS[name], b"new") + LISTS + remove(key) + LISTS, SIGNATURE)


def spellings(key):
    """Blobs of the key that aren't canonical, and what a near one is."""
    name = key.public[0][0]
    yield "bytes behind", [*key.public, b"more"]
    yield "a string behind", [*key.public, [b""]]
    if name == RSA:
        e, n = key.public[1:]
        for at, (left, right) in enumerate((([b"\0", *e], n), (e, [b"\0\0", *n]), ([bytes(300), *e], [bytes(300), *n]))):
            yield f"zeros {at}", [[name], left, right]
        yield "e and n changed", [[name], n, e]
        yield "a zero at the end", [[name], e, [*n, b"\0"]]
        yield "no first zero", [[name], e, [render(n).lstrip(b"\0")]]
        yield "zero", [[name], [], []]
        yield "zero of zeros", [[name], [bytes(5)], [b"\0"]]
    else:
        yield "another first byte", [*key.public[:-1], [b"\x33" + render(key.public[-1])[1:]]]
    if name in CURVES or name == SK_ECDSA:
        yield "another curve's identifier", [[name], [b"nistp224"], *key.public[2:]]
        yield "an empty point", [[name], *key.public[1:2], [], *key.public[3:]]
    if name in (SK_ECDSA, SK_ED25519):
        yield "another application", [*key.public[:-1], [b"ssh:x"]]
        yield "no application", [*key.public[:-1], []]
        yield "an application that isn't UTF-8", [*key.public[:-1], [b"ssh:\xff"]]


def blobs():
    """Which blobs name an identity, when it is asked for, removed and added again."""
    for name, key in KEYS.items():
        for what, public in spellings(key):
            asked = key._replace(public=public)
            stream = add(OTHER) + add(key) + sign(asked) + remove(asked) + LISTS + sign(key)
            yield Case(f"{name.decode()}, {what}", stream, SIGNATURE)
    rsa = KEYS[RSA]
    for at, zeros in itertools.product(range(1, 7), (b"\0", bytes(40))):
        for what, field in (("zeros", [zeros, *rsa.private[at]]), ("zero", []), ("a high bit", [b"\xff" * 30])):
            key = rsa._replace(private=[*rsa.private[:at], field, *rsa.private[at + 1:]])
            yield Case(f"RSA added with {what} at {at}", add(rsa, b"old") + add(key, b"new") + LISTS + sign(rsa), SIGNATURE)
    # A copy of the public key that isn't it, or of another length; secrets of any length.
    public = KEY.private[1]
    for name, pair in (("another copy", [bytes(32), bytes(32)]), ("no copy", [bytes(32)]), ("a long one", [bytes(32), *public, b"x"]),
                       ("a short secret", [bytes(31), *public]), ("the copy first", [*public, bytes(32)]), ("nothing", []),
                       ("the last bit of the copy", [bytes(32), render(public)[:-1] + bytes([render(public)[-1] ^ 1])])):
        key = KEY._replace(private=[*KEY.private[:2], pair])
        yield Case(f"Ed25519 with {name}", add(key) + LISTS + sign(KEY) + add(KEY, b"right") + add(key, b"wrong") + LISTS, SIGNATURE)
    for name in CURVES:
        for size in (0, 1, 31, 32, 33, 66, 500):
            key = KEYS[name]._replace(private=[*KEYS[name].private[:3], [b"\xa5" * size]])
            yield Case(f"{name.decode()} with a secret of {size}", add(key) + LISTS + sign(key), SIGNATURE)
    for name in (SK_ECDSA, SK_ED25519):
        for flag, handle, reserved in itertools.product((b"\0", b"\1", b"\x21", b"\xff"), ([], [b"h" * 300]), ([], [b"reserved"])):
            key = KEYS[name]._replace(private=[*KEYS[name].public, flag, handle, reserved])
            yield Case(f"{name.decode()}, flags {flag}, a handle of {len(handle)} and {len(reserved)} reserved",
                       add(key) + LISTS + sign(key), SIGNATURE)


def flags():
    """Each key signs under each flag, with the signature that is handed in."""
    values = (0, 1, 2, 3, 4, 5, 6, 7, 8, 0xFB, 0xF9, 256, 512, 0x200, 0x400, 0x02000000, 0x04000000, 2**31, 2**31 + 2, 2**31 + 4,
              2**32 - 1, 2**32 - 3, 2**32 - 5, 2**32 - 7)
    for name, key in KEYS.items():
        for value in values:
            yield Case(f"{name.decode()} signs with flags {value}", ALL + sign(key, flags=value), SIGNATURE)
        for message in (b"", b"\0", b"x" * 4096, bytes(range(256)) * 99):
            yield Case(f"{name.decode()} signs {len(message)} bytes", add(key) + sign(key, message, 4), SIGNATURE)
    signatures = (None, b"", b"00", b"ff", b"FF", b"aB", b"Ab" * 32, b"00" * 64, b"0123456789abcdefABCDEF", b"5a" * 256, b"5A" * 65_000,
                  b"0000000c" + b"41" * 12)
    for name, value in itertools.product(KEY_TYPES, signatures):
        key = KEYS[name]
        yield Case(f"{name.decode()} signs with {value and value[:8]}.. of {len(value or b'')}",
                   ALL + sign(key, flags=2) + LISTS + sign(key, flags=4) + sign(OTHER), value)
    for value in (b"0", b"000", b"0g", b"xx", b" 00", b"00 ", b"00 00", b"00\n", b"\n", b" ", b"0x00", b"00,00", b"00:00", b"-1", b"+1",
                  b"\xff", b"00\xc3", "\u0660\u0660".encode(), b"00" * 64 + b"0", b"none", b"AA==", b"\xc3\xa9", b"0\t", b"G0", b"/0",
                  b"0:", b"@0", b"0`"):
        for stream in (b"", add(KEY) + sign(KEY), LISTS[:3], uint32(0)):
            yield Case(f"the signature {value[-9:]!r}", stream, value)


LONG = b"p" * 262_139
PASSPHRASES = [b"p", b"", b"P", b"pp", b"p\0", b"\0", b"\0p", b" p", b"p ", b"p\n", b"secret", b"\xff\xfe", "\u00e9".encode(), b"e\xcc\x81",
               b"p" * 64, b"p" * 4096, b"p" * 65_536]


def locks():
    """Locks and unlocks, and each message while locked."""
    for given, tried in itertools.product(PASSPHRASES, repeat=2):
        yield Case(f"locked with {given[:9]} ({len(given)}), unlocked with {tried[:9]} ({len(tried)})",
                   add(KEY) + lock(given) + unlock(tried) + LISTS + unlock(given) + LISTS)
    for tried in (LONG, LONG[:-1], LONG[1:] + b"q", b"q" + LONG[1:], b""):
        stream = lock(LONG) + unlock(tried) + LISTS + unlock(LONG) + unlock(LONG) + lock()
        yield Case(f"a long passphrase, unlocked with {len(tried)} bytes", stream)
    for what, frame in ONE_OF_EACH.items():
        for name, before in (("of all", ALL), ("of none", b"")):
            yield Case(f"locked, {name}: {what}", before + lock() + frame + LISTS + unlock() + LISTS, SIGNATURE)
            yield Case(f"locked and unlocked, {name}: {what}", before + lock() + unlock() + frame + LISTS, SIGNATURE)
            yield Case(f"locked and not unlocked, {name}: {what}", before + lock() + unlock(b"q") + frame + LISTS + unlock(), SIGNATURE)
        yield Case(f"{what}, then locked", frame + lock() + frame + LISTS + unlock() + frame + LISTS, SIGNATURE)
    a, b = lock(b"a"), lock(b"b")
    for at, stream in enumerate((
        unlock(), unlock(b""), a + a, a + b, a + b + unlock(b"b") + unlock(b"a"), a + b + unlock(b"a") + LISTS + unlock(b"a"),
        a + unlock(b"a") + b + unlock(b"a") + unlock(b"b") + LISTS, a + REMOVES_ALL + unlock(b"a") + LISTS,
        lock(b"") + unlock(b"a") + unlock(b""),
        lock(b"") + lock(b"") + unlock(b""), a + unlock(b"") + unlock(b"ab") + unlock(b"A") + unlock(b"a"),
        (a + unlock(b"b") + unlock(b"a")) * 20, a + unlock(b"a") * 20 + b, a * 20 + unlock(b"a"), a + unlock(b"b") * 200 + unlock(b"a"),
    )):
        yield Case(f"locks {at}", ALL + stream + LISTS)


def orders():
    """What stands where, after keys are added, added again and removed."""
    names = list(KEYS)
    for first, second in itertools.product(names, repeat=2):
        one, two = KEYS[first], OTHERS[second]
        both = add(one, b"one") + add(two, b"two")
        label = f"{first.decode()} and {second.decode()}"
        yield Case(f"{label}, each signs", both + sign(one, flags=2) + sign(two, flags=6) + LISTS, SIGNATURE)
        yield Case(f"{label}, the first again", both + add(one, b"new") + LISTS + remove(one) + LISTS + sign(one) + sign(two), SIGNATURE)
        yield Case(f"{label}, the second removed and added", both + remove(two) + LISTS + add(two, b"back") + LISTS + remove(two))
    keys = [KEYS[ED25519], KEYS[RSA], OTHERS[ED25519], KEYS[SK_ED25519], KEYS[b"ecdsa-sha2-nistp256"]]
    start = b"".join(add(key, b"k%d" % at) for at, key in enumerate(keys))
    for at in range(len(keys)):
        for more in range(len(keys)):
            stream = start + remove(keys[at]) + LISTS + add(keys[more], b"again") + LISTS + sign(keys[more]) + sign(keys[at])
            yield Case(f"of five {at} is removed and {more} added", stream, SIGNATURE)
            yield Case(f"of five {at} and {more} are removed", start + remove(keys[at]) + remove(keys[more]) + LISTS + remove(keys[at]))
        yield Case(f"of five {at} is added again", start + add(keys[at], b"") + LISTS + add(keys[at], b"long " * 99) + LISTS)
        yield Case(f"removed from {at} on", start + b"".join(remove(key) + LISTS for key in keys[at:] + keys[:at]) + LISTS)
    # Keys that share their numbers.
    point, octets = b"\4" + bytes(range(64)), bytes(range(32))
    near = {name: KEYS[name]._replace(public=[[name], curve, [point]], private=[[name], curve, [point], [b"s"]])
            for name, curve in ((name, [curve]) for name, (curve, _) in CURVES.items())}
    for name, application in itertools.product((SK_ECDSA, SK_ED25519), (b"", b"ssh:", b"ssh:a", b"ssh")):
        public = [[name], [b"nistp256"], [point], [application]] if name == SK_ECDSA else [[name], [octets], [application]]
        near[name + application] = KEYS[name]._replace(public=public, private=[*public, b"\1", [b"handle"], []])
    near["ed"] = KEY._replace(public=[[ED25519], [octets]], private=[[ED25519], [octets], [bytes(32), octets]])
    public = [[b"ecdsa-sha2-nistp256"], [b"nistp256"], [point[:-1]]]
    near["point"] = KEYS[b"ecdsa-sha2-nistp256"]._replace(public=public, private=[*public, [b"s"]])
    for one, other in ((b"\1\0\1", b"n" * 24), (b"n" * 24, b"\1\0\1"), (b"", b""), (b"\1", b""), (b"", b"\1")):
        public = [[RSA], [one], [other]]
        near[one + b"-" + other] = KEYS[RSA]._replace(public=public, private=[[RSA], [other], [one], *([b"x"],) * 4])
    start = b"".join(add(key, b"%d" % at) for at, key in enumerate(near.values()))
    for at, (name, key) in enumerate(near.items()):
        yield Case(f"near keys, {name} signs", start + sign(key) + LISTS, SIGNATURE)
        yield Case(f"near keys, {name} is removed", start + remove(key) + LISTS + add(key, b"last") + LISTS + remove(key))
        yield Case(f"near keys, {name} is added again", start + add(key, b"new") + LISTS)
        yield Case(f"near keys, {name} alone", add(key) + b"".join(map(sign, near.values())), SIGNATURE)
    for what, frame in ONE_OF_EACH.items():
        stream = ALL + REMOVES_ALL + LISTS + frame + LISTS + REMOVES_ALL + REMOVES_ALL + ALL + LISTS
        yield Case(f"remove all, then {what}", stream, SIGNATURE)
        yield Case(f"{what} first of all", frame + LISTS, SIGNATURE)
        yield Case(f"{what} behind all", ALL + frame + LISTS, SIGNATURE)
        yield Case(f"{what}, unsigned", ALL + frame + LISTS)


def comments():
    """The comment of a key is any UTF-8, and keeps its white space."""
    bad = [b"\xff", b"\xc3", b"\xc0\x80", b"\xed\xa0\x80", b"\xf4\x90\x80\x80", b"\x80", b"\xe2\x82", b"\xf0\x9f\x94", b"k\xff", b"\xe9k"]
    for comment in COMMENTS + BROKEN_COMMENTS + bad:
        yield Case(f"the comment {comment[:20]}", add(KEY, comment) + LISTS)
        yield Case(f"the comment {comment[:20]} for another", ALL + add(KEY, comment) + add(KEYS[RSA], comment) + LISTS)
    for name, key in KEYS.items():
        for comment in (b"", b"\xff", b" \t\n", "\U0001f511".encode()):
            yield Case(f"{name.decode()} with the comment {comment}", add(key, comment) + LISTS)


def limits():
    """As many identities as there are, and as long messages."""
    many = [fixed_key(ED25519, b"%d" % at) for at in range(MOST + 3)]
    kinds = [fixed_key(KEY_TYPES[at % len(KEY_TYPES)], b"%d" % at) for at in range(MOST + 1)]
    for name, keys in (("Ed25519", many), ("all kinds", kinds)):
        for count in (MOST - 1, MOST, MOST + 1):
            full = b"".join(add(key, b"%d" % at) for at, key in enumerate(keys[:count]))
            new, last, first = fixed_key(SK_ED25519, b"new"), keys[count - 1], keys[0]
            for what, stream in (
                ("listed", b""), ("one more", add(new) + sign(new) + add(new)), ("the last again", add(last, b"again") + sign(last)),
                ("the first again", add(first, b"again") + sign(first)),
                ("one less and one more", remove(first) + add(new) + add(first) + remove(last) + add(first)),
                ("locked", lock() + add(first) + add(new) + unlock() + add(first, b"") + add(new)),
                ("none", REMOVES_ALL + LISTS + add(new)), ("asked", b"".join(map(sign, (first, keys[500], last, new, OTHER)))),
                ("a bad one", string(message_of(add(first))[:-1]) + string(message_of(add(new))[:-1])),
            ):
                yield Case(f"{count} of {name}, {what}", full + stream + LISTS, SIGNATURE)
    # Adding the same key, however often, is one identity.
    yield Case("one key 3,000 times", b"".join(add(KEY, b"%d" % at) for at in range(3000)) + LISTS)
    yield Case("two keys 3,000 times", b"".join(add((KEY, OTHER)[at % 2], b"%d" % at) for at in range(3000)) + LISTS)
    yield Case("3,000 keys, each removed", b"".join(add(key) + remove(key) for key in many * 3) + LISTS)
    for name, key in KEYS.items():
        for over in (0, 1, 2, 4096):
            for what, make in (("comment", lambda size: add(key, b"c" * size)), ("message", lambda size: sign(key, b"m" * size)),
                               ("rest", lambda size: string(message_of(add(key)) + b"r" * size))):
                size = LONGEST + over - len(message_of(make(0)))
                yield Case(f"{name.decode()}, a {what} of {size}", add(key) + make(size) + LISTS, SIGNATURE)
    number = [b"\x7f" * 130_000]
    for at in range(1, 7):
        key = KEYS[RSA]._replace(private=[*KEYS[RSA].private[:at], number, *KEYS[RSA].private[at + 1:]])
        yield Case(f"RSA with a long number {at}", add(key) + LISTS + sign(KEYS[RSA]), SIGNATURE)
    point = [b"\4" * 200_000]
    key = KEYS[SK_ECDSA]._replace(public=[*KEYS[SK_ECDSA].public[:2], point, [b"a" * 60_000]])
    key = key._replace(private=[*key.public, *KEYS[SK_ECDSA].private[4:]])
    yield Case("a long point and a long application", add(key) + LISTS + sign(key) + remove(key) + LISTS, SIGNATURE)
    longest = [add(fixed_key(ED25519, b"%d" % at), b"x" * 262_000) for at in range(40)]
    yield Case("40 long comments", b"".join(longest) + LISTS * 2 + REMOVES_ALL + LISTS)
    yield Case("20,000 lists of 20", b"".join(add(key) for key in many[:20]) + LISTS * 20_000)
    yield Case("20,000 signatures", add(KEY) + sign(KEY) * 20_000, SIGNATURE)
    for kind in (ADD, SIGN, REMOVE, LOCK, UNLOCK):
        for length in (2**32 - 1, 2**31, 2**16, LONGEST, LONGEST - 5, LONGEST - 4):
            yield Case(f"{kind} with a string of {length}", string(bytes([kind]) + uint32(length) + bytes(20)) + LISTS)
            yield Case(f"{kind} with a string of {length}, long", string((bytes([kind]) + uint32(length)).ljust(LONGEST, b"\0")) + LISTS)


def sessions():
    """What OpenSSH's programs sent."""
    text = (Path(__file__).resolve().parent / "sessions.txt").read_text()
    for session in text.split("$ ")[1:]:
        command, *body = session.split("\n")
        yield command, base64.b64decode("".join(body))


def openssh():
    """Each session alone, all one after the other, and each by turns before others."""
    sent = list(sessions())
    for value in (None, SIGNATURE):
        for at, (command, stream) in enumerate(sent):
            yield Case(f"{command} ({at})", stream, value)
            yield Case(f"{command} ({at}) and a list", stream + LISTS, value)
            yield Case(f"all up to {command} ({at})", b"".join(it for _, it in sent[:at + 1]) + LISTS, value)
            yield Case(f"{command} ({at}) behind all but the last", b"".join(it for _, it in sent[:-1]) + stream + LISTS, value)
            yield Case(f"{command} ({at}) cut", stream[:-1], value)
            yield Case(f"{command} ({at}) twice", stream * 2 + LISTS, value)
            if value:
                for device in ("in turns", "byte by byte"):
                    yield Case(f"{command} ({at}) {device}", stream, value, (), device)
    yield Case("all in turns", b"".join(it for _, it in sent), SIGNATURE, (), "in turns")


def words_and_devices():
    """Words are ignored, but --help and --version alone. Standard input or output may fail, or be slow."""
    stream = add(KEY) + LISTS + sign(KEY)
    for words in ((b"",), (b"-h",), (b"help",), (b"--help", b"x"), (b"x", b"--help"), (b"--version", b"--help"), (b"--version", b""),
                  (b"--HELP",), (b"-a", b"/tmp/socket"), (b"list",), (b"\xff",), (b"--help\xff",), (b"--",), (b"--", b"--help"),
                  (b"x" * 9999,)):
        yield Case(f"words {words}"[:60], stream, SIGNATURE, words)
        yield Case(f"words {words}, a signature that isn't hex"[:70], stream, b"x", words)
    for word, value, device in itertools.product((b"--help", b"--version"), (None, b"00", b"x", b"\xff"),
                                                 (None, "a folder", "a full device", "no standard input", "no standard output")):
        yield Case(f"{word}, signature {value}, {device}", stream, value, (word,), device)
    streams = {"nothing": b"", "a list": LISTS, "three": stream, "a length of 0": uint32(0), "a list cut": LISTS[:4], "two bytes": b"\0\0",
               "a list and a bad length": LISTS + uint32(LONGEST + 1), "a list and a cut one": LISTS * 2 + LISTS[:3],
               "a reply of 200,000 bytes": add(KEY, b"x" * 200_000) + LISTS * 3}
    for (name, source), value in itertools.product(streams.items(), (SIGNATURE, None, b"x")):
        for device in ("a folder", "no standard input", "a full device", "no standard output", "nobody reads"):
            yield Case(f"{name} with {device}, signature {value}", source, value, (), device)
    for name, source in streams.items():
        for device in ("in turns", "byte by byte", "a reset"):
            if source[:4] and (device != "a reset" or uint32(LONGEST + 1) not in source and len(source) > 4):
                yield Case(f"{name} {device}", source, SIGNATURE, (), device)
    for what, frame in ONE_OF_EACH.items():
        for device in ("in turns", "byte by byte"):
            yield Case(f"{what} {device}", add(OTHER) + frame + LISTS, SIGNATURE, (), device)
        for end in (0, 1, 3, 4, len(frame) - 1, len(frame)):
            yield Case(f"{what}, {end} bytes and a reset", add(OTHER) + frame[:end], SIGNATURE, (), "a reset")
    yield Case("all kinds in turns", ALL + b"".join(ONE_OF_EACH.values()) + LISTS, SIGNATURE, (), "in turns")
    for size in (40_000, 262_000):
        yield Case("long replies whose reader leaves", add(KEY, b"c" * size) + LISTS * 20, SIGNATURE, (), "the reader leaves")
    yield Case("many replies whose reader leaves", ALL + (LISTS + sign(KEY)) * 3000, SIGNATURE, (), "the reader leaves")
    yield Case("a long message in turns", add(KEY) + sign(KEY, b"m" * 262_000) + LISTS, SIGNATURE, (), "in turns")
    longest = b"".join(add(fixed_key(ED25519, b"%d" % at), b"x" * 262_000) for at in range(70))
    yield Case("long comments in little memory", longest + LISTS, SIGNATURE, (), "little memory")
    yield Case("a long reply in little memory", b"".join(add(key, b"c" * 60_000) for key in KEYS.values()) + LISTS * 3, b"00" * 60_000, (),
               "little memory")


GROUPS = (fields_changed, cut_and_more, frames_changed, types, names_changed, blobs, flags, locks, orders, comments, limits, openssh,
          words_and_devices)


def fixed_cases():
    """All, but none twice."""
    seen = set()
    for group in GROUPS:
        for case in group():
            what = hash(case._replace(name=""))
            if what not in seen:
                seen.add(what)
                yield case._replace(name=f"{group.__name__}: {case.name}")
