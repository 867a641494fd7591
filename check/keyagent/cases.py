"""How keyagent ends: the cases that check/statuses tries.

docs/FORMATS.md, "Messages of an agent", says which replies and statuses are wanted. Messages, keys and replies are made here, of
their fields; the numbers of a key here belong to no key that works, since nobody judges them.
"""
import itertools
import re

from lib.cases import CLOSED, Case, DONE, End, FOLDER, FULL, LEFT, LIMIT, NEAR, Row, UNREAD, always, deaf, helps, printed, surrounded
from lib.formats import ED25519, RSA, ed25519_blob, ed25519_private, mpint, mpints, rsa_blob, rsa_private, string, uint32

BAD_FRAME, CUT, READ_FAULT, WRITE_FAULT, NO_MEMORY, NO_HEX = (End(status, b"") for status in (1, 2, 3, 4, 5, 7))

# The longest message, and how many identities there are at most.
LONGEST, MOST = 262_144, 1_024

# The types of messages and replies (draft-miller-ssh-agent-04), of which these stand without fields too: the failure,
# the success, the list that is asked for, and that all identities are to be removed.
TYPES = (5, 6, 11, 12, 13, 14, 17, 18, 19, 22, 23)
FAILURE, SUCCESS, LIST, LISTED, SIGN, SIGNED, ADD, REMOVE, REMOVE_ALL, LOCK, UNLOCK = (bytes([it]) for it in TYPES)

SIGNATURE = bytes(range(200, 264 - 8)) + b"end"
HANDED = {"KEYCONV_SIGNATURE": SIGNATURE.hex()}


# ---- messages, their type and contents (draft-miller-ssh-agent-04)


def sign(blob, message=b"message", flags=0):
    return SIGN + string(blob) + string(message) + uint32(flags)


def add(private, comment=b""):
    return ADD + private + string(comment)


def remove(blob):
    return REMOVE + string(blob)


def lock(pass_):
    return LOCK + string(pass_)


def unlock(pass_):
    return UNLOCK + string(pass_)


# ---- replies


def listed(*identities):
    """The list of identities, which are blobs and comments."""
    return LISTED + uint32(len(identities)) + b"".join(string(blob) + string(comment) for blob, comment in identities)


def signed(form, signature=SIGNATURE):
    return SIGNED + string(string(form) + string(signature))


# ---- keys: the public and the private blob of each type, and the format of its signatures without flags


def point(size):
    return b"\4" + bytes(number % 251 for number in range(2 * size))


def curve_blob(curve, size):
    return string(b"ecdsa-sha2-" + curve) + string(curve) + string(point(size))


DEVICE_RSA, DEVICE_ED = b"sk-ecdsa-sha2-nistp256@openssh.com", b"sk-ssh-ed25519@openssh.com"
DEVICE = b"\1" + string(b"handle") + string(b"")
NUMBERS = [b"\x81modulus", b"\1\0\1", b"\x7fsecret", b"\xffinverse", b"\xffp", b"q"]
RSA_BLOB = rsa_blob(NUMBERS[0], NUMBERS[1])
ED_BLOB = ed25519_blob(bytes(32))
ED = ed25519_private(b"s" * 32, bytes(32))
OTHER_BLOB = ed25519_blob(b"\xff" * 32)
OTHER = ed25519_private(b"t" * 32, b"\xff" * 32)
P256, P384, P521 = (curve_blob(curve, size) for curve, size in ((b"nistp256", 32), (b"nistp384", 48), (b"nistp521", 66)))
SK_ECDSA_BLOB = string(DEVICE_RSA) + string(b"nistp256") + string(point(32)) + string(b"ssh:")
SK_ED_BLOB = string(DEVICE_ED) + string(bytes(32)) + string(b"ssh:")
KEYS = {
    "RSA": (RSA_BLOB, rsa_private(*NUMBERS), b"ssh-rsa"),
    "NIST P-256": (P256, P256 + mpint(b"\x80s"), b"ecdsa-sha2-nistp256"),
    "NIST P-384": (P384, P384 + mpint(b"s"), b"ecdsa-sha2-nistp384"),
    "NIST P-521": (P521, P521 + mpint(b"\1s"), b"ecdsa-sha2-nistp521"),
    "Ed25519": (ED_BLOB, ED, b"ssh-ed25519"),
    "ECDSA on a device": (SK_ECDSA_BLOB, SK_ECDSA_BLOB + DEVICE, None),
    "Ed25519 on a device": (SK_ED_BLOB, SK_ED_BLOB + DEVICE, None),
}

# One message of each kind whose fields are there.
MESSAGES = {
    "the list": LIST, "sign": sign(ED_BLOB, b"message", 2), "remove": remove(ED_BLOB), "remove all": REMOVE_ALL,
    "lock": lock(b"pass"), "unlock": unlock(b"pass"), "sign by RSA": sign(RSA_BLOB), "remove P-521": remove(P521),
    **{f"add {name}": add(private, b"comment") for name, (_, private, _) in KEYS.items()},
}
FIELDLESS = ("the list", "remove all")


# ---- cases


def talk(name, *exchanges, rest=b"", end=DONE, env={}, taken=None, **more):
    """Messages with their replies, and what stands behind them, of which so many bytes are read: all, where it isn't said."""
    source = b"".join(string(message) for message, _ in exchanges)
    replies = b"".join(string(reply) for _, reply in exchanges)
    taken = len(source) + (len(rest) if taken is None else taken)
    return Case(name, (), source + rest, replies, end, env, taken=taken, **more)


def rows():
    yield talk("the list of a new agent", (LIST, listed()))
    yield talk("a lock, and what is refused meanwhile", (lock(b"a"), SUCCESS), (REMOVE_ALL, FAILURE), (unlock(b"b"), FAILURE),
               (unlock(b"a"), SUCCESS))
    yield talk("nothing")


def kept():
    """What is kept, in which order, and how it is found."""
    for name, (blob, private, _) in KEYS.items():
        yield talk(f"{name}, added, listed and removed", (add(private, b"a comment"), SUCCESS), (LIST, listed((blob, b"a comment"))),
                   (remove(blob), SUCCESS), (LIST, listed()), (remove(blob), FAILURE))
    every = [(blob, name.encode()) for name, (blob, _, _) in KEYS.items()]
    adds = [(add(private, name.encode()), SUCCESS) for name, (_, private, _) in KEYS.items()]
    yield talk("a key of each type", *adds, (LIST, listed(*every)))
    for at, (blob, comment) in enumerate(every):
        left = every[:at] + every[at + 1:]
        yield talk(f"of these {comment.decode()} removed", *adds, (remove(blob), SUCCESS), (LIST, listed(*left)))
        again = every[:at] + [(blob, b"again")] + every[at + 1:]
        private = KEYS[comment.decode()][1]
        yield talk(f"of these {comment.decode()} added again", *adds, (add(private, b"again"), SUCCESS), (LIST, listed(*again)))
    yield talk("all removed", *adds, (REMOVE_ALL, SUCCESS), (LIST, listed()), (REMOVE_ALL, SUCCESS), adds[0], (LIST, listed(every[0])))
    other = rsa_blob(NUMBERS[0], b"\3")
    yield talk("two keys of one modulus", adds[0], (remove(other), FAILURE), (add(rsa_private(NUMBERS[0], b"\3", *NUMBERS[2:])), SUCCESS),
               (LIST, listed(every[0], (other, b""))), (remove(RSA_BLOB), SUCCESS), (LIST, listed((other, b""))))
    yield talk("one key's other secret", (add(rsa_private(*NUMBERS), b"a"), SUCCESS),
               (add(rsa_private(*NUMBERS[:2], b"d", b"i", b"p", b"q"), b"b"), SUCCESS), (LIST, listed((RSA_BLOB, b"b"))))
    yield talk("devices' keys of two applications", (add(SK_ED_BLOB + DEVICE), SUCCESS),
               (remove(SK_ED_BLOB.replace(b"ssh:", b"SSH:")), FAILURE), (remove(SK_ED_BLOB), SUCCESS))

    for name, comment in (("empty", b""), ("with white space around it", b" \ta\r\n "), ("with NUL", b"a\0b"),
                          ("beyond ASCII", "\u00e9 \u20ac \U0001f511".encode()), ("of white space alone", b"  ")):
        yield talk(f"a comment {name}", (add(ED, comment), SUCCESS), (LIST, listed((ED_BLOB, comment))))
    for comment in (b"\xff", b"a\xc3", b"\xed\xa0\x80", b"\xc0\x80"):
        yield talk(f"the comment {comment!r}, which isn't UTF-8", (add(ED, comment), FAILURE), (LIST, listed()))

    # What is read leniently is the same key, and is written in its one spelling.
    zeros = string(RSA) + string(b"\0\0\1\0\1") + string(b"\0\0" + NUMBERS[0])
    private = string(RSA) + string(b"\0\0" + NUMBERS[0]) + string(b"\0\1\0\1") + mpints(*NUMBERS[2:])
    other_curve = P256.replace(string(b"nistp256"), string(b"nistp521"), 1)
    assert other_curve != P256 and other_curve.startswith(string(b"ecdsa-sha2-nistp256"))
    yield talk("numbers with zeros before them", (add(private, b"k"), SUCCESS), (LIST, listed((RSA_BLOB, b"k"))),
               (sign(zeros), signed(b"ssh-rsa")), (remove(zeros), SUCCESS), (LIST, listed()), env=HANDED)
    yield talk("another curve's identifier", (add(other_curve + mpint(b"s"), b"k"), SUCCESS), (LIST, listed((P256, b"k"))),
               (sign(other_curve), signed(b"ecdsa-sha2-nistp256")), (remove(P256), SUCCESS), env=HANDED)
    yield talk("bytes behind a blob, in its string", (add(ED), SUCCESS), (sign(ED_BLOB + b"more"), signed(ED25519)),
               (remove(ED_BLOB + b"\0"), SUCCESS), (LIST, listed()), env=HANDED)

    blobs = {
        "an empty one": b"", "a type that isn't known": string(b"ssh-dss") + mpint(b"\5") * 4,
        "a type in upper case": ED_BLOB.upper(), "a certificate": string(b"ssh-ed25519-cert-v01@openssh.com") + ED_BLOB,
        "a type that isn't UTF-8": string(b"\xff"), "a key of 31 bytes": string(ED25519) + string(bytes(31)),
        "a key of 33 bytes": string(ED25519) + string(bytes(33)), "a length that lies": ED_BLOB[:-33] + b"\xff" + ED_BLOB[-32:],
        "an application that isn't UTF-8": SK_ED_BLOB[:-1] + b"\xff",
        "an identifier that isn't UTF-8": P256.replace(string(b"nistp256"), string(b"nistp25\xff"), 1),
    }
    for name, blob in blobs.items():
        yield talk(f"a blob: {name}", (add(ED), SUCCESS), (sign(blob), FAILURE), (remove(blob), FAILURE), (LIST, listed((ED_BLOB, b""))),
                   env=HANDED)
    privates = {
        "a type that isn't known": string(b"ssh-dss") + mpint(b"\5") * 5, "a certificate": string(b"ssh-ed25519-cert-v01@openssh.com") + ED,
        "a public key of 31 bytes": string(ED25519) + string(bytes(31)) + string(bytes(63)),
        "a secret of 32 bytes": ED_BLOB + string(bytes(32)), "another public key behind the secret": ED_BLOB + string(bytes(63) + b"\1"),
        "an application that isn't UTF-8": SK_ED_BLOB[:-1] + b"\xff" + DEVICE, "a name alone": string(ED25519), "the public key": ED_BLOB,
        "one number less": rsa_private(*NUMBERS)[:-len(mpint(NUMBERS[5]))], "its name behind it": ED[4 + len(ED25519):] + string(ED25519),
    }
    for name, private in privates.items():
        yield talk(f"a private blob: {name}", (add(private, b"k"), FAILURE), (LIST, listed()))
    yield talk("any reserved string", (add(SK_ED_BLOB + b"\xff" + string(b"handle") + string(b"reserved"), b"k"), SUCCESS),
               (LIST, listed((SK_ED_BLOB, b"k"))))


def signatures():
    for name, (blob, private, form) in KEYS.items():
        reply = signed(form) if form else FAILURE
        yield talk(f"{name}, a signature", (add(private), SUCCESS), (sign(blob), reply), (LIST, listed((blob, b""))), env=HANDED)
        yield talk(f"{name}, no signature", (add(private), SUCCESS), (sign(blob), FAILURE), (LIST, listed((blob, b""))))
        yield talk(f"{name}, a signature before it is added", (sign(blob), FAILURE), env=HANDED)
        if form:
            for flags in (1, 2, 4, 6, 7, 8, 2 ** 31, 2 ** 32 - 3, 2 ** 32 - 7, 2 ** 32 - 1):
                rsa = b"rsa-sha2-256" if flags & 2 else b"rsa-sha2-512" if flags & 4 else b"ssh-rsa"
                yield talk(f"{name}, a signature with flags {flags}", (add(private), SUCCESS),
                           (sign(blob, b"m", flags), signed(rsa if name == "RSA" else form)), env=HANDED)
    yield talk("the second key's", (add(ED), SUCCESS), (add(rsa_private(*NUMBERS)), SUCCESS), (sign(RSA_BLOB), signed(b"ssh-rsa")),
               (sign(ED_BLOB), signed(ED25519)), (sign(OTHER_BLOB), FAILURE), env=HANDED)
    yield talk("one after another", (add(ED), SUCCESS), *[(sign(ED_BLOB, bytes(number)), signed(ED25519)) for number in range(9)],
               env=HANDED)
    for name, value, signature in (("empty", "", b""), ("of one byte", "0f", b"\x0f"), ("in upper case", "ABCDEF", b"\xab\xcd\xef"),
                                   ("in both cases", "aBcDEf", b"\xab\xcd\xef"), ("of 50,000 bytes", "5a" * 50_000, b"Z" * 50_000)):
        yield talk(f"a signature {name}", (add(ED), SUCCESS), (sign(ED_BLOB), signed(ED25519, signature)),
                   env={"KEYCONV_SIGNATURE": value})


def locks():
    ask = [(name, message) for name, message in MESSAGES.items() if not name.startswith(("the list", "unlock"))]
    one = listed((ED_BLOB, b"k"))
    yield talk("each message while locked", (add(ED, b"k"), SUCCESS), (lock(b"pass"), SUCCESS), (LIST, listed()),
               *[(message, FAILURE) for _, message in ask], (LIST, listed()), (unlock(b"pass"), SUCCESS), (LIST, one), env=HANDED)
    wrong = (b"", b"p", b"pas", b"pass\0", b"passpass", b"Pass", b"ssap", b"\0pass", b" pass")
    yield talk("passphrases that aren't the one", (lock(b"pass"), SUCCESS), *[(unlock(it), FAILURE) for it in wrong],
               (LIST, listed()), (unlock(b"pass"), SUCCESS), (unlock(b"pass"), FAILURE))
    yield talk("a lock while locked keeps the first passphrase", (lock(b"a"), SUCCESS), (lock(b"b"), FAILURE), (unlock(b"b"), FAILURE),
               (unlock(b"a"), SUCCESS), (lock(b"b"), SUCCESS), (unlock(b"a"), FAILURE), (unlock(b"b"), SUCCESS))
    yield talk("an unlock while not locked", (unlock(b""), FAILURE), (add(ED, b"k"), SUCCESS), (unlock(b"a"), FAILURE), (LIST, one))
    for pass_ in (b"", b"\0", b"\xff\xfe", b"a" * 5000):
        yield talk(f"a passphrase of {len(pass_)} bytes", (add(ED, b"k"), SUCCESS), (lock(pass_), SUCCESS), (unlock(pass_ + b"x"), FAILURE),
                   (LIST, listed()), (unlock(pass_), SUCCESS), (LIST, one))


def unfit():
    """Messages that don't fit, and bytes behind those that do."""
    known = {message[0] for message in MESSAGES.values()}
    assert known == {11, 13, 17, 18, 19, 22, 23}
    others = [bytes([kind]) + contents for kind in range(256) if kind not in known for contents in (b"", string(ED_BLOB), ED)]
    one = (LIST, listed((ED_BLOB, b"k")))
    yield talk("each other type", (add(ED, b"k"), SUCCESS), *[(message, FAILURE) for message in others], one, env=HANDED)
    for name, message in MESSAGES.items():
        if name not in FIELDLESS:
            cuts = [(message[:size], FAILURE) for size in range(1, len(message))]
            yield talk(f"{name}, its contents cut at every byte", (add(ED, b"k"), SUCCESS), *cuts, one, env=HANDED)
    for more in (b"\0", b"more", b"\xff" * 300):
        yield talk(f"{len(more)} bytes behind the last field", (add(ED, b"k") + more, SUCCESS), (LIST + more, listed((ED_BLOB, b"k"))),
                   (sign(ED_BLOB) + more, signed(ED25519)), (lock(b"a") + more, SUCCESS), (unlock(b"a") + more, SUCCESS),
                   (remove(ED_BLOB) + more, SUCCESS), (REMOVE_ALL + more, SUCCESS), (LIST, listed()), env=HANDED)
    lies = b"\0\4\0\1", b"\xff\xff\xff\xff", b"\x80\0\0\0"
    yield talk("lengths of fields that lie", *[(bytes([kind]) + it + b"bytes", FAILURE) for kind in (13, 17, 18, 22, 23) for it in lies],
               (LIST, listed()))


def numbered(number):
    public = number.to_bytes(32, "big")
    return ed25519_blob(public), ed25519_private(bytes(32), public), b"%d" % number


def limits():
    """The longest message and the most identities."""
    adds = [(add(numbered(number)[1], b"%d" % number), SUCCESS) for number in range(MOST)]
    full = [(blob, comment) for blob, _, comment in map(numbered, range(MOST))]
    blob, private, _ = numbered(MOST)
    yield talk("1,024 identities, and one more", *adds, (add(private, b"x"), FAILURE), (LIST, listed(*full)))
    yield talk("one of 1,024 added again", *adds, (add(numbered(5)[1], b"x"), SUCCESS),
               (LIST, listed(*full[:5], (full[5][0], b"x"), *full[6:])), (add(private, b"x"), FAILURE))
    yield talk("one of 1,024 removed, and one added", *adds, (remove(full[7][0]), SUCCESS), (add(private, b"x"), SUCCESS),
               (LIST, listed(*full[:7], *full[8:], (blob, b"x"))), (add(numbered(MOST + 1)[1], b"y"), FAILURE))
    pass_ = b"p" * (LONGEST - 5)
    yield talk("a lock of 262,144 bytes", (lock(pass_), SUCCESS), (unlock(pass_[:-1]), FAILURE), (unlock(pass_), SUCCESS))
    comment = b"c" * (LONGEST - len(add(ED)))
    yield talk("a key of 262,144 bytes", (add(ED, comment), SUCCESS), (LIST, listed((ED_BLOB, comment))))
    yield talk("a list of 262,144 bytes", (LIST + bytes(LONGEST - 1), listed()))
    yield talk("a signature of a message of 262,144 bytes", (add(ED), SUCCESS), (sign(ED_BLOB, b"m" * (LONGEST - len(sign(ED_BLOB, b"")))),
               signed(ED25519)), env=HANDED)
    yield talk("100,000 messages", *[(LIST, listed())] * 100_000)


def frames():
    """Lengths that no message has, and streams that end inside a message."""
    first = (LIST, listed()), (lock(b"a"), SUCCESS)
    for length in (0, LONGEST + 1, LONGEST + 256, 2 ** 24, 2 ** 31, 2 ** 32 - 1):
        for behind in (b"", b"\0", string(LIST), bytes(9999)):
            yield talk(f"a length of {length} before {len(behind)} bytes", *first, rest=uint32(length) + behind, end=BAD_FRAME, taken=4)
    yield talk("a length of 0 first", rest=bytes(4), end=BAD_FRAME)
    yield talk("a length of 262,145 before so many bytes", rest=uint32(LONGEST + 1) + bytes(LONGEST + 1), end=BAD_FRAME, taken=4)
    for part in (b"\0", b"\0\0", b"\0\0\0", b"\xff", b"\xff\xff\xff"):
        yield talk(f"{part!r} in place of a length", *first, rest=part, end=CUT)
    for size in (0, 1, 9999, LONGEST - 1):
        yield talk(f"{size} bytes of 262,144", *first, rest=uint32(LONGEST) + bytes(size), end=CUT)
    for name, message in MESSAGES.items():
        whole = string(message)
        for size in range(1, len(whole)):
            yield talk(f"{name}, cut behind {size} bytes", first[0], rest=whole[:size], end=CUT)


def words():
    """Words say nothing, but for --help and --version alone."""
    given = {
        "an empty one": ("",), "one": ("x",), "an option": ("-h",), "more": ("a", "b", "c"), "--help twice": ("--help", "--help"),
        "--help behind another": ("x", "--help"), "--version before another": ("--version", ""), "both": ("--help", "--version"),
        "--help in upper case": ("--HELP",), "a space more": ("--help ",), "--": ("--",), "a word of ssh-agent": ("-D",),
        "what isn't UTF-8": (b"\xff",), "--help before what isn't UTF-8": ("--help", b"\xff"), "--help and no UTF-8": (b"--help\xff",),
        **{f"near to --help: {word!r}": (word,) for word in NEAR},
    }
    for name, it in given.items():
        yield talk(f"words: {name}", (LIST, listed()))._replace(words=it)


def read_faults():
    yield Case("a folder", (), FOLDER, b"", READ_FAULT)
    yield Case("a closed standard input", (), CLOSED, b"", READ_FAULT)


def write_faults():
    long = string(LIST) * 40_000
    for to in (FULL, CLOSED, UNREAD):
        # The second message isn't read before the reply to the first is written.
        for name, message in (("the list", LIST), ("a success", REMOVE_ALL), ("a failure", unlock(b"")), ("an unknown type", b"\0")):
            source = string(message) + string(LIST) * 9
            yield Case(f"{name} to {to}", (), source, None, WRITE_FAULT, to=to, taken=len(string(message)))
        yield Case(f"a bad length behind a message, to {to}", (), string(LIST) + bytes(4), None, WRITE_FAULT, to=to, taken=5)
        # Where nothing is to be written, the stream isn't asked.
        yield Case(f"nothing beside {to}", (), b"", None, to=to)
        yield Case(f"a bad length beside {to}", (), bytes(4), None, BAD_FRAME, to=to, taken=4)
        yield Case(f"a part of a length beside {to}", (), bytes(3), None, CUT, to=to, taken=3)
        yield Case(f"a part of a message beside {to}", (), string(LIST * 9)[:-1], None, CUT, to=to)
        yield Case(f"a folder beside {to}", (), FOLDER, None, READ_FAULT, to=to)
        yield Case(f"a signature that isn't hex beside {to}", (), string(LIST), None, NO_HEX, {"KEYCONV_SIGNATURE": "x"}, to=to, taken=0)
        for word in ("--help", "--version"):
            yield Case(f"{word} to {to}", (word,), string(LIST), None, WRITE_FAULT, to=to, taken=0)
    yield Case(f"the list, again and again, to {LEFT}", (), long, None, WRITE_FAULT, to=LEFT)


def no_memory():
    long = add(ED, b"c" * 250_000)
    many = b"".join(string(add(numbered(number)[1], b"c" * 250_000)) for number in range(100))
    some = re.compile(b"(?:" + re.escape(string(SUCCESS)) + b")+")
    yield Case("100 comments of 250,000 bytes, in 16 MiB of memory", (), many, some, NO_MEMORY, memory=LIMIT)
    yield Case("one key with such a comment again and again", (), string(long) * 100, string(SUCCESS) * 100, memory=LIMIT)


def values():
    wrong = {
        "one digit": "0", "three digits": "000", "a letter": "0g", "a space before": " 00", "a space behind": "00 ", "LF behind": "00\n",
        "0x": "0x00", "colons": "00:00", "a word": "none", "base64": "AAAA==", "full-width digits": "\uff10\uff10", "no UTF-8": b"\xff",
        "hex and no UTF-8": b"00\xff\xff",
    }
    for name, value in wrong.items():
        for word in ((), ("x",), ("--help", "x"), (b"\xff",)):
            yield Case(f"a signature with {name}, words {word}", word, string(LIST), b"", NO_HEX, {"KEYCONV_SIGNATURE": value}, taken=0)
    for name in ("KEYCONV_PASS_IN", "KEYCONV_FRESH", "KEYAGENT_SIGNATURE", "KEYCONV_SIGNATURE_", "SSH_AUTH_SOCK", "LANG"):
        yield talk(f"a variable {name} that isn't UTF-8", (add(ED), SUCCESS), (sign(ED_BLOB), FAILURE), env={name: b"\xff"})


TEXTS = printed("keyagent", [
    b"usage: keyagent < MESSAGES > REPLIES", b"signs nothing", b"draft-miller-ssh-agent-04", b"262,144", b"1,024 identities",
    b"KEYCONV_SIGNATURE", b"--help", b"--version", *(b"%d " % kind for kind in (11, 13, 17, 19, 23)),
    *(b"%d " % status for status in range(8))])


def texts():
    yield from helps(TEXTS, string(LIST))


def signing(env):
    """What comes of a signature that a key is asked for."""
    signature = env.get("KEYCONV_SIGNATURE")
    reply = FAILURE if signature is None else signed(ED25519, bytes.fromhex(signature))
    return string(SUCCESS) + string(reply), DONE


def signing_rows():
    """A signature, a list and what is no message, with words that are ignored."""
    for words in ((), ("-h",), ("x",), ("--help", "x"), (b"\xff",)):
        yield Row(f"a signature, words {words}", words, string(add(ED)) + string(sign(ED_BLOB)), signing)
    yield always("the list", (), string(LIST), string(listed()))
    yield always("nothing", (), b"", b"")
    yield always("no message", (), bytes(4), b"", BAD_FRAME)
    yield always("a part of a message", (), string(LIST * 9)[:-1], b"", CUT)


def environments():
    yield from surrounded(signing_rows(), TEXTS, ("KEYCONV_SIGNATURE",), NO_HEX)


def all_cases():
    for group in (rows, kept, signatures, locks, unfit, limits, frames, words, read_faults, write_faults, no_memory, values, texts,
                  environments):
        yield from group()
    for group in (rows, kept, signatures, frames, read_faults, write_faults, values):
        yield from deaf(itertools.islice(group(), 2))
    yield from deaf(no_memory())
