"""Calls of the library for C about certificates that are asked for: what check/c_answers tries.

Nothing wanted comes from the project's own programs. What is to be signed is made of its fields by OpenSSH's PROTOCOL.certkeys, or it is
what ssh-keygen signed; picky/certificate.h has the words that ask for these fields, the question and the order of the reasons.
"""
import re
from typing import NamedTuple

from libpicky.calls import Call, private_faults, public_faults, putty_faults
from lib.formats import ED25519, RSA, certificate, public_line, putty_public, string, uint32
from keyinventory.sources import texts_of
from lib.readers import certificate as certificate_read
from lib.texts import KEYS, CERT_TYPES, SK_ECDSA, SK_ED25519, V01, certificate_nodes, fixed_key, line_text, render
from lib.vectors import rows_of

LAST = 2**64 - 1
P256, P384, P521 = (b"ecdsa-sha2-nistp%d" % it for it in (256, 384, 521))
# By what each kind of issuer signs: the two bytes that ask for it, and the format of the signature (RFC 4253, section 6.6; RFC 8332,
# section 3; RFC 5656, section 3.1.2; RFC 8709, section 6).
ALGORITHMS = {
    b"rsa-sha1": (RSA, b"\1\2", b"ssh-rsa"), b"rsa-sha2-256": (RSA, b"\1\4", b"rsa-sha2-256"),
    b"rsa-sha2-512": (RSA, b"\1\6", b"rsa-sha2-512"), b"ecdsa-sha2-256": (P256, b"\2\4", P256),
    b"ecdsa-sha2-384": (P384, b"\2\5", P384), b"ecdsa-sha2-512": (P521, b"\2\6", P521), b"ed25519": (ED25519, b"\3\0", ED25519),
}
# By what is signed where no word says it, by the kind of the key that is certified.
OWN = {RSA: b"rsa-sha2-256", P256: b"ecdsa-sha2-256", SK_ECDSA: b"ecdsa-sha2-256", P384: b"ecdsa-sha2-384", ED25519: b"ed25519",
       SK_ED25519: b"ed25519"}
# What a user's certificate has where no word asks for an extension.
PERMITS = tuple((b"permit-" + it, None) for it in (b"X11-forwarding", b"agent-forwarding", b"port-forwarding", b"pty", b"user-rc"))
MADE = {name: kind for name, kind in CERT_TYPES.items() if name not in (b"ssh-dss", P521)}
NONCE = bytes(range(32))
# The authority, of each kind of key.
ISSUERS = {kind: fixed_key(kind, b"issuer") for kind in KEYS}


def line_of(key, comment):
    return line_text(key.name, key.public, comment)


class Asked(NamedTuple):
    """What a call is given: options with their values, and a last one may lack its value; two texts, and the rest."""
    options: tuple
    issuer: bytes
    key: bytes
    fresh: bytes = NONCE
    answers: bytes = b""

    def words(self):
        return [word for pair in self.options for word in pair]


def draft(name, it, wanted):
    return Call(f"{name}, what is to be signed", "certificate_draft", (it.words(), it.issuer, it.key, it.fresh), wanted)


def certify_by(name, it, wanted, number="Ok"):
    return Call(f"{name}, certified", "certify_by", (it.words(), it.issuer, it.key, it.fresh, it.answers), wanted, number)


def refused(name, it, wanted):
    """Both calls, refused for one reason."""
    yield draft(name, it, wanted)
    yield certify_by(name, it, wanted)


# ---- what is made

def named(values):
    """What NAME and NAME=TEXT ask for, in the order of the names."""
    pairs = [(name, text if equals else None) for name, equals, text in (it.partition(b"=") for it in values)]
    return tuple(sorted(pairs, key=lambda it: it[0]))


def signed_by(options, subject, issuer, nonce=NONCE):
    """What the options ask to be signed, and by what."""
    given = {}
    for option, value in options:
        given.setdefault(option, []).append(value)
    name, is_user = given[b"--type"][0].removesuffix(V01), given[b"--kind"] == [b"client"]
    numbers = {field: int(given.get(b"--" + field.encode(), [b"0"])[0]) for field in ("after", "before", "serial")}
    nodes = certificate_nodes(
        name, subject, issuer, nonce, 1 if is_user else 2, principals=given.get(b"--principal", ()), key_id=given.get(b"--id", [b""])[0],
        critical=named(given.get(b"--critical", ())), extensions=named(given.get(b"--extension", ())) or (PERMITS if is_user else ()),
        **numbers)
    return render(nodes[:-1]), given.get(b"--algorithm", [OWN[subject.name]])[0]


def entry(asks, blob, message, answer):
    return string(b"\6" + asks + string(blob)) + string(message) + string(answer)


def signed_calls(name, it, signed, asks, issuer, line, signature):
    """Both calls: the bytes, the question for their signature, and the line with the first answer to it."""
    yield draft(name, it, signed)
    question = entry(asks, issuer, signed, b"")[:-4]
    others = (entry(asks, issuer, signed + b"\0", b"another message") + entry(b"\1\1", issuer, signed, b"another algorithm")
              + entry(asks, issuer + b"\0", signed, b"another key"))
    entry_of = question + string(signature)
    yield certify_by(name, it, question, "Asked")
    yield certify_by(f"{name}, by other answers", it._replace(answers=others), question, "Asked")
    yield certify_by(name, it._replace(answers=entry_of), line)
    yield certify_by(f"{name}, among other answers", it._replace(answers=others + entry_of + question + string(b"later") + others), line)


def made(name, options, subject=KEYS[ED25519], issuer=ISSUERS[ED25519], key=None, issuer_text=None, nonce=NONCE, signature=bytes(64)):
    """Both calls for a certificate that comes to be. The key's comment is k."""
    options = tuple(options)
    it = Asked(options, issuer_text or line_of(issuer, b"the authority"), key or line_of(subject, b"k"), nonce + b"what follows")
    signed, by = signed_by(options, subject, issuer, nonce)
    _, asks, form = ALGORITHMS[by]
    line = public_line(options[0][1], certificate(signed, form, signature), b"k")
    yield from signed_calls(name, it, signed, asks, render(issuer.public), line, signature)


def asking(name, *more, kind=b"client", after=b"0", before=b"%d" % LAST):
    return ((b"--type", name + V01), (b"--kind", kind), (b"--after", after), (b"--before", before), *more)


def of_kinds():
    """Each type of certificates by each kind of issuer, and each form of each text."""
    for name, kind in MADE.items():
        for by, (issuer, _, _) in ALGORITHMS.items():
            options = asking(name, (b"--algorithm", by), (b"--serial", b"7"), (b"--id", b"id"), (b"--principal", b"me"))
            yield from made(f"{name.decode()} by {by.decode()}", options, KEYS[kind], ISSUERS[issuer])
        issuer = ISSUERS[ALGORITHMS[OWN[kind]][0]]
        yield from made(f"{name.decode()} by its own algorithm", asking(name), KEYS[kind], issuer)
        for form, text in texts_of(KEYS[kind]):
            yield from made(f"{name.decode()}, a {form}", asking(name), KEYS[kind], issuer, key=text)
    for by, (kind, _, _) in ALGORITHMS.items():
        for form, text in texts_of(ISSUERS[kind], b"a comment"):
            options = asking(ED25519, (b"--algorithm", by))
            yield from made(f"by {by.decode()}, a {form}", options, issuer=ISSUERS[kind], issuer_text=text)


def of_words():
    """Each word with each sort of value, words in each order, and those that are cut where the rest asks for less."""
    ext, critical, principal, one = b"--extension", b"--critical", b"--principal", asking(ED25519)
    more = (
        (), ((b"--serial", b"0"),), ((b"--serial", b"%d" % LAST),), ((b"--id", b""),), ((b"--id", "--id \u00e9\n%%\n".encode()),),
        ((b"--id", b"\0"),), ((principal, b""),), ((principal, b"b"), (principal, b"a"), (principal, b"b"), (principal, b"--kind")),
        ((critical, b"force-command=ls -l"),), ((critical, b"verify-required"), (critical, b"source-address=10.0.0.0/8,::1")),
        ((critical, b"force-command"),), ((critical, b"force-command="),), ((critical, b"force-command=a=b"), (critical, b"force-command=a")),
        ((ext, b"permit-pty"),), ((ext, b"z"), (ext, b"no-touch-required"), (ext, b"a@b=1=2"), (ext, b"permit-X11-forwarding"), (ext, b"a@b=")),
        ((ext, "\u00e9=\u00e9".encode()), (ext, b"-"), (ext, b"Z"), (ext, b"-=")), ((b"--algorithm", b"ed25519"),),
        ((b"--serial", b"1"), (b"--id", b"i"), (principal, b"p"), (critical, b"verify-required"), (ext, b"e")),
    )
    for it in more:
        yield from made(f"with {it}", (*one, *it))
        yield from made(f"with {it} behind the rest", (one[0], *it, *one[1:]))
    # A host's, and the order of the words.
    host = asking(P256, (b"--principal", b"a.example"), (b"--id", b"h"), kind=b"host", after=b"5", before=b"5")
    for at in range(len(host)):
        options = (host[0], *host[1:][at:], *host[1:][:at])
        yield from made(f"a host's, the words from {at}", options, KEYS[P256], ISSUERS[P256])
    for nonce in (bytes(32), b"\xff" * 32):
        yield from made("another nonce", one, nonce=nonce)
    for signature in (b"", b"\0", b"\xff" * 300):
        yield from made(f"{len(signature)} bytes of a signature", one, signature=signature)
    whole = (*one, (b"--serial", b"1"), (b"--id", b"i"), (principal, b"p"), (critical, b"verify-required"), (ext, b"e"))
    wanted = {0: "request.NoKeyType", 2: "request.MissingCertificateType", 4: "request.InvalidTime", 6: "request.InvalidTime"}
    for count in range(0, len(whole) * 2, 2):
        options = whole[:count // 2]
        cut = Asked((*options, whole[count // 2][:1]), line_of(ISSUERS[ED25519], b""), line_of(KEYS[ED25519], b"k"))
        yield from refused(f"the first {count + 1} words", cut, "BadWords")
        if count in wanted:
            yield from refused(f"the first {count} words", cut._replace(options=options), wanted[count])
        else:
            yield from made(f"the first {count} words", options)


def of_ssh_keygen():
    """What ssh-keygen signed: of the same fields and nonce the same bytes, and by its signature the same line."""
    words = {form: (by, asks) for by, (_, asks, form) in ALGORITHMS.items()}
    for row in rows_of("picky_cert_rows", "CertRow"):
        it = certificate_read(row["line"])
        # Not made are one for NIST P-521, one by a security key, and a user's without extensions.
        if it.name.startswith(P521.decode()) or it.form.startswith("sk-") or not (it.is_host or it.extensions):
            continue
        by, asks = words[it.form.encode()]
        options = [(b"--type", it.name.encode()), (b"--kind", b"host" if it.is_host else b"client"), (b"--after", b"%d" % it.valid_after),
                   (b"--before", b"%d" % it.valid_before), (b"--serial", b"%d" % it.serial), (b"--id", it.key_id.encode()),
                   (b"--algorithm", by), *((b"--principal", name.encode()) for name in it.principals)]
        for option, pairs in ((b"--critical", it.critical_options), (b"--extension", it.extensions)):
            options += [(option, name.encode() + (b"=" + payload[4:] if payload else b"")) for name, payload in reversed(pairs)]
        key = f"{row['public_key']} {row['comment']}\n".encode()
        asked = Asked(tuple(options), row["issuer"].encode(), key, it.nonce)
        name, line = f"ssh-keygen's certificate of {row['name']}", row["line"].encode().rstrip() + b"\r\n"
        yield from signed_calls(name, asked, it.signed, asks, it.issuer, line, it.signature[4:])


# ---- reasons

GOOD = Asked(asking(ED25519), line_of(ISSUERS[ED25519], b""), line_of(KEYS[ED25519], b"k"))


def replaced(option, value):
    """Other options: with this value of an option, at its place or last; without it where the value is None."""
    def change(it):
        given = {**{pair[0]: pair for pair in it.options}, option: value and (option, value)}
        return it._replace(options=tuple(filter(None, given.values())))
    return change


def both(*changes):
    def change(it):
        for one in changes:
            it = one(it)
        return it
    return change


# What is wrong, in the order of the header.
ORDER = (
    ("WordNotUtf8", lambda it: it._replace(options=(*it.options, (b"\xff",)))),
    ("IssuerNotUtf8", lambda it: it._replace(issuer=b"\xff")),
    ("TextNotUtf8", lambda it: it._replace(key=b"\xff")),
    ("answers.EndsInEntry", lambda it: it._replace(answers=b"\0")),
    ("BadWords", lambda it: it._replace(options=(*it.options, (b"--id",)))),
    ("issuer.public.UnknownKeyType", lambda it: it._replace(issuer=b"")),
    ("input.public.UnknownKeyType", lambda it: it._replace(key=b"")),
    ("CommentNotCarried", lambda it: it._replace(key=putty_public(render(KEYS[ED25519].public), b"a\rb"))),
    ("request.NoKeyType", replaced(b"--type", None)),
    ("request.UnsupportedCertificateKeyType", replaced(b"--type", b"ssh-rsa" + V01)),
    ("request.MissingCertificateType", replaced(b"--kind", None)),
    ("request.InvalidTime", both(replaced(b"--after", b"1"), replaced(b"--before", b"0"))),
    ("request.HostCertificateExtensions", both(replaced(b"--kind", b"host"), replaced(b"--extension", b"permit-pty"))),
    ("request.HostCertificateCriticalOptions", both(replaced(b"--kind", b"host"), replaced(b"--critical", b"verify-required"))),
    ("request.IncorrectSignatureAlgorithm", replaced(b"--algorithm", b"rsa-sha2-256")),
    ("FreshTooShort", lambda it: it._replace(fresh=it.fresh[:31])),
)


def of_the_order():
    """Each reason alone, and with all that come behind it."""
    for at, (wanted, change) in enumerate(ORDER):
        late = both(*(it for _, it in reversed(ORDER[at:])))(GOOD)
        for name, it in ((f"{wanted} alone", change(GOOD)), (f"{wanted} and what comes behind", late)):
            yield certify_by(name, it, wanted)
            if not wanted.startswith("answers."):
                yield draft(name, it, wanted)


def of_bad_words():
    words = [*GOOD.words(), b"--id", b"i", b"--principal", b"p"]
    for at, word in enumerate(words):
        for name, other in (("no UTF-8", b"\xff"), ("cut UTF-8", word + b"\xc3"), ("a surrogate", b"\xed\xa0\x80")):
            changed = GOOD._replace(options=((*words[:at], other, *words[at + 1:]),), issuer=b"", key=b"")
            yield from refused(f"word {at}, {name}", changed, "WordNotUtf8")
        if at % 2 == 0 or at < 4:
            for other in (word[:-1], word + b" ", word.upper(), b""):
                yield from refused(f"word {at}, {other!r}", GOOD._replace(options=((*words[:at], other, *words[at + 1:]),)), "BadWords")
        yield from refused(f"without word {at}", GOOD._replace(options=((*words[:at], *words[at + 1:]),)), "BadWords")
    once = {b"--type": ED25519 + V01, b"--kind": b"client", b"--after": b"0", b"--before": b"0", b"--serial": b"1", b"--id": b"a",
            b"--algorithm": b"ed25519"}
    bad = [(option, value, option, value) for option, value in once.items()]
    bad += [(b"--serial", it) for it in (b"", b"00", b"01", b"+1", b"-1", b" 1", b"1 ", b"0x1", b"1a", b"%d" % 2**64, b"9" * 30, b"\xd9\xa1")]
    bad += [(b"--algorithm", it) for it in (b"", b"ed2551", b"ssh-ed25519", b"ED25519", b"rsa-sha2-384")]
    bad += [(b"--critical", it) for it in (b"", b"=", b"no-such", b"no-such=a", b"force-command =a", b"permit-pty")]
    bad += [(b"--extension", it) for it in (b"", b"=", b"=a")]
    bad += [(b"--valid", b"1"), (b"-I", b"i"), (b"id", b"i"), (b"--id=i",), (b"", b""), (b"--id",)]
    for words in bad:
        options = tuple(it for it in GOOD.options if it[0] not in words) if len(words) > 1 else GOOD.options
        yield from refused(f"the words {words}", GOOD._replace(options=(*options, words)), "BadWords")


def of_texts_that_mean_no_key():
    faults = {f"private.{name}": text for name, (text, passphrase) in private_faults().items() if not passphrase}
    faults.update((f"public.{name}", text) for name, text in public_faults().items())
    faults.update((f"putty.{name}", text) for name, (text, passphrase) in putty_faults().items() if not passphrase)
    faults["cert.Base64DecodeError"] = b"ssh-ed25519-cert-v01@openssh.com AAAA* k\n"
    rows = [(f"cert.{re.match(r'[A-Za-z0-9_]+', row['why'])[0]}", row["body"]) for row in rows_of("picky_cert_rows", "CertFault")]
    for name, text in [*faults.items(), *((name, f"ssh-ed25519-cert-v01@openssh.com {body} k\n".encode()) for name, body in rows)]:
        yield from refused("an issuer", GOOD._replace(issuer=text), f"issuer.{name}")
        yield from refused("a key", GOOD._replace(key=text), f"input.{name}")
    # A text that isn't UTF-8 is refused as such, whatever stands in front.
    yield from refused("an issuer's line, and more", GOOD._replace(issuer=GOOD.issuer + b"\xff"), "IssuerNotUtf8")
    yield from refused("a key's line, and more", GOOD._replace(key=GOOD.key + b"\xff"), "TextNotUtf8")


def of_requests():
    """What is refused of each type, kind of issuer, time and number of fresh bytes."""
    for name in CERT_TYPES:
        for kind, key in KEYS.items():
            if MADE.get(name) != kind:
                it = GOOD._replace(options=asking(name), key=line_of(key, b"k"))
                yield from refused(f"{name.decode()} for {kind.decode()}", it, "request.UnsupportedCertificateKeyType")
    for kind, issuer in ISSUERS.items():
        for by in (None, *ALGORITHMS):
            if ALGORITHMS[by or OWN[ED25519]][0] != kind:
                it = replaced(b"--algorithm", by)(GOOD._replace(issuer=line_of(issuer, b"")))
                yield from refused(f"{kind.decode()} by {by}", it, "request.IncorrectSignatureAlgorithm")
    for after, before in ((None, b"1"), (b"0", None), (None, None), (b"1", b"0"), (b"%d" % LAST, b"%d" % (LAST - 1))):
        it = both(replaced(b"--after", after), replaced(b"--before", before))(GOOD)
        yield from refused(f"valid from {after} to {before}", it, "request.InvalidTime")
    for count in (0, 1, 31):
        yield from refused(f"{count} fresh bytes", GOOD._replace(fresh=NONCE[:count]), "FreshTooShort")


def of_answers():
    """Answers that are no table."""
    for name, answers, wanted in (("one byte", b"\0", "EndsInEntry"), ("a head alone", string(b"\6\3\0" + string(b"")), "EndsInEntry"),
                                  ("a length past the end", uint32(5), "LengthPastEnd"),
                                  ("a head of no question", string(b"\x09") + string(b"") + string(b""), "NoQuestion"),
                                  ("an algorithm that there isn't", entry(b"\3\1", b"", b"", b""), "NoQuestion")):
        yield certify_by(f"answers, {name}", GOOD._replace(answers=answers), f"answers.{wanted}")


def of_little_memory(long_line):
    """Calls for which there is too little memory: a text, or a word, that is too long for it."""
    for name, it in (("a long key", GOOD._replace(key=long_line)), ("a long issuer", GOOD._replace(issuer=long_line)),
                     ("a long word", GOOD._replace(options=(*GOOD.options, (b"--id", long_line))))):
        yield from refused(name, it, "NoMemory")


GROUPS = (of_kinds, of_words, of_ssh_keygen, of_the_order, of_bad_words, of_texts_that_mean_no_key, of_requests, of_answers)
