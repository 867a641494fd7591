"""Calls of the library for C about logins that are decided: what check/c_answers tries.

Nothing wanted comes from the project's own programs. Who gets in, and with which lines, says check/keypolicy/reference.py, over the
cases of check/policy and check/statuses; the fingerprint behind these lines, and the question whether an issuer's signature is good,
are laid out here by RFC 4251, section 5, and OpenSSH's PROTOCOL files.
"""
import functools
import itertools
import re
from typing import NamedTuple

from keypolicy import cases as keypolicy_cases
from libpicky.calls import Call, print_of, private_faults, public_faults, putty_faults
from lib.formats import ED25519, RSA, string, uint32
from keyinventory.sources import LINE
from lib.readers import Certificate, Refused, base64, cut, form_of
from lib.texts import ISSUER, KEYS, CERT_TYPES, SIGNATURES, SK_ECDSA, SK_ED25519, V01, certificate_nodes, fixed_key, line_text, render
from keypolicy.sources import AUTHORITY, CERT, FORCED, KEY, SOURCE, VERIFY, certificates, certified, critical_options, keys, line, marks, options
from keypolicy.sources import own_options, principals, rules, times
from keypolicy.random_sources import random_case
from keypolicy.reference import Denied, Outside, decide, entries_of, granted, is_text, moment_of, offered
from lib.vectors import rows_of

SEED, RANDOM, FEWEST = 20261202, 1500, 5000
LAST = 2**64 - 1
GOOD, BAD = b"\1", b"\0"
# Why a public key line is refused, by what the reference says of it; a text that is neither such a line nor a certificate's names no
# type of keys.
PUBLIC = {"first word": "UnknownKeyType", "form": "UnknownKeyType", "name": "UnknownKeyType", "base64": "Base64DecodeError",
          "short": "IoError", "not UTF-8": "InvalidUtf8", "length": "KeyError"}


class Given(NamedTuple):
    """What a login is given, without the answers."""
    authorized: bytes
    offer: bytes
    user: bytes = b"me"
    moment: int = 5


def decide_by(name, given, answers, wanted, number="Ok"):
    return Call(name, "decide_by", (*given, answers), wanted, number)


# ---- what is asked, and what answers it

def question(key, form, signature, message):
    """Operation 7: the key's blob, the signature as a string and what belongs to it, and the text that is signed."""
    return string(b"\7" + string(key) + string(string(form) + signature)) + string(message)


def question_of(certificate):
    return question(certificate.issuer, certificate.form.encode(), certificate.signature, certificate.signed)


def entry(asked, answer):
    return asked + string(answer)


def key_line(offer):
    return b"key " + print_of(offer.key if isinstance(offer, Certificate) else offer.blob) + b"\n"


# ---- what the reference says

def refusal(offer, cause):
    """The reason why a text is no offer; none of a certificate's line, which has the reasons of its parts."""
    return None if form_of(offer.decode())[0] == "certificate" else f"input.public.{PUBLIC[cause]}"


def denied(name, given, answers, why, offer):
    return decide_by(name, given, answers, b"deny %b\n" % why.encode() + key_line(offer), f"denied.{why}")


def login(name, given):
    """The calls of a login whose texts are UTF-8: without answers, and with both to its question, where it has one."""
    try:
        offer = offered(given.offer.decode())
    except Refused as refused:
        wanted = refusal(given.offer, refused.args[0])
        if wanted:
            yield decide_by(name, given, b"", wanted)
        return
    words = entries_of(given.authorized.decode()), offer, given.user.decode(), given.moment
    try:
        yield decide_by(name, given, b"", granted(*decide(*words, None)) + key_line(offer))
    except Denied as why:
        yield denied(name, given, b"", why.args[0], offer)
    except Outside:
        asked = question_of(offer)
        yield decide_by(f"{name}, asked", given, b"", asked, "Asked")
        yield decide_by(f"{name}, good", given, entry(asked, GOOD), granted(*decide(*words, offer.signed)) + key_line(offer))
        yield denied(f"{name}, bad", given, entry(asked, BAD), "BadSignature", offer)


def given_of(case):
    """What a case of keypolicy gives, where that decides: its source is cut as keypolicy cuts it."""
    words = tuple(it if isinstance(it, bytes) else it.encode() for it in case.words)
    if len(words) != 3 or words[0] != b"decide" or moment_of(words[2]) is None or not isinstance(case.source, bytes):
        return None
    if not is_text(words[1]) or not is_text(case.source) or getattr(case, "device", None):
        return None
    return Given(*[it.encode() for it in cut(case.source.decode())], words[1], moment_of(words[2]))


def cases():
    """Cases of keypolicy: all whose rules are the subject, and some of those about how a line or a certificate is read."""
    groups = keypolicy_cases
    for group in (groups.keys, groups.certificates, groups.critical, groups.signatures, groups.bad_offers, groups.outside_faults, rules,
                  times, principals, critical_options, own_options, marks):
        yield from group()
    for group, step in ((options, 3), (keys, 5), (certificates, 5)):
        yield from itertools.islice(group(), 0, None, step)
    yield from (random_case(SEED, number) for number in range(RANDOM))


@functools.lru_cache(1)
def calls_of_cases():
    """The calls of each case, none twice; they are made once for all libraries."""
    calls, seen = [], set()
    for case in cases():
        given = given_of(case)
        if given and given not in seen:
            seen.add(given)
            calls += login(case.name, given)
    decided = {call.given[:4] for call in calls}
    assert len(decided) >= FEWEST, f"{len(decided)} logins"
    return calls


def of_the_reference():
    yield from calls_of_cases()


# ---- what keypolicy can't be asked

MARKED = (b"%%\n", b"%%\r\n", b"%%", b"x\n%%\n", b"%%\n%%\n#\n")


def of_marks():
    """A line %% cuts nothing: in authorized keys it is a line without a key, and it may stand behind an offer or in a user's name."""
    file = line(ISSUER, AUTHORITY + b",a")
    for mark, offer in itertools.product(MARKED, (LINE, CERT.line, line(ISSUER))):
        for texts in ((mark, LINE), (LINE, mark), (mark, file), (file, mark), (mark,)):
            yield from login(f"{mark} in the file {texts[0][:9]}", Given(b"".join(texts), offer))
        for keys_of in (LINE, file, b""):
            yield from login(f"{mark} behind the offer", Given(keys_of, offer + mark + LINE))
            yield decide_by(f"{mark} before the offer", Given(keys_of, mark + offer), b"", "input.public.UnknownKeyType")
    for user in (b"%%", b"%%\n", b"a\n%%\nb"):
        for cert in (certified(principals=(user,)), certified(principals=(b"a",)), certified(principals=())):
            yield from login(f"the user {user}", Given(file, cert.line, user))
            yield from login(f"the user {user}, principals of the line", Given(line(ISSUER, AUTHORITY + b',principals="%%"'), cert.line, user))
        yield from login(f"the user {user}, a key", Given(line(options=b'a="%%"'), LINE, user))
    yield decide_by("all in one", Given(LINE + b"%%\n" + LINE, b""), b"", "input.public.UnknownKeyType")


def asked_of(nodes, blob):
    """The question of a certificate's nodes and its issuer's key: the bytes of its signature stand in it as they are."""
    return string(b"\7" + string(blob) + string(render(nodes[-1]))) + string(render(nodes[:-1]))


def of_questions():
    """The question of each type of certificates, each kind of issuer and each format of signatures, byte by byte, and its answers."""
    for (name, kind), issuer, form in itertools.product(CERT_TYPES.items(), KEYS.values(), SIGNATURES):
        if name == b"ssh-dss":
            continue
        nodes = certificate_nodes(name, KEYS[kind], issuer, form=form, critical=())
        given = Given(line(issuer, AUTHORITY), line_text(name + V01, nodes, b"k"), b"root")
        asked, key = asked_of(nodes, render(issuer.public)), b"key " + print_of(render(KEYS[kind].public)) + b"\n"
        told = f"{name.decode()} by {issuer.name.decode()} in {form.decode()}"
        yield decide_by(told, given, b"", asked, "Asked")
        yield decide_by(f"{told}, good", given, entry(asked, GOOD), b"grant 1\n" + key)
        yield decide_by(f"{told}, bad", given, entry(asked, BAD), b"deny BadSignature\n" + key, "denied.BadSignature")
    # The flags and the counter of a security key stand behind its signature (PROTOCOL.u2f); its length isn't compared with anything.
    signed = render(certificate_nodes(ED25519, KEY, ISSUER)[:-1])
    for form, (flags, counter, total) in itertools.product((SK_ECDSA, SK_ED25519), ((5, 0, 0), (255, 2**32 - 1, 1), (0, 1, 2**32 - 1))):
        signature = string(form) + string(b"s" * 64) + bytes([flags]) + uint32(counter)
        text = line_text(ED25519 + V01, [signed, uint32(total), signature, b"more"], b"k")
        asked = string(b"\7" + string(render(ISSUER.public)) + string(signature)) + string(signed)
        yield decide_by(f"{form.decode()}, {flags}, {counter}", Given(line(ISSUER, AUTHORITY), text), b"", asked, "Asked")
    # An issuer's number with zeros in front stands in the question in its one spelling, and is signed as it stands.
    key = KEYS[RSA]
    nodes = certificate_nodes(ED25519, KEY, key)
    nodes[-2] = [*key.public[:2], [b"\0\0" + key.public[2][0]], b"rest"]
    text = line_text(ED25519 + V01, nodes, b"k")
    yield decide_by("an issuer's zeros", Given(line(key, AUTHORITY), text), b"", asked_of(nodes, render(key.public)), "Asked")


def of_the_lines():
    """All lines of a grant, in their order, and that a key isn't asked about."""
    file = b"# c\n\n" + line(ISSUER, b'Restrict,cert-authority,COMMAND="say \\"a\\"",principals="me",x=""')
    cert = certified(critical=((VERIFY, None), (SOURCE, b"::1,10.0.0.0/8"), (FORCED, "\u00e9".encode())), extensions=((b"permit-pty", None),))
    wanted = b"".join([
        b"grant 3\ncommand ", base64("\u00e9".encode()), b"\nsource ", base64(b"::1,10.0.0.0/8"), b"\nverify-required\noption restrict\n",
        b"option command ", base64(b'say "a"'), b"\noption x \nkey ", print_of(render(KEY.public)), b"\n"])
    yield decide_by("all lines", Given(file, cert.line), entry(question_of(offered(cert.line.decode())), GOOD), wanted)
    for kind, key in KEYS.items():
        wanted = b"grant 1\noption no-pty\nkey " + print_of(render(key.public)) + b"\n"
        for answers in (b"", entry(question_of(offered(CERT.line.decode())), BAD)):
            yield decide_by(f"a key of {kind.decode()}", Given(line(key, b"no-pty"), line(key), b"", LAST), answers, wanted)


# ---- answers

def of_tables():
    """Answers that are none, are another question's, or come twice: the first answer to the question counts."""
    given, offer = Given(line(ISSUER, AUTHORITY), CERT.line), offered(CERT.line.decode())
    blob, form, signature, signed = offer.issuer, offer.form.encode(), offer.signature, offer.signed
    asked, key = question_of(offer), key_line(offer)
    good, bad = (b"grant 1\ncommand dHJ1ZQ==\n" + key, "Ok"), (b"deny BadSignature\n" + key, "denied.BadSignature")
    for answer in (b"", b"\1\1", b"\0\1", b"\1" * 80, b"\0" * 300):
        yield decide_by(f"an answer of {len(answer)} bytes", given, entry(asked, answer), "answers.WrongLength")
    for byte in range(2, 256):
        yield decide_by(f"the byte {byte}", given, entry(asked, bytes([byte])), "answers.UnknownByte")
    wanted = {GOOD: good, BAD: bad, b"": ("answers.WrongLength",), b"\2": ("answers.UnknownByte",)}
    for first, second in itertools.product(wanted, repeat=2):
        yield decide_by(f"{first}, then {second}", given, entry(asked, first) + entry(asked, second), *wanted[first])
    whole = string(form) + signature
    others = [question(render(KEY.public), form, signature, signed), question(blob, RSA, signature, signed),
              question(blob, form, signature[:-1] + b"\xff", signed), question(blob, form, signature, signed[:-1]),
              question(blob, form, signature, signed + b"\0"), question(blob, form, signature, b""),
              string(b"\1" + uint32(32) + uint32(16) + string(b"salt")) + string(signed), string(b"\6\3\0" + string(blob)) + string(signed),
              *(string(bytes([number]) + string(blob) + string(whole)) + string(signed) for number in (3, 4, 5))]
    for (at, other), answer in itertools.product(enumerate(others), (GOOD, BAD, b"", b"\2", b"more")):
        yield decide_by(f"another question {at}, answered {answer}", given, entry(other, answer), asked, "Asked")
        yield decide_by(f"{answer} to another question {at} in front", given, entry(other, answer) + entry(asked, GOOD), *good)
        yield decide_by(f"{answer} to another question {at} behind", given, entry(asked, BAD) + entry(other, answer), *bad)
    fields = string(blob) + string(whole)
    heads = [b"", b"\7", b"\7" + string(blob), b"\7" + fields[:-1], b"\7" + fields + b"\0",
             *(bytes([number]) + fields for number in (0, 1, 2, 6, 8, 9, 127, 255))]
    for head in heads:
        yield decide_by(f"a head of {len(head)} bytes, {head[:1]}", given, string(head) + string(signed) + string(GOOD), "answers.NoQuestion")
    yield from cuts(given, entry(asked, GOOD), good)


def cuts(given, whole, good):
    """A table of one entry that is cut at each byte: in a string's length or before it, or in its bytes."""
    lengths, at = set(), 0
    while at < len(whole):
        lengths |= set(range(at, at + 4))
        at += 4 + int.from_bytes(whole[at:at + 4], "big")
    for end in range(1, len(whole)):
        wanted = "answers.EndsInEntry" if end in lengths else "answers.LengthPastEnd"
        yield decide_by(f"a table cut at {end}", given, whole[:end], wanted)
        if end in (1, 4, 9, len(whole) - 1):
            yield decide_by(f"a table and one cut at {end}", given, whole + whole[:end], wanted)
            yield decide_by(f"a key, and a table cut at {end}", Given(LINE, LINE), whole[:end], wanted)
            yield decide_by(f"no offer, and a table cut at {end}", Given(LINE, b""), whole[:end], wanted)
    yield decide_by("a table of two entries", given, whole * 2, *good)


# ---- reasons

def of_refusals():
    for name, text in public_faults().items():
        yield decide_by(f"an offer: {name}", Given(LINE, text), b"", f"input.public.{name}")
    faults = [("Base64DecodeError", b"ssh-ed25519-cert-v01@openssh.com AAAA* k\n")]
    faults += [(re.match(r"\w+", row["why"])[0], f"ssh-ed25519-cert-v01@openssh.com {row['body']} k\n".encode())
               for row in rows_of("picky_cert_rows", "CertFault")]
    for name, text in faults:
        yield decide_by(f"an offer: {name}", Given(LINE, text), b"", f"input.cert.{name}")
    for text in (*[it for it, _ in (*private_faults().values(), *putty_faults().values())], b"", b"\n" + LINE, b" " + LINE, b"a " + LINE):
        yield decide_by(f"no offer: {text[:30]}", Given(LINE, text), b"", "input.public.UnknownKeyType")
    # A line that isn't read is none.
    for text in public_faults().values():
        yield from login(f"no line: {text[:30]}", Given(text + LINE, LINE))


def of_the_order():
    """Reasons that stand together: the first in the header's order is answered. An answer is judged where it is asked for."""
    broken = (b"\xff", b"\xc3", b"\xed\xa0\x80", b"\xf4\x90\x80\x80", b"\xc0\x80")
    for bad in broken:
        for words, wanted in (((bad, bad, bad), "AuthorizedNotUtf8"), ((LINE, bad, bad), "OfferNotUtf8"), ((LINE, LINE, bad), "UserNotUtf8"),
                              ((LINE, LINE + bad, b"me"), "OfferNotUtf8"), ((b"#" + bad + b"\n" + LINE, LINE, b"me"), "AuthorizedNotUtf8")):
            yield decide_by(f"{bad} in {wanted}", Given(*words), b"\0", wanted)
    for answers, wanted in ((b"\0", "answers.EndsInEntry"), (uint32(5), "answers.LengthPastEnd"), (string(b"\x09"), "answers.NoQuestion")):
        for given in (Given(LINE, b"x"), Given(LINE, LINE), Given(b"", b""), Given(line(ISSUER, AUTHORITY), CERT.line)):
            yield decide_by(f"{given.offer[:20]}, {answers}", given, answers, wanted)
    yield decide_by("no offer, a table", Given(LINE, b"x"), entry(question_of(offered(CERT.line.decode())), b""), "input.public.UnknownKeyType")
    broken = {"NoAuthority": {"issuer": fixed_key(ED25519, b"another")}, "NotClient": {"kind": 2}, "NotYet": {"after": 6},
              "Expired": {"before": 5}, "Principal": {"principals": (b"you",)}, "CriticalOption": {"critical": ((VERIFY, b""),)}}
    for why, fields in broken.items():
        text = certified(**fields).line
        offer, given = offered(text.decode()), Given(line(ISSUER, AUTHORITY), text)
        for answer in (GOOD, BAD, b"", b"\2"):
            yield denied(f"{why}, answered {answer}", given, entry(question_of(offer), answer), why, offer)
    for moment in (0, 1, 2**31, 2**32, 2**63, LAST):
        yield from login(f"at {moment}", Given(line(ISSUER, AUTHORITY), certified(after=2**31, before=2**63).line, b"me", moment))
        yield from login(f"a key at {moment}", Given(LINE, LINE, b"me", moment))
    yield from login("nobody", Given(line(ISSUER, AUTHORITY), certified(principals=(b"",)).line, b""))


GROUPS = (of_the_reference, of_marks, of_questions, of_the_lines, of_tables, of_refusals, of_the_order)
