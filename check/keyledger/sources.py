"""The fixed sources that check/ledger tries: ledgers, issuers and requests, of which each part is changed.

A ledger that is read is printed again, so most cases have requests behind it that say what was read: one that is kept already, one
of a kept id with another line, and a new one.
"""
import itertools
from hashlib import shake_128
from typing import NamedTuple, Optional

from lib.formats import ED25519, RSA, putty_public, rows, uint32
from keyinventory.sources import LINE
from lib.texts import BLANKS, ISSUER, KEYS, LIMIT, MARK, MARKS, BROKEN_COMMENTS, CERT_TYPES, COMMENTS, CURVES, KEY_TYPES, SIGNATURES
from lib.texts import SK_ECDSA, SK_ED25519, TEXT_CHANGES, V01, all_changes, certificate_nodes, envelope_nodes, envelope_text, fixed_key
from lib.texts import letters_changed, line_text, ppk_text, render


class Case(NamedTuple):
    name: str
    words: tuple
    source: bytes
    # The values of KEYCONV_FRESH and KEYCONV_SIGNATURE.
    fresh: Optional[bytes] = None
    signature: Optional[bytes] = None
    # What standard input or output is where it isn't a file, or that memory is short.
    device: Optional[str] = None


def fresh(count):
    """The fresh bytes of so many requests, no two of which are the same."""
    return shake_128(b"fresh").digest(32 * count).hex().encode()


FRESH, SIGNATURE = fresh(8), shake_128(b"signature").digest(64).hex().encode()
LAST = 2**64 - 1


# ---- lines


def line(key=KEYS[ED25519], comment=b"k", end=b""):
    return line_text(key.name, key.public, comment, end)


KEY, CA = line(), line(ISSUER, b"ca", b"\n")


def request(name=b"new", kind=b"client", principals=b"me,you", after=b"5", before=b"10", key=KEY, end=b"\n"):
    return b" ".join((name, kind, principals, after, before, key)) + end


def base64(content):
    return b"".join(rows(content, 10**8))


def cert(serial=7, name=ED25519, key=None, issuer=ISSUER, comment=b"k", **fields):
    """A certificate's line, without its end. Its fields are no request's."""
    return line_text(name + V01, certificate_nodes(name, key or KEYS[CERT_TYPES[name]], issuer, serial=serial, **fields), comment, b"")


def entry(name=b"a", serial=7, asked=None, certified=None, end=b"\n"):
    asked = request(name, end=b"") if asked is None else asked
    return b" ".join((name, base64(asked), cert(serial) if certified is None else certified)) + end


def kept(serial, *entries):
    return b"next %d\n" % serial + b"".join(entries)


EMPTY, ENTRY = kept(1), entry()
ONE = kept(9, ENTRY)
# The kept line of ONE, another line of its id, and a new one.
THREE = request(b"a") + request(b"a", b"host") + request()


def asked(name, requests=THREE, ledger=ONE, issuer=CA, given=FRESH, signature=SIGNATURE):
    return Case(name, (), ledger + MARK + issuer + MARK + requests, given, signature)


def tried(name, requests, **more):
    """Requests to a ledger with an entry and, in the same run, once more behind themselves."""
    yield asked(name, requests, **more)
    yield asked(f"{name}, and again", requests + request(b"a") + requests, **more)


# ---- the ledger


NUMBERS = [it.encode() for it in (
    "0", "1", "7", "8", "9", "10", "18446744073709551615", "18446744073709551616", "18446744073709551614", "99999999999999999999",
    "100000000000000000000", "00", "08", "010", "+8", "-8", "-0", "", " 8", "8 ", "8\t", "8.0", "8e0", "0x8", "eight", "\u0668",
    "\u0661\u0660", "1_0", "1,000", "9" * 500, "1" + "0" * 19, "2" + "0" * 19, "8\0", "8\r", "\r8", "8\u00a0", "\uff18", "8 8", "8;",
    "9223372036854775807", "9223372036854775808", "4294967296", "4294967295",
)]
NEXT_WORDS = [it.encode() for it in ("next", "Next", "NEXT", "next ", " next", "nex", "nexts", "", "next\t", "\ufeffnext", "#next", "n",
                                     "serial", "next\u00a0", "next:", "next=", "\rnext", "next\r", "\0next")]


def first_lines():
    for number in NUMBERS:
        for entries in (b"", ENTRY, entry(serial=LAST - 1)):
            yield asked(f"next {number[:30]} before {len(entries)} bytes", ledger=b"next " + number + b"\n" + entries)
    for word, join, end in itertools.product(NEXT_WORDS, (b" ", b"  ", b"\t", b"", b"\n"),
                                             (b"\n", b"\r\n", b"", b" \n", b"\n\n", b"\r\r\n")):
        yield asked(f"{word + join}9{end}", ledger=word + join + b"9" + end)
        if end == b"\n":
            yield asked(f"{word + join}9{end} and an entry", ledger=word + join + b"9" + end + ENTRY)
    for ledger in (b"", b"\n", b"\r\n", b" \n", ENTRY, ENTRY + b"next 9\n", b"next 9\nnext 9\n", ONE + b"next 9\n", ONE + b"\n",
                   b"\n" + ONE,
                   b"next 9\n\n" + ENTRY, ONE + b" \n", ONE + b"\r\n", ONE + b"#\n", b"# a ledger\n" + ONE, ONE[:-1], ONE[:-1] + b"\r\n",
                   b"next 9", b"next 9\r", ONE.replace(b"\n", b"\r\n"), ONE.replace(b"\n", b"\r"), ONE.replace(b"\n", b"\n\r"),
                   ONE.replace(b"\n", b"\n\n"), ONE[:-1] + b" \n", ONE[:-1] + b"\0\n", ONE[:-1] + b"\v\n", b"next 9 " + ENTRY):
        yield asked(f"the ledger {ledger[:12]} of {len(ledger)} bytes", ledger=ledger)
        yield asked(f"the ledger {ledger[:12]} of {len(ledger)} bytes, no request", b"", ledger=ledger)


def letters():
    """Each of many letters of a ledger changed, and each change of a text."""
    for what, ledger in (("one", ONE), ("two", kept(9, ENTRY, entry(b"b", 8))), ("none", EMPTY)):
        for name, text in letters_changed(ledger):
            yield asked(f"{what}: {name}", ledger=text)
        for name, change in TEXT_CHANGES.items():
            yield asked(f"{what}: {name}", ledger=change(ledger))
            yield Case(f"{what}: {name}, the source", (), change(ledger + MARK + CA + MARK + THREE), FRESH, SIGNATURE)
            yield asked(f"{what}: {name}, the issuer", ledger=ledger, issuer=change(CA))
            yield asked(f"{what}: {name}, the requests", change(THREE), ledger)
    for name, text in letters_changed(THREE):
        yield asked(f"requests: {name}", text)
    for name, text in letters_changed(CA):
        yield asked(f"issuer: {name}", issuer=text)


def entry_words():
    """The three words of an entry and what parts them."""
    words = [b"a", base64(request(b"a", end=b"")), cert()]
    joins = (b"", b" ", b"  ", b"\t", b"\n", b"\r", b" \n", b"\v", "\u00a0".encode(), b" \t", b",")
    for first, second in itertools.product(joins, repeat=2):
        yield asked(f"{first} and {second} between the words", ledger=kept(9, words[0] + first + words[1] + second + words[2] + b"\n"))
    for front, end in itertools.product((b"", b" ", b"\t", b"\r"), (b"", b"\r", b" ", b"\t", b"\0", b"x", b" x", "\u00a0".encode(), b"\n")):
        yield asked(f"{front} in front and {end} behind", ledger=kept(9, front + b" ".join(words) + end + b"\n"))
    for count in range(4):
        for chosen in itertools.permutations(words, count):
            yield asked(f"the words {[word[:5] for word in chosen]}", ledger=kept(9, b" ".join(chosen) + b"\n"))
    for at, word in itertools.product(range(3), (b"", b"-", b"=", b"AAAA", b"a", b"ssh-ed25519", b"%%", "\u00e9".encode(), b"\0")):
        yield asked(f"{word} for word {at}", ledger=kept(9, b" ".join([*words[:at], word, *words[at + 1:]]) + b"\n"))
    for what, content in (("nothing", b""), ("a space", b" "), ("no UTF-8", b"\xff"), ("cut UTF-8", request(b"a", end=b"") + b"\xc3"),
                          ("a surrogate", request(b"a", end=b"") + b"\xed\xa0\x80"), ("another id", request(b"b", end=b"")),
                          ("a longer id", request(b"ab", end=b"")), ("the id in upper case", request(b"A", end=b"")),
                          ("no request", b"a client"), ("an issuer", CA[:-1]), ("another kind", request(b"a", b"user", end=b"")),
                          ("no key", b"a client me 5 10 x"), ("late", request(b"a", after=b"11", end=b"")),
                          ("no time", request(b"a", after=b"-", end=b"")), ("two requests", request(b"a") + request(b"a"))):
        yield asked(f"{what} for its request", ledger=kept(9, entry(asked=content)))
    text = base64(request(b"a", key=line(comment=b"ab"), end=b""))
    for what, new in (("as it is", text), ("no padding", text.rstrip(b"=")), ("a pad more", text + b"="), ("four pads", text + b"===="),
                      ("URL's letters", text.replace(b"+", b"-").replace(b"/", b"_")), ("cut", text[:-4]), ("one letter less", text[:-1]),
                      ("two pads for one", text.replace(b"=", b"==")),
                      ("bits behind the last", text.replace(b"A=", b"B=").replace(b"I=", b"J=")),
                      ("two lines", text[:40] + b"\r" + text[40:]), ("a tab in it", text[:40] + b"\t" + text[40:]),
                      ("hex", text.hex().encode())):
        yield asked(f"its request's base64 {what}", ledger=kept(9, b" ".join((b"a", new, cert())) + b"\n"))


# What a kept request line may have behind the end of its public line: it was never one of a source.
BEHIND = [it.encode() for it in ("\n", "\r", "\r\n", "\nmore", "\rmore", "\r\nx\ny", "\n" * 9, " ", "  ", "\t", "\u00a0", "\0", " \nx",
                                 "\n%%\n", "\v", "\u2028x", "\n" + request().decode())]


def kept_requests():
    """The requests of entries, and what is answered to them."""
    for behind in BEHIND:
        content = request(b"a", end=behind)
        for what, more in (("alone", b""), ("before others", THREE)):
            yield asked(f"{behind[:20]} behind a kept line, {what}", content + b"\n" + more, kept(9, entry(asked=content)))
            yield asked(f"{behind[:20]} behind a kept line, {what}, asked without", request(b"a") + more, kept(9, entry(asked=content)))
    for requested in request_lines():
        name = requested.split(b" ")[0]
        ledger = kept(9, name + b" " + base64(requested) + b" " + cert() + b"\n")
        yield asked(f"kept: {requested[:50]}", requested + b"\n" + THREE, ledger)
    for changed in (request(b"a", b"host"), request(b"a", principals=b"me"), request(b"a", principals=b"you,me"),
                    request(b"a", principals=b"-"), request(b"a", after=b"4"), request(b"a", before=b"11"),
                    request(b"a", key=line(comment=b"l")), request(b"a", key=line(comment=b"")), request(b"a", key=KEY + b" "),
                    request(b"a", key=KEY + b"  "), request(b"a", key=KEY + b"\t"), request(b"a", key=line(ISSUER)),
                    request(b"a", after=b"11"), request(b"A"), request(b"aa"), request(b"a", key=line(KEYS[SK_ED25519])),
                    request(b"a", key=line(KEYS[b"ecdsa-sha2-nistp521"])), request(b"a", key=KEY.replace(b"ssh-ed25519", b"ssh-rsa")),
                    request(b"a", key=line(comment=b" k")), request(b"a", key=KEY[:-2]), request(b"a", end=b"\r\n"),
                    request(b"a", key=KEY + b"\r", end=b"\n"), request(b"a", b"user"), request(b"a", key=b"x"),
                    request(b"a", after=b"05")):
        for ledger in (ONE, kept(LAST, ENTRY), kept(LAST, entry(serial=1))):
            yield asked(f"kept, and then {changed[:40]}", changed + request(b"a"), ledger)
            yield asked(f"kept, and then {changed[:40]}, nothing to sign with", changed + request(b"a"), ledger, signature=None)


def certificates():
    """Each field of a kept certificate."""
    for at, (name, kind) in enumerate(CERT_TYPES.items()):
        nodes = certificate_nodes(name, KEYS[kind], ISSUER, form=SK_ECDSA if name == b"ecdsa-sha2-nistp384" else RSA)
        for number, (what, changed) in enumerate(all_changes(nodes)):
            if name == ED25519 or number % 9 == at:
                yield asked(f"certificate {name.decode()} {what}",
                            ledger=kept(9, entry(certified=line_text(name + V01, changed, b"k", b""))))
    for what, nodes in all_changes(certificate_nodes(b"ecdsa-sha2-nistp384", KEYS[b"ecdsa-sha2-nistp384"], KEYS[RSA], form=SK_ED25519)):
        yield asked(f"certificate {what}", ledger=kept(9, entry(certified=line_text(b"ecdsa-sha2-nistp384" + V01, nodes, b"k", b""))))
    for name, kind in CERT_TYPES.items():
        for word in (*CERT_TYPES, b"ssh-dss"):
            nodes = certificate_nodes(name, KEYS[kind], ISSUER)
            yield asked(f"certificate {word} of {name}", ledger=kept(9, entry(certified=line_text(word + V01, nodes, b"k", b""))))
        for form, issuer in itertools.product(SIGNATURES, KEYS.values()):
            yield asked(f"{name}'s certificate {form} of {issuer.name}",
                        ledger=kept(9, entry(certified=cert(7, name, issuer=issuer, form=form))))
    for word in (b"ssh-ed25519", b"ssh-ed25519-cert-v00@openssh.com", b"SSH-ED25519" + V01, b"", b"x", V01):
        nodes = certificate_nodes(ED25519, KEYS[ED25519], ISSUER)
        yield asked(f"certificate {word}", ledger=kept(9, entry(certified=line_text(word, nodes, b"k", b""))))
        yield asked(f"certificate of {word}", ledger=kept(9, entry(certified=line_text(ED25519 + V01, [[word], *nodes[1:]], b"k", b""))))
    for comment in COMMENTS + BROKEN_COMMENTS:
        yield asked(f"a certificate's comment {comment[:20]}", ledger=kept(9, entry(certified=cert(comment=comment))))
    for name, text in letters_changed(cert()):
        yield asked(f"a certificate's {name}", ledger=kept(9, entry(certified=text)))
    for name, change in TEXT_CHANGES.items():
        yield asked(f"a certificate, {name}", ledger=kept(9, entry(certified=change(cert()))))
    whole = cert()
    for what, text in (("without a comment", whole[:-2]), ("with an empty one", whole[:-1]), ("with CR LF", whole + b"\r"),
                       ("a public line", KEY), ("PuTTY's", putty_public(render(KEYS[ED25519].public), b"k")), ("nothing", b"")):
        yield asked(f"a certificate {what}", ledger=kept(9, entry(certified=text)))
    # Nothing of it is compared with the request.
    for what, text in (("a host's", cert(kind=2)), ("another key's", cert(key=ISSUER)), ("RSA's", cert(name=RSA)),
                       ("another id's", cert(key_id=b"b")), ("an empty id's", cert(key_id=b"")),
                       ("principals", cert(principals=(b"", b"", b"a,b", b" "))), ("none", cert(principals=())),
                       ("options", cert(critical=((b"verify-required", None),) * 2, extensions=((b"", None), (b"x", [b"\xff"])))),
                       ("times", cert(after=9, before=0)), ("its own issuer's", cert(issuer=KEYS[ED25519])),
                       ("a short nonce", cert(nonce=b"")), ("a long nonce", cert(nonce=b"n" * 3000)),
                       ("a security key's issuer", cert(issuer=KEYS[SK_ED25519], form=SK_ED25519))):
        yield asked(f"a certificate with {what}", ledger=kept(9, entry(certified=text)))


def serials():
    """Which serials a ledger may have, and how its next one stands to them."""
    for serial, following in itertools.product((0, 1, 2, 6, 7, 8, 9, 2**32 - 1, 2**32, 2**63 - 1, 2**63, LAST - 2, LAST - 1, LAST),
                                               (0, 1, 2, 7, 8, 9, 2**32, 2**63, LAST - 1, LAST)):
        yield asked(f"serial {serial} before {following}", ledger=kept(following, entry(serial=serial)))
        for second in (serial - 1, serial, serial + 1, LAST - 1):
            if 0 <= second <= LAST and following > 7:
                yield asked(f"serials {serial} and {second} before {following}",
                            ledger=kept(following, entry(serial=serial), entry(b"b", second)))
    for many in ((1, 2, 3), (3, 2, 1), (1, 3, 2), (2, 2, 3), (1, 3, 8), (1, 2, 2), (0, 1, 2), (1, 2, 9), (8, 9, 10)):
        yield asked(f"serials {many}", ledger=kept(9, *(entry(b"a%d" % at, serial) for at, serial in enumerate(many))))
    for names in itertools.product((b"a", b"b", b"A", b"aa", "\u00e4".encode(), "a\u0308".encode()), repeat=2):
        yield asked(f"ids {names}", ledger=kept(9, *(entry(name, 1 + at) for at, name in enumerate(names))))
        yield asked(f"ids {names}, one between", ledger=kept(9, entry(names[0], 1), entry(b"c", 2), entry(names[1], 3)))
    twice = kept(9, ENTRY, ENTRY.replace(b"a ", b"b ", 1))
    for what, ledger in (("a request twice", twice), ("an entry twice", kept(9, ENTRY, ENTRY)), ("a bad line behind", ONE + b"x\n"),
                         ("a bad line between", kept(9, ENTRY, b"x\n", entry(b"b", 8))), ("a bad line first", kept(9, b"x\n", ENTRY)),
                         ("one request of two ids", kept(9, entry(b"a", 7), entry(b"b", 8, request(b"a", end=b""))))):
        yield asked(what, ledger=ledger)


# ---- requests

# All white space of Unicode, what is near it, and other letters.
WHITE = (
    "\t\n\v\f\r \x85\xa0\u1680\u2000\u2001\u2002\u2003\u2004\u2005\u2006\u2007\u2008\u2009\u200a\u2028\u2029\u202f\u205f\u3000"
)
NEAR = (
    "\0\1\x08\x0e\x1b\x1c\x1d\x1e\x1f!\x7f\x80\x84\x86\x9f\xa1\u00ad\u0660\u167f\u1681\u180e\u1fff\u200b\u200c\u200d\u200e"
    "\u2010\u2027\u202a\u202e\u2030\u205e\u2060\u2063\u2fff\u3001\ufeff\ufffd\uffff\U0001f511\U000e0020\U0010ffff"
)
IDS = [it.encode() for it in (
    "a", "b", "A", "0", "-", "--", "--help", "%", "%%", "%%%", "next", "bad", "issued", "client", "host", "=", "==", ",", "a,b", "#",
    "#a", "\"", "\"a\"", "\\",
    "'", "/etc/passwd", "user@example.org", "r1", "r01", "18446744073709551616", "ssh-ed25519", "\u00e9", "e\u0301", "\u4e2d", "x" * 500,
    "\u00e9" * 300, "a.b", "a:b", "a;b", "a|b", "<a>", "{}", "$a", "`a`", "a*", "a?", "~", "^", "a" + NEAR[0],
)]
KINDS = [it.encode() for it in ("client", "host", "Client", "HOST", "user", "", "clients", "clien", "hosts", "hos", "1", "2", "0",
                                "client,host", "-", "client\t", "host\0", "\u0441lient", "client\u00a0", "CLIENT", "h", "c", "client\r")]
PRINCIPALS = [it.encode() for it in (
    "-", "", "a", "a,b", "a,a", ",", ",,", ",a", "a,", "a,,b", "a,b,", "-,-", "-,a", "a,-", "--", "-a", "a-", "%%", "*", "\u00e9,\u00e8",
    "a\tb", "a\rb", "a\u00a0b", "\t", "\r", "\u00a0", "\0", "a;b", "a\\,b", "\"a,b\"", "\"", "x" * 3000,
    ",".join("p%d" % at for at in range(500)), "root", "1", "a.b@c", "\ufeff", "client", "a\vb", "a\u2028b", "\uff0c", "a\uff0cb", "a=b",
    "#",
)]
SPACES = [it.encode() for it in ("", "  ", "\t", " \t", "\t ", "   ", "\v", "\f", "\r", "\n", "\u00a0", "\u3000", "\u2028", "\x85", "\0",
                                 "\ufeff", " \r", ",", "\\ ", "\x1c")]


def request_lines():
    """Lines that are requests, without their ends."""
    for name in IDS[:40]:
        yield request(name, end=b"")
    for kind, key in itertools.product((b"client", b"host"), KEYS.values()):
        yield request(b"a", kind, key=line(key), end=b"")
    for principals in (b"-", b"a", b"a,b", b"-,-", b"a,a", "\u00e9".encode(), b"x" * 999):
        yield request(b"a", principals=principals, end=b"")
    for after, before in ((0, 0), (9, 5), (0, LAST), (LAST, 0), (LAST, LAST), (2**63, 2**63 + 1)):
        yield request(b"a", after=b"%d" % after, before=b"%d" % before, end=b"")
    for comment in (b"", b"a b", b" x", b"\tx", b"\"", "\u00e9".encode(), b"%%", b"x" * 999):
        yield request(b"a", key=line(comment=comment), end=b"")
    yield request(b"a", key=KEY[:-2], end=b"")


def ids():
    for letter in WHITE + NEAR:
        for name in (letter, f"a{letter}", f"{letter}a", f"a{letter}b", letter * 3):
            yield from tried(f"the id {name!r}", request(name.encode()))
    for name in (*IDS, b""):
        for requests in (request(name), request(name, b"host", b"-"), request(name, after=b"11"), request(name) + request(name),
                         request(name) + request(name, b"host") + request(name)):
            yield asked(f"the id {name[:30]}, {len(requests)} bytes", requests)
        yield asked(f"the id {name[:30]}, kept", request(name) + THREE, kept(9, entry(name)))
        yield asked(f"the id {name[:30]}, full", request(name) + THREE, kept(LAST))
    for first, second in itertools.product((b"a", b"A", b"aa", b"b", "\u00e9".encode(), "e\u0301".encode()), repeat=2):
        yield asked(f"the ids {first} and {second}", request(first) + request(second), EMPTY)


def words():
    """The words of a request, each changed, and what parts them."""
    for kind in KINDS:
        yield from tried(f"the kind {kind}", request(kind=kind))
    for principals, kind in itertools.product(PRINCIPALS, (b"client", b"host")):
        yield from tried(f"a {kind}'s principals {principals[:30]}", request(kind=kind, principals=principals))
    for number in NUMBERS:
        yield from tried(f"after {number[:30]}", request(after=number, before=b"%d" % LAST))
        yield from tried(f"before {number[:30]}", request(after=b"0", before=number))
        yield asked(f"both {number[:30]}", request(after=number, before=number))
    parts = request(end=b"").split(b" ")
    for at, space in itertools.product(range(1, len(parts)), SPACES):
        front, rest = b" ".join(parts[:at]), b" ".join(parts[at:])
        for what, text in (("in place of", front + space + rest), ("before", front + space + b" " + rest),
                           ("behind", front + b" " + space + rest)):
            yield asked(f"{space} {what} the space {at}", text + b"\n" + THREE)
    for space in SPACES:
        yield asked(f"{space} in front", space + THREE)
        yield asked(f"{space} behind", request(end=space) + THREE)
        yield asked(f"{space} alone", space + b"\n" + THREE)
        yield asked(f"{space} alone, at the end", THREE + space)
    for count in range(len(parts)):
        yield asked(f"the first {count} words", b" ".join(parts[:count]) + b"\n" + THREE)
        yield asked(f"the first {count} words and a space", b" ".join(parts[:count]) + b" \n" + THREE)
        yield asked(f"without word {count}", b" ".join(parts[:count] + parts[count + 1:]) + b"\n" + THREE)
        yield asked(f"word {count} twice", b" ".join(parts[:count + 1] + parts[count:]) + b"\n" + THREE)
    for first, second in itertools.combinations(range(len(parts)), 2):
        swapped = list(parts)
        swapped[first], swapped[second] = swapped[second], swapped[first]
        yield asked(f"words {first} and {second} exchanged", b" ".join(swapped) + b"\n" + THREE)
    for name, text in letters_changed(request()):
        yield asked(f"a request's {name}", text)
    for name, change in TEXT_CHANGES.items():
        yield asked(f"a request, {name}", change(request()))
        yield asked(f"requests, {name}", change(request() + request(b"other", b"host", b"-")))


def times():
    edges = (0, 1, 4, 5, 6, 2**31, 2**32, 2**63 - 1, 2**63, LAST - 1, LAST)
    for after, before, kind in itertools.product(edges, edges, (b"client", b"host")):
        yield asked(f"a {kind}'s times {after} and {before}", request(kind=kind, after=b"%d" % after, before=b"%d" % before), EMPTY)


def subjects():
    """Subjects and issuers of each kind, and each field of them changed."""
    for (name, key), (by, issuer), kind in itertools.product(KEYS.items(), KEYS.items(), (b"client", b"host")):
        for times in ((b"5", b"10"), (b"10", b"5")):
            for ledger in (EMPTY, kept(LAST)):
                yield asked(f"a {kind} {name} of {by}, {times}, {ledger}", request(b"r", kind, b"-", *times, line(key)), ledger,
                            line(issuer, b"", b"\n"))
        yield asked(f"a {kind} {name} of {by}, nothing to sign with", request(b"r", kind, key=line(key)), EMPTY, line(issuer, b"", b"\n"),
                    signature=None)
    for name, key in KEYS.items():
        for number, (what, nodes) in enumerate(all_changes(key.public)):
            yield asked(f"subject {name} {what}", request(key=line_text(name, nodes, b"k", b"")), EMPTY)
            yield asked(f"issuer {name} {what}", issuer=line_text(name, nodes, b"k"), ledger=EMPTY)
            if number % 3 == 0:
                text = request(b"a", key=line_text(name, nodes, b"k", b""), end=b"")
                yield asked(f"kept subject {name} {what}", text + b"\n" + THREE, kept(9, entry(asked=text)))
        for word in (*KEY_TYPES, b"ssh-dss", b"", b"SSH-RSA", b"ssh-ed25519x", name + V01):
            yield asked(f"subject {word} of {name}", request(key=line_text(word, key.public, b"k", b"")), EMPTY)
            yield asked(f"issuer {word} of {name}", issuer=line_text(word, key.public, b"k"))
            yield asked(f"subject {word} in {name}", request(key=line_text(name, [[word], *key.public[1:]], b"k", b"")), EMPTY)
            yield asked(f"issuer {word} in {name}", issuer=line_text(name, [[word], *key.public[1:]], b"k"))
    for comment in COMMENTS + BROKEN_COMMENTS:
        for kind in (b"client", b"host"):
            yield from tried(f"a {kind}'s comment {comment[:20]}", request(kind=kind, key=line(comment=comment)))
        yield asked(f"an issuer's comment {comment[:20]}", issuer=line(ISSUER, comment, b"\n"))
        text = request(b"a", key=line(comment=comment), end=b"")
        yield asked(f"a kept comment {comment[:20]}", text + b"\n" + THREE, kept(9, entry(asked=text)))
    key = KEYS[ED25519]
    texts = {"a certificate": cert(comment=b"k"), "PuTTY's": putty_public(render(key.public), b"k"),
             "a private key": envelope_text(envelope_nodes(key, b"k")), "PuTTY's file": ppk_text(3, key, b"k"), "nothing": b"",
             "a name": ED25519, "a name and a space": ED25519 + b" ", "two lines": KEY + b"\n" + KEY, "no comment": KEY[:-2],
             "an empty comment": KEY[:-1], "options": b"no-pty " + KEY, "base64 alone": KEY.split(b" ")[1]}
    for what, text in texts.items():
        yield asked(f"{what} for a subject", request(key=text))
        yield asked(f"{what} for an issuer", issuer=text)
        yield asked(f"{what} for an issuer, and LF", issuer=text + b"\n")
        yield asked(f"{what} behind the issuer", issuer=CA + text + b"\n")
    for blank in BLANKS:
        yield asked(f"{blank[:9]} for an issuer", issuer=blank)
        yield asked(f"{blank[:9]} before the issuer", issuer=blank + CA)
        yield asked(f"{blank[:9]} behind the issuer", issuer=CA + blank)
        yield asked(f"{blank[:9]} for requests", blank)
        yield asked(f"{blank[:9]} between requests", request(b"b") + blank + b"\n" + request(b"c"))
        yield asked(f"{blank[:9]} before requests", blank + THREE)
        yield asked(f"{blank[:9]} behind requests", THREE + blank)


def replies():
    """Several requests of a run: what each leaves for the next, and which fresh bytes it takes."""
    some = {"kept": request(b"a"), "conflict": request(b"a", b"host"), "new": request(), "new other": request(b"new", b"host"),
            "late": request(after=b"11"), "P-521": request(key=line(KEYS[b"ecdsa-sha2-nistp521"])), "bad": b"bad\n", "empty": b"\n"}
    for ledger in (ONE, kept(LAST - 1, ENTRY), kept(LAST, ENTRY), EMPTY):
        for count in (1, 2, 3):
            for chosen in itertools.product(some, repeat=count):
                if count < 3 or ledger != EMPTY and len(set(chosen)) > 1:
                    yield asked(f"{chosen} behind {ledger[:25]}", b"".join(some[what] for what in chosen), ledger)
    for what, text in some.items():
        for by in (CA, line(KEYS[SK_ED25519], b"", b"\n"), line(KEYS[SK_ECDSA], b"", b"\n"), b"x\n"):
            for ledger in (ONE, kept(LAST, ENTRY), b"next 0\n"):
                yield asked(f"{what} by {by[:20]}, {ledger[:25]}, nothing to sign with", text, ledger, by, signature=None)
                yield asked(f"{what} by {by[:20]}, {ledger[:25]}, no fresh bytes", text, ledger, by, None)
        yield asked(f"{what}, then a new one, nothing to sign with", text + request(b"last"), signature=None)
        yield asked(f"a new one, then {what}, nothing to sign with", request(b"first") + text, signature=None)


# ---- variables, the source, words and devices


def given():
    """What the two variables may be, over sources that take fresh bytes and a signature and others that don't."""
    texts = {"no request": b"", "one": request(), "two": request() + request(b"b"), "kept": request(b"a"),
             "kept and new": request(b"a") + request(),
             "bad": b"x\n", "bad and new": b"x\n" + request(), "empty and new": b"\n\r\n" + request() + b"\n", "late": request(after=b"11")}
    for (what, requests), count in itertools.product(texts.items(), (0, 1, 31, 32, 33, 63, 64, 65, 95, 96, 200)):
        yield asked(f"{what}, {count} fresh bytes", requests, given=FRESH[:2 * count])
        yield asked(f"{what}, {count} fresh bytes of zeros", requests, given=b"00" * count)
    shapes = [None, b"", b"0", b"00", b"0g", b"zz", b" 00", b"00 ", b"00\n", b"0x00", b"\xff", b"\xc3\xa9", "\u0660\u0660".encode(),
              b"--", b"0" * 63, b"A" * 64, b"a" * 64, b"aA" * 32, b"Ff" * 33, b"g" + b"0" * 63, b"0" * 63 + b"g", b"0" * 64 + b" ",
              b"0" * 64 + b"0", b"-0", b"+0", b"0_0_", b"00,00", b"1" * 60_000, b"1" * 60_001, b"00:00", b"\t", b"G0", b"`0", b"@0",
              b"/0", b":0", b"%%"]
    for value, (what, requests) in itertools.product(shapes, texts.items()):
        name = f"{what}, {(value or b'None')[:12]}.. of {len(value or b'')}"
        yield asked(f"{name} for fresh bytes", requests, given=value)
        yield asked(f"{name} for a signature", requests, signature=value)
        yield asked(f"{name} for both", requests, given=value, signature=value)
    for value in shapes:
        for source in (b"", b"x", b"\xff", MARK * 2, EMPTY + MARK + CA + MARK):
            yield Case(f"{source[:9]} with {(value or b'None')[:12]}", (), source, value, None)
            yield Case(f"{source[:9]} signed {(value or b'None')[:12]}", (), source, None, value)
    for count in (0, 1, 63, 64, 65, 256, 4096, 60_000):
        for issuer in KEYS.values():
            yield asked(f"a signature of {count} bytes by {issuer.name}", issuer=line(issuer, b"", b"\n"), signature=b"a7" * count)


def marks():
    for first, second in itertools.product(MARKS, (MARK, b"%%\r\n", *MARKS[2:12])):
        yield Case(f"{first} and {second}", (), ONE + first + CA + second + THREE, FRESH, SIGNATURE)
    for mark in MARKS:
        yield Case(f"{mark} second", (), ONE + MARK + CA + mark + THREE, FRESH, SIGNATURE)
        yield Case(f"{mark} second, behind no LF", (), ONE + MARK + CA[:-1] + mark + THREE, FRESH, SIGNATURE)
        yield asked(f"{mark} before the ledger", ledger=mark + ONE)
        yield asked(f"{mark} before requests", mark + THREE)
        yield asked(f"{mark} between requests", request(b"b") + mark + request(b"c"))
        yield asked(f"{mark} behind requests", THREE + mark)
        yield asked(f"{mark} for requests", mark)
        yield Case(f"{mark} alone", (), mark, FRESH, SIGNATURE)
        yield Case(f"{mark} twice", (), mark * 2, FRESH, SIGNATURE)
        yield Case(f"{mark} behind a ledger", (), ONE + mark, FRESH, SIGNATURE)
        yield Case(f"{mark} behind an issuer", (), ONE + MARK + CA + mark, FRESH, SIGNATURE)
        for end in (b"", b"\r"):
            bare = mark.rstrip(b"\r\n") + end
            yield Case(f"{bare} last of all", (), ONE + MARK + CA + bare, FRESH, SIGNATURE)
            yield Case(f"{bare} last of all, the first one", (), ONE + bare, FRESH, SIGNATURE)
    for count in range(5):
        for chosen in itertools.product((ONE, MARK, CA, THREE), repeat=count):
            if chosen.count(MARK) < 2 or count < 4:
                yield Case(f"{[it[:9] for it in chosen]}", (), b"".join(chosen), FRESH, SIGNATURE)
    for order in itertools.permutations((EMPTY, CA, request())):
        yield Case(f"the order {[it[:9] for it in order]}", (), MARK.join(order), FRESH, SIGNATURE)


def words_and_devices():
    source = ONE + MARK + CA + MARK + THREE
    for given in ((), (b"",), (b"list",), (b"--help", b"x"), (b"--help", b""), (b"x", b"--help"), (b"--help", b"--help"),
                  (b"--version", b"--help"), (b"-h",), (b"help",), (b"--Help",), (b"--help ",), (b"--version ",), (b"\xff",),
                  (b"--help\xff",), (b"--help", b"\xff"), (b"--",), (b"%%",), (b"apply",), (b"\xed\xa0\x80",), (b"x",) * 500,
                  (b"--helpp",), (b"--hel",), (b"--version", b"\xff"), (b"--help",), (b"--version",)):
        for fresh, signature in ((FRESH, SIGNATURE), (b"0", SIGNATURE), (FRESH, b"\xff"), (None, None)):
            yield Case(f"words {given[:3]}", given, source, fresh, signature)
    sources = {"done": source, "no request": ONE + MARK + CA + MARK, "bad input": b"x", "a bad ledger": b"x\n" + MARK + CA + MARK + THREE,
               "a bad issuer": ONE + MARK + b"x\n" + MARK + THREE, "no UTF-8": b"\xff", "nothing": b""}
    for (what, text), device in itertools.product(sources.items(),
                                                  ("a folder", "no standard input", "a full device", "no standard output")):
        for given in ((), (b"--help",), (b"--version",), (b"x",), (b"\xff",)):
            yield Case(f"{what} {given} with {device}", given, text, FRESH, SIGNATURE, device)
        yield Case(f"{what} with {device}, no fresh bytes", (), text, None, SIGNATURE, device)
        yield Case(f"{what} with {device}, no signature", (), text, FRESH, None, device)
        yield Case(f"{what} with {device}, no hex", (), text, b"0", SIGNATURE, device)
    for bad in (b"\xff", b"\xc3", b"\xc0\x80", b"\xed\xa0\x80", b"\xf4\x90\x80\x80", b"\x80", b"\xe2\x82", b"\xf0\x9f\x94"):
        for text in (bad + source, source + bad, ONE + bad + MARK + CA + MARK + THREE, ONE + MARK + bad + CA + MARK + THREE, b"x\n" + bad,
                     ONE + MARK + CA + MARK + bad + THREE, ONE + MARK + CA + MARK + request(bad), source[:-1] + bad + b"\n",
                     b"x" + MARK * 2 + bad):
            yield Case(f"{bad} in {len(text)} bytes", (), text, FRESH, SIGNATURE)
            yield Case(f"{bad} in {len(text)} bytes, no variables", (), text)
    for size, letter in ((LIMIT + 1, b"\n"), (LIMIT + 1, b"\xff"), (LIMIT + 4096, b"x")):
        yield Case(f"{size} bytes {letter}", (), letter * size, FRESH, SIGNATURE)
        yield Case(f"{size} bytes {letter}, no hex", (), letter * size, b"0", SIGNATURE)
    for size in (LIMIT - 1, LIMIT, LIMIT + 1):
        yield Case(f"{size} bytes, empty lines", (), source + b"\n" * (size - len(source)), FRESH, SIGNATURE)
        yield Case(f"{size} bytes, behind the issuer", (), ONE + MARK + CA + b"x" * (size - len(source) - 1) + b"\n" + MARK + THREE,
                   FRESH, SIGNATURE)
    yield Case("16,777,216 bytes in as much memory", (), source + b"\n" * (LIMIT - len(source)), FRESH, SIGNATURE, "little memory")
    yield Case("16,777,217 bytes in as much memory", (), source + b"\n" * (LIMIT + 1 - len(source)), FRESH, SIGNATURE, "little memory")


def large():
    """Many entries, many requests, and long parts of one."""
    for count in (1000, 10_000):
        entries = [entry(b"id-%d" % at, 2 * at + 1) for at in range(count)]
        ledger = kept(2 * count + 5, *entries)
        for at in (0, 1, count // 2, count - 1):
            name = b"id-%d" % at
            yield asked(f"{count} entries, {at} asked", request(name) + request(name, b"host") + request(), ledger)
        yield asked(f"{count} entries, the first again", THREE, ledger + entries[0])
        yield asked(f"{count} entries, the first id again", THREE, ledger + entry(b"id-0", 2 * count + 1))
        yield asked(f"{count} entries, the last twice", THREE, ledger + entries[-1])
        yield asked(f"{count} entries, a bad one last", THREE, ledger + b"x\n")
        yield asked(f"{count} entries, a serial too many", THREE,
                    ledger.replace(b"next %d" % (2 * count + 5), b"next %d" % (2 * count - 1)))
        yield asked(f"{count} entries, backwards", THREE, kept(2 * count + 5, *entries[::-1]))
    many = b"".join(request(b"r%d" % at, (b"host", b"client")[at % 2],
                            key=line(fixed_key(KEY_TYPES[at % 7], b"%d" % at))) for at in range(500))
    for what, requests in (("500 requests", many), ("500 requests twice", many * 2), ("500 bad ones", b"x\n" * 500),
                           ("one 500 times", request() * 500)):
        count = sum(bool(it) for it in requests.split(b"\n"))
        yield asked(what, requests, given=fresh(count))
        yield asked(f"{what}, a fresh byte too few", requests, given=fresh(count)[:-2])
        yield asked(f"{what}, nothing to sign with", requests, given=fresh(count), signature=None)
        yield asked(f"{what}, nearly full", requests, kept(LAST - 100, ENTRY), given=fresh(count))
    yield asked("100,000 empty lines", b"\r\n\n" * 50_000 + request())
    for size in (100_000, 2_000_000):
        modulus = line_text(RSA, [[RSA], [b"\1\0\1"], [b"\x7f" * size]], b"k", b"")
        names = b",".join([b"host-%d" % at for at in range(size // 12)])
        for what, requests in (("an id", request(b"x" * size)), ("principals", request(principals=names)),
                               ("a principal", request(principals=b"x" * size)), ("commas", request(principals=b"," * size)),
                               ("a time", request(after=b"9" * size)), ("a comment", request(key=line(comment=b"x" * size))),
                               ("blanks", request(key=KEY + b" " * size)), ("a kind", request(kind=b"c" * size)),
                               ("a modulus", request(key=modulus)), ("letters", b"x" * size), ("spaces", b" " * size)):
            yield asked(f"{what} of {size} bytes", requests + requests)
            content = requests.rstrip(b"\n")
            ledger = kept(9, b" ".join((content.split(b" ")[0], base64(content), cert())) + b"\n")
            yield asked(f"{what} of {size} bytes, kept", requests + request(), ledger)
        yield asked(f"an issuer of {size} bytes", issuer=modulus + b"\n")
        yield asked(f"an issuer's comment of {size} bytes", issuer=line(ISSUER, b"x" * size, b"\n"))
        yield asked(f"a kept certificate of {size} bytes", ledger=kept(9, entry(certified=cert(key_id=b"x" * size))))
        yield asked(f"a kept signature of {size} bytes", ledger=kept(9, entry(certified=cert(nonce=b"x" * size))))


GROUPS = (first_lines, letters, entry_words, kept_requests, certificates, serials, ids, words, times, subjects, replies, given, marks,
          words_and_devices, large)


def fixed_cases():
    """All, but none twice."""
    seen = set()
    for group in GROUPS:
        for case in group():
            what = case._replace(name="")
            if what not in seen:
                seen.add(what)
                yield case._replace(name=f"{group.__name__}: {case.name}")
