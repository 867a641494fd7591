"""What sshd of OpenSSH 9.2 does with a file of authorized keys, and the random files that check/policy_with_openssh tries.

`outcome(file, offer, rules)` is what keypolicy decides, changed by these rules: under none of them it is keypolicy's decision, and
under all of them sshd's. So the rules are what the two differ by, and a difference that they don't explain is a new one. Each rule
is a row of docs/DIFFERENCES.md.
"""
import base64
import datetime
import fnmatch
import getpass
import ipaddress
import random
import re
import socket
from typing import NamedTuple, Optional

from lib.formats import string
from lib.readers import KEY_TYPES, Fields, Refused, public_key, unbase64
from keypolicy.reference import front_of, options_of

# Each rule, and how its row of the table in docs/DIFFERENCES.md begins.
RULES = {
    "malformed": "a line with a known option of a malformed value",
    "twice": "a line with `command` or `from` twice",
    "unknown": "a line with an option that it doesn't know",
    "does": "it does what the options of a line say",
    "next": "if a line doesn't let in",
    "authority": "`cert-authority` may stand twice",
    "blanks": "spaces and tabs, one or more, part",
    "tab": "a tab, too, ends the base64",
    "name": "the name must be that of the blob",
    "sha2": "`rsa-sha2-256` and `rsa-sha2-512` are names",
    "white": "CR, VT and FF inside the base64",
    "NUL": "a line ends at NUL",
    "behind": "bytes behind the blob's last field",
    "numbers": "a number without the zero byte",
    "bytes": "a comment, or anything else, that isn't UTF-8",
    "empty": "empty options (`a,,b`",
    "principals": "a plain key's line with `principals`",
    "names": "a list of `principals` ends",
    "demands": "a certificate's `source-address` must be",
}
ALL = frozenset(RULES)
# Who logs in, and the command that a login asks for.
USER, OWN = getpass.getuser(), "echo asked"


class Offer(NamedTuple):
    """A key, or a certificate that no rule of its own denies, as who logs in offers it."""
    # The canonical blob of the key, or of the issuer's.
    blob: bytes
    is_certificate: bool = False
    principals: tuple = ()
    command: Optional[str] = None
    source: Optional[str] = None
    # Whether it is a user's, and valid now.
    is_valid: bool = True


# ---- a line

# Names of RSA keys to sshd, and short names, which it takes inside a blob alone, in either case.
SHA2, SHORT = ("rsa-sha2-256", "rsa-sha2-512"), {"rsa": "ssh-rsa", "ed25519": "ssh-ed25519"}


def blob_of(body, rules):
    """The canonical blob of some base64."""
    if not body.isascii():
        raise Refused("base64")
    fields = Fields(unbase64(body, "base64"))
    name = fields.text()
    if "numbers" in rules and name == "ssh-rsa":
        if any(fields.string()[:1] >= b"\x80" for _ in range(2)):
            raise Refused("a negative number")
    elif "numbers" in rules and name.startswith("ecdsa-") and fields.text() != name[-8:]:
        raise Refused("another curve")
    fields.at = 0
    inner = "ssh-rsa" if name in SHA2 else SHORT.get(name.lower())
    if "sha2" in rules and inner:
        fields = Fields(string(inner.encode()) + fields.content[4 + len(name):])
    key = public_key(fields)
    if "behind" in rules and fields.left():
        raise Refused("bytes behind")
    return key


def names(rules):
    return KEY_TYPES + SHA2 if "sha2" in rules else KEY_TYPES


def first_word(text, rules):
    return re.match(r"[^ \t]*" if "blanks" in rules else r"[^ \r\n]*", text)[0]


def key_at(text, rules):
    """The key of a public key line."""
    name = first_word(text, rules)
    if name not in names(rules):
        raise Refused("name")
    rest = text[len(name):]
    if "blanks" in rules:
        rest = rest.lstrip(" \t")
    elif rest[:1] != " ":
        raise Refused("no space")
    else:
        rest = rest[1:]
    body = re.match("[^ %s%s]*" % ("" if "white" in rules else r"\r", r"\t" if "tab" in rules else ""), rest)[0]
    if "white" in rules:
        body = re.sub(r"[\r\v\f]", "", body)
    key = blob_of(body, rules)
    if "name" in rules and string(b"ssh-rsa" if name in SHA2 else name.encode()) != key[:4 + key[3]]:
        raise Refused("another name")
    return key


FLAGS = {"restrict", "cert-authority"} | {prefix + name for prefix in ("", "no-") for name in (
    "port-forwarding", "agent-forwarding", "x11-forwarding", "touch-required", "verify-required", "pty", "user-rc")}


def is_time(text):
    return seconds_of(text) is not None


def seconds_of(text):
    """The moment of an expiry-time."""
    digits = re.fullmatch(r"(\d{8})(\d{4})?(\d\d)?(Z|UTC)?", text, re.I | re.A)
    if not digits or digits[3] and not digits[2]:
        return None
    try:
        moment = datetime.datetime.strptime("".join(filter(None, digits.groups()[:3])).ljust(14, "0"), "%Y%m%d%H%M%S")
    except ValueError:
        return None
    return moment.replace(tzinfo=datetime.timezone.utc).timestamp() or None


def is_port(text):
    return text == "*" or bool(re.fullmatch(r"\d{1,5}", text, re.A)) and 0 < int(text) < 65536


def is_place(text):
    found = re.fullmatch(r"(\[[^]]*\]|[^:]*):(.*)", text)
    return bool(found) and found[1] != "" and is_port(found[2])


# Whether the value of an option is one; what isn't here is any text.
FITS = {
    "expiry-time": is_time,
    "environment": lambda text: bool(re.match(r"[A-Za-z0-9_]+=", text)),
    "permitopen": is_place,
    "permitlisten": lambda text: is_port(text) if ":" not in text else is_place(text),
    "tunnel": lambda text: text.lower() == "any" or bool(re.fullmatch(r" *[+-]?\d+", text, re.A)) and 0 <= int(text) <= 0x7ffffffd,
}
VALUES = {"command", "principals", "from", *FITS}


def read(line, rules):
    """The options of a line and its key."""
    if first_word(line, rules) in names(rules):
        return [], key_at(line, rules)
    front = front_of(line)
    text = front
    if "empty" in rules:
        # Behind the last comma a blank comes, or sshd finds no key.
        text = re.sub(r'("(?:\\"|[^"])*")|,+(?=,|$)|^,+', lambda it: it[1] or "", text)
    options = options_of(text) if text or "empty" not in rules else []
    found = [name for name, _ in options]
    for name, value in options:
        if name in ("cert-authority", "principals") and (value is None) != (name == "cert-authority"):
            raise Refused("options")
        if "unknown" in rules and name not in FLAGS and name not in VALUES:
            raise Refused("unknown")
        if "malformed" in rules and (name in FLAGS and value is not None or name in VALUES and value is None or
                                     name in FITS and not FITS[name](value)):
            raise Refused("malformed")
        if found.count(name) > 1 and (name == "principals" or name == "cert-authority" and "authority" not in rules or
                                      name in ("command", "from") and "twice" in rules):
            raise Refused("twice")
    return options, key_at(line[len(front):].lstrip(" \t"), rules)


# ---- addresses: who logs in comes from 127.0.0.1, which has no other name


def fits_address(patterns):
    """Whether a list of patterns has the address; one of them that is none denies."""
    fits = False
    for pattern in patterns.split(","):
        name = pattern.removeprefix("!")
        if not name:
            return False
        is_one = fnmatch.fnmatchcase("127.0.0.1", name.replace("[", "[[]"))
        address, _, bits = name.partition("/")
        try:
            address = socket.getaddrinfo(address, None, flags=socket.AI_NUMERICHOST)[0][4][0]
            network = ipaddress.ip_network(f"{address}/{bits}" if bits else address, strict=False)
            if bits and str(network.network_address) != address:
                return False
            is_one = ipaddress.ip_address("127.0.0.1") in network
        except (OSError, ValueError, UnicodeError):
            pass
        if is_one and pattern != name:
            return False
        fits = fits or is_one
    return fits


# ---- a file


def value_of(options, name):
    return next((value for it, value in options if it == name), None)


def lets_in(options, offer, rules, now):
    """Whether a line of these options, which has the key, lets in."""
    times = [seconds_of(value) for name, value in options if name == "expiry-time" and value and is_time(value)]
    patterns, listed = value_of(options, "from"), value_of(options, "principals")
    if "does" in rules and (times and min(times) < now or patterns is not None and not fits_address(patterns)):
        return False
    if not offer.is_certificate:
        return listed is None or "principals" not in rules
    line, demanded = value_of(options, "command"), offer.command
    is_met = (None in (line, demanded) or line == demanded) and (not offer.source or fits_address(offer.source))
    if "demands" in rules and not is_met:
        return False
    if not offer.is_valid:
        return False
    if listed is None:
        return not offer.principals or USER in offer.principals
    every = listed.split(",")
    if "names" in rules and "" in every:
        every = every[:every.index("")]
    return bool(set(filter(None, every)) & set(offer.principals))


def outcome(file, offer, rules, now):
    """The command that a login is let in to: None where it is refused."""
    if "bytes" not in rules:
        try:
            file.decode()
        except UnicodeDecodeError:
            return None
    for line in file.decode(errors="surrogateescape").split("\n"):
        line = (line.split("\0")[0] if "NUL" in rules else line).lstrip(" \t")
        if not line or line[0] == "#":
            continue
        try:
            options, key = read(line, rules)
        except Refused:
            continue
        if key != offer.blob or any(name == "cert-authority" for name, _ in options) != offer.is_certificate:
            continue
        if lets_in(options, offer, rules, now):
            return next((it for it in (offer.command, value_of(options, "command")) if it is not None), OWN)
        if "next" not in rules:
            return None
    return None


def explained(file, offer, now):
    """The rules without which sshd's outcome would be another: as few as explain it."""
    left, theirs = set(ALL), outcome(file, offer, ALL, now)
    for rule in RULES:
        if outcome(file, offer, left - {rule}, now) == theirs:
            left.discard(rule)
    return sorted(left, key=list(RULES).index)


# ---- a file for each rule

# By its rule what is offered, and a file that the two differ on by this rule alone. KEY, RSA and CA are public lines.
SHOWN = {
    "malformed": ("ed25519", b'expiry-time="x" KEY'),
    "twice": ("ed25519", b'command="echo a",command="echo a" KEY'),
    "unknown": ("ed25519", b"no-such-option KEY"),
    "does": ("ed25519", b'from="10.0.0.0/8" KEY'),
    "next": ("by ed25519, one", b'cert-authority,principals="nobody" CA\ncert-authority CA'),
    "authority": ("by ed25519, one", b"cert-authority,cert-authority CA"),
    "blanks": ("ed25519", b"NAME\tBODY k"),
    "tab": ("ed25519", b"NAME BODY\tk"),
    "name": ("ed25519", b"ssh-rsa BODY k"),
    "sha2": ("rsa", b"rsa-sha2-512 BODY k"),
    "white": ("ed25519", b"NAME \vBODY k"),
    "NUL": ("ed25519", b'command="echo \0" KEY'),
    "behind": ("ed25519", b"NAME BEHIND k"),
    "numbers": ("rsa", b"NAME NEGATIVE k"),
    "bytes": ("ed25519", b"KEY \xe9"),
    "empty": ("ed25519", b"no-pty,,pty KEY"),
    "principals": ("ed25519", b'principals="root" KEY'),
    "names": ("by ed25519, one", b'cert-authority,principals="nobody,,%b" CA' % USER.encode()),
    "demands": ("by ed25519, another's address", b"cert-authority CA"),
}


def shown(rule, lines):
    """What is offered for a rule, and its file."""
    name, text = SHOWN[rule]
    line = lines[name][0]
    words = line.split()
    blob = base64.b64decode(words[1])
    texts = {"KEY": line, "CA": line, "NAME": words[0], "BODY": words[1], "BEHIND": base64.b64encode(blob + b"\0")}
    if b"NEGATIVE" in text:
        # The modulus is the last field, and its first byte is zero.
        texts["NEGATIVE"] = base64.b64encode(blob[:-261] + string(blob[-256:]))
    return name, re.sub(rb"\b(KEY|CA|NAME|BODY|BEHIND|NEGATIVE)\b", lambda it: texts[it[0].decode()], text) + b"\n"


# ---- random files

COMMENTS = [it.encode() for it in ("", "k", "me@host", "two  words", "t\tb", "tab\t", "\u00e9", '"', "a\\", "#", "x" * 99, "\u00a0", "%%")]
OTHER_LINES = [it.encode() for it in ("", "\r", " ", "\t", "#", " # a", "x", "no-pty", '"', "ssh-ed25519", "ssh-ed25519 ", "cert-authority x",
                                      "ssh-dss AAAA k", "a b c", '"a" b', "\ufeff", "restrict ssh-ed25519")]
GOOD = {
    "command": ("echo forced", 'echo \\"a  b\\"', "echo a,b;  echo c", "echo '\\\\'", "", "echo \u00e9"),
    "from": ("127.0.0.1", "127.0.0.*", "*", "10.0.0.0/8,127.0.0.0/8", "127.0.0.?", "::1,127.0.0.1", "localhost,*", "!10.*,127.*", "127.1"),
    "expiry-time": ("20380101", "20991231Z", "203801011200", "20380101120059UTC", "20380228"),
    "environment": ("A=b", "A=", "a_1=b c"),
    "permitopen": ("localhost:80", "*:*", "[::1]:22"),
    "permitlisten": ("8080", "localhost:80", "*:22"),
    "tunnel": ("1", "any", "0"),
}
BAD = {
    "from": ("10.0.0.0/8", "!127.0.0.1,*", "localhost", "", "127.0.0.1,", "127.0.0.1/8", "*,!127.*", "127.0.0.1/33"),
    "expiry-time": ("20000101", "x", "", "2038", "20381301", "2038010112", "20380101 ", "20380230"),
    "environment": ("A", "=b", "a b=c", ""),
    "permitopen": ("80", "localhost", "localhost:0", "localhost:x", ""),
    "permitlisten": ("0", "x", "", "a:b"),
    "tunnel": ("x", "", "-1"),
}
UNKNOWN = ("unknown", 'unknown="x"', "no-restrict", "no-cert-authority", "environment-x", "pty2", "X11", 'commands="echo a"', "ssh-rsa")
BROKEN = ('command=echo', 'command="echo', 'command="a"b"', "no_pty", '"pty"', "principals", 'cert-authority="x"', "=", "command='x'",
          'principals="root",principals="root"')


def some_option(rng):
    how = rng.random()
    if how < 0.45:
        name = rng.choice(sorted(FLAGS - {"cert-authority"}))
        return name.upper() if rng.random() < 0.1 else name
    if how < 0.80:
        name = rng.choice((*GOOD, "command", "from", "expiry-time"))
        values = BAD[name] if name in BAD and rng.random() < 0.25 else GOOD[name]
        return f'{rng.choice((name, name, name.title()))}="{rng.choice(values)}"'
    if how < 0.88:
        return rng.choice((*sorted(FLAGS - {"cert-authority"}), "pty")) + '="x"' if rng.random() < 0.5 else rng.choice(sorted(GOOD))
    return rng.choice(UNKNOWN) if how < 0.96 else rng.choice(BROKEN)


def some_principals(rng):
    names_ = rng.choices(("root", "ops", "", "nobody", " root", "*"), (9, 6, 1, 3, 1, 1), k=rng.choice((0, 1, 1, 2, 3)))
    return 'principals="%s"' % ",".join(names_)


def some_front(rng, is_authority):
    """Options, which mostly are what a line of an authority or of a key has."""
    parts = [some_option(rng) for _ in range(rng.choices((0, 1, 2, 3), (5, 4, 2, 1))[0])]
    if parts and rng.random() < 0.08:
        parts.append(rng.choice(parts))
    if rng.random() < (0.4 if is_authority else 0.06):
        parts.insert(rng.randrange(len(parts) + 1), some_principals(rng))
    for _ in range(is_authority and 1 + (rng.random() < 0.05)):
        parts.insert(rng.randrange(len(parts) + 1), rng.choice(("cert-authority", "cert-authority", "CERT-Authority")))
    if parts and rng.random() < 0.05:
        parts.insert(rng.randrange(len(parts) + 1), "")
    return ",".join(parts).encode()


def changed_blob(rng, blob):
    """A blob that means the same key to keypolicy, mostly."""
    fields = Fields(blob)
    name = fields.string()
    rest = blob[fields.at:]
    how = rng.randrange(4)
    if how == 0:
        return blob + rng.choice((b"\0", b"x", string(b""), bytes(9)))
    if how == 1:
        inner = rng.choice((b"rsa-sha2-256", b"rsa-sha2-512", b"RSA", b"rsa", b"ED25519", b"ssh-rsa", b"ssh-ed25519", b"ecdsa"))
        return string(inner) + rest
    if name == b"ssh-rsa":
        e, n = fields.string(), fields.string()
        e, n = rng.choice(((b"\0" + e, n), (e, n.lstrip(b"\0")), (e, b"\0" + n), (e, bytes(40) + n)))
        return string(name) + string(e) + string(n)
    if name.startswith(b"ecdsa"):
        fields.string()
        return string(name) + string(rng.choice((b"nistp384", b"nistp256", b"", b"x"))) + blob[fields.at:]
    return string(name) + rest[:-1]


def some_line(rng, lines, authorities):
    """A line, with its end. `authorities` says how many are lines of one."""
    end = b"\n" if rng.random() < 0.85 else rng.choice((b"\r\n", b"\n\n", b"\r\r\n", b" \n", b"\t\n"))
    if rng.random() < 0.08:
        return rng.choice(OTHER_LINES) + end
    name, body = rng.choice(lines)
    blob = base64.b64decode(body)
    if rng.random() < 0.1:
        body = base64.b64encode(changed_blob(rng, blob))
    if rng.random() < 0.08:
        name = rng.choice((b"rsa-sha2-256", b"rsa-sha2-512", b"ssh-rsa", b"ssh-ed25519", b"SSH-RSA", b"rsa", name + b"x",
                           name + b"-cert-v01@openssh.com", b"ecdsa-sha2-nistp384"))
    elif name == b"ssh-rsa" and rng.random() < 0.1:
        name = rng.choice((b"rsa-sha2-256", b"rsa-sha2-512"))
    if rng.random() < 0.06:
        at = rng.randrange(len(body))
        body = body[:at] + rng.choice((b"\r", b"\v", b"\f", b"=", b"-", b"\0", b"\xc2\xa0")) + body[at:]
    elif rng.random() < 0.02:
        body = body.rstrip(b"=") + rng.choice((b"", b"=", b"===="))
    gaps = [rng.choice((b"  ", b"\t", b" \t", b"\t ", b"\t\t")) if rng.random() < 0.07 else b" " for _ in range(2)]
    comment = rng.choice(COMMENTS)
    if rng.random() < 0.015:
        comment += rng.choice((b"\xe9", b"M\xfcller", b"\xff", b"caf\xe9 x"))
    if rng.random() < 0.02:
        comment += b"\0x"
    text = name + gaps[0] + body + (gaps[1] + comment if comment or rng.random() < 0.5 else b"")
    front = some_front(rng, rng.random() < authorities)
    if front:
        text = front + rng.choice((b" ", b" ", b" ", b" ", b"  ", b"\t", b" \t")) + text
    if rng.random() < 0.1:
        text = rng.choice((b" ", b"\t", b"  \t", b"#", b"\v", b"\xc2\xa0", b"\r")) + text
    if rng.random() < 0.04:
        at = rng.randrange(len(text) + 1)
        letter = rng.choice((b"A", b"=", b" ", b"\t", b'"', b"\\", b",", b"0", b"\r", b"", b"\0"))
        text = text[:at] + letter + text[at + rng.choice((0, 1, 1, 2)):]
    return text + end


def random_file(seed, number, offers, others):
    """The random file of this seed and number, and the name of what is offered. `offers` has by a name the public line of the key
    that a line has to have, and whether a certificate is offered; `others` are other public lines."""
    rng = random.Random(f"{seed} {number}")
    name = rng.choice(sorted(offers))
    line, is_certificate = offers[name]
    lines = [tuple(it.split()[:2]) for it in (line, line, line, rng.choice(others))]
    count = rng.choices((0, 1, 2, 3, 5), (1, 12, 10, 6, 2))[0]
    return name, b"".join([some_line(rng, lines, 0.85 if is_certificate else 0.1) for _ in range(count)])
