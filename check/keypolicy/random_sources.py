"""The random cases that check/policy tries, each by a seed and its number: files whose lines have keys of a few that are offered or
issue certificates, some of them damaged."""
import random

from lib.formats import ED25519, putty_public
from lib.random_texts import CERT_NAMES, TEXT_CHANGE_LIST, some, some_change, some_comment, some_letters, some_lines
from lib.texts import LIMIT, MARK, MARKS, KEY_TYPES, SIGNATURES, V01, certificate_nodes, key_of, line_text, render
from keypolicy.sources import AUTHORITY, BAD_NAMES, BAD_VALUES, FORCED, KNOWN, NAMES, SOURCE, SPACES, VALUES, VERIFY, Case, message_of

LINES = {0: 1, 1: 4, 2: 5, 3: 5, 4: 4, 6: 3, 10: 2, 30: 1}
PEOPLE = [it.encode() for it in ("me", "you", "root", "ops", "", "Me", "me ", "\u00e9", "a b")]
LETTERS = "aZ0-_=,\"\\ \t#%\u00e9;'"
SHORT_NAMES, SHORT_VALUES = [it for it in NAMES + BAD_NAMES if len(it) < 99], [it for it in VALUES + BAD_VALUES if len(it) < 99]
OTHER_LINES = [it.encode() for it in ("", "\r", " ", "\t#", "#", "# a", "x", "ssh-ed25519", "no-pty", "cert-authority x", '"', "a=",
                                      "\u00a0", "ssh-dss AAAA k", "%", "%% ", "---- ")]
WORDS = [(), (b"message", b""), (b"decide", b"me"), (b"decide", b"me", b"05"), (b"decide", b"me", b"18446744073709551616"),
         (b"decide", b"\xff", b"5"), (b"decide", b"me", b""), (b"list",), (b"decide", b"me", b"5", b"5"), (b"Decide", b"me", b"5"),
         (b"decide", b"me", b"-1"), (b"decide", b"me", b"+1"), (b"message\xff",)]


def some_value(rng):
    how = rng.random()
    if how < 0.35:
        return rng.choice((b'="me"', b'="x"', b'="a b"', b'="a,b"', b'=""', b'="echo \\"hi\\""', b'="10.0.0.0/8"'))
    if how < 0.85:
        return b""
    if how < 0.95:
        return b"=" + rng.choice(SHORT_VALUES)
    return b'="' + "".join(rng.choices(LETTERS, k=rng.randrange(8))).encode() + b'"'


def some_case_of(rng, name):
    return bytes(letter ^ 32 if chr(letter).isalpha() and rng.random() < 0.3 else letter for letter in name) if rng.random() < 0.1 else name


def some_names(rng):
    """The principals of a line."""
    return b",".join(rng.choices(PEOPLE, (6, 3, 2) + (1,) * 6, k=rng.choice((0, 1, 1, 1, 2, 3))))


def some_options(rng, is_authority):
    """The front of a line, which mostly fits."""
    parts = []
    for _ in range(some(rng, {0: 5, 1: 4, 2: 3, 3: 2, 5: 1})):
        how = rng.random()
        name = rng.choice(KNOWN) if how < 0.8 else rng.choice(NAMES[:7]) if how < 0.97 else rng.choice(SHORT_NAMES)
        if name.lower() in (AUTHORITY, b"principals") and rng.random() < 0.9:
            continue
        parts.append(some_case_of(rng, name) + some_value(rng))
    if is_authority:
        parts.insert(rng.randrange(len(parts) + 1), some_case_of(rng, AUTHORITY))
    if rng.random() < (0.4 if is_authority else 0.1):
        parts.insert(rng.randrange(len(parts) + 1), some_case_of(rng, b"principals") + b'="' + some_names(rng) + b'"')
    front = b",".join(parts)
    return some_letters(rng, front) if rng.random() < 0.05 else front


def some_line(rng, keys, authorities):
    """A line of one of these keys, with its end. `authorities` says how many are lines of one."""
    how = rng.random()
    end = rng.choice((b"\n", b"\n", b"\n", b"\n", b"\r\n", b"\n\n", b"\r\r\n")) if rng.random() < 0.3 else b"\n"
    if how < 0.12:
        return rng.choice(OTHER_LINES) + end
    key = rng.choice(keys)
    front = some_options(rng, rng.random() < authorities)
    nodes = some_change(rng, key.public) if rng.random() < 0.08 else key.public
    text = line_text(rng.choice(KEY_TYPES) if rng.random() < 0.05 else key.name, nodes, some_comment(rng), b"")
    if front:
        text = front + rng.choice((b" ", b" ", b" ", b"  ", b"\t", b" \t")) + text
    if rng.random() < 0.1:
        text = rng.choice((b" ", b"\t", b"  \t", b"#", rng.choice(SPACES[:20]))) + text
    if rng.random() < 0.08:
        text = some_letters(rng, text)
    return text + end


def some_payload(rng):
    return rng.choice((None, b"", b"x", b"a b", b"10.0.0.0/8", b"\xff", [b"x"], [b"\0\0\0\1xy"], [b"\0\0\0\2x"], "\u00e9".encode()))


def some_critical(rng):
    pairs = [(FORCED, b"uptime"), (SOURCE, b"10.0.0.0/8"), (VERIFY, None)]
    rng.shuffle(pairs)
    pairs = pairs[:some(rng, {0: 6, 1: 3, 2: 2, 3: 1})]
    if pairs and rng.random() < 0.1:
        at = rng.randrange(len(pairs))
        pairs[at] = (pairs[at][0], some_payload(rng))
    if pairs and rng.random() < 0.05:
        pairs.append(rng.choice(pairs))
    return tuple(pairs)


def some_times(rng):
    edges = sorted(rng.choice((0, 1, 4, 5, 6, 100, 2**32, 2**63, 2**64 - 2, 2**64 - 1)) for _ in range(2))
    return (0, 2**64 - 1) if rng.random() < 0.7 else edges if rng.random() < 0.9 else edges[::-1]


def some_moment(rng, times):
    if rng.random() < 0.5:
        return 5
    return min(max(rng.choice(times) + rng.choice((-1, 0, 1)), 0), 2**64 - 1)


def offered_key(rng, keys):
    """A key as an offer, moments, and that its signature is nobody's."""
    key = rng.choice(keys)
    if rng.random() < 0.05:
        return putty_public(render(key.public), b"k"), (0, 5), None
    nodes = some_change(rng, key.public) if rng.random() < 0.08 else key.public
    return line_text(key.name, nodes, some_comment(rng)), (0, 5), None


def offered_certificate(rng, keys):
    """A certificate as an offer, the moments at its borders, and what its issuer signs."""
    key, comment = rng.choice(keys), some_comment(rng)
    name, times = rng.choice(CERT_NAMES[key.name]), some_times(rng)
    nodes = certificate_nodes(name, key, rng.choice(keys), rng.randbytes(32), 2 if rng.random() < 0.05 else 1, rng.choice(SIGNATURES),
                              rng.choices(PEOPLE, (6, 3, 2) + (1,) * 6, k=rng.choice((0, 1, 1, 2, 3))), comment, some_critical(rng),
                              rng.choice(((), ((b"permit-pty", None),), ((b"x@y", b"1"), (b"", None)))), *times)
    if rng.random() < 0.1:
        nodes = some_change(rng, nodes)
    text = line_text(name + V01, nodes, comment)
    return text, times, message_of(text)


def some_verified(rng, message):
    how = rng.random()
    if how < 0.8:
        return message
    if how < 0.88 or message is None:
        return None if how < 0.98 else rng.choice((b"", b"00", b"0", b"x", b"\xff"))
    if how < 0.92:
        return message.upper()
    at = rng.randrange(len(message) + 1)
    return message[:at] + rng.choice((b"0", b"00", b"f", b"", b"g")) + message[at + rng.choice((0, 1, 1, 2)):]


def random_case(seed, number):
    """The random case of this seed and number."""
    rng = random.Random(f"{seed} {number}")
    keys = [key_of(rng.choice((ED25519, *KEY_TYPES)), rng.randbytes) for _ in range(some(rng, {1: 3, 2: 4, 3: 2, 5: 1}))]
    offers, authorities = (offered_key, 0.2) if rng.random() < 0.33 else (offered_certificate, 0.8)
    file = b"".join([some_line(rng, keys, authorities) for _ in range(some(rng, LINES))])
    offer, times, message = offers(rng, keys)
    if rng.random() < 0.04:
        offer = rng.choice(TEXT_CHANGE_LIST)(offer) if rng.random() < 0.5 else some_letters(rng, offer)
    if rng.random() < 0.04:
        file = rng.choice(TEXT_CHANGE_LIST)(file) if rng.random() < 0.5 else some_lines(rng, file)
    mark = MARK if rng.random() < 0.95 else b"%%\r\n" if rng.random() < 0.5 else rng.choice(MARKS)
    user = b"me" if rng.random() < 0.6 else rng.choice(PEOPLE)
    words = (b"message",) if rng.random() < 0.1 else (b"decide", user, b"%d" % some_moment(rng, times))
    case = Case(f"random {seed} {number}", words, file + mark + offer, some_verified(rng, message))
    odd = rng.random()
    if odd < 0.01:
        case = case._replace(words=rng.choice(WORDS))
    elif odd < 0.02:
        at = rng.randrange(len(case.source) + 1)
        bad = rng.choice((b"\xff", b"\xc3", b"\xc0\x80", b"\xed\xa0\x80", b"\xf4\x90\x80\x80", b"\x80", b"\xe2\x82", b"\xf0\x9f\x94"))
        case = case._replace(source=case.source[:at] + bad + case.source[at:])
    elif odd < 0.03:
        case = case._replace(device=rng.choice(("a folder", "a full device", "no standard input", "no standard output")))
    elif odd < 0.0303:
        case = case._replace(source=case.source + b" " * (LIMIT + 1 - len(case.source)))
    elif odd < 0.0306:
        case = case._replace(source=case.source + b" " * (LIMIT - len(case.source)), device="little memory")
    return case
