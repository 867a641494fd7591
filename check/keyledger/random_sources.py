"""The random cases that check/ledger tries, each by a seed and its number: a ledger that grew, an issuer, and requests of which some
are kept, some of a kept id and some new, with a part of them damaged."""
import random

from lib.formats import ED25519
from lib.random_texts import TEXT_CHANGE_LIST, some, some_change, some_comment, some_letters, some_lines
from lib.texts import BLANKS, LIMIT, MARK, MARKS, CERT_TYPES, KEY_TYPES, SIGNATURES, V01, certificate_nodes, key_of, line_text
from keyledger.sources import IDS, KINDS, LAST, NEAR, NUMBERS, PRINCIPALS, SPACES, WHITE, Case, base64, kept

ENTRIES = {0: 4, 1: 5, 2: 4, 3: 3, 5: 2, 9: 1, 20: 0.3}
REQUESTS = {0: 1, 1: 5, 2: 5, 3: 4, 5: 2, 9: 1, 20: 0.3}
EDGES = (0, 1, 5, 10, 2**32, 2**63, LAST - 1, LAST)
SHORT_IDS, SHORT_PRINCIPALS, SHORT_NUMBERS = ([it for it in all_of if len(it) < 60] for all_of in (IDS, PRINCIPALS, NUMBERS))
FITTING = {name: [front for front, kind in CERT_TYPES.items() if kind == name and front != b"ssh-dss"] for name in KEY_TYPES}
WORDS = [(b"",), (b"list",), (b"--help", b"x"), (b"x", b"--version"), (b"\xff",), (b"--help\xff",), (b"-h",)]


def some_id(rng):
    how = rng.random()
    if how < 0.8:
        return b"r%d" % rng.randrange(9)
    if how < 0.95:
        return rng.choice(SHORT_IDS)
    return b"r" + rng.choice(WHITE + NEAR).encode() + rng.choice((b"", b"1"))


def some_key(rng, keys):
    """A public line, which mostly reads."""
    key = rng.choice(keys)
    nodes = some_change(rng, key.public) if rng.random() < 0.05 else key.public
    return line_text(rng.choice(KEY_TYPES) if rng.random() < 0.05 else key.name, nodes, some_comment(rng), b"")


def some_times(rng):
    edges = [b"%d" % it for it in sorted(rng.choice(EDGES) for _ in range(2))]
    if rng.random() < 0.1:
        edges.reverse()
    if rng.random() < 0.05:
        edges[rng.randrange(2)] = rng.choice(SHORT_NUMBERS)
    return edges


def some_request(rng, keys, name=None):
    """A line that is mostly a request, without its end."""
    kind = rng.choice((b"client", b"host")) if rng.random() < 0.96 else rng.choice(KINDS)
    principals = rng.choice((b"-", b"me", b"me,you", b"a,b,c")) if rng.random() < 0.85 else rng.choice(SHORT_PRINCIPALS)
    words = [some_id(rng) if name is None else name, kind, principals, *some_times(rng), some_key(rng, keys)]
    if rng.random() < 0.02:
        at = rng.randrange(6)
        return b" ".join(words[:at + 1]) + rng.choice(SPACES) + b" ".join(words[at + 1:])
    text = b" ".join(words)
    return some_letters(rng, text) if rng.random() < 0.04 else text


def some_certificate(rng, keys, serial):
    key, issuer = rng.choice(keys), rng.choice(keys)
    name = rng.choice(FITTING[key.name])
    nodes = certificate_nodes(name, key, issuer, rng.randbytes(32), rng.choice((1, 2)), rng.choice(SIGNATURES),
                              [b"h%d" % at for at in range(rng.randrange(3))], some_id(rng),
                              rng.choice(((), ((b"verify-required", None),))),
                              rng.choice(((), ((b"permit-pty", None),), ((b"x@y", b"1"), (b"", None)))), serial=serial)
    if rng.random() < 0.01:
        nodes = some_change(rng, nodes)
    # A comment of a kept certificate has no white space at its end.
    comment = some_comment(rng) if rng.random() < 0.1 else some_comment(rng).decode().rstrip(WHITE).encode()
    text = line_text(name + V01, nodes, comment, b"")
    return some_letters(rng, text) if rng.random() < 0.01 else text


def some_entries(rng, keys, count, start):
    """The lines of a ledger behind its first, the requests of them, and the serial that may come next."""
    serial, lines, requests = start, [], []
    for at in range(count):
        serial = min(serial + rng.choice((1, 1, 1, 2, 9)), LAST) if rng.random() < 0.99 else serial
        name = b"k%d" % at if rng.random() < 0.9 else rng.choice(SHORT_IDS)
        key = rng.choice(keys)
        words = [name, rng.choice((b"client", b"host")), rng.choice((b"-", b"me", b"me,you")), b"5", b"10",
                 line_text(key.name, key.public, some_comment(rng), b"")]
        text = b" ".join(words) if rng.random() < 0.98 else some_request(rng, keys, name)
        if rng.random() < 0.05:
            text += rng.choice((b"\n", b"\r", b"\nmore", b"\r\n\r\n", b" ", b"\t"))
        requests.append(text)
        join = b" " if rng.random() < 0.99 else rng.choice(SPACES)
        lines.append(name + b" " + base64(text) + join + some_certificate(rng, keys, serial) + b"\n")
    return lines, requests, serial


def some_requests(rng, keys, requests):
    """Request lines, of which some stand among these."""
    lines = []
    for _ in range(some(rng, REQUESTS)):
        how = rng.random()
        if how < 0.25 and requests:
            lines.append(rng.choice(requests))
        elif how < 0.4 and requests:
            lines.append(some_request(rng, keys, rng.choice(requests).split(b" ")[0]))
        elif how < 0.5 and lines:
            lines.append(rng.choice(lines))
        elif how < 0.55:
            lines.append(rng.choice((b"", b" ", b"\r", b"bad", b"#", *BLANKS[:12])))
        else:
            lines.append(some_request(rng, keys))
    ends = [rng.choice((b"\n", b"\r\n", b"\n\n", b"\r\r\n")) if rng.random() < 0.1 else b"\n" for _ in lines]
    if ends and rng.random() < 0.2:
        ends[-1] = rng.choice((b"", b"\r"))
    return b"".join(line + end for line, end in zip(lines, ends))


def some_bytes(rng, count):
    """So many bytes in hex, and sometimes fewer, more or no hex."""
    how = rng.random()
    if how > 0.98:
        return rng.choice((None, b"", b"0", b"00", b"0g", b"\xff", b" 00"))
    digits = rng.randbytes(max(0, count + (rng.choice((-32, -1, 1, 32)) if how > 0.95 else 0))).hex().encode()
    return digits.upper() if how < 0.1 else digits


def random_case(seed, number):
    """The random case of this seed and number."""
    rng = random.Random(f"{seed} {number}")
    keys = [key_of(rng.choice((ED25519, *KEY_TYPES)), rng.randbytes) for _ in range(some(rng, {1: 3, 2: 4, 3: 2, 5: 1}))]
    start = rng.choice((0, 0, 0, 5, 2**32 - 2, LAST - 12, LAST - 3))
    lines, requests, serial = some_entries(rng, keys, some(rng, ENTRIES), start)
    following = min(serial + rng.choice((1, 1, 1, 2, 100)), LAST) if rng.random() < 0.97 else rng.choice((0, serial, serial - 1, LAST,
                                                                                                          LAST + 1))
    if rng.random() < 0.02:
        rng.shuffle(lines)
    ledger = kept(max(following, 0), *lines)
    issuer = some_key(rng, keys) + rng.choice((b"\n", b"\n", b"\n", b"\r\n", b"\nmore\n"))
    asked = some_requests(rng, keys, requests)
    if rng.random() < 0.02:
        ledger = rng.choice(TEXT_CHANGE_LIST)(ledger) if rng.random() < 0.5 else some_lines(rng, ledger)
    if rng.random() < 0.02:
        asked = rng.choice(TEXT_CHANGE_LIST)(asked) if rng.random() < 0.5 else some_lines(rng, asked)
    first, second = (MARK if rng.random() < 0.97 else b"%%\r\n" if rng.random() < 0.5 else rng.choice(MARKS) for _ in range(2))
    count = sum(line not in (b"", b"\r") for line in asked.split(b"\n"))
    signature = None if rng.random() < 0.03 else some_bytes(rng, rng.choice((64, 64, 256, 0)))
    case = Case(f"random {seed} {number}", (), ledger + first + issuer + second + asked, some_bytes(rng, 32 * count), signature)
    return odd_case(rng, case)


def odd_case(rng, case):
    """The case, and seldom with other words or devices, or with bytes that are no UTF-8 or too many."""
    odd = rng.random()
    if odd < 0.01:
        return case._replace(words=rng.choice(WORDS))
    if odd < 0.02:
        at = rng.randrange(len(case.source) + 1)
        bad = rng.choice((b"\xff", b"\xc3", b"\xc0\x80", b"\xed\xa0\x80", b"\xf4\x90\x80\x80", b"\x80", b"\xe2\x82", b"\xf0\x9f\x94"))
        return case._replace(source=case.source[:at] + bad + case.source[at:])
    if odd < 0.03:
        return case._replace(device=rng.choice(("a folder", "a full device", "no standard input", "no standard output")))
    if odd < 0.0303:
        return case._replace(source=case.source + b"\n" * (LIMIT + 1 - len(case.source)))
    if odd < 0.0306:
        return case._replace(source=case.source + b"\n" * (LIMIT - len(case.source)), device="little memory")
    return case
