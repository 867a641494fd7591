"""The texts of keys that check/inventory tries, and what becomes of one where a field or a line of it is changed.

All is made by the formats' standards, and nobody asks whether the numbers are a key that works. A layout is a list of nodes: bytes
stand as they are, and a list is a string (RFC 4251) of the nodes in it. So one place changes any field of any layout, with lengths
that follow or that lie.
"""
import itertools
import re
from hashlib import shake_128
from typing import NamedTuple

from lib.formats import RSA, ED25519, armoured, lines, public_line, putty_block, putty_file, string, uint32, uint64

CURVES = {b"ecdsa-sha2-nistp256": (b"nistp256", 32), b"ecdsa-sha2-nistp384": (b"nistp384", 48),
          b"ecdsa-sha2-nistp521": (b"nistp521", 66)}
SK_ECDSA, SK_ED25519 = b"sk-ecdsa-sha2-nistp256@openssh.com", b"sk-ssh-ed25519@openssh.com"
PUTTY_TYPES = (RSA, *CURVES, ED25519)
KEY_TYPES = (*PUTTY_TYPES, SK_ECDSA, SK_ED25519)
V01 = b"-cert-v01@openssh.com"
CERT_TYPES = {
    b"ssh-rsa": RSA, b"rsa-sha2-256": RSA, b"rsa-sha2-512": RSA, b"ssh-dss": RSA, b"ssh-ed25519": ED25519,
    **{name: name for name in CURVES}, b"sk-ecdsa-sha2-nistp256": SK_ECDSA, b"sk-ssh-ed25519": SK_ED25519,
}
SIGNATURES = (*KEY_TYPES, b"rsa-sha2-256", b"rsa-sha2-512")


# ---- keys


class Key(NamedTuple):
    name: bytes
    public: list
    private: list
    # What PuTTY's file keeps beside the public key.
    secret: list


def number(magnitude):
    digits = magnitude.lstrip(b"\0")
    return [b"\0" + digits if digits[:1] >= b"\x80" else digits]


def key_of(name, draw):
    """A key of this type, with the bytes that draw gives."""
    if name == RSA:
        n, e = number(draw(24)), [b"\1\0\1"]
        d, iqmp, p, q = (number(draw(size)) for size in (24, 12, 12, 12))
        return Key(name, [[name], e, n], [[name], n, e, d, iqmp, p, q], [d, p, q, iqmp])
    if name in CURVES or name == SK_ECDSA:
        curve, size = CURVES.get(name, (b"nistp256", 32))
        public = [[name], [curve], [b"\4" + draw(2 * size)]]
        secret = number(draw(size))
    else:
        public, secret = [[name], [draw(32)]], draw(32)
    if name in CURVES:
        return Key(name, public, [*public, secret], [secret])
    if name == ED25519:
        return Key(name, public, [*public, [secret, *public[1]]], [number(secret)])
    public.append([b"ssh:"])
    return Key(name, public, [*public, b"\1", [draw(8)], []], [])


def fixed_key(name, label=b""):
    """The same key in each run."""
    at = itertools.count()
    return key_of(name, lambda count: shake_128(b"%b %b %d" % (name, label, next(at))).digest(count))


def render(nodes):
    return b"".join([node if isinstance(node, bytes) else string(render(node)) for node in nodes])


# ---- what a field may become


def content_of(node):
    return node if isinstance(node, bytes) else render(node)


def with_content(change):
    """The field with other content, and the length that this has."""
    def changed(nodes, at):
        content = change(content_of(nodes[at]))
        return [*nodes[:at], content if isinstance(nodes[at], bytes) else [content], *nodes[at + 1:]]
    return changed


def with_length(change):
    """The field with a length that isn't its content's."""
    def changed(nodes, at):
        content = content_of(nodes[at])
        length = change(len(content)) % 2**32
        return [*nodes[:at], uint32(length) + content, *nodes[at + 1:]]
    return changed


def flipped(content, at, bit):
    if not content:
        return b"\1"
    content = bytearray(content)
    content[at] ^= bit
    return bytes(content)


CHANGES = {
    "dropped": lambda nodes, at: nodes[:at] + nodes[at + 1:],
    "twice": lambda nodes, at: nodes[:at + 1] + nodes[at:],
    "behind the next": lambda nodes, at: [*nodes[:at], *nodes[at + 1:at + 2], nodes[at], *nodes[at + 2:]],
    "last of all": lambda nodes, at: nodes[:at + 1],
    "not there, as all that follows": lambda nodes, at: nodes[:at],
    "cut inside": lambda nodes, at: [*nodes[:at], render(nodes[at:at + 1])[:-1]],
    "cut in its half": lambda nodes, at: [*nodes[:at], (lambda it: it[:len(it) // 2])(render(nodes[at:at + 1]))],
    "bytes that follow": lambda nodes, at: [*nodes[:at + 1], b"\0\0\0\1x", *nodes[at + 1:]],
    "empty": with_content(lambda it: b""),
    "a zero more": with_content(lambda it: it + b"\0"),
    "a byte less": with_content(lambda it: it[:-1]),
    "a zero in front": with_content(lambda it: b"\0" + it),
    "many zeros in front": with_content(lambda it: bytes(40) + it),
    "without its first byte": with_content(lambda it: it[1:]),
    "first bit": with_content(lambda it: flipped(it, 0, 128)),
    "last bit": with_content(lambda it: flipped(it, -1, 1)),
    "second last bit": with_content(lambda it: flipped(it, -1, 2)),
    "case": with_content(lambda it: flipped(it, 0, 32)),
    "no UTF-8": with_content(lambda it: b"\xff" + it),
    "cut UTF-8": with_content(lambda it: it + b"\xc3"),
    "a surrogate": with_content(lambda it: it + b"\xed\xa0\x80"),
    "UTF-8": with_content(lambda it: it + "\u00e9\U0001f511".encode()),
    "white space": with_content(lambda it: it + " \t\u00a0\u2028".encode()),
    "line ends": with_content(lambda it: it + b"\r\n%%\nx"),
    "zeros": with_content(lambda it: bytes(len(it))),
    "ones": with_content(lambda it: b"\xff" * len(it)),
    "doubled": with_content(lambda it: it + it),
    "reversed": with_content(lambda it: it[::-1]),
    "length and 1": with_length(lambda it: it + 1),
    "length and 256": with_length(lambda it: it + 256),
    "length less 1": with_length(lambda it: it - 1),
    "length 0": with_length(lambda it: 0),
    "length 2^31": with_length(lambda it: 2**31),
    "length 2^32 - 1": with_length(lambda it: 2**32 - 1),
}


def places(nodes):
    """The path of each node."""
    for at, node in enumerate(nodes):
        yield (at,)
        if not isinstance(node, bytes):
            yield from ((at, *below) for below in places(node))


def changed(nodes, path, change):
    at, below = path[0], path[1:]
    if not below:
        return change(nodes, at)
    return [*nodes[:at], changed(nodes[at], below, change), *nodes[at + 1:]]


def all_changes(nodes):
    """The layout with each node changed in each way."""
    for path in places(nodes):
        for name, change in CHANGES.items():
            yield f"{'.'.join(map(str, path))} {name}", changed(nodes, path, change)


# ---- texts

ZERO = b"\0\0\0\0"


def certificate_nodes(name, key, issuer, nonce=bytes(32), kind=1, form=ED25519, principals=(b"root", b"me"), key_id=b"id",
                      critical=((b"force-command", b"true"),), extensions=((b"permit-pty", None), (b"x@y", b"1")), after=0,
                      before=2**64 - 1, serial=7):
    """A certificate, of which the signature is the last node. An option's value is the string in its payload, None where that is
    empty, or a list: the nodes of its payload."""
    options = [[node for option, value in pairs for node in ([option], payload_nodes(value))] for pairs in (critical, extensions)]
    signature = [[form], [nonce * 2]]
    if form in (SK_ECDSA, SK_ED25519):
        signature += [b"\5", uint32(7)]
    return [[name + V01], [nonce], *key.public[1:], uint64(serial), uint32(kind), [key_id], [[it] for it in principals], uint64(after),
            uint64(before), *options, [], issuer.public, signature]


def payload_nodes(value):
    if value is None:
        return []
    return value if isinstance(value, list) else [[value]]


def envelope_nodes(key, comment, cipher=b"none", kdf=b"none", options=(), block=None, check=ZERO):
    if block is None:
        block = [check, check, *key.private, [comment]]
        block.append(bytes(range(1, 9 - len(render(block)) % 8)))
    return [b"openssh-key-v1", b"\0", [cipher], [kdf], list(options), uint32(1), key.public, block]


def envelope_text(nodes, width=64):
    return armoured(render(nodes), width)


def line_text(name, nodes, comment, end=b"\n"):
    return public_line(name, render(nodes), comment, end)


def ppk_text(version, key, comment, public=None, private=None, name=None):
    public, private = render(key.public if public is None else public), render(key.secret if private is None else private)
    return putty_file(version, name or key.name, public, private, comment)


ARGON2 = {"Key-Derivation": b"Argon2id", "Argon2-Memory": b"8192", "Argon2-Passes": b"34", "Argon2-Parallelism": b"1",
          "Argon2-Salt": b"00" * 16}


def sealed_ppk(version, key, comment, size=48, mac=None, **argon2):
    argon2 = {**ARGON2, **{name.replace("_", "-"): value for name, value in argon2.items()}}
    first = [b"PuTTY-User-Key-File-%d: %b" % (version, key.name), b"Encryption: aes256-cbc", b"Comment: " + comment]
    derivation = [name.encode() + b": " + value for name, value in argon2.items()] if version == 3 else []
    blocks = [*putty_block(b"Public-Lines", render(key.public)), *derivation, *putty_block(b"Private-Lines", bytes(size))]
    return lines([*first, *blocks, b"Private-MAC: " + (mac or b"00" * (32 if version == 3 else 20))])


def sealed_envelope(key, cipher=b"aes256-ctr", kdf=b"bcrypt", salt=bytes(16), rounds=16, size=160, rest=b""):
    return envelope_text(envelope_nodes(key, b"", cipher, kdf, [[salt], uint32(rounds), rest], [bytes(size)]))


# ---- what a text may become

COMMENTS = [it.encode() for it in (
    "", "k", "me@host", "two words", " in front", "three  spaces", "t\tb", "tab\t", "space ", "many   \t ", "%%", "% %", '"', '""',
    "\\",
    'a\\"b', "\\\\", "\\n", "\u00e9", "\U0001f511", "no-break\u00a0", "line\u2028", "next\x85", "ideographic\u3000",
    "zero width\u200b",
    "\ufeffmark", "mark\ufeff", "unit\x1f", "file\x1c", "vertical\v", "form\f", "nul\0", "\0", "del\x7f", "mongolian\u180e",
    "ogham\u1680",
    ": ", "Comment: ", "x" * 300, "ssh-ed25519", "#", "\u200e", "\u205f", "\u202f ", "a\u2029",
)]
# Those that hold an end of a line, which few forms carry.
BROKEN_COMMENTS = [b"a\rb", b"a\r", b"\r", b"a\nb", b"a\n", b"\n", b"a\r\n%%\r\nb", b"\n\n", b"a\r\r"]

TEXT_CHANGES = {
    "as it is": lambda it: it,
    "LF": lambda it: it.replace(b"\r\n", b"\n"),
    "CR LF": lambda it: it.replace(b"\r\n", b"\n").replace(b"\n", b"\r\n"),
    "CR": lambda it: it.replace(b"\r\n", b"\n").replace(b"\n", b"\r"),
    "CR CR LF": lambda it: it.replace(b"\r\n", b"\n").replace(b"\n", b"\r\r\n"),
    "LF CR": lambda it: it.replace(b"\r\n", b"\n").replace(b"\n", b"\n\r"),
    "no end": lambda it: it.rstrip(b"\r\n"),
    "CR at the end": lambda it: it.rstrip(b"\r\n") + b"\r",
    "one CR LF": lambda it: it.replace(b"\r\n", b"\n").replace(b"\n", b"\r\n", 1),
    "a line in front": lambda it: b"\n" + it,
    "a space in front": lambda it: b" " + it,
    "a tab in front": lambda it: b"\t" + it,
    "a byte order mark": lambda it: "\ufeff".encode() + it,
    "a comment in front": lambda it: b"# key\n" + it,
    "a line behind": lambda it: it + b"\n",
    "more behind": lambda it: it + b"more\n",
    "itself behind": lambda it: it + it,
    "a space behind each line": lambda it: it.replace(b"\n", b" \n"),
    "a tab for each space": lambda it: it.replace(b" ", b"\t"),
    "two spaces for each": lambda it: it.replace(b" ", b"  "),
    "the first space a tab": lambda it: it.replace(b" ", b"\t", 1),
    "the first space two": lambda it: it.replace(b" ", b"  ", 1),
    "the first space none": lambda it: it.replace(b" ", b"", 1),
    "the second space two": lambda it: re.sub(rb"\A([^ ]* [^ ]*) ", rb"\1  ", it),
    "the second space a tab": lambda it: re.sub(rb"\A([^ ]* [^ ]*) ", rb"\1\t", it),
    "the second space LF": lambda it: re.sub(rb"\A([^ ]* [^ ]*) ", rb"\1\n", it),
    "the first space CR": lambda it: it.replace(b" ", b"\r", 1),
    "upper case": bytes.upper,
    "lower case": bytes.lower,
    "no padding": lambda it: it.replace(b"=", b""),
    "a pad more": lambda it: re.sub(rb"([A-Za-z0-9+/]{20,}=*)(?=\s|\Z)(?!.*[A-Za-z0-9+/]{20,}=*(\s|\Z))", rb"\1=", it, flags=re.S),
    "pads that aren't needed": lambda it: re.sub(rb"(?<=[A-Za-z0-9+/])(?=\s*(?:-----END|---- END|Private-MAC|Private-Lines))",
                                                 rb"====", it),
    "bits behind the last": lambda it: re.sub(rb"A(?==)", b"B", it),
    "URL's letters": lambda it: it.replace(b"+", b"-").replace(b"/", b"_"),
    "a NUL": lambda it: it[:len(it) // 2] + b"\0" + it[len(it) // 2:],
    "no UTF-8": lambda it: it[:len(it) // 2] + b"\xff" + it[len(it) // 2:],
    "no UTF-8 behind": lambda it: it + b"\xe2\x82",
    "vertical tabs": lambda it: it.replace(b"\n", b"\v\n"),
    "no-break spaces": lambda it: it.replace(b" ", "\u00a0".encode()),
}


def letters_changed(text):
    """The text with one letter changed, at some places of it."""
    for at in range(0, len(text), 1 + len(text) // 60):
        for letter in (b"A", b" ", b"=", b"\n", b"", b"%"):
            yield f"letter {at} {letter!r}", text[:at] + letter + text[at + 1:]
        yield f"up to letter {at}", text[:at]


def lines_changed(text):
    """PuTTY's text with each line changed, and each number and hex of it."""
    all_lines = text.splitlines(keepends=True)
    for at, line in enumerate(all_lines):
        start, rest = b"".join(all_lines[:at]), b"".join(all_lines[at + 1:])
        body = line.rstrip(b"\r\n")
        end = line[len(body):]
        for name, new in line_changes(body, end):
            yield f"line {at} {name}", start + new + rest
        yield f"up to line {at}", start
        yield f"up to line {at} without its end", start + body
        yield f"up to line {at} with CR", start + body + b"\r"
        yield f"line {at} behind the next", b"".join([start, *all_lines[at + 1:at + 2], line, *all_lines[at + 2:]])


NUMBERS = (b"+%d", b"0%d", b"+000%d", b" %d", b"%d ", b"%d\t", b"-%d", b"++%d", b"+-%d", b"%d+", b"0x%d", b"%d.0", b"%d_0",
           b"\xd9\xa1%d",
           b"%d\xc2\xa0")


def line_changes(body, end):
    yield "dropped", b""
    yield "twice", (body + end) * 2
    yield "behind an empty line", end + body + end
    yield "empty", end
    for name, new in (("a space more", body + b" "), ("a tab more", body + b"\t"), ("a space in front", b" " + body),
                      ("x", body + b"x"),
                      ("upper", body.upper()), ("lower", body.lower()), ("a byte less", body[:-1]),
                      ("a byte less in front", body[1:]),
                      ("CR more", body + b"\r"), ("NUL", body + b"\0"), ("a quote more", body + b'"'),
                      ("UTF-8", body + b"\xc3\xa9"),
                      ("no UTF-8", body + b"\xc3"), ("no quote", body.replace(b'"', b"", 1)),
                      ("no quotes", body.replace(b'"', b"")),
                      ("a backslash at the end", body[:-1] + b"\\" + body[-1:]), ("words behind", body + b" and more: words")):
        yield name, new + end
    other = {b"\r\n": b"\n", b"\n": b"\r\n"}.get(end, b"\n")
    yield "another end", body + other
    yield "CR alone", body + b"\r"
    yield "no end", body
    key, colon, value = body.partition(b": ")
    if not colon:
        for width in (1, 63, 65):
            yield f"width {width}", b"".join(body[at:at + width] + end for at in range(0, len(body), width))
        return
    for name, mark in (("no space", b":"), ("two spaces", b":  "), ("a space before", b" : "), ("a tab", b":\t"),
                       ("no colon", b" "),
                       ("two colons", b":: ")):
        yield name, key + mark + value + end
    for name, new in (("no value", b""), ("value and :", value + b": "), ("value twice", value * 2), ("another value", b"none"),
                      ("value 2", b"aes256-cbc"), ("value 3", b"ssh-rsa"), ("value 4", b"ssh-ed448"), ("value 5", b"ssh-dss"),
                      ("value 6", b"ecdsa-sha2-nistp256")):
        yield name, key + colon + new + end
    if value.isdigit() and len(value) < 9:
        digits = int(value)
        for form in NUMBERS:
            yield f"number {form}", key + colon + form % digits + end
        for new in (0, digits + 1, digits - 1, digits + 2, 65_535, 65_536, 2**32 - 1, 2**32, 2**64 + digits, 10**30):
            yield f"number {new}", key + colon + b"%d" % new + end
        yield "number with many zeros", key + colon + b"0" * 5000 + value + end
        yield "number of many digits", key + colon + b"1" * 5000 + end
    if re.fullmatch(rb"[0-9a-f]{32,}", value):
        mixed = bytes(letter ^ 32 if at % 3 == 0 and letter > 96 else letter for at, letter in enumerate(value))
        for name, new in (("upper", value.upper()), ("mixed", mixed), ("0x", b"0x" + value), ("00 more", value + b"00"),
                          ("a digit more", value + b"0"), ("two digits less", value[:-2]), ("blanks", value[:2] + b" " + value[2:]),
                          ("other", value[:-1] + (b"1" if value[-1:] == b"0" else b"0")), ("zeros", b"00" * (len(value) // 2)),
                          ("g", value[:-1] + b"g")):
            yield f"hex {name}", key + colon + new + end
        for cut in (2, 8, len(value) // 2):
            yield f"hex of {cut}", key + colon + value[:cut] + end


# ---- what the programs' cases share

LIMIT = 16_777_216
ISSUER = fixed_key(ED25519, b"issuer")
KEYS = {name: fixed_key(name) for name in KEY_TYPES}
MARK = b"%%\n"
MARKS = [it.encode() for it in (
    "%%\n", "%%\r\n", "%%\r\r\n", " %%\n", "%% \n", "%%\t\n", "%%%\n", "%\n", "%%%%\n", "% %\n", "\uff05\uff05\n", "%%\u00a0\n",
    "\ufeff%%\n",
    "%%\r", "%%\n\r", "\n%%\n", "\r%%\n", "%%\n%%\n", "%%\n\n%%\n", "%%\n \t\n%%\r\n", "%%\v\n", "%%\0\n", "#%%\n", "%%k\n",
    "%%\n%% \n",
)]
BLANKS = [it.encode() for it in (
    "", "\n", " ", "\t\n", "\r\n", "\r", " \t\r\n\v\f", "\u0085\n", "\u00a0\n", "\u1680\n", "\u2000\u200a\n", "\u2028\u2029",
    "\u202f\u205f\n",
    "\u3000\n", "\x1c\n", "\x1d", "\x1e\n", "\x1f\n", "\u200b\n", "\ufeff\n", "\u180e\n", "\u2060\n", "\0\n", ".\n", "\n" * 500,
    "\u200c\n",
    "\x08\n", "\u200e\n", "%\n", "\u2029\n", "\u2007\n", "\u200d\n", "\u0084\n", "\u0086\n", "\u009f\n", "\u00a1\n", "\u1681\n",
    "\u1fff\n",
    "\u2027\n", "\u202a\n", "\u202e\n", "\u2030\n", "\u205e\n", "\u2060\n", "\u2fff\n", "\u3001\n", "\x0e\n", "!\n", "\x7f\n",
)]
