"""How puttyppk ends: the cases that check/statuses tries.

docs/FORMATS.md says which statuses and texts are wanted. The files are made here by PuTTY's manual, or puttygen made them by the
command beside them.
"""
import itertools

from lib.cases import CLOSED, Case, End, FOLDER, FULL, LEFT, LIMIT, NEAR, UNREAD, always, deaf, helps, printed, surrounded
from lib.formats import ED25519, RSA, mpint, mpints, putty_file, putty_public, rsa_blob, string
from keyconv.cases import BLOB, KEY_PPK, LINE, ZERO, ppk, sealed_ppk

REFUSED, USAGE = End(1, b""), End(2, b"usage: puttyppk < PPK\n")
READ_FAULT, WRITE_FAULT = End(3, b""), End(4, b"")
NO_MEMORY, TOO_LONG, NOT_UTF8 = End(6, b""), End(7, b""), End(8, b"")

VERSIONS = (2, 3)


def number(version, secret, comment=b"k"):
    """The file whose secret is a number, as keyconv writes it."""
    return putty_file(version, ED25519, BLOB, mpint(secret), comment)


def filtered(name, source, wanted, **more):
    return Case(name, (), source, wanted, taken=len(source), **more)


def unchanged(name, source):
    return filtered(name, source, source)


def low_line_ends(text):
    return text.replace(b"\r\n", b"\n")


def high_line_ends(text):
    return text.replace(b"\n", b"\r\n")


# Files of version 3 and 2 as keyconv writes them, and as PuTTY does.
NUMBER, STRING = (make(3, b"\x80" * 32) for make in (number, lambda version, secret: ppk(version, b"k", secret)))


def done():
    for version in VERSIONS:
        for front in (b"", b"\0", b"\0\x7f", b"\0\x80", b"\0\0\1", b"\x7f", b"\x80", b"\xff"):
            secret = front.ljust(32, b"s")
            wanted = ppk(version, b"k", secret)
            yield filtered(f"version {version}, a secret that begins with {front.hex()}", number(version, secret), wanted)
            yield unchanged(f"version {version}, PuTTY's file of one that begins with {front.hex()}", wanted)
        zeros = ppk(version, b"k", bytes(32))
        yield filtered(f"version {version}, a secret of zeros", number(version, bytes(32)), zeros)
        yield filtered(f"version {version}, needless zeros", ppk(version, b"k", bytes(40)), zeros)
        more = putty_file(version, ED25519, BLOB, string(bytes(32)) + b"more", b"k")
        yield filtered(f"version {version}, bytes after the secret", more, zeros)
        behind = putty_file(version, ED25519, BLOB + b"more", string(bytes(32)), b"k")
        yield unchanged(f"version {version}, bytes after the public key", behind)
        for name, comment in (("no comment", b""), ("a comment with white space at its end", b"a b \t"),
                              ("a comment beyond ASCII", "\u00e9 \u20ac".encode()), ("a comment like a line", b"Private-Lines: 1"),
                              ("CR in a comment", b"a\rb")):
            yield filtered(f"version {version}, {name}", number(version, bytes(32), comment), ppk(version, comment, bytes(32)))
        rsa = putty_file(version, RSA, rsa_blob(b"\x81n", b"\3"), mpints(b"d", b"p", b"q", b"i"), b"k")
        yield unchanged(f"version {version}, an RSA key", rsa)
        # Of other files the secret isn't read.
        for kind in (RSA, b"ssh-dss", b"ssh-ed448", b"ecdsa-sha2-nistp521"):
            yield unchanged(f"version {version}, bytes for a key of {kind.decode()}", putty_file(version, kind, b"blob", b"secret", b"k"))
    yield unchanged("puttygen's file of an ECDSA key", KEY_PPK)
    yield filtered("text after the MAC", NUMBER + b"more\n", STRING)
    yield filtered("a file without the last line end", NUMBER[:-1], STRING)
    yield filtered("version 3 with CR LF", high_line_ends(NUMBER), STRING)
    yield filtered("version 2 with LF", low_line_ends(number(2, bytes(32))), ppk(2, b"k", bytes(32)))
    yield filtered("a comment that ends in CR, in version 2", ppk(2, b"x\r", b""), ppk(2, b"x\r", bytes(32)))
    mac = NUMBER.rsplit(b" ", 1)
    yield filtered("a MAC in upper case", mac[0] + b" " + mac[1].upper(), STRING)


def refusals():
    texts = {
        "nothing": b"", "no file": b"hello\n", "an OpenSSH private key": ZERO, "a public key line": LINE,
        "PuTTY's public key": putty_public(BLOB, b"k"), "version 1": STRING.replace(b"File-3", b"File-1"),
        "another version, whose MAC is another": STRING.replace(b"File-3", b"File-2"), "an empty line before the file": b"\n" + STRING,
        "a MAC of another secret": STRING.replace(b"gICA", b"gIGA", 1), "a MAC of another comment": STRING.replace(b": k", b": l"),
        "no MAC": STRING[:STRING.index(b"Private-MAC")], "a file that is cut": STRING[:-20],
        "a secret of 33 bytes": ppk(3, b"k", b"\1" + bytes(32)), "a secret that is cut": putty_file(3, ED25519, BLOB, string(bytes(32))[:-1], b"k"),
        "no secret": putty_file(3, ED25519, BLOB, b"", b"k"), "an RSA key that is called Ed25519's": putty_file(3, ED25519, rsa_blob(b"\x81n", b"\3"), string(bytes(32)), b"k"),
        "a blob that is cut": putty_file(3, ED25519, BLOB[:-1], string(bytes(32)), b"k"),
        "a sealed file 2": sealed_ppk(2), "a sealed file 3": sealed_ppk(3),
        # Version 3 has no line for this comment.
        "a comment that ends in CR": high_line_ends(ppk(3, b"x\r", bytes(32))),
    }
    for name, text in texts.items():
        yield Case(name, (), text, b"", REFUSED, taken=len(text))
    yield Case("a passphrase for a sealed file", (), sealed_ppk(3), b"", REFUSED, {"KEYCONV_PASS_IN": "p"})


def usages():
    words = {
        "an empty word": ("",), "a word": ("ppk3",), "a file": ("/dev/null",), "-": ("-",), "a short option": ("-h",),
        "an unknown option": ("--output",), "--help with a word": ("--help", "ppk3"), "--help twice": ("--help", "--help"),
        "--version with a word": ("--version", "--help"), "a word that isn't UTF-8": (b"\xff",),
        "a second word that isn't UTF-8": ("--help", b"\xff"), **{f"a word near to --help: {word!r}": (word,) for word in NEAR},
    }
    for name, given in words.items():
        yield Case(name, given, NUMBER, b"", USAGE, taken=0)


def read_faults():
    yield Case("a folder", (), FOLDER, b"", READ_FAULT)
    yield Case("a closed standard input", (), CLOSED, b"", READ_FAULT)


def write_faults():
    comment = b"x" * 1_000_000
    long = number(3, bytes(32), comment)
    for to in (FULL, CLOSED, UNREAD):
        for name, source in (("a file", NUMBER), ("a long comment", long)):
            yield Case(f"{name} to {to}", (), source, None, WRITE_FAULT, to=to, taken=len(source))
        for word in ("--help", "--version"):
            yield Case(f"{word} to {to}", (word,), NUMBER, None, WRITE_FAULT, to=to, taken=0)
        # Where nothing is to be written, the stream isn't asked.
        yield Case(f"a refusal beside {to}", (), b"x\n", None, REFUSED, to=to)
        yield Case(f"a usage error beside {to}", ("x",), NUMBER, None, USAGE, to=to)
    yield Case(f"a long comment to {LEFT}", (), long, None, WRITE_FAULT, to=LEFT)


def limits():
    whole = NUMBER.ljust(LIMIT, b"x")
    yield filtered("16,777,216 bytes", whole, STRING)
    comment = b"x" * (LIMIT - len(number(3, bytes(32), b"")))
    yield filtered("16,777,216 bytes with the comment", number(3, bytes(32), comment), ppk(3, comment, bytes(32)))
    yield Case("16,777,217 bytes", (), whole + b"x", b"", TOO_LONG, taken=LIMIT + 1)
    yield Case("more bytes", (), whole + b"x" * 9999, b"", TOO_LONG, taken=LIMIT + 1)
    yield Case("too many bytes that aren't UTF-8", (), b"\xff" * (LIMIT + 1), b"", TOO_LONG)
    yield Case("16,777,216 bytes, in as many bytes of memory", (), whole, b"", NO_MEMORY, memory=LIMIT)
    for name, text in (("a byte that is no UTF-8", NUMBER + b"\xff\n"), ("UTF-16", NUMBER.decode().encode("utf-16")),
                       ("what is no UTF-8 behind what is refused", b"x\n\xc3"), ("a surrogate", ppk(3, b"\xed\xa0\x80", bytes(32)))):
        yield Case(name, (), text, b"", NOT_UTF8, taken=len(text))


TEXTS = printed("puttyppk", [
    b"usage: puttyppk < PPK", *b"--help --version keyconv ppk2 ppk3 Ed25519".split(),
    *(b"%d " % status for status in range(9) if status != 5)])


def texts():
    yield from helps(TEXTS, NUMBER)
    yield filtered("a variable LANG that isn't UTF-8", NUMBER, STRING, env={"LANG": b"\xff"})


def environments():
    """It reads no variable."""
    rows = [always("a file", (), NUMBER, STRING), always("a sealed file", (), sealed_ppk(3), b"", REFUSED)]
    rows += [always(f"the words {words}", words, NUMBER, b"", USAGE) for words in (("-h",), ("--help", "ppk3"))]
    yield from surrounded(rows, TEXTS)


def all_cases():
    for group in (done, refusals, usages, read_faults, write_faults, limits, texts, environments):
        yield from group()
    for group in (done, refusals, usages, read_faults, write_faults):
        yield from deaf(itertools.islice(group(), 2))
    yield from deaf(limits())
