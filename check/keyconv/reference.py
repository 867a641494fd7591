"""What keyconv has to answer: what the words ask for, what a target carries, how certificates are made, and the order of refusals.

`convert(words, source, variables)` gives the exit status, the whole of standard output, and the words of the line on standard error.
Texts are read as check/lib/readers.py reads them and written as check/lib/formats.py writes them, so nothing here is shared with
the program. keyconv(1) has the names of refusals and their order; a text that is sealed and gets as far as its cipher ends with status
5, since the program has no ciphers.
"""
import hashlib
import re
from typing import NamedTuple, Optional

from lib import formats
from lib.readers import CERT_TYPES, CRITICAL, CURVES, ED25519, LIMIT, RSA, SK_ECDSA, SK_ED25519, WHITE
from lib.readers import Fields, Outside, Refused, base64, mpint, read_text, refusal_name, string

DONE, REFUSED, USAGE, READ_FAULT, WRITE_FAULT, OUTSIDE_FAULT, NO_MEMORY, TOO_LONG, NOT_UTF8 = range(9)
SAID = {
    USAGE: b"usage: keyconv openssh|ppk2|ppk3|ssh-pub|putty-pub|cert|tbs|fingerprint|sample", READ_FAULT: b"read fault",
    WRITE_FAULT: b"write fault", OUTSIDE_FAULT: b"outside fault", NO_MEMORY: b"out of memory", TOO_LONG: b"input too long",
    NOT_UTF8: b"input not UTF-8",
}
TARGETS = ("openssh", "ppk2", "ppk3", "ssh-pub", "putty-pub", "fingerprint")
VARIABLES = ("KEYCONV_PASS_IN", "KEYCONV_PASS_OUT", "KEYCONV_FRESH", "KEYCONV_SIGNATURE")
# The most bytes of a block in PuTTY's file: 65,535 lines of 64 characters.
LONGEST_BLOCK = 65_535 * 48


class Usage(Exception):
    """The words or the variables ask for nothing."""


# ---- words


class Request(NamedTuple):
    """What the options of cert and tbs ask for. Critical options and extensions are pairs of a name and the bytes of its data."""
    type: Optional[str] = None
    kind: Optional[str] = None
    after: Optional[int] = None
    before: Optional[int] = None
    serial: Optional[int] = None
    id: Optional[str] = None
    algorithm: Optional[str] = None
    principal: tuple = ()
    critical: tuple = ()
    extension: tuple = ()


# Of each algorithm the type of the issuer's key, and the signature's format.
ALGORITHMS = {
    "rsa-sha1": (RSA, RSA), "rsa-sha2-256": (RSA, "rsa-sha2-256"), "rsa-sha2-512": (RSA, "rsa-sha2-512"), "ed25519": (ED25519, ED25519),
    **{f"ecdsa-sha2-{hashed}": (name, name) for hashed, name in zip(("256", "384", "512"), CURVES)},
}
PERMITS = tuple((f"permit-{what}", b"") for what in ("X11-forwarding", "agent-forwarding", "port-forwarding", "pty", "user-rc"))


def one_of(words):
    def value(word):
        if word not in words:
            raise Usage
        return word
    return value


def number(word):
    if not re.fullmatch(r"0|[1-9][0-9]{0,19}", word, re.ASCII) or int(word) >= 2**64:
        raise Usage
    return int(word)


def option(is_name):
    def value(word):
        name, is_given, text = word.partition("=")
        if not is_name(name):
            raise Usage
        return name, string(text.encode()) if is_given else b""
    return value


OPTIONS = {
    "type": one_of(CERT_TYPES), "kind": one_of(("client", "host")), "after": number, "before": number, "serial": number, "id": str,
    "algorithm": one_of(ALGORITHMS), "principal": str, "critical": option(CRITICAL.__contains__), "extension": option(bool),
}


def request_of(words):
    given = {}
    if len(words) % 2:
        raise Usage
    for name, word in zip(words[::2], words[1::2]):
        if not name.startswith("--") or name[2:] not in OPTIONS:
            raise Usage
        name = name[2:]
        value = OPTIONS[name](word)
        if isinstance(Request._field_defaults[name], tuple):
            given[name] = (*given.get(name, ()), value)
        elif name in given:
            raise Usage
        else:
            given[name] = value
    return Request(**given)


def command_of(words):
    """The command, and what certificate is asked for, if one is."""
    if not words:
        raise Usage
    command, *rest = words
    if command in ("cert", "tbs"):
        return command, request_of(rest)
    if command == "sample":
        if len(rest) != 1 or not 1 <= number(rest[0]) <= 1000:
            raise Usage
    elif command not in TARGETS or rest:
        raise Usage
    return command, None


class Given(NamedTuple):
    """What the variables of the environment say."""
    pass_in: Optional[str]
    pass_out: Optional[str]
    fresh: bytes
    signature: Optional[bytes]


def given_of(variables):
    def hexadecimal(digits):
        if digits is None:
            return None
        if not re.fullmatch(rb"(?:[0-9A-Fa-f]{2})*", digits):
            raise Usage
        return bytes.fromhex(digits.decode())

    values = [variables.get(name) for name in VARIABLES]
    texts = [value if value is None else value.decode() for value in values[:2]]
    fresh, signature = map(hexadecimal, values[2:])
    return Given(*texts, fresh or b"", signature)


# ---- reading


def read(text, passphrase, whose):
    """The item that a text means; a refusal has the path that keyconv prints."""
    try:
        return read_text(text, passphrase)
    except Refused as refused:
        raise Refused(f"{whose}.{refusal_name(*refused.args)}") from None


def parts_of(text):
    """The issuer's text, None where there is no line %%, and the key text."""
    parts = re.split(r"(?:\A|(?<=\n))%%(?:\r?\n|\Z)", text, maxsplit=1)
    return parts if len(parts) == 2 else [None, text]


# ---- writing


def type_of(blob):
    return Fields(blob).text()


def fresh_enough(given, count):
    if len(given.fresh) < count:
        raise Refused("FreshTooShort")


def carried(comment, ends, white=False):
    if any(end in comment for end in ends) or white and comment != comment.rstrip(WHITE):
        raise Refused("CommentNotCarried")


def putty_secret(item):
    """The private part of PuTTY's file."""
    fields = Fields(item.private)
    name = fields.text()
    if name == RSA:
        _, _, d, iqmp, p, q = (fields.mpint() for _ in range(6))
        return b"".join(map(mpint, (d, p, q, iqmp)))
    return mpint(item.private[len(item.blob) + 4:-32].lstrip(b"\0")) if name == ED25519 else item.private[len(item.blob):]


def openssh_text(item, given):
    if item.kind != "private":
        raise Refused("NoPrivateKey")
    carried(item.comment, "", white=True)
    if given.pass_out == "":
        raise Refused("output.private.HashingError")
    if given.pass_out is not None:
        fresh_enough(given, 16)
        raise Outside
    return formats.armoured(formats.envelope(item.blob, item.private, item.comment.encode()))


def putty_text(item, version, given):
    if item.kind != "private":
        raise Refused("NoPrivateKey")
    no_device(item)
    carried(item.comment, "\n")
    if version == 3 and item.comment.endswith("\r"):
        raise Refused("CommentNotCarried")
    secret = putty_secret(item)
    if given.pass_out is not None:
        fresh_enough(given, -len(secret) % 16 + (16 if version == 3 else 0))
    if max(len(item.blob), len(secret)) > LONGEST_BLOCK:
        raise Refused("TooManyLines")
    if given.pass_out is not None:
        raise Outside
    return formats.putty_file(version, type_of(item.blob).encode(), item.blob, secret, item.comment.encode())


def no_device(item):
    if type_of(item.blob) in (SK_ECDSA, SK_ED25519):
        raise Refused("output.putty.NotSupported")


def public_text(item):
    carried(item.comment, "\r\n", white=True)
    return formats.public_line(type_of(item.blob).encode(), item.blob, item.comment.encode())


def putty_public_text(item):
    no_device(item)
    carried(item.comment, "\n")
    return formats.putty_public(item.blob, re.sub(r'([\\"])', r"\\\1", item.comment).encode())


def fingerprints(item):
    sha1, sha256 = (base64(digest(item.blob).digest()).rstrip(b"=") for digest in (hashlib.sha1, hashlib.sha256))
    return b"MD5:%b\nSHA1:%b\nSHA256:%b\n" % (hashlib.md5(item.blob).hexdigest().encode(), sha1, sha256)


# ---- certificates


def refusal(request, subject, issuer):
    """Why no certificate is made, and the signature's format where one is."""
    if request.type is None:
        raise Refused("request.NoKeyType")
    if CERT_TYPES[request.type] in (None, "ecdsa-sha2-nistp521") or CERT_TYPES[request.type] != type_of(subject.blob):
        raise Refused("request.UnsupportedCertificateKeyType")
    if request.kind is None:
        raise Refused("request.MissingCertificateType")
    if request.after is None or request.before is None or request.after > request.before:
        raise Refused("request.InvalidTime")
    if request.kind == "host" and request.extension:
        raise Refused("request.HostCertificateExtensions")
    if request.kind == "host" and request.critical:
        raise Refused("request.HostCertificateCriticalOptions")
    if issuer is None:
        raise Refused("request.MissingSignatureKey")
    by_default = {RSA: "rsa-sha2-256", ED25519: "ed25519", SK_ED25519: "ed25519", SK_ECDSA: "ecdsa-sha2-256",
                  **{name: f"ecdsa-sha2-{name[-3:]}" for name in CURVES}}
    signs, form = ALGORITHMS[request.algorithm or by_default[CERT_TYPES[request.type]]]
    if signs != type_of(issuer.blob):
        raise Refused("request.IncorrectSignatureAlgorithm")
    return form


def joined(strings):
    return b"".join(map(string, strings))


def options(pairs):
    in_order = sorted(pairs, key=lambda pair: pair[0].encode())
    return joined(it for name, payload in in_order for it in (name.encode(), payload))


def certificate(command, request, subject, issuer, given):
    carried(subject.comment, "\r\n", white=True)
    form = refusal(request, subject, issuer)
    fresh_enough(given, 32)
    is_host = request.kind == "host"
    extensions = request.extension or (() if is_host else PERMITS)
    signed = formats.to_be_signed(
        request.type.encode(), given.fresh[:32], subject.blob[len(string(type_of(subject.blob).encode())):],
        formats.HOST if is_host else formats.USER, issuer.blob, (request.id or "").encode(),
        joined(it.encode() for it in request.principal), request.after, request.before, options(request.critical), options(extensions),
        request.serial or 0)
    if command == "tbs":
        return signed.hex().encode() + b"\n"
    if given.signature is None:
        raise Outside
    whole = formats.certificate(signed, form.encode(), given.signature)
    return formats.public_line(request.type.encode(), whole, subject.comment.encode())


# ---- the program


class Answer(NamedTuple):
    status: int
    # None where nobody says here what it is.
    output: Optional[bytes] = b""
    # The refusal's name.
    cause: tuple = ()
    item: object = None

    def said(self):
        """What comes on standard error."""
        if self.status == DONE:
            return b""
        word = b"refused: " + self.cause[0].encode() if self.status == REFUSED else SAID[self.status]
        return b"keyconv: " + word + b"\n"


def written(command, request, text, given):
    """What a command writes, and the key that was read."""
    issuer = None
    if request is not None:
        before, text = parts_of(text)
        issuer = before if before is None else read(before, given.pass_in, "issuer")
    item = read(text, given.pass_in, "input")
    if request is not None:
        return certificate(command, request, item, issuer, given), item
    if command in ("ppk2", "ppk3"):
        return putty_text(item, int(command[-1]), given), item
    if command == "openssh":
        return openssh_text(item, given), item
    return {"ssh-pub": public_text, "putty-pub": putty_public_text, "fingerprint": fingerprints}[command](item), item


def asked(words, variables):
    """What the words and the variables ask for, as None where that is nothing. Both come as bytes."""
    try:
        return *command_of([word.decode() for word in words]), given_of(variables)
    except (Usage, UnicodeDecodeError):
        return None


def convert(words, source, variables):
    """What a run ends with. The words, and the values of variables by their names, come as bytes."""
    what = asked(words, variables)
    if what is None:
        return Answer(USAGE)
    command, request, given = what
    if command == "sample":
        return Answer(DONE, None)
    if len(source) > LIMIT:
        return Answer(TOO_LONG)
    try:
        text = source.decode()
    except UnicodeDecodeError:
        return Answer(NOT_UTF8)
    try:
        return Answer(DONE, *(lambda output, item: (output, (), item))(*written(command, request, text, given)))
    except Refused as refused:
        return Answer(REFUSED, cause=refused.args)
    except Outside:
        return Answer(OUTSIDE_FAULT)
