"""What keyledger has to answer: a reader and writer of ledgers and the rules by which one grows, which share nothing with the program.

`ledger(source, fresh, signature)` gives the exit status and the whole of standard output. Public keys and certificates are read as
check/lib/readers.py reads them, by RFC 4251 and 4253 and OpenSSH's PROTOCOL files; docs/FORMATS.md has a ledger's text and
the lines of requests.
"""
import re
from typing import NamedTuple, Optional

from lib.readers import LIMIT, RSA, SK_ECDSA, SK_ED25519, V01, WHITE, Certificate, Fields, Refused, base64, certificate
from lib.readers import lines_of, public_line, string, text_of, unbase64

(DONE, BAD_INPUT, BAD_LEDGER, BAD_ISSUER, FRESH_TOO_SHORT, LEDGER_TOO_LONG, READ_FAULT, WRITE_FAULT, OUTSIDE_FAULT, NO_MEMORY, TOO_LONG,
 NOT_UTF8, NOT_HEX) = range(13)

LAST = 2**64 - 1
PERMITS = ("permit-X11-forwarding", "permit-agent-forwarding", "permit-port-forwarding", "permit-pty", "permit-user-rc")
MARK = "%%\n"


class Outside(Exception):
    """A certificate is to be signed, and no signature was handed in."""


def number_of(word):
    """The number that a word says, of 64 bits and without needless zeros."""
    if not re.fullmatch(r"0|[1-9][0-9]{0,19}", word) or int(word) > LAST:
        raise Refused("number")
    return int(word)


def type_of(blob):
    return Fields(blob).text()


# ---- certificates


def joined(strings):
    return string(b"".join(map(string, strings)))


def options(pairs):
    return joined(it for name, value in pairs for it in (name.encode(), value))


def to_be_signed(cert):
    """What is signed of a certificate, in the one spelling that is written (PROTOCOL.certkeys)."""
    fields = Fields(cert.key)
    fields.string()
    return b"".join((
        string(cert.name.encode()), string(cert.nonce), cert.key[fields.at:], cert.serial.to_bytes(8, "big"),
        (2 if cert.is_host else 1).to_bytes(4, "big"), string(cert.key_id.encode()), joined(it.encode() for it in cert.principals),
        cert.valid_after.to_bytes(8, "big"), cert.valid_before.to_bytes(8, "big"), options(cert.critical_options),
        options(cert.extensions), string(b""), string(cert.issuer),
    ))


def certificate_line(cert):
    """The certificate's line, without its end."""
    blob = to_be_signed(cert) + string(string(cert.form.encode()) + cert.signature)
    return f"{cert.name} {base64(blob).decode()} {cert.comment}"


# ---- requests


class Request(NamedTuple):
    id: str
    is_host: bool
    principals: list
    valid_after: int
    valid_before: int
    # The blob of the subject's key, and its comment.
    key: bytes
    comment: str

    def refusal(self, issuer):
        """The name of why no certificate is made, and none where one is."""
        if type_of(self.key) == "ecdsa-sha2-nistp521":
            return "UnsupportedCertificateKeyType"
        if self.valid_after > self.valid_before:
            return "InvalidTime"
        return "IncorrectSignatureAlgorithm" if type_of(issuer) in (SK_ECDSA, SK_ED25519) else None

    def certified(self, serial, nonce, issuer, signature):
        name, by = (type_of(key) for key in (self.key, issuer))
        extensions = [] if self.is_host else [(permit, b"") for permit in PERMITS]
        return Certificate(name.removesuffix("@openssh.com") + V01, nonce, self.key, serial, self.is_host, self.id, self.principals,
                           self.valid_after, self.valid_before, [], extensions, issuer, b"",
                           "rsa-sha2-512" if by == RSA else by, string(signature), self.comment)


def request_of(line):
    words = line.split(" ", 5)
    if len(words) < 6:
        raise Refused("words")
    if not words[0] or set(words[0]) & set(WHITE):
        raise Refused("id")
    if words[1] not in ("client", "host"):
        raise Refused("kind")
    principals = [] if words[2] == "-" else words[2].split(",")
    if "" in principals:
        raise Refused("principals")
    subject = public_line(words[5])
    return Request(words[0], words[1] == "host", principals, number_of(words[3]), number_of(words[4]), subject.blob, subject.comment)


# ---- ledgers


class Entry(NamedTuple):
    request: str
    certificate: Certificate

    def line(self, name):
        return f"{name} {base64(self.request.encode()).decode()} {certificate_line(self.certificate)}\n"


class Ledger:
    """The next serial, and the entries by their ids, in order."""

    def __init__(self, serial, entries):
        self.next, self.entries = serial, entries

    def text(self):
        return f"next {self.next}\n" + "".join(entry.line(name) for name, entry in self.entries.items())

    def answer(self, line, nonce, issuer, signature):
        """The reply to a request, which may have added an entry."""
        try:
            asked = request_of(line)
        except Refused:
            return "bad"
        kept = self.entries.get(asked.id)
        if kept:
            return f"{'again' if kept.request == line else 'conflict'} {asked.id} {kept.certificate.serial}"
        if self.next == LAST:
            return f"full {asked.id}"
        name = asked.refusal(issuer)
        if name:
            return f"refused {asked.id} {name}"
        if signature is None:
            raise Outside
        self.entries[asked.id] = Entry(line, asked.certified(self.next, nonce, issuer, signature))
        self.next += 1
        return f"issued {asked.id} {self.next - 1}"


def entry_of(line):
    """The id and the entry that a line tells."""
    words = line.split(" ", 2)
    if len(words) < 3:
        raise Refused("words")
    request = text_of(unbase64(words[1], "base64"))
    if request_of(request).id != words[0]:
        raise Refused("another id")
    cert = certificate(words[2])
    if certificate_line(cert) != words[2]:
        raise Refused("not canonical")
    return words[0], Entry(request, cert)


def ledger_of(text):
    """The ledger whose text this is: each of its lines ends in LF alone."""
    first, *lines, rest = text.split("\n") if "\n" in text else ("", text)
    if rest or not first.startswith("next "):
        raise Refused("next")
    serial, last, entries = number_of(first[5:]), 0, {}
    if not serial:
        raise Refused("next 0")
    for line in lines:
        name, entry = entry_of(line)
        if name in entries:
            raise Refused("id twice")
        if not last < entry.certificate.serial < serial:
            raise Refused("serial")
        entries[name], last = entry, entry.certificate.serial
    return Ledger(serial, entries)


# ---- the program


class Answer(NamedTuple):
    status: int
    output: Optional[bytes] = b""
    # For tables alone: why, the ledger that was read or written, and the replies.
    cause: tuple = ()
    ledger: Optional[Ledger] = None
    replies: list = []


def parts_of(text):
    """What stands before the first line that is exactly %%, what before the second, and what behind it."""
    return re.split(r"(?:\A|(?<=\n))%%(?:\r?\n|\Z)", text, maxsplit=2)


def bytes_of(digits):
    """The bytes that a variable says in hex, and None where there is none."""
    if digits is None:
        return None
    if not re.fullmatch(rb"(?:[0-9A-Fa-f]{2})*", digits):
        raise Refused("hex")
    return bytes.fromhex(digits.decode())


def ledger(source, fresh=None, signature=None):
    """What a run ends with. KEYCONV_FRESH and KEYCONV_SIGNATURE come as bytes, and as None where there is none."""
    try:
        fresh, signature = bytes_of(fresh) or b"", bytes_of(signature)
    except Refused:
        return Answer(NOT_HEX)
    if len(source) > LIMIT:
        return Answer(TOO_LONG)
    try:
        parts = parts_of(source.decode())
    except UnicodeDecodeError:
        return Answer(NOT_UTF8)
    if len(parts) < 3:
        return Answer(BAD_INPUT, cause=(f"{len(parts)} parts",))
    status = BAD_LEDGER
    try:
        kept = ledger_of(parts[0])
        status = BAD_ISSUER
        issuer = public_line(parts[1]).blob
    except Refused as refused:
        return Answer(status, cause=refused.args)
    lines = [line for line in lines_of(parts[2]) if line]
    if len(fresh) < 32 * len(lines):
        return Answer(FRESH_TOO_SHORT, ledger=kept)
    try:
        replies = [kept.answer(line, fresh[32 * at:32 * at + 32], issuer, signature) for at, line in enumerate(lines)]
    except Outside:
        return Answer(OUTSIDE_FAULT, cause=("no signature",), ledger=kept)
    text = kept.text()
    if len(text.encode()) >= 2**32:
        return Answer(LEDGER_TOO_LONG)
    return Answer(DONE, (text + MARK + "".join(reply + "\n" for reply in replies)).encode(), ("done",), kept, replies)
