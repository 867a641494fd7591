"""What keypolicy has to answer: a reader of authorized keys and the rules of a policy, which share nothing with the program.

`policy(words, source, verified)` gives the exit status and the whole of standard output. Public keys and certificates are read as
check/lib/readers.py reads them, by RFC 4251 and 4253 and OpenSSH's PROTOCOL files. The file is a profile of what sshd's
manual says in AUTHORIZED_KEYS FILE FORMAT: docs/FORMATS.md has it.
"""
import re
from typing import NamedTuple, Optional

from lib.readers import KEY_TYPES, LIMIT, Certificate, Fields, Refused, base64, certificate, cut, form_of, lines_of
from lib.readers import public_line, text_of, words_of

(GRANTED, DENIED, USAGE, BAD_OFFER, READ_FAULT, WRITE_FAULT, OUTSIDE_FAULT, NO_MEMORY, TOO_LONG, NOT_UTF8) = range(10)
MESSAGE = GRANTED


class Denied(Exception):
    """A rule fails, by its name."""


class Outside(Exception):
    """A signature is to be verified, and nothing was handed in that says whether it is right."""


# ---- the file

NAME = re.compile(r"[A-Za-z0-9-]+")
# A quote behind a backslash neither opens nor closes.
QUOTE = re.compile(r'(?<!\\)"')
QUOTE_OR_BLANK = re.compile(r'(?<!\\)"|[ \t]')


class Option(NamedTuple):
    name: str
    value: Optional[str]

    def line(self):
        name = f"option {self.name}".encode()
        return name if self.value is None else name + b" " + base64(self.value.encode())


class Entry(NamedTuple):
    # The line, from 1.
    line: int
    options: list = []
    # The blob of the key, and without one why the line isn't read.
    key: Optional[bytes] = None
    cause: tuple = ()

    def value_of(self, name):
        """Whether an option stands there, and its value."""
        for option in self.options:
            if option.name == name:
                return True, option.value
        return False, None

    def is_authority(self):
        return self.value_of("cert-authority")[0]


def front_of(line):
    """What stands before the first blank that isn't between quotes. A quote that isn't closed goes to the end."""
    at = 0
    while True:
        found = QUOTE_OR_BLANK.search(line, at)
        if not found:
            return line
        if found[0] != '"':
            return line[:found.start()]
        closing = QUOTE.search(line, found.end())
        if not closing:
            return line
        at = closing.end()


def options_of(text):
    """The options, joined by commas."""
    options, at = [], 0
    while True:
        name, value = NAME.match(text, at), None
        if not name:
            raise Refused("options")
        at = name.end()
        if text.startswith('="', at):
            closing = QUOTE.search(text, at + 2)
            if not closing:
                raise Refused("options")
            value, at = text[at + 2:closing.start()].replace('\\"', '"'), closing.end()
        options.append(Option(name[0].lower(), value))
        if at == len(text):
            return options
        if text[at] != ",":
            raise Refused("options")
        at += 1


def has_fit_options(options):
    for name, has_value in (("cert-authority", False), ("principals", True)):
        found = [option for option in options if option.name == name]
        if len(found) > 1 or found and (found[0].value is not None) != has_value:
            return False
    return True


def entry_of(number, line):
    """What a line says whose leading blanks are dropped, and which is neither empty nor a comment."""
    options, text = [], line
    try:
        if words_of(line)[0] not in KEY_TYPES:
            front = front_of(line)
            options, text = options_of(front), line[len(front):].lstrip(" \t")
            if not has_fit_options(options):
                raise Refused("options")
        return Entry(number, options, public_line(text).blob)
    except Refused as refused:
        return Entry(number, cause=refused.args)


def entries_of(text):
    """The entries of a file, in the order of its lines."""
    entries = []
    for number, line in enumerate(lines_of(text), 1):
        line = line.lstrip(" \t")
        if line and line[0] != "#":
            entries.append(entry_of(number, line))
    return entries


# ---- the rules


class Demands(NamedTuple):
    """What a certificate asks of who logs in."""
    command: Optional[str] = None
    source: Optional[str] = None
    verify: bool = False


def offered(text):
    """The public line's key or the certificate that a text is."""
    form = form_of(text)[0]
    if form == "certificate":
        return certificate(text)
    if form == "public line":
        return public_line(text)
    raise Refused("form")


def demands_of(options):
    found = {}
    for name, payload in options:
        if name in found:
            raise Denied("CriticalOption")
        if name == "verify-required":
            if payload:
                raise Denied("CriticalOption")
            found[name] = True
            continue
        fields = Fields(payload)
        try:
            found[name] = text_of(fields.string())
        except Refused:
            raise Denied("CriticalOption") from None
        if fields.left():
            raise Denied("CriticalOption")
    return Demands(found.get("force-command"), found.get("source-address"), "verify-required" in found)


def has_principal(entry, principals, user):
    is_there, value = entry.value_of("principals")
    if is_there:
        return bool({name for name in value.split(",") if name} & set(principals))
    return not principals or user in principals


def decide(entries, offer, user, moment, verified):
    """The entry that grants, and what the certificate demands."""
    is_certificate = isinstance(offer, Certificate)
    key = offer.issuer if is_certificate else offer.blob
    entry = next((it for it in entries if it.key == key and it.is_authority() == is_certificate), None)
    if not entry:
        raise Denied("NoAuthority" if is_certificate else "NoLine")
    if not is_certificate:
        return entry, Demands()
    if offer.is_host:
        raise Denied("NotClient")
    if moment < offer.valid_after:
        raise Denied("NotYet")
    if moment >= offer.valid_before:
        raise Denied("Expired")
    if not has_principal(entry, offer.principals, user):
        raise Denied("Principal")
    demands = demands_of(offer.critical_options)
    if verified is None:
        raise Outside
    if verified != offer.signed:
        raise Denied("BadSignature")
    return entry, demands


def granted(entry, demands):
    """What is printed of a grant."""
    lines = [b"grant %d" % entry.line]
    for name, value in ((b"command", demands.command), (b"source", demands.source)):
        if value is not None:
            lines.append(name + b" " + base64(value.encode()))
    if demands.verify:
        lines.append(b"verify-required")
    lines += [option.line() for option in entry.options if option.name not in ("cert-authority", "principals")]
    return b"".join(line + b"\n" for line in lines)


# ---- the program


class Answer(NamedTuple):
    status: int
    output: Optional[bytes] = b""
    # For tables alone: why, and what the decision stands on.
    cause: tuple = ()
    entries: list = []
    offer: object = None


def moment_of(word):
    """The moment that a word says, and None where it says none."""
    if not re.fullmatch(rb"0|[1-9][0-9]{0,19}", word) or int(word) >= 2**64:
        return None
    return int(word)


def is_command(words):
    if words == (b"message",):
        return True
    if len(words) != 3 or words[0] != b"decide" or moment_of(words[2]) is None:
        return False
    return is_text(words[1])


def is_text(content):
    try:
        content.decode()
    except UnicodeDecodeError:
        return False
    return True


def policy(words, source, verified=None):
    """What a run ends with. The words and KEYPOLICY_VERIFIED come as bytes, the latter as None where there is none."""
    if not is_command(words) or verified is not None and not re.fullmatch(rb"(?:[0-9A-Fa-f]{2})*", verified):
        return Answer(USAGE)
    if len(source) > LIMIT:
        return Answer(TOO_LONG)
    if not is_text(source):
        return Answer(NOT_UTF8)
    file, text = cut(source.decode())
    try:
        offer = offered(text)
    except Refused as refused:
        return Answer(BAD_OFFER, cause=refused.args)
    if words == (b"message",):
        message = offer.signed if isinstance(offer, Certificate) else b""
        return Answer(MESSAGE, message.hex().encode() + b"\n", offer=offer)
    entries = entries_of(file)
    message = None if verified is None else bytes.fromhex(verified.decode())
    try:
        entry, demands = decide(entries, offer, words[1].decode(), moment_of(words[2]), message)
    except Denied as denied:
        return Answer(DENIED, b"deny %b\n" % denied.args[0].encode(), denied.args, entries, offer)
    except Outside:
        return Answer(OUTSIDE_FAULT, cause=("nothing verified",), entries=entries, offer=offer)
    return Answer(GRANTED, granted(entry, demands), ("granted",), entries, offer)
