"""The key texts of a file: each block, and each line, without what stands before its key."""
from __future__ import annotations

import re
from typing import Iterator, NamedTuple, Tuple, Union

_TYPE = (
    rb"(?:ssh-rsa|ssh-dss|ssh-ed25519|ssh-ed448|ecdsa-sha2-nistp(?:256|384|521)"
    rb"|sk-(?:ssh-ed25519|ecdsa-sha2-nistp256)@openssh\.com|[!-~]{1,64}-cert-v0[01]@openssh\.com)"
)
_KEY = re.compile(_TYPE + rb"[ \t]+[A-Za-z0-9+/=]")
_BLOCK = re.compile(
    rb"-----BEGIN (?P<label>[A-Z0-9 ]*(?:PRIVATE|PUBLIC) KEY)-----"
    rb"|(?P<putty>PuTTY-User-Key-File-)|(?P<ssh2>---- BEGIN SSH2 )"
)
# What ends a field, or keeps blanks in it.
_SIGN = re.compile(rb'\\"|["\t ]')
_MARK = b"\xef\xbb\xbf"


class Piece(NamedTuple):
    """A key text: the number of its first line in the file, what it is, and what stands before it in its line.

    `shaped` says whether it begins as a key does.
    """

    line: int
    text: bytes
    before: bytes
    shaped: bool


def pieces(content: Union[bytes, bytearray]) -> Iterator[Piece]:
    """The key texts of a file in their order. Empty lines, comments (#) and a byte order mark are none."""
    at, number = (len(_MARK) if content.startswith(_MARK) else 0), 1
    while at < len(content):
        begin = _past_blanks(content, at)
        block = _BLOCK.match(content, begin)
        end = _end_of_block(content, block) if block else _end_of_line(content, begin)
        text = bytes(content[begin:end])
        if block:
            yield Piece(number, text, b"", True)
        elif text.strip() and not text.startswith(b"#"):
            before, key, shaped = _without_front(text)
            yield Piece(number, key, before, shaped)
        number += content.count(b"\n", at, end)
        at = end


def _past_blanks(content: Union[bytes, bytearray], at: int) -> int:
    while content[at : at + 1] in (b" ", b"\t"):
        at += 1
    return at


def _end_of_line(content: Union[bytes, bytearray], at: int) -> int:
    end = content.find(b"\n", at)
    return len(content) if end < 0 else end + 1


def _end_of_block(content: Union[bytes, bytearray], block: "re.Match[bytes]") -> int:
    """Where a block ends: behind its last line, or its footer where more stands in that line."""
    if block["putty"]:
        last = re.compile(rb"^Private-(?:MAC|Hash): [^\r\n]*", re.MULTILINE)
    elif block["ssh2"]:
        last = re.compile(rb"^---- END SSH2 [A-Z ]*----", re.MULTILINE)
    else:
        last = re.compile(b"-----END " + re.escape(block["label"]) + b"-----")
    found = last.search(content, block.end())
    if found is None:
        return len(content)
    end = _end_of_line(content, found.end())
    return found.end() if content[found.end() : end].strip() else end


def _without_front(line: bytes) -> Tuple[bytes, bytes, bool]:
    """What stands before the key of a line, the key, and whether there is one."""
    at = 0
    for _ in range(3 if line.startswith(b"@") else 2):
        if _KEY.match(line, at):
            return line[:at].rstrip(), line[at:], True
        at = _past_field(line, at)
    return b"", line, False


def _past_field(line: bytes, at: int) -> int:
    """Where the next field begins, behind one of options (sshd(8)), of which quotes keep blanks, or of host names."""
    quoted = False
    for sign in _SIGN.finditer(line, at):
        if sign[0] == b'"':
            quoted = not quoted
        elif sign[0] in (b" ", b"\t") and not quoted:
            return _past_blanks(line, sign.end())
    return len(line)
