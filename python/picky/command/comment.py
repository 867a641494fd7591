"""picky comment: another comment in a key's file."""
from __future__ import annotations

import argparse
import os
from typing import Callable

from .. import _library
from ..answers import wipe
from ..errors import PassphraseNeeded
from . import sealing
from .edit import replace, written
from .passphrases import Passphrases, add_options
from .said import Refusal, each
from .sources import FOREIGN, alone, private_key

USAGE = "[OPTION..] FILE TEXT"


def add(parser: argparse.ArgumentParser) -> Callable[[argparse.Namespace], int]:
    """Adds the options."""
    parser.description = (
        "Give the key in FILE the comment TEXT, in the same form: a private key of OpenSSH or PuTTY, a public key line, or a "
        "public key of PuTTY. An encrypted key stays encrypted as it is, but for what the options say."
    )
    parser.add_argument("file", metavar="FILE", help="the key's file, which is replaced")
    parser.add_argument("text", metavar="TEXT", help="the comment; it may be empty")
    add_options(parser)
    sealing.add_options(parser)
    return run


def run(arguments: argparse.Namespace) -> int:
    """Sets the comment."""
    passphrases = Passphrases(arguments)

    def set_comment(name: str) -> None:
        given = alone(name)
        if given.form in FOREIGN:
            raise Refusal("PEM and PKCS #8 have no comment")
        sealing.check(given, arguments)
        try:
            content = _library.with_comment(given.text, os.fsencode(arguments.text))
        except PassphraseNeeded:
            key, passphrase = private_key(given, passphrases)
            with key, key.with_comment(arguments.text) as other:
                content = written(given, other, passphrase, arguments)
        replace(given, content)
        wipe(content)

    return each([arguments.file], set_comment)
