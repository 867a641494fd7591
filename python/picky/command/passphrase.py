"""picky passphrase: another passphrase in a key's file, or none."""
from __future__ import annotations

import argparse
from typing import Callable

from ..answers import wipe
from . import sealing
from .edit import replace, written
from .passphrases import Passphrases, add_new_options, add_options, new
from .said import each
from .sources import alone, check_private, private_key

USAGE = "[OPTION..] FILE"


def add(parser: argparse.ArgumentParser) -> Callable[[argparse.Namespace], int]:
    """Adds the options."""
    parser.description = (
        "Encrypt the private key in FILE under a new passphrase, which is asked for twice, in the same form. What isn't said by "
        "option stays as the file has it."
    )
    parser.add_argument("file", metavar="FILE", help="the key's file, which is replaced")
    add_options(parser)
    add_new_options(parser, asks=True)
    sealing.add_options(parser)
    return run


def run(arguments: argparse.Namespace) -> int:
    """Sets the passphrase, or takes it off."""
    passphrases = Passphrases(arguments)

    def set_passphrase(name: str) -> None:
        given = alone(name)
        check_private(given)
        sealing.check(given, arguments)
        key, _ = private_key(given, passphrases)
        with key:
            passphrase = None if arguments.no_passphrase else new(arguments)
            content = written(given, key, passphrase, arguments)
        replace(given, content)
        wipe(content)

    return each([arguments.file], set_passphrase)
