"""Who signs certificates: a private key, or one of the agent's."""
from __future__ import annotations

import argparse
from contextlib import ExitStack, contextmanager
from typing import Iterator

from ..agent import Agent
from ..certificates import Signer
from ..errors import Error
from ..signatures import KeySigner
from . import passphrases
from .passphrases import Passphrases
from .said import Refusal, printable, refusal_of
from .sources import PRIVATE, first, private_key, public_key


def add_options(parser: argparse.ArgumentParser, required: bool) -> None:
    """Adds the options for who signs."""
    parser.add_argument(
        "--issuer", metavar="FILE", required=required, help="who signs: a key, or an agent's .pub"
    )
    passphrases.add_options(parser)


@contextmanager
def signer(name: str, given: Passphrases) -> Iterator[Signer]:
    """The signer by the private key in a file, or of a file with a public key by that key of the agent at SSH_AUTH_SOCK.

    Refuses, with the file's name, what is no key, one that doesn't open, and one that the agent hasn't.
    """
    with ExitStack() as stack:
        try:
            made = _signer(name, given, stack)
        except (Refusal, Error) as error:
            why = refusal_of(error)
            raise Refusal(f"{printable(name)}: {why.sentence}", why.status) from None
        yield made


def _signer(name: str, given: Passphrases, stack: ExitStack) -> Signer:
    source = first(name)
    if source.form not in PRIVATE:
        return stack.enter_context(Agent()).signer(public_key(source))
    key, _ = private_key(source, given)
    with key:
        return KeySigner(key)
