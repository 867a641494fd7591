"""picky ledger: certificates by requests, no serial and no request twice."""
from __future__ import annotations

import argparse
import fcntl
import os
from contextlib import contextmanager
from typing import Callable, Iterator

from ..ledger import Ledger, Reply
from . import files, signing
from .passphrases import Passphrases
from .said import Refusal, Status, each, hand_out_text, printable, say

USAGE = """--issuer FILE [OPTION..] LEDGER [REQUESTS]
       picky ledger --new LEDGER
       picky ledger --get ID LEDGER"""


def add(parser: argparse.ArgumentParser) -> Callable[[argparse.Namespace], int]:
    """Adds the options."""
    parser.description = (
        "Issue the certificates that REQUESTS ask for, standard input by default, and say what became of each; LEDGER "
        "keeps them, so that no serial and no request's ID is issued twice. A request is a line: ID client|host NAME,.. AFTER BEFORE "
        "KEY, the times in seconds since 1970, as of keyledger(1). Where one isn't issued, the status is 1."
    )
    parser.add_argument("ledger", metavar="LEDGER", help=argparse.SUPPRESS)
    parser.add_argument(
        "requests", metavar="REQUESTS", nargs="?", default="-", help=argparse.SUPPRESS
    )
    signing.add_options(parser, required=False)
    other = parser.add_mutually_exclusive_group()
    other.add_argument("--new", action="store_true", help="make LEDGER, without certificates")
    other.add_argument("--get", metavar="ID", help="write the certificate of a request")
    return lambda arguments: run(parser, arguments)


def run(parser: argparse.ArgumentParser, arguments: argparse.Namespace) -> int:
    """Makes a ledger, writes a certificate of it, or applies requests to it."""
    if arguments.new:
        act = new
    elif arguments.get is not None:
        act = lambda name: get(name, arguments.get)
    elif arguments.issuer is None:
        parser.error("--issuer FILE says who signs")
    else:
        act = lambda name: apply(name, arguments)
    return each([arguments.ledger], act)


def new(name: str) -> None:
    """Makes a ledger in which nothing was issued."""
    files.put(name, Ledger().text)


def get(name: str, wanted: str) -> None:
    """Writes the certificate of a request's id."""
    for issued in Ledger.read(bytes(files.read(name))).issued:
        if issued.id == wanted:
            hand_out_text(f"{issued.line}\n")
            return
    raise Refusal(f"it has no certificate of {printable(wanted)}")


def apply(name: str, arguments: argparse.Namespace) -> None:
    """Issues what is asked for. The ledger is replaced before anybody gets a reply."""
    requests = bytes(files.read(arguments.requests))
    with signing.signer(arguments.issuer, Passphrases(arguments)) as by, locked(name) as content:
        ledger = Ledger.read(content)
        applied, replies = ledger.apply(requests, by)
        if len(applied.text) > files.LARGEST:
            raise Refusal("it would have more than 16,777,216 bytes; begin another ledger")
        if applied != ledger:
            files.replace(name, applied.text, private=False)
    hand_out_text("".join(f"{line_of(reply)}\n" for reply in replies))
    missed = sum(reply.outcome not in ("issued", "again") for reply in replies)
    if missed:
        raise Refusal(f"{missed} of {len(replies)} requests aren't issued")


def line_of(reply: Reply) -> str:
    """A reply as keyledger(1) writes it."""
    words = (reply.outcome, reply.id, reply.serial, reply.reason)
    return " ".join(str(word) for word in words if word is not None)


@contextmanager
def locked(name: str) -> Iterator[bytes]:
    """What a ledger has, while no other run changes it. A run that waits says so.

    Refuses standard input, and as `files.read`.
    """
    if name == "-":
        raise Refusal("standard input can't be replaced")
    while True:
        descriptor = files.opened(name)
        try:
            try:
                fcntl.flock(descriptor, fcntl.LOCK_EX | fcntl.LOCK_NB)
            except BlockingIOError:
                say(f"{printable(name)}: another run has it, and is waited for")
                fcntl.flock(descriptor, fcntl.LOCK_EX)
            if is_at(descriptor, name):
                yield bytes(files.content_of(descriptor))
                return
        finally:
            os.close(descriptor)


def is_at(descriptor: int, name: str) -> bool:
    """Whether a name still leads to a descriptor's file: another run may have put its own there."""
    try:
        return os.path.samestat(os.fstat(descriptor), os.stat(name))
    except FileNotFoundError:
        return False
