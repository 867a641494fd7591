"""The words of the command, and how it ends."""
from __future__ import annotations

import argparse
import os
import signal
import sys
from typing import Any, List, Optional

from .. import _library
from ..errors import Error
from . import authorize, certify, comment, convert, inventory, ledger, passphrase, show
from .said import Refusal, Status, refusal_of, say

SUBCOMMANDS = (
    ("convert", convert, "write keys in another form"),
    ("passphrase", passphrase, "set another passphrase, or none"),
    ("comment", comment, "set another comment"),
    ("show", show, "what files are: kinds, fingerprints, certificates"),
    ("inventory", inventory, "list the keys of files and folders"),
    ("certify", certify, "issue a certificate"),
    ("ledger", ledger, "issue certificates, no serial twice"),
    ("authorize", authorize, "who gets in, for sshd"),
)


def _formatter(prog: str) -> argparse.HelpFormatter:
    return argparse.HelpFormatter(prog, max_help_position=29, width=79)


def _raw_formatter(prog: str) -> argparse.HelpFormatter:
    return argparse.RawDescriptionHelpFormatter(prog, width=79)


def parser() -> argparse.ArgumentParser:
    """The parser of the command's words; what it gives has `run`, which takes it."""
    whole = argparse.ArgumentParser(
        "picky",
        usage="picky COMMAND [OPTION..] [FILE..]",
        description="SSH keys of OpenSSH and PuTTY. `picky COMMAND --help` has more.",
        epilog="commands:\n" + "\n".join(f"  {name:<12}{what}" for name, _, what in SUBCOMMANDS),
        formatter_class=_raw_formatter,
        allow_abbrev=False,
        add_help=False,
    )
    whole.add_argument("-h", "--help", action="help", help="show this text")
    version = f"picky {_library.version()}"
    whole.add_argument("--version", action="version", version=version, help="show the version")
    commands = whole.add_subparsers(metavar="COMMAND", required=True, help=argparse.SUPPRESS)
    for name, module, _ in SUBCOMMANDS:
        one = commands.add_parser(
            name,
            prog=f"picky {name}",
            usage=f"picky {name} {module.USAGE}",
            formatter_class=_formatter,
            allow_abbrev=False,
            add_help=False,
        )
        one.add_argument("-h", "--help", action="help", help="show this text")
        one.set_defaults(run=module.add(one))
    return whole


def main(words: Optional[List[str]] = None) -> int:
    """Runs the command, by default with the words of the process, and answers its exit status."""
    for number in (signal.SIGTERM, signal.SIGHUP):
        signal.signal(number, _end)
    try:
        arguments = parser().parse_args(words)
        return int(arguments.run(arguments))
    except KeyboardInterrupt:
        return Status.INTERRUPTED
    except (Refusal, Error, MemoryError) as error:
        refusal = refusal_of(error)
        say(refusal.sentence)
        return refusal.status


def _end(number: int, frame: Any) -> None:
    sys.exit(128 + number)
