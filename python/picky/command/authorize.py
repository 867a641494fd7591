"""picky authorize: the line of authorized keys that lets a key in, for sshd's AuthorizedKeysCommand."""
from __future__ import annotations

import argparse
from typing import Callable

from ..policy import Denial, decide
from . import files
from .said import each, hand_out, say

USAGE = "USER --keys FILE TYPE KEY"


def add(parser: argparse.ArgumentParser) -> Callable[[argparse.Namespace], int]:
    """Adds the options."""
    parser.description = (
        "Write the line of the authorized keys in FILE by which USER gets in with a key or a certificate, now, or nothing. TYPE "
        "and KEY are the first two words of its line. It is for sshd_config(5): AuthorizedKeysCommand /usr/bin/picky authorize %u "
        "--keys /etc/ssh/keys/%u %t %k. A denial is said on standard error, which sshd drops, and the status is 0."
    )
    parser.add_argument("user", metavar="USER", help="who logs in, sshd's %%u")
    parser.add_argument("type", metavar="TYPE", help="the key's type, sshd's %%t")
    parser.add_argument("key", metavar="KEY", help="the key in base64, sshd's %%k")
    parser.add_argument("--keys", required=True, metavar="FILE", help="the authorized keys")
    return run


def run(arguments: argparse.Namespace) -> int:
    """Decides, and writes the line as it stands: sshd judges it once more, with its options."""

    def authorize(name: str) -> None:
        content = bytes(files.read(name))
        decision = decide(content, f"{arguments.type} {arguments.key}", arguments.user)
        if isinstance(decision, Denial):
            say(f"{decision.fingerprint} is denied: {decision.rule}")
        else:
            hand_out(content.split(b"\n")[decision.line - 1] + b"\n")

    return each([arguments.keys], authorize)
