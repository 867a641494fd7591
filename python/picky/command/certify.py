"""picky certify: a certificate for a key."""
from __future__ import annotations

import argparse
import calendar
import re
import time
from typing import Callable, List

from ..certificates import FOREVER, Certificate
from . import files, signing
from .passphrases import Passphrases
from .said import each
from .sources import first, public_key

USAGE = """--issuer FILE --id TEXT --for NAME --before TIME
                     [OPTION..] FILE"""
UNITS = {"s": 1, "m": 60, "h": 3_600, "d": 86_400, "w": 604_800}
FORMS = ("%Y-%m-%d", "%Y-%m-%dT%H:%M:%S")
_AFTER_NOW = re.compile(r"([+-][0-9]+)([smhdw])")
_SECONDS = re.compile(r"@[0-9]+")


def moment(text: str) -> int:
    """The seconds since 1970 of a time: of a day or a second in UTC, from now on, of @ and these seconds, or FOREVER."""
    if text == "forever":
        return FOREVER
    after_now = _AFTER_NOW.fullmatch(text)
    if after_now:
        seconds = int(time.time()) + int(after_now[1]) * UNITS[after_now[2]]
    elif _SECONDS.fullmatch(text):
        seconds = int(text[1:])
    else:
        form = FORMS["T" in text]
        seconds = calendar.timegm(time.strptime(text, form))
    if not 0 <= seconds <= FOREVER:
        raise ValueError(text)
    return seconds


moment.__name__ = "time"


def serial(text: str) -> int:
    """The number of a serial."""
    if not re.fullmatch("[0-9]+", text) or int(text) >= 1 << 64:
        raise ValueError(text)
    return int(text)


def names(text: str) -> List[str]:
    """The names between commas, of which none is empty."""
    found = text.split(",")
    if "" in found:
        raise ValueError(text)
    return found


def add(parser: argparse.ArgumentParser) -> Callable[[argparse.Namespace], int]:
    """Adds the options."""
    parser.description = (
        "Write a certificate for the public key in FILE, - is input. TIME is 2027-12-31 or 2027-12-31T23:59:59 in UTC, +52w from "
        "now (w, d, h, m or s), @ and seconds since 1970, or forever."
    )
    parser.add_argument("file", metavar="FILE", help=argparse.SUPPRESS)
    signing.add_options(parser, required=True)
    parser.add_argument("--id", required=True, metavar="TEXT", help="by which the issuer logs it")
    parser.add_argument(
        "--for",
        dest="principals",
        required=True,
        action="extend",
        type=names,
        metavar="NAME[,..]",
        help="users, or with --host hosts, that it is for",
    )
    parser.add_argument("--host", action="store_true", help="certify a host's key, not a user's")
    parser.add_argument(
        "--before", required=True, type=moment, metavar="TIME", help="it is valid before it"
    )
    parser.add_argument(
        "--after",
        type=moment,
        default="-1m",
        metavar="TIME",
        help="and from then on (a minute ago, as clocks differ)",
    )
    parser.add_argument("--serial", type=serial, default=0, metavar="N", help="its serial (0)")
    for name, what in (("critical", "a critical option"), ("extension", "an extension")):
        parser.add_argument(
            f"--{name}", action="append", default=[], metavar="NAME[=TEXT]", help=f"add {what}"
        )
    parser.add_argument("-o", dest="output", metavar="FILE", help="write FILE, not to output")
    parser.add_argument("--force", action="store_true", help="replace a file that is there")
    return run


def run(arguments: argparse.Namespace) -> int:
    """Issues the certificate."""

    def certify(name: str) -> None:
        if arguments.output is not None:
            files.check_free(arguments.output, arguments.force)
        key = public_key(first(name))
        with signing.signer(arguments.issuer, Passphrases(arguments)) as by:
            draft = Certificate.draft(
                by.public,
                key,
                kind="host" if arguments.host else "user",
                after=arguments.after,
                before=arguments.before,
                serial=arguments.serial,
                key_id=arguments.id,
                principals=arguments.principals,
                critical_options=arguments.critical,
                extensions=arguments.extension or None,
            )
            line = draft.sign(by).line
        files.deliver(arguments.output, f"{line}\n".encode(), force=arguments.force)

    return each([arguments.file], certify)
