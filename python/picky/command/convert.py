"""picky convert: keys of files in another form."""
from __future__ import annotations

import argparse
import os
from typing import Callable, Optional, Set

from cryptography.hazmat.primitives import serialization

from ..answers import wipe
from ..keys import PrivateKey, Target
from . import files
from .passphrases import Passphrases, add_new_options, add_options, apart, new
from .said import Refusal, Status, each, printable
from .sources import (
    PRIVATE,
    Source,
    check_private,
    first,
    foreign_text,
    private_key,
    public_key,
)

TARGETS = {
    "ppk3": Target.PPK3,
    "ppk2": Target.PPK2,
    "openssh": Target.OPENSSH,
    "public": Target.PUBLIC,
    "putty-public": Target.PUTTY_PUBLIC,
    "pkcs8": None,
}
PUBLIC = ("public", "putty-public")
# How the name of a file in a form ends, and the ends of names that another takes the place of.
ENDS = {
    "ppk3": ".ppk",
    "ppk2": ".ppk",
    "openssh": "",
    "public": ".pub",
    "putty-public": ".pub",
    "pkcs8": ".pem",
}
OLD_ENDS = (".ppk", ".pub", ".pem", ".key")


USAGE = "[--to FORM] [-o FILE | --into FOLDER] [OPTION..] FILE.."


def add(parser: argparse.ArgumentParser) -> Callable[[argparse.Namespace], int]:
    """Adds the options."""
    parser.description = (
        "Write keys of OpenSSH, PuTTY, PEM and PKCS #8 in another form, with their comments. An encrypted key stays "
        "encrypted, under its passphrase. FILE - is standard input."
    )
    parser.add_argument("files", metavar="FILE", nargs="+", help=argparse.SUPPRESS)
    parser.add_argument(
        "--to",
        choices=tuple(TARGETS),
        default="ppk3",
        metavar="FORM",
        help="ppk3 (of PuTTY, the default), ppk2, openssh, public, putty-public or pkcs8",
    )
    to = parser.add_mutually_exclusive_group()
    to.add_argument("-o", dest="output", metavar="FILE", help="write FILE, not to output")
    to.add_argument("--into", metavar="FOLDER", help="write a file for each into FOLDER")
    parser.add_argument("--force", action="store_true", help="replace files that are there")
    parser.add_argument(
        "--line-ends",
        choices=("lf", "crlf"),
        default="lf",
        help="end lines as on Unix (the default) or on Windows",
    )
    add_options(parser)
    add_new_options(parser, asks=False)
    return lambda arguments: run(parser, arguments)


def run(parser: argparse.ArgumentParser, arguments: argparse.Namespace) -> int:
    """Converts each file."""
    if len(arguments.files) > 1 and arguments.into is None:
        parser.error("several files are written with --into FOLDER")
    if arguments.to == "openssh" and arguments.line_ends == "crlf":
        parser.error("OpenSSH reads private keys with --line-ends lf alone")
    setting = new_passphrase_given(arguments)
    if arguments.to in PUBLIC and (setting or arguments.no_passphrase):
        parser.error(f"--to {arguments.to} has no passphrase to set")
    passphrases = Passphrases(arguments)
    made: Set[str] = set()
    new_passphrase: Optional[bytearray] = None

    def convert(name: str) -> None:
        nonlocal new_passphrase
        given = first(name)
        if arguments.to not in PUBLIC:
            check_private(given)
        path: Optional[str] = arguments.output
        if arguments.into is not None:
            path = os.path.join(arguments.into, name_of(name, arguments.to))
            if path in made:
                raise Refusal(f"{printable(path)} was made of another file", Status.NOT_WRITTEN)
        if path is not None:
            files.check_free(path, arguments.force)
        if arguments.to in PUBLIC:
            content = public_text(given, passphrases, TARGETS[arguments.to])
        else:
            key, passphrase = private_key(given, passphrases)
            with key:
                if arguments.no_passphrase:
                    passphrase = None
                elif setting:
                    if new_passphrase is None:
                        new_passphrase = new(arguments)
                    passphrase = new_passphrase
                content = apart(lambda: private_text(key, TARGETS[arguments.to], passphrase))
        content = files.with_line_ends(content, crlf=arguments.line_ends == "crlf")
        files.deliver(path, content, force=arguments.force)
        if path is not None:
            made.add(path)
        wipe(content)

    if arguments.into is not None:
        try:
            os.makedirs(arguments.into, mode=0o700, exist_ok=True)
        except OSError as error:
            why = f"{printable(arguments.into)}: it can't be made: {error.strerror}"
            raise Refusal(why, Status.NOT_WRITTEN) from None
    return each(arguments.files, convert)


def new_passphrase_given(arguments: argparse.Namespace) -> bool:
    """Whether a passphrase is to be set."""
    return (
        arguments.new_passphrase
        or arguments.new_passphrase_file is not None
        or arguments.new_passphrase_fd is not None
    )


def name_of(name: str, form: str) -> str:
    """The name of the file that is made of a file."""
    base = "key" if name == "-" else os.path.basename(name)
    for end in OLD_ENDS:
        if base.endswith(end) and base != end:
            base = base[: -len(end)]
            break
    return base + ENDS[form]


def public_text(given: Source, passphrases: Passphrases, target: Optional[Target]) -> bytearray:
    """The text of the public part of a file's key."""
    assert target is not None
    if given.form not in PRIVATE:
        return bytearray(public_key(given).write(target))
    key, _ = private_key(given, passphrases)
    with key:
        return bytearray(key.write(target))


def private_text(
    key: PrivateKey, target: Optional[Target], passphrase: Optional[bytearray]
) -> bytearray:
    """The text of a private key, encrypted where there is a passphrase. Without a target it is PKCS #8."""
    if target is not None:
        return key.write(target, passphrase)
    return foreign_text(key, serialization.PrivateFormat.PKCS8, passphrase)
