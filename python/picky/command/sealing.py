"""Options for what a private key is encrypted with."""
from __future__ import annotations

import argparse
from dataclasses import replace
from typing import Dict, Tuple

from ..keys import Sealing, shown
from .said import Refusal
from .sources import Form, Source

FLAVOURS = ("d", "i", "id")
OPTIONS = ("rounds", "argon2", "memory", "passes", "lanes")
_OF_FORM: Dict[Form, Tuple[str, ...]] = {Form.OPENSSH: OPTIONS[:1], Form.PPK3: OPTIONS[1:]}


def _number(text: str) -> int:
    number = int(text)
    if not 1 <= number < 1 << 32:
        raise ValueError(text)
    return number


_number.__name__ = "number from 1 to 4294967295"


def add_options(parser: argparse.ArgumentParser) -> None:
    """Adds the options: bcrypt's of OpenSSH's form, Argon2's of PuTTY's version 3."""
    parser.add_argument("--rounds", metavar="N", type=_number, help="rounds of bcrypt, of OpenSSH")
    parser.add_argument("--argon2", choices=FLAVOURS, help="kind of Argon2, of PuTTY's version 3")
    parser.add_argument("--memory", metavar="KIB", type=_number, help="its memory")
    parser.add_argument("--passes", metavar="N", type=_number, help="its passes")
    parser.add_argument("--lanes", metavar="N", type=_number, help="its lanes")


def check(given: Source, arguments: argparse.Namespace) -> None:
    """Refuses an option that the form of a file hasn't."""
    for name in OPTIONS:
        if getattr(arguments, name) is not None and name not in _OF_FORM.get(given.form, ()):
            raise Refusal(f"it is in the form {given.form.value!r}, which has no --{name}")


def chosen(given: Source, arguments: argparse.Namespace) -> Sealing:
    """What a file is encrypted with, and the usual where it isn't, changed by the options."""
    numbers = {name: getattr(arguments, name) for name in ("rounds", "memory", "passes", "lanes")}
    changed = {name: number for name, number in numbers.items() if number is not None}
    if arguments.argon2 is not None:
        changed["flavour"] = f"Argon2{arguments.argon2}"
    return replace(shown(given.text).sealing, **changed)
