"""What passphrase and comment share: a key's file that is written anew in its form."""
from __future__ import annotations

import argparse
from typing import Optional, Union

from cryptography.hazmat.primitives import serialization

from ..keys import PrivateKey, Target
from . import files, sealing
from .passphrases import apart
from .sources import PRIVATE, Form, Source, foreign_text

TARGETS = {Form.OPENSSH: Target.OPENSSH, Form.PPK2: Target.PPK2, Form.PPK3: Target.PPK3}
LAYOUTS = {
    Form.PEM: serialization.PrivateFormat.TraditionalOpenSSL,
    Form.PKCS8: serialization.PrivateFormat.PKCS8,
}


def replace(given: Source, content: Union[bytes, bytearray]) -> None:
    """Replaces a file by the content, of which the lines end as the file's first line does; OpenSSH's private keys have LF alone."""
    crlf = given.text.partition(b"\n")[0].endswith(b"\r") and given.form != Form.OPENSSH
    text = files.with_line_ends(content, crlf=crlf)
    files.replace(given.name, text, private=given.form in PRIVATE)


def written(
    given: Source, key: PrivateKey, passphrase: Optional[bytearray], arguments: argparse.Namespace
) -> bytearray:
    """The text of a private key in the form of a file, encrypted where there is a passphrase."""
    if given.form in LAYOUTS:
        return foreign_text(key, LAYOUTS[given.form], passphrase)
    target, chosen = TARGETS[given.form], sealing.chosen(given, arguments)
    return apart(lambda: key.write(target, passphrase, sealing=chosen))
