"""Keys that are nobody's, and the lines of inventories that list them (docs/FORMATS.md, "Inventories")."""
from __future__ import annotations

import base64
from typing import List


def text(number: int) -> str:
    """A public key line, of an Ed25519 key that is nobody's."""
    blob = b"\0\0\0\x0bssh-ed25519\0\0\0 " + number.to_bytes(32, "big")
    return f"ssh-ed25519 {base64.b64encode(blob).decode()} key-{number}\n"


def entry(held: str, public: str, comment: str) -> str:
    """The line of an inventory, of the key of a public key line."""
    return f"{held} {public.split()[1]} {base64.b64encode(comment.encode()).decode()}\n"


def entries(*numbers: int) -> List[str]:
    """The lines of an inventory of some of these."""
    return sorted(entry("public", text(number), f"key-{number}") for number in numbers)
