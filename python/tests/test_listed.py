"""Inventories and authorized keys."""
from __future__ import annotations

import base64
import re
from typing import List

import pytest
from picky import (
    BadKey,
    BadLine,
    Entry,
    Inventory,
    LineOption,
    NotUtf8,
    PassphraseNeeded,
    PublicKey,
    authorized_keys,
)
from picky.keys import Text
from tools import Made, Tools


def test_an_inventory_lists_each_key_once(
    keys_of_ssh_keygen: List[Made], keys_of_puttygen: List[Made]
) -> None:
    made = keys_of_ssh_keygen[:60] + keys_of_puttygen[:60]
    lines = []
    for it in made:
        encrypted = it.name.startswith("ssh-keygen") or it.passphrase
        blob, comment = it.line.split()[1], base64.b64encode(it.comment.encode()).decode()
        # An encrypted key of ssh-keygen shows no comment.
        shown = "" if it.name.startswith("ssh-keygen") else comment
        lines += [f"{'sealed' if encrypted else 'private'} {blob} {shown}\n"]
        lines += [f"private {blob} {comment}\n", f"public {blob} {comment}\n"]
    texts: List[Text] = []
    for it in made:
        texts += [it.text, it.open_text, it.line, b" \n"]
    whole = Inventory.of(texts + texts[:9])
    assert whole.text.decode() == "".join(sorted(set(lines)))
    assert Inventory.of(texts[:100]).merge(Inventory.of(texts[50:])) == whole
    assert Inventory.read(whole.text) == whole
    items = [(it.held, base64.b64encode(it.key.blob).decode(), it.key.comment) for it in whole]
    words = (line.rstrip("\n").split(" ") for line in whole.text.decode().splitlines())
    assert items == [(a, b, base64.b64decode(c).decode()) for a, b, c in words]
    by_line = {it.line.split()[1]: it.line.split()[0] for it in made}
    assert all(it.key.kind == by_line[blob] for it, (_, blob, _) in zip(whole, items))


def test_an_inventory_is_checked_in_pieces(keys_of_puttygen: List[Made]) -> None:
    lines = Inventory.of([it.line for it in keys_of_puttygen]).text.splitlines(keepends=True)
    last = b""
    for at in range(0, len(lines), 7):
        last = Inventory.check(b"".join(lines[at : at + 7]), last)
        assert last == lines[min(at + 6, len(lines) - 1)]
    for piece, before, line in ((lines[3], lines[3], 1), (lines[1] + lines[0], b"", 2)):
        with pytest.raises(BadLine) as refusal:
            Inventory.check(piece, before)
        assert refusal.value.line == line
    for text in (lines[0][:-1], b"secret " + lines[0][7:], b"\n"):
        with pytest.raises(BadLine):
            Inventory.read(text)


def test_the_first_text_that_is_refused_has_its_place(keys_of_ssh_keygen: List[Made]) -> None:
    good, sealed = keys_of_ssh_keygen[0].line, keys_of_ssh_keygen[0].text
    for place, text, kind in ((1, b"junk", BadKey), (3, b"\xff", NotUtf8)):
        with pytest.raises(kind) as refusal:
            Inventory.of([good] * place + [text, b"junk"])
        assert refusal.value.place == place
    with pytest.raises(PassphraseNeeded) as needed:
        Inventory.of([good, sealed], sealed=False)
    assert needed.value.place == 1


def test_entries_of_authorized_keys(tools: Tools) -> None:
    kinds = ("ed25519", "p256", "rsa1024")
    lines = [tools.public_line(tools.key(kind, "me@host")) or "" for kind in kinds]
    text = (
        f"# a comment\n\n{lines[0]}\n"
        f'no-pty,Command="echo \\"a, b\\"",from="10.0.0.0/8" {lines[1]}\n'
        f'cert-authority,principals="" {lines[2]}\r\n'
        "ssh-ed25519 AAAA\n"
        f'command="open {lines[0]}\n'
    )
    found = authorized_keys(text)
    assert [(it.line, it.state) for it in found[:3]] == [(3, "key"), (4, "key"), (5, "key")]
    assert [it.line for it in found] == [3, 4, 5, 6, 7]
    assert [it.key for it in found] == [PublicKey.read(it) for it in lines] + [None, None]
    assert found[1].options == (
        LineOption("no-pty", None),
        LineOption("command", 'echo "a, b"'),
        LineOption("from", "10.0.0.0/8"),
    )
    assert found[2].options == (LineOption("cert-authority", None), LineOption("principals", ""))
    assert found[4] == Entry(7, "bad-options", (), None)
    # ssh-keygen lists the keys that it reads.
    tools.put("read", text.encode())
    listed = re.findall(r"SHA256:\S+", tools.done("ssh-keygen", "-lf", "read").decode())
    assert listed == [it.key.fingerprints.sha256 for it in found if it.key]
    assert authorized_keys(b"") == []
    with pytest.raises(NotUtf8):
        authorized_keys(b"\xff")
