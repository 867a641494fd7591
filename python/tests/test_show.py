"""picky show, held against ssh-keygen."""
from __future__ import annotations

import json
import os
import re
from pathlib import Path
from typing import Any, Dict, List

from running import Terminal, picky, putty_key, ssh_key, tool, written

SECRET = "a secret"


def records(*words: object) -> List[Dict[str, Any]]:
    found: List[Dict[str, Any]] = json.loads(picky("show", "--json", *words).stdout)
    return found


def test_shows_keys_as_ssh_keygen_lists_them(tmp_path: Path) -> None:
    for kind, bits in (("ed25519", None), ("ecdsa", 384), ("rsa", 1024)):
        words = ["-b", bits] if bits else []
        sealed = ssh_key(tmp_path / f"{kind}s", *words, kind=kind, passphrase=SECRET)
        plain = ssh_key(tmp_path / kind, *words, kind=kind)
        ppk = putty_key(tmp_path / f"{kind}.ppk", plain, SECRET)
        for file, key in ((sealed, sealed), (plain, plain), (Path(f"{plain}.pub"), plain)):
            (shown,) = records(file)
            listed = tool("ssh-keygen", "-lf", f"{key}.pub").decode().split()
            assert [str(shown["bits"]), shown["fingerprints"]["sha256"]] == listed[:2], file
        assert records(sealed)[0]["encrypted"]["cipher"] == "aes256-ctr"
        assert records(sealed)[0]["encrypted"]["rounds"] == 1
        assert records(plain)[0]["encrypted"] is None
        assert records(ppk)[0]["encrypted"]["memory"] == 64
        assert records(ppk)[0]["comment"] == "a comment"


def test_shows_each_field_of_a_certificate(tmp_path: Path) -> None:
    issuer, key = ssh_key(tmp_path / "ca"), ssh_key(tmp_path / "key", kind="ecdsa")
    words = ["-I", "an id", "-n", "me,you", "-z", 7, "-V", "20200101Z:20300101Z"]
    words += ["-O", "source-address=10.0.0.0/8", "-O", "no-pty"]
    tool("ssh-keygen", "-q", "-s", issuer, *words, f"{key}.pub")
    file = tmp_path / "key-cert.pub"
    (shown,) = records(file)
    found = shown["certificate"]
    assert found["type"] == "ecdsa-sha2-nistp256-cert-v01@openssh.com"
    assert (found["key_id"], found["serial"], found["principals"]) == ("an id", 7, ["me", "you"])
    assert (found["valid_after"], found["valid_before"]) == (1577836800, 1893456000)
    assert found["critical_options"] == [{"name": "source-address", "value": "10.0.0.0/8"}]
    assert "permit-pty" not in [it["name"] for it in found["extensions"]]
    assert len(found["extensions"]) == 4
    listed = tool("ssh-keygen", "-lf", f"{issuer}.pub").decode().split()
    assert found["issuer"]["sha256"] == listed[1]
    assert found["signature_good"] is True
    # A bit of the signature, which the last of its bytes stand for.
    first, body, comment = file.read_text().split(" ", 2)
    changed = body[:-8] + ("B" if body[-8] == "A" else "A") + body[-7:]
    bad = written(tmp_path / "bad", f"{first} {changed} {comment}")
    assert records(bad)[0]["certificate"]["signature_good"] is False
    text = picky("show", file).stdout.decode()
    assert re.search(r"^  valid from +2020-01-01 00:00:00 UTC$", text, re.M), text
    assert re.search(r"^  signature +good$", text, re.M), text


def test_stays_json_whatever_the_files_are(tmp_path: Path) -> None:
    os.mkfifo(tmp_path / "pipe")
    large = tmp_path / "large"
    with open(large, "wb") as file:
        file.truncate(100_000_000)
    odd = os.fsencode(tmp_path) + b"/\xff\x1b[31m"
    with open(odd, "wb") as file:
        file.write(b"ssh-ed25519 AAAA x\n")
    key = ssh_key(tmp_path / "key", comment="\x1b[31mred")
    rows = [tmp_path / "none", tmp_path, tmp_path / "pipe", large, odd, written(tmp_path / "e", "")]
    run = picky("show", "--json", *rows, key)
    found = json.loads(run.stdout)
    assert (run.returncode, len(found), run.stderr.count(b"\n")) == (1, len(rows) + 1, len(rows))
    assert all("error" in it for it in found[:-1]) and found[-1]["kind"] == "ssh-ed25519"
    assert found[4]["file_hex"] == odd.hex()
    assert b"Traceback" not in run.stderr and b"\x1b" not in run.stderr
    assert b"\x1b" not in picky("show", key).stdout
    assert json.loads(picky("show", "--json", tmp_path / "none").stdout)[0]["error"]


def test_shows_colours_on_a_terminal_alone(tmp_path: Path) -> None:
    key = ssh_key(tmp_path / "key")
    terminal = Terminal("show", key)
    status, shown = terminal.end()
    assert status == 0 and "\x1b[" in shown and "ssh-ed25519" in shown
    assert b"\x1b" not in picky("show", key).stdout
