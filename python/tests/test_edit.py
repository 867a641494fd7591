"""picky passphrase and picky comment, on a terminal and off it, held against ssh-keygen and puttygen."""
from __future__ import annotations

import os
import stat
from pathlib import Path
from typing import List, Tuple

from running import Terminal, opened, opened_by_puttygen, picky, putty_key, ssh_key, tool, written

SECRET = "a secret"


def test_sets_a_passphrase_that_is_typed_twice(tmp_path: Path) -> None:
    key = ssh_key(tmp_path / "key")
    secret = opened(key)
    terminal = Terminal("passphrase", key)
    rows = [
        ("New passphrase: ", "one"),
        ("The same again: ", "two"),
        ("New passphrase: ", ""),
        ("New passphrase: ", SECRET),
        ("The same again: ", SECRET),
    ]
    for place, (prompt, typed) in enumerate(rows):
        terminal.shows(prompt)
        assert not terminal.echoes(), place
        terminal.type(f"{typed}\r")
    status, shown = terminal.end()
    assert (status, SECRET in shown) == (0, False)
    assert opened(key, SECRET) == secret
    assert stat.S_IMODE(key.stat().st_mode) == 0o600
    assert sorted(os.listdir(tmp_path)) == ["key", "key.pub"]


def test_asks_three_times_for_a_wrong_passphrase(tmp_path: Path) -> None:
    key = ssh_key(tmp_path / "key", passphrase=SECRET)
    before, secret = key.read_bytes(), opened(key, SECRET)
    terminal = Terminal("passphrase", key, "--no-passphrase")
    for _ in range(3):
        terminal.shows(f"Passphrase of {key}: ")
        terminal.type("wrong\r")
    status, shown = terminal.end()
    assert (status, key.read_bytes()) == (1, before)
    assert shown.strip() == f"picky: {key}: the passphrase is wrong, three times"
    terminal = Terminal("passphrase", key, "--no-passphrase")
    for typed in ("wrong", SECRET):
        terminal.shows(f"Passphrase of {key}: ")
        terminal.type(f"{typed}\r")
    assert terminal.end()[0] == 0
    assert opened(key) == secret


def test_ends_by_ctrl_c_with_130_and_no_half_file(tmp_path: Path) -> None:
    key = ssh_key(tmp_path / "key", passphrase=SECRET)
    before = key.read_bytes()
    for words in (
        ["passphrase", key],
        ["comment", key, "x"],
        ["convert", key, "-o", tmp_path / "k"],
    ):
        terminal = Terminal(*words)
        terminal.shows("Passphrase of ")
        terminal.interrupt()
        status, shown = terminal.end()
        assert (status, "Traceback" in shown) == (130, False), words
        assert sorted(os.listdir(tmp_path)) == ["key", "key.pub"], words
        assert key.read_bytes() == before, words
    # A derivation that takes minutes.
    terminal = Terminal("passphrase", key, "--rounds", "60000")
    for prompt in (f"Passphrase of {key}: ", "New passphrase: ", "The same again: "):
        terminal.shows(prompt)
        terminal.type(f"{SECRET}\r")
    terminal.shows("\n")
    terminal.interrupt()
    assert terminal.end()[0] == 130
    assert key.read_bytes() == before


def test_keeps_the_form_and_its_parameters(tmp_path: Path) -> None:
    old = written(tmp_path / "old", SECRET)
    new = written(tmp_path / "other", "another")
    key = ssh_key(tmp_path / "key", kind="ecdsa")
    secret = opened(key)
    for param in ("version=3,kdf=argon2i,memory=128,passes=2,parallelism=1", "version=2"):
        ppk = putty_key(tmp_path / "ppk", key, SECRET, param)
        head = ppk.read_bytes().split(b"Argon2-Salt")[0]
        words = ["--passphrase-file", old, "--new-passphrase-file", new]
        run = picky("passphrase", ppk, *words)
        assert (run.returncode, run.stdout, run.stderr) == (0, b"", b""), param
        assert opened_by_puttygen(ppk, "another") == secret, param
        if "version=3" in param:
            assert ppk.read_bytes().split(b"Argon2-Salt")[0] == head, param
    run = picky("passphrase", key, "--new-passphrase-file", new, "--rounds", "3")
    assert (run.returncode, run.stderr) == (0, b"")
    assert opened(key, "another") == secret
    run = picky("passphrase", key, "--passphrase-file", new, "--no-passphrase", "--memory", "8")
    why = f"picky: {key}: it is in the form 'OpenSSH private key', which has no --memory\n"
    assert (run.returncode, run.stderr.decode()) == (1, why)


def test_sets_a_comment_in_each_form(tmp_path: Path) -> None:
    secret = written(tmp_path / "secret", SECRET)
    key = ssh_key(tmp_path / "key", kind="ecdsa")
    files = [ssh_key(tmp_path / "sealed", passphrase=SECRET), Path(f"{key}.pub")]
    files.append(putty_key(tmp_path / "ppk", key, SECRET))
    for file in [key, *files]:
        run = picky("comment", file, "n\u00e9w one", "--passphrase-file", secret)
        assert (run.returncode, run.stdout, run.stderr) == (0, b"", b""), file
    for file in (key, files[0]):
        word = SECRET if file == files[0] else ""
        said = tool("ssh-keygen", "-y", "-P", word, "-f", file).decode()
        assert said.split(" ", 2)[2] == "n\u00e9w one\n"
    assert files[1].read_text().split(" ", 2)[2] == "n\u00e9w one\n"
    assert "Comment: n\u00e9w one\n" in files[2].read_text()
    assert opened_by_puttygen(files[2], SECRET) == opened(key)
    run = picky("comment", files[1], "two\nlines")
    assert (run.returncode, files[1].read_text().count("\n")) == (1, 1)


def test_replaces_no_file_that_is_no_one_key(tmp_path: Path) -> None:
    key = ssh_key(tmp_path / "key")
    public = Path(f"{key}.pub").read_text()
    two = written(tmp_path / "two", public * 2)
    pem = written(tmp_path / "pem", tool("ssh-keygen", "-e", "-m", "PKCS8", "-f", rsa(tmp_path)))
    rows: List[Tuple[List[object], str]]
    rows = [
        (["comment", two, "x"], "it has more than a key, which would be lost"),
        (["comment", "-", "x"], "standard input can't be replaced"),
        (["comment", tmp_path, "x"], "it is a folder, and no file"),
        (["comment", pem, "x"], "PEM and PKCS #8 have no comment"),
        (["passphrase", f"{key}.pub"], "it has no private key"),
    ]
    for words, why in rows:
        run = picky(*words)
        wanted = f"picky: {words[1]}: {why}\n"
        assert (run.returncode, run.stdout, run.stderr.decode()) == (1, b"", wanted), words
    assert two.read_text() == public * 2


def rsa(folder: Path) -> str:
    """The public key line of an RSA key."""
    return f"{ssh_key(folder / 'rsa', '-b', 1024, kind='rsa')}.pub"
