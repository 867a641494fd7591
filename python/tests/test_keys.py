"""Keys of ssh-keygen and puttygen, opened and written, with every cipher and derivation."""
from __future__ import annotations

from pathlib import Path
from typing import List

import pytest
from making import CIPHERS, COMMENTS, FLAVOURS, PASSES, params_of, sealing_of
from picky import PrivateKey, PublicKey, Sealing, Target, Unsupported, shown
from tools import NAMES, Made, Tools, each, loaded, numbers

READ_BY_CRYPTOGRAPHY = CIPHERS[2:]
PPKS = (Target.PPK2, Target.PPK3, Target.PPK2_OPENSSH, Target.PPK3_OPENSSH)


def sealing(number: int) -> Sealing:
    """What the package encrypts with, as various."""
    flavour, lanes = ("Argon2d", "Argon2i", "Argon2id")[number % 3], 1 + number % 4
    memory, passes, salt = 8 * lanes + number % 61, 1 + number % 5, 8 + number % 40
    return Sealing(1 + number % 3, flavour, memory, passes, lanes, salt)


def number_of(made: Made) -> int:
    return int(made.name.split()[-1])


def check_written(tools: Tools, made: Made) -> None:
    """What is written of a key, encrypted and not, is the key to cryptography and puttygen, and of every fourth to ssh-keygen."""
    number, wanted = number_of(made), numbers(loaded(made.open_text))
    key, it = PrivateKey.read(made.open_text), sealing(number)
    passphrase = PASSES[number % len(PASSES)]
    for given in ("", passphrase):
        content = bytes(key.write(Target.OPENSSH, given, sealing=it))
        assert numbers(loaded(content, given.encode() or None)) == wanted, (made.name, given)
        if number % 4 == 0:
            line = tools.public_line(content, given.encode())
            assert (line or "").split() == made.line.split(), (made.name, given)
    # Each Ed25519 key is written as all that puttygen reads, others as one of it.
    every = [(target, given) for target in PPKS[:2] for given in ("", passphrase)]
    for target, given in every if made.kind == "ed25519" else every[number % 4 :][:1]:
        ppk = bytes(key.write(target, given, sealing=it))
        opened = tools.opened_by_putty(ppk, given.encode())
        assert opened and numbers(loaded(opened)) == wanted, (made.name, target, given)
        assert PrivateKey.read(opened).comment == made.comment, (made.name, target, given)


def check_of_ssh_keygen(tools: Tools, made: Made) -> None:
    number, wanted = number_of(made), numbers(loaded(made.open_text))
    key = PrivateKey.read(made.open_text)
    assert numbers(key.key()) == wanted, made.name
    assert key.public.line().rstrip() == made.line.rstrip(), made.name
    assert (key.comment, key.public.kind) == (made.comment, NAMES[made.kind]), made.name
    listed = tools.listed(made.text)
    assert (key.public.bits, key.public.fingerprints.sha256) == listed[:2], made.name

    opened, (cipher, rounds) = PrivateKey.read(made.text, made.passphrase), sealing_of(number)
    assert (numbers(opened.key()), opened.comment) == (wanted, made.comment), made.name
    if cipher in READ_BY_CRYPTOGRAPHY:
        assert numbers(loaded(made.text, made.passphrase.encode())) == wanted, made.name
    it = shown(made.text)
    assert (it.encrypted, it.cipher, it.derivation) == (True, cipher, "bcrypt"), made.name
    assert (it.rounds, it.memory, it.public) == (rounds, None, key.public), made.name
    check_written(tools, made)


def check_of_puttygen(tools: Tools, made: Made) -> None:
    number, wanted = number_of(made), numbers(loaded(made.open_text))
    key = PrivateKey.read(made.text, made.passphrase)
    assert numbers(key.key()) == wanted, made.name
    assert (key.comment, key.public.kind) == (made.comment, NAMES[made.kind]), made.name
    assert key.public.line().rstrip() == made.line.rstrip(), made.name
    it, values = shown(made.text), dict(word.split("=") for word in params_of(number).split(","))
    assert (it.public, it.public.comment) == (key.public, made.comment), made.name
    assert it.encrypted == (made.passphrase != ""), made.name
    if it.encrypted and "kdf" in values:
        derivation = values["kdf"].replace("argon2", "Argon2")
        assert (it.cipher, it.derivation) == ("aes256-cbc", derivation), made.name
        numbers_wanted = [int(values[word]) for word in ("memory", "passes", "parallelism")]
        assert [it.memory, it.passes, it.lanes] == numbers_wanted, made.name
    check_written(tools, made)


def test_keys_of_ssh_keygen_are_read_and_written(
    keys_of_ssh_keygen: List[Made], tmp_path: Path
) -> None:
    each(tmp_path, check_of_ssh_keygen, keys_of_ssh_keygen)


def test_keys_of_puttygen_are_read_and_written(
    keys_of_puttygen: List[Made], tmp_path: Path
) -> None:
    each(tmp_path, check_of_puttygen, keys_of_puttygen)


def test_there_are_enough_keys(
    keys_of_ssh_keygen: List[Made], keys_of_puttygen: List[Made]
) -> None:
    assert len(keys_of_ssh_keygen) + len(keys_of_puttygen) >= 400
    assert len({it.line for it in keys_of_ssh_keygen + keys_of_puttygen}) >= 400


def test_each_sort_of_argon2_is_read_and_written(tools: Tools) -> None:
    text = tools.key("ed25519", "me")
    wanted = numbers(loaded(text))
    key = PrivateKey.read(text)
    for flavour in FLAVOURS:
        for lanes in (1, 3):
            for memory in (8 * lanes, 1000):
                for passes in (1, 3):
                    more = f"memory={memory},passes={passes},parallelism={lanes}"
                    ppk = tools.ppk(text, b"secret", f"version=3,kdf={flavour},{more}")
                    assert numbers(PrivateKey.read(ppk, "secret").key()) == wanted, more
                    name = flavour.replace("argon2", "Argon2")
                    it = Sealing(1, name, memory, passes, lanes, 16)
                    ppk = bytes(key.write(Target.PPK3, "secret", sealing=it))
                    opened = tools.opened_by_putty(ppk, b"secret")
                    assert opened and numbers(loaded(opened)) == wanted, it
                    assert shown(ppk).sealing == Sealing(16, name, memory, passes, lanes, 16), it


def test_the_usual_parameters_are_those_of_the_programs(tools: Tools) -> None:
    key = PrivateKey.read(tools.key("ed25519"))
    # ssh-keygen -a: 16 rounds, and aes256-ctr; puttygen: 8192 KiB of Argon2id by one lane.
    it = shown(key.write(Target.OPENSSH, "secret"))
    assert (it.cipher, it.derivation, it.rounds) == ("aes256-ctr", "bcrypt", 16)
    it = shown(key.write(Target.PPK3, "secret"))
    assert (it.derivation, it.memory, it.lanes, it.salt_len) == ("Argon2id", 8192, 1, 16)
    it = shown(key.write(Target.PPK2, "secret"))
    assert (it.cipher, it.derivation, it.memory) == ("aes256-cbc", "SHA-1", None)


def test_both_layouts_of_ppk_are_read_as_the_same_key(
    keys_of_ssh_keygen: List[Made], tmp_path: Path
) -> None:
    made = [it for it in keys_of_ssh_keygen if it.kind == "ed25519"][:24]
    # PuTTY takes about every second file of the library's original layout for another secret.
    assert not all(each(tmp_path, putty_agrees, made))


def putty_agrees(tools: Tools, made: Made) -> bool:
    """Whether puttygen reads the same secret in the original's layout, too."""
    key, wanted = PrivateKey.read(made.open_text), numbers(loaded(made.open_text))
    for target in PPKS[2:]:
        ppk = bytes(key.write(target, "secret", sealing=Sealing(memory=8, passes=1)))
        assert numbers(PrivateKey.read(ppk, "secret").key()) == wanted, (made.name, target)
    opened = tools.opened_by_putty(ppk, b"secret")
    return opened is not None and numbers(loaded(opened)) == wanted


def test_security_keys_are_read_and_written_but_not_for_putty(tools: Tools) -> None:
    for number in range(12):
        comment, cipher = COMMENTS[number % len(COMMENTS)], CIPHERS[number % 4]
        text = tools.security_key(number % 2 == 0, comment)
        key, line = PrivateKey.read(text), tools.public_line(text)
        assert key.comment == comment
        assert key.public.line().split()[:2] == (line or "").split()[:2]
        sealed = tools.sealed(text, cipher, 1 + number % 3, b"secret")
        assert PrivateKey.read(sealed, "secret").public == key.public
        content = bytes(key.write(Target.OPENSSH, "secret", sealing=Sealing(rounds=2)))
        assert tools.public_line(content, b"secret") == line
        # ssh-keygen writes what it opens, with another check number: it is read as the same key.
        opened = tools.opened(content, b"secret")
        assert opened and PrivateKey.read(opened).write(Target.OPENSSH) == key.write(Target.OPENSSH)
        for target in PPKS:
            for given in (None, "secret"):
                with pytest.raises(Unsupported) as refusal:
                    key.write(target, given)
                assert refusal.value.name == "output.putty.NotSupported"
        with pytest.raises(Unsupported):
            key.key()


def test_other_ciphers_are_refused_and_shown(tools: Tools) -> None:
    text = tools.key("ed25519", "me")
    others = (
        "aes192-ctr",
        "aes192-cbc",
        "aes256-gcm@openssh.com",
        "aes128-gcm@openssh.com",
        "chacha20-poly1305@openssh.com",
        "3des-cbc",
    )
    for cipher in others:
        sealed = tools.sealed(text, cipher, 1, b"secret")
        with pytest.raises(Unsupported) as refusal:
            PrivateKey.read(sealed, "secret")
        assert refusal.value.name == "input.private.UnsupportedCipher", cipher
        it = shown(sealed)
        assert (it.cipher, it.public) == (cipher, PublicKey.read(text)), cipher


def test_keys_go_to_cryptography_and_back(tools: Tools) -> None:
    for kind in NAMES:
        text = tools.key(kind, "me")
        there = loaded(text)
        back = PrivateKey.of(there, "another \u00e9")
        assert numbers(back.key()) == numbers(there), kind
        assert back.comment == "another \u00e9"
        assert tools.public_line(bytes(back.write(Target.OPENSSH))) == (
            (tools.public_line(text) or "").rpartition(" ")[0] + " another \u00e9"
        ), kind
