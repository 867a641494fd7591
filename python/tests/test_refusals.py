"""Refusals, by their numbers and classes; secrets, wiped; and what no text does."""
from __future__ import annotations

import re
from pathlib import Path
from typing import Any, Callable, List, Tuple, Type

import picky
import pytest
from cryptography.exceptions import UnsupportedAlgorithm
from hypothesis import given
from hypothesis import strategies as st
from picky import (
    BadKey,
    BadSealing,
    CommentNotCarried,
    Error,
    LibraryFault,
    NoPrivateKey,
    NotUtf8,
    PassphraseNeeded,
    PrivateKey,
    PublicKey,
    Sealing,
    Target,
    TooCostly,
    Unsupported,
    WrongPassphrase,
    _library,
    answers,
    errors,
)
from picky.command.sources import InternalError
from tools import Made, loaded, numbers

HEADER = Path(__file__).resolve().parents[2] / "include/picky/errors.h"
# What a caller of this package can't meet: its calls are given numbers and fresh bytes that fit, and no state of an agent.
INTERNAL = {1, 5, 6, 7, 10, 13, 16, 17, 18, 25, 26, 27}


def test_each_number_of_the_header_has_a_class() -> None:
    # Those below 100 are the library's own, and each is tried.
    own = {
        int(it) for it in re.findall(r"^    PICKY_[A-Z0-9_]+ = (\d+), ", HEADER.read_text(), re.M)
    }
    assert own >= set(range(1, 34))
    for number in range(1, 34):
        fault = number in INTERNAL
        name = _library.error_name(number)
        assert name, number
        assert isinstance(errors.error_of(number, name), LibraryFault) == fault, (number, name)
    for hundred in (100, 200, 300, 400, 800, 1100, 1200, 1300, 1400):
        name = _library.error_name(hundred)
        assert not isinstance(errors.error_of(hundred, name), LibraryFault), name


def test_refusals_have_their_class_number_and_name(
    keys_of_ssh_keygen: List[Made], keys_of_puttygen: List[Made]
) -> None:
    made, ppk = keys_of_ssh_keygen[-1], next(it for it in keys_of_puttygen if it.passphrase)
    key = PrivateKey.read(made.open_text)
    pem, line = made.open_text, made.line.encode()
    rows: Tuple[Tuple[Callable[[], Any], Type[Error], int, str], ...] = (
        (lambda: PrivateKey.read(b"\xff"), NotUtf8, 3, "TextNotUtf8"),
        (lambda: PrivateKey.read(made.text, b"\xff"), NotUtf8, 4, "PassNotUtf8"),
        (lambda: PrivateKey.read(line), NoPrivateKey, 8, "NoPrivateKey"),
        (lambda: PrivateKey.read(b"junk"), BadKey, 203, "input.public.UnknownKeyType"),
        (lambda: PrivateKey.read(b""), BadKey, 203, "input.public.UnknownKeyType"),
        (lambda: PrivateKey.read(pem[:99]), BadKey, 113, "input.private.PemError"),
        (
            lambda: PrivateKey.read(made.text),
            PassphraseNeeded,
            111,
            "input.private.MissingPassphrase",
        ),
        (lambda: PrivateKey.read(ppk.text), PassphraseNeeded, 413, "input.putty.Encrypted"),
        (
            lambda: PrivateKey.read(made.text, "wrong"),
            WrongPassphrase,
            107,
            "input.private.InvalidCheckNumbers",
        ),
        (
            lambda: PrivateKey.read(ppk.text, "wrong"),
            WrongPassphrase,
            405,
            "input.putty.MacValidation",
        ),
        (
            lambda: key.with_comment("a\nb").write(Target.PPK3),
            CommentNotCarried,
            9,
            "CommentNotCarried",
        ),
        (
            lambda: key.write(Target.OPENSSH, "p", sealing=Sealing(rounds=0)),
            BadSealing,
            510,
            "output.private.HashingError",
        ),
        (
            lambda: key.write(Target.PPK3, "p", sealing=Sealing(lanes=0)),
            BadSealing,
            604,
            "output.putty.Argon2",
        ),
        (
            lambda: key.write(Target.PUBLIC, sealing=Sealing()),
            BadSealing,
            15,
            "NoSuchSealing",
        ),
        (lambda: key.write(sealing=Sealing(flavour="scrypt")), BadSealing, 0, ""),
        (lambda: key.write(sealing=Sealing(memory=1 << 32)), BadSealing, 0, ""),
        (lambda: key.write(Target.PPK3, "p", sealing=Sealing(memory=1 << 21)), TooCostly, 0, ""),
        (
            lambda: key.write(Target.OPENSSH, "p", sealing=Sealing(rounds=1 << 17)),
            TooCostly,
            0,
            "",
        ),
        (lambda: PublicKey.of(b"\0\0\0\x07ssh-dss"), BadKey, 203, "input.public.UnknownKeyType"),
        (lambda: PublicKey.of(b"\0\0\0"), BadKey, 0, ""),
    )
    for act, kind, number, name in rows:
        with pytest.raises(Error) as refusal:
            act()
        it = refusal.value
        assert (type(it), it.number, it.name) == (kind, number, name), (number, name)
        assert str(it) and name in str(it)


def test_secrets_are_wiped(keys_of_ssh_keygen: List[Made], monkeypatch: pytest.MonkeyPatch) -> None:
    kept: List[bytearray] = []

    def keeping(call: Callable[..., Any]) -> Callable[..., Any]:
        def kept_call(*given: Any) -> Any:
            made = call(*given)
            kept.append(made)
            return made

        return kept_call

    monkeypatch.setattr(answers, "_joined", keeping(answers._joined))
    made = keys_of_ssh_keygen[-1]
    assert made.passphrase
    sealing = Sealing(memory=8, passes=1, rounds=1)
    with PrivateKey.read(made.text, made.passphrase) as key:
        key.write(Target.PPK3, "secret", sealing=sealing)
        key.write(Target.OPENSSH, "secret", sealing=sealing)
        text = key._text
        assert any(text)
    assert len(kept) >= 12
    assert not any(map(any, kept)) and not any(text)
    with pytest.raises(Error):
        key.write()


@given(st.binary(max_size=300) | st.text(max_size=100))
def test_any_bytes_are_read_or_refused(text: Any) -> None:
    calls: Tuple[Callable[[Any], Any], ...] = (
        PrivateKey.read,
        PublicKey.read,
        picky.Certificate.read,
        picky.Ledger.read,
        picky.Inventory.read,
        picky.shown,
        picky.authorized_keys,
        lambda text: picky.decide(text, text, "me"),
        lambda text: picky.Inventory.of([text]),
        lambda text: PublicKey.of(text if isinstance(text, bytes) else b""),
    )
    for call in calls:
        try:
            call(text)
        except Error as refusal:
            assert not isinstance(refusal, LibraryFault), text


@given(data=st.data())
def test_a_changed_text_is_refused_or_read_as_cryptography_does(
    data: st.DataObject, keys_of_ssh_keygen: List[Made]
) -> None:
    text = bytearray(data.draw(st.sampled_from(keys_of_ssh_keygen)).open_text)
    for _ in range(data.draw(st.integers(1, 3))):
        text[data.draw(st.integers(0, len(text) - 1))] = data.draw(
            st.sampled_from(b"Aa0+/=\n -\xff")
        )
    try:
        key = PrivateKey.read(text).key()
    except (BadKey, NotUtf8, Unsupported, NoPrivateKey):
        return
    try:
        theirs = numbers(loaded(text))
    except (ValueError, UnsupportedAlgorithm, InternalError):
        # It refuses a cipher's name other than "none", too, and OpenSSL writes no secret that is longer than its curve's order.
        return
    assert numbers(key) == theirs


@given(
    comment=st.text(st.characters(blacklist_characters="\r\n\0", blacklist_categories=["Cs"])),
    passphrase=st.text(st.characters(blacklist_categories=["Cs"], blacklist_characters="\0")),
    target=st.sampled_from([it for it in Target if "PUBLIC" not in it.name]),
    sealing=st.builds(
        Sealing,
        rounds=st.integers(1, 2),
        flavour=st.sampled_from(["Argon2d", "Argon2i", "Argon2id"]),
        memory=st.integers(32, 64),
        passes=st.integers(1, 3),
        lanes=st.integers(1, 4),
        salt_len=st.integers(8, 64),
    ),
    data=st.data(),
)
def test_what_is_written_is_read_again(
    comment: str,
    passphrase: str,
    target: Target,
    sealing: Sealing,
    data: st.DataObject,
    keys_of_ssh_keygen: List[Made],
) -> None:
    made = data.draw(st.sampled_from(keys_of_ssh_keygen))
    key = PrivateKey.read(made.open_text).with_comment(comment)
    text = key.write(target, passphrase, sealing=sealing)
    again = PrivateKey.read(text, passphrase)
    assert (numbers(again.key()), again.comment) == (numbers(loaded(made.open_text)), comment)
    if target == Target.OPENSSH:
        assert numbers(loaded(text, passphrase.encode() or None)) == numbers(again.key())
