"""Certificates, logins and ledgers: what ssh-keygen issues is read and verified, and what is issued here ssh-keygen reads."""
from __future__ import annotations

import base64
import re
import time
from pathlib import Path
from typing import Any, Dict, List, Tuple

import pytest
from picky import (
    Agent,
    BadRequest,
    BadSignature,
    Certificate,
    Denial,
    Grant,
    Issued,
    KeySigner,
    Ledger,
    LineOption,
    PrivateKey,
    PublicKey,
    Reply,
    SignerFault,
    decide,
)
from picky.certificates import FOREVER, SUFFIX
from picky.signatures import is_good
from tools import NAMES, Tools

ISSUERS = ("rsa2048", "p256", "p384", "p521", "ed25519")
USUAL = [
    "permit-X11-forwarding",
    "permit-agent-forwarding",
    "permit-port-forwarding",
    "permit-pty",
    "permit-user-rc",
]


def signer_of(tools: Tools, kind: str) -> KeySigner:
    return KeySigner(PrivateKey.read(tools.key(kind, "issuer")))


def issued_by_ssh_keygen(tools: Tools, kind: str, *words: str) -> Certificate:
    """A certificate for an Ed25519 key, issued by ssh-keygen with a key of a kind."""
    tools.put("ca", tools.key(kind, "issuer"))
    tools.key("ed25519", "me@host")
    tools.done("ssh-keygen", "-q", "-s", "ca", "-I", "an id", *words, "key.pub")
    return Certificate.read((tools.folder / "key-cert.pub").read_bytes())


def fields_of(tools: Tools, certificate: Certificate) -> Dict[str, List[str]]:
    """What ssh-keygen -L says, which verifies the signature: each field's words."""
    tools.put("c", certificate.line.encode() + b"\n")
    fields: Dict[str, List[str]] = {}
    name = ""
    for line in tools.done("ssh-keygen", "-Lf", "c").decode().splitlines()[1:]:
        if line.startswith(" " * 16):
            fields[name].append(line.strip())
        else:
            name, _, value = line.strip().partition(":")
            fields[name] = [value.strip()] if value.strip() else []
    return fields


@pytest.mark.parametrize("kind", ISSUERS)
def test_certificates_of_ssh_keygen_are_read_and_verified(kind: str, tools: Tools) -> None:
    words = ["-n", "me,you", "-z", "7", "-V", "20200101Z:20300101Z", "-O", "clear"]
    words += ["-O", "force-command=ls -l", "-O", "source-address=10.0.0.0/8", "-O", "permit-pty"]
    it = issued_by_ssh_keygen(tools, kind, *words)
    assert (it.kind, it.serial, it.key_id, it.principals) == ("user", 7, "an id", ("me", "you"))
    # date -ud 2020-01-01 +%s; date -ud 2030-01-01 +%s
    assert (it.valid_after, it.valid_before) == (1577836800, 1893456000)
    options = {option.name: option.value for option in it.critical_options}
    assert options == {"force-command": "ls -l", "source-address": "10.0.0.0/8"}
    assert [(option.name, option.payload) for option in it.extensions] == [("permit-pty", b"")]
    assert it.issuer == PublicKey.read((tools.folder / "ca").read_bytes())
    assert it.subject == PublicKey.read((tools.folder / "key.pub").read_bytes())
    assert (it.comment, it.type) == ("me@host", "ssh-ed25519-cert-v01@openssh.com")
    moments = it.valid_after - 1, it.valid_after, it.valid_before - 1, it.valid_before
    assert [it.valid_at(moment) for moment in moments] == [False, True, True, False]
    assert it.verify()


@pytest.mark.parametrize("kind", ISSUERS)
def test_a_changed_bit_is_no_good_signature(kind: str, tools: Tools) -> None:
    it = issued_by_ssh_keygen(tools, kind)
    for place in range(0, len(it.signed), 17):
        changed = bytearray(it.signed)
        changed[place] ^= 1
        assert not is_good(it.issuer.blob, it.signature, bytes(changed)), place
    for place in range(len(it.signature)):
        signature = bytearray(it.signature)
        signature[place] ^= 1
        assert not is_good(it.issuer.blob, signature, it.signed), place
    assert not is_good(it.issuer.blob, it.signature + b"\0", it.signed)
    assert not is_good(it.issuer.blob, it.signature[:-1], it.signed)


def test_a_signature_of_rsa_by_sha_1_is_not_good(tools: Tools) -> None:
    it = issued_by_ssh_keygen(tools, "rsa2048", "-t", "ssh-rsa")
    assert (it.signature_format, it.verify()) == ("ssh-rsa", False)


@pytest.mark.parametrize("kind", ISSUERS)
def test_ssh_keygen_reads_what_is_issued(kind: str, tools: Tools) -> None:
    signer = signer_of(tools, kind)
    for subject in ("rsa1024", "p256", "p384", "ed25519"):
        key = PrivateKey.read(tools.key(subject, "me@host")).public
        draft = Certificate.draft(
            signer.public,
            key,
            serial=2**64 - 2,
            key_id="an id",
            principals=["me", "you"],
            critical_options=["force-command=ls -l", "source-address=10.0.0.0/8"],
        )
        it = draft.sign(signer)
        assert (it.signed, it.subject, it.comment) == (draft.signed, key, "me@host")
        fields = fields_of(tools, it)
        assert fields["Type"] == [f"{NAMES[subject]}{SUFFIX} user certificate"]
        assert fields["Serial"] == ["18446744073709551614"]
        assert (fields["Key ID"], fields["Valid"]) == (['"an id"'], ["forever"])
        assert fields["Principals"] == ["me", "you"]
        assert fields["Critical Options"] == ["force-command ls -l", "source-address 10.0.0.0/8"]
        assert fields["Extensions"] == USUAL
        assert signer.public.fingerprints.sha256 in fields["Signing CA"][0]


def test_a_host_has_a_certificate_without_extensions(tools: Tools) -> None:
    signer = signer_of(tools, "ed25519")
    key = PrivateKey.read(tools.key("ed25519")).public
    it = Certificate.draft(signer.public, key, kind="host", after=5, before=7).sign(signer)
    assert fields_of(tools, it)["Extensions"] == ["(none)"]
    assert (it.kind, it.valid_after, it.valid_before, it.extensions) == ("host", 5, 7, ())


def test_what_is_no_certificate_is_refused(tools: Tools) -> None:
    signer, other = signer_of(tools, "ed25519"), signer_of(tools, "p256")
    key = PrivateKey.read(tools.key("ed25519")).public
    p521 = PrivateKey.read(tools.key("p521")).public
    security = PublicKey.read(tools.security_key(True, "sk"))
    rows: Tuple[Tuple[str, PublicKey, PublicKey, Dict[str, Any]], ...] = (
        ("request.InvalidTime", signer.public, key, {"after": 8, "before": 7}),
        (
            "request.HostCertificateExtensions",
            signer.public,
            key,
            {"kind": "host", "extensions": ["a"]},
        ),
        ("BadWords", signer.public, key, {"serial": 2**64}),
        ("BadWords", signer.public, key, {"kind": "dog"}),
        ("BadWords", signer.public, key, {"critical_options": ["no-such-option"]}),
        ("request.UnsupportedCertificateKeyType", signer.public, p521, {}),
        ("", signer.public, key, {"extensions": []}),
        ("", security, key, {}),
    )
    for name, issuer, subject, more in rows:
        with pytest.raises(BadRequest) as refusal:
            Certificate.draft(issuer, subject, **more)
        assert refusal.value.name == name, (name, more)
    with pytest.raises(BadRequest):
        Certificate.draft(signer.public, key).sign(other)


class FalseSigner:
    """Signs another message than it is given."""

    def __init__(self, signer: KeySigner) -> None:
        self.public, self.signer = signer.public, signer

    def sign(self, message: bytes, form: str) -> bytes:
        return self.signer.sign(message + b"x", form)


@pytest.mark.parametrize("kind", ISSUERS)
def test_a_false_signature_issues_nothing(kind: str, tools: Tools) -> None:
    signer = FalseSigner(signer_of(tools, kind))
    key = PrivateKey.read(tools.key("ed25519")).public
    with pytest.raises(BadSignature):
        Certificate.draft(signer.public, key).sign(signer)
    with pytest.raises(BadSignature):
        Ledger().apply(f"a client me 0 {FOREVER} {key.line()}", signer)


def test_an_agent_signs(tools: Tools) -> None:
    tools.folder.chmod(0o700)
    socket = str(tools.folder / "agent")
    started = tools.done("ssh-agent", "-a", socket).decode()
    pid = re.search(r"SSH_AGENT_PID=(\d+)", started)
    assert pid
    try:
        keys = []
        for kind in ISSUERS:
            tools.key(kind, f"{kind} of the agent")
            keys.append(PrivateKey.read((tools.folder / "key").read_bytes()).public)
            tools.done("env", f"SSH_AUTH_SOCK={socket}", "ssh-add", "-q", "key")
        subject = PrivateKey.read(tools.key("ed25519")).public
        with Agent(socket) as agent:
            assert agent.identities() == keys
            assert [it.comment for it in agent.identities()] == [it.comment for it in keys]
            for key in keys:
                it = Certificate.draft(key, subject).sign(agent.signer(key))
                assert (it.issuer, fields_of(tools, it)["Valid"]) == (key, ["forever"])
            with pytest.raises(SignerFault):
                agent.signer(subject)
    finally:
        tools.done("env", f"SSH_AGENT_PID={pid[1]}", "ssh-agent", "-k")
    # It takes the socket away at its end.
    end = time.monotonic() + 60
    while Path(socket).exists() and time.monotonic() < end:
        time.sleep(0.05)
    with pytest.raises(SignerFault):
        Agent(socket)


def test_who_gets_in_is_decided(tools: Tools) -> None:
    signer = signer_of(tools, "ed25519")
    key, other = (PrivateKey.read(tools.key("ed25519", "me@host")).public for _ in range(2))
    draft = Certificate.draft(
        signer.public,
        key,
        after=10,
        before=20,
        principals=["me"],
        critical_options=["force-command=ls -l", "source-address=10.0.0.0/8", "verify-required"],
    )
    it, mark = draft.sign(signer), key.fingerprints.sha256
    line = 'no-pty,environment="A=b c",cert-authority ' + signer.public.line()
    wanted = (LineOption("no-pty", None), LineOption("environment", "A=b c"))
    granted = Grant(3, wanted, "ls -l", "10.0.0.0/8", True, mark)
    assert decide(f"# a comment\n\n{line}\n", it.line, "me", 10) == granted
    plain = f'{other.line()}\nrestrict,command="" {key.line()}\n'
    wanted = (LineOption("restrict", None), LineOption("command", ""))
    assert decide(plain, key.line(), "me") == Grant(2, wanted, None, None, False, mark)
    denials = (
        ("NoLine", line, key.line(), "me", 10),
        ("NoAuthority", key.line(), it.line, "me", 10),
        ("NotYet", line, it.line, "me", 9),
        ("Expired", line, it.line, "me", 20),
        ("Principal", line, it.line, "you", 10),
    )
    for rule, authorized, offer, user, moment in denials:
        decision = decide(authorized, offer, user, moment)
        assert decision == Denial(rule, mark) and not decision, rule
    with pytest.raises(ValueError):
        decide(line, it.line, "me", -1)


def test_a_bad_signature_is_denied(tools: Tools) -> None:
    it = issued_by_ssh_keygen(tools, "ed25519", "-n", "me")
    kind, body = it.line.split()[:2]
    blob = bytearray(base64.b64decode(body))
    blob[-1] ^= 1
    offer = f"{kind} {base64.b64encode(blob).decode()}"
    authorized = "cert-authority " + it.issuer.line()
    assert decide(authorized, it.line, "me")
    assert decide(authorized, offer, "me") == Denial("BadSignature", it.subject.fingerprints.sha256)


@pytest.mark.parametrize("kind", ISSUERS)
def test_a_ledger_issues_each_request_once(kind: str, tools: Tools) -> None:
    signer = signer_of(tools, kind)
    lines = [PrivateKey.read(tools.key("ed25519", f"user {it}")).public.line() for it in range(3)]
    requests = [f"id{it} client me,you 0 {FOREVER} {line}" for it, line in enumerate(lines)]
    first, replies = Ledger().apply("\n".join(requests[:2]) + "\n", signer)
    assert replies == [Reply("issued", "id0", 1), Reply("issued", "id1", 2)]
    more = [
        requests[0],
        "no request",
        requests[1] + "x",
        f"late client - 7 5 {lines[2]}",
        requests[2],
    ]
    second, replies = Ledger.read(first.text).apply("\n".join(more), signer)
    assert replies == [
        Reply("again", "id0", 1),
        Reply("bad"),
        Reply("conflict", "id1", 2),
        Reply("refused", "late", reason="InvalidTime"),
        Reply("issued", "id2", 3),
    ]
    assert second.issued[:2] == first.issued and second.text.startswith(b"next 4\n")
    for serial, (issued, request) in enumerate(zip(second.issued, requests), 1):
        it = Certificate.read(issued.line)
        assert issued == Issued(f"id{serial - 1}", request, it.line)
        fields = fields_of(tools, it)
        assert (fields["Serial"], fields["Key ID"]) == ([str(serial)], [f'"id{serial - 1}"'])
        assert (fields["Principals"], fields["Extensions"]) == (["me", "you"], USUAL)
    assert len({Certificate.read(it.line).nonce for it in second.issued}) == 3
    full, replies = Ledger(b"next 18446744073709551615\n").apply(requests[0], signer)
    assert (replies, full.issued) == ([Reply("full", "id0")], [])
