"""picky certify and picky ledger, held against ssh-keygen, and picky authorize."""
from __future__ import annotations

import re
import signal
import subprocess
import sys
import time
from itertools import count
from pathlib import Path
from typing import Iterator, List, Tuple

import pytest
from running import PICKY, SECONDS, Terminal, picky, ssh_key, tool, variables, words_of, written

SECRET = "a secret"
# picky ledger, killed before it makes one of its calls of the system, by the number that comes first.
KILLED = """
import os, signal, sys
from picky.command import files, ledger, parser

left = int(sys.argv.pop(1))

def before(frame, event, called):
    global left
    if event == "c_call" and frame.f_code.co_filename in (files.__file__, ledger.__file__):
        if called.__module__ in ("posix", "fcntl"):
            if left == 0:
                os.kill(os.getpid(), signal.SIGKILL)
            left -= 1

sys.setprofile(before)
sys.exit(parser.main(["ledger", *sys.argv[1:]]))
"""


@pytest.fixture
def agent(tmp_path: Path, monkeypatch: pytest.MonkeyPatch) -> Iterator[Path]:
    """An ssh-agent without keys, at SSH_AUTH_SOCK."""
    path = tmp_path / "agent"
    process = subprocess.Popen(["ssh-agent", "-D", "-a", path], stdout=subprocess.DEVNULL)
    end = time.monotonic() + SECONDS
    while not path.exists():
        assert process.poll() is None and time.monotonic() < end
        time.sleep(0.01)
    monkeypatch.setenv("SSH_AUTH_SOCK", str(path))
    yield path
    process.terminate()
    process.wait()


def certify(key: Path, issuer: object, *words: object) -> "subprocess.CompletedProcess[bytes]":
    usual = ["--issuer", issuer, "--id", "an id", "--for", "me,you", "--before", "@1893456000"]
    return picky("certify", f"{key}.pub", *usual, *words)


def listed(line: bytes) -> str:
    """What ssh-keygen -L says of a certificate, of which it verifies the signature."""
    return tool("env", "TZ=UTC", "ssh-keygen", "-L", "-f", "-", given=line).decode()


def test_issues_certificates_by_each_kind_of_key(tmp_path: Path, agent: Path) -> None:
    key = ssh_key(tmp_path / "key")
    for kind, bits in (
        ("ed25519", 256),
        ("ecdsa", 256),
        ("ecdsa", 384),
        ("ecdsa", 521),
        ("rsa", 2048),
    ):
        words = [] if kind == "ed25519" else ["-b", bits]
        issuer = ssh_key(tmp_path / f"{kind}{bits}", *words, kind=kind)
        tool("ssh-add", "-q", issuer)
        public = tool("ssh-keygen", "-lf", f"{issuer}.pub").decode().split()[1]
        for by in (issuer, f"{issuer}.pub"):
            run = certify(key, by, "--after", "@0", "--serial", 7)
            assert (run.returncode, run.stderr) == (0, b""), by
            said = listed(run.stdout)
            for wanted in (
                "user certificate",
                public,
                'Key ID: "an id"',
                "Serial: 7",
                "permit-pty",
            ):
                assert wanted in said, (by, wanted)
            assert re.search(r"Principals: \n +me\n +you\n", said), said
            assert "before 2030-01-01T00:00:00" in said, said


def test_takes_times_hosts_and_options(tmp_path: Path) -> None:
    issuer, key = ssh_key(tmp_path / "ca"), ssh_key(tmp_path / "key", kind="ecdsa")
    now = int(time.time())
    rows = [
        ("2030-01-01", 1893456000),
        ("2030-01-01T00:00:01", 1893456001),
        ("+1w", now + 604800),
        ("+2h", now + 7200),
        ("forever", 2**64 - 1),
    ]
    for text, wanted in rows:
        line = certify(key, issuer, "--before", text).stdout
        shown = picky("show", "-", given=line).stdout.decode()
        found = re.search(r"valid before +(.*)", shown)
        assert found is not None
        moment = (
            tool("date", "-u", "-d", found[1], "+%s")
            if wanted < 2**63
            else b"18446744073709551615"
        )
        assert abs(int(moment) - wanted) < 60, text
    line = certify(key, issuer, "--host").stdout
    assert "host certificate" in listed(line)
    words = ["--critical", "force-command=echo a", "--extension", "permit-pty"]
    said = listed(certify(key, issuer, *words).stdout)
    assert re.search(
        r"Critical Options: \n +force-command echo a\n +Extensions: \n +permit-pty\n", said
    )
    refused: List[Tuple[List[object], int]] = [
        (["--before", "tomorrow"], 2),
        (["--before", "20300101"], 2),
        (["--for", "a,,b"], 2),
        (["--serial", "-1"], 2),
        (["--critical", "unknown"], 1),
        (["--host", "--critical", "verify-required"], 1),
        (["--before", "@5", "--after", "@6"], 1),
    ]
    for more, status in refused:
        run = certify(key, issuer, *more)
        assert (run.returncode, run.stdout) == (
            status,
            b"",
        ) and b"Traceback" not in run.stderr, more


def test_asks_for_the_issuers_passphrase(tmp_path: Path) -> None:
    issuer, key = ssh_key(tmp_path / "ca", passphrase=SECRET), ssh_key(tmp_path / "key")
    out = tmp_path / "cert"
    words = [
        "certify",
        f"{key}.pub",
        "--issuer",
        issuer,
        "--id",
        "i",
        "--for",
        "me",
        "--before",
        "+1h",
    ]
    terminal = Terminal(*words, "-o", out)
    terminal.shows(f"Passphrase of {issuer}: ")
    terminal.type(f"{SECRET}\r")
    assert terminal.end()[0] == 0
    assert 'Key ID: "i"' in listed(out.read_bytes())
    before = out.read_bytes()
    run = picky(*words, "-o", out)
    assert (run.returncode, out.read_bytes()) == (4, before)


def test_says_which_issuer_doesnt_sign(tmp_path: Path, agent: Path) -> None:
    key, other = ssh_key(tmp_path / "key"), ssh_key(tmp_path / "other")
    rows = [
        (f"{other}.pub", "the agent hasn't the key"),
        (tmp_path / "none", "there is no such file"),
    ]
    for issuer, why in rows:
        run = certify(key, issuer)
        assert (run.returncode, run.stdout) == (1, b"")
        assert run.stderr.decode() == f"picky: {key}.pub: {issuer}: {why}\n"


def request(key: Path, name: str) -> str:
    return f"{name} client me,you 0 1893456000 {Path(f'{key}.pub').read_text()}"


def test_keeps_a_ledger(tmp_path: Path, agent: Path) -> None:
    issuer, key = ssh_key(tmp_path / "ca"), ssh_key(tmp_path / "key", kind="ecdsa")
    tool("ssh-add", "-q", issuer)
    ledger = tmp_path / "ledger"
    assert picky("ledger", "--new", ledger).returncode == 0
    assert picky("ledger", "--new", ledger).returncode == 4
    requests = request(key, "r1") + request(key, "r2")
    run = picky("ledger", "--issuer", issuer, ledger, given=requests.encode())
    assert (run.returncode, run.stdout, run.stderr) == (0, b"issued r1 1\nissued r2 2\n", b"")
    more = written(tmp_path / "requests", request(key, "r1") + request(key, "r3"))
    run = picky("ledger", "--issuer", f"{issuer}.pub", ledger, more)
    assert (run.returncode, run.stdout, run.stderr) == (0, b"again r1 1\nissued r3 3\n", b"")
    for number, name in enumerate(("r1", "r2", "r3"), 1):
        said = listed(picky("ledger", "--get", name, ledger).stdout)
        assert f"Serial: {number}\n" in said and f'Key ID: "{name}"' in said
    before = ledger.read_bytes()
    bad = request(key, "r1").replace("you", "him") + "bad\n" + request(key, "r4")
    run = picky("ledger", "--issuer", issuer, ledger, given=bad.encode())
    assert (run.returncode, run.stdout) == (1, b"conflict r1 1\nbad\nissued r4 4\n")
    assert run.stderr.decode() == f"picky: {ledger}: 2 of 3 requests aren't issued\n"
    assert ledger.read_bytes().split(b"\n", 1)[1].startswith(before.split(b"\n", 1)[1])
    rows: List[Tuple[List[object], str]] = [
        (["--get", "r9", ledger], "it has no certificate of r9"),
        (["--issuer", issuer, tmp_path / "none"], "there is no such file"),
        (["--issuer", issuer, written(tmp_path / "x", "next 0\n")], "line 1 is refused"),
    ]
    for words, why in rows:
        run = picky("ledger", *words)
        assert run.returncode == 1 and why in run.stderr.decode(), words


def test_gives_no_serial_twice_to_runs_side_by_side(tmp_path: Path) -> None:
    issuer, key, ledger = ssh_key(tmp_path / "ca"), ssh_key(tmp_path / "key"), tmp_path / "ledger"
    picky("ledger", "--new", ledger)
    runs = []
    for number in range(6):
        file = written(tmp_path / f"r{number}", request(key, f"r{number}"))
        words = words_of([*PICKY, "ledger", "--issuer", issuer, ledger, file])
        runs.append(
            subprocess.Popen(
                words, env=variables(), stdout=subprocess.PIPE, stderr=subprocess.DEVNULL
            )
        )
    said = [run.communicate()[0].decode().split() for run in runs]
    assert sorted(int(it[2]) for it in said) == [1, 2, 3, 4, 5, 6]
    assert ledger.read_text().startswith("next 7\n")


def test_a_killed_run_leaves_the_old_ledger_or_the_new(tmp_path: Path) -> None:
    issuer, key = ssh_key(tmp_path / "ca"), ssh_key(tmp_path / "key")
    requests = written(tmp_path / "requests", request(key, "r1") + request(key, "r2"))
    ledgers: List[bytes] = []
    for left in count():
        ledger = tmp_path / f"{left}" / "ledger"
        ledger.parent.mkdir()
        ledger.write_bytes(b"next 1\n")
        words = words_of([sys.executable, "-c", KILLED, left, "--issuer", issuer, ledger, requests])
        run = subprocess.run(words, env=variables(), capture_output=True, timeout=SECONDS)
        ledgers.append(ledger.read_bytes())
        if run.returncode == 0:
            break
        assert (run.returncode, run.stdout) == (-signal.SIGKILL, b""), (left, run.stderr)
        again = picky("ledger", "--issuer", issuer, ledger, requests)
        word = b"issued" if ledgers[-1] == b"next 1\n" else b"again"
        assert again.stdout == word + b" r1 1\n" + word + b" r2 2\n", left
    old = ledgers.count(b"next 1\n")
    assert ledgers[:old] == [b"next 1\n"] * old and 0 < old < len(ledgers) - 1
    for new in ledgers[old:]:
        assert new.startswith(b"next 3\n") and new.count(b"\n") == 3


def test_authorizes_by_the_line_that_grants(tmp_path: Path) -> None:
    issuer, key, other = (ssh_key(tmp_path / name) for name in ("ca", "key", "other"))
    public = Path(f"{key}.pub").read_text()
    line = f'no-pty,command="ls" {public}'
    keys = written(
        tmp_path / "keys", f"# a comment\ncert-authority {Path(f'{issuer}.pub').read_text()}{line}"
    )
    certificate = certify(key, issuer).stdout.decode()
    expired = certify(key, issuer, "--after=@5", "--before", "@6").stdout.decode()
    rows = [
        (public, "me", line, None),
        (certificate, "me", keys.read_text().split("\n")[1] + "\n", None),
        (certificate, "him", "", "Principal"),
        (expired, "me", "", "Expired"),
        (Path(f"{other}.pub").read_text(), "me", "", "NoLine"),
    ]
    for offer, user, wanted, rule in rows:
        run = picky("authorize", user, "--keys", keys, *offer.split()[:2])
        assert (run.returncode, run.stdout.decode()) == (0, wanted), (user, rule)
        assert run.stderr.decode().endswith(f" is denied: {rule}\n" if rule else ""), rule
    for words in (["ssh-ed25519", "AAAA"], ["x", "y"]):
        run = picky("authorize", "me", "--keys", keys, *words)
        assert (run.returncode, run.stdout) == (1, b"") and b"Traceback" not in run.stderr
    run = picky("authorize", "me", "--keys", tmp_path / "none", *public.split()[:2])
    assert (run.returncode, run.stdout) == (1, b"")
