"""The command as its own process: run with pipes, or on a terminal of its own."""
from __future__ import annotations

import os
import pty
import select
import signal
import subprocess
import sys
import tempfile
import termios
import time
from itertools import chain
from pathlib import Path
from typing import Dict, List, Optional, Sequence, Tuple, Union

from cryptography.hazmat.primitives.serialization import load_pem_private_key
from tools import loaded, numbers

PACKAGE = Path(__file__).resolve().parent.parent
LIBRARY = PACKAGE.parent / "dist/x86_64-linux/libpicky.so.0"
SECONDS = 60
PICKY = [sys.executable, "-m", "picky"]


def variables() -> Dict[str, str]:
    """The variables that the command runs with."""
    return {
        **os.environ,
        "PYTHONPATH": str(PACKAGE),
        "PICKY_LIBRARY": os.environ.get("PICKY_LIBRARY", str(LIBRARY)),
        "PYTHONDONTWRITEBYTECODE": "1",
        "TERM": "xterm",
        "LC_ALL": "C.UTF-8",
    }


def words_of(words: Sequence[object]) -> List[Union[str, bytes]]:
    """The words of a command: bytes as they are, and the texts of all others."""
    return [it if isinstance(it, bytes) else str(it) for it in words]


def picky(
    *words: object, given: bytes = b"", cwd: Optional[Path] = None
) -> "subprocess.CompletedProcess[bytes]":
    """The command, run to its end without a terminal."""
    return subprocess.run(
        words_of([*PICKY, *words]),
        input=given,
        capture_output=True,
        env=variables(),
        cwd=cwd,
        timeout=SECONDS,
        start_new_session=True,
    )


def tool(*words: object, given: bytes = b"") -> bytes:
    """What another program writes to standard output. It has to end with status 0."""
    run = subprocess.run(
        words_of(words), input=given, capture_output=True, timeout=SECONDS, start_new_session=True
    )
    assert run.returncode == 0, (words, run.stderr)
    return run.stdout


def by_shell(script: str) -> Tuple[int, str]:
    """The status and standard error of a shell's script, in which picky_ is the command."""
    start = f'picky_() {{ {sys.executable} -m picky "$@"; }}\n'
    run = subprocess.run(["sh", "-c", start + script], capture_output=True, env=variables())
    return run.returncode, run.stderr.decode()


class Terminal:
    """The command on a terminal of its own."""

    def __init__(self, *words: object, cwd: Optional[Path] = None) -> None:
        self.shown = b""
        self.process, self.terminal = pty.fork()
        if self.process == 0:
            if cwd is not None:
                os.chdir(cwd)
            os.execve(sys.executable, words_of([*PICKY, *words]), variables())

    def shows(self, text: str) -> None:
        """Waits until the terminal shows a text behind what was waited for before."""
        end = time.monotonic() + SECONDS
        while text.encode() not in self.shown:
            if not self._read(end - time.monotonic()):
                raise AssertionError(f"{text!r} isn't shown, but {self.shown!r}")
        self.shown = self.shown.partition(text.encode())[2]

    def type(self, text: str) -> None:
        os.write(self.terminal, text.encode())

    def interrupt(self) -> None:
        """Ctrl-C, as the terminal sends it."""
        self.type("\x03")

    def echoes(self) -> bool:
        """Whether the terminal shows what is typed."""
        return bool(termios.tcgetattr(self.terminal)[3] & termios.ECHO)

    def end(self) -> Tuple[int, str]:
        """The exit status, and what the terminal showed since."""
        end = time.monotonic() + SECONDS
        while self._read(end - time.monotonic()):
            pass
        while True:
            process, status = os.waitpid(self.process, os.WNOHANG)
            if process:
                break
            if time.monotonic() > end:
                os.kill(self.process, signal.SIGKILL)
            time.sleep(0.01)
        os.close(self.terminal)
        assert os.WIFEXITED(status), status
        return os.WEXITSTATUS(status), self.shown.decode().replace("\r\n", "\n")

    def _read(self, seconds: float) -> bool:
        if seconds <= 0 or not select.select([self.terminal], [], [], seconds)[0]:
            return False
        try:
            got = os.read(self.terminal, 65536)
        except OSError:
            return False
        self.shown += got
        return bool(got)


def ssh_key(
    path: Path,
    *words: object,
    passphrase: str = "",
    comment: str = "a comment",
    kind: str = "ed25519",
) -> Path:
    """A key that ssh-keygen makes, with few rounds."""
    named = {"-t": kind, "-a": 1, "-N": passphrase, "-C": comment, "-f": path}
    tool("ssh-keygen", "-q", *chain.from_iterable(named.items()), *words)
    return path


def putty_key(
    path: Path, key: Path, passphrase: str = "", param: str = "passes=1,memory=64"
) -> Path:
    """The PPK that puttygen makes of a key that isn't encrypted."""
    new = written(path.with_suffix(".new"), passphrase)
    words = ["--ppk-param", param, "-O", "private", "-o", path, "--new-passphrase", new]
    tool("puttygen", key, *words)
    return path


def written(path: Path, content: Union[str, bytes]) -> Path:
    """A file with the content."""
    path.write_bytes(content.encode() if isinstance(content, str) else content)
    return path


def opened(path: Path, passphrase: str = "") -> bytes:
    """The PKCS #8 that cryptography makes of an OpenSSH or PEM private key: the same for the same secret."""
    text = path.read_bytes()
    password = passphrase.encode() if passphrase else None
    if text.startswith(b"-----BEGIN OPENSSH"):
        return numbers(loaded(text, password))
    return numbers(load_pem_private_key(text, password))


def opened_by_puttygen(path: Path, passphrase: str = "") -> bytes:
    """The same of a PPK that puttygen reads."""
    folder = Path(tempfile.mkdtemp(dir=path.parent))
    old, new = written(folder / "old", passphrase), written(folder / "new", "")
    words = ["puttygen", path, "-O", "private-openssh-new", "-o", folder / "key"]
    tool(*words, "--old-passphrase", old, "--new-passphrase", new)
    return opened(folder / "key")
