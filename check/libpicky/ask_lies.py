"""What check/fuzz --answers does: it builds check/libpicky/ask_fuzz.c over a library, and has it lie to conversions of real files."""
from __future__ import annotations

import base64
import os
import subprocess
import sys
import tempfile
from collections import Counter
from concurrent.futures import ThreadPoolExecutor
from pathlib import Path

from libpicky.ask_device import OK, OPENSSH, PPK2_FOR_PUTTY, PRIVATE, Conversion, Library, rounds, string, table_of, uint32
from libpicky.ask_keys import Key, Tools
from libpicky.ask_reference import BEGIN, MAGIC, is_sealed, options_of, read_envelope

TOP = Path(__file__).resolve().parents[2]
KINDS = ("ed25519", "p256", "p521", "rsa1024")
PASS, OTHER, FRESH = b"pass", b"another passphrase", bytes(range(64))
FLAGS = ("-std=c11", "-O1", "-g", "-fsanitize=address,undefined", "-fno-sanitize-recover=all")


def texts_of(tools: Tools, key: Key) -> list[bytes]:
    """The key in each form that a conversion asks about, and as it is."""
    sealed = [tools.by_ssh_keygen(key, cipher, 1, PASS) for cipher in ("aes128-cbc", "aes256-ctr")]
    files = [tools.by_puttygen(key, params, PASS) for params in ("version=2", "version=3,kdf=argon2i,memory=16,passes=1,parallelism=2")]
    return [key.text, *sealed, *files]


def fixed_len(text: bytes) -> int:
    """How many bytes in front of an OpenSSH private key's text its public key and parameters decide."""
    envelope = read_envelope(text)
    parts = MAGIC + string(envelope.cipher) + string(envelope.kdf) + string(envelope.options) + uint32(1) + string(envelope.public)
    front = base64.b64encode(parts[: len(parts) // 3 * 3])
    return len(BEGIN) + 1 + len(front) + (len(front) - 1) // 64


def written(library: Library, it: Conversion) -> bytes:
    """A conversion, and what is true of it: as check/libpicky/ask_fuzz.c reads it."""
    run = rounds(lambda table: library.convert_by(it, table))
    if run.outcome.error != OK:
        sys.exit(f"check/fuzz: {it.text[:30]!r} to {it.target}: {library.name(run.outcome.error)}")
    # The MAC of PuTTY's file covers what is asked for to open it, and nothing covers what is asked to seal.
    covered = 0
    if is_sealed(it.text) and not it.text.startswith(BEGIN):
        covered = len(run.entries) if not it.pass_out else 1 if b"File-2" in it.text else 2
    fixed = fixed_len(run.outcome.out) if it.target == OPENSSH else 0
    fields = it.text, it.pass_in, it.pass_out, it.fresh, run.outcome.out, uint32(it.target) + uint32(covered) + uint32(fixed), table_of(run.entries)
    return b"".join(map(string, fields))


def conversions(library: Library, folder: Path) -> bytes:
    tools, parts = Tools(folder / "keys"), []
    for kind in KINDS:
        for text in texts_of(tools, tools.key(kind, kind, f"{kind} of mine")):
            for target in PRIVATE:
                for pass_out in (b"", OTHER):
                    if is_sealed(text) or pass_out:
                        parts.append(written(library, Conversion(text, target, PASS if is_sealed(text) else b"", pass_out, FRESH)))
    # The key and the iv of what was opened once more: the tables of these may contradict themselves.
    text = tools.by_puttygen(tools.key("again", "ed25519", ""), "version=2", PASS)
    parts.append(written(library, Conversion(text, PPK2_FOR_PUTTY, PASS, PASS, FRESH)))
    text = tools.by_ssh_keygen(tools.key("once_more", "p256", ""), "aes256-ctr", 16, PASS)
    parts.append(written(library, Conversion(text, OPENSSH, PASS, PASS, options_of(read_envelope(text))[0])))
    return b"".join(parts)


def fuzz(path: Path, seconds: int, seed: int, jobs: int) -> int:
    """Prints how many calls there were and how they ended, and gives how many runs failed."""
    with tempfile.TemporaryDirectory() as name:
        folder = Path(name)
        library = Library(path, folder)
        (folder / "conversions").write_bytes(conversions(library, folder))
        program = folder / "ask_fuzz"
        words = ["cc", *FLAGS, f"-I{TOP}/include", f"-Wl,-rpath,{path.absolute().parent}", "-o", str(program), str(TOP / "check/libpicky/ask_fuzz.c")]
        subprocess.run([*words, str(path.absolute())], check=True)

        def ran(job: int) -> subprocess.CompletedProcess[bytes]:
            given = [str(program), str(folder / "conversions"), str(folder / f"place {job}"), str(seconds), str(1000 * seed + job)]
            return subprocess.run(given, capture_output=True, timeout=seconds + 120)

        with ThreadPoolExecutor(jobs) as pool:
            runs = list(pool.map(ran, range(jobs)))
        wrong, ends, trials, calls = 0, Counter[str](), 0, 0
        for job, run in enumerate(runs):
            if run.returncode or run.stderr:
                kept = Path(tempfile.mkdtemp(prefix="fuzz-answers-"))
                for it in (program, folder / "conversions"):
                    os.replace(it, kept / it.name) if it.exists() else None
                number = int.from_bytes((folder / f"place {job}").read_bytes(), sys.byteorder)
                print(f"FAILED {kept}/ask_fuzz {kept}/conversions place 0 {1000 * seed + job} {number}: status {run.returncode}\n"
                      f"{run.stderr.decode(errors='replace')[:3000]}", flush=True)
                wrong += 1
                continue
            numbers = list(map(int, run.stdout.split()))
            trials, calls = trials + numbers[0], calls + numbers[1]
            for error, count in zip(numbers[2::2], numbers[3::2]):
                ends[library.name(error)] += count
        said = ", ".join(f"{count} with {name}" for name, count in sorted(ends.items()))
        print(f"{path.name}: {trials} tables and devices, {calls} calls; {said}", flush=True)
        return wrong
